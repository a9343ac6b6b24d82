//! The bench sheet of paper 01 against the second program, and the errors that
//! have been paid for. `differential.rs` plays the same rows on the other one.

mod common;

use common::rows;
use second::boundary::Second;

#[test]
fn bench_sheet() {
    rows::bench_sheet(&Second);
}

#[test]
fn empty_list_over_all_pages() {
    rows::empty_list(&Second);
}

#[test]
fn flushing_by_lock_base() {
    rows::flush_goes_by_p(&Second);
}

#[test]
fn a_large_pages_word_once() {
    rows::large_pages_have_sixteen_words(&Second);
}

#[test]
fn pages_of_a_fine_table() {
    rows::fine_tables_repeat_words(&Second);
}

#[test]
fn section_access_from_bits_5_4() {
    rows::section_access_is_in_11_10(&Second);
}

#[test]
fn a_retry_metered_as_fresh() {
    rows::retries_are_not_fresh(&Second);
}

#[test]
fn a_cached_translation_fault() {
    rows::faults_are_not_cached(&Second);
}

#[test]
fn a_fill_below_the_lock_base() {
    rows::fills_stay_above_the_lock_base(&Second);
}

#[test]
fn distances_below_and_above_zero() {
    rows::distances(&Second);
}

#[test]
fn where_the_word_came_from() {
    rows::words_come_from(&Second);
}
