//! The builder and the unit together agree with the list itself, at every page
//! of the virtual space. This is the second program's own check: nothing here
//! looks at a table.

mod common;

use common::lists::{self, Record};
use common::long;
use second::bill::{Price, Prices};
use second::builder::build;
use second::dice::Dice;
use second::memory::Memories;
use second::unit::{Books, Lent, Unit};
use second::walk::Access;

/// What the list says of a request, by the record that holds the address.
fn by_the_list(holder: Option<&Record>, address: u32, access: Access) -> (u32, i64) {
    match holder {
        None => (21, 0),
        Some(record) if record.access == 3 || access == Access::Read => {
            (100, i64::from(record.physical + (address - record.virtual_start)))
        }
        Some(_) => (23, 0),
    }
}

#[test]
fn every_page_of_many_lists() {
    let mut dice = Dice::new(0x11_57);
    let (mut mixed, mut full) = (0, 0);
    for round in 0..24 * long() {
        let list = match round % 8 {
            0 => lists::full(&mut dice),
            2 | 5 => lists::mixed(&mut dice),
            _ => {
                let most = dice.pick(&[0, 1, 3, 12, 60, 256]);
                lists::good(&mut dice, most)
            }
        };
        let (of_all, without_gap) = lists::mixed_megabytes(&list);
        mixed += of_all;
        full += without_gap;
        let mut memory = vec![0; 131_072];
        dice.fill(&mut memory);
        let base = dice.word() & 0x7FFF_F000;
        let length = build(&lists::bytes(&list), base, &mut memory).expect("a good list");
        let lent = Lent {
            memories: Memories::new(&memory[..length], base, &[], 0),
            prices: Prices::new(Price::Flat(1.0), Price::Flat(1.0)),
        };
        let mut books = Books::default();
        let mut unit = Unit::fresh();
        unit.write(&lent, &mut books, 0x1C, (base >> 16) as u16);
        unit.write(&lent, &mut books, 0x20, base as u16);
        unit.write(&lent, &mut books, 0x08, 7);
        // In rising order, then anywhere: with slots that still hold other pages.
        let order = (0..1_u32 << 14).map(Some).chain((0..1 << 14).map(|_| None));
        for page in order {
            let page = page.unwrap_or_else(|| dice.below(1 << 14));
            let address = page << 10 | dice.below(1 << 10);
            let access = if dice.once_in(2) { Access::Read } else { Access::Write };
            let holder = list.iter().find(|record| record.holds(address));
            let expected = by_the_list(holder, address, access);
            let got = unit.request(&lent, &mut books, address, access).answer;
            assert_eq!((got.number(), got.value()), expected, "list {round}, {address:06x}");
            if expected.0 != 100 {
                assert_eq!(unit.drop_fault().number(), 0);
            }
            let report = unit.shift_report(&lent.memories, address).answer;
            let expected = match by_the_list(holder, address, Access::Read) {
                (100, physical) => (102, physical - i64::from(address)),
                fault => fault,
            };
            assert_eq!((report.number(), report.value()), expected);
        }
    }
    println!("{mixed} megabytes of large, small and tiny pages, {full} of them full");
    assert!(mixed > 20 && full > 5);
}
