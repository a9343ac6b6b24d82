//! `include/nextizual.h` and the proved archive, from C: `examples/list_a.c` is
//! compiled by the compiler that cargo links with, and run. What it prints was
//! worked out by hand from the bench sheet of paper 01.
//!
//! Without the compiler the test fails; without the archive too, unless
//! NX_WITHOUT_NATIVE=1 is set.

mod common;

use common::without_native;
use second::builder::{MOST_BYTES, MOST_RECORDS};
use second::recording::{BLOCK, CALL, FULL, MOST_BLOCKS};
use std::path::Path;
use std::process::Command;

const EXPECTED: &str = "\
image of 8192 bytes
checked: 0
page 010000 to 10020000, type 1, access 3
page 300000 to 11200000, type 0, access 2
page 500400 to 10000C00, type 3, access 3
compared: 0, the part is of image 1 from offset 1004, 1 word differs
call 0: 0 0
call 1: 0 0
call 2: 100 10022345, from on-chip offset 448
call 3: 1 0
call 4: 23 0, from on-chip offset C
call 5: 0 0
call 6: 100 112ABCDE
call 7: 101 2000
call 8: 102 FB00800, from on-chip offset 1004
fresh 3, retries 0, words 3
recording of 512 bytes, check A462E2A9, read back as it was
damaged: refused 16 at block 0
word at 20000448: memory 1, offset 448, 10020031
";

#[test]
fn list_a_from_c() {
    let Some(archive) = option_env!("NX_ARCHIVE") else {
        assert!(without_native(), "libcapi.a was not there when this was built: see README.md");
        println!("NX_WITHOUT_NATIVE=1: examples/list_a.c is not compiled");
        return;
    };
    let root = Path::new(env!("CARGO_MANIFEST_DIR")).join("..");
    let program = Path::new(env!("CARGO_TARGET_TMPDIR")).join("list_a");
    let compiled = Command::new(env!("NX_CC"))
        .args(["-std=c99", "-Wall", "-Wextra", "-Wpedantic", "-Werror", "-I"])
        .arg(root.join("include"))
        .arg(root.join("examples/list_a.c"))
        .arg(archive)
        .arg("-o")
        .arg(&program)
        .output()
        .expect("the compiler starts");
    assert!(compiled.status.success(), "{}", String::from_utf8_lossy(&compiled.stderr));
    let run = Command::new(&program).output().expect("the program starts");
    assert_eq!(String::from_utf8_lossy(&run.stdout), EXPECTED);
    assert!(run.status.success() && run.stderr.is_empty());
}

/// A figure of the header.
fn figure(name: &str) -> usize {
    let define = format!("#define {name} ");
    let header = include_str!("../../include/nextizual.h");
    let value = header.lines().find_map(|line| line.strip_prefix(&define));
    value.expect(name).parse().expect(name)
}

/// The figures of a list, which the differential tests try on the archive, are the
/// second program's.
#[test]
fn limit_of_records() {
    assert_eq!(figure("NX_MOST_RECORDS"), MOST_RECORDS);
    assert_eq!(figure("NX_MOST_RECORDS") * figure("NX_RECORD_BYTES"), MOST_BYTES);
    assert_eq!(figure("NX_MOST_PAGES"), 16 * 1_024);
}

/// The figures of a recording, likewise.
#[test]
fn figures_of_a_recording() {
    assert_eq!(figure("NX_BLOCK_BYTES"), BLOCK);
    assert_eq!(figure("NX_BLOCK_CALLS"), FULL);
    assert_eq!(figure("NX_MOST_BLOCKS"), MOST_BLOCKS);
    assert_eq!(figure("NX_CALL_BYTES"), CALL);
}
