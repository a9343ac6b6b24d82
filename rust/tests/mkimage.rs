//! The built program `crates/mkimage/out/mkimage`, run by `tools/run mkimage` from the
//! root of the repository: its standard output is the second program's image or
//! its line "refused K at I", and it writes nothing to standard error. Six
//! inputs and their outputs stand here by their bytes.
//!
//! NX_LONG multiplies the number of inputs, NX_SEED moves the seed. Without the
//! program the tests fail, unless NX_WITHOUT_NATIVE=1 is set.

mod common;

use common::lists::{self, Record};
use common::{hex, long, seed, turn, without_native};
use second::builder::{mkimage, MOST_BYTES, MOST_RECORDS};
use second::dice::Dice;
use std::fs::{self, File};
use std::io::{ErrorKind, Seek, Write};
use std::path::{Path, PathBuf};
use std::process::{Child, Command, Stdio};
use std::thread;
use std::time::Duration;

/// The root of the repository, where the program is; `None` without it, where
/// that is said aloud.
fn root() -> Option<PathBuf> {
    let root = Path::new(env!("CARGO_MANIFEST_DIR")).join("..");
    let missing: Vec<&str> = ["tools/run", "crates/mkimage/out/mkimage"]
        .into_iter()
        .filter(|file| !root.join(file).exists())
        .collect();
    if missing.is_empty() {
        Some(root)
    } else if without_native() {
        println!("NX_WITHOUT_NATIVE=1: mkimage is not run ({missing:?} not there)");
        None
    } else {
        panic!(
            "{missing:?} not there under the root of the repository, so mkimage cannot be run: \
             build it first; NX_WITHOUT_NATIVE=1 goes without"
        );
    }
}

/// The program, started with that standard input.
fn start(root: &Path, stdin: Stdio) -> Child {
    Command::new("tools/run")
        .arg("mkimage")
        .current_dir(root)
        .stdin(stdin)
        .stdout(Stdio::piped())
        .stderr(Stdio::piped())
        .spawn()
        .expect("tools/run starts")
}

/// Its standard output, when it has ended.
fn end(child: Child) -> Vec<u8> {
    let output = child.wait_with_output().expect("it ends");
    let said = String::from_utf8_lossy(&output.stderr);
    assert!(said.is_empty(), "standard error, {}: {said}", output.status);
    output.stdout
}

/// Standard output of one run, with the input in pieces of that size, and a
/// pause after each where they are to arrive one by one.
fn run(root: &Path, input: &[u8], piece: usize, pause: bool) -> Vec<u8> {
    let mut child = start(root, Stdio::piped());
    let mut stdin = child.stdin.take().expect("piped");
    let input = input.to_vec();
    let feeder = thread::spawn(move || {
        for piece in input.chunks(piece.max(1)) {
            match stdin.write_all(piece).and_then(|()| stdin.flush()) {
                Ok(()) => {}
                // It reads one byte past the longest list at most, and may be gone
                // before the rest.
                Err(error) if error.kind() == ErrorKind::BrokenPipe => return,
                Err(error) => panic!("standard input: {error}"),
            }
            if pause {
                thread::sleep(Duration::from_millis(2));
            }
        }
    });
    let output = end(child);
    feeder.join().expect("fed");
    output
}

fn same(got: &[u8], expected: &[u8], input: &[u8], place: &str) {
    if got != expected {
        let line = |bytes: &[u8]| match bytes.len() {
            0..=40 => String::from_utf8_lossy(bytes).into_owned(),
            length => format!("{length} bytes"),
        };
        let at = got.iter().zip(expected).position(|(got, expected)| got != expected);
        panic!(
            "{place}: got {:?}, expected {:?}, first other byte {at:?}, input of {} bytes {}",
            line(got),
            line(expected),
            input.len(),
            hex(&input[..input.len().min(MOST_BYTES + 1)]),
        );
    }
}

/// The program against the second program.
fn check(root: &Path, input: &[u8], piece: usize, pause: bool, place: &str) {
    same(&run(root, input, piece, pause), &mkimage(input), input, place);
}

/// Both programs against these bytes.
fn by_bytes(input: &[u8], expected: &[u8]) {
    let _turn = turn();
    same(&mkimage(input), expected, input, "the second program");
    let Some(root) = root() else { return };
    same(&run(&root, input, 4_096, false), expected, input, "mkimage");
}

#[test]
fn no_bytes() {
    by_bytes(&[], &[0; 64]);
}

#[test]
fn one_byte() {
    for byte in [0, 7, 255] {
        by_bytes(&[byte], b"refused 10 at 0\n");
    }
}

/// 1,024 records, in eleven megabytes: large pages alone, tiny ones alone, small
/// ones alone, sections, all three sizes together, a megabyte full of small ones;
/// these are 700. Then tiny ones once more, and small ones at the very end of both
/// spaces. Each row is a run of so many: where it starts, how far on the next one
/// is, virtual and physical, then type, and access by turns.
fn full() -> Vec<u8> {
    type Run = (u32, (u32, i32), (u32, i32), u8, [u8; 2]);
    const RUNS: [Run; 10] = [
        (16, (0x00_0000, 0x1_0000), (0x100F_0000, -0x1_0000), 1, [2, 3]),
        (238, (0x20_0000, 0xC00), (0x1020_0000, 0x400), 3, [3, 2]),
        (128, (0x1F_F000, -0x2000), (0x1010_0000, 0x1000), 2, [2, 2]),
        (4, (0x90_0000, -0x10_0000), (0x1100_0000, 0x10_0000), 0, [3, 3]),
        (8, (0xA0_0000, 0x1_0000), (0x1030_0000, 0x1_0000), 1, [3, 3]),
        (20, (0xA8_0000, 0x1000), (0x1040_0000, 0x1000), 2, [2, 2]),
        (30, (0xAF_FC00, -0x400), (0x1050_0000, 0x400), 3, [3, 3]),
        (256, (0x30_0000, 0x1000), (0x106F_F000, -0x1000), 2, [3, 2]),
        (200, (0xC0_0000, 0x1400), (0x1070_0000, 0x800), 3, [2, 3]),
        (124, (0xFF_F000, -0x1000), (0xFFFF_F000, -0x1000), 2, [3, 3]),
    ];
    let nth = |(start, step): (u32, i32), n: u32| start.wrapping_add_signed(step * n as i32);
    let run = |(count, from, to, kind, access): Run| {
        (0..count).map(move |n| Record {
            virtual_start: nth(from, n),
            physical: nth(to, n),
            kind,
            access: access[n as usize % 2],
        })
    };
    lists::bytes(&RUNS.into_iter().flat_map(run).collect::<Vec<Record>>())
}

/// The image of the first 700 of these records, word by word.
fn image_of_700() -> Vec<u32> {
    let mut words = vec![0; 0x1000];
    // First level: tables at 400, 800, 1000, 2000 and 3000, and four sections.
    words[0x0] = 0x2000_0401;
    words[0x1] = 0x2000_0801;
    words[0x2] = 0x2000_1003;
    words[0x3] = 0x2000_2001;
    words[0x6] = 0x1130_0C02;
    words[0x7] = 0x1120_0C02;
    words[0x8] = 0x1110_0C02;
    words[0x9] = 0x1100_0C02;
    words[0xA] = 0x2000_3003;
    for n in 0..256 {
        // Large pages, 16 equal words each, with access 2 and 3 by turns.
        let page = n / 16;
        words[0x100 + n] = 0x100F_0021 - 0x1_0000 * page as u32 + 0x10 * (page as u32 % 2);
    }
    for n in 0..128 {
        words[0x2FF - 2 * n] = 0x1010_0022 + 0x1000 * n as u32;
    }
    for n in 0..238 {
        words[0x400 + 3 * n] = 0x1020_0033 + 0x400 * n as u32 - 0x10 * (n as u32 % 2);
    }
    for n in 0..256 {
        words[0x800 + n] = 0x106F_F032 - 0x1000 * n as u32 - 0x10 * (n as u32 % 2);
    }
    // A fine table: eight large pages, 64 equal words each, and twenty small ones,
    // four each.
    for n in 0..512 {
        words[0xC00 + n] = 0x1030_0031 + 0x1_0000 * (n as u32 / 64);
    }
    for n in 0..80 {
        words[0xE00 + n] = 0x1040_0022 + 0x1000 * (n as u32 / 4);
    }
    for n in 0..30 {
        words[0xFFF - n] = 0x1050_0033 + 0x400 * n as u32;
    }
    words
}

/// The image of all 1,024: two tables more, at 4000 and 5000.
fn image_of_1024() -> Vec<u32> {
    let mut words = image_of_700();
    words.resize(0x1500, 0);
    words[0xC] = 0x2000_4003;
    words[0xF] = 0x2000_5001;
    for n in 0..200 {
        words[0x1000 + 5 * n] = 0x1070_0023 + 0x800 * n as u32 + 0x10 * (n as u32 % 2);
    }
    for n in 0..124 {
        words[0x14FF - n] = 0xFFFF_F032 - 0x1000 * n as u32;
    }
    words
}

fn in_bytes(words: Vec<u32>) -> Vec<u8> {
    words.into_iter().flat_map(u32::to_le_bytes).collect()
}

#[test]
fn list_of_700() {
    by_bytes(&full()[..8_400], &in_bytes(image_of_700()));
}

#[test]
fn full_list() {
    let input = full();
    assert_eq!(input.len(), 12_288);
    by_bytes(&input, &in_bytes(image_of_1024()));
}

#[test]
fn one_byte_over() {
    by_bytes(&[&full()[..], &[0]].concat(), b"refused 10 at 1024\n");
}

#[test]
fn one_record_over() {
    // A good section, but the 1,025th.
    let section = [0x00, 0x00, 0xB0, 0x00, 0x00, 0x00, 0xF0, 0x11, 0x00, 0x02, 0x00, 0x00];
    by_bytes(&[&full()[..], &section].concat(), b"refused 10 at 1024\n");
}

fn tiny(page: u32) -> Record {
    Record { virtual_start: page << 10, physical: 0x1000_0000 + (page << 10), kind: 3, access: 2 }
}

#[test]
fn list_a() {
    let _turn = turn();
    let Some(root) = root() else { return };
    check(&root, &lists::bytes(&lists::list_a()), 4_096, false, "list A");
}

#[test]
fn ends_and_short_reads() {
    let _turn = turn();
    let Some(root) = root() else { return };
    // The longest list, with the longest image that has room: fifteen fine tables.
    let full: Vec<Record> = (0..MOST_RECORDS as u32).map(|n| tiny(n * 15)).collect();
    let full = lists::bytes(&full);
    check(&root, &full, 4_096, false, "a full list");
    check(&root, &full[..MOST_BYTES - 1], 4_096, false, "a full list but for a byte");
    check(&root, &full[..MOST_BYTES - 12], 4_096, false, "a full list but for a record");
    for more in [1, 2, 11, 12, 13, 24, 5_000, 200_000] {
        let longer = [&full[..], &vec![0; more]].concat();
        check(&root, &longer, 4_096, false, &format!("a full list and {more} bytes"));
    }
    // One byte past the limit is the last that counts: the record may be good.
    let past = [&full[..], &tiny(0x3FFF).bytes()].concat();
    check(&root, &past, 4_096, false, "one record past the limit");
    // An earlier refusal is named, not the record past the limit.
    let mut twice = past.clone();
    twice.copy_within(0..12, MOST_BYTES - 12);
    check(&root, &twice, 4_096, false, "a record twice before the one past the limit");
    // Fifteen fine tables have room, sixteen have not.
    for count in [15, 16] {
        let list: Vec<Record> = (0..count).map(|n| tiny(n << 10)).collect();
        check(&root, &lists::bytes(&list), 4_096, false, &format!("{count} fine tables"));
    }
    for length in [11, 12, 13, 35, 36, 37] {
        let cut = &lists::bytes(&lists::list_a())[..length.min(36)];
        check(&root, cut, 4_096, false, &format!("list A cut at {length}"));
    }
    // Over short reads.
    check(&root, &lists::bytes(&lists::list_a()), 1, true, "list A by bytes");
    check(&root, &full, 500, true, "a full list by five hundreds");
    check(&root, &past, 1_000, true, "one record past the limit by thousands");
}

/// From a file it can be told afterwards how much was read: all, or 12,289 bytes.
#[test]
fn reads_no_further() {
    let _turn = turn();
    let Some(root) = root() else { return };
    let path = Path::new(env!("CARGO_TARGET_TMPDIR")).join("mkimage.input");
    let longest = [&full()[..], &[0; 8_192]].concat();
    for (length, read) in [
        (0, 0),
        (8_400, 8_400),
        (12_288, 12_288),
        (12_289, 12_289),
        (12_290, 12_289),
        (20_480, 12_289),
    ] {
        let input = &longest[..length];
        fs::write(&path, input).expect("a file to read");
        let mut file = File::open(&path).expect("a file to read");
        let child = start(&root, file.try_clone().expect("the same file").into());
        same(&end(child), &mkimage(input), input, "from a file");
        assert_eq!(file.stream_position().expect("how far"), read, "read of {length} bytes");
    }
}

#[test]
fn many_inputs() {
    let _turn = turn();
    let Some(root) = root() else { return };
    let mut answers = std::collections::BTreeMap::new();
    let rounds = 300 * long();
    for round in 0..rounds {
        let mut dice = Dice::new(seed(0x1AA6_E000_0000 + u64::from(round)));
        let most = match dice.below(12) {
            0 => 60,
            1 => 20,
            _ => dice.below(12),
        };
        let list = match dice.below(16) {
            0 => lists::full(&mut dice),
            1 => lists::wide(&mut dice),
            2 | 3 => lists::mixed(&mut dice),
            _ => lists::good(&mut dice, most),
        };
        let mut input = lists::bytes(&list);
        for _ in 0..dice.pick(&[0, 0, 0, 1, 1, 2]) {
            lists::spoil(&mut dice, &mut input);
        }
        check(&root, &input, 4_096, false, &format!("input {round}"));
        let expected = mkimage(&input);
        let kind = match expected.strip_prefix(b"refused ") {
            Some(rest) => String::from_utf8_lossy(&rest[..2]).into_owned(),
            None if input.len() == MOST_BYTES => "image of a full list".into(),
            None if lists::mixed_megabytes(&lists::records(&input)).0 > 0 => {
                "image with large, small and tiny pages in a megabyte".into()
            }
            None => "image".into(),
        };
        *answers.entry(kind).or_insert(0) += 1;
    }
    println!("{rounds} inputs: {answers:?}");
    let mixed = "image with large, small and tiny pages in a megabyte";
    for kind in ["image", "image of a full list", mixed, "10", "11", "12"] {
        assert!(answers.contains_key(kind), "no input for {kind}");
    }
}
