//! The built program `crates/nx/out/nx`, run by `tools/run nx` from the root of the
//! repository: a list as text becomes the records that the second program's own
//! parser reads, an error names its line, and nothing is lost where a file
//! cannot be read or written. The script `nx` gives the exit status.
//!
//! NX_LONG multiplies the number of texts, NX_SEED moves the seed. Without the
//! program the tests fail, unless NX_WITHOUT_NATIVE=1 is set.

mod common;

use common::lists::{self, Record};
use common::nx::{folder, root, run, Ran};
use common::{long, seed, turn};
use second::builder::{build, MOST_RECORDS};
use second::dice::Dice;
use second::listing::{self, Wrong};
use std::fs;
use std::path::Path;
use std::process::Command;

const BASE: u32 = 0x2000_0000;
const ROOM: usize = 65_536;

/// What the program says of each reason.
fn words(wrong: Wrong) -> &'static str {
    match wrong {
        Wrong::UnknownKind => "unknown kind (section, large, small or tiny)",
        Wrong::VirtualNotHex => "virtual address is not a hex number",
        Wrong::VirtualTooLarge => "virtual address is too large",
        Wrong::VirtualUneven => "virtual address is no multiple of the page size",
        Wrong::PhysicalNotHex => "physical address is not a hex number",
        Wrong::PhysicalTooLarge => "physical address is too large",
        Wrong::PhysicalUneven => "physical address is no multiple of the page size",
        Wrong::UnknownAccess => "unknown access (r or rw)",
        Wrong::WordMissing => "a word is missing (kind, virtual, physical, access)",
        Wrong::WordTooMany => "a word too many",
        Wrong::LineTooLong => "the line is longer than 200 bytes",
        Wrong::TextTooLong => "the text is longer than 262144 bytes",
        Wrong::TooManyMappings => "more than 1024 mappings",
    }
}

/// The error of a text that is standard input, as a line.
fn line(number: u32, said: &str) -> String {
    match number {
        0 => format!("standard input: {said}\n"),
        _ => format!("standard input:{number}: {said}\n"),
    }
}

/// What `nx records -` is to give for a text.
fn expected(text: &[u8]) -> Ran {
    let fails = |error| Ran { digit: "1".into(), out: vec![], error };
    match listing::read(text) {
        Ok(list) => {
            let records: Vec<u8> = list.iter().flat_map(|(record, _)| *record).collect();
            Ran { digit: "0".into(), out: records, error: String::new() }
        }
        Err((number, wrong)) => fails(line(number, words(wrong))),
    }
}

fn check(root: &Path, text: &[u8], place: &str) {
    let got = run(root, &["records", "-"], text);
    assert_eq!(got, expected(text), "{place}: {:?}", String::from_utf8_lossy(text));
}

/// Each reason, worked out by hand.
#[test]
fn every_reason() {
    let _turn = turn();
    let Some(root) = root() else { return };
    let good = "section 000000 11000000 r";
    let long = format!("{good} # {}", "x".repeat(172));
    let longer = format!("{long}x");
    assert_eq!((long.len(), longer.len()), (200, 201));
    let many = |count: u32| -> String {
        (0..count).map(|n| format!("tiny {:x} 0 r\n", n << 10)).collect()
    };
    let rows: &[(&str, u32, Wrong)] = &[
        ("sections 0 0 r", 1, Wrong::UnknownKind),
        ("Section 0 0 r", 1, Wrong::UnknownKind),
        ("\n\n0 0 r", 3, Wrong::UnknownKind),
        ("tiny 4g0 0 r", 1, Wrong::VirtualNotHex),
        ("tiny 0x 0 r", 1, Wrong::VirtualNotHex),
        ("tiny -400 0 r", 1, Wrong::VirtualNotHex),
        ("tiny 1000000 0 r", 1, Wrong::VirtualTooLarge),
        ("tiny 123456789 0 r", 1, Wrong::VirtualTooLarge),
        ("tiny 200 0 r", 1, Wrong::VirtualUneven),
        ("small 400 0 r", 1, Wrong::VirtualUneven),
        ("large 1000 0 r", 1, Wrong::VirtualUneven),
        ("section 10000 0 r", 1, Wrong::VirtualUneven),
        ("tiny 0 0h r", 1, Wrong::PhysicalNotHex),
        ("tiny 0 100000000 r", 1, Wrong::PhysicalTooLarge),
        ("tiny 0 3ff r", 1, Wrong::PhysicalUneven),
        ("section 0 fff00400 r", 1, Wrong::PhysicalUneven),
        ("tiny 0 0 w", 1, Wrong::UnknownAccess),
        ("tiny 0 0 RW", 1, Wrong::UnknownAccess),
        ("tiny", 1, Wrong::WordMissing),
        ("tiny 0", 1, Wrong::WordMissing),
        ("tiny 0 0", 1, Wrong::WordMissing),
        ("tiny 0 0 # r", 1, Wrong::WordMissing),
        ("tiny 0 0 r r", 1, Wrong::WordTooMany),
        (&longer, 1, Wrong::LineTooLong),
    ];
    for (text, number, wrong) in rows {
        assert_eq!(listing::read(text.as_bytes()), Err((*number, *wrong)), "{text}");
        check(&root, text.as_bytes(), "a bad line");
        let second = format!("{good} # code\r\n\t \n{text}\nnonsense");
        assert_eq!(listing::read(second.as_bytes()), Err((number + 2, *wrong)), "{second}");
        check(&root, second.as_bytes(), "a bad line behind good ones");
    }
    let record = |text: &str| listing::read(text.as_bytes()).expect(text);
    for text in [
        good,
        "section 0 0x11000000 r\n",
        "\t section\t000000  0X11000000 r\r\n",
        "# a list\n\nsection 0000000000 00011000000 r# code\n",
        &long,
        &format!("{long}\r\n"),
    ] {
        assert_eq!(record(text)[0].0, [0, 0, 0, 0, 0, 0, 0, 0x11, 0, 2, 0, 0], "{text}");
        check(&root, text.as_bytes(), "a good line");
    }
    check(&root, b"", "nothing");
    for more in ["", "\n# nothing more\n"] {
        let text = many(1_024) + more;
        assert_eq!(record(&text).len(), 1_024);
        check(&root, text.as_bytes(), "1,024 mappings");
    }
    // What is wrong with the 1,025th comes before its being one too many.
    for (more, wrong) in
        [("tiny 100000 0 r", Wrong::TooManyMappings), ("tiny 100000 0 w", Wrong::UnknownAccess)]
    {
        let text = many(1_024) + more;
        assert_eq!(listing::read(text.as_bytes()), Err((1_025, wrong)));
        check(&root, text.as_bytes(), "1,025 mappings");
    }
    let blank = vec![b'\n'; 262_144];
    check(&root, &blank, "262,144 bytes");
    let more = vec![b'\n'; 262_145];
    assert_eq!(listing::read(&more), Err((0, Wrong::TextTooLong)));
    check(&root, &more, "262,145 bytes");
}

/// A list as text, each line written in one of many ways.
fn written(dice: &mut Dice, list: &[Record]) -> Vec<u8> {
    let mut text = String::new();
    for record in list {
        for _ in 0..dice.pick(&[0, 0, 0, 1, 2]) {
            text += dice.pick(&["\n", "  \n", "# section 0 0 r\n", "\t#\r\n", "\r\n"]);
        }
        let kind = ["section", "large", "small", "tiny"][record.kind as usize];
        let access = ["r", "rw"][record.access as usize - 2];
        let mut number = |number: u32| match dice.below(5) {
            0 => format!("{number:x}"),
            1 => format!("0x{number:06X}"),
            2 => format!("0X{number:x}"),
            3 => format!("{number:011x}"),
            _ => format!("{number:08X}"),
        };
        let numbers = [number(record.virtual_start), number(record.physical)];
        let gap = dice.pick(&[" ", "\t", "  ", " \t "]);
        text += dice.pick(&["", "", " ", "\t"]);
        text += &[kind, &numbers[0], &numbers[1], access].join(gap);
        text += dice.pick(&["\n", "\n", "\r\n", " \n", " # for keys & \"more\"\n", "#\r\n"]);
    }
    if dice.once_in(4) {
        text.truncate(text.trim_end().len());
    }
    text.into_bytes()
}

/// One thing changed somewhere: a byte, a word, a line.
fn changed(dice: &mut Dice, text: &mut Vec<u8>) {
    let at = dice.below(text.len() as u32 + 1) as usize;
    let other = dice.pick(b"0123456789abcdefxXrw# \t\n\r.sgh-\0\xFF");
    match dice.below(6) {
        0 => text.insert(at, other),
        1 if at < text.len() => drop(text.remove(at)),
        2 if at < text.len() => text[at] = other,
        3 => drop(text.splice(at..at, *b" 0 ")),
        4 => text.truncate(at),
        _ => {
            let end =
                text[at..].iter().position(|&byte| byte == b' ').map_or(text.len(), |n| at + n);
            text.drain(at..end);
        }
    }
}

#[test]
fn many_texts() {
    let _turn = turn();
    let Some(root) = root() else { return };
    let (mut accepted, mut refused) = (0, 0);
    for round in 0..1_000 * long() {
        let mut dice = Dice::new(seed(0x1157_0000_0000 + u64::from(round)));
        let most = dice.pick(&[1, 3, 10, 40]);
        let list = lists::good(&mut dice, most);
        let mut text = written(&mut dice, &list);
        for _ in 0..dice.pick(&[0, 0, 1, 1, 2, 5]) {
            changed(&mut dice, &mut text);
        }
        check(&root, &text, &format!("text {round}"));
        match listing::read(&text) {
            Ok(_) => accepted += 1,
            Err(_) => refused += 1,
        }
    }
    println!("{accepted} texts accepted, {refused} refused");
    assert!(accepted > 100 && refused > 100);
}

/// The builder's refusals come back as lines, and a printed list reads as itself.
#[test]
fn judged_and_printed() {
    let _turn = turn();
    let Some(root) = root() else { return };
    let image = folder("judged").join("image").display().to_string();
    let build = |text: &str| run(&root, &["build", "-", &image], text.as_bytes());
    let overlap = build("# keys\nsection 100000 0 r\n\nlarge 200000 0 rw\ntiny 1ffc00 0 r\n");
    assert_eq!(
        (overlap.digit.as_str(), overlap.error.as_str()),
        ("1", "standard input:5: overlaps line 2\n")
    );
    let fine: String = (0..16).map(|n| format!("tiny {n:x}00000 0 r\n")).collect();
    assert_eq!(build(&fine).error, "standard input: the image is longer than 65536 bytes\n");
    assert!(!Path::new(&image).exists());
    for round in 0..20 * long() {
        let mut dice = Dice::new(seed(0x9217_0000_0000 + u64::from(round)));
        let list = match round % 10 {
            0 => lists::full(&mut dice),
            _ => lists::good(&mut dice, 40),
        };
        let records = lists::bytes(&list);
        let printed = run(&root, &["text", "-"], &records);
        assert_eq!((printed.digit.as_str(), printed.error.as_str()), ("0", ""));
        let back = listing::read(&printed.out).expect("a list");
        assert_eq!(back.iter().flat_map(|(record, _)| *record).collect::<Vec<u8>>(), records);
    }
    // A bad record is named before what is short or one too many.
    let full = lists::bytes(&lists::full(&mut Dice::new(seed(0x7E87_0000_0000))));
    let over = [&full[..], &full].concat();
    for (records, said) in [
        (&[0; 11][..], "standard input: refused 10 at 0: the record is short\n"),
        (&[0; 12], "standard input: refused 10 at 0: the record is bad\n"),
        (&[0; 12_289], "standard input: refused 10 at 0: the record is bad\n"),
        (&over[..12_287], "standard input: refused 10 at 1023: the record is short\n"),
        (&over[..12_289], "standard input: refused 10 at 1024: more than 1024 records\n"),
        (&over, "standard input: refused 10 at 1024: more than 1024 records\n"),
    ] {
        let refused = run(&root, &["text", "-"], records);
        assert_eq!((refused.digit.as_str(), refused.error.as_str()), ("1", said));
        assert!(refused.out.is_empty());
    }
}

/// `nx build` writes what the second program builds, or leaves what was there.
#[test]
fn images_and_files() {
    let _turn = turn();
    let Some(root) = root() else { return };
    let folder = folder("images");
    let path = |name: &str| folder.join(name).display().to_string();
    let list = fs::read(root.join("examples/box.list")).expect("the example");
    let records: Vec<u8> =
        listing::read(&list).expect("a list").iter().flat_map(|(record, _)| *record).collect();
    for (base, word) in [(BASE, None), (BASE, Some("20000000")), (0x1234_5000, Some("0x12345000"))]
    {
        let mut memory = vec![0; ROOM];
        let length = build(&records, base, &mut memory).expect("it is accepted");
        let mut words = vec!["build", "examples/box.list"];
        let image = path("image");
        words.push(&image);
        words.extend(word);
        let ran = run(&root, &words, b"");
        assert_eq!((ran.digit.as_str(), ran.error.as_str()), ("0", ""));
        assert_eq!(fs::read(&image).expect("an image"), memory[..length]);
    }
    // A failed build leaves what was there, and no other file.
    let before = fs::read(path("image")).expect("an image");
    let bad: [&[&str]; 7] = [
        &["build", "no such list", &path("image")],
        &["build", ".", &path("image")],
        &["build", "README.md", &path("image")],
        &["build", "examples/box.list/x", &path("image")],
        &["build", "examples/box.list", &path("image"), "20000800"],
        &["build", "examples/box.list", &path("image"), "2000000g"],
        &["build", "examples/box.list", &path("image"), "FFFFF000"],
    ];
    for words in bad {
        let ran = run(&root, words, b"");
        assert!(ran.digit == "1" || ran.digit == "2", "{words:?}: {ran:?}");
        assert!(
            ran.out.is_empty() && ran.error.ends_with('\n') && ran.error.len() > 5,
            "{words:?}: {ran:?}"
        );
        assert_eq!(fs::read(path("image")).expect("an image"), before, "{words:?}");
    }
    for target in ["no folder/image", "."] {
        let ran = run(&root, &["build", "examples/box.list", &path(target)], b"");
        assert_eq!(ran.digit, "1");
        assert!(!ran.error.is_empty());
    }
    let names: Vec<_> = fs::read_dir(&folder)
        .expect("a folder")
        .map(|file| file.expect("a file").file_name())
        .collect();
    assert_eq!(names, ["image"]);
    // An empty list is a list.
    let empty = run(&root, &["build", "-", &path("empty")], b"");
    assert_eq!(
        (empty.digit.as_str(), fs::read(path("empty")).expect("an image")),
        ("0", vec![0; 64])
    );
    // What cannot be written is told.
    for command in ["show", "map", "records"] {
        let words = [
            "-c",
            "tools/run nx \"$1\" examples/box.list 3>&1 >/dev/full 2>/dev/null",
            "sh",
            command,
        ];
        let ran = Command::new("sh").args(words).current_dir(&root).output().expect("sh starts");
        assert_eq!(String::from_utf8_lossy(&ran.stdout), "1", "{command}");
    }
}

/// Lists of 700 mappings and of as many as there may be: `nx records` gives their
/// records, and `nx build` the image that the second program builds.
#[test]
fn long_lists() {
    let _turn = turn();
    let Some(root) = root() else { return };
    let image = folder("long").join("image").display().to_string();
    for round in 0..4 * long() {
        let mut dice = Dice::new(seed(0x0700_0000_0000 + u64::from(round)));
        for count in [700, MOST_RECORDS - 1, MOST_RECORDS] {
            // In twelve megabytes: their tables have room, fine ones too.
            let list = lists::exactly(&mut dice, count, &lists::ALL_KINDS, 12);
            let records = lists::bytes(&list);
            let text = written(&mut dice, &list);
            let ran = run(&root, &["records", "-"], &text);
            assert_eq!((ran.digit.as_str(), ran.error.as_str()), ("0", ""));
            assert!(ran.out == records, "{count} records, round {round}");
            let ran = run(&root, &["build", "-", &image], &text);
            assert_eq!((ran.digit.as_str(), ran.error.as_str()), ("0", ""));
            let mut memory = vec![0; ROOM];
            let length = build(&records, BASE, &mut memory).expect("it is accepted");
            let got = fs::read(&image).expect("an image");
            assert!(got == memory[..length], "image of {count} records, round {round}");
        }
    }
}

/// The script's exit status is the program's digit.
#[test]
fn exit_status() {
    let _turn = turn();
    let Some(root) = root() else { return };
    for (words, status) in [
        (&["help"][..], 0),
        (&["show", "examples/box.list"], 0),
        (&["map", "examples/box.list"], 0),
        (&["try", "examples/box.list", "examples/box.session"], 0),
        (&["show", "no such list"], 1),
        (&["show", "README.md"], 1),
        (&["try", "examples/box.list", "README.md"], 1),
        (&[], 2),
        (&["shows"], 2),
        (&["show"], 2),
        (&["show", "a", "b"], 2),
    ] {
        let ran = Command::new("./nx").args(words).current_dir(&root).output().expect("nx starts");
        assert_eq!(
            ran.status.code(),
            Some(status),
            "{words:?}: {}",
            String::from_utf8_lossy(&ran.stderr)
        );
        assert_eq!(ran.stdout.is_empty(), status != 0, "{words:?}");
    }
}

/// What the gate runs, and what README shows, are the examples.
#[test]
fn examples_as_shown() {
    let _turn = turn();
    let Some(root) = root() else { return };
    let read = |file: &str| fs::read(root.join(file)).expect(file);
    for file in ["box.list", "box.session"] {
        assert!(read(&format!("crates/nx/data/{file}")) == read(&format!("examples/{file}")));
    }
    let map = run(&root, &["map", "examples/box.list"], b"");
    assert_eq!((map.digit.as_str(), map.error.as_str()), ("0", ""));
    assert!(map.out == read("docs/map.svg"), "docs/map.svg is not what nx map draws");
}
