//! The built program `crates/nx/out/nx` on recorded sessions (P1): `nx record` writes the
//! recording of a script, `nx script` gives the script back, and `nx replay` makes the calls
//! as the second program does, or tells which block is refused and why.
//!
//! NX_LONG, NX_SEED and NX_WITHOUT_NATIVE are as for `nx.rs`.

mod common;

use common::callers::session;
use common::coverage::Coverage;
use common::nx::{folder, root, run, Ran};
use common::recordings::*;
use common::replays::{self, flaw, line, page, script, written};
use common::spoiled::*;
use common::worlds::World;
use common::*;
use second::boundary::Quote;
use second::dice::Dice;
use std::fmt::Display;
use std::fs::{self, OpenOptions};
use std::io::Write;
use std::path::PathBuf;
use std::process::Command;
use std::thread;

/// Where nx is, a folder for the files, and what was seen.
struct Bench {
    root: PathBuf,
    folder: PathBuf,
    seen: Coverage,
}

/// Fails where a run gave something else than this, with the first line that is another.
fn same(got: &Ran, said: &Ran, title: impl Display) {
    let lines = |ran: &Ran| -> Vec<String> {
        String::from_utf8_lossy(&ran.out).split_inclusive('\n').map(String::from).collect()
    };
    for (number, (one, other)) in lines(got).iter().zip(&lines(said)).enumerate() {
        assert_eq!(one, other, "{title}: line {}", number + 1);
    }
    assert_eq!(got.out.len(), said.out.len(), "{title}: {got:?}");
    assert_eq!((&got.digit, &got.error), (&said.digit, &said.error), "{title}");
}

/// What a command gives that does all there is to do.
fn fine(out: impl Into<Vec<u8>>) -> Ran {
    Ran::told("0", out)
}

/// What `nx script` and `nx replay` give of a recording that is refused.
fn refused_whole(path: &str, flaw: &str) -> Ran {
    Ran { digit: "1".into(), out: "refused 16\n".into(), error: format!("{path}: {flaw}\n") }
}

impl Bench {
    fn new(name: &str) -> Option<Bench> {
        Some(Bench { root: root()?, folder: folder(name), seen: Coverage::default() })
    }

    fn path(&self, name: &str) -> String {
        self.folder.join(name).display().to_string()
    }

    /// A file with these bytes.
    fn file(&self, name: &str, bytes: &[u8]) -> String {
        let path = self.path(name);
        fs::write(&path, bytes).expect("a file");
        path
    }

    fn run(&self, words: &[&str]) -> Ran {
        run(&self.root, words, b"")
    }

    /// What a command tells of a session's recording with words behind it.
    fn replay(&self, recording: &str, words: &[String]) -> Ran {
        let words: Vec<&str> = words.iter().map(String::as_str).collect();
        self.run(&[&["replay", recording], &words[..]].concat())
    }

    /// The bytes of a script's recording, and what is told of it behind its first line.
    fn recorded(&self, text: &[u8], title: impl Display) -> (Vec<u8>, String) {
        let path = self.path("recorded");
        let ran = run(&self.root, &["record", "-", &path], text);
        assert_eq!((ran.digit.as_str(), ran.error.as_str()), ("0", ""), "{title}");
        let recording = fs::read(&path).expect("a recording");
        let calls = calls_of(&recording).expect("a recording");
        let told = String::from_utf8(ran.out).expect("text");
        let first = written(&path, calls.len() / RECORD);
        let rest = told.strip_prefix(&first).unwrap_or_else(|| panic!("{title}: {told}"));
        (recording, rest.into())
    }

    /// The recording of calls is told as a script, which is recorded to the same bytes.
    fn given_back(&self, calls: &[u8], title: impl Display) {
        let recording = recording_of(calls).expect("as said");
        let told = self.run(&["script", &self.file("back.recording", &recording)]);
        same(&told, &fine(script(calls)), format_args!("{title}, script"));
        let (again, rest) = self.recorded(&told.out, &title);
        assert!(again == recording, "{title}: other bytes");
        assert_eq!(rest, "", "{title}");
    }

    /// A recording is refused, or told as its calls.
    fn judge(&mut self, recording: &[u8], title: impl Display) {
        let path = self.file("judged.recording", recording);
        let (says, pages) = match flaw(recording) {
            None => {
                let calls = calls_of(recording).expect("accepted");
                let pages = [script(&calls), page(&Lending::plain(&[], 0), &calls)];
                ("accepted".into(), pages.map(fine))
            }
            Some(flaw) => {
                let ran = || refused_whole(&path, &flaw);
                let sort = flaw.trim_start_matches(|letter| letter != ':');
                let sort: String = sort.chars().filter(|letter| !letter.is_numeric()).collect();
                (format!("refused{sort}"), [ran(), ran()])
            }
        };
        self.seen.see(says);
        for (command, said) in ["script", "replay"].into_iter().zip(&pages) {
            same(&self.run(&[command, &path]), said, format_args!("{title}, {command}"));
        }
    }
}

// ---------------------------------------------------------------------------
// The example, letter by letter

/// The calls of examples/box.session.
fn box_calls() -> Vec<u8> {
    [
        write(BASE_HIGH, 0x2000),
        write(BASE_LOW, 0),
        write(CONTROL, 7),
        request(0, 0x00_0100),
        request(0, 0x00_0200),
        request(1, 0x10_0010),
        request(1, 0x41_2345),
        request(1, 0x1F_F800),
        request(1, 0x1F_DFFC),
        write(ACKNOWLEDGE, 1),
        drop_fault(),
        request(1, 0xF0_0404),
        drop_fault(),
        request(0, 0xF0_0404),
        request(1, 0xF0_0004),
        request(1, 0xF0_0004),
        request(0, 0xF8_0C10),
        request(0, 0xF8_0010),
        write(CONTROL, 3),
        request(0, 0x71_0123),
        write(CONTROL, 7),
        write(ACKNOWLEDGE, 1),
    ]
    .concat()
}

const BOX_SCRIPT: &str = "\
write base-high 2000
write base-low 0
write control 7
request r 000100
request r 000200
request w 100010
request w 412345
request w 1FF800
request w 1FDFFC
acknowledge
drop
request w F00404
drop
request r F00404
request w F00004
request w F00004
request r F80C10
request r F80010
write control 3
request r 710123
write control 7
acknowledge
";

const BOX_PAGE: &str = "\
The recording: 22 calls, 1 block
  number   call                           unit answers          from
  0        write base-high 2000           done                  -
  1        write base-low 0               done                  -
  2        write control 7                done                  -
  3        request r 000100               11000100              external 0000
  4        request r 000200               11000200              -
  5        request w 100010               00010010              external 0400
  6        request w 412345               12012345              external 0010
  7        request w 1FF800               00009800              external 07FC
  8        request w 1FDFFC               fault 21 translation  external 07F4
  9        acknowledge                    fault 21 translation  external 07F4
  10       drop                           done                  -
  11       request w F00404               fault 23 permission   external 1004
  12       drop                           done                  -
  13       request r F00404               0000F004              -
  14       request w F00004               0000F004              external 1000
  15       request w F00004               0000F004              -
  16       request r F80C10               0000EC10              external 180C
  17       request r F80010               0000E010              -
  18       write control 3                done                  -
  19       request r 710123               fault 22 miss         -
  20       write control 7                done                  -
  21       acknowledge                    12510123              external 0C40

The meters and the bill
  fresh requests    13
  retries           2
  words read        18
  nanoseconds paid  164.00  bits 4064800000000000
  smoothed misses   0.61  bits 3FE3C65600949100
";

/// Recorded, told as a script and replayed over its image: every byte and every letter.
#[test]
fn the_box() {
    let _turn = turn();
    let Some(bench) = Bench::new("replay_box") else { return };
    let recording = bench.path("box.recording");
    let told = format!(
        "{recording}: 22 calls, 1 block, 512 bytes\n\
         prices are given to nx replay: price on-chip flat 1 price external row 2 10\n"
    );
    let ran = bench.run(&["record", "examples/box.session", &recording]);
    assert_eq!(ran, fine(told));
    let bytes = fs::read(&recording).expect("a recording");
    assert!(Ok(&bytes) == recording_of(&box_calls()).as_ref());
    assert_eq!(bytes[..4], [22, 0, 0, 0]);
    assert_eq!(bytes[4..16], [1, 0x1C, 0, 0, 0, 0, 0, 0, 0, 0x20, 0, 0]);
    assert_eq!(bytes[4 + 8 * 12..][..12], [3, 1, 0, 0, 0xFC, 0xDF, 0x1F, 0, 0, 0, 0, 0]);
    assert!(bytes[4 + 22 * 12..508].iter().all(|&byte| byte == 0));

    assert_eq!(bench.run(&["script", &recording]), fine(BOX_SCRIPT));
    let (again, rest) = bench.recorded(BOX_SCRIPT.as_bytes(), "the box");
    assert_eq!((again, rest.as_str()), (bytes, ""));

    let image = bench.path("box.image");
    assert_eq!(bench.run(&["build", "examples/box.list", &image]).digit, "0");
    let (external, on_chip) = (["external", &image, "20000000"], ["on-chip", "/dev/null", "0"]);
    let prices = ["price", "on-chip", "flat", "1", "price", "external", "row", "2", "10"];
    let (on_price, external_price) = prices.split_at(4);
    for words in [
        [&external[..], &prices].concat(),
        [&prices[..], &external].concat(),
        [on_price, &external, &on_chip, external_price].concat(),
        [external_price, &on_chip, on_price, &external].concat(),
    ] {
        let ran = bench.run(&[&["replay", &recording], &words[..]].concat());
        assert_eq!(ran, fine(BOX_PAGE), "{words:?}");
    }
    // Nothing is paid where no price is given.
    let free = BOX_PAGE.replace("164.00  bits 4064800000000000", "0.00  bits 0000000000000000");
    let ran = bench.run(&[&["replay", &recording], &external[..]].concat());
    assert_eq!(ran, fine(free));
    // Standard input can be a memory.
    let bytes = fs::read(&image).expect("an image");
    let words = [&["replay", &recording, "external", "-", "0x20000000"], &prices[..]].concat();
    assert_eq!(run(&bench.root, &words, &bytes), fine(BOX_PAGE));
}

/// Each call answers what `nx try` shows of it, and costs as much.
#[test]
fn as_tried() {
    let _turn = turn();
    let Some(bench) = Bench::new("replay_tried") else { return };
    let (recording, image) = (bench.path("box.recording"), bench.path("box.image"));
    assert_eq!(bench.run(&["build", "examples/box.list", &image]).digit, "0");
    let told = bench.run(&["record", "examples/box.session", &recording]);
    let told = String::from_utf8(told.out).expect("text");
    let prices = told.split_once("nx replay: ").expect("prices").1;
    let mut words = vec!["external", &image, "20000000"];
    words.extend(prices.split_whitespace());
    let ran = bench.run(&[&["replay", &recording], &words[..]].concat());
    let replayed = String::from_utf8(ran.out).expect("text");
    let ran = bench.run(&["try", "examples/box.list", "examples/box.session"]);
    let tried = String::from_utf8(ran.out).expect("text");

    let column = |line: &str, from: usize, to: usize| -> String {
        line.get(from..).map_or("", |rest| rest.get(..to - from).unwrap_or(rest)).trim_end().into()
    };
    let rows = |page: &str, columns: [(&str, &str); 3]| -> Vec<[String; 3]> {
        let table = page.split("\n\n").next().expect("a table");
        let mut lines = table.lines().skip(1);
        // The last column ends where remarks would begin.
        let head = format!("{}           remark ", lines.next().expect("a head"));
        let place = |name: &str| head.find(&format!("  {name} ")).expect("a column") + 2;
        let places = columns.map(|(from, to)| (place(from), place(to)));
        let rows = lines.filter(|line| !line.trim_start().starts_with("price"));
        rows.map(|line| places.map(|(from, to)| column(line, from, to))).collect()
    };
    let answers = ("unit answers", "from");
    let of_replay = rows(&replayed, [("call", "unit answers"), answers, ("from", "remark")]);
    let of_try =
        rows(&tried, [("call", "list says"), ("unit answers", "words"), ("from", "remark")]);
    assert_eq!(of_replay, of_try);
    assert_eq!(of_replay.len(), 22);
    let costs = |page: &str| page.split_once("\n\n").expect("costs").1.to_string();
    assert_eq!(costs(&replayed), costs(&tried));
}

// ---------------------------------------------------------------------------
// Scripts recorded, and given back

/// Every way to write a call, and what `nx script` makes of it.
#[test]
fn each_call() {
    let _turn = turn();
    let Some(bench) = Bench::new("replay_calls") else { return };
    for (text, call, told) in [
        ("write control 7", write(0x08, 7), "write control 7"),
        ("write 08 7", write(0x08, 7), "write control 7"),
        ("write 0x8 0007", write(0x08, 7), "write control 7"),
        ("write lock 0", write(0x24, 0), "write lock 0"),
        ("write ram-low ffff", write(0x38, 0xFFFF), "write ram-low FFFF"),
        ("write 3 abc", write(3, 0xABC), "write 03 ABC"),
        ("write 54 10", write(0x54, 0x10), "write 54 10"),
        ("write FF 1", write(0xFF, 1), "write FF 1"),
        ("write acknowledge 1", write(0x18, 1), "acknowledge"),
        ("acknowledge", write(0x18, 1), "acknowledge"),
        ("write acknowledge 0", write(0x18, 0), "write acknowledge 0"),
        ("write acknowledge 3", write(0x18, 3), "write acknowledge 3"),
        ("prefetch 1FF800", write(0, 0x7FE), "write prefetch 7FE"),
        ("prefetch 1FFBFF", write(0, 0x7FE), "write prefetch 7FE"),
        ("write prefetch 7FE", write(0, 0x7FE), "write prefetch 7FE"),
        ("read 0", read(0), "read prefetch"),
        ("read fault-status", read(0x14), "read fault-status"),
        ("read 50", read(0x50), "read read-ram-low"),
        ("read 51", read(0x51), "read 51"),
        ("read 000000FC", read(0xFC), "read FC"),
        ("request r 0", request(0, 0), "request r 000000"),
        ("request w 00412345", request(1, 0x41_2345), "request w 412345"),
        ("request r 1000000", request(0, 0x100_0000), "request r 1000000"),
        ("request w FEDCBA98", request(1, 0xFEDC_BA98), "request w FEDCBA98"),
        ("drop", drop_fault(), "drop"),
        ("shift 12345", shift(0x1_2345), "shift 012345"),
        ("shift FFFFFFFF", shift(0xFFFF_FFFF), "shift FFFFFFFF"),
        ("\t drop  # given up\r", drop_fault(), "drop"),
    ] {
        let (recording, rest) = bench.recorded(text.as_bytes(), text);
        assert!(Ok(&recording) == recording_of(&call).as_ref(), "{text}");
        assert_eq!((line(&call).as_str(), rest.as_str()), (told, ""), "{text}");
        bench.given_back(&call, text);
    }
    // Every offset, every register.
    let all: Vec<u8> = (0..=255).flat_map(|n| [read(n), write(n, 1)]).flatten().collect();
    bench.given_back(&all, "every offset");
    // What is no call is no part of it.
    let text = "# a session\n\n   \nprice external flat 2.50 # a\ndrop # b\n\r\n\tdrop\n# end";
    let (recording, rest) = bench.recorded(text.as_bytes(), "remarks");
    assert!(Ok(&recording) == recording_of(&[drop_fault(), drop_fault()].concat()).as_ref());
    assert_eq!(rest, "prices are given to nx replay: price external flat 2.50\n");
}

/// The last price of each memory is told, in the words of its line.
#[test]
fn prices_are_told() {
    let _turn = turn();
    let Some(bench) = Bench::new("replay_prices") else { return };
    for (text, told) in [
        ("price on-chip flat 0\n", "price on-chip flat 0"),
        ("price external row 1 2\n", "price external row 1 2"),
        (
            "price external flat 1\nprice on-chip flat 2\n",
            "price on-chip flat 2 price external flat 1",
        ),
        (
            "price external row 007 2.5 # a\nprice on-chip flat 1\n price\ton-chip  row 3 4#b\n",
            "price on-chip row 3 4 price external row 007 2.5",
        ),
    ] {
        for calls in ["", "drop\n"] {
            let (_, rest) = bench.recorded(format!("{text}{calls}").as_bytes(), text);
            assert_eq!(rest, format!("prices are given to nx replay: {told}\n"), "{text}");
        }
    }
}

/// Calls of every kind, some blocks of them and none.
#[test]
fn given_back() {
    let _turn = turn();
    let Some(mut bench) = Bench::new("replay_back") else { return };
    let empty = bench.file("empty.recording", &[]);
    assert_eq!(bench.run(&["script", &empty]), fine(""));
    assert_eq!(bench.recorded(b"", "no text"), (vec![], String::new()));
    let counts = [0, 1, 2, 41, 42, 43, 83, 84, 85, 86, 126, 127, 168, 1_000];
    for round in 0..long() as usize {
        for (n, count) in counts.into_iter().enumerate() {
            let mut dice = Dice::new(seed(0x01AB_0000_0000 + (round << 8 | n) as u64));
            let calls = drawn_calls(&mut dice, count);
            bench.given_back(&calls, format_args!("{count} calls, round {round}"));
            see_calls(&mut bench.seen, &calls, &recording_of(&calls));
        }
    }
    bench.seen.demand(1, &[all_calls(), all_lengths()].concat());
}

/// The longest script has 52,428 calls; one of a byte more is no text.
#[test]
fn the_longest_script() {
    let _turn = turn();
    let Some(bench) = Bench::new("replay_longest") else { return };
    let mut text = b"drop\n".repeat(52_428);
    text.extend(b"#  \n");
    assert_eq!(text.len(), 262_144);
    let (recording, _) = bench.recorded(&text, "the longest");
    assert!(Ok(recording) == recording_of(&drop_fault().repeat(52_428)));
    text.push(b'\n');
    let path = bench.path("none");
    let ran = run(&bench.root, &["record", "-", &path], &text);
    let said = "standard input: the text is longer than 262144 bytes\n";
    assert_eq!(ran, Ran::failed("1", said));
    assert!(fs::metadata(&path).is_err());
}

/// A script that `nx try` refuses is refused alike; what a recording has no room for is named by
/// its line. What was there stays, and there is no other file.
#[test]
fn scripts_refused() {
    let _turn = turn();
    let Some(bench) = Bench::new("replay_refused") else { return };
    let kept = bench.file("kept.recording", b"kept");
    let text = bench.path("session");
    let refuse = |lines: &str, said: &str| {
        fs::write(&text, lines).expect("a script");
        let ran = bench.run(&["record", &text, &kept]);
        assert_eq!(ran, Ran::failed("1", &format!("{text}:{said}\n")), "{lines}");
        assert_eq!(fs::read(&kept).expect("a file"), b"kept");
    };
    let room = "a recording has no room for a register offset over FF";
    for (lines, number) in [
        ("write 100 1", 1),
        ("# a\n\nread FF\nread 100", 4),
        ("write FFFFFFFF 0\nread 100", 1),
        ("price on-chip flat 1\ndrop\nread 00000100 # here\nnone", 3),
    ] {
        refuse(lines, &format!("{number}: {room}"));
    }
    let long = format!("drop {}", " ".repeat(200));
    for (lines, said) in [
        (
            "drop\nnone",
            "2: unknown call (write, read, request, acknowledge, prefetch, drop, shift or price)",
        ),
        ("write nowhere 1\nread 100", "1: unknown register"),
        ("request r 12345G", "1: not a hex number"),
        ("shift 123456789", "1: the number is too large"),
        ("write control 10000", "1: a register's value is over FFFF"),
        ("request x 0", "1: unknown access (r or w)"),
        ("drop\nread", "2: a word is missing"),
        ("drop now", "1: a word too many"),
        ("price there flat 1", "1: unknown memory (on-chip or external)"),
        ("price on-chip free", "1: unknown price (flat or row)"),
        (
            "price on-chip flat 1.234",
            "1: not a price (at most nine digits, two of them behind the point)",
        ),
        ("drop\n\nprice on-chip flat 1", "3: a price behind the first call"),
        (&long, "1: the line is longer than 200 bytes"),
    ] {
        refuse(lines, said);
        let ran = bench.run(&["try", "examples/box.list", &text]);
        assert_eq!(ran, Ran::failed("1", &format!("{text}:{said}\n")), "{lines}");
    }
    // Files that are not there, or cannot be written.
    for words in [["none", &kept], [".", &kept]] {
        let ran = bench.run(&["record", words[0], words[1]]);
        assert_eq!((ran.digit.as_str(), &ran.out[..]), ("1", &[][..]), "{words:?}");
        assert!(ran.error.starts_with(&format!("{}: ", words[0])), "{words:?}: {}", ran.error);
    }
    for target in ["no folder/recording", "."] {
        let path = bench.path(target);
        let ran = bench.run(&["record", "examples/box.session", &path]);
        assert_eq!((ran.digit.as_str(), &ran.out[..]), ("1", &[][..]), "{target}");
        assert!(ran.error.starts_with(&format!("{path}: ")), "{target}: {}", ran.error);
    }
    assert_eq!(fs::read(&kept).expect("a file"), b"kept");
    let mut names: Vec<_> = fs::read_dir(&bench.folder)
        .expect("a folder")
        .map(|file| file.expect("a file").file_name())
        .collect();
    names.sort();
    assert_eq!(names, ["kept.recording", "session"]);
}

// ---------------------------------------------------------------------------
// Recordings refused

/// Each thing that may be wrong, letter by letter.
#[test]
fn each_flaw() {
    let _turn = turn();
    let Some(mut bench) = Bench::new("replay_flaws") else { return };
    let mut dice = Dice::new(seed(0x01AC));
    let calls = drawn_calls(&mut dice, 85);
    let whole = recording_of(&calls).expect("as said");
    let first = &whole[..BLOCK];
    let full = &calls[..FULL * RECORD];
    let turned = |at: usize| {
        let mut turned = whole.clone();
        turned[at] ^= 0x10;
        turned
    };
    let behind = |block: Vec<u8>| [first, &block].concat();
    let bad = [&full[..5 * RECORD], &[6; RECORD]].concat();
    for (recording, said) in [
        (whole[..1_535].to_vec(), "block 2: shorter than 512 bytes"),
        (whole[..1_025].to_vec(), "block 2: shorter than 512 bytes"),
        (whole[..511].to_vec(), "block 0: shorter than 512 bytes"),
        (vec![0], "block 0: shorter than 512 bytes"),
        (
            [&whole, &block(1, 3, &full[..RECORD])[..]].concat(),
            "block 3: follows a block that is not full",
        ),
        (
            [&block(41, 0, &full[..41 * RECORD])[..], &whole[BLOCK..]].concat(),
            "block 1: follows a block that is not full",
        ),
        (turned(0), "block 0: its check is wrong"),
        (turned(BLOCK + 100), "block 1: its check is wrong"),
        (turned(2 * BLOCK + 511), "block 2: its check is wrong"),
        (vec![0; BLOCK], "block 0: its check is wrong"),
        (behind(block(42, 0, full)), "block 1: its number is 0"),
        (behind(block(42, 7, full)), "block 1: its number is 7"),
        (block(42, 65_535, full), "block 0: its number is 65535"),
        (behind(block(0, 1, &[])), "block 1: it has 0 calls"),
        (behind(block(43, 1, full)), "block 1: it has 43 calls"),
        (block(65_535, 0, full), "block 0: it has 65535 calls"),
        (behind(block(6, 1, &bad)), "block 1: call 5 is not as said"),
        (
            block(42, 0, &[&full[..41 * RECORD], &[0; RECORD]].concat()),
            "block 0: call 41 is not as said",
        ),
        (block(1, 0, &[0; RECORD]), "block 0: call 0 is not as said"),
        (behind(block(5, 1, &bad)), "block 1: a byte behind its calls is not zero"),
    ] {
        assert_eq!(flaw(&recording).as_deref(), Some(said));
        bench.judge(&recording, said);
        // Whatever is behind it.
        let more = [&recording[..recording.len() / BLOCK * BLOCK], &whole[..700]].concat();
        if recording.len().is_multiple_of(BLOCK) {
            assert_eq!(flaw(&more).as_deref(), Some(said));
            bench.judge(&more, said);
        }
    }
    // Every sort of call that is not as said.
    for (name, call) in spoiled() {
        let recording = behind(block(2, 1, &[&full[..RECORD], &call].concat()));
        assert_eq!(flaw(&recording).as_deref(), Some("block 1: call 1 is not as said"), "{name}");
        bench.judge(&recording, name);
    }
    // Every byte that is to be zero.
    let mut recording = block(40, 0, &full[..40 * RECORD]);
    for at in 4 + 40 * RECORD..CHECK_AT {
        recording[at] = 1;
        put_check(&mut recording);
        let path = bench.file("unused.recording", &recording);
        let said = "block 0: a byte behind its calls is not zero";
        assert_eq!(bench.run(&["replay", &path]), refused_whole(&path, said), "byte {at}");
        recording[at] = 0;
    }
}

/// The most blocks are accepted, and not one more.
#[test]
fn the_most_blocks() {
    let _turn = turn();
    let Some(bench) = Bench::new("replay_most") else { return };
    let calls = drop_fault().repeat(FULL);
    let mut recording = Vec::new();
    for number in 0..=65_535 {
        recording.extend(block(42, number, &calls));
    }
    let path = bench.file("most.recording", &recording);
    let ran = bench.run(&["script", &path]);
    assert_eq!((ran.digit.as_str(), ran.error.as_str()), ("0", ""));
    assert!(ran.out == b"drop\n".repeat(MOST_CALLS));
    let mut file = OpenOptions::new().append(true).open(&path).expect("a file");
    for more in [&[0][..], &block(1, 0, &calls[..RECORD])[1..]] {
        file.write_all(more).expect("more");
        for command in ["script", "replay"] {
            let ran = bench.run(&[command, &path]);
            assert_eq!(ran, refused_whole(&path, "block 65536: past the 65536th"), "{command}");
        }
    }
    fs::remove_file(path).expect("a file");
}

/// Recordings with something changed, or some things; then perhaps put right again.
#[test]
fn changed_recordings() {
    let _turn = turn();
    let Some(mut bench) = Bench::new("replay_changed") else { return };
    for round in 0..400 * long() {
        let mut dice = Dice::new(seed(0x01AD_0000_0000 + u64::from(round)));
        let most = dice.pick(&[1, 42, 43, 90, 200]);
        let count = if dice.once_in(3) { most } else { dice.below(most + 1) };
        let mut recording = drawn_recording(&mut dice, count as usize);
        mutate(&mut dice, &mut recording);
        if !dice.once_in(3) {
            mend(&mut dice, &mut recording);
        }
        bench.judge(&recording, format_args!("recording {round}"));
    }
    let names = [
        "accepted",
        "refused: shorter than  bytes",
        "refused: follows a block that is not full",
        "refused: its check is wrong",
        "refused: its number is ",
        "refused: it has  calls",
        "refused: call  is not as said",
        "refused: a byte behind its calls is not zero",
    ];
    bench.seen.demand(1, &names.map(String::from));
}

// ---------------------------------------------------------------------------
// Sessions replayed

/// A figure of a price as it is written: at most nine digits, two of them behind the point.
fn figure(dice: &mut Dice) -> String {
    let bound = dice.pick(&[1, 10, 10, 100, 100, 4_097, 4_097, 10_000_000]);
    let whole = dice.below(bound);
    match dice.below(3) {
        0 => whole.to_string(),
        1 => format!("{whole}.{}", dice.below(10)),
        _ => format!("{whole}.{:02}", dice.below(100)),
    }
}

/// A price, as the words of a memory say it and as it crosses.
fn price(dice: &mut Dice, memory: &str) -> (Vec<String>, Quote) {
    let words = |words: &[&str]| words.iter().map(|&word| word.into()).collect();
    let (first, second) = (figure(dice), figure(dice));
    let number = |figure: &str| figure.parse::<f64>().expect("a figure");
    match dice.below(3) {
        0 => (vec![], (0, 0.0, 0.0)),
        1 => (words(&["price", memory, "flat", &first]), (0, number(&first), 0.0)),
        _ => {
            let row = (1, number(&first), number(&second));
            (words(&["price", memory, "row", &first, &second]), row)
        }
    }
}

/// Sessions over memories of every sort, with prices in any order: each row, the meters and the
/// bill are the second program's.
#[test]
fn sessions() {
    let _turn = turn();
    let Some(mut bench) = Bench::new("replay_sessions") else { return };
    for round in 0..250 * long() {
        let mut dice = Dice::new(seed(0x01AE_0000_0000 + u64::from(round)));
        let world = World::new(&mut dice);
        let (on_words, on_price) = price(&mut dice, "on-chip");
        let (external_words, external_price) = price(&mut dice, "external");
        let mut lending = world.lending(on_price, external_price);
        // Now and then a memory is not lent, or is longer than it may be.
        let long = vec![0; 131_073 + dice.below(100) as usize];
        match dice.below(8) {
            0 => (lending.on, lending.on_base) = (&[], 0),
            1 => (lending.external, lending.external_base) = (&[], 0),
            2 => lending.external = &long,
            _ => {}
        }
        let length = dice.pick(&[1, 42, 43, 85, 150, 300]);
        let calls = session(&mut dice, &world, &lending, length);
        let recording = recording_of(&calls).expect("as said");
        let mut groups = vec![on_words, external_words];
        let memory = |name: &str, bytes: &[u8], base: u32| {
            let base = format!("{base:X}");
            vec![name.to_string(), bench.file(name, bytes), base]
        };
        if !lending.on.is_empty() {
            groups.push(memory("on-chip", lending.on, lending.on_base));
        }
        if !lending.external.is_empty() {
            groups.push(memory("external", lending.external, lending.external_base));
        }
        dice.shuffle(&mut groups);
        let path = bench.file("drawn.recording", &recording);
        let ran = bench.replay(&path, &groups.concat());
        same(&ran, &fine(page(&lending, &calls)), format_args!("session {round}"));
        let said = replays::said(&lending, &calls);
        for at in 0..length {
            bench.seen.see(format!("answer {:03}", answer(&said, at).0));
            bench.seen.see(format!("from {}", from(&said, at) >> 28));
        }
    }
    let answers = [0, 1, 2, 4, 5, 9, 21, 22, 23, 24, 100, 101, 102];
    let mut names: Vec<String> = answers.map(|number| format!("answer {number:03}")).to_vec();
    names.extend((0..3).map(|memory| format!("from {memory}")));
    bench.seen.demand(3, &names);
}

/// A session of 20,000 calls, 477 blocks: every row is the second program's.
#[test]
fn a_long_session() {
    let _turn = turn();
    let Some(bench) = Bench::new("replay_long") else { return };
    let mut dice = Dice::new(seed(0x01AF));
    let world = World::new(&mut dice);
    let lending = world.lending((0, 1.0, 0.0), (1, 2.0, 10.25));
    let calls = session(&mut dice, &world, &lending, 20_000);
    let path = bench.file("long.recording", &recording_of(&calls).expect("as said"));
    let (on, external) = (bench.file("on", &world.on), bench.file("external", &world.external));
    let bases = [world.on_base, world.external_base].map(|base| format!("{base:08X}"));
    let prices = "price on-chip flat 1 price external row 2 10.25";
    let mut words = vec!["replay", &path, "on-chip", &on, &bases[0], "external", &external];
    words.push(&bases[1]);
    words.extend(prices.split(' '));
    same(&bench.run(&words), &fine(page(&lending, &calls)), "20,000 calls");
    same(&bench.run(&["script", &path]), &fine(script(&calls)), "20,000 calls, script");
}

// ---------------------------------------------------------------------------
// The two times through a file

impl Bench {
    /// A command on a recording that is another file the second time: the first time its name
    /// has a pipe with these bytes, and before the pipe ends a file with the others, or none.
    fn twice(&self, command: &str, first: &[u8], second: Option<&[u8]>) -> Ran {
        let pipe = self.path("pipe");
        let _ = fs::remove_file(&pipe);
        let made = Command::new("mkfifo").arg(&pipe).status().expect("mkfifo starts");
        assert!(made.success());
        let next = second.map(|bytes| self.file("next", bytes));
        let (first, name) = (first.to_vec(), pipe.clone());
        let writer = thread::spawn(move || {
            let mut pipe = OpenOptions::new().write(true).open(&name).expect("it is opened");
            match next {
                Some(next) => fs::rename(next, name).expect("another file"),
                None => fs::remove_file(name).expect("no file"),
            }
            pipe.write_all(&first).expect("it is read");
        });
        let ran = self.run(&[command, &pipe]);
        writer.join().expect("it was read");
        ran
    }
}

/// What is read the second time is tested again: where it is no longer what was accepted, the
/// program stops there.
#[test]
fn changed_meanwhile() {
    let _turn = turn();
    let Some(bench) = Bench::new("replay_twice") else { return };
    let mut dice = Dice::new(seed(0x01B0));
    let calls = drawn_calls(&mut dice, 85);
    let whole = recording_of(&calls).expect("as said");
    let name = bench.path("pipe");
    let nothing = Lending::plain(&[], 0);
    // Other calls in the same number of blocks, and a call more or less.
    let others = drawn_calls(&mut dice, 86);
    let other = |count: usize| recording_of(&others[..count * RECORD]).expect("as said");
    let mut turned = whole.clone();
    turned[BLOCK + 50] ^= 1;
    let gap = [&whole[..BLOCK], &block(41, 1, &others[..41 * RECORD])].concat();
    for (second, at, title) in [
        (turned, 1, "a block refused"),
        (whole[..BLOCK].to_vec(), 1, "two blocks less"),
        (whole[..2 * BLOCK].to_vec(), 2, "a block less"),
        (whole[..2 * BLOCK + 5].to_vec(), 2, "a short block"),
        (vec![], 0, "no block"),
        (gap, 1, "a block that is not full"),
        (other(86), 2, "a call more"),
        (other(84), 2, "no third block"),
        (whole[BLOCK..].to_vec(), 0, "no first block"),
    ] {
        let made = calls_of(&second[..at * BLOCK]).expect("blocks");
        let error = format!("{name}: block {at}: the file has changed since it was accepted\n");
        let said = Ran { digit: "1".into(), out: script(&made).into(), error };
        same(&bench.twice("script", &whole, Some(&second)), &said, format_args!("{title}, script"));
        let rows = replays::rows(&made, &replays::said(&nothing, &made));
        let said = Ran { out: (replays::head(85) + &rows).into(), ..said };
        same(&bench.twice("replay", &whole, Some(&second)), &said, format_args!("{title}, replay"));
    }
    // A block more.
    let two = &whole[..2 * BLOCK];
    let made = &calls[..84 * RECORD];
    let error = format!("{name}: block 2: the file has changed since it was accepted\n");
    let said = Ran { digit: "1".into(), out: script(made).into(), error };
    for more in [&whole[..], &whole[..2 * BLOCK + 1]] {
        same(&bench.twice("script", two, Some(more)), &said, "a block more, script");
        let rows = replays::rows(made, &replays::said(&nothing, made));
        let said = Ran {
            digit: "1".into(),
            out: (replays::head(84) + &rows).into(),
            error: said.error.clone(),
        };
        same(&bench.twice("replay", two, Some(more)), &said, "a block more, replay");
    }
    // As many blocks and calls: these are made.
    let same_size = other(85);
    let made = &others[..85 * RECORD];
    let ran = bench.twice("script", &whole, Some(&same_size));
    same(&ran, &fine(script(made)), "as many calls, script");
    let ran = bench.twice("replay", &whole, Some(&same_size));
    same(&ran, &fine(page(&nothing, made)), "as many calls, replay");
    // No file, and nothing is told on standard output; a bad one the first time is refused.
    for command in ["script", "replay"] {
        let ran = bench.twice(command, &whole, None);
        assert_eq!((ran.digit.as_str(), &ran.out[..]), ("1", &[][..]), "{command}");
        assert!(ran.error.starts_with(&format!("{name}: ")), "{command}: {}", ran.error);
        let ran = bench.twice(command, &whole[..600], Some(&whole));
        assert_eq!(ran, refused_whole(&name, "block 1: shorter than 512 bytes"), "{command}");
    }
}

// ---------------------------------------------------------------------------
// Files and wrong use

#[test]
fn wrong_use() {
    let _turn = turn();
    let Some(bench) = Bench::new("replay_wrong") else { return };
    let recording = bench.file("good.recording", &recording_of(&box_calls()).expect("as said"));
    let twice = "nx: a recording is read twice, so it cannot be standard input\n";
    assert_eq!(bench.run(&["script", "-"]), Ran::failed("2", twice));
    assert_eq!(bench.run(&["replay", "-"]), Ran::failed("2", twice));
    let image = bench.file("image", &[0; 64]);
    let figure = "not a price (at most nine digits, two of them behind the point)";
    for (words, said) in [
        ("there", "there: unknown word (on-chip, external or price)"),
        ("IMAGE 0", &format!("{image}: unknown word (on-chip, external or price)")),
        ("on-chip", "on-chip: a word is missing"),
        ("external IMAGE", "external: a word is missing"),
        ("external IMAGE 0 on-chip IMAGE", "on-chip: a word is missing"),
        ("external IMAGE 0 external IMAGE 0", "external: given twice"),
        ("on-chip IMAGE 0 price on-chip flat 1 on-chip IMAGE 0", "on-chip: given twice"),
        ("external IMAGE 2000000G", "base 2000000G is not a hex number"),
        ("external IMAGE 120000000", "base 120000000 is too large"),
        ("price", "price: a word is missing"),
        ("price on-chip", "price on-chip: a word is missing"),
        ("price on-chip flat", "price on-chip: a word is missing"),
        ("price external row 1", "price external: a word is missing"),
        ("price there flat 1", "price there: unknown memory (on-chip or external)"),
        ("price external free 1", "price external: unknown price (flat or row)"),
        ("price external flat 1.234", &format!("price external: {figure}")),
        ("price external flat 1.", &format!("price external: {figure}")),
        ("price external flat -1", &format!("price external: {figure}")),
        ("price external flat 1234567890", &format!("price external: {figure}")),
        ("price on-chip row 1 0x2", &format!("price on-chip: {figure}")),
        ("price on-chip flat 1 price on-chip row 1 2", "price on-chip: given twice"),
        ("on-chip - 0 external - 0", "only one of the two memories can be standard input"),
    ] {
        let given: Vec<String> =
            words.split(' ').map(|word| word.replace("IMAGE", &image)).collect();
        let ran = bench.replay(&recording, &given);
        assert_eq!(ran, Ran::failed("2", &format!("nx: {said}\n")), "{words}");
        // Wrong words come before a bad recording, and before one that is not there.
        assert_eq!(bench.replay(&bench.path("none"), &given), ran, "{words}");
    }
    // A word is one word.
    let word = "1 # flat".to_string();
    let given = ["price", "on-chip", "flat"].map(String::from);
    let ran = bench.replay(&recording, &[&given[..], &[word]].concat());
    assert_eq!(ran, Ran::failed("2", &format!("nx: price on-chip: {figure}\n")));
    // Too many words, or too few, are told the usage.
    let usage = String::from_utf8(bench.run(&["help"]).out).expect("text");
    let many = vec!["x"; 18];
    for words in [
        &["record"][..],
        &["record", "a"],
        &["record", "a", "b", "c"],
        &["script"],
        &["script", "a", "b"],
        &["replay"],
        &[&["replay"], &many[..]].concat(),
    ] {
        assert_eq!(bench.run(words), Ran::failed("2", &usage), "{words:?}");
    }
}

/// What cannot be read or written is told, and the script's exit status is the digit.
#[test]
fn files_and_exit_status() {
    let _turn = turn();
    let Some(bench) = Bench::new("replay_files") else { return };
    let good = bench.file("good.recording", &recording_of(&box_calls()).expect("as said"));
    let bad = bench.file("bad.recording", &[0; 512]);
    let image = bench.file("image", &[0; 64]);
    for command in ["script", "replay"] {
        for missing in [&bench.path("none"), &bench.path("")] {
            let ran = bench.run(&[command, missing]);
            assert_eq!((ran.digit.as_str(), &ran.out[..]), ("1", &[][..]), "{command}");
            assert!(ran.error.starts_with(&format!("{missing}: ")), "{command}: {}", ran.error);
        }
        for recording in [&good, &bad] {
            let words = ["-c", "tools/run nx \"$1\" \"$2\" 3>&1 >/dev/full 2>/dev/null", "sh"];
            let mut full = Command::new("sh");
            let full = full.args(words).args([command, recording]).current_dir(&bench.root);
            assert_eq!(full.output().expect("sh starts").stdout, b"1", "{command}");
        }
    }
    // A memory that is not there: no call is made.
    for missing in [bench.path("none"), bench.path("")] {
        for words in [["on-chip", &missing, "0"], ["external", &missing, "0"]] {
            let ran = bench.replay(&good, &words.map(String::from));
            assert_eq!((ran.digit.as_str(), &ran.out[..]), ("1", &[][..]), "{words:?}");
            assert!(ran.error.starts_with(&format!("{missing}: ")), "{words:?}: {}", ran.error);
        }
    }
    // A bad recording is refused whatever memories there are.
    let words = ["external", &bench.path("none"), "0"].map(String::from);
    assert_eq!(bench.replay(&bad, &words), refused_whole(&bad, "block 0: its check is wrong"));
    let written = bench.path("written.recording");
    for (words, status, told) in [
        (&["record", "examples/box.session", &written][..], 0, [true, false]),
        (&["record", "README.md", &written], 1, [false, true]),
        (&["script", &good], 0, [true, false]),
        (&["script", &bad], 1, [true, true]),
        (&["script", "-"], 2, [false, true]),
        (&["replay", &good, "external", &image, "0"], 0, [true, false]),
        (&["replay", &bad], 1, [true, true]),
        (&["replay", &good, "external", &image, "hex"], 2, [false, true]),
    ] {
        let ran = Command::new("./nx").args(words).current_dir(&bench.root).output();
        let ran = ran.expect("nx starts");
        assert_eq!(ran.status.code(), Some(status), "{words:?}: {ran:?}");
        assert_eq!([!ran.stdout.is_empty(), !ran.stderr.is_empty()], told, "{words:?}: {ran:?}");
    }
}
