//! Speed of the proved implementation against the second program, through the
//! byte boundary, in one process: nx_run on sessions of each sort of call,
//! nx_build on ten lists, nx_check and nx_list on five images, nx_part on four pairs
//! of images, nx_recorded and then nx_run on two recorded sessions, nx_record and
//! nx_recorded on 1 MiB of recording, nx_crc on a block and on 64 KiB. Rounds of the
//! two are interleaved; the table has medians with their quartiles, and the median of
//! the rounds' own ratios, and for recordings and checks how many bytes that is.
//! Before that the two are seen to write the same bytes.
//!
//! `--cleared` clears what is written to before each round, outside its time;
//! `--length N` gives the sessions N calls; `--rounds N` sets the rounds;
//! `--only WORDS` keeps the rows whose names have the words.

use second::boundary::{self, Lending, Program, Second, ANSWER, CALL, PARTING, STATE};
use second::dice::Dice;
use second::native;
use second::recording::{BLOCK, FULL, MOST_CALLS};
use std::hint::black_box;
use std::process::ExitCode;
use std::time::Instant;

const BASE: u32 = 0x2000_0000;
const EXTERNAL: u32 = 0x1000_0000;

fn record(virtual_start: u32, physical: u32, kind: u8) -> [u8; 12] {
    let mut bytes = [0; 12];
    bytes[..4].copy_from_slice(&virtual_start.to_le_bytes());
    bytes[4..8].copy_from_slice(&physical.to_le_bytes());
    bytes[8] = kind;
    bytes[9] = 3;
    bytes
}

fn call(kind: u8, second: u8, address: u32, value: u16) -> [u8; 12] {
    let mut bytes = [kind, second, 0, 0, 0, 0, 0, 0, 0, 0, 0, 0];
    bytes[4..8].copy_from_slice(&address.to_le_bytes());
    bytes[8..10].copy_from_slice(&value.to_le_bytes());
    bytes
}

/// Small pages, eight to a megabyte, each to another place.
fn page(n: u32) -> u32 {
    (n / 8) << 20 | (n % 8 * 5 + 1) << 12
}

/// A place in a small page.
fn within(dice: &mut Dice) -> u32 {
    dice.below(1 << 12)
}

fn request(address: u32) -> [u8; 12] {
    call(boundary::REQUEST, (address >> 3 & 1) as u8, address, 0)
}

fn write(offset: u8, value: u16) -> [u8; 12] {
    call(boundary::WRITE, offset, 0, value)
}

fn read(offset: u8) -> [u8; 12] {
    call(boundary::READ, offset, 0, 0)
}

/// The base set, and the control register.
fn start(control: u16) -> Vec<[u8; 12]> {
    vec![write(0x1C, (BASE >> 16) as u16), write(0x20, BASE as u16), write(0x08, control)]
}

/// A sort of session: its first calls, then `length` calls each made of its
/// number, what each of these answers, and how many words they read.
struct Sort {
    name: &'static str,
    first: Vec<[u8; 12]>,
    each: fn(usize, &mut Dice) -> [u8; 12],
    answers: &'static [u8],
    words: fn(usize) -> usize,
}

/// The two memories of a session.
#[derive(Clone)]
struct Memories {
    on_chip: Vec<u8>,
    external: Vec<u8>,
}

impl Memories {
    fn lending(&self) -> Lending<'_> {
        Lending {
            on: &self.on_chip,
            on_base: BASE,
            external: &self.external,
            external_base: EXTERNAL,
            on_price: (0, 3.5, 0.0),
            external_price: (1, 10.0, 45.0),
        }
    }
}

/// What is done in one round.
enum Work {
    Run {
        calls: Vec<u8>,
        memories: Memories,
        out: Vec<u8>,
    },
    Build {
        list: Vec<u8>,
        builds: usize,
        memory: Vec<u8>,
    },
    Check {
        image: Vec<u8>,
        checks: usize,
    },
    List {
        image: Vec<u8>,
        lists: usize,
        out: Vec<u8>,
    },
    Part {
        new: Vec<u8>,
        signed: Vec<u8>,
        parts: usize,
        out: [u8; PARTING],
    },
    /// So many calls are written first, and behind them what they answer.
    Replay {
        recording: Vec<u8>,
        calls: usize,
        memories: Memories,
        out: Vec<u8>,
    },
    Record {
        calls: Vec<u8>,
        out: Vec<u8>,
    },
    Recorded {
        recording: Vec<u8>,
        out: Vec<u8>,
    },
    Crc {
        bytes: Vec<u8>,
        crcs: usize,
        says: u64,
    },
}

impl Work {
    fn go(&mut self, program: &dyn Program) {
        match self {
            Work::Run { calls, memories, out } => {
                let written = program.run(&memories.lending(), black_box(calls), out);
                assert_eq!(written as usize, out.len());
                black_box(out);
            }
            Work::Build { list, builds, memory } => {
                for _ in 0..*builds {
                    let length = program.build(black_box(list), BASE, memory);
                    assert!(length >> 63 == 0);
                    black_box(&mut *memory);
                }
            }
            Work::Check { image, checks } => {
                for _ in 0..*checks {
                    assert_eq!(program.check(black_box(image), BASE), 0);
                }
            }
            Work::List { image, lists, out } => {
                for _ in 0..*lists {
                    let length = program.list(black_box(image), BASE, out);
                    assert_eq!(length as usize, out.len());
                    black_box(&mut *out);
                }
            }
            Work::Part { new, signed, parts, out } => {
                for _ in 0..*parts {
                    let length = program.part(black_box(new), black_box(signed), out);
                    assert_eq!(length as usize, out.len());
                    black_box(&mut *out);
                }
            }
            Work::Replay { recording, calls, memories, out } => {
                let (calls, out) = out.split_at_mut(*calls * CALL);
                let length = program.recorded(black_box(recording), calls);
                assert_eq!(length as usize, calls.len());
                let written = program.run(&memories.lending(), black_box(calls), out);
                assert_eq!(written as usize, out.len());
                black_box(out);
            }
            Work::Record { calls, out } => {
                let length = program.record(black_box(calls), out);
                assert_eq!(length as usize, out.len());
                black_box(out);
            }
            Work::Recorded { recording, out } => {
                let length = program.recorded(black_box(recording), out);
                assert_eq!(length as usize, out.len());
                black_box(out);
            }
            Work::Crc { bytes, crcs, says } => {
                for _ in 0..*crcs {
                    assert_eq!(program.crc(black_box(bytes)), *says);
                }
            }
        }
    }

    fn written(&mut self) -> &mut [u8] {
        match self {
            Work::Run { out, .. } => out,
            Work::Build { memory, .. } => memory,
            Work::Check { .. } => &mut [],
            Work::List { out, .. } => out,
            Work::Part { out, .. } => out,
            Work::Replay { out, .. } => out,
            Work::Record { out, .. } => out,
            Work::Recorded { out, .. } => out,
            Work::Crc { .. } => &mut [],
        }
    }
}

struct Bench {
    name: String,
    /// What one work unit is, and how many there are in one round.
    unit: &'static str,
    units: usize,
    /// How many bytes they are, where that is told.
    bytes: Option<usize>,
    work: Work,
}

impl Bench {
    fn new(name: String, unit: &'static str, units: usize, work: Work) -> Bench {
        Bench { name, unit, units, bytes: None, work }
    }

    fn of_bytes(self, bytes: usize) -> Bench {
        Bench { bytes: Some(bytes), ..self }
    }
}

/// The lists that are built, with how many builds make a round.
fn lists() -> Vec<(String, usize, Vec<u8>)> {
    // Small pages, so many to a megabyte, with tiny ones in every other megabyte.
    let mixed = |each: u32| {
        move |n: u32| {
            let megabyte = n / each;
            let kind = if n % 8 == 7 && megabyte % 2 == 1 { 3 } else { 2 };
            record(megabyte << 20 | (n % 256) << 12, n << 12, kind)
        }
    };
    // Pages of one kind and size, so many to a megabyte.
    let alike = |kind: u8, bits: u32, each: u32| {
        move |n: u32| record((n / each) << 20 | (n % each) << bits, n << bits, kind)
    };
    // A tiny page, then fifteen large ones, in each megabyte.
    let fine = |n: u32| {
        let kind = if n.is_multiple_of(16) { 3 } else { 1 };
        record((n / 16) << 20 | (n % 16) << 16, n << 16, kind)
    };
    // A tiny page, a small one and two large ones by turns, sixteen in each megabyte.
    let turns = |n: u32| {
        let kind = [3, 2, 1, 1][n as usize % 4];
        record((n / 16) << 20 | (n % 16) << 16, n << 16, kind)
    };
    let of = |count: u32, one: &dyn Fn(u32) -> [u8; 12]| (0..count).flat_map(one).collect();
    vec![
        ("0 records".into(), 2_000, Vec::new()),
        ("16 records".into(), 400, of(16, &mixed(32))),
        ("256 records".into(), 100, of(256, &mixed(32))),
        ("1,024 records".into(), 25, of(1_024, &mixed(64))),
        ("16 sections".into(), 400, of(16, &alike(0, 20, 1))),
        ("256 large".into(), 100, of(256, &alike(1, 16, 16))),
        ("256 small".into(), 100, of(256, &alike(2, 12, 32))),
        ("256 tiny".into(), 100, of(256, &alike(3, 10, 32))),
        ("225 large in fine tables".into(), 40, of(240, &fine)),
        ("240 mixed in fine tables".into(), 40, of(240, &turns)),
    ]
}

/// The image of a list.
fn image(list: &[u8]) -> Vec<u8> {
    let mut memory = vec![0; 65_536];
    let length = boundary::build(list, BASE, &mut memory) as usize;
    memory.truncate(length);
    memory
}

/// One fine table of tiny pages, for every megabyte.
fn shared() -> Vec<u8> {
    let first = (0..1_024).map(|n| if n < 16 { BASE + 4_096 + 3 } else { 0 });
    let tiny = (0..1_024).map(|n| 0x4000_0033 + (n << 10));
    first.chain(tiny).flat_map(u32::to_le_bytes).collect()
}

/// The images that are checked and listed, with their pages and with how many checks or
/// lists make a round.
fn images() -> Vec<(&'static str, usize, usize, Vec<u8>)> {
    let of = |name: &str| {
        let (.., list) = lists().into_iter().find(|list| list.0 == name).expect("a list");
        image(&list)
    };
    let fine = "225 large in fine tables";
    vec![
        ("256 records", 256, 100, of("256 records")),
        ("1,024 records", 1_024, 50, of("1,024 records")),
        ("16 sections", 16, 2_000, of("16 sections")),
        (fine, 240, 100, of(fine)),
        ("16,384 tiny, one table", 16_384, 10, shared()),
    ]
}

/// The signed images that new ones are compared with, with how many comparisons make a round
/// and the words that are others in the new one.
fn pairs() -> Vec<(&'static str, usize, Vec<u8>, Vec<usize>)> {
    let fine = |image: &(&str, usize, usize, Vec<u8>)| image.0 == "225 large in fine tables";
    let (.., large) = images().into_iter().find(fine).expect("an image");
    assert_eq!(large.len(), 65_536);
    let list_a = [
        record(0x01_0000, 0x1002_0000, 1),
        record(0x30_0000, 0x1120_0000, 0),
        record(0x50_0400, 0x1000_0C00, 3),
    ];
    vec![
        ("64 KiB, equal", 100, large.clone(), vec![]),
        ("64 KiB, the last word", 100, large.clone(), vec![16_383]),
        ("64 KiB, every 16th word", 100, large, (0..16_384).step_by(16).collect()),
        ("8 KiB, 16 words amid", 1_000, image(&list_a.concat()), (1_024..1_040).collect()),
    ]
}

/// What a session has.
fn sorts() -> Vec<Sort> {
    const ON: u16 = 3;
    const WALKING: u16 = 7;
    let sort = |name,
                control,
                each: fn(usize, &mut Dice) -> [u8; 12],
                answers,
                words: fn(usize) -> usize| Sort {
        name,
        first: start(control),
        each,
        answers,
        words,
    };
    // Every page that a session of hits asks for, walked to once.
    let warmed = |mut sort: Sort| {
        sort.first.extend((0..24).map(|n| request(page(n))));
        sort
    };
    // A page that is in no table, asked for once.
    let faulted = |mut sort: Sort| {
        sort.first.push(request(page(64)));
        sort
    };
    const READABLE: [u8; 20] = [
        0x00, 0x04, 0x08, 0x0C, 0x10, 0x14, 0x1C, 0x20, 0x24, 0x28, 0x2C, 0x30, 0x34, 0x38, 0x3C,
        0x40, 0x44, 0x48, 0x4C, 0x50,
    ];
    const STAGED: [u8; 4] = [0x2C, 0x30, 0x34, 0x38];
    vec![
        warmed(sort(
            "hits (24 pages, 32 slots)",
            WALKING,
            |_, dice| request(page(dice.below(24)) | within(dice)),
            &[100],
            |_| 48,
        )),
        sort(
            "misses (64 pages in turn)",
            WALKING,
            |n, dice| request(page(n as u32 % 64) | within(dice)),
            &[100],
            |length| 2 * length,
        ),
        sort("requests while off", 1, |_, dice| request(dice.below(1 << 24)), &[100], |_| 0),
        sort("register reads", WALKING, |n, _| read(READABLE[n % 20]), &[101], |_| 0),
        sort(
            "register writes",
            WALKING,
            |n, dice| write(STAGED[n % 4], dice.below(1 << 16) as u16),
            &[0],
            |_| 0,
        ),
        warmed(sort(
            "reads and hits in turn",
            WALKING,
            |n, dice| {
                if n % 2 == 0 {
                    read(READABLE[n / 2 % 20])
                } else {
                    request(page(dice.below(24)))
                }
            },
            &[101, 100],
            |_| 48,
        )),
        warmed(sort(
            "writes and hits in turn",
            WALKING,
            |n, dice| {
                if n % 2 == 0 {
                    write(STAGED[n / 2 % 4], n as u16)
                } else {
                    request(page(dice.below(24)))
                }
            },
            &[0, 100],
            |_| 48,
        )),
        faulted(sort("retries after a miss", ON, |_, _| write(0x18, 1), &[22], |_| 0)),
        faulted(sort(
            "retries that walk",
            WALKING,
            |_, _| write(0x18, 1),
            &[21],
            |length| 1 + length,
        )),
        sort(
            "prefetches (64 pages in turn)",
            WALKING,
            |n, _| write(0x00, (page(n as u32 % 64) >> 10) as u16),
            &[0],
            |length| 2 * length,
        ),
        warmed(sort(
            "flushes, of all and of one",
            WALKING,
            |n, _| write(if n % 2 == 0 { 0x3C } else { 0x40 }, 1),
            &[0],
            |_| 48,
        )),
        sort("loads and copies", 3, |n, _| write(0x28, 1 + n as u16 % 2), &[0], |_| 0),
        sort(
            "faults and drops in turn",
            ON,
            |n, dice| {
                if n % 2 == 0 {
                    request(dice.below(1 << 24))
                } else {
                    call(boundary::DROP, 0, 0, 0)
                }
            },
            &[22, 0],
            |_| 0,
        ),
        sort(
            "shift reports",
            WALKING,
            |n, _| call(boundary::SHIFT, 0, page(n as u32 % 64), 0),
            &[102],
            |_| 0,
        ),
    ]
}

/// The calls of a session.
fn session(sort: &Sort, length: usize) -> Vec<u8> {
    let mut dice = Dice::new(0xBE9C);
    let mut calls = sort.first.concat();
    for n in 0..length {
        calls.extend((sort.each)(n, &mut dice));
    }
    calls
}

/// So many calls of every kind, most of them requests.
fn calls_of_every_kind(count: usize) -> Vec<u8> {
    let mut dice = Dice::new(0xBE9D);
    let one = |n: usize| match n % 8 {
        1 => write(0x2C, dice.below(1 << 16) as u16),
        3 => read(0x14),
        5 => call(boundary::DROP, 0, 0, 0),
        7 => call(boundary::SHIFT, 0, dice.below(1 << 24), 0),
        _ => request(dice.below(1 << 24)),
    };
    (0..count).flat_map(one).collect()
}

/// The recording of these calls.
fn recording(calls: &[u8]) -> Vec<u8> {
    let mut out = vec![0; (calls.len() / CALL).div_ceil(FULL) * BLOCK];
    let length = boundary::record(calls, &mut out);
    assert_eq!(length as usize, out.len());
    out
}

fn benches(length_of_session: usize) -> Vec<Bench> {
    let mut benches = Vec::new();

    // Small pages; the image is in the on-chip memory.
    let list: Vec<u8> = (0..64).flat_map(|n| record(page(n), 0x4000_0000 + (n << 12), 2)).collect();
    let memories = Memories { on_chip: image(&list), external: vec![0; 4_096] };
    for sort in sorts() {
        let calls = session(&sort, length_of_session);
        let units = calls.len() / CALL;
        let out = vec![0; units * ANSWER + STATE];
        let mut work = Work::Run { calls, memories: memories.clone(), out };
        work.go(&Second);
        let (answers, state) = work.written().split_at(units * ANSWER);
        let said = answers.chunks(ANSWER).skip(sort.first.len());
        for (n, answer) in said.enumerate() {
            assert_eq!(answer[0], sort.answers[n % sort.answers.len()], "{}: {n}", sort.name);
        }
        let words = (sort.words)(length_of_session) as u32;
        assert_eq!(state[boundary::METERS_AT + 8..][..4], words.to_le_bytes(), "{}", sort.name);
        benches.push(Bench::new(format!("run: {}", sort.name), "call", units, work));
    }

    for (name, builds, list) in lists() {
        let work = Work::Build { list, builds, memory: vec![0xA5; 65_536] };
        benches.push(Bench::new(format!("build: {name}"), "build", builds, work));
    }

    for (name, _, checks, image) in images() {
        let work = Work::Check { image, checks };
        benches.push(Bench::new(format!("check: {name}"), "check", checks, work));
    }
    for (name, pages, lists, image) in images() {
        let work = Work::List { image, lists, out: vec![0; 12 * pages] };
        benches.push(Bench::new(format!("list: {name}"), "list", lists, work));
    }

    for (name, parts, signed, others) in pairs() {
        let mut new = signed.clone();
        for word in &others {
            new[4 * word] ^= 0x10;
        }
        // No refusal, a part of the new image, where it begins, how many words differ.
        let offset = others.first().map_or(new.len(), |word| 4 * word) as u64;
        let said = [1 << 32, offset, others.len() as u64].map(u64::to_le_bytes);
        let mut work = Work::Part { new, signed, parts, out: [0; PARTING] };
        work.go(&Second);
        assert_eq!(work.written(), said.concat(), "{name}");
        benches.push(Bench::new(format!("part: {name}"), "part", parts, work));
    }

    benches.extend(recordings(length_of_session, &memories));
    benches
}

/// What is done with recordings, and with their checks.
fn recordings(length_of_session: usize, memories: &Memories) -> Vec<Bench> {
    let mut benches = Vec::new();

    // The two sessions of P13, where they are no longer than a recording may be.
    for name in ["hits", "misses"] {
        let sort = sorts().into_iter().find(|sort| sort.name.starts_with(name)).expect("a session");
        let calls = session(&sort, length_of_session);
        let units = calls.len() / CALL;
        if units > MOST_CALLS {
            continue;
        }
        let mut answers = vec![0; units * ANSWER + STATE];
        boundary::run(&memories.lending(), &calls, &mut answers);
        let mut work = Work::Replay {
            recording: recording(&calls),
            calls: units,
            memories: memories.clone(),
            out: vec![0; calls.len() + answers.len()],
        };
        work.go(&Second);
        assert!(work.written() == [calls, answers].concat(), "{name}");
        benches.push(Bench::new(format!("recorded and replayed: {name}"), "call", units, work));
    }

    const MEBIBYTE: usize = 1 << 20;
    let units = MEBIBYTE / BLOCK * FULL;
    let calls = calls_of_every_kind(units);
    let recording = recording(&calls);
    let bytes = recording[..65_536].to_vec();
    let work = Work::Record { calls, out: vec![0; MEBIBYTE] };
    benches.push(Bench::new("record: 1 MiB".into(), "call", units, work).of_bytes(MEBIBYTE));
    let work = Work::Recorded { recording, out: vec![0; units * CALL] };
    benches.push(Bench::new("recorded: 1 MiB".into(), "call", units, work).of_bytes(MEBIBYTE));
    for (name, unit, units, length, crcs) in
        [("508 bytes", "crc", 1_000, 508, 1_000), ("64 KiB", "KiB", 20 * 64, 65_536, 20)]
    {
        let bytes = bytes[..length].to_vec();
        let work = Work::Crc { says: boundary::crc(&bytes), bytes, crcs };
        let bench = Bench::new(format!("crc: {name}"), unit, units, work);
        benches.push(bench.of_bytes(crcs * length));
    }
    benches
}

/// Both programs write the same bytes over other ones.
fn agree(work: &mut Work, programs: [&dyn Program; 2]) {
    let [first, second] = programs.map(|program| {
        work.written().fill(0x5A);
        work.go(program);
        work.written().to_vec()
    });
    assert!(first == second, "the two programs differ");
}

/// Nanoseconds for one unit, of one round.
fn round(bench: &mut Bench, program: &dyn Program, cleared: bool) -> f64 {
    if cleared {
        bench.work.written().fill(0);
    }
    let begun = Instant::now();
    bench.work.go(program);
    begun.elapsed().as_nanos() as f64 / bench.units as f64
}

/// Lower quartile, median, upper quartile.
fn quartiles(mut figures: Vec<f64>) -> [f64; 3] {
    figures.sort_by(f64::total_cmp);
    [1, 2, 3].map(|quarter| figures[(figures.len() - 1) * quarter / 4])
}

fn cell([low, median, high]: [f64; 3]) -> String {
    format!("{median:>9.1} ({low:.1} to {high:.1})")
}

/// Millions of bytes in a second, of each program whose median this is; nothing where bytes
/// are not told.
fn speeds(bench: &Bench, medians: &[f64]) -> String {
    let Some(bytes) = bench.bytes else {
        return String::new();
    };
    let speed =
        |median: &f64| format!("{:.0}", 1_000.0 * bytes as f64 / (median * bench.units as f64));
    medians.iter().map(speed).collect::<Vec<_>>().join(" and ")
}

/// What the command line asks for.
struct Asked {
    cleared: bool,
    length: usize,
    rounds: usize,
    only: String,
}

impl Asked {
    fn of(mut words: impl Iterator<Item = String>) -> Result<Asked, String> {
        let mut asked = Asked { cleared: false, length: 20_000, rounds: 41, only: String::new() };
        while let Some(word) = words.next() {
            let mut number = || {
                let value = words.next().and_then(|value| value.parse().ok()).filter(|n| *n > 0);
                value.ok_or_else(|| format!("{word} wants a number of at least 1"))
            };
            match word.as_str() {
                "--cleared" => asked.cleared = true,
                "--length" => asked.length = number()?,
                "--rounds" => asked.rounds = number()?,
                "--only" => asked.only = words.next().ok_or("--only wants words")?,
                _ => return Err(format!("{word} is no option")),
            }
        }
        Ok(asked)
    }
}

fn main() -> ExitCode {
    let Asked { cleared, length, rounds, only } = match Asked::of(std::env::args().skip(1)) {
        Ok(asked) => asked,
        Err(why) => {
            eprintln!("bench_speed: {why}; [--cleared] [--length N] [--rounds N] [--only WORDS]");
            return ExitCode::from(2);
        }
    };
    let native = native::linked();
    println!("{rounds} rounds of each program, interleaved; ns for one unit: median (quartiles).");
    let whether = if cleared { "cleared before each round" } else { "not cleared between rounds" };
    println!("Sessions of {length} calls; buffers are the same in every round and {whether}.");
    println!();
    println!(
        "{:<32} {:<6} {:>28} {:>28} {:>20} {:>14}",
        "what", "unit", "native", "second", "native / second", "MB a second"
    );
    for mut bench in benches(length).into_iter().filter(|bench| bench.name.contains(&only)) {
        if let Some(native) = &native {
            agree(&mut bench.work, [native, &Second]);
        }
        let mut times = [Vec::new(), Vec::new()];
        for n in 0..rounds + 2 {
            // The first two rounds warm up; who comes first changes.
            let mut one = |which: usize| {
                let program: &dyn Program = match (which, &native) {
                    (0, Some(native)) => native,
                    (0, None) => return,
                    _ => &Second,
                };
                let time = round(&mut bench, program, cleared);
                if n >= 2 {
                    times[which].push(time);
                }
            };
            one(n % 2);
            one(1 - n % 2);
        }
        let [natives, seconds] = times;
        let own = quartiles(seconds.clone());
        let (native, ratio, medians) = if natives.is_empty() {
            ("not linked".into(), "".into(), vec![own[1]])
        } else {
            let ratios = natives.iter().zip(&seconds).map(|(native, second)| native / second);
            let [low, median, high] = quartiles(ratios.collect());
            let native = quartiles(natives);
            let ratio = format!("{median:.2} ({low:.2} to {high:.2})");
            (cell(native), ratio, vec![native[1], own[1]])
        };
        let (second, speeds) = (cell(own), speeds(&bench, &medians));
        let Bench { name, unit, .. } = bench;
        println!("{name:<32} {unit:<6} {native:>28} {second:>28} {ratio:>20} {speeds:>14}");
    }
    if native.is_some() || std::env::var_os("NX_WITHOUT_NATIVE").is_some_and(|set| set == "1") {
        ExitCode::SUCCESS
    } else {
        println!();
        println!("libcapi.a was not there when this was built: there is no ratio.");
        ExitCode::FAILURE
    }
}
