//! The walk of address tables against QEMU's: that of an Arm v5 core, whose
//! descriptors are the unit's. A round has two images: one that the builder
//! makes of a random list, and a foreign one of random words. Every tiny page
//! below 2^24 is asked for, at a random place in it: of QEMU's monitor, by a
//! shift report and, in a built image, by a request for reading. What is
//! compared is the proved implementation, or where it is not linked the second
//! program.
//!
//! `ROUNDS` sets the rounds.

use second::boundary::{self, Lending, Program, Second, ANSWER, STATE, VALUE_AT};
use second::builder::MOST_RECORDS;
use second::dice::Dice;
use second::native;
use std::fmt;
use std::fs;
use std::io::{self, BufRead, BufReader, Write};
use std::path::PathBuf;
use std::process::{Child, ChildStdin, ChildStdout, Command, ExitCode, Stdio};
use std::time::{Duration, Instant};

/// Bytes of QEMU's memory, which begins at 0.
const RAM: u32 = 64 << 20;
/// Where the core starts, in a megabyte of its own. Images are below it.
const START: u32 = 32 << 20;
/// Bytes of the memory that holds an image.
const ROOM: u32 = 131_072;
/// The core's tables are at a multiple of this.
const ALIGNED: u32 = 16_384;
/// How long the core may take to turn its unit on.
const PATIENCE: Duration = Duration::from_secs(60);
/// Addresses that are asked of QEMU at once.
const BATCH: usize = 64;
/// Addresses shown of an image that is walked differently.
const SHOWN: usize = 5;

/// Bytes of a page, by type.
const SIZES: [u32; 4] = [1 << 20, 1 << 16, 1 << 12, 1 << 10];

/// What an address can lead to: the table of its last word, and what that word
/// is by its low bits.
const KINDS: [(&str, &str); 10] = [
    ("first", "fault"),
    ("first", "section"),
    ("coarse", "fault"),
    ("coarse", "large"),
    ("coarse", "small"),
    ("coarse", "tiny"),
    ("fine", "fault"),
    ("fine", "large"),
    ("fine", "small"),
    ("fine", "tiny"),
];
/// The one that the builder never writes: a translation fault.
const COARSE_TINY: usize = 5;

/// What was said of an address.
#[derive(Clone, Copy, PartialEq, Eq)]
enum Said {
    Physical(u32),
    Fault,
    /// An answer that is neither, by its number.
    Else(u32),
}

impl fmt::Display for Said {
    fn fmt(&self, f: &mut fmt::Formatter) -> fmt::Result {
        match self {
            Said::Physical(address) => write!(f, "{address:08X}"),
            Said::Fault => write!(f, "fault"),
            Said::Else(number) => write!(f, "number {number}"),
        }
    }
}

/// Tables at the base of ROOM bytes, of which the external memory has those from
/// `parted` on.
struct Image {
    bytes: Vec<u8>,
    base: u32,
    parted: u32,
    built: bool,
}

impl Image {
    fn empty(dice: &mut Dice, built: bool) -> Image {
        let base = ALIGNED * dice.below((START - ROOM) / ALIGNED + 1);
        Image { bytes: vec![0; ROOM as usize], base, parted: 4 * dice.below(ROOM / 4 + 1), built }
    }

    fn lending(&self) -> Lending<'_> {
        let (on, external) = self.bytes.split_at(self.parted as usize);
        let external_base = self.base + self.parted;
        Lending { external, external_base, ..Lending::plain(on, self.base) }
    }

    fn put(&mut self, offset: u32, word: u32) {
        self.bytes[offset as usize..][..4].copy_from_slice(&word.to_le_bytes());
    }

    fn word(&self, address: u32) -> Option<u32> {
        let bytes = self.bytes.get(address.wrapping_sub(self.base) as usize..)?;
        Some(u32::from_le_bytes(*bytes.first_chunk()?))
    }

    /// The words that an address leads to, and which of KINDS that is.
    fn words(&self, address: u32) -> (u32, Option<u32>, usize) {
        let first = self.word(self.base + 4 * (address >> 20)).expect("the first table");
        let low = |word: Option<u32>| word.map_or(0, |word| word as usize & 3);
        match first & 3 {
            0 => (first, None, 0),
            1 => {
                let word = self.word(first & !0x3FF | (address >> 12 & 0xFF) << 2);
                (first, word, 2 + low(word))
            }
            2 => (first, None, 1),
            _ => {
                let word = self.word(first & !0xFFF | (address >> 10 & 0x3FF) << 2);
                (first, word, 6 + low(word))
            }
        }
    }
}

fn record(dice: &mut Dice, start: u32, kind: usize) -> [u8; 12] {
    let physical = dice.word() & !(SIZES[kind] - 1);
    let mut bytes = [0; 12];
    bytes[..4].copy_from_slice(&start.to_le_bytes());
    bytes[4..8].copy_from_slice(&physical.to_le_bytes());
    bytes[8] = kind as u8;
    // No writers where the tables may be.
    bytes[9] = if physical < RAM { 2 } else { dice.pick(&[2, 3]) };
    bytes
}

/// What is in the region of a page of this kind: nothing, the page, or regions of
/// the next kind, down to the last.
fn region(dice: &mut Dice, start: u32, kind: usize, last: usize, list: &mut Vec<[u8; 12]>) {
    match dice.below(if kind < last { 3 } else { 2 }) {
        0 => (),
        1 => list.push(record(dice, start, kind)),
        _ => regions(dice, start, kind + 1, last, list),
    }
}

/// The regions of a kind that make up one of the kind before it.
fn regions(dice: &mut Dice, start: u32, kind: usize, last: usize, list: &mut Vec<[u8; 12]>) {
    for part in 0..SIZES[kind - 1] / SIZES[kind] {
        region(dice, start + part * SIZES[kind], kind, last, list);
    }
}

/// A list with empty megabytes, sections, megabytes of large and small pages, and
/// megabytes of large, small and tiny ones.
fn random_list(dice: &mut Dice) -> Vec<u8> {
    // The last kind in each megabyte.
    let mut megabytes = [None; 16];
    megabytes[2..5].fill(Some(0));
    megabytes[5..10].fill(Some(2));
    megabytes[10..].fill(Some(3));
    dice.shuffle(&mut megabytes);
    let mut list = Vec::new();
    for (start, last) in (0..).step_by(1 << 20).zip(megabytes) {
        match last {
            None => (),
            Some(0) => list.push(record(dice, start, 0)),
            Some(last) => regions(dice, start, 1, last, &mut list),
        }
    }
    dice.shuffle(&mut list);
    list.truncate(MOST_RECORDS);
    list.concat()
}

/// The image of a random list, as the program builds it.
fn built(program: &dyn Program, dice: &mut Dice) -> Result<Image, String> {
    let mut image = Image::empty(dice, true);
    let length = program.build(&random_list(dice), image.base, &mut image.bytes);
    if length >> 63 == 1 {
        return Err(format!("the builder refuses a list: {length:016X}"));
    }
    Ok(image)
}

/// Random words, and tables anywhere among them, which may overlap. No groups are
/// equal, and ignored bits are random.
fn foreign(dice: &mut Dice) -> Image {
    let mut image = Image::empty(dice, false);
    dice.fill(&mut image.bytes);
    let mut kinds = [0, 0, 1, 1, 1, 1, 1, 1, 2, 2, 3, 3, 3, 3, 3, 3];
    dice.shuffle(&mut kinds);
    for (n, kind) in (0..).zip(kinds) {
        let mut table = |size| image.base + dice.below(ROOM / size) * size;
        let (table, other) = match kind {
            1 => (table(1_024), 0x3FC),
            3 => (table(4_096), 0xFFC),
            _ => (0, !3),
        };
        image.put(4 * n, table | dice.word() & other | kind);
    }
    image
}

fn call(kind: u8, second: u8, address: u32, value: u16) -> [u8; 12] {
    let mut bytes = [kind, second, 0, 0, 0, 0, 0, 0, 0, 0, 0, 0];
    bytes[4..8].copy_from_slice(&address.to_le_bytes());
    bytes[8..10].copy_from_slice(&value.to_le_bytes());
    bytes
}

/// What the program answers to calls on a unit that is on and walking: number and
/// value of each.
fn answers(program: &dyn Program, image: &Image, calls: Vec<[u8; 12]>) -> Vec<(u32, i64)> {
    let write = |offset, value| call(boundary::WRITE, offset, 0, value);
    let (high, low) = ((image.base >> 16) as u16, image.base as u16);
    let start = vec![write(0x1C, high), write(0x20, low), write(0x08, 7)];
    let all = [start, calls].concat();
    let mut out = vec![0; all.len() * ANSWER + STATE];
    let written = program.run(&image.lending(), &all.concat(), &mut out);
    assert_eq!(written as usize, out.len(), "the calls are not run");
    out.truncate(all.len() * ANSWER);
    let said = out.chunks(ANSWER).map(|answer| {
        let number = u32::from_le_bytes(*answer.first_chunk().expect("four bytes"));
        (number, i64::from_le_bytes(*answer[VALUE_AT..].first_chunk().expect("eight bytes")))
    });
    let mut said: Vec<_> = said.collect();
    assert!(said.drain(..3).all(|(number, _)| number == 0), "the unit is not set");
    said
}

/// What an answer says, where `page` is the number of one with an address.
fn reading((number, value): (u32, i64), page: u32) -> Said {
    match (number, u32::try_from(value)) {
        (21, _) => Said::Fault,
        (number, Ok(address)) if number == page => Said::Physical(address),
        _ => Said::Else(number),
    }
}

/// What the program says of each address by shift reports.
fn by_shifts(program: &dyn Program, image: &Image, addresses: &[u32]) -> Vec<Said> {
    let calls = addresses.iter().map(|address| call(boundary::SHIFT, 0, *address, 0)).collect();
    let said = answers(program, image, calls).into_iter().zip(addresses);
    said.map(|((number, shift), address)| reading((number, shift + i64::from(*address)), 102))
        .collect()
}

/// What it says by requests for reading, with a drop after each.
fn by_requests(program: &dyn Program, image: &Image, addresses: &[u32]) -> Vec<Said> {
    let drop = call(boundary::DROP, 0, 0, 0);
    let calls =
        addresses.iter().flat_map(|address| [call(boundary::REQUEST, 0, *address, 0), drop]);
    let said = answers(program, image, calls.collect());
    let each = said.chunks(2).map(|pair| match (reading(pair[0], 100), pair[1].0) {
        // Refused where no fault is pending.
        (Said::Fault, 0) => Said::Fault,
        (Said::Physical(address), 7) => Said::Physical(address),
        (Said::Else(number), _) | (_, number) => Said::Else(number),
    });
    each.collect()
}

/// A fresh folder, removed with what is in it.
struct Folder(PathBuf);

impl Folder {
    fn fresh() -> io::Result<Folder> {
        let mut n = 0;
        loop {
            let name = format!("against-qemu-{}-{n}", std::process::id());
            let path = std::env::temp_dir().join(name);
            match fs::create_dir(&path) {
                Ok(()) => return Ok(Folder(path)),
                Err(why) if why.kind() == io::ErrorKind::AlreadyExists => n += 1,
                Err(why) => return Err(why),
            }
        }
    }
}

impl Drop for Folder {
    fn drop(&mut self) {
        let _ = fs::remove_dir_all(&self.0);
    }
}

/// A QEMU that has stopped with an image's tables on, and its monitor. It is
/// killed when this is dropped, and when this program is killed.
struct Qemu {
    child: Child,
    asked: ChildStdin,
    said: BufReader<ChildStdout>,
}

impl Drop for Qemu {
    fn drop(&mut self) {
        let _ = self.child.kill();
        let _ = self.child.wait();
    }
}

impl Qemu {
    /// What the core runs: it takes the tables, is manager of every domain, so
    /// that access bits play no part, turns its unit on, and reads all three back.
    fn program(base: u32) -> Vec<u8> {
        let words: [u32; 13] = [
            0xE59F_0028, // ldr r0, the last word
            0xEE02_0F10, // mcr p15, 0, r0, c2, c0, 0 (tables)
            0xE3E0_1000, // mvn r1, #0
            0xEE03_1F10, // mcr p15, 0, r1, c3, c0, 0 (domains)
            0xEE11_2F10, // mrc p15, 0, r2, c1, c0, 0 (control)
            0xE382_2001, // orr r2, r2, #1
            0xEE01_2F10, // mcr p15, 0, r2, c1, c0, 0
            0xEE12_4F10, // mrc p15, 0, r4, c2, c0, 0
            0xEE13_5F10, // mrc p15, 0, r5, c3, c0, 0
            0xEE11_6F10, // mrc p15, 0, r6, c1, c0, 0
            0xE3A0_705A, // mov r7, #0x5A
            0xEAFF_FFFE, // b to itself
            base,
        ];
        words.map(u32::to_le_bytes).concat()
    }

    /// A QEMU with this image. The core's own megabyte is a section in it, whose
    /// first-level word no address below 2^24 leads to.
    fn start(image: &mut Image) -> Result<Qemu, String> {
        let folder = Folder::fresh().map_err(|why| format!("no folder: {why}"))?;
        image.put(4 * (START >> 20), START | 2);
        for (name, bytes) in [("program", &Qemu::program(image.base)), ("image", &image.bytes)] {
            fs::write(folder.0.join(name), bytes).map_err(|why| format!("{name}: {why}"))?;
        }
        let mut child = Command::new("setpriv")
            .current_dir(&folder.0)
            .args(["--pdeathsig", "KILL", "qemu-system-arm"])
            .args(["-M", "none", "-cpu", "arm926", "-m", &format!("{}M", RAM >> 20)])
            .args(["-nodefaults", "-display", "none", "-qmp", "stdio"])
            .args(["-device", &format!("loader,file=program,addr={START:#x},force-raw=on")])
            .args(["-device", &format!("loader,file=image,addr={:#x},force-raw=on", image.base)])
            .args(["-device", &format!("loader,addr={START:#x},cpu-num=0")])
            .stdin(Stdio::piped())
            .stdout(Stdio::piped())
            .spawn()
            .map_err(|why| format!("setpriv: {why}"))?;
        let asked = child.stdin.take().expect("piped");
        let said = BufReader::new(child.stdout.take().expect("piped"));
        let mut qemu = Qemu { child, asked, said };
        qemu.ask(r#"{"execute":"qmp_capabilities"}"#)?;
        let begun = Instant::now();
        while qemu.register(7)? != 0x5A {
            if begun.elapsed() > PATIENCE {
                return Err("QEMU's core does not turn its unit on".into());
            }
            std::thread::sleep(Duration::from_millis(2));
        }
        qemu.ask(r#"{"execute":"stop"}"#)?;
        let set = (qemu.register(4)?, qemu.register(5)?, qemu.register(6)? & 1);
        if set != (image.base, !0, 1) {
            return Err(format!("QEMU's core has {set:X?} as tables, domains and control"));
        }
        Ok(qemu)
    }

    fn tell(&mut self, lines: &[String]) -> Result<(), String> {
        let text = lines.join("\n") + "\n";
        self.asked.write_all(text.as_bytes()).map_err(|why| format!("QEMU: {why}"))
    }

    /// The next answer; events are passed over.
    fn answer(&mut self) -> Result<String, String> {
        loop {
            let mut line = String::new();
            if self.said.read_line(&mut line).map_err(|why| format!("QEMU: {why}"))? == 0 {
                return Err("QEMU has ended".into());
            }
            if let Some(answer) = line.strip_prefix(r#"{"return": "#) {
                return Ok(answer.into());
            }
            if line.starts_with(r#"{"error""#) {
                return Err(format!("QEMU: {line}"));
            }
        }
    }

    fn ask(&mut self, line: &str) -> Result<String, String> {
        self.tell(&[line.into()])?;
        self.answer()
    }

    /// The line that hands words to the monitor.
    fn monitor(words: &str) -> String {
        format!(r#"{{"execute":"human-monitor-command","arguments":{{"command-line":"{words}"}}}}"#)
    }

    fn register(&mut self, n: usize) -> Result<u32, String> {
        let answer = self.ask(&Qemu::monitor("info registers"))?;
        let value = answer.split_once(&format!("R{n:02}=")).and_then(|(_, rest)| rest.get(..8));
        let value = value.and_then(|digits| u32::from_str_radix(digits, 16).ok());
        value.ok_or_else(|| format!("QEMU: no register {n} in {answer}"))
    }

    fn version(&mut self) -> Result<String, String> {
        let answer = self.ask(&Qemu::monitor("info version"))?;
        let version = answer.trim_start_matches('"').chars();
        Ok(version.take_while(|sign| sign.is_ascii_digit() || *sign == '.').collect())
    }

    /// What an answer to `gva2gpa` says: `gpa: 0x1234`, `gpa: 0` or `Unmapped`.
    fn translation(answer: &str) -> Option<Said> {
        let text = answer.strip_prefix('"')?.split('\\').next()?;
        if text == "Unmapped" {
            return Some(Said::Fault);
        }
        let digits = text.strip_prefix("gpa: ")?;
        let digits = digits.strip_prefix("0x").unwrap_or(digits);
        u32::from_str_radix(digits, 16).ok().map(Said::Physical)
    }

    /// What QEMU says of each address.
    fn walk(&mut self, addresses: &[u32]) -> Result<Vec<Said>, String> {
        let mut said = Vec::new();
        for batch in addresses.chunks(BATCH) {
            let line = |address| Qemu::monitor(&format!("gva2gpa {address:#x}"));
            self.tell(&batch.iter().map(line).collect::<Vec<_>>())?;
            for _ in batch {
                let answer = self.answer()?;
                let one = Qemu::translation(&answer);
                said.push(one.ok_or_else(|| format!("QEMU: gva2gpa answers {answer}"))?);
            }
        }
        Ok(said)
    }
}

/// What all images came to.
#[derive(Default)]
struct Tally {
    images: usize,
    addresses: usize,
    differ: usize,
    /// Addresses by kind, of foreign images and of built ones.
    met: [[usize; 10]; 2],
    version: String,
}

/// Walks one image both ways, and says what it held and where they differ.
fn compare(
    program: &dyn Program,
    mut image: Image,
    dice: &mut Dice,
    tally: &mut Tally,
) -> Result<(), String> {
    let addresses: Vec<u32> = (0..1 << 14).map(|page| page << 10 | dice.below(1 << 10)).collect();
    let mut qemu = Qemu::start(&mut image)?;
    let theirs = qemu.walk(&addresses)?;
    tally.version = qemu.version()?;
    drop(qemu);
    let mut ways = vec![("shift report", by_shifts(program, &image, &addresses))];
    if image.built {
        ways.push(("request", by_requests(program, &image, &addresses)));
    }

    let mut met = [0; 10];
    let mut different = Vec::new();
    for (n, (address, theirs)) in addresses.iter().zip(theirs).enumerate() {
        let (first, second, kind) = image.words(*address);
        met[kind] += 1;
        if ways.iter().any(|(_, ours)| ours[n] != theirs) {
            let second = second.map_or(String::new(), |word| format!(" {word:08X}"));
            let ours = ways.iter().map(|(way, ours)| format!(", {way} {}", ours[n]));
            let ours: String = ours.collect();
            different.push(format!("  {address:06X} ({first:08X}{second}): QEMU {theirs}{ours}"));
        }
    }
    let name = if image.built { "built" } else { "foreign" };
    let counts = met.map(|count| format!(" {count:>7}")).concat();
    println!("{name:<7}{counts} {:>7}", different.len());
    for line in different.iter().take(SHOWN) {
        println!("{line}");
    }
    tally.images += 1;
    tally.addresses += addresses.len();
    tally.differ += different.len();
    for (all, count) in tally.met[usize::from(image.built)].iter_mut().zip(met) {
        *all += count;
    }
    Ok(())
}

/// The last line; or why there is none.
fn go(rounds: u64) -> Result<String, String> {
    let native = native::linked();
    let program: &dyn Program = match &native {
        Some(native) => native,
        None => &Second,
    };
    let name = program.name();
    if native.is_none() {
        println!("libcapi.a was not there when this was built: the second program is compared.");
    }
    println!("Addresses of each image by the last word that they lead to, and how many of them");
    println!("QEMU and the {name} program walk differently:");
    println!("{:<7}{}", "", KINDS.map(|(table, _)| format!(" {table:>7}")).concat());
    println!("{:<7}{}  differ", "", KINDS.map(|(_, word)| format!(" {word:>7}")).concat());

    let mut tally = Tally::default();
    for round in 0..rounds {
        let mut dice = Dice::new(round);
        let image = built(program, &mut dice)?;
        compare(program, image, &mut dice, &mut tally)?;
        let image = foreign(&mut dice);
        compare(program, image, &mut dice, &mut tally)?;
    }

    let Tally { images, addresses, differ, met, version } = tally;
    let all = format!("{addresses} addresses of {images} images");
    let who = format!("QEMU {version} and the {name} program");
    if differ > 0 {
        return Err(format!("{differ} of {all} walked differently by {who}"));
    }
    for (sort, met) in ["foreign", "built"].into_iter().zip(met) {
        for (n, (table, word)) in KINDS.into_iter().enumerate() {
            if met[n] == 0 && (sort == "foreign" || n != COARSE_TINY) {
                return Err(format!("no {sort} image led to: {table} {word}"));
            }
        }
    }
    Ok(format!("{all} walked alike by {who}"))
}

fn main() -> ExitCode {
    let words: Vec<String> = std::env::args().skip(1).collect();
    let rounds = match words.as_slice() {
        [] => Some(4),
        [word] => word.parse().ok().filter(|n| *n > 0),
        _ => None,
    };
    let Some(rounds) = rounds else {
        eprintln!("against-qemu: [ROUNDS], a number of at least 1");
        return ExitCode::from(2);
    };
    match go(rounds) {
        Ok(line) => {
            println!("against-qemu: {line}");
            ExitCode::SUCCESS
        }
        Err(why) => {
            eprintln!("against-qemu: {why}");
            ExitCode::FAILURE
        }
    }
}
