//! Recorded sessions (P1): writer, reader and check of the second program and of the proved
//! implementation against each other, against the definition, and against what is said here
//! by hand; then sessions replayed.
//!
//! NX_LONG, NX_SEED and NX_WITHOUT_NATIVE are as for `differential.rs`.

mod common;

use common::callers;
use common::recordings::*;
use common::spoiled::*;
use common::worlds::{self, World};
use common::*;
use second::boundary::{Program, Second, ANSWER, STATE};
use second::dice::Dice;
use std::fmt::Display;

/// What a list or a recording comes to: the bytes that are written, or a refusal.
type Said = Result<Vec<u8>, u64>;

/// What a program is called for, with the room that it writes to.
type Go<'a> = &'a dyn Fn(&dyn Program, &mut [u8]) -> u64;

impl Bench {
    /// Records a list with both programs, in rooms of every sort, and compares what they
    /// answer and every byte in and about the room with the definition; read back it is that
    /// list. Gives what the definition says.
    fn record(&mut self, calls: &[u8], title: impl Display) -> Said {
        let said = recording_of(calls);
        let enough = BLOCK * (calls.len() / RECORD / FULL + 1);
        for (how, room) in rooms(&said, enough) {
            let go: Go = &|program, out| program.record(calls, out);
            self.lent(go, room, &said, format_args!("{title}, record, room {how}"));
            self.seen.see(format!("record, room {how}"));
        }
        see_calls(&mut self.seen, calls, &said);
        if let Ok(recording) = &said {
            let go: Go = &|program, out| program.recorded(recording, out);
            self.lent(go, calls.len(), &Ok(calls.into()), format_args!("{title}, read back"));
        }
        said
    }

    /// Reads a recording likewise; recorded again it is that recording.
    fn recorded(&mut self, recording: &[u8], title: impl Display) -> Said {
        let said = calls_of(recording);
        for (how, room) in rooms(&said, recording.len()) {
            let go: Go = &|program, out| program.recorded(recording, out);
            self.lent(go, room, &said, format_args!("{title}, recorded, room {how}"));
            self.seen.see(format!("recorded, room {how}"));
        }
        see_recording(&mut self.seen, recording, &said);
        if let Ok(calls) = &said {
            let go: Go = &|program, out| program.record(calls, out);
            let again = Ok(recording.into());
            self.lent(go, recording.len(), &again, format_args!("{title}, recorded again"));
        }
        said
    }

    /// Both programs in a room of so many bytes, with others before and after it.
    fn lent(&self, go: Go, room: usize, said: &Said, title: impl Display) {
        const DIRT: u8 = 0xC3;
        const AFTER: usize = 8;
        let (answer, written): (u64, &[u8]) = match said {
            Ok(bytes) if room >= bytes.len() => (bytes.len() as u64, bytes),
            Ok(bytes) => (refused(12, bytes.len() as u64), &[]),
            Err(refusal) => (*refusal, &[]),
        };
        for program in self.programs() {
            let name = program.name();
            let before = 1 + room % 8;
            let mut out = vec![DIRT; before + room + AFTER];
            let got = go(program, &mut out[before..before + room]);
            assert_eq!(got, answer, "{title}, {name}: {got:x} {answer:x}");
            let (before, rest) = out.split_at(before);
            let (got, after) = rest.split_at(written.len());
            if got != written {
                let at = (0..got.len()).find(|&at| got[at] != written[at]).expect("one differs");
                panic!("{title}, {name}: byte {at:x} is {:x}, not {:x}", got[at], written[at]);
            }
            let others = |bytes: &[u8]| bytes.iter().filter(|&&byte| byte != DIRT).count();
            assert_eq!(others(before) + others(after), 0, "{title}, {name}: others are written");
        }
    }

    /// A recording whose first bad block is that one.
    fn refuse(&mut self, recording: &[u8], index: u64, title: impl Display) {
        let said = self.recorded(recording, &title);
        assert_eq!(said.err(), Some(refused(16, index)), "{title}");
    }

    /// A list whose first bad call is that one.
    fn refuse_list(&mut self, calls: &[u8], index: u64, title: impl Display) {
        let said = self.record(calls, &title);
        assert_eq!(said.err(), Some(refused(16, index)), "{title}");
    }

    fn demand(&self, least: u64, names: &[&str]) {
        self.seen.demand(least, &names.iter().map(|&name| name.into()).collect::<Vec<_>>());
    }
}

/// The rooms that are lent where this is said, and how long they are. Where it is refused 16
/// one is empty and one has enough; of large ones there are fewer.
fn rooms(said: &Said, enough: usize) -> Vec<(&'static str, usize)> {
    const LARGE: usize = 1 << 20;
    let need = match said {
        Err(_) if enough > LARGE => return vec![("enough, refused 16", enough)],
        Err(_) => return vec![("none, refused 16", 0), ("enough, refused 16", enough)],
        Ok(bytes) => bytes.len(),
    };
    if need > LARGE {
        return vec![("a byte short", need - 1), ("exactly", need)];
    }
    let mut rooms = vec![("exactly", need), ("a byte longer", need + 1), ("longer", need + 99)];
    if need > 0 {
        let record = ("a record short", need - RECORD);
        rooms.extend([("none", 0), ("a byte short", need - 1), record]);
    }
    rooms
}

/// The rooms of both functions where something is written or there is too little room, and
/// where it is refused 16.
fn all_rooms(refused_16: bool) -> Vec<String> {
    let hows: &[&str] = match refused_16 {
        true => &["none, refused 16", "enough, refused 16"],
        false => &["none", "a record short", "a byte short", "exactly", "a byte longer", "longer"],
    };
    let each = |what| hows.iter().map(move |how| format!("{what}, room {how}"));
    ["record", "recorded"].into_iter().flat_map(each).collect()
}

/// Checks that others have published, and zlib's of a block's first 508 bytes.
#[test]
fn published_checks() {
    let _turn = turn();
    let bench = Bench::new();
    let drop: Vec<u8> = block(1, 0, &drop_fault())[..CHECK_AT].to_vec();
    let rows: [(&[u8], u32); 12] = [
        (b"123456789", 0xCBF4_3926),
        (b"", 0),
        (b"a", 0xE8B7_BE43),
        (b"abc", 0x3524_41C2),
        (b"The quick brown fox jumps over the lazy dog", 0x414F_A339),
        (&[0; 32], 0x190A_55AD),
        (&[0xFF; 32], 0xFF6C_AB0B),
        (&[0], 0xD202_EF8D),
        (&[0; 4], 0x2144_DF1C),
        (&[0xFF; 4], 0xFFFF_FFFF),
        (&[0; 508], 0x0FBB_6D54),
        (&drop, 0xF8F4_FD81),
    ];
    for (bytes, published) in rows {
        assert_eq!(check(bytes), published, "{bytes:x?}");
        for program in bench.programs() {
            assert_eq!(program.crc(bytes), published.into(), "{}: {bytes:x?}", program.name());
        }
    }
}

/// Any bytes of every length up to 2,000, and some longer, from every start.
#[test]
fn checks_of_any_bytes() {
    let _turn = turn();
    let bench = Bench::new();
    let mut dice = Dice::new(seed(0x01C0));
    for length in (0..=2_000).chain([4_096, 65_535, 65_536, 131_077]) {
        let mut bytes = vec![dice.pick(&[0, 0xFF, 0x55]); length];
        if !dice.once_in(20) {
            dice.fill(&mut bytes);
        }
        let says = u64::from(check(&bytes));
        for start in 0..8 {
            let mut buffer = vec![dice.word() as u8; length + 16];
            buffer[start..start + length].copy_from_slice(&bytes);
            for program in bench.programs() {
                let got = program.crc(&buffer[start..start + length]);
                let name = program.name();
                assert_eq!(got, says, "{name}, {length} bytes at {start}: {got:x} {says:x}");
            }
        }
    }
}

/// Every bit of a block's first bytes: one that is turned turns the check.
#[test]
fn checks_of_every_bit() {
    let _turn = turn();
    let bench = Bench::new();
    let mut dice = Dice::new(seed(0x01C1));
    for fill in [Some(0), Some(0xFF), None] {
        let mut bytes = vec![fill.unwrap_or(0); CHECK_AT];
        if fill.is_none() {
            dice.fill(&mut bytes);
        }
        let plain = check(&bytes);
        for bit in 0..8 * CHECK_AT {
            bytes[bit / 8] ^= 1 << (bit % 8);
            let says = check(&bytes);
            assert_ne!(says, plain, "bit {bit}");
            for program in bench.programs() {
                assert_eq!(program.crc(&bytes), says.into(), "{}, bit {bit}", program.name());
            }
            bytes[bit / 8] ^= 1 << (bit % 8);
        }
    }
}

/// Recordings to the byte: counts, numbers, calls, zeros, and zlib's checks.
#[test]
fn written_by_hand() {
    let _turn = turn();
    let mut bench = Bench::new();
    let block = |start: &[u8], check: [u8; 4]| {
        let mut block = start.to_vec();
        block.resize(CHECK_AT, 0);
        [&block[..], &check].concat()
    };
    let one = block(&[1, 0, 0, 0, 4], [0x81, 0xFD, 0xF4, 0xF8]);
    let each = [
        &[5, 0, 0, 0][..],
        &[1, 0x08, 0, 0, 0, 0, 0, 0, 7, 0, 0, 0],
        &[2, 0xFE, 0, 0, 0, 0, 0, 0, 0, 0, 0, 0],
        &[3, 1, 0, 0, 0x78, 0x56, 0x34, 0x12, 0, 0, 0, 0],
        &[4, 0, 0, 0, 0, 0, 0, 0, 0, 0, 0, 0],
        &[5, 0, 0, 0, 0xFF, 0xFF, 0xFF, 0xFF, 0, 0, 0, 0],
    ]
    .concat();
    let five = block(&each, [0xE5, 0x44, 0xEC, 0xC5]);
    let drops = drop_fault().repeat(42);
    let full = block(&[&[42, 0, 0, 0], &drops[..]].concat(), [0x9E, 0xFB, 0x47, 0xD3]);
    let next = block(&[1, 0, 1, 0, 4], [0x3E, 0x9B, 0x4F, 0xCA]);
    let rows: [(&str, Vec<u8>, Vec<u8>); 5] = [
        ("no call", vec![], vec![]),
        ("one drop", drop_fault().to_vec(), one),
        ("a call of each kind", each[4..].to_vec(), five),
        ("42 drops", drops, full.clone()),
        ("43 drops", drop_fault().repeat(43), [full, next].concat()),
    ];
    for (name, calls, recording) in rows {
        assert!(bench.record(&calls, name).as_ref() == Ok(&recording), "{name}");
        assert!(bench.recorded(&recording, name) == Ok(calls), "{name}");
    }
}

/// Every number of calls up to 130: blocks of 42, and no more than that.
#[test]
fn every_number_of_calls() {
    let _turn = turn();
    let mut bench = Bench::new();
    let mut dice = Dice::new(seed(0x0110));
    for count in (0..=130).chain([167, 168, 169, 420, 1_000, 4_242]) {
        for _ in 0..4 {
            let calls = drawn_calls(&mut dice, count);
            let recording = bench.record(&calls, format_args!("{count} calls")).expect("as said");
            assert_eq!(recording.len(), 512 * count.div_ceil(42));
            let said = bench.recorded(&recording, format_args!("{count} calls"));
            assert!(said == Ok(calls), "{count} calls");
        }
    }
    bench.seen.demand(4, &[all_lengths(), all_calls(), all_rooms(false)].concat());
}

/// Every byte of a call of every kind is every other byte: by hand, whether that is a call.
#[test]
fn every_byte_of_every_kind() {
    let _turn = turn();
    let mut bench = Bench::new();
    for call in each_kind() {
        for (at, byte) in (0..RECORD).flat_map(|at| (0..=255).map(move |byte| (at, byte))) {
            let mut other = call;
            other[at] = byte;
            let says = match (call[0], at) {
                // Another kind that uses no fewer fields.
                (kind, 0) => {
                    kind == byte || matches!((kind, byte), (2, 1) | (4, 1 | 2 | 3 | 5) | (5, 3))
                }
                (1 | 2, 1) | (1, 8 | 9) | (3 | 5, 4..=7) => true,
                (3, 1) => byte <= 1,
                _ => byte == 0,
            };
            let title = format!("{other:02x?}");
            assert_eq!(bench.record(&other, &title).is_ok(), says, "{title}");
            let recording = block(1, 0, &other);
            assert_eq!(bench.recorded(&recording, &title).is_ok(), says, "{title}");
        }
    }
    bench.demand(1_000, &["only call not as said", "accepted", "refused for record"]);
}

/// Each form of a bad call at the first, a middle and the last place of lists of any length,
/// and in each block of a recording whose checks are right.
#[test]
fn calls_not_as_said() {
    let _turn = turn();
    let mut bench = Bench::new();
    let mut dice = Dice::new(seed(0x0111));
    for (name, bad) in spoiled() {
        for count in [1, 2, 3, 41, 42, 43, 84, 100, 127] {
            let calls = drawn_calls(&mut dice, count);
            let recording = recording_of(&calls).expect("as said");
            for at in [0, count / 2, dice.below(count as u32) as usize, count - 1] {
                let title = format!("{name}, call {at} of {count}");
                let mut calls = calls.clone();
                calls[RECORD * at..][..RECORD].copy_from_slice(&bad);
                bench.refuse_list(&calls, at as u64, &title);
                let mut recording = recording.clone();
                let index = at / FULL;
                let block = &mut recording[BLOCK * index..][..BLOCK];
                block[4 + RECORD * (at % FULL)..][..RECORD].copy_from_slice(&bad);
                bench.refuse(&recording, index as u64, format_args!("{title}, check wrong"));
                put_check(&mut recording[BLOCK * index..][..BLOCK]);
                bench.refuse(&recording, index as u64, format_args!("{title}, check right"));
                assert_eq!(faults(&recording, index), ["record"], "{title}");
            }
            bench.seen.see(name);
        }
    }
    let mut names: Vec<String> = SPOILED.iter().map(|spoiled| spoiled.1.into()).collect();
    names.extend([places("call not as said"), places("block bad")].concat());
    names.extend(refused_for(&["record", "check and record"]));
    names.extend(all_rooms(true));
    bench.seen.demand(9, &names);
}

/// Lists whose length is no multiple of 12: the call that is short is bad, whatever is
/// left of it.
#[test]
fn lists_cut_short() {
    let _turn = turn();
    let mut bench = Bench::new();
    let mut dice = Dice::new(seed(0x0112));
    for count in (0..=90).chain([125, 126, 127]) {
        let calls = drawn_calls(&mut dice, count + 1);
        for over in 1..RECORD {
            let length = RECORD * count + over;
            let title = format_args!("{length} bytes");
            bench.refuse_list(&calls[..length], count as u64, title);
            let zeros = [&calls[..RECORD * count], &vec![0; over]].concat();
            bench.refuse_list(&zeros, count as u64, title);
        }
    }
    bench.demand(10, &["only call short", "last call short"]);
}

/// Of two bad calls or blocks the first is named, whatever is wrong with them.
#[test]
fn the_first_bad_one_is_named() {
    let _turn = turn();
    let mut bench = Bench::new();
    let mut dice = Dice::new(seed(0x0113));
    let bad: Vec<Call> = spoiled().map(|(_, call)| call).collect();
    for round in 0..1_000 * long() {
        let count = 43 + dice.below(200);
        let (first, second) = two_below(&mut dice, count);
        let mut calls = drawn_calls(&mut dice, count as usize);
        for at in [first, second] {
            calls[RECORD * at..][..RECORD].copy_from_slice(&dice.pick(&bad));
        }
        calls.truncate(calls.len() - dice.below(2) as usize);
        bench.refuse_list(&calls, first as u64, format_args!("list {round}"));

        let mut recording = drawn_recording(&mut dice, count as usize);
        let (first, second) = two_below(&mut dice, count.div_ceil(FULL as u32));
        for index in [first, second] {
            spoil(&mut dice, &mut recording[BLOCK * index..][..BLOCK]);
        }
        recording.truncate(recording.len() - dice.below(2) as usize);
        bench.refuse(&recording, first as u64, format_args!("recording {round}"));
    }
    let faults = ["check", "number", "count of 0 and unused byte", "count over 42", "record"];
    bench.seen.demand(20, &refused_for(&faults));
}

/// Two different numbers below that one, the lower one first.
fn two_below(dice: &mut Dice, bound: u32) -> (usize, usize) {
    let first = dice.below(bound - 1);
    let second = first + 1 + dice.below(bound - first - 1);
    (first as usize, second as usize)
}

/// Every bit of a block turned: of a full one, of one not full, of either with blocks before
/// or after it. The check says so.
#[test]
fn every_bit_of_a_block() {
    let _turn = turn();
    let mut bench = Bench::new();
    let mut dice = Dice::new(seed(0x0120));
    for (count, index) in [(42, 0), (5, 0), (126, 1), (84, 0), (85, 2)] {
        let recording = drawn_recording(&mut dice, count);
        for bit in 0..8 * BLOCK {
            let mut other = recording.clone();
            other[BLOCK * index + bit / 8] ^= 1 << (bit % 8);
            let title = format_args!("{count} calls, bit {bit} of block {index}");
            bench.refuse(&other, index as u64, title);
            bench.seen.see_if(faults(&other, index)[0] == "check", "turned, the check wrong");
        }
    }
    assert_eq!(bench.seen.count("turned, the check wrong"), 5 * 4_096);
    bench.seen.demand(4_096, &places("block bad"));
}

/// A block of fewer bytes than 512: after none, one and more full ones, and after one that is
/// not full.
#[test]
fn recordings_cut_short() {
    let _turn = turn();
    let mut bench = Bench::new();
    let mut dice = Dice::new(seed(0x0121));
    for blocks in [0, 1, 2, 3] {
        let recording = drawn_recording(&mut dice, FULL * (blocks + 1));
        let head = &recording[..BLOCK * blocks];
        for length in 1..BLOCK {
            let title = format_args!("{blocks} blocks, {length} bytes");
            bench.refuse(&recording[..head.len() + length], blocks as u64, title);
            let zeros = [head, &vec![0; length]].concat();
            bench.refuse(&zeros, blocks as u64, title);
        }
        bench.recorded(head, "nothing of the next").expect("as said");
    }
    for length in 1..BLOCK {
        let (one, two) = (drawn_recording(&mut dice, 41), drawn_recording(&mut dice, 84));
        let cut = [&one, &two[BLOCK..][..length]].concat();
        bench.refuse(&cut, 1, format_args!("{length} bytes after one not full"));
    }
    bench.seen.demand(511, &refused_for(&["short", "after one not full and short"]));
}

/// Blocks whose numbers do not rise from 0 by one, each with a right check.
#[test]
fn numbers() {
    let _turn = turn();
    let mut bench = Bench::new();
    let mut dice = Dice::new(seed(0x0122));
    // The number of one block of four, of which the last is not full.
    let recording = drawn_recording(&mut dice, 150);
    for index in 0..4 {
        let bits = (0..16).map(|bit| index ^ 1 << bit);
        let drawn: Vec<u16> = (0..200).map(|_| dice.word() as u16).collect();
        let numbers = (0..300).chain(bits).chain([0xFF00, 0xFFFF]).chain(drawn);
        for number in numbers.filter(|&number| number != index) {
            let mut other = recording.clone();
            let block = &mut other[BLOCK * usize::from(index)..][..BLOCK];
            put_half(block, 2, number);
            put_check(block);
            bench.refuse(&other, index.into(), format_args!("block {index} as {number}"));
        }
    }
    // All numbers rise, but not from 0.
    for moved in [1_u16, 2, 0x100, 0x8000, 0xFFFF] {
        let mut other = recording.clone();
        for (number, block) in other.chunks_mut(BLOCK).enumerate() {
            put_half(block, 2, moved.wrapping_add(number as u16));
            put_check(block);
        }
        bench.refuse(&other, 0, format_args!("numbers from {moved}"));
    }
    // All blocks in each other order, full and not.
    for count in [168, 150] {
        let recording = drawn_recording(&mut dice, count);
        let blocks: Vec<&[u8]> = recording.chunks(BLOCK).collect();
        for order in 0..256 {
            let order = [0, 2, 4, 6].map(|at| order >> at & 3);
            let Some(index) = (0..4).find(|&index| order[index] != index) else {
                continue;
            };
            let other = order.map(|index| blocks[index]).concat();
            bench.refuse(&other, index as u64, format_args!("order {order:?}"));
        }
    }
    bench.seen.demand(1_000, &refused_for(&["number"]));
}

/// Every count of a block with so many calls, each with a right check: it is accepted where
/// it is their number.
#[test]
fn counts() {
    let _turn = turn();
    let mut bench = Bench::new();
    let mut dice = Dice::new(seed(0x0123));
    for calls in 0..=42_u16 {
        let records = drawn_calls(&mut dice, calls.into());
        let moved = [1, 2, 8, 128].map(|high| high << 8 | calls);
        for count in (0..=50).chain(moved).chain([0xFF, 0x100, 0x8000, 0xFFFF]) {
            let title = format_args!("{calls} calls, a count of {count}");
            let recording = block(count, 0, &records);
            let said = bench.recorded(&recording, title);
            assert_eq!(said.is_ok(), count == calls && count > 0, "{title}: {said:x?}");
            // Behind a full block.
            let full = drawn_recording(&mut dice, FULL);
            let recording = [full, block(count, 1, &records)].concat();
            let said = bench.recorded(&recording, title);
            assert_eq!(said.is_ok(), count == calls && count > 0, "{title}: {said:x?}");
            bench.seen.see_if(count == 43 && calls == 42, "43 calls where 42 are");
        }
    }
    let counts = ["count of 0", "count over 42", "unused byte", "record"];
    assert_eq!(bench.seen.count("43 calls where 42 are"), 1);
    bench.seen.demand(2, &refused_for(&counts));
}

/// A block after one that is not full, with the right number and check.
#[test]
fn after_one_not_full() {
    let _turn = turn();
    let mut bench = Bench::new();
    let mut dice = Dice::new(seed(0x0124));
    for (before, count) in (0..3).flat_map(|before| (1..=42).map(move |count| (before, count))) {
        for after in [1, 20, 42] {
            let mut recording = drawn_recording(&mut dice, FULL * before + count);
            let calls = drawn_calls(&mut dice, after);
            recording.extend(block(after as u16, before as u16 + 1, &calls));
            let title = format_args!("{after} calls after {count}, after {before} blocks");
            if count == FULL {
                bench.recorded(&recording, title).expect("as said");
            } else {
                bench.refuse(&recording, before as u64 + 1, title);
                assert_eq!(faults(&recording, before + 1), ["after one not full"], "{title}");
            }
        }
    }
    bench.demand(9, &["refused for after one not full", "accepted"]);
}

/// Every byte of the records after a block's count, with a right check.
#[test]
fn junk_after_the_calls() {
    let _turn = turn();
    let mut bench = Bench::new();
    let mut dice = Dice::new(seed(0x0125));
    for (count, index) in [(1, 0), (20, 0), (41, 0), (43, 1), (83, 1)] {
        let recording = drawn_recording(&mut dice, count);
        let unused = BLOCK * index + 4 + RECORD * (count - FULL * index);
        for at in unused..BLOCK * index + CHECK_AT {
            for byte in [1, 0x80, 1 + dice.below(255) as u8] {
                let mut other = recording.clone();
                other[at] = byte;
                put_check(&mut other[BLOCK * index..]);
                bench.refuse(&other, index as u64, format_args!("{count} calls, byte {at}"));
            }
        }
        // A call that is as said, but not counted.
        for call in each_kind() {
            let mut other = recording.clone();
            other[unused..unused + RECORD].copy_from_slice(&call);
            put_check(&mut other[BLOCK * index..]);
            bench.refuse(&other, index as u64, format_args!("{count} calls and {call:x?}"));
        }
    }
    bench.seen.demand(1_000, &refused_for(&["unused byte"]));
}

/// As many blocks and calls as there may be, and more. What is bad before is named first.
#[test]
fn as_many_as_there_may_be() {
    let _turn = turn();
    let mut bench = Bench::new();
    let mut dice = Dice::new(seed(0x0130));
    let mut calls = drawn_calls(&mut dice, MOST_CALLS);
    let mut recording = bench.record(&calls, "all calls").expect("as said");
    assert_eq!(recording.len(), BLOCK * MOST_BLOCKS);
    assert!(bench.recorded(&recording, "all blocks").as_ref() == Ok(&calls));

    // One byte more, one call more, some more.
    for more in [1, RECORD - 1, RECORD, 50 * RECORD] {
        let drawn = drawn_calls(&mut dice, 50);
        calls.extend_from_slice(&drawn[..more]);
        bench.refuse_list(&calls, 2_752_512, format_args!("{more} bytes more"));
        calls.truncate(RECORD * MOST_CALLS);
    }
    // The one more is bad itself, and then one before it.
    calls.extend([0; RECORD]);
    bench.refuse_list(&calls, 2_752_512, "one bad call more");
    for at in [2_752_511, 1_000_000, 0] {
        calls[RECORD * at] = 6;
        bench.refuse_list(&calls, at as u64, format_args!("bad call {at}"));
    }
    drop(calls);

    // One byte more, or a block more whose number begins again.
    let full = drawn_calls(&mut dice, FULL);
    for more in [vec![0], block(42, 0, &full), block(1, 0, &full[..RECORD])] {
        recording.extend_from_slice(&more);
        bench.refuse(&recording, 65_536, format_args!("{} bytes more", more.len()));
        recording.truncate(BLOCK * MOST_BLOCKS);
    }
    // A block before it is bad.
    recording.extend(block(42, 0, &full));
    for index in [65_535, 30_000, 0] {
        recording[BLOCK * index + 100] ^= 1;
        bench.refuse(&recording, index as u64, format_args!("bad block {index}"));
    }
    let calls = ["last call too many", "middle call too many"];
    let blocks = ["refused for too many and short", "refused for too many and number"];
    bench.demand(1, &[calls, blocks].concat());
}

/// Rooms of every length, up to what is needed and beyond.
#[test]
fn every_room() {
    let _turn = turn();
    let bench = Bench::new();
    let mut dice = Dice::new(seed(0x0131));
    for count in [0, 1, 2, 42, 43, 90] {
        let calls = drawn_calls(&mut dice, count);
        let recording = recording_of(&calls).expect("as said");
        let record: Go = &|program, out| program.record(&calls, out);
        let recorded: Go = &|program, out| program.recorded(&recording, out);
        for (go, written) in [(record, &recording), (recorded, &calls)] {
            let said = Ok(written.clone());
            for room in 0..written.len() + 40 {
                let title = format_args!("{count} calls, {} bytes in {room}", written.len());
                bench.lent(go, room, &said, title);
            }
        }
    }
}

/// Lists and recordings that begin at any byte, between bytes that play no part.
#[test]
fn any_start() {
    let _turn = turn();
    let mut bench = Bench::new();
    let mut dice = Dice::new(seed(0x0132));
    for (start, around) in (0..17).flat_map(|start| [(start, 0), (start, 4), (start, 0xFF)]) {
        let count = 1 + dice.below(130) as usize;
        let calls = drawn_calls(&mut dice, count);
        let recording = recording_of(&calls).expect("as said");
        let placed = |bytes: &[u8]| [&vec![around; start][..], bytes, &[around; BLOCK]].concat();
        let title = format_args!("{count} calls at {start}, {around:x} about them");
        let lies = placed(&calls);
        let said = bench.record(&lies[start..start + calls.len()], title);
        assert!(said.as_ref() == Ok(&recording), "{title}");
        let lies = placed(&recording);
        let said = bench.recorded(&lies[start..start + recording.len()], title);
        assert!(said == Ok(calls), "{title}");
    }
}

/// Recordings with something changed, or some things; then perhaps numbers, counts and
/// checks made good again.
#[test]
fn changed_recordings() {
    let _turn = turn();
    let mut bench = Bench::new();
    for round in 0..12_000 * long() {
        let mut dice = Dice::new(seed(0x01F0_0000_0000 + u64::from(round)));
        let most = dice.pick(&[1, 42, 43, 90, 200]);
        let count = if dice.once_in(3) { most } else { dice.below(most + 1) };
        let mut recording = drawn_recording(&mut dice, count as usize);
        for _ in 0..1 + dice.below(3) / 2 {
            let how = mutate(&mut dice, &mut recording);
            bench.seen.see(format!("changed: {how}"));
        }
        if !dice.once_in(3) {
            mend(&mut dice, &mut recording);
        }
        bench.recorded(&recording, format_args!("recording {round}")).ok();
    }
    let changes = CHANGES.map(|change| format!("changed: {change}"));
    let names = [refused_for(&FAULTS), places("block bad"), changes.to_vec()].concat();
    assert!(bench.seen.count("accepted") > 500);
    bench.seen.demand(20, &names);
}

/// Lists with a byte changed, or some, a call more or less, or cut.
#[test]
fn changed_lists() {
    let _turn = turn();
    let mut bench = Bench::new();
    for round in 0..6_000 * long() {
        let mut dice = Dice::new(seed(0x01F1_0000_0000 + u64::from(round)));
        let most = dice.pick(&[1, 2, 42, 90, 200]);
        let count = match dice.below(3) {
            0 => 42 * (1 + dice.below(4)),
            _ => 1 + dice.below(most),
        };
        let mut calls = drawn_calls(&mut dice, count as usize);
        for _ in 0..dice.below(4) {
            let at = dice.below(calls.len() as u32) as usize;
            match dice.below(4) {
                0 => calls[at] ^= 1 << dice.below(8),
                1 => calls[at] = dice.pick(&[0, 1, 2, 3, 4, 5, 6, 255]),
                2 => calls.truncate(1 + at),
                _ => {
                    let call = drawn_call(&mut dice);
                    calls.splice(at / RECORD * RECORD..at / RECORD * RECORD, call);
                }
            }
        }
        bench.record(&calls, format_args!("list {round}")).ok();
    }
    let mut names = [places("call not as said"), all_lengths()].concat();
    names.extend(all_calls());
    names.push("last call short".into());
    bench.seen.demand(20, &names);
}

/// Bytes from the dice are no recording.
#[test]
fn any_bytes() {
    let _turn = turn();
    let mut bench = Bench::new();
    let mut dice = Dice::new(seed(0x01F2));
    for round in 0..500 * long() {
        let mut bytes = vec![dice.word() as u8; dice.below(1_200) as usize];
        if !dice.once_in(4) {
            dice.fill(&mut bytes);
        }
        let said = bench.recorded(&bytes, format_args!("bytes {round}"));
        assert_eq!(said.is_ok(), bytes.is_empty(), "bytes {round}");
    }
}

/// Sessions recorded by one program and read by the other: run from the recording they give
/// the bytes that they give without it, under both.
#[test]
fn replayed() {
    let _turn = turn();
    let mut bench = Bench::new();
    for session in 0..300 * long() {
        let mut dice = Dice::new(seed(0x01E0_0000_0000 + u64::from(session)));
        let world = World::new(&mut dice);
        let quotes = (worlds::good_quote(&mut dice), worlds::good_quote(&mut dice));
        let lending = world.lending(quotes.0, quotes.1);
        let length = dice.pick(&[0, 1, 41, 42, 43, 84, 150, 300]);
        let calls = callers::session(&mut dice, &world, &lending, length);
        let mut said = vec![0; length * ANSWER + STATE];
        assert_eq!(Second.run(&lending, &calls, &mut said), said.len() as u64);
        for at in 0..length {
            bench.seen.see(format!("answer {:03}", answer(&said, at).0));
        }
        let (writers, readers) = (bench.programs(), bench.programs());
        for (writer, reader) in writers.into_iter().flat_map(|one| readers.map(|two| (one, two))) {
            let title = format!("session {session}, {} and {}", writer.name(), reader.name());
            let mut recording = vec![0; BLOCK * length.div_ceil(FULL)];
            assert_eq!(writer.record(&calls, &mut recording), recording.len() as u64, "{title}");
            let mut list = vec![0; calls.len()];
            assert_eq!(reader.recorded(&recording, &mut list), list.len() as u64, "{title}");
            let mut replayed = vec![0xC3; said.len()];
            assert_eq!(reader.run(&lending, &list, &mut replayed), said.len() as u64, "{title}");
            assert!(replayed == said, "{title}: another session is replayed");
        }
        bench.seen.see(format!("a session of {length} calls"));
    }
    let answers = [0, 1, 2, 5, 6, 7, 21, 22, 23, 24, 100, 101, 102];
    let mut names: Vec<String> = answers.map(|number| format!("answer {number:03}")).to_vec();
    let lengths = [0, 1, 41, 42, 43, 84, 150, 300];
    names.extend(lengths.map(|length| format!("a session of {length} calls")));
    bench.seen.demand(10, &names);
}
