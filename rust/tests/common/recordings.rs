//! What P1 says of lists of calls and of recordings, byte by byte; blocks and recordings of
//! every sort; and what was seen of them.

use super::coverage::Coverage;
use super::*;
use second::dice::Dice;

/// Bytes of a call and of a block, calls of a full block, the most blocks and calls.
pub const RECORD: usize = 12;
pub const BLOCK: usize = 512;
pub const FULL: usize = 42;
pub const MOST_BLOCKS: usize = 65_536;
pub const MOST_CALLS: usize = 2_752_512;
/// Where a block's check is.
pub const CHECK_AT: usize = 508;

// What P1 says. Every byte is looked at, and nothing of the programs is used.

/// The CRC-32 of IEEE 802.3, as the remainder of a long division: the bits of each byte from
/// the lowest on, the first 32 of them turned; the remainder reflected, and turned.
pub fn check(bytes: &[u8]) -> u32 {
    let mut remainder = u32::MAX;
    for byte in bytes {
        for bit in 0..8 {
            let goes = remainder >> 31 != u32::from(byte >> bit & 1);
            remainder <<= 1;
            if goes {
                remainder ^= 0x04C1_1DB7;
            }
        }
    }
    !remainder.reverse_bits()
}

/// Whether a record is a call.
pub fn as_said(record: &[u8]) -> bool {
    if record.len() != RECORD {
        return false;
    }
    let (second, zeros) = (record[1], half(record, 2));
    let (address, value) = (word(record, 4), word(record, 8));
    zeros == 0
        && match record[0] {
            1 => address == 0 && value < 65_536,
            2 => address == 0 && value == 0,
            3 => second < 2 && value == 0,
            4 => second == 0 && address == 0 && value == 0,
            5 => second == 0 && value == 0,
            _ => false,
        }
}

/// The recording of a list of calls, or the refusal of its first bad one.
pub fn recording_of(calls: &[u8]) -> Result<Vec<u8>, u64> {
    let mut recording = Vec::new();
    for (index, record) in calls.chunks(RECORD).enumerate() {
        if index == MOST_CALLS || !as_said(record) {
            return Err(refused(16, index as u64));
        }
    }
    for (number, calls) in calls.chunks(FULL * RECORD).enumerate() {
        recording.extend(block((calls.len() / RECORD) as u16, number as u16, calls));
    }
    Ok(recording)
}

/// All that is wrong with a block of a recording, by name.
pub fn faults(recording: &[u8], index: usize) -> Vec<&'static str> {
    let mut faults = Vec::new();
    let mut see = |wrong: bool, fault| {
        if wrong {
            faults.push(fault);
        }
    };
    let rest = &recording[BLOCK * index..];
    see(index >= MOST_BLOCKS, "too many");
    see(index > 0 && half(recording, BLOCK * (index - 1)) != 42, "after one not full");
    if rest.len() < BLOCK {
        see(true, "short");
        return faults;
    }
    let block = &rest[..BLOCK];
    let count = half(block, 0);
    see(check(&block[..CHECK_AT]) != word(block, CHECK_AT), "check");
    see(usize::from(half(block, 2)) != index, "number");
    see(count == 0, "count of 0");
    see(count > 42, "count over 42");
    let (used, unused) = block[4..CHECK_AT].split_at(RECORD * usize::from(count.min(42)));
    see(!used.chunks(RECORD).all(as_said), "record");
    see(unused.iter().any(|&byte| byte != 0), "unused byte");
    faults
}

/// The calls of a recording, or the refusal of its first bad block.
pub fn calls_of(recording: &[u8]) -> Result<Vec<u8>, u64> {
    let mut calls = Vec::new();
    for index in 0..recording.len().div_ceil(BLOCK) {
        if !faults(recording, index).is_empty() {
            return Err(refused(16, index as u64));
        }
        let block = &recording[BLOCK * index..][..BLOCK];
        calls.extend_from_slice(&block[4..][..RECORD * usize::from(half(block, 0))]);
    }
    Ok(calls)
}

// Blocks and recordings.

/// A block with a count and a number, these bytes behind them, and the right check.
pub fn block(count: u16, number: u16, records: &[u8]) -> Vec<u8> {
    let mut block = vec![0; BLOCK];
    put_half(&mut block, 0, count);
    put_half(&mut block, 2, number);
    block[4..][..records.len()].copy_from_slice(records);
    put_check(&mut block);
    block
}

/// Puts a block's check right.
pub fn put_check(block: &mut [u8]) {
    let check = check(&block[..CHECK_AT]);
    put_word(block, CHECK_AT, check);
}

/// A call of each kind, with every field that it uses.
pub fn each_kind() -> [Call; 5] {
    [write(0x08, 7), read(0xFE), request(1, 0x12_3456), drop_fault(), shift(0xFEDC_BA98)]
}

/// A call of any kind, with anything in the fields that it uses.
pub fn drawn_call(dice: &mut Dice) -> Call {
    let offset = if dice.once_in(2) { 4 * dice.below(21) as u8 } else { dice.word() as u8 };
    let address = dice.word() >> dice.pick(&[0, 8, 8, 8, 31]);
    match dice.below(6) {
        0 => write(offset, dice.pick(&[0, 1, 7, 0xFFFF, address as u16])),
        1 => read(offset),
        2 => drop_fault(),
        3 => shift(address),
        _ => request(dice.below(2) as u8, address),
    }
}

/// So many of them.
pub fn drawn_calls(dice: &mut Dice, count: usize) -> Vec<u8> {
    (0..count).flat_map(|_| drawn_call(dice)).collect()
}

/// The recording of so many of them.
pub fn drawn_recording(dice: &mut Dice, count: usize) -> Vec<u8> {
    recording_of(&drawn_calls(dice, count)).expect("they are as said")
}

// What was seen.

/// Where something is among so many.
fn place(index: usize, count: usize) -> &'static str {
    match index {
        0 if count == 1 => "only",
        0 => "first",
        last if last + 1 == count => "last",
        _ => "middle",
    }
}

/// Counts by name what a list of calls is of which this is said.
pub fn see_calls(seen: &mut Coverage, calls: &[u8], said: &Result<Vec<u8>, u64>) {
    let count = calls.len().div_ceil(RECORD);
    let Err(refusal) = said else {
        let blocks = ["no", "one", "two", "three", "more"][count.div_ceil(FULL).min(4)];
        let last = if count.is_multiple_of(FULL) { "full" } else { "not full" };
        seen.see(match count {
            0 => "no blocks".into(),
            _ => format!("{blocks} blocks, the last {last}"),
        });
        for call in calls.chunks(RECORD).take(1_000) {
            seen.see(format!("recorded: kind {}", call[0]));
            let register = call[1].is_multiple_of(4) && call[1] <= 0x50;
            seen.see_if(call[0] <= 2 && !register, "recorded: an offset of no register");
            seen.see_if(call[0] == 3, &format!("recorded: a request of access {}", call[1]));
            seen.see_if(word(call, 4) >= 1 << 24, "recorded: an address of 2^24 or more");
            seen.see_if(word(call, 8) == 0xFFFF, "recorded: a value of 65,535");
        }
        return;
    };
    let index = (refusal & 0xFFFF_FFFF) as usize;
    let record = &calls[RECORD * index..];
    let why = match record.len() {
        _ if index == MOST_CALLS => "too many",
        short if short < RECORD => "short",
        _ => "not as said",
    };
    seen.see(format!("{} call {why}", place(index, count)));
}

/// Counts by name what a recording is of which this is said.
pub fn see_recording(seen: &mut Coverage, recording: &[u8], said: &Result<Vec<u8>, u64>) {
    match said {
        Ok(_) => seen.see("accepted"),
        Err(refusal) => {
            let index = (refusal & 0xFFFF_FFFF) as usize;
            let faults = faults(recording, index).join(" and ");
            seen.see(format!("refused for {faults}"));
            let count = recording.len().div_ceil(BLOCK);
            seen.see(format!("{} block bad", place(index, count)));
        }
    }
}

/// Calls of every kind, and what may be in them.
pub fn all_calls() -> Vec<String> {
    let kinds = (1..=5).map(|kind| format!("kind {kind}"));
    let fields = [
        "an offset of no register",
        "a request of access 0",
        "a request of access 1",
        "an address of 2^24 or more",
        "a value of 65,535",
    ];
    kinds.chain(fields.map(String::from)).map(|what| format!("recorded: {what}")).collect()
}

/// Recordings of some blocks and of more.
pub fn all_lengths() -> Vec<String> {
    let each =
        |blocks| ["full", "not full"].map(|last| format!("{blocks} blocks, the last {last}"));
    ["one", "two", "three", "more"].into_iter().flat_map(each).collect()
}

/// Each thing that may be wrong with a block when nothing else is.
pub const FAULTS: [&str; 8] = [
    "short",
    "after one not full",
    "check",
    "number",
    "count of 0",
    "count over 42",
    "record",
    "unused byte",
];

/// Refusals for each of these alone.
pub fn refused_for(faults: &[&str]) -> Vec<String> {
    faults.iter().map(|fault| format!("refused for {fault}")).collect()
}

/// A bad call or block at each place.
pub fn places(what: &str) -> Vec<String> {
    ["only", "first", "middle", "last"].map(|place| format!("{place} {what}")).to_vec()
}
