//! Calls that are not as P1 says, and recordings with something changed.

use super::recordings::*;
use super::*;
use second::dice::Dice;

/// A byte that makes a call of each kind one that is not as said: the call's kind, what it is
/// then, and where.
pub const SPOILED: [(u8, &str, usize, u8); 41] = [
    (1, "kind 0", 0, 0),
    (2, "kind 0", 0, 0),
    (3, "kind 0", 0, 0),
    (4, "kind 0", 0, 0),
    (5, "kind 0", 0, 0),
    (1, "kind 6", 0, 6),
    (4, "kind 6", 0, 6),
    (5, "kind 6", 0, 6),
    (2, "kind 255", 0, 255),
    (4, "kind 255", 0, 255),
    (1, "third byte", 2, 1),
    (2, "third byte", 2, 0x80),
    (3, "third byte", 2, 255),
    (4, "third byte", 2, 1),
    (5, "third byte", 2, 1),
    (1, "fourth byte", 3, 0x80),
    (2, "fourth byte", 3, 1),
    (3, "fourth byte", 3, 1),
    (4, "fourth byte", 3, 0x80),
    (5, "fourth byte", 3, 255),
    (3, "access 2", 1, 2),
    (3, "access 255", 1, 255),
    (1, "value 65,536", 10, 1),
    (1, "value of 2^24", 11, 1),
    (1, "value of 2^31", 11, 0x80),
    (1, "address of a write", 4, 1),
    (1, "address of a write", 7, 0x80),
    (2, "address of a read", 4, 1),
    (2, "address of a read", 7, 0x80),
    (2, "value of a read", 8, 1),
    (2, "value of a read", 9, 0x80),
    (2, "value of a read", 10, 1),
    (3, "value of a request", 8, 1),
    (3, "value of a request", 11, 0x80),
    (4, "offset of a drop", 1, 1),
    (4, "address of a drop", 5, 1),
    (4, "value of a drop", 8, 1),
    (5, "access of a shift report", 1, 1),
    (5, "value of a shift report", 8, 1),
    (5, "value of a shift report", 9, 0x80),
    (5, "value of a shift report", 10, 1),
];

/// Those calls: what each is, and its bytes.
pub fn spoiled() -> impl Iterator<Item = (&'static str, Call)> {
    SPOILED.into_iter().map(|(kind, name, at, byte)| {
        let mut call = each_kind()[usize::from(kind) - 1];
        assert_eq!(call[0], kind);
        call[at] = byte;
        (name, call)
    })
}

/// Makes a block bad in one way, whatever the others are.
pub fn spoil(dice: &mut Dice, block: &mut [u8]) {
    let number = half(block, 2);
    match dice.below(5) {
        0 => {
            block[CHECK_AT + dice.below(4) as usize] ^= 1 << dice.below(8);
            return;
        }
        1 => put_half(block, 2, number ^ 1 << dice.below(16)),
        2 => put_half(block, 0, 0),
        3 => put_half(block, 0, 43),
        _ => block[6 + dice.below(2) as usize] = 1 + dice.below(255) as u8,
    }
    put_check(block);
}

/// What `mutate` may change.
pub const CHANGES: [&str; 13] = [
    "any bytes",
    "bits",
    "cut",
    "a block twice",
    "blocks exchanged",
    "another block",
    "a block less",
    "count",
    "number",
    "a byte of a record",
    "a record",
    "some bytes",
    "bytes at the end",
];

/// Changes something in a recording, and gives what.
pub fn mutate(dice: &mut Dice, recording: &mut Vec<u8>) -> &'static str {
    let blocks = recording.len() / BLOCK;
    if blocks == 0 {
        let length = 1 + dice.below(2 * BLOCK as u32) as usize;
        recording.resize(length, 0);
        dice.fill(recording);
        return "any bytes";
    }
    let at = BLOCK * dice.below(blocks as u32) as usize;
    let other = BLOCK * dice.below(blocks as u32) as usize;
    let within = at + dice.below(BLOCK as u32) as usize;
    match dice.below(12) {
        0 => {
            for _ in 0..1 + dice.below(4) {
                let bit = dice.below(8 * recording.len() as u32) as usize;
                recording[bit / 8] ^= 1 << (bit % 8);
            }
            "bits"
        }
        1 => {
            recording.truncate(dice.pick(&[at, within]));
            "cut"
        }
        2 => {
            let block = recording[at..at + BLOCK].to_vec();
            recording.splice(other..other, block);
            "a block twice"
        }
        3 => {
            let block = recording[at..at + BLOCK].to_vec();
            recording.copy_within(other..other + BLOCK, at);
            recording[other..other + BLOCK].copy_from_slice(&block);
            "blocks exchanged"
        }
        4 => {
            let mut block = match dice.below(4) {
                0 => vec![0; BLOCK],
                1 => vec![dice.word() as u8; BLOCK],
                _ => drawn_recording(dice, FULL),
            };
            put_half(&mut block, 2, (at / BLOCK) as u16);
            put_check(&mut block);
            recording.splice(at..at, block);
            "another block"
        }
        5 => {
            recording.drain(at..at + BLOCK);
            "a block less"
        }
        6 => {
            let count = half(recording, at);
            let counts = [0, 1, 41, 42, 43, 0xFFFF, dice.word() as u16, count ^ 1, count ^ 0x100];
            put_half(recording, at, dice.pick(&counts));
            "count"
        }
        7 => {
            let number = half(recording, at + 2);
            let numbers = [0, 1, number.wrapping_add(1), number ^ 0x8000, dice.word() as u16];
            put_half(recording, at + 2, dice.pick(&numbers));
            "number"
        }
        8 => {
            let record = at + 4 + RECORD * dice.below(FULL as u32) as usize;
            let byte = dice.word() as u8;
            recording[record + dice.below(RECORD as u32) as usize] = dice.pick(&[0, 1, 2, byte]);
            "a byte of a record"
        }
        9 => {
            let record = at + 4 + RECORD * dice.below(FULL as u32) as usize;
            let call = if dice.once_in(2) { drawn_call(dice) } else { [0; RECORD] };
            recording[record..record + RECORD].copy_from_slice(&call);
            "a record"
        }
        10 => {
            let length = (1 + dice.below(40) as usize).min(recording.len() - within);
            dice.fill(&mut recording[within..within + length]);
            "some bytes"
        }
        _ => {
            let more = 1 + dice.below(BLOCK as u32 + 10) as usize;
            recording.resize(recording.len() + more, 0);
            "bytes at the end"
        }
    }
}

/// Makes good again what every block says of itself: perhaps its number, perhaps whether it
/// is full, perhaps its check.
pub fn mend(dice: &mut Dice, recording: &mut [u8]) {
    let (numbers, counts, checks) = (dice.once_in(2), dice.once_in(4), !dice.once_in(4));
    let last = (recording.len() / BLOCK).saturating_sub(1);
    for (number, block) in recording.chunks_exact_mut(BLOCK).enumerate() {
        if numbers {
            put_half(block, 2, number as u16);
        }
        if counts && number < last {
            put_half(block, 0, FULL as u16);
        }
        if checks {
            put_check(block);
        }
    }
}
