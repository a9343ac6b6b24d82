//! "Recorded sessions" (P1): calls as records of 12 bytes, and recordings of them in blocks
//! of 512 bytes.

use crate::answer::{Refusal, Refused};
use crate::crc::crc32;

/// Bytes of one call.
pub const CALL: usize = 12;

/// Kinds of calls.
pub const WRITE: u8 = 1;
pub const READ: u8 = 2;
pub const REQUEST: u8 = 3;
pub const DROP: u8 = 4;
pub const SHIFT: u8 = 5;

/// Bytes of one block, and the calls of a full one.
pub const BLOCK: usize = 512;
pub const FULL: usize = 42;
/// The most blocks of a recording, and the most calls.
pub const MOST_BLOCKS: usize = 65_536;
pub const MOST_CALLS: usize = MOST_BLOCKS * FULL;

/// Where things are in a block, behind the number of its calls.
const NUMBER_AT: usize = 2;
const CALLS_AT: usize = 4;
const CHECK_AT: usize = CALLS_AT + FULL * CALL;

/// A call as it lies in a list or in a block.
type Call = [u8; CALL];

/// Whether 12 bytes are a call: kind, offset or access, two zero bytes, address, value below
/// 65,536; what a kind does not use is zero. `always` keeps it within the loops that ask it.
#[inline(always)]
pub fn as_said(call: &[u8]) -> bool {
    let zero = |bytes: &[u8]| bytes.iter().all(|&byte| byte == 0);
    zero(&call[2..4])
        && zero(&call[10..12])
        && match call[0] {
            WRITE => zero(&call[4..8]),
            READ => zero(&call[4..10]),
            REQUEST => call[1] <= 1 && zero(&call[8..10]),
            DROP => zero(&call[1..10]),
            SHIFT => call[1] == 0 && zero(&call[8..10]),
            _ => false,
        }
}

/// Writes the recording of these calls. Its bytes; or refusal 16 with the index of the first
/// call that is not as said or one too many, then 12 with the bytes needed.
pub fn record(calls: &[u8], out: &mut [u8]) -> Result<usize, Refused> {
    let (calls, short) = calls.as_chunks::<CALL>();
    let most = &calls[..calls.len().min(MOST_CALLS)];
    if let Some(bad) = most.iter().position(|call| !as_said(call)) {
        return Err(not_as_said(bad));
    }
    if most.len() < calls.len() || !short.is_empty() {
        return Err(not_as_said(most.len()));
    }
    let out = room(out, calls.len().div_ceil(FULL) * BLOCK)?;
    let (blocks, _) = out.as_chunks_mut::<BLOCK>();
    for (number, (block, calls)) in blocks.iter_mut().zip(calls.chunks(FULL)).enumerate() {
        write_block(block, number as u16, calls);
    }
    Ok(out.len())
}

/// Writes the calls of a recording. Their bytes; or refusal 16 with the index of the first
/// block that is not as said or one too many, then 12 with the bytes needed.
pub fn recorded(recording: &[u8], out: &mut [u8]) -> Result<usize, Refused> {
    let (blocks, short) = recording.as_chunks::<BLOCK>();
    let most = &blocks[..blocks.len().min(MOST_BLOCKS)];
    let mut count = 0;
    for (number, block) in most.iter().enumerate() {
        let follows_full = count == number * FULL;
        match calls_in(block, number as u16) {
            Some(calls) if follows_full => count += calls,
            _ => return Err(not_as_said(number)),
        }
    }
    if most.len() < blocks.len() || !short.is_empty() {
        return Err(not_as_said(most.len()));
    }
    let out = room(out, count * CALL)?;
    for (calls, block) in out.chunks_mut(FULL * CALL).zip(blocks) {
        calls.copy_from_slice(&block[CALLS_AT..][..calls.len()]);
    }
    Ok(out.len())
}

/// A block of that number with these calls, 42 at most.
fn write_block(block: &mut [u8; BLOCK], number: u16, calls: &[Call]) {
    let (used, unused) = block[CALLS_AT..CHECK_AT].split_at_mut(calls.len() * CALL);
    used.copy_from_slice(calls.as_flattened());
    unused.fill(0);
    block[..NUMBER_AT].copy_from_slice(&(calls.len() as u16).to_le_bytes());
    block[NUMBER_AT..CALLS_AT].copy_from_slice(&number.to_le_bytes());
    let check = crc32(&block[..CHECK_AT]);
    block[CHECK_AT..].copy_from_slice(&check.to_le_bytes());
}

/// How many calls a block has; `None` where it is not as said or has another number.
fn calls_in(block: &[u8; BLOCK], number: u16) -> Option<usize> {
    let half = |at: usize| u16::from_le_bytes([block[at], block[at + 1]]);
    let count = usize::from(half(0));
    if !(1..=FULL).contains(&count) || half(NUMBER_AT) != number {
        return None;
    }
    let (used, unused) = block[CALLS_AT..CHECK_AT].split_at(count * CALL);
    let right = block[CHECK_AT..] == crc32(&block[..CHECK_AT]).to_le_bytes()
        && used.chunks_exact(CALL).all(as_said)
        && unused.iter().all(|&byte| byte == 0);
    right.then_some(count)
}

/// The part of `out` that will be written.
fn room(out: &mut [u8], bytes: usize) -> Result<&mut [u8], Refused> {
    out.get_mut(..bytes).ok_or(Refused { refusal: Refusal::Room, at: bytes as u32 })
}

/// The call or the block of that index.
fn not_as_said(index: usize) -> Refused {
    Refused { refusal: Refusal::Recording, at: index as u32 }
}

#[cfg(test)]
#[path = "recording_tests.rs"]
mod tests;
