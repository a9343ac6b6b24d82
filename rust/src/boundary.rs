//! The byte boundary: build, run, from, fetch, check, list, part, record, recorded and crc
//! over byte slices. All numbers are little-endian.

use crate::answer::{Fault, Refused, Reply};
use crate::audit;
use crate::bill::{Bill, Price, Prices};
use crate::builder;
use crate::crc;
use crate::memory::{Memories, Place};
use crate::meters::Meters;
use crate::parting::{self, Comparison, Source};
use crate::recording::{self, as_said};
use crate::slots::SLOTS;
use crate::unit::{Books, Image, Lent, Pending, Unit};
use crate::walk::Access;

/// Bytes of one call, and the kinds of calls.
pub use crate::recording::{CALL, DROP, READ, REQUEST, SHIFT, WRITE};

/// Bytes of one answer, of the state, and of what is said of two images.
pub const ANSWER: usize = 16;
pub const STATE: usize = 328;
pub const PARTING: usize = 24;

/// Where things are in an answer, behind its number.
pub const FROM_AT: usize = 4;
pub const VALUE_AT: usize = 8;

/// Where things are in a state.
pub const SLOTS_AT: usize = 28;
pub const PENDING_AT: usize = 284;
pub const METERS_AT: usize = 292;
pub const BILL_AT: usize = 304;
pub const ROWS_AT: usize = 320;

/// A price as it crosses: kind (0 flat, 1 row) and two figures.
pub type Quote = (u32, f64, f64);

/// What is lent beside the calls: the two memories at their bases, and a price for each.
#[derive(Clone, Copy, Debug)]
pub struct Lending<'a> {
    pub on: &'a [u8],
    pub on_base: u32,
    pub external: &'a [u8],
    pub external_base: u32,
    pub on_price: Quote,
    pub external_price: Quote,
}

impl<'a> Lending<'a> {
    /// One on-chip memory, and a price of 1 for each word.
    pub fn plain(on: &'a [u8], on_base: u32) -> Lending<'a> {
        let flat = (0, 1.0, 0.0);
        let external: &[u8] = &[];
        Lending { on, on_base, external, external_base: 0, on_price: flat, external_price: flat }
    }

    fn memories(&self) -> Memories<'a> {
        Memories::new(self.on, self.on_base, self.external, self.external_base)
    }
}

/// The bill's total and miss figure, which cross beside a state.
pub type Figures = (f64, f64);

/// The functions of the boundary, of whichever program.
pub trait Program {
    fn name(&self) -> &'static str;

    fn build(&self, records: &[u8], base: u32, memory: &mut [u8]) -> u64;

    fn run(&self, lending: &Lending, calls: &[u8], out: &mut [u8]) -> u64;

    fn from(
        &self,
        lending: &Lending,
        state: &[u8],
        figures: Figures,
        calls: &[u8],
        out: &mut [u8],
    ) -> u64;

    fn fetch(&self, lending: &Lending, address: u32) -> u64;

    fn check(&self, memory: &[u8], base: u32) -> u64;

    fn list(&self, memory: &[u8], base: u32, out: &mut [u8]) -> u64;

    fn part(&self, new: &[u8], signed: &[u8], out: &mut [u8]) -> u64;

    fn record(&self, calls: &[u8], out: &mut [u8]) -> u64;

    fn recorded(&self, recording: &[u8], out: &mut [u8]) -> u64;

    fn crc(&self, bytes: &[u8]) -> u64;
}

/// This program.
#[derive(Clone, Copy, Debug)]
pub struct Second;

impl Program for Second {
    fn name(&self) -> &'static str {
        "second"
    }

    fn build(&self, records: &[u8], base: u32, memory: &mut [u8]) -> u64 {
        build(records, base, memory)
    }

    fn run(&self, lending: &Lending, calls: &[u8], out: &mut [u8]) -> u64 {
        run(lending, calls, out)
    }

    fn from(
        &self,
        lending: &Lending,
        state: &[u8],
        figures: Figures,
        calls: &[u8],
        out: &mut [u8],
    ) -> u64 {
        from(lending, state, figures, calls, out)
    }

    fn fetch(&self, lending: &Lending, address: u32) -> u64 {
        fetch(lending, address)
    }

    fn check(&self, memory: &[u8], base: u32) -> u64 {
        check(memory, base)
    }

    fn list(&self, memory: &[u8], base: u32, out: &mut [u8]) -> u64 {
        list(memory, base, out)
    }

    fn part(&self, new: &[u8], signed: &[u8], out: &mut [u8]) -> u64 {
        part(new, signed, out)
    }

    fn record(&self, calls: &[u8], out: &mut [u8]) -> u64 {
        record(calls, out)
    }

    fn recorded(&self, recording: &[u8], out: &mut [u8]) -> u64 {
        recorded(recording, out)
    }

    fn crc(&self, bytes: &[u8]) -> u64 {
        crc(bytes)
    }
}

/// The image's length; or 2^63 + number * 2^32 + index or count.
pub fn build(records: &[u8], base: u32, memory: &mut [u8]) -> u64 {
    length_or_refusal(builder::build(records, base, memory))
}

/// 0 where an image is accepted; or 2^63 + number * 2^32 + the address of a word.
pub fn check(memory: &[u8], base: u32) -> u64 {
    length_or_refusal(audit::check(memory, base).map(|()| 0))
}

/// Bytes of records; or 2^63 + number * 2^32 + the address of a word or the number of
/// pages.
pub fn list(memory: &[u8], base: u32, out: &mut [u8]) -> u64 {
    length_or_refusal(audit::list(memory, base, out))
}

/// Where two images part: refusal or 0, source, the part's offset in that image, words that
/// differ. The bytes written, or 0.
pub fn part(new: &[u8], signed: &[u8], out: &mut [u8]) -> u64 {
    let Some(out) = out.first_chunk_mut::<PARTING>() else {
        return 0;
    };
    let (part, Comparison { source, refusal, differing }) = parting::parted(new, signed);
    let image = match source {
        Source::New => new,
        Source::Signed => signed,
    };
    // A part runs to its image's end.
    let offset = image.len() - part.len();
    let refusal = refusal.map_or(0, |refusal| refusal as u32);
    out[..4].copy_from_slice(&refusal.to_le_bytes());
    out[4..8].copy_from_slice(&(source as u32).to_le_bytes());
    out[8..16].copy_from_slice(&(offset as u64).to_le_bytes());
    out[16..].copy_from_slice(&(differing as u64).to_le_bytes());
    PARTING as u64
}

/// Bytes of the recording of these calls; or 2^63 + number * 2^32 + the index of a call or
/// the bytes needed.
pub fn record(calls: &[u8], out: &mut [u8]) -> u64 {
    length_or_refusal(recording::record(calls, out))
}

/// Bytes of a recording's calls; or 2^63 + number * 2^32 + the index of a block or the bytes
/// needed.
pub fn recorded(recording: &[u8], out: &mut [u8]) -> u64 {
    length_or_refusal(recording::recorded(recording, out))
}

/// The CRC-32 in the low 32 bits.
pub fn crc(bytes: &[u8]) -> u64 {
    crc::crc32(bytes).into()
}

/// A length, or the number of a refusal.
fn length_or_refusal(result: Result<usize, Refused>) -> u64 {
    result.map_or_else(Refused::number, |length| length as u64)
}

/// Memory * 2^60 + offset * 2^32 + word; 0 where the four bytes are nowhere.
pub fn fetch(lending: &Lending, address: u32) -> u64 {
    match lending.memories().word(address) {
        None => 0,
        Some((place, word)) => u64::from(place.number()) << 32 | u64::from(word),
    }
}

/// Runs calls from a fresh device, meters and bill. The bytes written, or 0.
pub fn run(lending: &Lending, calls: &[u8], out: &mut [u8]) -> u64 {
    let Some((lent, out)) = open(lending, calls, out) else {
        return 0;
    };
    let (answers, state) = out.split_at_mut(out.len() - STATE);
    let mut unit = Unit::fresh();
    let mut books = Books::default();
    play(&mut unit, &mut books, &lent, calls, answers);
    encode(&unit.image(), &books, state);
    (answers.len() + STATE) as u64
}

/// The same from a handed-in state.
pub fn from(
    lending: &Lending,
    state: &[u8],
    (total, misses): Figures,
    calls: &[u8],
    out: &mut [u8],
) -> u64 {
    let Some((image, mut books)) = decode(state, total, misses) else {
        return 0;
    };
    let Some((lent, out)) = open(lending, calls, out) else {
        return 0;
    };
    let (answers, state) = out.split_at_mut(out.len() - STATE);
    match Unit::try_from(&image) {
        Ok(mut unit) => {
            play(&mut unit, &mut books, &lent, calls, answers);
            encode(&unit.image(), &books, state);
        }
        // A device out of range: every call answers 8 and changes nothing.
        Err(refusal) => {
            for out in answers.chunks_exact_mut(ANSWER) {
                say(refusal, out);
            }
            encode(&image, &books, state);
        }
    }
    (answers.len() + STATE) as u64
}

/// What has to hold for a list to be run at all: `None` where it does not.
/// Gives what is lent, and the part of `out` that will be written.
fn open<'a, 'b>(
    lending: &Lending<'a>,
    calls: &[u8],
    out: &'b mut [u8],
) -> Option<(Lent<'a>, &'b mut [u8])> {
    let prices = Prices::new(price(lending.on_price)?, price(lending.external_price)?);
    let records = calls.chunks_exact(CALL);
    if !records.remainder().is_empty() || records.clone().any(|call| !as_said(call)) {
        return None;
    }
    let out = out.get_mut(..records.len() * ANSWER + STATE)?;
    Some((Lent { memories: lending.memories(), prices }, out))
}

fn price((kind, a, b): Quote) -> Option<Price> {
    match kind {
        0 => Some(Price::Flat(a)),
        1 => Some(Price::Row { same: a, new: b }),
        _ => None,
    }
}

/// Plays a list of calls that are as said, one answer for each.
fn play(unit: &mut Unit, books: &mut Books, lent: &Lent, calls: &[u8], answers: &mut [u8]) {
    for (call, out) in calls.chunks_exact(CALL).zip(answers.chunks_exact_mut(ANSWER)) {
        let address = word(call, 4);
        let offset = u32::from(call[1]);
        match call[0] {
            REQUEST => say(unit.request(lent, books, address, Access::from_byte(call[1])), out),
            WRITE => say(unit.write(lent, books, offset, half(call, 8)), out),
            READ => say(unit.read(offset), out),
            DROP => say(unit.drop_fault(), out),
            _ => say(unit.shift_report(&lent.memories, address), out),
        }
    }
}

/// Number, where the last word of the walk came from (0: no walk), value.
#[inline]
fn say(reply: impl Into<Reply>, out: &mut [u8]) {
    let Reply { answer, from } = reply.into();
    let from = from.map_or(0, Place::number);
    out[..FROM_AT].copy_from_slice(&answer.number().to_le_bytes());
    out[FROM_AT..VALUE_AT].copy_from_slice(&from.to_le_bytes());
    out[VALUE_AT..ANSWER].copy_from_slice(&answer.value().to_le_bytes());
}

#[inline]
fn half(bytes: &[u8], at: usize) -> u16 {
    u16::from_le_bytes([bytes[at], bytes[at + 1]])
}

#[inline]
fn word(bytes: &[u8], at: usize) -> u32 {
    u32::from_le_bytes([bytes[at], bytes[at + 1], bytes[at + 2], bytes[at + 3]])
}

/// A word kept as two halves, the high one first.
fn halves(bytes: &[u8], at: usize) -> u32 {
    u32::from(half(bytes, at)) << 16 | u32::from(half(bytes, at + 2))
}

/// A handed-in state; `None` where it is none. The bill's figures come beside it.
fn decode(state: &[u8], total: f64, misses: f64) -> Option<(Image, Books)> {
    if state.len() != STATE {
        return None;
    }
    // An access, then two zero bytes.
    if state[PENDING_AT + 1] > 1 || state[PENDING_AT + 2..PENDING_AT + 4] != [0, 0] {
        return None;
    }
    let access = Access::from_byte(state[PENDING_AT + 1]);
    let pending = match state[PENDING_AT] {
        0 => None,
        status => Some(Pending {
            fault: Fault::from_status(status)?,
            access,
            address: word(state, PENDING_AT + 4),
        }),
    };
    let image = Image {
        prefetch: half(state, 0),
        control: half(state, 2),
        base: word(state, 4),
        lock_base: half(state, 8),
        victim: half(state, 10),
        cam: halves(state, 12),
        ram: halves(state, 16),
        read_cam: halves(state, 20),
        read_ram: halves(state, 24),
        slots: core::array::from_fn(|slot| {
            let at = SLOTS_AT + 8 * slot;
            (halves(state, at), halves(state, at + 4))
        }),
        pending,
    };
    let meters = Meters {
        fresh: word(state, METERS_AT),
        retries: word(state, METERS_AT + 4),
        words: word(state, METERS_AT + 8),
    };
    let rows = [word(state, ROWS_AT), word(state, ROWS_AT + 4)];
    Some((image, Books { meters, bill: Bill { total, misses, rows } }))
}

/// The state as it is handed back. `out` has 328 bytes.
fn encode(image: &Image, books: &Books, out: &mut [u8]) {
    let mut at = 0;
    let mut put = |bytes: &[u8]| {
        out[at..at + bytes.len()].copy_from_slice(bytes);
        at += bytes.len();
    };
    put(&image.prefetch.to_le_bytes());
    put(&image.control.to_le_bytes());
    put(&image.base.to_le_bytes());
    put(&image.lock_base.to_le_bytes());
    put(&image.victim.to_le_bytes());
    for word in [image.cam, image.ram, image.read_cam, image.read_ram] {
        put(&word.rotate_left(16).to_le_bytes());
    }
    debug_assert_eq!(image.slots.len(), SLOTS);
    for &(cam, ram) in &image.slots {
        put(&cam.rotate_left(16).to_le_bytes());
        put(&ram.rotate_left(16).to_le_bytes());
    }
    let (status, access, address) = match image.pending {
        None => (0, 0, 0),
        Some(pending) => (pending.fault.status(), pending.access as u8, pending.address),
    };
    put(&[status, access, 0, 0]);
    put(&address.to_le_bytes());
    put(&books.meters.fresh.to_le_bytes());
    put(&books.meters.retries.to_le_bytes());
    put(&books.meters.words.to_le_bytes());
    put(&figure(books.bill.total).to_le_bytes());
    put(&figure(books.bill.misses).to_le_bytes());
    put(&books.bill.rows[0].to_le_bytes());
    put(&books.bill.rows[1].to_le_bytes());
    debug_assert_eq!(at, STATE);
}

/// The bits of a figure; one NaN stands for all.
fn figure(figure: f64) -> u64 {
    if figure.is_nan() {
        0x7FF8_0000_0000_0000
    } else {
        figure.to_bits()
    }
}

#[cfg(test)]
#[path = "boundary_tests.rs"]
mod tests;
