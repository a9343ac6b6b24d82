//! What the tests share: the programs, calls and states as bytes, and lists of
//! records.

#![allow(dead_code)]

pub mod callers;
pub mod coverage;
pub mod differences;
pub mod groups;
pub mod images;
pub mod lists;
pub mod nx;
pub mod partings;
pub mod places;
pub mod plain;
pub mod recordings;
pub mod replays;
pub mod rows;
pub mod spoiled;
pub mod states;
pub mod told;
pub mod turned;
pub mod worlds;
pub mod written;

use coverage::Coverage;
use second::boundary::{self, Program, Second};

pub use second::boundary::Lending;
use second::native;
use std::sync::{Mutex, MutexGuard, PoisonError};

/// One turn at a time: nothing is said about a program called from two threads.
pub fn turn() -> MutexGuard<'static, ()> {
    static TURN: Mutex<()> = Mutex::new(());
    TURN.lock().unwrap_or_else(PoisonError::into_inner)
}

/// Without the proved implementation, only where it is said aloud.
pub fn without_native() -> bool {
    std::env::var_os("NX_WITHOUT_NATIVE").is_some_and(|value| value == "1")
}

/// The program to compare with the second one: the proved implementation; the
/// second program itself with NX_WITHOUT_NATIVE=1; else the test fails.
pub fn rival() -> Box<dyn Program> {
    match native::linked() {
        Some(native) => Box::new(native),
        None if without_native() => {
            println!("NX_WITHOUT_NATIVE=1: the second program is compared with itself");
            Box::new(Second)
        }
        None => panic!(
            "libcapi.a was not there when this was built, so there is nothing to compare with: \
             build it into ../target/native, or name its folder in NX_LIB; \
             NX_WITHOUT_NATIVE=1 compares the second program with itself"
        ),
    }
}

/// The program to compare with, and what was seen.
pub struct Bench {
    pub rival: Box<dyn Program>,
    pub seen: Coverage,
}

impl Bench {
    pub fn new() -> Bench {
        Bench { rival: rival(), seen: Coverage::default() }
    }

    pub fn programs(&self) -> [&dyn Program; 2] {
        [&Second, &*self.rival]
    }
}

/// How many times the usual number of cases: NX_LONG, or 1.
pub fn long() -> u32 {
    match std::env::var("NX_LONG") {
        Ok(times) => times.parse().expect("NX_LONG is a number"),
        Err(_) => 1,
    }
}

/// A seed, moved by NX_SEED.
pub fn seed(own: u64) -> u64 {
    match std::env::var("NX_SEED") {
        Ok(moved) => own ^ moved.parse::<u64>().expect("NX_SEED is a number") << 32,
        Err(_) => own,
    }
}

// Calls as bytes.

pub type Call = [u8; 12];

pub fn call(kind: u8, second: u8, address: u32, value: u16) -> Call {
    let mut bytes = [0; 12];
    bytes[0] = kind;
    bytes[1] = second;
    bytes[4..8].copy_from_slice(&address.to_le_bytes());
    bytes[8..10].copy_from_slice(&value.to_le_bytes());
    bytes
}

pub fn write(offset: u8, value: u16) -> Call {
    call(boundary::WRITE, offset, 0, value)
}

pub fn read(offset: u8) -> Call {
    call(boundary::READ, offset, 0, 0)
}

pub fn request(access: u8, address: u32) -> Call {
    call(boundary::REQUEST, access, address, 0)
}

pub fn drop_fault() -> Call {
    call(boundary::DROP, 0, 0, 0)
}

pub fn shift(address: u32) -> Call {
    call(boundary::SHIFT, 0, address, 0)
}

// Offsets of Table 3.

pub const PREFETCH: u8 = 0x00;
pub const WALK_STATUS: u8 = 0x04;
pub const CONTROL: u8 = 0x08;
pub const FAULT_HIGH: u8 = 0x0C;
pub const FAULT_LOW: u8 = 0x10;
pub const STATUS: u8 = 0x14;
pub const ACKNOWLEDGE: u8 = 0x18;
pub const BASE_HIGH: u8 = 0x1C;
pub const BASE_LOW: u8 = 0x20;
pub const LOCK: u8 = 0x24;
pub const LOAD: u8 = 0x28;
pub const CAM_HIGH: u8 = 0x2C;
pub const CAM_LOW: u8 = 0x30;
pub const RAM_HIGH: u8 = 0x34;
pub const RAM_LOW: u8 = 0x38;
pub const GLOBAL_FLUSH: u8 = 0x3C;
pub const ENTRY_FLUSH: u8 = 0x40;
pub const READ_CAM_HIGH: u8 = 0x44;
pub const READ_CAM_LOW: u8 = 0x48;
pub const READ_RAM_HIGH: u8 = 0x4C;
pub const READ_RAM_LOW: u8 = 0x50;

// Answers and states as bytes.

pub fn half(bytes: &[u8], at: usize) -> u16 {
    u16::from_le_bytes(bytes[at..at + 2].try_into().unwrap())
}

pub fn word(bytes: &[u8], at: usize) -> u32 {
    u32::from_le_bytes(bytes[at..at + 4].try_into().unwrap())
}

pub fn double(bytes: &[u8], at: usize) -> u64 {
    u64::from_le_bytes(bytes[at..at + 8].try_into().unwrap())
}

pub fn put_half(bytes: &mut [u8], at: usize, half: u16) {
    bytes[at..at + 2].copy_from_slice(&half.to_le_bytes());
}

pub fn put_word(bytes: &mut [u8], at: usize, word: u32) {
    bytes[at..at + 4].copy_from_slice(&word.to_le_bytes());
}

pub fn put_double(bytes: &mut [u8], at: usize, double: u64) {
    bytes[at..at + 8].copy_from_slice(&double.to_le_bytes());
}

/// Number and value of an answer.
pub fn answer(bytes: &[u8], index: usize) -> (u32, i64) {
    let at = index * boundary::ANSWER;
    (word(bytes, at), double(bytes, at + 8) as i64)
}

/// A refusal of build, check, list, record or recorded: its number, and the index, count or
/// address with it.
pub const fn refused(number: u64, at: u64) -> u64 {
    1 << 63 | number << 32 | at
}

/// Where an answer's word came from: memory * 2^28 + offset, or 0.
pub fn from(bytes: &[u8], index: usize) -> u32 {
    word(bytes, index * boundary::ANSWER + 4)
}

/// A state's bytes with names.
#[derive(Clone, Copy)]
pub struct View<'a>(pub &'a [u8]);

impl View<'_> {
    pub fn prefetch(&self) -> u16 {
        half(self.0, 0)
    }

    pub fn control(&self) -> u16 {
        half(self.0, 2)
    }

    pub fn on(&self) -> bool {
        self.control() & 2 != 0
    }

    pub fn walking(&self) -> bool {
        self.control() & 4 != 0
    }

    pub fn base(&self) -> u32 {
        word(self.0, 4)
    }

    pub fn lock_base(&self) -> u16 {
        half(self.0, 8)
    }

    pub fn victim(&self) -> u16 {
        half(self.0, 10)
    }

    /// CAM high, CAM low, RAM high, RAM low.
    pub fn slot(&self, slot: usize) -> [u16; 4] {
        core::array::from_fn(|n| half(self.0, boundary::SLOTS_AT + 8 * slot + 2 * n))
    }

    /// Status, access, address.
    pub fn pending(&self) -> (u8, u8, u32) {
        let at = boundary::PENDING_AT;
        (self.0[at], self.0[at + 1], word(self.0, at + 4))
    }

    pub fn fresh(&self) -> u32 {
        word(self.0, boundary::METERS_AT)
    }

    pub fn retries(&self) -> u32 {
        word(self.0, boundary::METERS_AT + 4)
    }

    pub fn words(&self) -> u32 {
        word(self.0, boundary::METERS_AT + 8)
    }

    pub fn total(&self) -> f64 {
        f64::from_bits(double(self.0, boundary::BILL_AT))
    }

    pub fn misses(&self) -> f64 {
        f64::from_bits(double(self.0, boundary::BILL_AT + 8))
    }

    pub fn row(&self, role: usize) -> u32 {
        word(self.0, boundary::ROWS_AT + 4 * role)
    }
}

/// A call in words, for messages.
pub fn describe(call: &[u8]) -> String {
    let address = word(call, 4);
    let value = word(call, 8);
    match call[0] {
        boundary::WRITE => format!("write offset {:02x} value {value:04x}", call[1]),
        boundary::READ => format!("read offset {:02x}", call[1]),
        boundary::REQUEST if call[1] == 0 => format!("request read {address:06x}"),
        boundary::REQUEST => format!("request write {address:06x}"),
        boundary::DROP => "drop".into(),
        boundary::SHIFT => format!("shift report {address:06x}"),
        _ => format!("{call:02x?}"),
    }
}

pub fn hex(bytes: &[u8]) -> String {
    bytes.iter().map(|byte| format!("{byte:02x}")).collect()
}
