//! The proved implementation, through the C functions of the boundary.
//!
//! It is there where the build found its archive (see `build.rs`); `linked`
//! gives it, or `None`.

use crate::boundary::{Figures, Lending, Program};

/// The proved implementation. There is no value of it where it is not linked.
#[derive(Clone, Copy, Debug)]
pub struct Native(Linked);

/// The proved implementation, where it is linked.
pub fn linked() -> Option<Native> {
    linkage()
}

#[cfg(native)]
#[derive(Clone, Copy, Debug)]
struct Linked;

#[cfg(native)]
fn linkage() -> Option<Native> {
    Some(Native(Linked))
}

#[cfg(not(native))]
#[derive(Clone, Copy, Debug)]
enum Linked {}

#[cfg(not(native))]
fn linkage() -> Option<Native> {
    None
}

#[cfg(native)]
mod c {
    extern "C" {
        pub fn nx_build(
            records: *const u8,
            records_len: usize,
            base: u32,
            memory: *mut u8,
            memory_len: usize,
        ) -> u64;

        pub fn nx_run(
            calls: *const u8,
            calls_len: usize,
            on_chip: *const u8,
            on_chip_len: usize,
            on_chip_base: u32,
            external: *const u8,
            external_len: usize,
            external_base: u32,
            on_chip_kind: u32,
            on_chip_a: f64,
            on_chip_b: f64,
            external_kind: u32,
            external_a: f64,
            external_b: f64,
            out: *mut u8,
            out_len: usize,
        ) -> u64;

        pub fn nx_from(
            state: *const u8,
            state_len: usize,
            total: f64,
            misses: f64,
            calls: *const u8,
            calls_len: usize,
            on_chip: *const u8,
            on_chip_len: usize,
            on_chip_base: u32,
            external: *const u8,
            external_len: usize,
            external_base: u32,
            on_chip_kind: u32,
            on_chip_a: f64,
            on_chip_b: f64,
            external_kind: u32,
            external_a: f64,
            external_b: f64,
            out: *mut u8,
            out_len: usize,
        ) -> u64;

        pub fn nx_fetch(
            on_chip: *const u8,
            on_chip_len: usize,
            on_chip_base: u32,
            external: *const u8,
            external_len: usize,
            external_base: u32,
            address: u32,
        ) -> u64;

        pub fn nx_check(memory: *const u8, memory_len: usize, base: u32) -> u64;

        pub fn nx_list(
            memory: *const u8,
            memory_len: usize,
            base: u32,
            out: *mut u8,
            out_len: usize,
        ) -> u64;

        pub fn nx_part(
            new: *const u8,
            new_len: usize,
            signed: *const u8,
            signed_len: usize,
            out: *mut u8,
            out_len: usize,
        ) -> u64;

        pub fn nx_record(calls: *const u8, calls_len: usize, out: *mut u8, out_len: usize) -> u64;

        pub fn nx_recorded(
            recording: *const u8,
            recording_len: usize,
            out: *mut u8,
            out_len: usize,
        ) -> u64;

        pub fn nx_crc(bytes: *const u8, bytes_len: usize) -> u64;
    }
}

// SAFETY, of each call below: every pointer comes with its length from a slice
// that lives through the call; those written through come from `&mut` slices,
// which alias nothing else.
#[cfg(native)]
impl Program for Native {
    fn name(&self) -> &'static str {
        "native"
    }

    fn build(&self, records: &[u8], base: u32, memory: &mut [u8]) -> u64 {
        unsafe {
            c::nx_build(records.as_ptr(), records.len(), base, memory.as_mut_ptr(), memory.len())
        }
    }

    fn run(&self, lent: &Lending, calls: &[u8], out: &mut [u8]) -> u64 {
        unsafe {
            c::nx_run(
                calls.as_ptr(),
                calls.len(),
                lent.on.as_ptr(),
                lent.on.len(),
                lent.on_base,
                lent.external.as_ptr(),
                lent.external.len(),
                lent.external_base,
                lent.on_price.0,
                lent.on_price.1,
                lent.on_price.2,
                lent.external_price.0,
                lent.external_price.1,
                lent.external_price.2,
                out.as_mut_ptr(),
                out.len(),
            )
        }
    }

    fn from(
        &self,
        lent: &Lending,
        state: &[u8],
        (total, misses): Figures,
        calls: &[u8],
        out: &mut [u8],
    ) -> u64 {
        unsafe {
            c::nx_from(
                state.as_ptr(),
                state.len(),
                total,
                misses,
                calls.as_ptr(),
                calls.len(),
                lent.on.as_ptr(),
                lent.on.len(),
                lent.on_base,
                lent.external.as_ptr(),
                lent.external.len(),
                lent.external_base,
                lent.on_price.0,
                lent.on_price.1,
                lent.on_price.2,
                lent.external_price.0,
                lent.external_price.1,
                lent.external_price.2,
                out.as_mut_ptr(),
                out.len(),
            )
        }
    }

    fn fetch(&self, lent: &Lending, address: u32) -> u64 {
        unsafe {
            c::nx_fetch(
                lent.on.as_ptr(),
                lent.on.len(),
                lent.on_base,
                lent.external.as_ptr(),
                lent.external.len(),
                lent.external_base,
                address,
            )
        }
    }

    fn check(&self, memory: &[u8], base: u32) -> u64 {
        unsafe { c::nx_check(memory.as_ptr(), memory.len(), base) }
    }

    fn list(&self, memory: &[u8], base: u32, out: &mut [u8]) -> u64 {
        unsafe { c::nx_list(memory.as_ptr(), memory.len(), base, out.as_mut_ptr(), out.len()) }
    }

    fn part(&self, new: &[u8], signed: &[u8], out: &mut [u8]) -> u64 {
        unsafe {
            c::nx_part(
                new.as_ptr(),
                new.len(),
                signed.as_ptr(),
                signed.len(),
                out.as_mut_ptr(),
                out.len(),
            )
        }
    }

    fn record(&self, calls: &[u8], out: &mut [u8]) -> u64 {
        unsafe { c::nx_record(calls.as_ptr(), calls.len(), out.as_mut_ptr(), out.len()) }
    }

    fn recorded(&self, recording: &[u8], out: &mut [u8]) -> u64 {
        unsafe { c::nx_recorded(recording.as_ptr(), recording.len(), out.as_mut_ptr(), out.len()) }
    }

    fn crc(&self, bytes: &[u8]) -> u64 {
        unsafe { c::nx_crc(bytes.as_ptr(), bytes.len()) }
    }
}

#[cfg(not(native))]
impl Program for Native {
    fn name(&self) -> &'static str {
        match self.0 {}
    }

    fn build(&self, _: &[u8], _: u32, _: &mut [u8]) -> u64 {
        match self.0 {}
    }

    fn run(&self, _: &Lending, _: &[u8], _: &mut [u8]) -> u64 {
        match self.0 {}
    }

    fn from(&self, _: &Lending, _: &[u8], _: Figures, _: &[u8], _: &mut [u8]) -> u64 {
        match self.0 {}
    }

    fn fetch(&self, _: &Lending, _: u32) -> u64 {
        match self.0 {}
    }

    fn check(&self, _: &[u8], _: u32) -> u64 {
        match self.0 {}
    }

    fn list(&self, _: &[u8], _: u32, _: &mut [u8]) -> u64 {
        match self.0 {}
    }

    fn part(&self, _: &[u8], _: &[u8], _: &mut [u8]) -> u64 {
        match self.0 {}
    }

    fn record(&self, _: &[u8], _: &mut [u8]) -> u64 {
        match self.0 {}
    }

    fn recorded(&self, _: &[u8], _: &mut [u8]) -> u64 {
        match self.0 {}
    }

    fn crc(&self, _: &[u8]) -> u64 {
        match self.0 {}
    }
}
