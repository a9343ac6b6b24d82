//! "The unit": the device and its calls, register writes and reads among them.
//!
//! A `Unit` is in range by construction: handed-in fields come as an `Image`,
//! and one with a field out of its range never becomes a unit (refusal 8
//! before all else). The calls keep it in range.

use crate::answer::{Answer, Fault, Refusal, Reply};
use crate::bill::{Bill, Prices};
use crate::memory::{Memories, Place};
use crate::meters::Meters;
use crate::registers::*;
use crate::slots::*;
use crate::walk::{walk, Access, Page, Walk};

/// Virtual addresses are below this.
pub const VIRTUAL_END: u32 = 1 << 24;

/// What is lent to a call that may walk.
#[derive(Clone, Copy, Debug)]
pub struct Lent<'a> {
    pub memories: Memories<'a>,
    pub prices: Prices,
}

/// The meters and the bill. They stay when the device is made fresh.
#[derive(Clone, Copy, PartialEq, Debug, Default)]
pub struct Books {
    pub meters: Meters,
    pub bill: Bill,
}

/// A pending fault: its kind, and the request as it was.
#[derive(Clone, Copy, PartialEq, Eq, Debug)]
pub struct Pending {
    pub fault: Fault,
    pub access: Access,
    pub address: u32,
}

/// What comes of a request or retry that is not refused: an address or a fault,
/// and where the last word of its walk lay, if it walked.
#[derive(Clone, Copy, Debug)]
struct Outcome {
    got: Result<u32, Fault>,
    from: Option<Place>,
}

// ---------------------------------------------------------------------------
// "The unit": the device as it is handed in and back, and its ranges

/// A device's fields as they stand, in range or not. Words are high half *
/// 65,536 + low half.
#[derive(Clone, PartialEq, Eq, Debug, Default)]
pub struct Image {
    pub prefetch: u16,
    pub control: u16,
    pub base: u32,
    pub lock_base: u16,
    pub victim: u16,
    pub cam: u32,
    pub ram: u32,
    pub read_cam: u32,
    pub read_ram: u32,
    /// CAM and RAM word of each slot.
    pub slots: [(u32, u32); SLOTS],
    pub pending: Option<Pending>,
}

impl Image {
    /// Every field in the range that the paper gives.
    pub fn in_range(&self) -> bool {
        let cam = |word: u32| word & !CAM_BITS == 0;
        let ram = |word: u32| word & !RAM_BITS == 0;
        self.control & !CONTROL_BITS == 0
            && self.base & !BASE_BITS == 0
            && self.prefetch & !PREFETCH_BITS == 0
            && usize::from(self.lock_base) < SLOTS
            && usize::from(self.victim) < SLOTS
            && cam(self.cam)
            && cam(self.read_cam)
            && ram(self.ram)
            && ram(self.read_ram)
            && self.slots.iter().all(|&slot| cam(slot.0) && ram(slot.1))
            && self.pending.is_none_or(|pending| pending.address < VIRTUAL_END)
    }
}

/// The device: registers, slots, perhaps one pending fault.
#[derive(Clone, Debug)]
pub struct Unit {
    slots: Slots,
    pending: Option<Pending>,
    base: u32,
    cam: u32,
    ram: u32,
    read_cam: u32,
    read_ram: u32,
    control: u16,
    prefetch: u16,
    lock_base: u8,
    victim: u8,
}

impl Default for Unit {
    fn default() -> Unit {
        Unit::fresh()
    }
}

/// Every call that takes a device first answers 8 where a field is out of range.
impl TryFrom<&Image> for Unit {
    type Error = Refusal;

    fn try_from(image: &Image) -> Result<Unit, Refusal> {
        if !image.in_range() {
            return Err(Refusal::Range);
        }
        let mut slots = Slots::FRESH;
        for (slot, &(cam, ram)) in image.slots.iter().enumerate() {
            slots.set(slot, cam, ram);
        }
        Ok(Unit {
            slots,
            pending: image.pending,
            base: image.base,
            cam: image.cam,
            ram: image.ram,
            read_cam: image.read_cam,
            read_ram: image.read_ram,
            control: image.control,
            prefetch: image.prefetch,
            lock_base: image.lock_base as u8,
            victim: image.victim as u8,
        })
    }
}

impl Unit {
    /// "A fresh device is all zero."
    pub const fn fresh() -> Unit {
        Unit {
            slots: Slots::FRESH,
            pending: None,
            base: 0,
            cam: 0,
            ram: 0,
            read_cam: 0,
            read_ram: 0,
            control: 0,
            prefetch: 0,
            lock_base: 0,
            victim: 0,
        }
    }

    /// The fields as they are handed back.
    pub fn image(&self) -> Image {
        Image {
            prefetch: self.prefetch,
            control: self.control,
            base: self.base,
            lock_base: self.lock_base.into(),
            victim: self.victim.into(),
            cam: self.cam,
            ram: self.ram,
            read_cam: self.read_cam,
            read_ram: self.read_ram,
            slots: core::array::from_fn(|slot| (self.slots.cams[slot], self.slots.rams[slot])),
            pending: self.pending,
        }
    }

    #[inline]
    fn walking(&self) -> bool {
        self.control & CONTROL_WALK != 0
    }

    #[inline]
    fn on(&self) -> bool {
        self.control & CONTROL_ENABLE != 0
    }

    // -----------------------------------------------------------------------
    // "The unit": requests

    /// A fresh request. Refusals in order: 1, 4, 9, 2, 3.
    pub fn request(
        &mut self,
        lent: &Lent,
        books: &mut Books,
        address: u32,
        access: Access,
    ) -> Reply {
        if address >= VIRTUAL_END {
            return Refusal::Address.into();
        }
        if let Err(refusal) = lawful(lent, books) {
            return refusal.into();
        }
        if self.pending.is_some() {
            return Refusal::Pending.into();
        }
        match self.attempt(lent, books, address, access) {
            Err(refusal) => refusal.into(),
            Ok(outcome) => {
                books.meters.post_fresh();
                self.settle(outcome, address, access)
            }
        }
    }

    /// One request or retry under the device as it is: words and smoothing
    /// posted and a slot filled, unless it is refused 3 (`Err`). What comes of
    /// it, an address or a fault, is the caller's to meter and to keep.
    #[inline]
    fn attempt(
        &mut self,
        lent: &Lent,
        books: &mut Books,
        address: u32,
        access: Access,
    ) -> Result<Outcome, Refusal> {
        // Off: physical = virtual, no check (house), no smoothing.
        if !self.on() {
            return Ok(Outcome { got: Ok(address), from: None });
        }
        let (page, from) = match self.slots.find(number_of(address)) {
            Some(slot) => {
                books.bill.post_attempt(false);
                (self.slots.page(slot), None)
            }
            None if !self.walking() => {
                books.bill.post_attempt(true);
                return Ok(Outcome { got: Err(Fault::Miss), from: None });
            }
            None => {
                let walk = walk(&lent.memories, self.base, address).ok_or(Refusal::Nowhere)?;
                post_words(&walk, lent, books);
                books.bill.post_attempt(true);
                let from = Some(walk.last.place);
                match walk.page {
                    None => return Ok(Outcome { got: Err(Fault::Translation), from }),
                    Some(page) => {
                        self.fill(address, page);
                        (page, from)
                    }
                }
            }
        };
        let got =
            if page.permits(access) { Ok(page.physical(address)) } else { Err(Fault::Permission) };
        Ok(Outcome { got, from })
    }

    /// An address clears the pending fault; a fault is pending (anew).
    #[inline]
    fn settle(&mut self, outcome: Outcome, address: u32, access: Access) -> Reply {
        let answer = match outcome.got {
            Ok(physical) => {
                self.pending = None;
                Answer::Physical(physical)
            }
            Err(fault) => {
                self.pending = Some(Pending { fault, access, address });
                Answer::Faulted(fault)
            }
        };
        Reply { answer, from: outcome.from }
    }

    /// "The walk": a found page fills the larger of victim and lock base; the
    /// victim is then the slot after it, or the lock base after slot 31 (house).
    /// V = 1, P = 0, tag bits below the page size zero.
    #[inline]
    fn fill(&mut self, address: u32, page: Page) {
        let slot = self.victim.max(self.lock_base);
        let tag = address & !page.kind.within();
        let cam = tag >> 6 | CAM_VALID | page.kind as u32;
        let ram = page.frame | u32::from(page.access) << 8;
        self.slots.set(usize::from(slot) % SLOTS, cam, ram);
        let next = slot + 1;
        self.victim = if usize::from(next) < SLOTS { next } else { self.lock_base };
    }

    /// Drop clears the pending fault; refused 7 with nothing pending.
    pub fn drop_fault(&mut self) -> Answer {
        match self.pending.take() {
            Some(_) => Answer::Done,
            None => Refusal::Moment.into(),
        }
    }

    /// Physical minus virtual, by a plain walk from the base register alone.
    /// Refusals in order: 1, 4, 3; then 21, which sets nothing.
    pub fn shift_report(&self, memories: &Memories, address: u32) -> Reply {
        if address >= VIRTUAL_END {
            return Refusal::Address.into();
        }
        if !memories.lawful() {
            return Refusal::Memory.into();
        }
        match walk(memories, self.base, address) {
            None => Refusal::Nowhere.into(),
            Some(Walk { last, page: None, .. }) => {
                Answer::Faulted(Fault::Translation).beside(last.place)
            }
            Some(Walk { last, page: Some(page), .. }) => {
                let distance = i64::from(page.physical(address)) - i64::from(address);
                Answer::Distance(distance).beside(last.place)
            }
        }
    }

    // -----------------------------------------------------------------------
    // "Registers"

    /// A register read. Refusals in order: 5, 6.
    pub fn read(&self, offset: u32) -> Answer {
        let register = match Register::at(offset) {
            Ok(register) => register,
            Err(refusal) => return refusal.into(),
        };
        Answer::Value(match register {
            Register::Prefetch => self.prefetch,
            Register::Control => self.control,
            // Address bits 23:16 (Table 7), and 15:7 in place (Table 8).
            Register::FaultHigh => self.pending.map_or(0, |pending| high(pending.address)),
            Register::FaultLow => self.pending.map_or(0, |pending| low(pending.address) & 0xFF80),
            Register::FaultStatus => {
                self.pending.map_or(0, |pending| pending.fault.status().into())
            }
            Register::Acknowledge => return Refusal::Direction.into(),
            Register::BaseHigh => high(self.base),
            Register::BaseLow => low(self.base),
            Register::Lock => u16::from(self.lock_base) << 10 | u16::from(self.victim) << 4,
            Register::CamHigh => high(self.cam),
            Register::CamLow => low(self.cam),
            Register::RamHigh => high(self.ram),
            Register::RamLow => low(self.ram),
            Register::ReadCamHigh => high(self.read_cam),
            Register::ReadCamLow => low(self.read_cam),
            Register::ReadRamHigh => high(self.read_ram),
            Register::ReadRamLow => low(self.read_ram),
            // Walk status (house), load and both flushes read zero.
            Register::WalkStatus
            | Register::Load
            | Register::GlobalFlush
            | Register::EntryFlush => 0,
        })
    }

    /// A register write. Refusals in order: 5, 6, 4 and 9 (prefetch and
    /// acknowledge only), 8, 2, 7, 3. Reserved bits are dropped.
    pub fn write(&mut self, lent: &Lent, books: &mut Books, offset: u32, value: u16) -> Reply {
        let register = match Register::at(offset) {
            Ok(register) => register,
            Err(refusal) => return refusal.into(),
        };
        match register {
            Register::WalkStatus
            | Register::FaultHigh
            | Register::FaultLow
            | Register::FaultStatus
            | Register::ReadCamHigh
            | Register::ReadCamLow
            | Register::ReadRamHigh
            | Register::ReadRamLow => return Refusal::Direction.into(),
            Register::Prefetch => return self.write_prefetch(lent, books, value),
            Register::Acknowledge => return self.write_acknowledge(lent, books, value),
            Register::Lock => return self.write_lock(value).into(),
            Register::Load => return self.write_load(value).into(),
            // With bit 0 clear the device is fresh; meters and bill stay.
            Register::Control if value & CONTROL_RUN == 0 => *self = Unit::fresh(),
            Register::Control => self.control = value & CONTROL_BITS,
            Register::BaseHigh => self.base = with_high(self.base, value),
            Register::BaseLow => self.base = with_low(self.base, value) & BASE_BITS,
            Register::CamHigh => self.cam = with_high(self.cam, value) & CAM_BITS,
            Register::CamLow => self.cam = with_low(self.cam, value),
            Register::RamHigh => self.ram = with_high(self.ram, value),
            Register::RamLow => self.ram = with_low(self.ram, value) & RAM_BITS,
            Register::GlobalFlush if value & 1 != 0 => self.flush_all(),
            Register::EntryFlush if value & 1 != 0 => self.flush_entry(),
            Register::GlobalFlush | Register::EntryFlush => {}
        }
        Answer::Done.into()
    }

    /// Lock: base in 15:10, victim in 9:4; 32 or more is refused 8.
    fn write_lock(&mut self, value: u16) -> Answer {
        let lock_base = (value >> 10) as u8;
        let victim = (value >> 4 & 0x3F) as u8;
        if usize::from(lock_base.max(victim)) >= SLOTS {
            return Refusal::Range.into();
        }
        self.lock_base = lock_base;
        self.victim = victim;
        Answer::Done
    }

    /// Load: bit 0 stores CAM and RAM in the victim slot, bit 1 copies that
    /// slot to the read registers; the victim stays.
    fn write_load(&mut self, value: u16) -> Answer {
        let victim = usize::from(self.victim) % SLOTS;
        match value & 3 {
            3 => return Refusal::Range.into(),
            0 => {}
            _ if self.walking() => return Refusal::Moment.into(),
            1 => self.slots.set(victim, self.cam, self.ram),
            _ => {
                self.read_cam = self.slots.cams[victim];
                self.read_ram = self.slots.rams[victim];
            }
        }
        Answer::Done
    }

    /// Global flush: clears V wherever P is 0, locked or not.
    fn flush_all(&mut self) {
        for slot in 0..SLOTS {
            if self.slots.cams[slot] & CAM_PRESERVED == 0 {
                self.slots.clear_valid(slot);
            }
        }
    }

    /// Entry flush: clears V of each slot that matches the CAM address by the
    /// slot's own type, preserved or not.
    fn flush_entry(&mut self) {
        let mut matching = self.slots.matching((self.cam >> 4) as u16);
        while let Some(slot) = Slots::lowest(matching) {
            self.slots.clear_valid(slot);
            matching &= matching - 1;
        }
    }

    /// Prefetch, bits 13:0 = address bits 23:10: no effect on a match, else a
    /// walk without access check. The register keeps each write that is not refused.
    fn write_prefetch(&mut self, lent: &Lent, books: &mut Books, value: u16) -> Reply {
        if let Err(refusal) = lawful(lent, books) {
            return refusal.into();
        }
        if value & 1 << 14 != 0 {
            return Refusal::Range.into();
        }
        if self.pending.is_some() {
            return Refusal::Pending.into();
        }
        if !(self.on() && self.walking()) {
            return Refusal::Moment.into();
        }
        let number = value & PREFETCH_BITS;
        let mut reply = Reply::from(Answer::Done);
        if self.slots.find(number).is_none() {
            let address = u32::from(number) << 10;
            let Some(walk) = walk(&lent.memories, self.base, address) else {
                return Refusal::Nowhere.into();
            };
            // Words count; the prefetch itself is no request and is not smoothed.
            post_words(&walk, lent, books);
            reply.from = Some(walk.last.place);
            match walk.page {
                Some(page) => self.fill(address, page),
                None => {
                    let fault = Fault::Prefetch;
                    self.pending = Some(Pending { fault, access: Access::Read, address });
                    reply.answer = Answer::Faulted(fault);
                }
            }
        }
        self.prefetch = number;
        reply
    }

    /// Acknowledge, bit 0: retries the pending request under the device as it
    /// is now. A pending prefetch is only dropped.
    fn write_acknowledge(&mut self, lent: &Lent, books: &mut Books, value: u16) -> Reply {
        if let Err(refusal) = lawful(lent, books) {
            return refusal.into();
        }
        if value & 1 == 0 {
            return Answer::Done.into();
        }
        let Some(Pending { fault, access, address }) = self.pending else {
            return Refusal::Moment.into();
        };
        if fault == Fault::Prefetch {
            self.pending = None;
            return Answer::Done.into();
        }
        match self.attempt(lent, books, address, access) {
            Err(refusal) => refusal.into(),
            Ok(outcome) => {
                books.meters.post_retry();
                self.settle(outcome, address, access)
            }
        }
    }
}

// ---------------------------------------------------------------------------
// "When the unit says no" and "Meters and the walk bill": what calls share

/// A page number: address bits 23:10.
#[inline]
fn number_of(address: u32) -> u16 {
    (address >> 10) as u16
}

/// Refusals 4 and 9 of a call that may walk.
#[inline]
fn lawful(lent: &Lent, books: &Books) -> Result<(), Refusal> {
    if !lent.memories.lawful() {
        Err(Refusal::Memory)
    } else if !lent.prices.lawful() || !books.bill.lawful() {
        Err(Refusal::Price)
    } else {
        Ok(())
    }
}

/// The words of a walk, metered and billed in order.
#[inline]
fn post_words(walk: &Walk, lent: &Lent, books: &mut Books) {
    let mut count = 1;
    if let Some(before) = walk.before {
        books.bill.post_word(before.place.role(), before.physical, &lent.prices);
        count = 2;
    }
    books.bill.post_word(walk.last.place.role(), walk.last.physical, &lent.prices);
    books.meters.post_words(count);
}

#[cfg(test)]
#[path = "unit_tests.rs"]
mod tests;
