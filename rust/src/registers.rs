//! "Registers": order, offsets and bits.

use crate::answer::Refusal;

/// The 21 registers, in the order of Table 3; offsets are four times these.
#[derive(Clone, Copy, PartialEq, Eq, Debug)]
#[repr(u8)]
pub enum Register {
    Prefetch,
    WalkStatus,
    Control,
    FaultHigh,
    FaultLow,
    FaultStatus,
    Acknowledge,
    BaseHigh,
    BaseLow,
    Lock,
    Load,
    CamHigh,
    CamLow,
    RamHigh,
    RamLow,
    GlobalFlush,
    EntryFlush,
    ReadCamHigh,
    ReadCamLow,
    ReadRamHigh,
    ReadRamLow,
}

impl Register {
    const ALL: [Register; 21] = [
        Register::Prefetch,
        Register::WalkStatus,
        Register::Control,
        Register::FaultHigh,
        Register::FaultLow,
        Register::FaultStatus,
        Register::Acknowledge,
        Register::BaseHigh,
        Register::BaseLow,
        Register::Lock,
        Register::Load,
        Register::CamHigh,
        Register::CamLow,
        Register::RamHigh,
        Register::RamLow,
        Register::GlobalFlush,
        Register::EntryFlush,
        Register::ReadCamHigh,
        Register::ReadCamLow,
        Register::ReadRamHigh,
        Register::ReadRamLow,
    ];

    /// Refusal 5: an offset that is no multiple of 4 or over 50 hex.
    #[inline]
    pub fn at(offset: u32) -> Result<Register, Refusal> {
        match Register::ALL.get(offset as usize / 4) {
            Some(&register) if offset.is_multiple_of(4) => Ok(register),
            _ => Err(Refusal::Offset),
        }
    }
}

pub(crate) const CONTROL_BITS: u16 = 0x27;
pub(crate) const CONTROL_WALK: u16 = 1 << 2;
pub(crate) const CONTROL_ENABLE: u16 = 1 << 1;
pub(crate) const CONTROL_RUN: u16 = 1 << 0;
pub(crate) const BASE_BITS: u32 = 0xFFFF_FF80;
pub(crate) const PREFETCH_BITS: u16 = 0x3FFF;

#[inline]
pub(crate) const fn high(word: u32) -> u16 {
    (word >> 16) as u16
}

#[inline]
pub(crate) const fn low(word: u32) -> u16 {
    word as u16
}

#[inline]
pub(crate) const fn with_high(word: u32, half: u16) -> u32 {
    (half as u32) << 16 | word & 0xFFFF
}

#[inline]
pub(crate) const fn with_low(word: u32, half: u16) -> u32 {
    word & 0xFFFF_0000 | half as u32
}
