//! "The unit": slots, and what matches.

use crate::walk::{Kind, Page, WITHIN};

/// Slots of a device (house).
pub const SLOTS: usize = 32;

/// CAM word, high half * 65,536 + low half: tag (address bits 23:10) in 17:4.
pub(crate) const CAM_BITS: u32 = 0x3_FFFF;
pub(crate) const CAM_PRESERVED: u32 = 1 << 3;
pub(crate) const CAM_VALID: u32 = 1 << 2;
/// RAM word: physical bits 31:10 in place, access in 9:8.
pub(crate) const RAM_BITS: u32 = 0xFFFF_FF00;

/// By type, the bits of a page number (address bits 23:10) that a tag must
/// agree with: address bits 23:20, 23:16, 23:12 or 23:10.
const TAG_BITS: [u16; 4] = [0x3C00, 0x3FC0, 0x3FFC, 0x3FFF];
/// The key of a slot that is not valid: no page number is equal to it.
const NO_KEY: u16 = 0x4000;

/// Lanes of 16 bits in a word, and words for all slots.
const LANES: usize = 4;
const WORDS: usize = SLOTS / LANES;
/// A number in each lane of a word, when multiplied by it.
const EACH: u64 = 0x0001_0001_0001_0001;

/// The slots, field by field. `keys` and `masks` are made from the CAM words,
/// so that all slots can be compared at once, four to a word: slot n is in
/// lane n / 8 of word n % 8.
#[derive(Clone, Debug)]
pub(crate) struct Slots {
    keys: [u64; WORDS],
    masks: [u64; WORDS],
    pub(crate) cams: [u32; SLOTS],
    pub(crate) rams: [u32; SLOTS],
}

impl Slots {
    pub(crate) const FRESH: Slots = Slots {
        keys: [NO_KEY as u64 * EACH; WORDS],
        masks: [0; WORDS],
        cams: [0; SLOTS],
        rams: [0; SLOTS],
    };

    /// The slots that match a page number: bit n % 8 of lane n / 8 for slot n,
    /// so that the lowest bit is that of the lowest slot.
    #[inline]
    pub(crate) fn matching(&self, number: u16) -> u64 {
        let number = u64::from(number) * EACH;
        let mut matching = 0;
        for n in 0..WORDS {
            // A lane is 0 where they agree, and never has its highest bit; so
            // the sum has that bit clear just there.
            let differ = (number & self.masks[n]) ^ self.keys[n];
            let agree = !(differ + 0x7FFF * EACH) & (0x8000 * EACH);
            matching |= agree >> (15 - n);
        }
        matching
    }

    /// The lowest of the slots that match, if there is one.
    #[inline]
    pub(crate) fn lowest(matching: u64) -> Option<usize> {
        let at = matching.trailing_zeros() as usize;
        (matching != 0).then_some(at / 16 * WORDS + at % 16)
    }

    #[inline]
    pub(crate) fn find(&self, number: u16) -> Option<usize> {
        Slots::lowest(self.matching(number))
    }

    /// Puts a slot's key and mask in their lanes.
    #[inline]
    fn set_lane(&mut self, slot: usize, key: u16, mask: u16) {
        let (word, shift) = (slot % WORDS, slot / WORDS * 16);
        let put = |lanes: &mut u64, lane: u16| {
            *lanes = *lanes & !(0xFFFF << shift) | u64::from(lane) << shift;
        };
        put(&mut self.keys[word], key);
        put(&mut self.masks[word], mask);
    }

    #[inline]
    pub(crate) fn set(&mut self, slot: usize, cam: u32, ram: u32) {
        self.cams[slot] = cam;
        self.rams[slot] = ram;
        if cam & CAM_VALID != 0 {
            let mask = TAG_BITS[(cam & 3) as usize];
            self.set_lane(slot, (cam >> 4) as u16 & mask, mask);
        } else {
            self.set_lane(slot, NO_KEY, 0);
        }
    }

    pub(crate) fn clear_valid(&mut self, slot: usize) {
        self.cams[slot] &= !CAM_VALID;
        self.set_lane(slot, NO_KEY, 0);
    }

    /// The page that a slot stands for. Frame bits below the page size do not count.
    #[inline]
    pub(crate) fn page(&self, slot: usize) -> Page {
        let kind = Kind::from_bits(self.cams[slot]);
        let ram = self.rams[slot];
        Page { kind, frame: ram & !WITHIN[kind as usize], access: (ram >> 8 & 3) as u8 }
    }
}
