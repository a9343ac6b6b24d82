//! "The unit": the two memories lent to a call that may walk, and where in them
//! a word lies.

use core::num::NonZeroU32;

/// Which of the two a memory is. Prices and rows go by this, not by address.
#[derive(Clone, Copy, PartialEq, Eq, Debug)]
#[repr(u8)]
pub enum Role {
    OnChip = 0,
    External = 1,
}

/// The greatest length of a memory, in bytes.
pub const LONGEST: usize = 131_072;

/// The bit at which a memory's number begins in a place: above every offset.
const MEMORY_AT: u32 = 28;
/// A memory's number, 1 on-chip and 2 external, as it stands in a place.
const ON_CHIP: NonZeroU32 = NonZeroU32::new(1 << MEMORY_AT).unwrap();
const EXTERNAL: NonZeroU32 = NonZeroU32::new(2 << MEMORY_AT).unwrap();

/// Where a word lies: in which memory, and at what offset from its base. It is
/// the number that crosses the boundary: memory * 2^28 + offset.
#[derive(Clone, Copy, PartialEq, Eq, Debug)]
pub struct Place(NonZeroU32);

impl Place {
    #[inline]
    pub fn new(role: Role, offset: u32) -> Place {
        let memory = match role {
            Role::OnChip => ON_CHIP,
            Role::External => EXTERNAL,
        };
        Place(memory | offset)
    }

    #[inline]
    pub fn role(self) -> Role {
        if self.0 < EXTERNAL {
            Role::OnChip
        } else {
            Role::External
        }
    }

    #[inline]
    pub const fn number(self) -> u32 {
        self.0.get()
    }
}

/// Refusal 4 for one memory: base or length no multiple of 4, length over
/// 131,072, or its end over 2^32.
#[inline]
pub fn lawful(base: u32, length: usize) -> bool {
    base.is_multiple_of(4)
        && length.is_multiple_of(4)
        && length <= LONGEST
        && u64::from(base) + length as u64 <= 1 << 32
}

/// Read-only bytes with a physical base.
#[derive(Clone, Copy, Debug)]
struct Memory<'a> {
    bytes: &'a [u8],
    base: u32,
}

impl<'a> Memory<'a> {
    fn end(&self) -> u64 {
        u64::from(self.base) + self.bytes.len() as u64
    }

    /// An empty memory shares no address with any.
    fn shares(&self, other: &Memory) -> bool {
        !self.bytes.is_empty()
            && !other.bytes.is_empty()
            && u64::from(self.base) < other.end()
            && u64::from(other.base) < self.end()
    }

    /// The four bytes at an address, and their offset. A lawful memory ends at
    /// 2^32 or before, so that an address below its base wraps to an offset past
    /// its end.
    #[inline]
    fn four(&self, address: u32) -> Option<(u32, &'a [u8; 4])> {
        let offset = address.wrapping_sub(self.base);
        let four = self.bytes.get(offset as usize..)?.first_chunk()?;
        Some((offset, four))
    }
}

/// Both memories, tried for refusal 4 once when they are put together.
#[derive(Clone, Copy, Debug)]
pub struct Memories<'a> {
    on_chip: Memory<'a>,
    external: Memory<'a>,
    lawful: bool,
}

impl<'a> Memories<'a> {
    pub fn new(
        on_chip: &'a [u8],
        on_chip_base: u32,
        external: &'a [u8],
        external_base: u32,
    ) -> Memories<'a> {
        let on_chip = Memory { bytes: on_chip, base: on_chip_base };
        let external = Memory { bytes: external, base: external_base };
        let lawful = lawful(on_chip.base, on_chip.bytes.len())
            && lawful(external.base, external.bytes.len())
            && !on_chip.shares(&external);
        Memories { on_chip, external, lawful }
    }

    #[inline]
    pub fn lawful(&self) -> bool {
        self.lawful
    }

    /// The four bytes at an address, and the place in the memory that holds
    /// them all.
    #[inline]
    pub fn find(&self, address: u32) -> Option<(Place, &'a [u8; 4])> {
        let (role, (offset, four)) = if !self.lawful {
            return None;
        } else if let Some(found) = self.on_chip.four(address) {
            (Role::OnChip, found)
        } else {
            (Role::External, self.external.four(address)?)
        };
        Some((Place::new(role, offset), four))
    }

    /// The descriptor word at an address, and its place.
    #[inline]
    pub fn word(&self, address: u32) -> Option<(Place, u32)> {
        self.find(address).map(|(place, four)| (place, u32::from_le_bytes(*four)))
    }

    /// The four bytes of a descriptor as a part of whichever memory holds
    /// them; an empty part of the on-chip one where neither does, or 4 holds.
    pub fn fetch(&self, address: u32) -> &'a [u8] {
        match self.find(address) {
            Some((_, four)) => four,
            None => &self.on_chip.bytes[..0],
        }
    }
}

#[cfg(test)]
mod tests {
    use super::*;

    #[test]
    fn places_are_numbers() {
        for (role, offset, number) in [
            (Role::OnChip, 0, 0x1000_0000),
            (Role::OnChip, 0x448, 0x1000_0448),
            (Role::OnChip, 131_068, 0x1001_FFFC),
            (Role::External, 0, 0x2000_0000),
            (Role::External, 131_068, 0x2001_FFFC),
        ] {
            let place = Place::new(role, offset);
            assert_eq!((place.number(), place.role()), (number, role));
        }
    }

    #[test]
    fn one_memory_alone() {
        assert!(lawful(0, 0));
        assert!(lawful(0xFFFF_FFFC, 0));
        assert!(lawful(0xFFFF_FFFC, 4));
        assert!(!lawful(0xFFFF_FFFC, 8));
        assert!(lawful(0xFFFE_0000, 131_072));
        assert!(!lawful(0, 131_076));
        assert!(!lawful(2, 0));
        assert!(!lawful(0, 2));
    }

    #[test]
    fn sharing() {
        let bytes = [0; 16];
        let pair = |a: u32, n: usize, b: u32, m: usize| {
            Memories::new(&bytes[..n], a, &bytes[..m], b).lawful()
        };
        assert!(pair(0x100, 16, 0x110, 16));
        assert!(pair(0x110, 16, 0x100, 16));
        assert!(!pair(0x100, 16, 0x10C, 16));
        assert!(!pair(0x10C, 16, 0x100, 16));
        assert!(!pair(0x100, 16, 0x100, 16));
        assert!(!pair(0x100, 16, 0x104, 4));
        assert!(pair(0x100, 16, 0x104, 0));
        assert!(pair(0x100, 0, 0x100, 0));
        assert!(!pair(0x100, 16, 0x102, 0));
    }

    #[test]
    fn fetched_parts_are_of_the_memory_itself() {
        let on: [u8; 8] = core::array::from_fn(|i| i as u8);
        let ext: [u8; 8] = core::array::from_fn(|i| 0x80 + i as u8);
        let both = Memories::new(&on, 0x100, &ext, 0x108);
        assert!(core::ptr::eq(both.fetch(0x104), &on[4..]));
        assert!(core::ptr::eq(both.fetch(0x108), &ext[..4]));
        assert_eq!(both.fetch(0x101), [1, 2, 3, 4]);
        let at = Place::new;
        assert_eq!(both.word(0x100), Some((at(Role::OnChip, 0), 0x0302_0100)));
        assert_eq!(both.word(0x104), Some((at(Role::OnChip, 4), 0x0706_0504)));
        assert_eq!(both.word(0x103), Some((at(Role::OnChip, 3), 0x0605_0403)));
        assert_eq!(both.word(0x108), Some((at(Role::External, 0), 0x8382_8180)));
        assert_eq!(both.word(0x10C), Some((at(Role::External, 4), 0x8786_8584)));
        for nowhere in [0xFC, 0x105, 0x10D, 0x110, 0xFFFF_FFFF, 0] {
            assert!(core::ptr::eq(both.fetch(nowhere), &on[..0]));
            assert_eq!(both.word(nowhere), None);
        }
        let bad = Memories::new(&on, 0x100, &ext, 0x104);
        assert!(core::ptr::eq(bad.fetch(0x100), &on[..0]));
        let top = Memories::new(&on, 0xFFFF_FFF8, &ext, 0);
        assert_eq!(top.fetch(0xFFFF_FFFC), [4, 5, 6, 7]);
        assert_eq!(top.word(0xFFFF_FFFC), Some((at(Role::OnChip, 4), 0x0706_0504)));
        assert_eq!(top.fetch(0xFFFF_FFFD), []);
        assert_eq!(top.fetch(4), [0x84, 0x85, 0x86, 0x87]);
    }
}
