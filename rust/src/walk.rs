//! "The walk": from the base and a virtual address to a page, and what it permits.

use crate::memory::{Memories, Place};

/// The four page types, by the number that a slot keeps.
#[derive(Clone, Copy, PartialEq, Eq, Debug)]
#[repr(u8)]
pub enum Kind {
    Section = 0,
    Large = 1,
    Small = 2,
    Tiny = 3,
}

/// The address bits within a page, by type: the low 20, 16, 12 or 10.
pub const WITHIN: [u32; 4] = [(1 << 20) - 1, (1 << 16) - 1, (1 << 12) - 1, (1 << 10) - 1];

impl Kind {
    #[inline]
    pub const fn from_bits(bits: u32) -> Kind {
        match bits & 3 {
            0 => Kind::Section,
            1 => Kind::Large,
            2 => Kind::Small,
            _ => Kind::Tiny,
        }
    }

    #[inline]
    pub const fn within(self) -> u32 {
        WITHIN[self as usize]
    }
}

/// Read or write, of a request.
#[derive(Clone, Copy, PartialEq, Eq, Debug)]
#[repr(u8)]
pub enum Access {
    Read = 0,
    Write = 1,
}

impl Access {
    /// 0 for read, anything else for write.
    #[inline]
    pub const fn from_byte(byte: u8) -> Access {
        if byte == 0 {
            Access::Read
        } else {
            Access::Write
        }
    }
}

/// A page that a walk found. Frame bits below the page size are zero.
#[derive(Clone, Copy, PartialEq, Eq, Debug)]
pub struct Page {
    pub kind: Kind,
    pub frame: u32,
    pub access: u8,
}

impl Page {
    /// The page's upper bits and the address's lower ones.
    #[inline]
    pub const fn physical(self, address: u32) -> u32 {
        self.frame | address & self.kind.within()
    }

    /// Access: 0x none, 10 read only, 11 both.
    #[inline]
    pub(crate) fn permits(self, access: Access) -> bool {
        self.access == 3 || self.access == 2 && access == Access::Read
    }
}

/// A descriptor word that was read: its place, and its physical address.
#[derive(Clone, Copy, PartialEq, Eq, Debug)]
pub struct Read {
    pub place: Place,
    pub physical: u32,
}

/// What a walk read, its last word and the one before it where there are two,
/// and what it found: no page is a translation fault.
#[derive(Clone, Copy, PartialEq, Eq, Debug)]
pub struct Walk {
    pub before: Option<Read>,
    pub last: Read,
    pub page: Option<Page>,
}

/// A walk for a virtual address below 2^24, from a base that is a multiple of
/// 128. `None` where a descriptor it needs is in neither memory (refusal 3).
#[inline]
pub fn walk(memories: &Memories, base: u32, address: u32) -> Option<Walk> {
    // First level: base + 4 x bits 23:20.
    let at = base + (address >> 20) * 4;
    let (place, word) = memories.word(at)?;
    let first = Read { place, physical: at };
    match word & 3 {
        0 => Some(Walk { before: None, last: first, page: None }),
        // A coarse table holds large and small pages; its tiny word is a fault.
        1 => {
            let at = (word & 0xFFFF_FC00) + (address >> 12 & 0xFF) * 4;
            let (place, word) = memories.word(at)?;
            let page = match word & 3 {
                1 => Some(second_level(Kind::Large, word)),
                2 => Some(second_level(Kind::Small, word)),
                _ => None,
            };
            Some(Walk { before: Some(first), last: Read { place, physical: at }, page })
        }
        // A section ends the walk.
        2 => Some(Walk { before: None, last: first, page: Some(section(word)) }),
        // A fine table holds pages of all three kinds (P3).
        _ => {
            let at = (word & 0xFFFF_F000) + (address >> 10 & 0x3FF) * 4;
            let (place, word) = memories.word(at)?;
            let page = match word & 3 {
                0 => None,
                1 => Some(second_level(Kind::Large, word)),
                2 => Some(second_level(Kind::Small, word)),
                _ => Some(second_level(Kind::Tiny, word)),
            };
            Some(Walk { before: Some(first), last: Read { place, physical: at }, page })
        }
    }
}

/// The section of a first-level word: base 31:20, access 11:10.
#[inline]
pub(crate) fn section(word: u32) -> Page {
    let frame = word & !Kind::Section.within();
    Page { kind: Kind::Section, frame, access: (word >> 10 & 3) as u8 }
}

/// The page of a second-level word (Table 2): access in 5:4.
#[inline]
pub(crate) fn second_level(kind: Kind, word: u32) -> Page {
    Page { kind, frame: word & !kind.within(), access: (word >> 4 & 3) as u8 }
}

#[cfg(test)]
mod tests {
    use super::*;
    use crate::memory::Role;

    fn words(words: &[(usize, u32)], length: usize) -> Vec<u8> {
        let mut bytes = vec![0; length];
        for &(at, word) in words {
            bytes[at..at + 4].copy_from_slice(&word.to_le_bytes());
        }
        bytes
    }

    fn at(role: Role, offset: u32, physical: u32) -> Read {
        Read { place: Place::new(role, offset), physical }
    }

    #[test]
    fn sections_take_access_from_11_10() {
        // Bits 5:4 say "both", 11:10 say "read"; bits 19:12 and 9:2 are ignored.
        let on = words(&[(12, 0x112F_FBFE)], 64);
        let memories = Memories::new(&on, 0x80, &[], 0);
        let walk = walk(&memories, 0x80, 0x3A_BCDE).unwrap();
        assert_eq!((walk.before, walk.last), (None, at(Role::OnChip, 0xC, 0x8C)));
        let page = walk.page.unwrap();
        assert_eq!(page, Page { kind: Kind::Section, frame: 0x1120_0000, access: 2 });
        assert_eq!(page.physical(0x3A_BCDE), 0x112A_BCDE);
    }

    #[test]
    fn tables_of_both_kinds() {
        // Coarse table at 400, fine at 1000, of the external memory.
        let on = words(&[(0, 0x1000_07FD), (4, 0x1000_1FFF)], 64);
        let external = words(
            &[
                (0x400, 0xABCD_FFF1 & !0x30 | 0x20),
                (0x404, 0xABCD_EFFE),
                (0x408, 0xABCD_EFFF),
                (0x40C, 0xABCD_EFFC),
                (0x1000, 0xABCD_EFFF),
                (0x1004, 0xABCD_EFFD),
                (0x1008, 0xABCD_EFEE),
                (0x100C, 0xABCD_EFFC),
                (0x1FF8, 0x8765_43DD),
                (0x1FFC, 0xABCD_EFCF),
            ],
            0x2000,
        );
        let memories = Memories::new(&on, 0x2000_0000, &external, 0x1000_0000);
        let go = |address| walk(&memories, 0x2000_0000, address).unwrap();
        let page = |kind, frame, access| Some(Page { kind, frame, access });
        assert_eq!(go(0x000_FFF).page, page(Kind::Large, 0xABCD_0000, 2));
        assert_eq!(go(0x001_000).page, page(Kind::Small, 0xABCD_E000, 3));
        assert_eq!(go(0x002_000).page, None);
        assert_eq!(go(0x003_000).page, None);
        assert_eq!(go(0x100_000).page, page(Kind::Tiny, 0xABCD_EC00, 3));
        assert_eq!(go(0x100_400).page, page(Kind::Large, 0xABCD_0000, 3));
        assert_eq!(go(0x100_800).page, page(Kind::Small, 0xABCD_E000, 2));
        assert_eq!(go(0x100_C00).page, None);
        assert_eq!(go(0x1FF_800).page, page(Kind::Large, 0x8765_0000, 1));
        assert_eq!(go(0x1FF_C00).page, page(Kind::Tiny, 0xABCD_EC00, 0));
        // The page's own upper bits, the address's lower 16 or 12.
        let physical = |address| go(address).page.unwrap().physical(address);
        assert_eq!(physical(0x100_432), 0xABCD_0432);
        assert_eq!(physical(0x100_987), 0xABCD_E987);
        assert_eq!(physical(0x1FF_BCD), 0x8765_FBCD);
        let read = |address| (go(address).before, go(address).last);
        let word_0 = Some(at(Role::OnChip, 0, 0x2000_0000));
        let word_1 = Some(at(Role::OnChip, 4, 0x2000_0004));
        assert_eq!(read(0x000_FFF), (word_0, at(Role::External, 0x400, 0x1000_0400)));
        assert_eq!(read(0x002_000), (word_0, at(Role::External, 0x408, 0x1000_0408)));
        assert_eq!(read(0x100_000), (word_1, at(Role::External, 0x1000, 0x1000_1000)));
        assert_eq!(read(0x100_7FF), (word_1, at(Role::External, 0x1004, 0x1000_1004)));
        assert_eq!(read(0x1FF_C00), (word_1, at(Role::External, 0x1FFC, 0x1000_1FFC)));
        assert_eq!(read(0x200_000), (None, at(Role::OnChip, 8, 0x2000_0008)));
        assert_eq!(go(0x200_000).page, None);
    }

    #[test]
    fn tables_within_a_memory() {
        // The base is 180 into the external memory; word 2 points at a coarse
        // table in it, word 3 at one in the on-chip memory.
        let external = words(&[(0x188, 0x1000_0401), (0x18C, 0x2000_0001)], 0x800);
        let on = words(&[], 0x40);
        let memories = Memories::new(&on, 0x2000_0000, &external, 0x1000_0000);
        let read = |address| {
            let walk = walk(&memories, 0x1000_0180, address).unwrap();
            (walk.before, walk.last)
        };
        assert_eq!(read(0x000_000), (None, at(Role::External, 0x180, 0x1000_0180)));
        let word_2 = Some(at(Role::External, 0x188, 0x1000_0188));
        assert_eq!(read(0x201_000), (word_2, at(Role::External, 0x404, 0x1000_0404)));
        let word_3 = Some(at(Role::External, 0x18C, 0x1000_018C));
        assert_eq!(read(0x300_000), (word_3, at(Role::OnChip, 0, 0x2000_0000)));
        assert_eq!(read(0x30F_000), (word_3, at(Role::OnChip, 0x3C, 0x2000_003C)));
        assert_eq!(walk(&memories, 0x1000_0180, 0x310_000), None);
    }

    #[test]
    fn words_in_neither_memory() {
        let on = words(&[(0, 0x1000_0001)], 64);
        let memories = Memories::new(&on, 0x2000_0000, &[], 0);
        assert_eq!(walk(&memories, 0x2000_0000, 0), None);
        assert_eq!(walk(&memories, 0x2000_0080, 0), None);
        assert!(walk(&memories, 0x2000_0000, 0xF0_0000).is_some());
    }
}
