//! "Check images we didn't build" (P4): whether the tables of an image lie inside its
//! memory and its repeated words stand equal, and the list of the pages that it maps.

use crate::answer::{Refusal, Refused};
use crate::memory;
use crate::walk::{second_level, section, Kind, Page};

/// The first-level table's base is a multiple of this.
const ALIGNMENT: u32 = 128;
/// Bytes of one record of the list.
const RECORD: usize = 12;

/// Words of the three sorts of tables.
const FIRST_LEVEL: usize = 16;
const COARSE: usize = 256;
const FINE: usize = 1_024;
/// How many equal words a large page has in a coarse table, and a large and a small one
/// in a fine table.
const LARGE_IN_COARSE: usize = COARSE / 16;
const LARGE_IN_FINE: usize = FINE / 16;
const SMALL_IN_FINE: usize = FINE / 256;

/// The lowest two bits of a second-level word that is a page.
const LARGE: u32 = Kind::Large as u32;
const SMALL: u32 = Kind::Small as u32;
const TINY: u32 = Kind::Tiny as u32;

/// A descriptor as it lies in memory.
type Word = [u8; 4];

/// All bits of a descriptor.
#[inline]
fn bits(word: Word) -> u32 {
    u32::from_le_bytes(word)
}

/// The lowest two of them.
#[inline]
fn kind(word: Word) -> u32 {
    bits(word) & 3
}

/// What a first-level word says, with the table that it points at.
enum Entry<'a> {
    Fault,
    Section,
    Coarse(&'a [Word; COARSE]),
    Fine(&'a [Word; FINE]),
}

/// A lawful memory that holds a first-level table at its base.
struct Image<'a> {
    base: u32,
    words: &'a [Word],
    first: &'a [Word; FIRST_LEVEL],
}

impl<'a> Image<'a> {
    /// Refusal 4, then 17 with the base where the first-level table itself has no room.
    fn new(memory: &'a [u8], base: u32) -> Result<Image<'a>, Refused> {
        if !base.is_multiple_of(ALIGNMENT) || !memory::lawful(base, memory.len()) {
            return Err(Refused { refusal: Refusal::Memory, at: 0 });
        }
        let (words, _) = memory.as_chunks();
        match words.first_chunk() {
            Some(first) => Ok(Image { base, words, first }),
            None => Err(Refused { refusal: Refusal::Outside, at: base }),
        }
    }

    /// The table at a physical address, where it lies wholly inside. A lawful memory ends
    /// at 2^32 or before, so that an address below its base wraps to one past its end.
    #[inline]
    fn table<const WORDS: usize>(&self, at: u32) -> Option<&'a [Word; WORDS]> {
        let offset = at.wrapping_sub(self.base) as usize;
        self.words.get(offset / 4..)?.first_chunk()
    }

    /// What a first-level word says; `None` where its table is not wholly inside.
    #[inline]
    fn entry(&self, word: u32) -> Option<Entry<'a>> {
        Some(match word & 3 {
            0 => Entry::Fault,
            1 => Entry::Coarse(self.table(coarse_at(word))?),
            2 => Entry::Section,
            _ => Entry::Fine(self.table(fine_at(word))?),
        })
    }

    /// The number of pages; or the first refusal of one order over all words: a
    /// first-level word for 17, then the words of its table for 18.
    fn pages(&self) -> Result<usize, Refused> {
        let unequal = |table: u32| {
            move |index| Refused { refusal: Refusal::Unequal, at: table + 4 * index as u32 }
        };
        let mut pages = 0;
        for (n, &word) in (0..).zip(self.first) {
            let word = bits(word);
            pages += match self.entry(word) {
                None => return Err(Refused { refusal: Refusal::Outside, at: self.base + 4 * n }),
                Some(Entry::Fault) => 0,
                Some(Entry::Section) => 1,
                Some(Entry::Coarse(table)) => {
                    pages_of_coarse(table).map_err(unequal(coarse_at(word)))?
                }
                Some(Entry::Fine(table)) => pages_of_fine(table).map_err(unequal(fine_at(word)))?,
            };
        }
        Ok(pages)
    }

    /// Hands over each page of an accepted image with its virtual start, rising.
    #[inline]
    fn visit(&self, mut page: impl FnMut(u32, Page)) {
        for (n, &word) in (0..).zip(self.first) {
            let (start, word) = (n << 20, bits(word));
            match self.entry(word) {
                None | Some(Entry::Fault) => {}
                Some(Entry::Section) => page(start, section(word)),
                Some(Entry::Coarse(table)) => visit_coarse(table, start, &mut page),
                Some(Entry::Fine(table)) => visit_fine(table, start, &mut page),
            }
        }
    }
}

/// Where the coarse table of a first-level word is: bits 31:10.
#[inline]
const fn coarse_at(word: u32) -> u32 {
    word & !(4 * COARSE as u32 - 1)
}

/// Where the fine table of a first-level word is: bits 31:12.
#[inline]
const fn fine_at(word: u32) -> u32 {
    word & !(4 * FINE as u32 - 1)
}

/// Whether all words of a group are equal.
#[inline]
fn equal<const WORDS: usize>(group: &[Word; WORDS]) -> bool {
    let head = bits(group[0]);
    group.iter().fold(0, |odd, &word| odd | bits(word) ^ head) == 0
}

/// Whether these are faults alone.
#[inline]
fn vacant<const WORDS: usize>(group: &[Word; WORDS]) -> bool {
    group.iter().fold(0, |all, &word| all | bits(word)) & 3 == 0
}

/// The number of tiny words among these; `None` where one of them is large or small.
#[inline]
fn only_tiny<const WORDS: usize>(group: &[Word; WORDS]) -> Option<usize> {
    let (mut tiny, mut other) = (0, 0);
    for &word in group {
        let word = bits(word);
        tiny += word & 1;
        other |= word ^ word >> 1;
    }
    (other & 1 == 0).then_some(tiny as usize)
}

/// The number of small words among these; `None` where one of them is large.
#[inline]
fn only_small<const WORDS: usize>(group: &[Word; WORDS]) -> Option<usize> {
    let (mut small, mut large) = (0, 0);
    for &word in group {
        let word = bits(word);
        small += word >> 1 & !word & 1;
        large |= word & !(word >> 1);
    }
    (large & 1 == 0).then_some(small as usize)
}

/// The index of the first word of one of these kinds.
#[cold]
fn first_of(kinds: &[u32], group: &[Word]) -> usize {
    let found = group.iter().position(|&word| kinds.contains(&kind(word)));
    found.expect("a word of that kind")
}

/// The number of pages of a coarse table; or the index of its first large word whose
/// group differs. A small word is a group of its own; a tiny one is no page.
fn pages_of_coarse(table: &[Word; COARSE]) -> Result<usize, usize> {
    let mut pages = 0;
    for (n, group) in table.as_chunks::<LARGE_IN_COARSE>().0.iter().enumerate() {
        pages += if kind(group[0]) == LARGE {
            if !equal(group) {
                return Err(LARGE_IN_COARSE * n);
            }
            1
        } else if let Some(small) = only_small(group) {
            small
        } else {
            return Err(LARGE_IN_COARSE * n + first_of(&[LARGE], group));
        };
    }
    Ok(pages)
}

/// The number of pages of a fine table; or the index of its first large or small word
/// whose group differs.
fn pages_of_fine(table: &[Word; FINE]) -> Result<usize, usize> {
    let mut pages = 0;
    for (n, group) in table.as_chunks::<LARGE_IN_FINE>().0.iter().enumerate() {
        pages += if kind(group[0]) == LARGE {
            if !equal(group) {
                return Err(LARGE_IN_FINE * n);
            }
            1
        } else if let Some(tiny) = only_tiny(group) {
            tiny
        } else {
            pages_below_large(group).map_err(|index| LARGE_IN_FINE * n + index)?
        };
    }
    Ok(pages)
}

/// The same of a fine table's words whose first is not large: then none may be.
fn pages_below_large(words: &[Word; LARGE_IN_FINE]) -> Result<usize, usize> {
    let mut pages = 0;
    for (n, group) in words.as_chunks::<SMALL_IN_FINE>().0.iter().enumerate() {
        pages += if kind(group[0]) == SMALL {
            if !equal(group) {
                return Err(SMALL_IN_FINE * n);
            }
            1
        } else if let Some(tiny) = only_tiny(group) {
            tiny
        } else {
            return Err(SMALL_IN_FINE * n + first_of(&[LARGE, SMALL], group));
        };
    }
    Ok(pages)
}

/// The pages of an accepted coarse table, from this virtual address on.
#[inline]
fn visit_coarse(table: &[Word; COARSE], start: u32, page: &mut impl FnMut(u32, Page)) {
    for (n, group) in (0..).zip(table.as_chunks::<LARGE_IN_COARSE>().0) {
        let start = start | n << 16;
        if kind(group[0]) == LARGE {
            page(start, second_level(Kind::Large, bits(group[0])));
        } else if !vacant(group) {
            for (n, &word) in (0..).zip(group) {
                if kind(word) == SMALL {
                    page(start | n << 12, second_level(Kind::Small, bits(word)));
                }
            }
        }
    }
}

/// The pages of an accepted fine table, from this virtual address on.
#[inline]
fn visit_fine(table: &[Word; FINE], start: u32, page: &mut impl FnMut(u32, Page)) {
    for (n, group) in (0..).zip(table.as_chunks::<LARGE_IN_FINE>().0) {
        let start = start | n << 16;
        if kind(group[0]) == LARGE {
            page(start, second_level(Kind::Large, bits(group[0])));
        } else if !vacant(group) {
            visit_below_large(group, start, page);
        }
    }
}

/// The same of an accepted fine table's words whose first is not large.
#[inline]
fn visit_below_large(words: &[Word; LARGE_IN_FINE], start: u32, page: &mut impl FnMut(u32, Page)) {
    for (n, group) in (0..).zip(words.as_chunks::<SMALL_IN_FINE>().0) {
        let start = start | n << 12;
        if kind(group[0]) == SMALL {
            page(start, second_level(Kind::Small, bits(group[0])));
            continue;
        }
        for (n, &word) in (0..).zip(group) {
            if kind(word) == TINY {
                page(start | n << 10, second_level(Kind::Tiny, bits(word)));
            }
        }
    }
}

/// Accepts an image whose first-level table is at the memory's base: all of its tables
/// lie inside, and each large or small word stands equal over its group. Refusals in
/// order: 4 with 0; 17 and 18 with the address of the first such word.
pub fn check(memory: &[u8], base: u32) -> Result<(), Refused> {
    Image::new(memory, base)?.pages().map(|_| ())
}

/// Lists the pages of an image in rising virtual order, in records as the builder takes,
/// with any access. Gives the number of bytes; those after them stay. Refusals as of
/// `check`, then 12 with the number of pages where they have no room; then nothing is
/// written.
pub fn list(memory: &[u8], base: u32, out: &mut [u8]) -> Result<usize, Refused> {
    let image = Image::new(memory, base)?;
    let pages = image.pages()?;
    let Some(out) = out.get_mut(..pages * RECORD) else {
        return Err(Refused { refusal: Refusal::Room, at: pages as u32 });
    };
    let mut records = out.as_chunks_mut().0.as_chunks_mut().0.iter_mut();
    image.visit(|start, page| {
        *records.next().expect("one for each page") = record(start, page);
    });
    Ok(pages * RECORD)
}

/// Virtual, physical (little-endian words), type, access, two zero bytes.
#[inline]
fn record(start: u32, Page { kind, frame, access }: Page) -> [Word; 3] {
    let last = kind as u32 | u32::from(access) << 8;
    [start.to_le_bytes(), frame.to_le_bytes(), last.to_le_bytes()]
}

#[cfg(test)]
#[path = "audit_tests.rs"]
mod tests;
