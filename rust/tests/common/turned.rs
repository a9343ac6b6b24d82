//! One bit turned in a word of a builder's image, and what comes of it.

use super::images::Image;
use super::lists::Record;
use super::*;

/// What comes of turning one bit of a word.
#[derive(Clone, Copy, PartialEq, Eq, Debug)]
pub enum Turned {
    Same,
    /// One page is another.
    Changed,
    /// The pages of a megabyte are others.
    Others,
    /// One page is gone, or there is one more.
    Gone,
    More,
    Refused(u64),
    /// Whatever the definition says.
    Any,
}

impl Turned {
    /// Whether these are the pages, or this the refusal, where those were the pages before.
    pub fn holds(&self, before: &[Record], after: &Result<Vec<Record>, u64>) -> bool {
        let after = match (self, after) {
            (Turned::Any, _) => return true,
            (Turned::Refused(refusal), after) => return *after == Err(*refusal),
            (_, Err(_)) => return false,
            (_, Ok(after)) => after,
        };
        let kept = after.iter().filter(|page| before.contains(page)).count();
        let (one, other) = (before.len(), after.len());
        match self {
            Turned::Same => after == before,
            Turned::Changed => other == one && kept + 1 == one,
            Turned::Gone => other + 1 == one && kept == other,
            Turned::More => other == one + 1 && kept == one,
            _ => kept < one,
        }
    }
}

/// A word of a builder's image.
#[derive(Clone, Copy, Debug)]
pub struct Place {
    pub at: u32,
    /// The first level, a coarse table or a fine one: 0, 1 or 3.
    table: u32,
    /// The word's lowest two bits.
    kind: u32,
    /// Where its group of equal words begins.
    head: u32,
}

/// What a bit of a word is for.
#[derive(Clone, Copy, PartialEq, Eq, Debug)]
pub enum Bit {
    Type,
    Address,
    Access,
    Ignored,
}

impl Place {
    /// All words of the first level and of the tables.
    pub fn all(image: &Image) -> Vec<Place> {
        let mut places = Vec::new();
        for megabyte in 0..16 {
            let at = image.base + 4 * megabyte;
            let first = image.first(megabyte);
            places.push(Place { at, table: 0, kind: first & 3, head: at });
            let (table, count) = match first & 3 {
                1 => (first & !0x3FF, 256),
                3 => (first & !0xFFF, 1_024),
                _ => continue,
            };
            for n in 0..count {
                let at = table + 4 * n;
                let kind = image.word(at) & 3;
                let group = [1, count / 16, count / 256, 1][kind as usize];
                let head = table + 4 * (n - n % group);
                places.push(Place { at, table: first & 3, kind, head });
            }
        }
        places
    }

    pub fn name(&self) -> String {
        let table = ["first-level", "coarse", "", "fine"][self.table as usize];
        let kinds = match self.table {
            0 => ["fault", "coarse", "section", "fine"],
            _ => ["fault", "large", "small", "tiny"],
        };
        let which = if self.head == self.at { "" } else { ", not the head" };
        format!("{table} {} word{which}", kinds[self.kind as usize])
    }

    pub fn bit(&self, bit: u32) -> Bit {
        // The lowest address bit, and that of access.
        let (address, access) = match (self.table, self.kind) {
            (0, 1) => (10, 32),
            (0, 2) => (20, 10),
            (0, 3) => (12, 32),
            (1 | 3, 1) => (16, 4),
            (1 | 3, 2) => (12, 4),
            (3, 3) => (10, 4),
            _ => (32, 32),
        };
        match bit {
            0 | 1 => Bit::Type,
            bit if bit >= address => Bit::Address,
            bit if bit == access || bit == access + 1 => Bit::Access,
            _ => Bit::Ignored,
        }
    }

    /// What comes of turning a bit, in an image that does not hold the address 0.
    pub fn turned(&self, bit: u32) -> Turned {
        let Place { at, table, kind, head } = *self;
        let unequal = |at: u32| Turned::Refused(refused(18, at.into()));
        match (table, kind, self.bit(bit), bit) {
            // A fault: a coarse table at 0, or a section.
            (0, 0, Bit::Type, 0) => Turned::Refused(refused(17, at.into())),
            (0, 0, Bit::Type, _) => Turned::More,
            // A coarse table: a fault, or a fine one in its place.
            (0, 1, Bit::Type, 0) => Turned::Others,
            (0, 1, Bit::Type, _) => Turned::Any,
            // A section: a fine table anywhere, or a fault.
            (0, 2, Bit::Type, 0) => Turned::Any,
            (0, 2, Bit::Type, _) => Turned::Gone,
            // A fine table: a section, or its first quarter as a coarse one.
            (0, 3, Bit::Type, _) => Turned::Others,
            (0, 1 | 3, Bit::Address, _) => Turned::Any,
            // A repeated word. A head that is no page any more is not named; the word
            // after it is.
            (1 | 3, 1, Bit::Type, _) | (3, 2, Bit::Type, _) if head == at => unequal(at + 4),
            (1 | 3, 1, ..) | (3, 2, ..) => unequal(head),
            // A coarse table's fault: a large word that stands alone, or a small page.
            (1, 0, Bit::Type, 0) => unequal(at),
            (1, 0, Bit::Type, _) => Turned::More,
            // Its small page: a tiny word or a fault.
            (1, 2, Bit::Type, _) => Turned::Gone,
            // A fine table's fault or tiny page: a large or small word that stands alone.
            (3, _, Bit::Type, _) => unequal(at),
            (.., Bit::Ignored, _) => Turned::Same,
            _ => Turned::Changed,
        }
    }
}

/// The words that must have been tried, each with the bits that it has.
pub fn names() -> Vec<String> {
    let words = [
        ("first-level fault word", &[Bit::Type, Bit::Ignored][..]),
        ("first-level coarse word", &[Bit::Type, Bit::Address, Bit::Ignored]),
        ("first-level section word", &[Bit::Type, Bit::Address, Bit::Access, Bit::Ignored]),
        ("first-level fine word", &[Bit::Type, Bit::Address, Bit::Ignored]),
        ("coarse fault word", &[Bit::Type, Bit::Ignored]),
        ("coarse large word", &[Bit::Type, Bit::Address, Bit::Access, Bit::Ignored]),
        ("coarse large word, not the head", &[Bit::Type, Bit::Address, Bit::Access, Bit::Ignored]),
        ("coarse small word", &[Bit::Type, Bit::Address, Bit::Access, Bit::Ignored]),
        ("fine fault word", &[Bit::Type, Bit::Ignored]),
        ("fine large word", &[Bit::Type, Bit::Address, Bit::Access, Bit::Ignored]),
        ("fine large word, not the head", &[Bit::Type, Bit::Address, Bit::Access, Bit::Ignored]),
        ("fine small word", &[Bit::Type, Bit::Address, Bit::Access, Bit::Ignored]),
        ("fine small word, not the head", &[Bit::Type, Bit::Address, Bit::Access, Bit::Ignored]),
        ("fine tiny word", &[Bit::Type, Bit::Address, Bit::Access, Bit::Ignored]),
    ];
    let of = |(word, bits): (&str, &[Bit])| -> Vec<String> {
        bits.iter().map(|bit| format!("{word}: {bit:?}")).collect()
    };
    words.into_iter().flat_map(of).collect()
}
