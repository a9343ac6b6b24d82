//! A group of words in a table, one of them another than the rest, and what these
//! words say.

use super::rows::BASE;
use super::*;

/// The third group of a table at 1000, for megabyte 7.
pub struct Group {
    /// The table's first-level type: 1 coarse, 3 fine.
    pub table: u32,
    pub count: u32,
    pub word: u32,
    /// Which word is another one, and what it is.
    pub broken: u32,
    pub odd: u32,
}

impl Group {
    pub fn memory(&self) -> Vec<u8> {
        let mut memory = vec![0; 0x2000];
        put_word(&mut memory, 4 * 7, (BASE + 0x1000) | self.table);
        for n in 0..self.count {
            put_word(&mut memory, self.offset(n) as usize, self.word(n));
        }
        memory
    }

    pub fn word(&self, n: u32) -> u32 {
        if n == self.broken {
            self.odd
        } else {
            self.word
        }
    }

    pub fn offset(&self, n: u32) -> u32 {
        0x1000 + 4 * (2 * self.count + n)
    }

    /// The place of a word, as an answer says it.
    pub fn place(&self, n: u32) -> u32 {
        1 << 28 | self.offset(n)
    }

    /// An address that leads to a word.
    pub fn address(&self, n: u32) -> u32 {
        let size = if self.table == 3 { 0x400 } else { 0x1000 };
        0x70_0155 + (2 * self.count + n) * size
    }

    /// How many low bits the page of a word has; `None` where it is no page.
    fn low_bits(&self, word: u32) -> Option<u32> {
        match word & 3 {
            0 => None,
            1 => Some(16),
            2 => Some(12),
            _ => (self.table == 3).then_some(10),
        }
    }

    /// Whether a word is a page, and so a prefetch fills a slot.
    pub fn is_page(&self, n: u32) -> bool {
        self.low_bits(self.word(n)).is_some()
    }

    /// Whether the page of one word holds the address of another.
    pub fn holds(&self, n: u32, other: u32) -> bool {
        let bits = self.low_bits(self.word(n));
        bits.is_some_and(|bits| self.address(n) >> bits == self.address(other) >> bits)
    }

    /// What a request for an address answers, by this word.
    pub fn says(&self, word: u32, access: u8, address: u32) -> (u32, i64) {
        match self.low_bits(word) {
            None => (21, 0),
            Some(_) if access == 1 && word & 0x10 == 0 => (23, 0),
            Some(bits) => {
                let within = (1 << bits) - 1;
                (100, i64::from(word & !within | address & within))
            }
        }
    }

    /// What the shift report of a word's address answers.
    pub fn distance(&self, n: u32) -> (u32, i64) {
        let address = self.address(n);
        match self.says(self.word(n), 0, address) {
            (100, physical) => (102, physical - i64::from(address)),
            fault => fault,
        }
    }
}
