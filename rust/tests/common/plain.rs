//! The plain walk of an image, and what it says of calls to a device with slots.

use super::images::Image;
use super::lists::Record;
use super::*;
use second::dice::Dice;
use second::memory::Memories;
use second::walk::{walk, Walk};
use std::fmt::Display;

/// The walk of an image whose tables are all inside.
pub struct Plain<'a> {
    base: u32,
    memories: Memories<'a>,
}

impl Plain<'_> {
    pub fn of(image: &Image) -> Plain<'_> {
        Plain { base: image.base, memories: Memories::new(&image.memory, image.base, &[], 0) }
    }

    pub fn walk(&self, address: u32) -> Walk {
        walk(&self.memories, self.base, address).expect("all tables are inside")
    }

    /// The page that a walk finds, as the list has it.
    pub fn page(&self, address: u32) -> Option<Record> {
        let page = self.walk(address).page?;
        Some(Record {
            virtual_start: address & !page.kind.within(),
            physical: page.frame,
            kind: page.kind as u8,
            access: page.access,
        })
    }

    /// What a request answers.
    pub fn request(&self, access: u8, address: u32) -> (u32, i64) {
        match self.page(address) {
            None => (21, 0),
            Some(page) if page.access == 3 || page.access == 2 && access == 0 => {
                (100, i64::from(page.physical + (address - page.virtual_start)))
            }
            Some(_) => (23, 0),
        }
    }

    /// What a shift report answers: access plays no part.
    pub fn report(&self, address: u32) -> (u32, i64) {
        match self.page(address) {
            None => (21, 0),
            Some(page) => (102, i64::from(page.physical) - i64::from(page.virtual_start)),
        }
    }

    /// At every tiny page of the virtual space the walk finds what these pages say; they
    /// rise, and no two of them hold one address.
    pub fn agrees(&self, pages: &[Record], dice: &mut Dice, title: impl Display) {
        assert!(pages.is_sorted_by_key(|page| page.virtual_start), "{title}: not rising");
        let mut held: Vec<Option<Record>> = vec![None; 1 << 14];
        for page in pages {
            let first = page.virtual_start as usize >> 10;
            for held in &mut held[first..first + (page.size() as usize >> 10)] {
                assert_eq!(held.replace(*page), None, "{title}: two pages at {page:x?}");
            }
        }
        for (n, held) in (0..).zip(held) {
            let address = n << 10 | dice.below(1 << 10);
            assert_eq!(self.page(address), held, "{title}: {address:06x}");
        }
    }
}

/// What calls to a device answer that is on and walking, and stays so: all that it has
/// to remember is the pending fault.
pub struct Session<'a> {
    pub plain: Plain<'a>,
    /// The fault's number, access and address.
    pub pending: Option<(u32, u8, u32)>,
}

impl Session<'_> {
    pub fn of(image: &Image) -> Session<'_> {
        Session { plain: Plain::of(image), pending: None }
    }

    /// The next call's number and value, of those that `any_call` draws.
    pub fn answer(&mut self, call: &Call) -> (u32, i64) {
        let (address, value) = (word(call, 4), word(call, 8));
        match (call[0], call[1]) {
            (boundary::REQUEST | boundary::SHIFT, _) if address >= 1 << 24 => (1, 0),
            (boundary::REQUEST, _) if self.pending.is_some() => (2, 0),
            (boundary::REQUEST, access) => self.attempt(access, address),
            (boundary::SHIFT, _) => self.plain.report(address),
            (boundary::DROP, _) => (if self.pending.take().is_some() { 0 } else { 7 }, 0),
            (boundary::READ, STATUS) => {
                let status = self.pending.map_or(0, |(number, ..)| 1 << (number - 21));
                (101, status)
            }
            (_, PREFETCH) if self.pending.is_some() => (2, 0),
            (_, PREFETCH) if self.plain.page(value << 10).is_some() => (0, 0),
            (_, PREFETCH) => {
                self.pending = Some((24, 0, value << 10));
                (24, 0)
            }
            (_, ACKNOWLEDGE) => match self.pending {
                _ if value & 1 == 0 => (0, 0),
                None => (7, 0),
                Some((24, ..)) => {
                    self.pending = None;
                    (0, 0)
                }
                Some((_, access, address)) => self.attempt(access, address),
            },
            // Nothing is loaded while walking is set.
            (_, LOAD) => (if value & 3 == 0 { 0 } else { 7 }, 0),
            _ => (0, 0),
        }
    }

    fn attempt(&mut self, access: u8, address: u32) -> (u32, i64) {
        let answer = self.plain.request(access, address);
        self.pending = (answer.0 != 100).then_some((answer.0, access, address));
        answer
    }

    /// A call that leaves the device on and walking, about these addresses.
    pub fn any_call(&self, dice: &mut Dice, hot: &[u32]) -> Call {
        // Mostly a fault does not stay pending.
        if self.pending.is_some() && !dice.once_in(4) {
            return match dice.below(5) {
                0 => write(ACKNOWLEDGE, dice.pick(&[0, 1, 1, 0xFFFF])),
                1 => read(STATUS),
                _ => drop_fault(),
            };
        }
        let address = match dice.below(10) {
            0 => dice.word() & 0xFF_FFFF,
            1 | 2 => dice.pick(hot) ^ dice.below(1 << 20),
            3..=5 => dice.pick(hot) ^ dice.below(1 << 16),
            6 | 7 => dice.pick(hot) ^ dice.below(1 << 12),
            _ => dice.pick(hot) ^ dice.below(1 << 10),
        };
        match dice.below(40) {
            0 => write(GLOBAL_FLUSH, dice.pick(&[0, 1])),
            1 => write(ENTRY_FLUSH, dice.pick(&[0, 1, 1])),
            2 => write(CAM_HIGH, (address >> 22) as u16),
            3 => write(CAM_LOW, (address >> 6) as u16),
            4 => write(RAM_HIGH, dice.word() as u16),
            5 => write(LOAD, dice.pick(&[0, 1, 2])),
            6 => write(LOCK, (dice.below(32) << 10 | dice.below(32) << 4) as u16),
            7 => write(ACKNOWLEDGE, 1),
            8 => drop_fault(),
            9 => read(STATUS),
            10 => request(0, address | 0x100_0000),
            11 => write(CONTROL, dice.pick(&[7, 0x27])),
            12..=14 => shift(address),
            15..=18 => write(PREFETCH, (address >> 10) as u16),
            _ => request(dice.below(2) as u8, address),
        }
    }
}
