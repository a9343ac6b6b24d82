//! Images that the builder did not write: by hand, or from the dice; and what P4 says of
//! an image, word by word.

use super::lists::{Record, SIZES};
use super::worlds::{any_base, descriptor, draw_pages};
use super::*;
use second::dice::Dice;

/// Words to be written: from an offset on, so many times.
pub type Words = (usize, usize, u32);

/// A memory at its base, where the first-level table is.
#[derive(Clone, Debug)]
pub struct Image {
    pub base: u32,
    pub memory: Vec<u8>,
}

/// What P4 says of an image: its pages in rising order, or its first refusal. Every word
/// is looked at with the whole of its group, and nothing of the programs is used.
pub fn definition(image: &Image) -> Result<Vec<Record>, u64> {
    let (base, length) = (u64::from(image.base), image.memory.len() as u64);
    if base % 128 != 0 || length % 4 != 0 || length > 131_072 || base + length > 1 << 32 {
        return Err(refused(4, 0));
    }
    if length < 64 {
        return Err(refused(17, base));
    }
    let fetch = |at: u64| word(&image.memory, (at - base) as usize);
    let mut pages = Vec::new();
    let mut list = |virtual_start: u64, kind: usize, word: u32, access_at: u32| {
        let physical = word & !(SIZES[kind] - 1);
        let access = (word >> access_at & 3) as u8;
        let virtual_start = virtual_start as u32;
        pages.push(Record { virtual_start, physical, kind: kind as u8, access });
    };
    for megabyte in 0..16 {
        let own = base + 4 * megabyte;
        let first = fetch(own);
        let (table, count) = match first & 3 {
            0 => continue,
            1 => (u64::from(first) / 1_024 * 1_024, 256),
            2 => {
                list(megabyte << 20, 0, first, 10);
                continue;
            }
            _ => (u64::from(first) / 4_096 * 4_096, 1_024),
        };
        if table < base || table + 4 * count > base + length {
            return Err(refused(17, own));
        }
        for index in 0..count {
            let own = fetch(table + 4 * index);
            let kind = own as usize & 3;
            let group = [1, count / 16, count / 256, 1][kind];
            let head = index - index % group;
            if (head..head + group).any(|other| fetch(table + 4 * other) != own) {
                return Err(refused(18, table + 4 * index));
            }
            let page = kind != 0 && !(kind == 3 && count == 256);
            if page && index == head {
                list((megabyte << 20) + index * ((1 << 20) / count), kind, own, 4);
            }
        }
    }
    Ok(pages)
}

impl Image {
    /// Zeros but for these words.
    pub fn written(base: u32, length: usize, words: &[Words]) -> Image {
        let mut memory = vec![0; length];
        for &(at, times, word) in words {
            for at in (at..).step_by(4).take(times) {
                put_word(&mut memory, at, word);
            }
        }
        Image { base, memory }
    }

    /// The image of a list at a base, in a memory of exactly its length.
    pub fn built(program: &dyn Program, records: &[u8], base: u32) -> Image {
        let room = (1 << 32) - u64::from(base);
        let mut memory = vec![0xA5; room.min(131_072) as usize];
        let length = program.build(records, base, &mut memory);
        assert!(length >> 63 == 0, "{}: {length:x}", program.name());
        memory.truncate(length as usize);
        Image { base, memory }
    }

    pub fn end(&self) -> u64 {
        u64::from(self.base) + self.memory.len() as u64
    }

    /// The word at a physical address.
    pub fn word(&self, at: u32) -> u32 {
        word(&self.memory, (at - self.base) as usize)
    }

    pub fn put(&mut self, at: u32, word: u32) {
        put_word(&mut self.memory, (at - self.base) as usize, word);
    }

    pub fn first(&self, megabyte: u32) -> u32 {
        self.word(self.base + 4 * megabyte)
    }

    /// Offset and number of a mapping's words in the image of its list.
    pub fn words_of(&self, record: &Record) -> (usize, usize) {
        let megabyte = record.virtual_start >> 20;
        let within = record.virtual_start & 0xF_FFFF;
        let first = self.first(megabyte);
        // A section's own word; of a coarse table large and small pages' words; of a fine one.
        let (at, counts) = match first & 3 {
            1 => ((first & !0x3FF) - self.base + (within >> 12) * 4, [0, 16, 1, 0]),
            3 => ((first & !0xFFF) - self.base + (within >> 10) * 4, [0, 64, 4, 1]),
            _ => (4 * megabyte, [1, 0, 0, 0]),
        };
        (at as usize, counts[record.kind as usize])
    }

    /// Physical start and length of the tables, one for each first-level word that names
    /// one.
    pub fn tables(&self) -> Vec<(u32, u32)> {
        let table = |word: u32| match word & 3 {
            1 => Some((word & !0x3FF, 0x400)),
            3 => Some((word & !0xFFF, 0x1000)),
            _ => None,
        };
        (0..16).filter_map(|megabyte| table(self.first(megabyte))).collect()
    }

    /// Bytes from nowhere, their words of types picked from some; the first-level words
    /// mostly point at tables inside.
    pub fn drawn(dice: &mut Dice) -> Image {
        let length = 4 * dice.pick(&[16, 17, 300, 512, 1_056, 1_500, 2_100, 3_000, 5_000]);
        let multiple = dice.pick(&[128, 1_024, 4_096]);
        let base = any_base(dice, length, multiple);
        let mut image = Image { base, memory: vec![0; length] };
        dice.fill(&mut image.memory);
        // All types, or mostly such as need no group in one of the two tables.
        let types: &[u32] = dice.pick(&[&[0, 1, 2, 3][..], &[0, 3], &[0, 2, 3], &[3]]);
        let rest = dice.pick(&[0, 0, 0, 500]);
        for at in (0..length).step_by(4) {
            let types = if rest > 0 && dice.once_in(rest) { &[1, 2] } else { types };
            put_word(&mut image.memory, at, descriptor(dice, types));
        }
        let first: &[u32] = dice.pick(&[&[0, 1, 2, 3][..], &[1], &[3], &[1, 3, 3], &[0, 2]]);
        let astray = dice.pick(&[8, 100, 1_000]);
        for megabyte in 0..16 {
            let word = descriptor(dice, first);
            let word = if dice.once_in(astray) { word } else { image.inward(dice, word) };
            image.put(base + 4 * megabyte, word);
        }
        image
    }

    /// A first-level word, turned to a table that is inside where there is one; else to
    /// a fault.
    fn inward(&self, dice: &mut Dice, word: u32) -> u32 {
        let size = match word & 3 {
            1 => 0x400,
            3 => 0x1000,
            _ => return word,
        };
        let lowest = u64::from(self.base).next_multiple_of(size);
        match (self.end() / size * size).checked_sub(lowest) {
            None | Some(0) => word & !3,
            Some(room) => {
                let table = lowest + u64::from(dice.below((room / size) as u32)) * size;
                table as u32 | word & (size as u32 - 1)
            }
        }
    }

    /// Tables of pages whose words are repeated as they should be, one after another;
    /// first-level words that share them, take one for the other kind, or point between
    /// them, at the first-level table itself, and now and then outside.
    pub fn grouped(dice: &mut Dice) -> Image {
        let length = dice.pick(&[0x800, 0x1400, 0x2000, 0x2000, 0x3000, 0x5000]);
        let length = length + 4 * dice.pick(&[0, 0, 1, 16, 300]);
        let multiple = dice.pick(&[128, 1_024, 4_096, 4_096]);
        let base = any_base(dice, length, multiple);
        let mut image = Image { base, memory: vec![0; length] };
        let mut tables: Vec<u32> = Vec::new();
        let mut at = (u64::from(base) + 64).next_multiple_of(0x400);
        while at + 0x400 <= image.end() {
            let fine = at % 0x1000 == 0 && at + 0x1000 <= image.end() && dice.once_in(2);
            let (size, bits) = if fine { (0x1000, 3) } else { (0x400, 1) };
            // A coarse table's small and tiny words stand alone, a fine one's tiny words.
            let alone: &[u32] = if fine { &[3, 3, 0] } else { &[3, 2, 0] };
            for (n, word) in (0..).zip(draw_pages(dice, size / 4, alone)) {
                image.put(at as u32 + 4 * n, word);
            }
            tables.push(at as u32 | bits);
            at += size as u64;
        }
        // Few first-level words, or all.
        let few = dice.pick(&[1, 2, 6]);
        for megabyte in 0..16 {
            let ignored = dice.word() & 0x3FC;
            let word = match dice.below(24) {
                _ if few > 1 && !dice.once_in(few) => descriptor(dice, &[0, 0, 2]),
                0 => descriptor(dice, &[0, 2]),
                1 => descriptor(dice, &[1, 3]),
                2 => base | dice.pick(&[1, 3]),
                3 | 4 => {
                    let word = descriptor(dice, &[1, 1, 3]);
                    image.inward(dice, word)
                }
                _ if tables.is_empty() => 0,
                // Taken for a table of the other kind.
                5 => dice.pick(&tables) ^ 2 | ignored,
                _ => dice.pick(&tables) | ignored,
            };
            image.put(base + 4 * megabyte, word);
        }
        image
    }

    /// A grouped or a drawn image, or one whose tables lie over its first level, mended
    /// until it is accepted.
    pub fn accepted(dice: &mut Dice) -> Image {
        let mut image = match dice.below(10) {
            0 => Image::over_itself(dice),
            1 => Image::drawn(dice),
            _ => Image::grouped(dice),
        };
        // Now and then every page may be read.
        if dice.once_in(3) {
            for at in (64..image.memory.len()).step_by(4) {
                image.memory[at] |= 0x20;
            }
            for megabyte in 0..16 {
                let access = if image.first(megabyte) & 3 == 2 { 0x820 } else { 0x20 };
                image.put(image.base + 4 * megabyte, image.first(megabyte) | access);
            }
        }
        image.mend();
        image
    }

    /// Mends an image that has room for its first level until it is accepted: each word
    /// that is named becomes a fault, with those after it that equal it.
    pub fn mend(&mut self) {
        while let Err(refusal) = definition(self) {
            let named = (refusal as u32 - self.base) as usize;
            let group = &mut self.memory[named..];
            let word = word(group, 0);
            for at in (0..group.len().min(256)).step_by(4) {
                if super::word(group, at) == word {
                    put_word(group, at, word & !3);
                }
            }
        }
    }

    /// All first-level words are one that points at a coarse table that they begin; or
    /// some point at a fine table there, and the others are sections in fours.
    fn over_itself(dice: &mut Dice) -> Image {
        let coarse = dice.once_in(2);
        let (length, bits) = if coarse { (0x400, 1) } else { (0x1000, 3) };
        let base = any_base(dice, length, 4_096);
        let mut image = Image { base, memory: vec![0; length] };
        let alone: &[u32] = if coarse { &[3, 2, 0] } else { &[3, 3, 0] };
        for (n, word) in (0..).zip(draw_pages(dice, length / 4, alone)) {
            image.put(base + 4 * n, word);
        }
        let own = base | dice.word() & 0x3FC | bits;
        for four in 0..4 {
            let section = descriptor(dice, &[2]);
            let sections = !coarse && dice.once_in(2);
            for n in 4 * four..4 * four + 4 {
                image.put(base + 4 * n, if sections { section } else { own });
            }
        }
        image
    }
}
