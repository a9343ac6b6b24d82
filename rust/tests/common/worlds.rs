//! Memories, prices and bills for the differential tests, all from the dice.

use super::lists;
use super::*;
use second::boundary::Quote;
use second::dice::Dice;

// ---------------------------------------------------------------------------
// Memories

/// Two lawful memories, where the first-level table is, and addresses that are
/// worth a request.
pub struct World {
    pub on: Vec<u8>,
    pub on_base: u32,
    pub external: Vec<u8>,
    pub external_base: u32,
    pub tables: u32,
    pub hot: Vec<u32>,
}

/// A base for a second memory that shares no address with the first.
fn base_beside(dice: &mut Dice, base: u32, length: usize, other: usize) -> u32 {
    let end = u64::from(base) + length as u64;
    loop {
        let at = match dice.below(6) {
            0 => end,
            1 => u64::from(base).wrapping_sub(other as u64),
            2 => (1 << 32) - other as u64,
            3 => 0,
            4 => u64::from(dice.word() & !0xFFF),
            _ => u64::from(dice.word() & !3),
        };
        let fits = at <= u64::from(u32::MAX) && at + other as u64 <= 1 << 32;
        if fits && (at >= end || at + other as u64 <= u64::from(base)) {
            return at as u32;
        }
    }
}

/// A base that a memory of that length may have.
pub fn any_base(dice: &mut Dice, length: usize, multiple: u32) -> u32 {
    let top = ((1_u64 << 32) - length as u64) as u32;
    let base = match dice.below(6) {
        0 => 0,
        1 => top,
        2 => 0x2000_0000,
        _ => dice.word().min(top),
    };
    base & !(multiple - 1)
}

/// A word with one of these lowest two bits.
pub fn descriptor(dice: &mut Dice, types: &[u32]) -> u32 {
    dice.word() & !3 | dice.pick(types)
}

/// The words of a table, coarse or fine by their number: pages whose words are repeated,
/// and words that stand alone, of types picked from these.
pub fn draw_pages(dice: &mut Dice, count: usize, alone: &[u32]) -> Vec<u32> {
    let (large, small) = (count / 16, count / 256);
    let mut words = vec![0; count];
    for block in words.chunks_mut(large) {
        if dice.once_in(2) {
            block.fill(descriptor(dice, &[1]));
            continue;
        }
        for group in block.chunks_mut(small) {
            match dice.below(6) {
                0 => {}
                1 => group.fill_with(|| descriptor(dice, alone)),
                _ => group.fill(descriptor(dice, &[2])),
            }
        }
    }
    words
}

/// Fills a table, coarse or fine by its size, and then breaks some groups of words: at
/// the head, in the middle, at the end, anywhere. Gives addresses in its megabyte, of
/// what was broken and of others in the same group.
fn draw_table(dice: &mut Dice, table: &mut [u8]) -> Vec<u32> {
    let count = table.len() / 4;
    let (large, small) = (count / 16, count / 256);
    let mut words = draw_pages(dice, count, &[3, 3, 0, 1, 2]);
    let mut hot = Vec::new();
    for _ in 0..8 + dice.below(24) {
        let size = dice.pick(&[large, small]) as u32;
        let head = dice.below(count as u32) & !(size - 1);
        let within = [0, size / 2, size - 1, dice.below(size)];
        let broken = head + dice.pick(&within);
        if !dice.once_in(4) {
            let word = &mut words[broken as usize];
            *word = match dice.below(4) {
                0 => *word ^ 1 << dice.below(32),
                1 => *word ^ 0x10 << dice.below(2),
                _ => descriptor(dice, &[0, 1, 1, 2, 2, 3]),
            };
        }
        for n in [broken, head + dice.pick(&within), head + dice.below(size)] {
            let page = (1 << 20) / count as u32;
            hot.push(n * page + dice.below(page));
        }
    }
    for (at, word) in words.into_iter().enumerate() {
        put_word(table, 4 * at, word);
    }
    hot
}

impl World {
    pub fn new(dice: &mut Dice) -> World {
        let mut world = match dice.below(10) {
            0..=3 => World::built(dice),
            4..=6 => World::foreign(dice),
            _ => World::drawn(dice),
        };
        if dice.once_in(2) {
            core::mem::swap(&mut world.on, &mut world.external);
            core::mem::swap(&mut world.on_base, &mut world.external_base);
        }
        // Neighbours of what is there, and some addresses from nowhere.
        for _ in 0..4 + dice.below(12) {
            let near = dice.pick(&world.hot) ^ 1 << dice.below(24);
            world.hot.push(near);
            world.hot.push(dice.word() & 0xFF_FFFF);
        }
        world
    }

    /// The image of a good list, perhaps with some bits turned, and a few words
    /// in the other memory.
    fn built(dice: &mut Dice) -> World {
        let list = if dice.once_in(4) {
            lists::mixed(dice)
        } else {
            let most = dice.pick(&[0, 1, 4, 16, 60, 200]);
            lists::good(dice, most)
        };
        let bytes = lists::bytes(&list);
        let mut on = vec![0; 131_072];
        let length = boundary::build(&bytes, 0, &mut on) as usize;
        let length = length + 4 * dice.pick(&[0, 0, 1, 300]);
        let on_base = any_base(dice, length, 4_096);
        on.truncate(length);
        boundary::build(&bytes, on_base, &mut on);
        if dice.once_in(2) {
            for _ in 0..1 + dice.below(12) {
                let at = if dice.once_in(2) {
                    4 * dice.below(16)
                } else {
                    4 * dice.below(length as u32 / 4)
                };
                let word = word(&on, at as usize) ^ 1 << dice.below(32);
                put_word(&mut on, at as usize, word);
            }
        }
        let mut external = vec![0; 4 * dice.pick(&[0, 1, 64, 700])];
        dice.fill(&mut external);
        let external_base = base_beside(dice, on_base, length, external.len());
        let mut hot = vec![0, 0xFF_FFFF];
        for record in &list {
            hot.push(record.virtual_start);
            hot.push(record.virtual_start + dice.below(record.size()));
            hot.push(record.virtual_start + record.size() - 1);
        }
        if dice.once_in(3) {
            dice.shuffle(&mut hot);
            hot.truncate(4 + dice.below(30) as usize);
        }
        World { on, on_base, external, external_base, tables: on_base, hot }
    }

    /// A first-level table in one memory; in the other coarse and fine tables of pages
    /// whose words are mostly repeated as they should be, with some groups broken.
    fn foreign(dice: &mut Dice) -> World {
        let mut external = vec![0; 4_096 * (1 + dice.below(3)) as usize];
        let external_base = any_base(dice, external.len(), 4_096);
        let mut on = vec![0; 256];
        let on_base = base_beside(dice, external_base, external.len(), on.len());
        let tables = on_base.next_multiple_of(128);
        // A fine table or four coarse ones in each 4,096 bytes: a word that points at
        // each, and addresses in its megabyte.
        let mut pointers: Vec<(u32, Vec<u32>)> = Vec::new();
        for at in (0..external.len()).step_by(4_096) {
            let (size, bits) = dice.pick(&[(4_096, 3), (1_024, 1)]);
            for at in (at..at + 4_096).step_by(size) {
                let hot = draw_table(dice, &mut external[at..at + size]);
                pointers.push(((external_base + at as u32) | bits, hot));
            }
        }
        let mut hot = Vec::new();
        for megabyte in 0..16 {
            let n = dice.below(pointers.len() as u32) as usize;
            let (mut word, within) = &pointers[n];
            match dice.below(12) {
                0 => word = descriptor(dice, &[0, 2]),
                // Taken for a table of the other kind.
                1 => word ^= 2,
                _ => hot.extend(within.iter().map(|within| megabyte << 20 | within)),
            }
            put_word(&mut on, (tables - on_base + 4 * megabyte) as usize, word);
        }
        hot.push(0);
        dice.shuffle(&mut hot);
        hot.truncate(8 + dice.below(80) as usize);
        World { on, on_base, external, external_base, tables, hot }
    }

    /// Words from nowhere, with a first-level table that mostly points into the
    /// two memories, at places where a table need not fit.
    fn drawn(dice: &mut Dice) -> World {
        let lengths = [16, 64, 300, 1_024, 1_500, 3_000];
        let mut on = vec![0; 4 * dice.pick(&lengths)];
        let mut external = vec![0; 4 * dice.pick(&lengths)];
        let multiple = dice.pick(&[4, 128, 1_024, 4_096]);
        let on_base = any_base(dice, on.len(), multiple);
        let external_base = base_beside(dice, on_base, on.len(), external.len());
        let types: &[u32] = dice.pick(&[
            &[0, 1, 2, 3][..],
            &[1, 1, 2, 2, 2, 0, 3],
            &[3, 3, 3, 3, 0, 1, 2],
            &[2, 2, 2, 1],
        ]);
        for memory in [&mut on, &mut external] {
            for at in (0..memory.len()).step_by(4) {
                put_word(memory, at, descriptor(dice, types));
            }
        }
        // The table may stick out at either end.
        let tables = (on_base + dice.below(on.len() as u32)) & !127;
        let first: &[u32] = dice.pick(&[&[1, 3, 2, 0][..], &[1, 3], &[1, 1, 2], &[3, 3, 2]]);
        for index in 0..16 {
            let mut word = descriptor(dice, first);
            if word & 3 != 2 && !dice.once_in(8) {
                let (base, length) = if dice.once_in(2) {
                    (on_base, on.len())
                } else {
                    (external_base, external.len())
                };
                let size = if word & 3 == 3 { 4_096 } else { 1_024 };
                let inside = base + dice.below(length as u32);
                word = inside & !(size - 1) | word & (size - 1);
            }
            let at = (tables + 4 * index).wrapping_sub(on_base) as usize;
            if at < on.len() {
                put_word(&mut on, at, word);
            }
        }
        let megabyte = dice.below(16) << 20;
        let mut hot = Vec::new();
        for _ in 0..4 + dice.below(40) {
            let address = dice.word() & 0xFF_FFFF;
            hot.push(if dice.once_in(2) { megabyte | address & 0xF_FFFF } else { address });
        }
        World { on, on_base, external, external_base, tables, hot }
    }

    pub fn lending(&self, on_price: Quote, external_price: Quote) -> Lending<'_> {
        Lending {
            on: &self.on,
            on_base: self.on_base,
            external: &self.external,
            external_base: self.external_base,
            on_price,
            external_price,
        }
    }

    pub fn address(&self, dice: &mut Dice) -> u32 {
        let hot = dice.pick(&self.hot);
        match dice.below(16) {
            0..=4 => hot,
            5..=7 => hot ^ dice.below(1 << 10),
            8..=9 => hot ^ dice.below(1 << 12),
            10 => hot ^ dice.below(1 << 16),
            11 => hot ^ dice.below(1 << 20),
            12 => dice.word() & 0xFF_FFFF,
            13 => hot.wrapping_add(1) & 0xFF_FFFF,
            14 => hot.wrapping_sub(1) & 0xFF_FFFF,
            _ => match dice.below(6) {
                0 => 0x100_0000,
                1 => hot | 0x100_0000,
                2 => dice.word(),
                3 => u32::MAX,
                _ => hot,
            },
        }
    }
}

/// Bytes longer than any memory may be.
pub fn too_long() -> Vec<u8> {
    vec![0; 131_072 + 64]
}

/// Lends something else than the session's own: swapped, empty, shortened,
/// moved, shared, too long, past the end. Some are still lawful.
pub fn bend<'a>(dice: &mut Dice, lending: &mut Lending<'a>, long: &'a [u8]) {
    let Lending { on, on_base, external, external_base, .. } = lending;
    match dice.below(20) {
        0 | 1 => {
            core::mem::swap(on, external);
            core::mem::swap(on_base, external_base);
        }
        2 => *on = &[],
        3 => *external = &[],
        4 => *external_base = *on_base,
        5 => {
            // They share their ends, by a word or by a few.
            let back = 4 * dice.below(4);
            *external_base = on_base.wrapping_add(on.len() as u32).wrapping_sub(back);
        }
        6 => {
            let back = 4 * dice.below(4);
            *on_base = external_base.wrapping_add(external.len() as u32).wrapping_sub(back);
        }
        7 => *on_base ^= 1 + dice.below(3),
        8 => *external_base ^= 1 + dice.below(3),
        9 => *on = &on[..on.len() - dice.below(on.len().min(9) as u32 + 1) as usize],
        10 => {
            let less = dice.below(external.len().min(9) as u32 + 1) as usize;
            *external = &external[less..];
        }
        11 => {
            *on = &long[..131_072 + 4 * dice.below(3) as usize];
            *on_base = dice.pick(&[0, 0x8000_0000, 0xFFFE_0000, 0xFFFD_FFFC]);
        }
        12 => {
            *external = &long[..131_072 + 4 * dice.below(3) as usize];
            *external_base = dice.pick(&[0, 0x8000_0000, 0xFFFE_0000, 0xFFFD_FFFC]);
        }
        // At the end of the physical space, or over it.
        13 => *on_base = (on.len() as u32).wrapping_neg().wrapping_add(4 * dice.below(3)),
        14 => {
            *external_base = (external.len() as u32).wrapping_neg().wrapping_add(4 * dice.below(3));
        }
        // An empty one within the other, at any base.
        15 => {
            *external = &[];
            *external_base = on_base.wrapping_add(dice.pick(&[0, 4, 8, 2, 1]));
        }
        16 => {
            *on = &[];
            *on_base = external_base.wrapping_add(dice.pick(&[0, 4, 8, 2, 1]));
        }
        17 => *on_base ^= 1 << dice.below(32),
        18 => *external_base ^= 1 << dice.below(32),
        _ => {
            // Cut where a word of a table may be, lawfully.
            let keep = 4 * dice.below(on.len() as u32 / 4 + 1) as usize;
            *on = &on[..keep];
        }
    }
}

// ---------------------------------------------------------------------------
// Prices and bills

/// A figure from 0 to 4,096.
fn good_figure(dice: &mut Dice) -> f64 {
    match dice.below(12) {
        0 => 0.0,
        1 => -0.0,
        2 => 4096.0,
        3 => f64::from_bits(4096.0_f64.to_bits() - 1),
        4 => f64::from_bits(1),
        5 => f64::MIN_POSITIVE,
        6 => 1.0,
        7 => 0.1,
        _ => 4096.0 * (dice.double() >> 11) as f64 / (1_u64 << 53) as f64,
    }
}

/// A figure that is none, mostly.
fn bad_figure(dice: &mut Dice) -> f64 {
    match dice.below(12) {
        0 => f64::NAN,
        1 => f64::from_bits(0xFFF8_0000_0000_0001),
        2 => f64::from_bits(0x7FF0_0000_0000_0001),
        3 => f64::INFINITY,
        4 => f64::NEG_INFINITY,
        5 => f64::from_bits(4096.0_f64.to_bits() + 1),
        6 => -f64::from_bits(1),
        7 => -1.0,
        8 => f64::MAX,
        9 => 4097.0,
        10 => -4096.0,
        _ => f64::from_bits(dice.double()),
    }
}

pub fn good_quote(dice: &mut Dice) -> Quote {
    let kind = dice.below(2);
    let a = good_figure(dice);
    // A flat price has one figure: the other place is not looked at.
    let b = if kind == 0 { bad_figure(dice) } else { good_figure(dice) };
    (kind, a, b)
}

pub fn bad_quote(dice: &mut Dice) -> Quote {
    match dice.below(3) {
        0 => (0, bad_figure(dice), good_figure(dice)),
        1 => (1, bad_figure(dice), good_figure(dice)),
        _ => (1, good_figure(dice), bad_figure(dice)),
    }
}

/// A bill's figure, of any kind.
pub fn bill_figure(dice: &mut Dice) -> f64 {
    match dice.below(16) {
        0 => f64::NAN,
        1 => f64::INFINITY,
        2 => f64::NEG_INFINITY,
        3 => f64::from_bits(0xFFF0_0000_0000_0001),
        4 => f64::MAX,
        5 => -f64::MAX,
        6 => -0.0,
        7 => f64::from_bits(1),
        8 => -f64::from_bits(1),
        9 => 1.0,
        10 => -3.75,
        11 => 1e16,
        12 => 9_007_199_254_740_993.0,
        13 => 1.0 / 3.0,
        _ => f64::from_bits(dice.double()),
    }
}
