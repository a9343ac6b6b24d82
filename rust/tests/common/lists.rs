//! Lists of records: good ones, and ones with something wrong.

use second::builder::{MOST_BYTES, MOST_RECORDS};
use second::dice::Dice;

pub const SIZES: [u32; 4] = [1 << 20, 1 << 16, 1 << 12, 1 << 10];
pub const ALL_KINDS: [u8; 4] = [0, 1, 2, 3];

#[derive(Clone, Copy, PartialEq, Eq, Debug)]
pub struct Record {
    pub virtual_start: u32,
    pub physical: u32,
    pub kind: u8,
    pub access: u8,
}

impl Record {
    /// The page of that kind that holds this address, to 0.
    pub fn holding(address: u32, kind: u8) -> Record {
        let virtual_start = address & !(SIZES[kind as usize] - 1);
        Record { virtual_start, physical: 0, kind, access: 3 }
    }

    /// The page of that kind from this address on, to anywhere.
    fn anywhere(dice: &mut Dice, virtual_start: u32, kind: u8) -> Record {
        let physical = match dice.below(8) {
            0 => 0,
            1 => u32::MAX,
            2 => virtual_start,
            _ => dice.word(),
        } & !(SIZES[kind as usize] - 1);
        let access = 2 + dice.below(2) as u8;
        Record { virtual_start, physical, kind, access }
    }

    /// The record that these bytes of an accepted list are.
    fn read(bytes: &[u8]) -> Record {
        let (virtual_start, physical) = (super::word(bytes, 0), super::word(bytes, 4));
        Record { virtual_start, physical, kind: bytes[8], access: bytes[9] }
    }

    pub fn bytes(&self) -> [u8; 12] {
        let mut bytes = [0; 12];
        bytes[..4].copy_from_slice(&self.virtual_start.to_le_bytes());
        bytes[4..8].copy_from_slice(&self.physical.to_le_bytes());
        bytes[8] = self.kind;
        bytes[9] = self.access;
        bytes
    }

    pub fn size(&self) -> u32 {
        SIZES[self.kind as usize]
    }

    pub fn holds(&self, address: u32) -> bool {
        address.wrapping_sub(self.virtual_start) < self.size()
    }
}

pub fn bytes(list: &[Record]) -> Vec<u8> {
    list.iter().flat_map(Record::bytes).collect()
}

/// The records of an accepted list.
pub fn records(bytes: &[u8]) -> Vec<Record> {
    bytes.chunks_exact(12).map(Record::read).collect()
}

/// Of an accepted list: the megabytes that hold large, small and tiny pages, and
/// how many of these have no gap.
pub fn mixed_megabytes(list: &[Record]) -> (usize, usize) {
    let (mut mixed, mut full) = (0, 0);
    for megabyte in 0..16 {
        let pages = || list.iter().filter(|record| record.virtual_start >> 20 == megabyte);
        let has = |kind| pages().any(|record| record.kind == kind);
        if has(1) && has(2) && has(3) {
            mixed += 1;
            full += usize::from(pages().map(Record::size).sum::<u32>() == 1 << 20);
        }
    }
    (mixed, full)
}

/// List A of the bench sheet.
pub fn list_a() -> Vec<Record> {
    let record =
        |virtual_start, physical, kind, access| Record { virtual_start, physical, kind, access };
    vec![
        record(0x01_0000, 0x1002_0000, 1, 3),
        record(0x30_0000, 0x1120_0000, 0, 2),
        record(0x50_0400, 0x1000_0C00, 3, 3),
    ]
}

/// Which tiny pages of the virtual space are taken.
struct Space(Vec<bool>);

impl Space {
    fn new() -> Space {
        Space(vec![false; 1 << 14])
    }

    /// Takes a page of that kind, where no part of it is taken.
    fn take(&mut self, virtual_start: u32, kind: u8) -> bool {
        let size = SIZES[kind as usize] as usize;
        let pages = &mut self.0[virtual_start as usize >> 10..][..size >> 10];
        let free = !pages.contains(&true);
        if free {
            pages.fill(true);
        }
        free
    }
}

/// A good list of at most `most` records, in any order, with a bias to few
/// megabytes, to neighbours and to ends.
pub fn good(dice: &mut Dice, most: u32) -> Vec<Record> {
    let mut space = Space::new();
    let megabytes: Vec<u32> = (0..1 + dice.below(16)).map(|_| dice.below(16)).collect();
    let mut kinds = ALL_KINDS.to_vec();
    if dice.once_in(2) {
        let out = dice.below(4) as usize;
        kinds.remove(out);
    }
    if !dice.once_in(3) {
        // Sections are greedy: mostly few of them.
        kinds.extend([2, 3, 2, 1]);
    }
    // Now and then a table in every megabyte, and most of them fine.
    let wide = most >= 16 && dice.once_in(12);
    let mut list: Vec<Record> = Vec::new();
    for _ in 0..most * 3 {
        if list.len() as u32 == most {
            break;
        }
        let spread = wide && list.len() < 16;
        let kind = if spread && !dice.once_in(40) { 3 } else { dice.pick(&kinds) };
        let size = SIZES[kind as usize];
        let virtual_start = match list.last() {
            _ if spread => (list.len() as u32) << 20 | dice.below(1 << 20),
            // Right after the last one, or right before it.
            Some(last) if dice.once_in(3) => {
                let next = if dice.once_in(2) {
                    last.virtual_start.wrapping_add(last.size())
                } else {
                    last.virtual_start.wrapping_sub(size)
                };
                next & 0xFF_FFFF
            }
            _ => dice.pick(&megabytes) << 20 | dice.below(1 << 20),
        } & !(size - 1);
        if space.take(virtual_start, kind) {
            list.push(Record::anywhere(dice, virtual_start, kind));
        }
    }
    dice.shuffle(&mut list);
    list
}

/// A good list of exactly `count` records, in any order, of kinds picked from these,
/// in so many megabytes. A page of the smallest kind comes where another would
/// lie over one that is there, or leave too little room for the rest.
pub fn exactly(dice: &mut Dice, count: usize, kinds: &[u8], megabytes: usize) -> Vec<Record> {
    let smallest = *kinds.iter().max().expect("a kind");
    let step = SIZES[smallest as usize];
    let mut all: Vec<u32> = (0..16).map(|megabyte| megabyte << 20).collect();
    dice.shuffle(&mut all);
    let within = |&megabyte: &u32| (megabyte..megabyte + SIZES[0]).step_by(step as usize);
    let mut places: Vec<u32> = all[..megabytes].iter().flat_map(within).collect();
    dice.shuffle(&mut places);
    // How many places are free: no fewer than records are to come, and none of them
    // has been tried, since a place that was tried is taken.
    let mut free = places.len();
    let mut space = Space::new();
    let mut list: Vec<Record> = Vec::new();
    for place in places {
        let Some(rest) = (count - list.len()).checked_sub(1) else { break };
        for kind in [dice.pick(kinds), smallest] {
            let size = SIZES[kind as usize];
            let virtual_start = place & !(size - 1);
            let takes = (size / step) as usize;
            if takes + rest <= free && space.take(virtual_start, kind) {
                free -= takes;
                list.push(Record::anywhere(dice, virtual_start, kind));
                break;
            }
        }
    }
    assert_eq!(list.len(), count, "so many do not fit");
    dice.shuffle(&mut list);
    list
}

/// A good list of as many records as there may be, in one megabyte or in more.
pub fn full(dice: &mut Dice) -> Vec<Record> {
    let megabytes = 1 + dice.below(16) as usize;
    exactly(dice, MOST_RECORDS, &ALL_KINDS, megabytes)
}

/// A good list, in any order, of megabytes that hold large, small and tiny pages.
/// Some of them have no gap.
pub fn mixed(dice: &mut Dice) -> Vec<Record> {
    let mut megabytes: Vec<u32> = (0..16).map(|megabyte| megabyte << 20).collect();
    dice.shuffle(&mut megabytes);
    let mut list = Vec::new();
    for &megabyte in &megabytes[..1 + dice.below(8) as usize] {
        let cut = megabyte | dice.below(1 << 20);
        let gaps = dice.once_in(2);
        divide(dice, &mut list, Record::holding(megabyte, 0), cut, gaps);
    }
    dice.shuffle(&mut list);
    list.truncate(MOST_RECORDS);
    list
}

/// A page, or smaller ones in its place: tiny ones at an address that it is cut at,
/// elsewhere now and then. There may be gaps, but not at that address.
fn divide(dice: &mut Dice, list: &mut Vec<Record>, page: Record, cut: u32, gaps: bool) {
    let Record { virtual_start, kind, .. } = page;
    if kind < 3 && (page.holds(cut) || dice.once_in(8)) {
        let step = SIZES[kind as usize + 1] as usize;
        for start in (virtual_start..virtual_start + page.size()).step_by(step) {
            divide(dice, list, Record::holding(start, kind + 1), cut, gaps);
        }
    } else if page.holds(cut) || !(gaps && dice.once_in(3)) {
        list.push(Record::anywhere(dice, virtual_start, kind));
    }
}

/// A tiny page in every megabyte: sixteen fine tables.
pub fn wide(dice: &mut Dice) -> Vec<Record> {
    let mut list: Vec<Record> = (0..16)
        .map(|megabyte| Record {
            virtual_start: megabyte << 20 | dice.below(1 << 10) << 10,
            physical: dice.word() & !0x3FF,
            kind: 3,
            access: 2 + dice.below(2) as u8,
        })
        .collect();
    dice.shuffle(&mut list);
    list
}

/// Changes something in the bytes of a list, mostly so that it is refused.
pub fn spoil(dice: &mut Dice, list: &mut Vec<u8>) {
    let count = list.len() / 12;
    let some = dice.below(count.max(1) as u32) as usize * 12;
    match dice.below(14) {
        0 => list.truncate(list.len().saturating_sub(1 + dice.below(11) as usize)),
        1 => list.extend((0..1 + dice.below(11)).map(|_| 0)),
        2 => {
            // Past the limit, by a byte or by more.
            let more = MOST_BYTES + 1 + dice.below(40) as usize;
            let last = count as u32;
            let mut filler = last;
            while list.len() < more {
                let place = filler.wrapping_mul(0x40_0000 / 1024 + 1) & 0x3FFF;
                let record = Record { virtual_start: place << 10, physical: 0, kind: 3, access: 2 };
                list.extend(record.bytes());
                filler += 1;
            }
            list.truncate(more);
        }
        _ if count == 0 => {
            let mut record = [0; 12];
            dice.fill(&mut record);
            list.extend(record);
        }
        3 => list[some + 8] = dice.pick(&[4, 5, 0x80, 0xFF, 0x43]),
        4 => list[some + 9] = dice.pick(&[0, 1, 4, 6, 0x12, 0x82, 0xFF]),
        5 => list[some + 10 + dice.below(2) as usize] = dice.pick(&[1, 0x80]),
        6 => list[some + 3] = dice.pick(&[1, 0x80, 0xFF]),
        // An address off by a power of two: misaligned, overlapping or good.
        7 | 8 => {
            let at = some + 4 * dice.below(2) as usize;
            list[at + dice.below(3) as usize] ^= 1 << dice.below(8);
        }
        // One record twice.
        9 => {
            let twin: [u8; 12] = list[some..some + 12].try_into().unwrap();
            let to = dice.below(count as u32 + 1) as usize * 12;
            list.splice(to..to, twin);
        }
        // A record of another size over one of them.
        10 | 11 => {
            let kind = dice.below(4) as u8;
            let record = Record::holding(super::word(list, some) & 0xFF_FFFF, kind);
            let to = dice.below(count as u32 + 1) as usize * 12;
            list.splice(to..to, record.bytes());
        }
        12 => list[some + 8] = dice.below(4) as u8,
        _ => {
            let at = dice.below(list.len() as u32) as usize;
            list[at] = dice.word() as u8;
        }
    }
}
