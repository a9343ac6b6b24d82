//! "The builder": from a list of records to an image of address tables.

use crate::answer::{Refusal, Refused};
use crate::memory;
use crate::walk::Kind;

const RECORD: usize = 12;
/// The most records of a list (P5).
pub const MOST_RECORDS: usize = 1_024;
/// How many bytes these have.
pub const MOST_BYTES: usize = MOST_RECORDS * RECORD;
const MEGABYTES: usize = 16;
const FIRST_LEVEL: usize = 64;
const COARSE: usize = 1_024;
const FINE: usize = 4_096;

/// One good record.
#[derive(Clone, Copy)]
struct Record {
    virtual_start: u32,
    physical: u32,
    kind: Kind,
    access: u32,
}

impl Record {
    /// Virtual, physical (little-endian words), type, access, two zero bytes,
    /// as they stand.
    #[inline]
    fn decode(bytes: &[u8; RECORD]) -> Record {
        let word = |at: usize| {
            u32::from_le_bytes([bytes[at], bytes[at + 1], bytes[at + 2], bytes[at + 3]])
        };
        Record {
            virtual_start: word(0),
            physical: word(4),
            kind: Kind::from_bits(bytes[8].into()),
            access: bytes[9].into(),
        }
    }

    /// Refusal 10: `None` for a record that is bad.
    #[inline]
    fn parse(bytes: &[u8; RECORD]) -> Option<Record> {
        let record = Record::decode(bytes);
        let good = bytes[8] <= 3
            && bytes[9] & !1 == 2
            && bytes[10] == 0
            && bytes[11] == 0
            && record.virtual_start < 1 << 24
            && (record.virtual_start | record.physical) & record.kind.within() == 0;
        good.then_some(record)
    }

    #[inline]
    fn megabyte(&self) -> usize {
        (self.virtual_start >> 20) as usize
    }

    /// First of the megabyte's 1,024 tiny pages, and how many there are.
    #[inline]
    fn tiny_pages(&self) -> (usize, usize) {
        let first = (self.virtual_start >> 10 & 0x3FF) as usize;
        (first, (self.kind.within() as usize + 1) >> 10)
    }
}

/// The megabytes that hold large or small pages, and those that hold tiny ones:
/// bit n for megabyte n. A megabyte with a tiny page has a fine table, else one
/// with a large or small page has a coarse table.
#[derive(Clone, Copy, Default)]
struct Tables {
    large_or_small: u16,
    tiny: u16,
}

impl Tables {
    #[inline]
    fn fine(&self, megabyte: usize) -> bool {
        self.tiny >> megabyte & 1 != 0
    }

    /// The megabytes that have a table, rising.
    #[inline]
    fn megabytes(&self) -> impl Iterator<Item = usize> {
        let mut left = self.large_or_small | self.tiny;
        core::iter::from_fn(move || {
            let megabyte = left.trailing_zeros() as usize;
            let some = left != 0;
            left &= left.wrapping_sub(1);
            some.then_some(megabyte)
        })
    }

    /// Puts the tables by rising megabyte: a fine one at the next multiple of
    /// 4,096, a coarse one at the next multiple of 1,024. Gives their offsets
    /// and the image's length.
    #[inline]
    fn place(&self) -> ([usize; MEGABYTES], usize) {
        let mut offsets = [0; MEGABYTES];
        let mut end = FIRST_LEVEL;
        for megabyte in self.megabytes() {
            let size = if self.fine(megabyte) { FINE } else { COARSE };
            offsets[megabyte] = end.next_multiple_of(size);
            end = offsets[megabyte] + size;
        }
        (offsets, end)
    }
}

/// Tries the records in order: 10 before 11 for each, with its index.
fn survey(records: &[u8]) -> Result<Tables, Refused> {
    let mut tables = Tables::default();
    // One bit for each tiny page that an earlier record covers.
    let mut covered = [[0_u64; 16]; MEGABYTES];
    for (index, bytes) in records.chunks(RECORD).enumerate() {
        let refused = |refusal| Refused { refusal, at: index as u32 };
        let record = match <&[u8; RECORD]>::try_from(bytes) {
            Ok(bytes) if index < MOST_RECORDS => Record::parse(bytes),
            _ => None,
        };
        let record = record.ok_or(refused(Refusal::Record))?;
        let megabyte = record.megabyte();
        let (first, count) = record.tiny_pages();
        let covered = &mut covered[megabyte];
        let overlaps = if count >= 64 {
            let whole = &mut covered[first / 64..][..count / 64];
            let overlaps = whole.iter().any(|&bits| bits != 0);
            whole.fill(u64::MAX);
            overlaps
        } else {
            // Four tiny pages or one: they never cross a word.
            let mask = ((1 << count) - 1) << (first % 64);
            let bits = &mut covered[first / 64];
            let overlaps = *bits & mask != 0;
            *bits |= mask;
            overlaps
        };
        if overlaps {
            return Err(refused(Refusal::Overlap));
        }
        match record.kind {
            Kind::Section => {}
            Kind::Large | Kind::Small => tables.large_or_small |= 1 << megabyte,
            Kind::Tiny => tables.tiny |= 1 << megabyte,
        }
    }
    Ok(tables)
}

/// Builds the image of a list of records for a memory with a physical base.
/// Gives the image's length. Refused 4 with 0, 10 and 11 with a record's index, 12 with
/// the count of records. A refusal leaves the memory as it was; bytes after the image
/// stay in any case.
pub fn build(records: &[u8], base: u32, memory: &mut [u8]) -> Result<usize, Refused> {
    if !base.is_multiple_of(FINE as u32) || !memory::lawful(base, memory.len()) {
        return Err(Refused { refusal: Refusal::Memory, at: 0 });
    }
    let tables = if records.is_empty() { Tables::default() } else { survey(records)? };
    let (offsets, length) = tables.place();
    let Some(image) = memory.get_mut(..length) else {
        let count = (records.len() / RECORD) as u32;
        return Err(Refused { refusal: Refusal::Room, at: count });
    };

    // All else up to the last table's end is zero.
    image.fill(0);
    for megabyte in tables.megabytes() {
        let bits = if tables.fine(megabyte) { 3 } else { 1 };
        put(&mut image[megabyte * 4..], (base + offsets[megabyte] as u32) | bits);
    }
    for bytes in records.chunks_exact(RECORD) {
        let record = Record::decode(bytes.try_into().expect("of that length"));
        let megabyte = record.megabyte();
        if record.kind == Kind::Section {
            put(&mut image[megabyte * 4..], record.physical | record.access << 10 | 2);
        } else {
            let word = record.physical | record.access << 4 | record.kind as u32;
            let (first, count) = record.tiny_pages();
            let table = offsets[megabyte];
            if tables.fine(megabyte) {
                // In a fine table a large page takes 64 equal words, a small one takes four
                // (P3): one for each tiny page.
                repeat(&mut image[table + first * 4..][..count * 4], word);
            } else {
                // In a coarse one a large page takes 16, a small one takes one: as many
                // bytes as there are tiny pages, four to a word.
                repeat(&mut image[table + first..][..count], word);
            }
        }
    }
    Ok(length)
}

#[inline]
fn put(at: &mut [u8], word: u32) {
    at[..4].copy_from_slice(&word.to_le_bytes());
}

/// Puts a word at each place of these.
#[inline]
fn repeat(words: &mut [u8], word: u32) {
    words.chunks_exact_mut(4).for_each(|at| put(at, word));
}

/// What the program writes for an input. It reads one byte past the longest list
/// at most, and builds at 20000000 hex in 65,536 bytes.
pub fn mkimage(input: &[u8]) -> Vec<u8> {
    let read = &input[..input.len().min(MOST_BYTES + 1)];
    let mut memory = vec![0; 65_536];
    match build(read, 0x2000_0000, &mut memory) {
        Ok(length) => {
            memory.truncate(length);
            memory
        }
        Err(Refused { refusal, at }) => {
            format!("refused {} at {}\n", refusal as u32, at).into_bytes()
        }
    }
}

#[cfg(test)]
mod tests {
    use super::*;

    pub fn record(virtual_start: u32, physical: u32, kind: u8, access: u8) -> [u8; 12] {
        let mut bytes = [0; 12];
        bytes[..4].copy_from_slice(&virtual_start.to_le_bytes());
        bytes[4..8].copy_from_slice(&physical.to_le_bytes());
        bytes[8] = kind;
        bytes[9] = access;
        bytes
    }

    fn word(memory: &[u8], at: usize) -> u32 {
        u32::from_le_bytes(memory[at..at + 4].try_into().unwrap())
    }

    fn refused(refusal: Refusal, at: u32) -> Result<usize, Refused> {
        Err(Refused { refusal, at })
    }

    #[test]
    fn list_a() {
        let list = [
            record(0x01_0000, 0x1002_0000, 1, 3),
            record(0x30_0000, 0x1120_0000, 0, 2),
            record(0x50_0400, 0x1000_0C00, 3, 3),
        ]
        .concat();
        let mut memory = vec![0xA5; 8_192 + 64];
        assert_eq!(build(&list, 0x2000_0000, &mut memory), Ok(8_192));
        assert_eq!(word(&memory, 0), 0x2000_0401);
        assert_eq!(word(&memory, 12), 0x1120_0802);
        assert_eq!(word(&memory, 20), 0x2000_1003);
        for n in 16..32 {
            assert_eq!(word(&memory, 0x400 + n * 4), 0x1002_0031);
        }
        assert_eq!(word(&memory, 0x1004), 0x1000_0C33);
        let set = (0..8_192).step_by(4).filter(|&at| word(&memory, at) != 0).count();
        assert_eq!(set, 3 + 16 + 1);
        assert!(memory[8_192..].iter().all(|&byte| byte == 0xA5));
        let mut short = vec![0xA5; 8_188];
        assert_eq!(build(&list, 0x2000_0000, &mut short), refused(Refusal::Room, 3));
        assert!(short.iter().all(|&byte| byte == 0xA5));
    }

    #[test]
    fn pages_of_a_fine_table_are_repeated() {
        let list = [
            record(0xF1_0000, 0xFFFF_0000, 1, 2),
            record(0xF0_1000, 0x0000_3000, 2, 3),
            record(0xF0_0400, 0x0000_0400, 3, 2),
            record(0x00_3000, 0x7000_1000, 2, 2),
        ]
        .concat();
        let mut memory = vec![0xFF; 16_384];
        assert_eq!(build(&list, 0x1000, &mut memory), Ok(0x2000));
        assert_eq!(word(&memory, 0), 0x1401);
        assert_eq!(word(&memory, 60), 0x2003);
        assert_eq!(word(&memory, 0x400 + 12), 0x7000_1022);
        assert_eq!(word(&memory, 0x1004), 0x0000_0423);
        for n in 0..4 {
            assert_eq!(word(&memory, 0x1010 + n * 4), 0x0000_3032);
        }
        for n in 0..64 {
            assert_eq!(word(&memory, 0x1100 + n * 4), 0xFFFF_0021);
        }
        let set = (0..0x2000).step_by(4).filter(|&at| word(&memory, at) != 0).count();
        assert_eq!(set, 2 + 1 + 1 + 4 + 64);
    }

    #[test]
    fn full_tables_of_both_kinds() {
        // Fifteen large pages and fifteen small ones, from the end of the megabyte and
        // of its first 64 KB down, then four tiny ones at its start or one more small one.
        let large = |n: u32| record(0x3F_0000 - (n << 16), 0x8000_0000 + (n << 16), 1, 3);
        let small = |n: u32| record(0x30_F000 - (n << 12), 0x9000_0000 + (n << 12), 2, 2);
        let tiny = |n: u32| record(0x30_0000 + (n << 10), 0xA000_0000 + (n << 10), 3, 3);
        let pages: Vec<[u8; 12]> = (0..15).flat_map(|n| [large(n), small(n)]).collect();
        let fine = [pages.concat(), (0..4).flat_map(tiny).collect()].concat();
        let coarse = [pages.concat(), small(15).to_vec()].concat();

        let mut memory = vec![0xA5; 0x2000];
        assert_eq!(build(&fine, 0x2000_0000, &mut memory), Ok(0x2000));
        assert_eq!(word(&memory, 12), 0x2000_1003);
        let got: Vec<u32> = (0..1_024).map(|n| word(&memory, 0x1000 + n * 4)).collect();
        assert_eq!(got[..4], [0xA000_0033, 0xA000_0433, 0xA000_0833, 0xA000_0C33]);
        for n in 1..16 {
            assert_eq!(got[n * 4..][..4], [0x9000_F022 - (n as u32) * 0x1000; 4]);
            assert_eq!(got[n * 64..][..64], [0x800F_0031 - (n as u32) * 0x1_0000; 64]);
        }

        let mut memory = vec![0xA5; 0x800];
        assert_eq!(build(&coarse, 0x2000_0000, &mut memory), Ok(0x800));
        assert_eq!(word(&memory, 12), 0x2000_0401);
        let got: Vec<u32> = (0..256).map(|n| word(&memory, 0x400 + n * 4)).collect();
        let small: Vec<u32> = (0..16).map(|n| 0x9000_F022 - n * 0x1000).collect();
        assert_eq!(got[..16], small);
        for n in 1..16 {
            assert_eq!(got[n * 16..][..16], [0x800F_0031 - (n as u32) * 0x1_0000; 16]);
        }
    }

    #[test]
    fn tables_follow_one_another() {
        // Coarse, coarse, fine, coarse, fine: 400, 800, 1000, 2000, 3000.
        let list = [
            record(0x90_0000, 0, 3, 3),
            record(0x10_0000, 0, 2, 3),
            record(0x20_0000, 0, 1, 3),
            record(0x40_0000, 0, 3, 3),
            record(0x80_0000, 0, 1, 3),
            record(0x30_0000, 0, 0, 3),
        ]
        .concat();
        let mut memory = vec![0; 0x4000];
        assert_eq!(build(&list, 0, &mut memory), Ok(0x4000));
        let first: Vec<u32> = (0..16).map(|n| word(&memory, n * 4)).collect();
        let expected = [0, 0x401, 0x801, 0xC02, 0x1003, 0, 0, 0, 0x2001, 0x3003, 0, 0, 0, 0, 0, 0];
        assert_eq!(first, expected);
    }

    #[test]
    fn bad_records() {
        let mut memory = vec![0; 65_536];
        let good = record(0, 0, 0, 3);
        let mut try_after_one =
            |bytes: &[u8]| build(&[&good[..], bytes].concat(), 0x2000_0000, &mut memory);
        let bad = refused(Refusal::Record, 1);
        assert_eq!(try_after_one(&record(0x10_0000, 0, 4, 3)), bad);
        assert_eq!(try_after_one(&record(0x10_0000, 0, 0, 1)), bad);
        assert_eq!(try_after_one(&record(0x10_0000, 0, 0, 4)), bad);
        assert_eq!(try_after_one(&record(0x10_0000, 0, 0, 0x83)), bad);
        assert_eq!(try_after_one(&record(0x100_0000, 0, 0, 3)), bad);
        assert_eq!(try_after_one(&record(0x11_0000, 0, 0, 3)), bad);
        assert_eq!(try_after_one(&record(0x10_0000, 0x1_0000, 0, 3)), bad);
        assert_eq!(try_after_one(&record(0x10_8000, 0, 1, 3)), bad);
        assert_eq!(try_after_one(&record(0x10_0800, 0, 2, 3)), bad);
        assert_eq!(try_after_one(&record(0x10_0200, 0, 3, 3)), bad);
        assert_eq!(try_after_one(&record(0x10_0000, 0, 0, 3)[..11]), bad);
        for pad in [10, 11] {
            let mut bytes = record(0x10_0000, 0, 0, 3);
            bytes[pad] = 1;
            assert_eq!(try_after_one(&bytes), bad);
        }
        // Bad before overlapping; overlapping otherwise.
        assert_eq!(try_after_one(&record(0x01_0000, 0, 1, 1)), bad);
        assert_eq!(try_after_one(&record(0x01_0000, 0, 1, 3)), refused(Refusal::Overlap, 1));
        assert_eq!(try_after_one(&record(0x0F_FC00, 0, 3, 3)), refused(Refusal::Overlap, 1));
    }

    #[test]
    fn overlaps_of_all_sizes() {
        let mut memory = vec![0; 65_536];
        let sizes = [1_u32 << 20, 1 << 16, 1 << 12, 1 << 10];
        for (kind, &size) in sizes.iter().enumerate() {
            for (other, &other_size) in sizes.iter().enumerate() {
                let first = record(0x50_0000, 0, kind as u8, 2);
                let mut go = |start: u32| {
                    let second = record(start, 0, other as u8, 2);
                    build(&[first, second].concat(), 0, &mut memory)
                };
                assert_eq!(go(0x50_0000), refused(Refusal::Overlap, 1));
                assert!(go(0x50_0000 + size.max(other_size)).is_ok());
                assert!(go(0x50_0000 - other_size).is_ok());
                if size > other_size {
                    let last = 0x50_0000 + size - other_size;
                    assert_eq!(go(last), refused(Refusal::Overlap, 1));
                }
            }
        }
    }

    /// Small pages from 0 on: 1,024 of them fill the tables of four megabytes.
    fn small_pages(count: u32) -> Vec<u8> {
        (0..count).flat_map(|n| record(n << 12, 0x1000_0000 + (n << 12), 2, 3)).collect()
    }

    #[test]
    fn lists_up_to_the_limit() {
        for (count, length) in [(700, 0x1000), (1_023, 0x1400), (1_024, 0x1400)] {
            let mut memory = vec![0xA5; 0x1400];
            assert_eq!(build(&small_pages(count), 0, &mut memory), Ok(length));
            let table = (0..length - 0x400).step_by(4).map(|at| word(&memory, 0x400 + at));
            for (n, got) in (0..).zip(table) {
                let expected = if n < count { 0x1000_0032 + (n << 12) } else { 0 };
                assert_eq!(got, expected, "word {n} of {count}");
            }
        }
        let mut short = vec![0xA5; 0x13FC];
        assert_eq!(build(&small_pages(1_024), 0, &mut short), refused(Refusal::Room, 1_024));
    }

    #[test]
    fn lists_past_the_limit() {
        let mut memory = vec![0xA5; 65_536];
        let mut go = |list: &[u8]| build(list, 0, &mut memory);
        // The 1,025th record is good, and refused, however many of its bytes there are.
        let list = small_pages(1_026);
        assert_eq!(go(&list[..12_287]), refused(Refusal::Record, 1_023));
        for length in [12_289, 12_299, 12_300, 12_301, 12_312] {
            assert_eq!(go(&list[..length]), refused(Refusal::Record, 1_024));
        }
        // So is one that is bad, or overlaps.
        for other in [[0; 12], record(0, 0, 3, 3)] {
            let longer = [&list[..12_288], &other].concat();
            assert_eq!(go(&longer), refused(Refusal::Record, 1_024));
        }
        // An earlier refusal is named.
        for (other, refusal) in [([0; 12], Refusal::Record), (record(0, 0, 3, 3), Refusal::Overlap)]
        {
            let mut earlier = list.clone();
            earlier[1_023 * 12..][..12].copy_from_slice(&other);
            assert_eq!(go(&earlier), refused(refusal, 1_023));
        }
        assert!(memory.iter().all(|&byte| byte == 0xA5), "nothing is written");
    }

    #[test]
    fn memories_of_the_builder() {
        let go = |base: u32, length: usize| build(&[], base, &mut vec![1; length]);
        assert_eq!(go(0, 64), Ok(64));
        assert_eq!(go(0, 60), refused(Refusal::Room, 0));
        assert_eq!(go(0, 0), refused(Refusal::Room, 0));
        assert_eq!(go(0, 66), refused(Refusal::Memory, 0));
        assert_eq!(go(0x400, 64), refused(Refusal::Memory, 0));
        assert_eq!(go(0xFFFF_F000, 4_096), Ok(64));
        assert_eq!(go(0xFFFF_F000, 4_100), refused(Refusal::Memory, 0));
        assert_eq!(go(0, 131_072), Ok(64));
        assert_eq!(go(0, 131_076), refused(Refusal::Memory, 0));
    }

    #[test]
    fn the_program() {
        assert_eq!(mkimage(&[]), [0; 64]);
        assert_eq!(mkimage(&[0]), b"refused 10 at 0\n");
        // Sixteen fine tables do not fit in 65,536 bytes; fifteen do.
        let tiny = |n: u32| record(n << 20, 0, 3, 2);
        let fifteen: Vec<u8> = (0..15).flat_map(tiny).collect();
        let sixteen: Vec<u8> = (0..16).flat_map(tiny).collect();
        assert_eq!(mkimage(&fifteen).len(), 65_536);
        assert_eq!(mkimage(&sixteen), b"refused 12 at 16\n");
        assert_eq!(
            mkimage(&[record(0, 0, 0, 3), record(0, 0, 0, 3)].concat()),
            b"refused 11 at 1\n"
        );
    }
}
