//! Images written by hand, with what P4 says of each.

use super::*;

const BASE: u32 = 0x2000_0000;
/// A first-level word for the coarse table at 400, and one for the fine table at 1000.
const COARSE_400: u32 = BASE + 0x401;
const FINE_1000: u32 = BASE + 0x1003;

/// A memory of so many bytes with these words, each from an offset on so many times.
fn image(length: usize, words: &[(usize, usize, u32)]) -> Vec<u8> {
    let mut memory = vec![0; length];
    for &(at, times, word) in words {
        for at in (at..).step_by(4).take(times) {
            memory[at..at + 4].copy_from_slice(&word.to_le_bytes());
        }
    }
    memory
}

const fn refused<T>(refusal: Refusal, at: u32) -> Result<T, Refused> {
    Err(Refused { refusal, at })
}

/// The check's refusal 17 or 18 at an address.
fn outside(at: u32) -> Result<(), Refused> {
    refused(Refusal::Outside, at)
}

fn unequal(at: u32) -> Result<(), Refused> {
    refused(Refusal::Unequal, at)
}

/// What the check says of these words at `BASE`, in 8,192 bytes; the list says the same.
fn says(words: &[(usize, usize, u32)]) -> Result<(), Refused> {
    let memory = image(0x2000, words);
    let checked = check(&memory, BASE);
    let mut out = vec![0xA5; 12 * 16_384];
    assert_eq!(list(&memory, BASE, &mut out).map(|_| ()), checked);
    assert!(checked.is_ok() || out.iter().all(|&byte| byte == 0xA5));
    checked
}

/// A record of the list: virtual start, frame, type, access.
type Row = (u32, u32, u8, u8);

/// The list of an accepted image, read back.
fn rows(memory: &[u8], base: u32) -> Vec<Row> {
    let mut out = vec![0xA5; 12 * 16_384 + 1];
    let length = list(memory, base, &mut out).expect("accepted");
    assert!(out[length..].iter().all(|&byte| byte == 0xA5));
    let word = |bytes: &[u8]| u32::from_le_bytes(bytes.try_into().unwrap());
    let row = |record: &[u8]| {
        assert_eq!(record[10..], [0, 0]);
        (word(&record[..4]), word(&record[4..8]), record[8], record[9])
    };
    out[..length].chunks(12).map(row).collect()
}

#[test]
fn memories() {
    let go = |base, length| check(&vec![0; length], base);
    let bad = refused(Refusal::Memory, 0);
    for base in [0, 0x80, BASE, 0xFFFF_FF80] {
        assert_eq!(go(base, 64), Ok(()));
        assert_eq!(go(base, 68), Ok(()));
        // No room for the first-level table.
        for length in [0, 4, 60] {
            assert_eq!(go(base, length), outside(base));
        }
        // Refused 4 before that.
        for length in [1, 2, 3, 58, 61, 62, 63, 65, 66] {
            assert_eq!(go(base, length), bad);
        }
        for off in [1, 2, 4, 0x20, 0x40] {
            assert_eq!(go(base + off, 64), bad);
            assert_eq!(go(base + off, 0), bad);
        }
    }
    assert_eq!(go(0, 131_072), Ok(()));
    assert_eq!(go(0, 131_076), bad);
    // Ends at 2^32, and a word over it.
    assert_eq!(go(0xFFFF_FF80, 128), Ok(()));
    assert_eq!(go(0xFFFF_FF80, 132), bad);
    assert_eq!(go(0xFFFE_0000, 131_072), Ok(()));
    assert_eq!(go(0xFFFE_0080, 131_072), bad);
    assert_eq!(go(0xFFFE_0080, 130_944), Ok(()));
}

#[test]
fn a_page_of_every_sort() {
    // A section that is read only by bits 11:10, while 5:4 say both. In the coarse
    // table a large page at word 16, small ones at words 32 and 255, a tiny word that is
    // none at 33. In the fine table a small page at word 0, tiny ones at words 4 and
    // 1,023, a large page at word 64. Bits that are ignored are set here and there.
    let memory = image(
        0x2000,
        &[
            (0, 1, 0x112F_FBFE),
            (4, 1, COARSE_400 | 0x3FC),
            (60, 1, FINE_1000 | 0xFFC),
            (0x400 + 4 * 16, 16, 0x1002_8F31),
            (0x400 + 4 * 32, 1, 0x3000_5022),
            (0x400 + 4 * 33, 1, 0x3000_6433),
            (0x400 + 4 * 255, 1, 0xFFFF_FFCE),
            (0x1000, 4, 0x4000_1C12),
            (0x1000 + 4 * 4, 1, 0x4000_0403),
            (0x1000 + 4 * 64, 64, 0x5555_A521),
            (0x1000 + 4 * 1_023, 1, 0xFFFF_FFFF),
        ],
    );
    assert_eq!(check(&memory, BASE), Ok(()));
    let expected = [
        (0x00_0000, 0x1120_0000, 0, 2),
        (0x11_0000, 0x1002_0000, 1, 3),
        (0x12_0000, 0x3000_5000, 2, 2),
        (0x1F_F000, 0xFFFF_F000, 2, 0),
        (0xF0_0000, 0x4000_1000, 2, 1),
        (0xF0_1000, 0x4000_0400, 3, 0),
        (0xF1_0000, 0x5555_0000, 1, 2),
        (0xFF_FC00, 0xFFFF_FC00, 3, 3),
    ];
    assert_eq!(rows(&memory, BASE), expected);
    // To the byte: the second record, a large page.
    let mut out = [0; 96];
    assert_eq!(list(&memory, BASE, &mut out), Ok(96));
    assert_eq!(out[12..24], [0, 0, 0x11, 0, 0, 0, 2, 0x10, 1, 3, 0, 0]);
}

#[test]
fn rooms() {
    // Three pages: 36 bytes.
    let memory = image(64, &[(8, 3, 0x0000_0C02)]);
    for room in [36, 37, 47, 48, 100] {
        let mut out = vec![0xA5; room];
        assert_eq!(list(&memory, 0x80, &mut out), Ok(36));
        assert_eq!(out[24..36], [0, 0, 0x40, 0, 0, 0, 0, 0, 0, 3, 0, 0]);
        assert!(out[36..].iter().all(|&byte| byte == 0xA5));
    }
    for room in [0, 1, 12, 24, 35] {
        let mut out = vec![0xA5; room];
        assert_eq!(list(&memory, 0x80, &mut out), refused(Refusal::Room, 3));
        assert!(out.iter().all(|&byte| byte == 0xA5));
    }
    // No page needs no room.
    assert_eq!(list(&[0; 64], 0x80, &mut []), Ok(0));
    // The others come before 12.
    assert_eq!(list(&memory, 0x84, &mut []), refused(Refusal::Memory, 0));
    assert_eq!(list(&memory[..60], 0x80, &mut []), refused(Refusal::Outside, 0x80));
}

#[test]
fn tables_at_the_ends() {
    // The tables are at the memory's end: inside as it stands, outside a word shorter.
    for (length, word) in [(0x800, COARSE_400), (0x2000, FINE_1000)] {
        let memory = image(length, &[(28, 1, word)]);
        assert_eq!(check(&memory, BASE), Ok(()));
        assert_eq!(check(&memory[..length - 4], BASE), outside(BASE + 28));
    }
    let go = |word| check(&image(0x1000, &[(32, 1, word)]), BASE);
    // At the base itself, then one table below it, and anywhere else.
    assert_eq!(go(BASE | 0x3FC | 3), Ok(()));
    for word in [BASE - 0x400 + 1, BASE - 0x1000 + 3, BASE + 0x1000 + 1, BASE + 0x1000 + 3] {
        assert_eq!(go(word), outside(BASE + 32));
    }
    for word in [1, 3, 0xFFFF_FC01, 0xFFFF_F003] {
        assert_eq!(go(word), outside(BASE + 32));
    }
    // A base between two tables: the one that begins below it is outside, though its
    // other words are inside.
    let go = |base, word| check(&image(0x2000, &[(0, 1, word)]), base);
    assert_eq!(go(BASE + 0x80, BASE + 1), outside(BASE + 0x80));
    assert_eq!(go(BASE + 0x80, BASE + 3), outside(BASE + 0x80));
    assert_eq!(go(BASE + 0x80, BASE + 0x401), Ok(()));
    assert_eq!(go(BASE + 0x80, BASE + 0x1003), Ok(()));
    assert_eq!(go(BASE + 0x80, BASE + 0x2003), outside(BASE + 0x80));
    // The last table of all, and the first one from a memory that ends with the space.
    let top = 0xFFFF_E000;
    assert_eq!(go(top, 0xFFFF_F003), Ok(()));
    assert_eq!(go(top, 0xFFFF_FC01), Ok(()));
    assert_eq!(go(top, 3), outside(top));
    assert_eq!(go(0, 3), Ok(()));
    assert_eq!(go(0, 0xFFFF_F003), outside(0));
    // A section or a fault names no table.
    assert_eq!(go(0, 0xFFFF_F002), Ok(()));
    assert_eq!(go(0, 0xFFFF_F000), Ok(()));
}

#[test]
fn large_pages_of_a_coarse_table() {
    const PAGE: u32 = 0x1002_0031;
    // Words 32 to 47 of the table, at 480 to 4BC, one of them another.
    let go =
        |n: usize, word| says(&[(0, 1, COARSE_400), (0x480, 16, PAGE), (0x480 + 4 * n, 1, word)]);
    assert_eq!(go(3, PAGE), Ok(()));
    for n in [1, 7, 8, 15] {
        // Whatever the other word is, the head comes first.
        for word in [0, PAGE ^ 0x10, PAGE ^ 4, PAGE ^ 1 << 31, 0x1002_0032, 0x1002_0033] {
            assert_eq!(go(n, word), unequal(BASE + 0x480));
        }
    }
    // A head that is another large page is named; one that is none is not.
    assert_eq!(go(0, PAGE ^ 0x10), unequal(BASE + 0x480));
    for word in [0, 0x1002_0030, 0x1002_0032, 0x1002_0033] {
        assert_eq!(go(0, word), unequal(BASE + 0x484));
    }
    // Sixteen equal words that do not stand on a multiple of sixteen.
    let go = |at| says(&[(0, 1, COARSE_400), (at, 16, PAGE)]);
    assert_eq!(go(0x440), Ok(()));
    assert_eq!(go(0x444), unequal(BASE + 0x444));
    assert_eq!(go(0x460), unequal(BASE + 0x460));
    // Eight of them; the last word of the table alone.
    assert_eq!(says(&[(0, 1, COARSE_400), (0x440, 8, PAGE)]), unequal(BASE + 0x440));
    assert_eq!(says(&[(0, 1, COARSE_400), (0x7FC, 1, PAGE)]), unequal(BASE + 0x7FC));
    // Small and tiny words may stand anywhere; a large one among them is named.
    let others = [(0, 1, COARSE_400), (0x400, 5, 0x32), (0x414, 9, 0x0000_1033)];
    assert_eq!(says(&others), Ok(()));
    assert_eq!(says(&[&others[..], &[(0x438, 1, PAGE)]].concat()), unequal(BASE + 0x438));
}

#[test]
fn large_pages_of_a_fine_table() {
    const PAGE: u32 = 0x1002_0031;
    // Words 128 to 191 of the table, at 1200 to 12FC, one of them another.
    let go =
        |n: usize, word| says(&[(0, 1, FINE_1000), (0x1200, 64, PAGE), (0x1200 + 4 * n, 1, word)]);
    assert_eq!(go(3, PAGE), Ok(()));
    for n in [1, 15, 16, 31, 32, 63] {
        for word in [0, PAGE ^ 0x10, PAGE ^ 4, PAGE ^ 1 << 31, 0x1002_0032, 0x1002_0033] {
            assert_eq!(go(n, word), unequal(BASE + 0x1200));
        }
    }
    // A small word at the head is named, for its own group of four differs.
    for word in [PAGE ^ 0x10, 0x1002_0032] {
        assert_eq!(go(0, word), unequal(BASE + 0x1200));
    }
    for word in [0, 0x1002_0030, 0x1002_0033] {
        assert_eq!(go(0, word), unequal(BASE + 0x1204));
    }
    // A small page at the head, four words: the large words begin after it.
    let small = [(0, 1, FINE_1000), (0x1200, 64, PAGE), (0x1200, 4, 0x1002_0032)];
    assert_eq!(says(&small), unequal(BASE + 0x1210));
    // Sixteen or thirty-two are too few; sixty-four stand on a multiple of sixty-four.
    let go = |at, times| says(&[(0, 1, FINE_1000), (at, times, PAGE)]);
    assert_eq!(go(0x1100, 64), Ok(()));
    assert_eq!(go(0x1100, 128), Ok(()));
    assert_eq!(go(0x1100, 16), unequal(BASE + 0x1100));
    assert_eq!(go(0x1100, 32), unequal(BASE + 0x1100));
    assert_eq!(go(0x1100, 65), unequal(BASE + 0x1200));
    assert_eq!(go(0x1104, 64), unequal(BASE + 0x1104));
    assert_eq!(go(0x1180, 64), unequal(BASE + 0x1180));
    assert_eq!(go(0x1FFC, 1), unequal(BASE + 0x1FFC));
}

#[test]
fn small_pages_of_a_fine_table() {
    const PAGE: u32 = 0x1002_3032;
    // Words 8 to 11 of the table, at 1020 to 102C, one of them another.
    let go =
        |n: usize, word| says(&[(0, 1, FINE_1000), (0x1020, 4, PAGE), (0x1020 + 4 * n, 1, word)]);
    assert_eq!(go(3, PAGE), Ok(()));
    for n in [1, 2, 3] {
        for word in [0, PAGE ^ 0x10, PAGE ^ 8, PAGE ^ 1 << 31, 0x1002_3031, 0x1002_3033] {
            assert_eq!(go(n, word), unequal(BASE + 0x1020));
        }
    }
    for word in [PAGE ^ 0x10, 0x1002_3031] {
        assert_eq!(go(0, word), unequal(BASE + 0x1020));
    }
    for word in [0, 0x1002_3030, 0x1002_3033] {
        assert_eq!(go(0, word), unequal(BASE + 0x1024));
    }
    let go = |at, times| says(&[(0, 1, FINE_1000), (at, times, PAGE)]);
    assert_eq!(go(0x1000, 1_024), Ok(()));
    assert_eq!(go(0x1010, 4), Ok(()));
    assert_eq!(go(0x1010, 2), unequal(BASE + 0x1010));
    assert_eq!(go(0x1010, 3), unequal(BASE + 0x1010));
    assert_eq!(go(0x1010, 5), unequal(BASE + 0x1020));
    assert_eq!(go(0x1014, 4), unequal(BASE + 0x1014));
    assert_eq!(go(0x1018, 4), unequal(BASE + 0x1018));
    assert_eq!(go(0x1FFC, 1), unequal(BASE + 0x1FFC));
    // Two of one small page and two of another.
    let halves = [(0, 1, FINE_1000), (0x1010, 2, PAGE), (0x1018, 2, PAGE ^ 0x10)];
    assert_eq!(says(&halves), unequal(BASE + 0x1010));
    // Fifteen of sixteen small pages, then tiny words with one large one among them.
    let full = [(0, 1, FINE_1000), (0x1100, 60, PAGE), (0x11F0, 4, 0x1002_0033)];
    assert_eq!(says(&full), Ok(()));
    assert_eq!(says(&[&full[..], &[(0x11F8, 1, 0x31)]].concat()), unequal(BASE + 0x11F8));
}

#[test]
fn one_order_over_all_words() {
    // In the coarse table word 3 stands alone, in the fine one word 9; a third table is
    // outside.
    let broken = [(0x40C, 1, 0x31), (0x1024, 1, 0x32)];
    let outer = BASE + 0x2001;
    let go = |first: &[(usize, usize, u32)]| says(&[&broken[..], first].concat());
    assert_eq!(go(&[]), Ok(()));
    assert_eq!(go(&[(0, 1, COARSE_400), (4, 1, FINE_1000)]), unequal(BASE + 0x40C));
    assert_eq!(go(&[(0, 1, FINE_1000), (4, 1, COARSE_400)]), unequal(BASE + 0x1024));
    // 17 of an earlier word before 18 of a later one, and the other way round.
    assert_eq!(go(&[(0, 1, outer), (4, 1, COARSE_400)]), outside(BASE));
    assert_eq!(go(&[(0, 1, COARSE_400), (4, 1, outer)]), unequal(BASE + 0x40C));
    assert_eq!(go(&[(8, 1, FINE_1000), (60, 1, outer)]), unequal(BASE + 0x1024));
    assert_eq!(go(&[(56, 1, outer), (60, 1, FINE_1000)]), outside(BASE + 56));
    // The first of two tables outside; of two broken groups in one table.
    assert_eq!(go(&[(20, 2, outer)]), outside(BASE + 20));
    let two = [(24, 1, COARSE_400), (0x408, 1, 0x31), (0x7C0, 1, 0x31)];
    assert_eq!(go(&two), unequal(BASE + 0x408));
    // A table that is not wholly inside is refused 17, whatever its words inside are.
    let memory = image(0x1C00, &[(12, 1, FINE_1000), (0x1000, 1, 0x31)]);
    assert_eq!(check(&memory, BASE), outside(BASE + 12));
}

#[test]
fn tables_that_share_words() {
    // One coarse table for all megabytes, with one small page.
    let memory = image(0x800, &[(0, 16, COARSE_400), (0x404, 1, 0x7000_0022)]);
    assert_eq!(check(&memory, BASE), Ok(()));
    let expected: Vec<Row> = (0..16).map(|n| (n << 20 | 0x1000, 0x7000_0000, 2, 2)).collect();
    assert_eq!(rows(&memory, BASE), expected);

    // The same 4,096 bytes as one fine table and as its second quarter, a coarse one: a
    // large page of 64 words is four of 16, a small one of four words is four small
    // ones, a tiny one is none.
    let memory = image(
        0x2000,
        &[
            (0, 1, FINE_1000),
            (4, 1, BASE + 0x1401),
            (0x1400, 64, 0x5555_0031),
            (0x1500, 4, 0x6666_6022),
            (0x1510, 1, 0x7777_7433),
        ],
    );
    let small = |n: u32| (0x14_0000 + (n << 12), 0x6666_6000, 2, 2);
    let large = |n: u32| (0x10_0000 + (n << 16), 0x5555_0000, 1, 3);
    let expected = [
        vec![(0x04_0000, 0x5555_0000, 1, 3), (0x05_0000, 0x6666_6000, 2, 2)],
        vec![(0x05_1000, 0x7777_7400, 3, 3)],
        (0..4).map(large).collect(),
        (0..4).map(small).collect(),
    ];
    assert_eq!(rows(&memory, BASE), expected.concat());

    // The other way round sixteen equal words are too few.
    let words = [(0, 1, BASE + 0x1401), (4, 1, FINE_1000), (0x1400, 16, 0x5555_0031)];
    assert_eq!(says(&words[..]), unequal(BASE + 0x1400));
}

#[test]
fn tables_over_the_first_level() {
    // Sixteen equal words that point at the coarse table that they begin: there they are
    // a large page to 20000000, without access, in every megabyte.
    let memory = image(0x400, &[(0, 16, BASE + 1)]);
    assert_eq!(check(&memory, BASE), Ok(()));
    let expected: Vec<Row> = (0..16).map(|n| (n << 20, 0x2000_0000, 1, 0)).collect();
    assert_eq!(rows(&memory, BASE), expected);
    // With one of them another, the first large word is named.
    assert_eq!(says(&[(0, 16, BASE + 1), (20, 1, 0)]), unequal(BASE));
    assert_eq!(says(&[(0, 16, BASE + 1), (0, 1, 0)]), unequal(BASE + 4));
    // A fine table there: its own word is a tiny page, a section that stands once is a
    // small word that stands once, and four equal sections are one small page.
    let memory = image(0x1000, &[(4, 1, BASE + 0x33), (16, 4, 0x7770_0C22)]);
    let expected = [
        (0x10_0400, 0x2000_0000, 3, 3),
        (0x10_1000, 0x7770_0000, 2, 2),
        (0x40_0000, 0x7770_0000, 0, 3),
        (0x50_0000, 0x7770_0000, 0, 3),
        (0x60_0000, 0x7770_0000, 0, 3),
        (0x70_0000, 0x7770_0000, 0, 3),
    ];
    assert_eq!(rows(&memory, BASE), expected);
    assert_eq!(says(&[(4, 1, BASE + 3), (16, 3, 0x7770_0C22)]), unequal(BASE + 16));
    assert_eq!(says(&[(4, 1, BASE + 3), (20, 1, 0x7770_0C22)]), unequal(BASE + 20));
}

#[test]
fn the_fullest_image() {
    // Sixteen words for one fine table of tiny pages, each to another frame.
    let mut memory = image(0x2000, &[(0, 16, FINE_1000)]);
    for n in 0..1_024 {
        let word = (n << 10) | (n & 3) << 4 | 3;
        memory[0x1000 + 4 * n as usize..][..4].copy_from_slice(&u32::to_le_bytes(word));
    }
    let row = |n: u32| (n << 10, (n % 1_024) << 10, 3, (n & 3) as u8);
    assert_eq!(rows(&memory, BASE), (0..16_384).map(row).collect::<Vec<Row>>());
    let mut short = vec![0xA5; 12 * 16_384 - 1];
    assert_eq!(list(&memory, BASE, &mut short), refused(Refusal::Room, 16_384));
    assert!(short.iter().all(|&byte| byte == 0xA5));
}
