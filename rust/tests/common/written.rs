//! Images written by hand at 20000000 hex, and what P4 says of each.

use super::images::{Image, Words};
use super::lists::Record;
use super::rows::BASE;
use super::*;

/// First-level words for a coarse table at 400 and for a fine one at 1000.
pub const COARSE: u32 = BASE + 0x401;
pub const FINE: u32 = BASE + 0x1003;

/// An image, and its pages or its first refusal.
pub struct Row {
    pub name: &'static str,
    pub image: Image,
    pub says: Result<Vec<Record>, u64>,
}

pub const fn page(virtual_start: u32, physical: u32, kind: u8, access: u8) -> Record {
    Record { virtual_start, physical, kind, access }
}

/// A large or small word at an offset whose group differs.
pub const fn unequal(offset: u32) -> u64 {
    refused(18, (BASE + offset) as u64)
}

/// A first-level word at an offset whose table is outside.
pub const fn outside(offset: u32) -> u64 {
    refused(17, (BASE + offset) as u64)
}

fn row(name: &'static str, length: usize, words: &[Words], says: Result<Vec<Record>, u64>) -> Row {
    Row { name, image: Image::written(BASE, length, words), says }
}

/// Images that are accepted.
pub fn accepted() -> Vec<Row> {
    let own_large = |n: u32| page(n << 20, BASE, 1, 3);
    vec![
        row("nothing", 0x40, &[], Ok(vec![])),
        row(
            "list A, with ignored bits",
            0x2000,
            &[
                (0, 1, COARSE | 0x3FC),
                (12, 1, 0x112F_FBFE),
                (20, 1, FINE | 0xFFC),
                (0x440, 16, 0x1002_FFFD),
                (0x1004, 1, 0x1000_0FFF),
            ],
            Ok(vec![
                page(0x01_0000, 0x1002_0000, 1, 3),
                page(0x30_0000, 0x1120_0000, 0, 2),
                page(0x50_0400, 0x1000_0C00, 3, 3),
            ]),
        ),
        // Access of a section is in 11:10, of other pages in 5:4.
        row(
            "pages without access",
            0x2000,
            &[
                (0, 1, 0x0010_0032),
                (4, 1, 0x0020_0432),
                (8, 1, COARSE),
                (60, 1, FINE),
                (0x400, 16, 0xABCD_0C01),
                (0x440, 1, 0xABCD_E012),
                (0x7FC, 1, 0xABCD_E002),
                (0x1000, 64, 0x1234_0011),
                (0x1100, 1, 0x1234_5413),
                (0x1FF0, 4, 0x1234_5002),
            ],
            Ok(vec![
                page(0x00_0000, 0x0010_0000, 0, 0),
                page(0x10_0000, 0x0020_0000, 0, 1),
                page(0x20_0000, 0xABCD_0000, 1, 0),
                page(0x21_0000, 0xABCD_E000, 2, 1),
                page(0x2F_F000, 0xABCD_E000, 2, 0),
                page(0xF0_0000, 0x1234_0000, 1, 1),
                page(0xF1_0000, 0x1234_5400, 3, 1),
                page(0xFF_F000, 0x1234_5000, 2, 0),
            ]),
        ),
        row(
            "a coarse table's tiny words",
            0x800,
            &[(0, 1, COARSE), (0x400, 256, 0x1234_5433), (0x444, 1, 0x1234_5032)],
            Ok(vec![page(0x01_1000, 0x1234_5000, 2, 3)]),
        ),
        row(
            "two megabytes of one table",
            0x800,
            &[(16, 1, COARSE), (36, 1, COARSE | 4), (0x408, 1, 0x1234_5022)],
            Ok(vec![page(0x40_2000, 0x1234_5000, 2, 2), page(0x90_2000, 0x1234_5000, 2, 2)]),
        ),
        // Four words that are one small page of a fine table are four of a coarse one.
        row(
            "a coarse table within a fine one",
            0x2000,
            &[(0, 1, BASE + 0x1801), (4, 1, FINE), (0x1800, 64, 0x5555_0031), (0x1BF0, 4, 0x22)],
            Ok(vec![
                page(0x00_0000, 0x5555_0000, 1, 3),
                page(0x01_0000, 0x5555_0000, 1, 3),
                page(0x02_0000, 0x5555_0000, 1, 3),
                page(0x03_0000, 0x5555_0000, 1, 3),
                page(0x0F_C000, 0, 2, 2),
                page(0x0F_D000, 0, 2, 2),
                page(0x0F_E000, 0, 2, 2),
                page(0x0F_F000, 0, 2, 2),
                page(0x18_0000, 0x5555_0000, 1, 3),
                page(0x1B_F000, 0, 2, 2),
            ]),
        ),
        // There a section is a small word, and the fine word itself a tiny one.
        row(
            "a fine table over the first level",
            0x1000,
            &[(0, 4, 0x7770_0C22), (60, 1, BASE + 0x33)],
            Ok(vec![
                page(0x00_0000, 0x7770_0000, 0, 3),
                page(0x10_0000, 0x7770_0000, 0, 3),
                page(0x20_0000, 0x7770_0000, 0, 3),
                page(0x30_0000, 0x7770_0000, 0, 3),
                page(0xF0_0000, 0x7770_0000, 2, 2),
                page(0xF0_3C00, BASE, 3, 3),
            ]),
        ),
        row(
            "sixteen coarse words, a large page of the table that they begin",
            0x400,
            &[(0, 16, BASE + 0x31)],
            Ok((0..16).map(own_large).collect()),
        ),
    ]
}

/// Images that are refused.
pub fn refused_ones() -> Vec<Row> {
    let row = |name, words: &[Words], refusal| row(name, 0x2000, words, Err(refusal));
    vec![
        row(
            "a large word among small and tiny ones",
            &[(0, 1, COARSE), (0x400, 9, 0x32), (0x424, 3, 0x33), (0x430, 1, 0x31)],
            unequal(0x430),
        ),
        row(
            "sixteen large words off their place",
            &[(0, 1, COARSE), (0x444, 16, 0x31)],
            unequal(0x444),
        ),
        row("eight large words", &[(0, 1, COARSE), (0x440, 8, 0x31)], unequal(0x440)),
        row(
            "sixteen large words of a fine table",
            &[(0, 1, FINE), (0x1000, 16, 0x31)],
            unequal(0x1000),
        ),
        row("two small words of a fine table", &[(0, 1, FINE), (0x1008, 2, 0x32)], unequal(0x1008)),
        // A group that is broken at its head by a fault and a tiny word, further on by
        // another large word: the first large word is named.
        row(
            "a fault and a tiny word at the head",
            &[
                (0, 1, FINE),
                (0x1100, 64, 0x31),
                (0x1100, 1, 0x30),
                (0x1104, 1, 0x33),
                (0x1180, 1, 1),
            ],
            unequal(0x1108),
        ),
        row(
            "a small page at the head of a large one",
            &[(0, 1, FINE), (0x1100, 64, 0x31), (0x1100, 4, 0x32)],
            unequal(0x1110),
        ),
        row(
            "a coarse table, taken for a fine one as well",
            &[(0, 1, BASE + 0x1401), (4, 1, FINE), (0x1400, 16, 0x31)],
            unequal(0x1400),
        ),
        row("a lone coarse word over itself", &[(8, 1, BASE + 1)], unequal(8)),
        row("coarse words over themselves, and a fault", &[(4, 15, BASE + 1)], unequal(4)),
        row(
            "a coarse word under a fine table",
            &[(0, 1, BASE + 3), (4, 1, BASE + 0x401)],
            unequal(4),
        ),
        row("three sections under a fine table", &[(0, 1, BASE + 3), (16, 3, 2)], unequal(16)),
        row("a table right after the end", &[(0, 4, 2), (16, 12, BASE + 0x2001)], outside(16)),
        row("a table right below the base", &[(60, 1, BASE - 0x1000 + 3)], outside(60)),
        row(
            "a broken table, then one outside",
            &[(0, 1, COARSE), (4, 1, 1), (0x7FC, 1, 0x31)],
            unequal(0x7FC),
        ),
        row(
            "a table outside, then a broken one",
            &[(0, 1, 1), (4, 1, COARSE), (0x7FC, 1, 0x31)],
            outside(0),
        ),
    ]
}
