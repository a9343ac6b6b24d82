//! Images that the builder did not write (P4): check and list of the second program and
//! of the proved implementation against each other and against the definition, then what
//! an accepted image says against the walk, and against sessions with slots.
//!
//! NX_LONG, NX_SEED and NX_WITHOUT_NATIVE are as for `differential.rs`.

mod common;

use common::coverage::{self, see_image, see_list};
use common::groups::Group;
use common::images::{definition, Image, Words};
use common::lists::{self, Record};
use common::plain::{Plain, Session};
use common::rows::{self, BASE};
use common::turned::Place;
use common::written::{self, outside, page, unequal, COARSE, FINE};
use common::*;
use second::boundary::{self, Second, ANSWER, STATE};
use second::builder::MOST_RECORDS;
use second::dice::Dice;
use std::collections::BTreeSet;
use std::fmt::Display;

// ---------------------------------------------------------------------------
// One image under both programs

impl Bench {
    /// Checks and lists an image with both programs, in rooms of every sort, and compares
    /// what they answer and every byte of the room with the definition. Gives what it
    /// says.
    fn audit(&mut self, image: &Image, title: impl Display) -> Result<Vec<Record>, u64> {
        const DIRT: u8 = 0xC3;
        let Image { base, memory } = image;
        let said = definition(image);
        let records = lists::bytes(said.as_deref().unwrap_or_default());
        let need = records.len();
        let mut rooms = vec![("exactly", need), ("a byte longer", need + 1), ("longer", need + 99)];
        if need > 0 {
            rooms.extend([("none", 0), ("a byte short", need - 1), ("a record short", need - 12)]);
        }
        for program in self.programs() {
            let place = || format!("{title}, {}: {:x} at {base:x}", program.name(), memory.len());
            let expected = said.as_ref().err().copied().unwrap_or(0);
            let got = program.check(memory, *base);
            assert_eq!(got, expected, "{}: check {got:x} {expected:x}", place());
            for &(how, room) in &rooms {
                let mut out = vec![DIRT; room];
                let got = program.list(memory, *base, &mut out);
                let (expected, written) = match &said {
                    Err(refusal) => (*refusal, &[][..]),
                    Ok(pages) if room < need => (refused(12, pages.len() as u64), &[][..]),
                    Ok(_) => (need as u64, &records[..]),
                };
                assert_eq!(got, expected, "{}: list, {how}: {got:x} {expected:x}", place());
                let (list, rest) = out.split_at(written.len());
                if list != written {
                    let list = lists::records(list).into_iter();
                    let at = list.zip(lists::records(written)).find(|(got, said)| got != said);
                    panic!("{}: list, {how}: {at:x?}", place());
                }
                assert!(rest.iter().all(|&byte| byte == DIRT), "{}: list, {how}", place());
            }
        }
        match &said {
            Err(refusal) => self.seen.see(format!("refused {:02}", refusal >> 32 & 0xFF)),
            Ok(pages) => {
                self.seen.see("accepted");
                for (how, _) in rooms.iter().filter(|_| need > 0) {
                    self.seen.see(format!("room: {how}"));
                }
                see_image(&mut self.seen, image, pages);
            }
        }
        said
    }

    /// The same, where what comes of it is said.
    fn expect(&mut self, image: &Image, says: Result<&[Record], u64>, title: impl Display) {
        let got = self.audit(image, &title);
        assert!(got.as_deref() == says.as_ref().copied(), "{title}: {got:x?} {says:x?}");
    }

    fn demand(&self, least: u64, names: &[&str]) {
        self.seen.demand(least, &names.iter().map(|&name| name.into()).collect::<Vec<_>>());
    }
}

// ---------------------------------------------------------------------------
// Images of which it is said here what comes of them

#[test]
fn written_by_hand() {
    let _turn = turn();
    let mut bench = Bench::new();
    for row in written::accepted().iter().chain(&written::refused_ones()) {
        let says = row.says.as_deref().map_err(|refusal| *refusal);
        bench.expect(&row.image, says, row.name);
    }
}

/// Lengths and bases: refused 4; then 17 with the base where the first-level table has no
/// room.
#[test]
fn memories() {
    let _turn = turn();
    let mut bench = Bench::new();
    let mut go = |base: u32, length: usize, says: Result<(), u64>| {
        // A refusal comes whatever the bytes are.
        let bytes: &[u8] = if says.is_ok() { &[0] } else { &[0, 0xFF] };
        for &byte in bytes {
            let image = Image { base, memory: vec![byte; length] };
            bench.expect(&image, says.map(|()| &[][..]), format_args!("bytes of {byte:x}"));
        }
    };
    let bad = Err(refused(4, 0));
    for base in [0, 0x80, 0x1000, BASE, BASE + 0xF80, 0xFFFF_FF80] {
        for length in [0, 4, 60] {
            go(base, length, Err(refused(17, u64::from(base))));
        }
        for length in [64, 68, 128] {
            go(base, length, Ok(()));
        }
        for length in [1, 2, 3, 5, 59, 61, 62, 63, 65, 66, 67] {
            go(base, length, bad);
        }
        for off in [1, 2, 3, 4, 8, 16, 32, 64, 127] {
            for length in [0, 60, 64] {
                go(base + off, length, bad);
            }
        }
    }
    for length in [131_068, 131_072] {
        go(0, length, Ok(()));
        go(BASE, length, Ok(()));
    }
    for length in [131_073, 131_076, 131_080, 262_144] {
        go(0, length, bad);
        go(BASE, length, bad);
    }
    // The end at 2^32, and over it.
    go(0xFFFE_0000, 131_072, Ok(()));
    go(0xFFFE_0080, 131_072, bad);
    go(0xFFFE_0080, 131_072 - 128, Ok(()));
    go(0xFFFE_0080, 131_072 - 124, bad);
    go(0xFFFF_FF80, 132, bad);
    go(0xFFFF_FF80, 131_072, bad);
    bench.demand(20, &["accepted", "refused 04", "refused 17"]);
}

/// One coarse or fine table about the ends of a memory, for every first-level word.
fn about_the_ends(bench: &mut Bench, base: u32, bits: u32) {
    let (size, kind) = if bits == 1 { (0x400, "coarse") } else { (0x1000, "fine") };
    // The memory ends with the second table that begins in it.
    let lowest = base.next_multiple_of(size);
    let length = (lowest - base + 2 * size) as usize;
    let last = lowest + size;
    for (table, shorter, inside, how) in [
        (lowest.wrapping_sub(size), 0, false, "below the base"),
        (lowest, 0, true, "the first inside"),
        (last, 0, true, "at the end"),
        (last, 4, false, "a word past the end"),
        (last, size as usize - 4, false, "but for a word past the end"),
        (last, size as usize, false, "after the end"),
        (last.wrapping_add(size), 0, false, "after the end"),
        (last.wrapping_add(0x8000_0000), 0, false, "far from it"),
    ] {
        for (megabyte, ignored) in (0..16).flat_map(|n| [(n, 0), (n, 0x3FC)]) {
            let word = table | ignored | bits;
            let own = 4 * megabyte;
            let image = Image::written(base, length - shorter, &[(own as usize, 1, word)]);
            let at = u64::from(base + own);
            // Over the first level the word is large and alone, or a tiny page.
            let access = (ignored >> 4 & 3) as u8;
            let tiny = [page(megabyte << 20 | megabyte << 10, base, 3, access)];
            let says: Result<&[Record], u64> = match bits {
                _ if !inside => Err(refused(17, at)),
                1 if table == base => Err(refused(18, at)),
                3 if table == base => Ok(&tiny),
                _ => Ok(&[]),
            };
            bench.expect(&image, says, format_args!("{word:x} at {own:x}, {how}"));
            bench.seen.see(format!("{kind}, {how}"));
        }
    }
}

#[test]
fn tables_at_the_ends() {
    let _turn = turn();
    let mut bench = Bench::new();
    let low = [0, 0x80, 0x400, 0x1000, 0x1F80];
    let high = [BASE, BASE + 0x480, 0x7FFF_F000, 0xFFFF_DF80, 0xFFFF_E000];
    for base in low.into_iter().chain(high) {
        about_the_ends(&mut bench, base, 1);
        about_the_ends(&mut bench, base, 3);
    }
    let names = [
        "accepted",
        "refused 17",
        "refused 18",
        "a memory that ends with the space",
        "a table over the first level",
        "a table at the memory's end",
        "coarse, below the base",
        "coarse, a word past the end",
        "coarse, after the end",
        "fine, below the base",
        "fine, a word past the end",
        "fine, after the end",
    ];
    bench.demand(50, &names);
}

/// A group of words that are equal but for one, at every place of it.
#[test]
fn broken_groups() {
    let _turn = turn();
    let mut bench = Bench::new();
    // Coarse or fine table, and how often a large or small page's word stands in it.
    for (table, word, count) in [(1, 0x1234_0031, 16), (3, 0x1234_0031, 64), (3, 0x1234_0032, 4)] {
        let whole = Group { table, count, word, broken: 0, odd: word };
        let bits = if table == 3 { 10 } else { 12 };
        let start = 0x70_0000 + ((2 * count) << bits);
        let image = Image { base: BASE, memory: whole.memory() };
        bench.expect(&image, Ok(&[page(start, 0x1234_0000, word as u8 & 3, 3)]), "whole");

        // A fault, pages of all three types with ignored bits, and the same page but for
        // its access, its frame or an ignored bit.
        let others = [0, 0x1234_0030, 0x9876_FFF1, 0x9876_5FEE, 0x9876_57FF];
        let alike = [word ^ 0x10, word ^ 0x8000_0000, word ^ 4, word ^ 0x40];
        let odds = others.into_iter().chain(alike);
        for (odd, broken) in odds.flat_map(|odd| (0..count).map(move |n| (odd, n))) {
            let group = Group { table, count, word, broken, odd };
            // The head is named where it is a large word, or a fine table's small one;
            // else the word after it is.
            let head_is_page = match group.word(0) & 3 {
                1 => true,
                2 => table == 3,
                _ => false,
            };
            let named = group.offset(if head_is_page { 0 } else { 1 });
            let image = Image { base: BASE, memory: group.memory() };
            let title = format_args!("{odd:x} at {broken} of {count}");
            bench.expect(&image, Err(unequal(named)), title);
            let part = match broken {
                0 => "at the head",
                n if n == count - 1 => "at the end",
                _ => "in the middle",
            };
            let kind = ["fault", "large", "small", "tiny"][odd as usize & 3];
            bench.seen.see(format!("{count} of type {}, {kind} {part}", word & 3));
            bench.seen.see_if(!head_is_page, "the word after the head named");
        }
    }
    let mut names = vec!["the word after the head named".into()];
    for group in ["16 of type 1", "64 of type 1", "4 of type 2"] {
        for kind in ["fault", "large", "small", "tiny"] {
            let part = |part| format!("{group}, {kind} {part}");
            names.extend(["at the head", "in the middle", "at the end"].map(part));
        }
    }
    bench.seen.demand(1, &names);
}

/// A group whose words change once, at every place of it: so many of a page's word, then
/// another word, or the other way round.
#[test]
fn cut_groups() {
    let _turn = turn();
    let mut bench = Bench::new();
    for (table, word, count, at) in [
        (COARSE, 0x1234_0031, 16, 0x7C0),
        (FINE, 0x1234_0031, 64, 0x1F00),
        (FINE, 0x1234_0032, 4, 0x1FF0),
    ] {
        for cut in 1..count {
            // Two words of this type, so that the head is named; then words that are no
            // page, or one that needs no other.
            for other in [word ^ 0x10, word ^ 0x4000_0000, 0, 0x9876_5433] {
                let after = at + 4 * cut;
                let rest = count - cut;
                let page_first = [(28, 1, table), (at, cut, word), (after, rest, other)];
                let page_last = [(28, 1, table), (at, cut, other), (after, rest, word)];
                let named = if other & 3 == word & 3 { at } else { after };
                for (words, named) in [(page_first, at), (page_last, named)] {
                    let image = Image::written(BASE, 0x2000, &words);
                    let title = format_args!("{words:x?}");
                    bench.expect(&image, Err(unequal(named as u32)), title);
                }
            }
        }
    }
    bench.demand(600, &["refused 18"]);
}

/// Two first-level words, each with a table that is outside, broken or good: the first of
/// the two that is not good is named.
#[test]
fn order_of_refusals() {
    // In both broken tables there is a second broken group; 400 bytes of the last table
    // are outside, with a broken group among the others.
    const TABLES: [Words; 6] = [
        (0x40C, 1, 0x31),
        (0x600, 8, 0x31),
        (0x1024, 3, 0x32),
        (0x1C00, 1, 0x31),
        (0x2000, 1, 0x31),
        (0x800, 16, 0x31),
    ];
    let sorts = [
        ("outside", BASE + 0x4001, Some(17)),
        ("below", BASE - 0x400 + 1, Some(17)),
        ("partly outside", BASE + 0x2003, Some(17)),
        ("broken coarse", COARSE, Some(18)),
        ("broken fine", FINE, Some(18)),
        ("good", BASE + 0x801, None),
        ("section", 0x1230_0C02, None),
    ];
    let _turn = turn();
    let mut bench = Bench::new();
    for (one, two) in (0..16).flat_map(|two| (0..two).map(move |one| (one, two))) {
        for (first, then) in sorts.iter().flat_map(|first| sorts.map(|then| (first, then))) {
            let pair = [(one, *first), (two, then)];
            let words = pair.map(|(megabyte, (_, word, _))| (4 * megabyte, 1, word));
            let image = Image::written(BASE, 0x2C00, &[&TABLES[..], &words].concat());
            let says = pair.iter().find_map(|&(megabyte, (_, word, number))| {
                let broken = if word == COARSE { 0x40C } else { 0x1024 };
                number.map(|number| match number {
                    17 => outside(4 * megabyte as u32),
                    _ => unequal(broken),
                })
            });
            let title = format!("{} at {one}, {} at {two}", first.0, then.0);
            let got = bench.audit(&image, &title).err();
            assert_eq!(got, says, "{title}: {got:x?} {says:x?}");
            if let (Some(first), Some(then)) = (first.2, then.2) {
                bench.seen.see(format!("{first} before {then}"));
            }
        }
    }
    bench
        .demand(100, &["17 before 17", "17 before 18", "18 before 17", "18 before 18", "accepted"]);
}

/// As many pages as there can be: tiny ones in all megabytes, of one table or of sixteen.
#[test]
fn the_fullest_images() {
    let _turn = turn();
    let mut bench = Bench::new();
    let mut dice = Dice::new(seed(0xF011));
    for tables in [1, 2, 16] {
        let base = dice.word() & 0x7FFF_F000;
        let mut image = Image::written(base, 0x1000 * (1 + tables as usize), &[]);
        let words: Vec<u32> = (0..1_024 * tables).map(|_| dice.word() | 3).collect();
        for (n, &word) in (0..).zip(&words) {
            image.put(base + 0x1000 + 4 * n, word);
        }
        for megabyte in 0..16 {
            image.put(base + 4 * megabyte, (base + 0x1000 * (1 + megabyte % tables)) | 3);
        }
        let tiny = |n: u32| {
            let word = words[(n % (1_024 * tables)) as usize];
            page(n << 10, word & !0x3FF, 3, (word >> 4 & 3) as u8)
        };
        let pages: Vec<Record> = (0..16_384).map(tiny).collect();
        bench.expect(&image, Ok(&pages), format_args!("{tables} tables"));
        // A fault less, a page less.
        image.put(base + 0x1000, words[0] & !3);
        let left = bench.audit(&image, "a fault").expect("accepted").len();
        assert_eq!(left, 16_384 - 16 / tables as usize);
    }
    let rooms = ["none", "a byte short", "a record short", "exactly", "a byte longer", "longer"];
    bench.demand(6, &rooms.map(|how| format!("room: {how}")).each_ref().map(String::as_str));
}

// ---------------------------------------------------------------------------
// Images of the builder

/// A list of one sort or another, with at most as many records as there may be.
fn any_list(dice: &mut Dice) -> Vec<Record> {
    match dice.below(12) {
        0 => lists::full(dice),
        1 => lists::wide(dice),
        2..=4 => lists::mixed(dice),
        _ => {
            let most = dice.pick(&[0, 1, 4, 16, 60, 200]);
            lists::good(dice, most)
        }
    }
}

/// The image of a list is accepted, with other bytes after it or none, and its pages are
/// the list's records by rising address; built from them, it is the same image.
#[test]
fn built_images() {
    let _turn = turn();
    let mut bench = Bench::new();
    for round in 0..400 * long() {
        let mut dice = Dice::new(seed(0xF0B1_0000_0000 + u64::from(round)));
        let mut list = any_list(&mut dice);
        let records = lists::bytes(&list);
        let length = Image::built(&Second, &records, 0).memory.len();
        let more = 4 * dice.pick(&[0, 0, 1, 64, 1_024, 5_000]);
        let base = match dice.below(4) {
            0 => 0,
            1 => ((length + more) as u32).wrapping_neg() & !0xFFF,
            _ => dice.word() & 0xFFFC_F000,
        };
        let built = bench.programs().map(|program| Image::built(program, &records, base));
        assert!(built[0].memory == built[1].memory, "list {round}");
        let [mut image, _] = built;
        image.memory.resize(length + more, 0);
        dice.fill(&mut image.memory[length..]);
        list.sort_by_key(|record| record.virtual_start);
        bench.expect(&image, Ok(&list), format_args!("list {round}"));
        bench.seen.see_if(list.len() == MOST_RECORDS, "the longest list");
        bench.seen.see_if(more > 0, "bytes after the image");
        bench.seen.see_if(length == 64, "no second level");
        see_list(&mut bench.seen, &list);

        // Built again, of the records in their new order, here and elsewhere.
        for program in bench.programs() {
            let again = Image::built(program, &lists::bytes(&list), base);
            assert!(again.memory == image.memory[..length], "list {round}, {}", program.name());
        }
        let elsewhere =
            Image::built(&*bench.rival, &lists::bytes(&list), dice.word() & 0xFFFC_F000);
        bench.expect(&elsewhere, Ok(&list), format_args!("list {round}, elsewhere"));
    }
    let mut names = coverage::LISTS.map(String::from).to_vec();
    names.extend(coverage::pages().into_iter().filter(|sort| sort.ends_with(['2', '3'])));
    let others = ["accepted", "the longest list", "bytes after the image", "no second level"];
    names.extend(others.map(String::from));
    names.extend(["no page", "a memory that ends with the space"].map(String::from));
    bench.seen.demand(10, &names);
}

/// Every bit of a word of every sort, turned in the image of a list.
#[test]
fn one_bit_turned() {
    let _turn = turn();
    let mut bench = Bench::new();
    for round in 0..24 * long() {
        let mut dice = Dice::new(seed(0xF0B2_0000_0000 + u64::from(round)));
        let mut list = match round % 3 {
            0 => lists::mixed(&mut dice),
            1 => lists::good(&mut dice, 60),
            _ => lists::good(&mut dice, 20),
        };
        list.sort_by_key(|record| record.virtual_start);
        let base = 0x1000 + (dice.word() & 0x7FFC_F000);
        let image = Image::built(&Second, &lists::bytes(&list), base);
        let mut places = Place::all(&image);
        dice.shuffle(&mut places);
        let mut tried = BTreeSet::new();
        for place in places.into_iter().filter(|place| tried.insert(place.name())) {
            for bit in 0..32 {
                let mut turned = image.clone();
                turned.put(place.at, image.word(place.at) ^ 1 << bit);
                let title = format!("list {round}, bit {bit} of {place:x?}");
                let got = bench.audit(&turned, &title);
                let expected = place.turned(bit);
                assert!(expected.holds(&list, &got), "{title}: not {expected:x?}");
                bench.seen.see(format!("{}: {:?}", place.name(), place.bit(bit)));
            }
        }
    }
    bench.seen.demand(4, &turned::names());
}

// ---------------------------------------------------------------------------
// Images from the dice

/// Any bytes, and tables of pages that share words with others, mostly refused somewhere.
#[test]
fn from_the_dice() {
    let _turn = turn();
    let mut bench = Bench::new();
    for round in 0..2_000 * long() {
        let mut dice = Dice::new(seed(0xF0D1_0000_0000 + u64::from(round)));
        let mut image =
            if round % 2 == 0 { Image::drawn(&mut dice) } else { Image::grouped(&mut dice) };
        // Now and then at another base, or cut.
        match dice.below(20) {
            0 => image.base ^= 1 << dice.below(32),
            1 => image.base = image.base.wrapping_add(dice.pick(&[64, 128, 0x400, 0x1000])),
            2 => image.memory.truncate(dice.below(image.memory.len() as u32) as usize),
            3 => image.memory.truncate(4 * dice.below(image.memory.len() as u32 / 4) as usize),
            _ => {}
        }
        if let Err(refusal) = bench.audit(&image, format_args!("image {round}")) {
            let at = (refusal as u32).wrapping_sub(image.base) / 4;
            bench.seen.see_if(refusal >> 32 & 0xFF == 17 && at > 0, "17 past the first word");
            bench.seen.see_if(refusal >> 32 & 0xFF == 18 && at > 16, "18 past the first level");
        }
    }
    let mut names = coverage::pages();
    let others = [
        "accepted",
        "refused 04",
        "refused 17",
        "refused 18",
        "17 past the first word",
        "18 past the first level",
        "a shared table",
        "a table over the first level",
        "a coarse table within a fine one",
        "a table at the memory's end",
        "a coarse table's tiny word",
        "a base between two tables",
        "a memory that ends with the space",
        "no page",
    ];
    names.extend(others.map(String::from));
    bench.seen.demand(5, &names);
}

// ---------------------------------------------------------------------------
// What an accepted image says

/// The list of an accepted image is what the walk finds. Where every access is 2 or 3 and
/// there are not too many pages, the image built of them has the same list; else the
/// builder names the first page that it does not take.
#[test]
fn lists_are_what_the_walk_finds() {
    let _turn = turn();
    let mut bench = Bench::new();
    for round in 0..300 * long() {
        let mut dice = Dice::new(seed(0xF0AC_0000_0000 + u64::from(round)));
        let image = Image::accepted(&mut dice);
        let pages = bench.audit(&image, format_args!("image {round}")).expect("mended");
        Plain::of(&image).agrees(&pages, &mut dice, format_args!("image {round}"));
        let records = lists::bytes(&pages);
        let base = dice.word() & 0xFFFC_F000;
        let closed = pages.iter().take(MOST_RECORDS).position(|page| page.access < 2);
        let past = (pages.len() > MOST_RECORDS).then_some(MOST_RECORDS);
        if let Some(index) = closed.or(past) {
            for program in bench.programs() {
                let mut memory = vec![0; 131_072];
                let got = program.build(&records, base, &mut memory);
                assert_eq!(got, refused(10, index as u64), "image {round}, {}", program.name());
            }
            bench.seen.see(if closed.is_some() { "no access: not built" } else { "too many" });
        } else {
            let rebuilt = Image::built(&*bench.rival, &records, base);
            bench.expect(&rebuilt, Ok(&pages), format_args!("image {round}, rebuilt"));
            Plain::of(&rebuilt).agrees(&pages, &mut dice, format_args!("image {round}, rebuilt"));
            bench.seen.see("rebuilt");
            bench.seen.see_if(rebuilt.memory.len() < image.memory.len(), "rebuilt, and shorter");
            bench.seen.see_if(rebuilt.memory.len() > image.memory.len(), "rebuilt, and longer");
        }
    }
    let mut names = coverage::pages();
    let others = [
        "a shared table",
        "a table over the first level",
        "a coarse table within a fine one",
        "a table at the memory's end",
        "a coarse table's tiny word",
        "a base between two tables",
        "a memory that ends with the space",
        "no access: not built",
        "too many",
        "rebuilt",
        "rebuilt, and shorter",
        "rebuilt, and longer",
    ];
    names.extend(others.map(String::from));
    bench.seen.demand(5, &names);
}

/// Sessions over an accepted image, with slots that are filled, flushed and locked: every
/// call answers as the plain walk says.
#[test]
fn sessions_answer_as_the_walk() {
    let _turn = turn();
    let mut bench = Bench::new();
    for round in 0..300 * long() {
        let mut dice = Dice::new(seed(0xF05E_0000_0000 + u64::from(round)));
        let image = if dice.once_in(4) {
            let list = any_list(&mut dice);
            Image::built(&*bench.rival, &lists::bytes(&list), dice.word() & 0xFFFC_F000)
        } else {
            Image::accepted(&mut dice)
        };
        for program in bench.programs() {
            assert_eq!(program.check(&image.memory, image.base), 0, "image {round}");
        }
        let quotes = (worlds::good_quote(&mut dice), worlds::good_quote(&mut dice));
        let mut lending = Lending::plain(&image.memory, image.base);
        if dice.once_in(2) {
            lending = Lending { on: &[], external: &image.memory, ..lending };
            lending = Lending { on_base: 0, external_base: image.base, ..lending };
        }
        lending = Lending { on_price: quotes.0, external_price: quotes.1, ..lending };

        // Few pages, so that slots are met again, or many.
        let mut hot = vec![dice.word() & 0xFF_FFFF];
        let pages = definition(&image).expect("accepted");
        if !pages.is_empty() {
            hot.extend((0..dice.pick(&[2, 8, 60])).map(|_| dice.pick(&pages).virtual_start));
        }
        let mut session = Session::of(&image);
        let mut calls = vec![
            write(BASE_HIGH, (image.base >> 16) as u16),
            write(BASE_LOW, image.base as u16),
            write(CONTROL, dice.pick(&[7, 0x27])),
        ];
        let mut says = vec![(0, 0); 3];
        for _ in 0..200 {
            let call = session.any_call(&mut dice, &hot);
            calls.push(call);
            says.push(session.answer(&call));
        }
        let [ours, theirs] = bench.programs().map(|program| {
            let mut out = vec![0xC3; calls.len() * ANSWER + STATE];
            assert_eq!(program.run(&lending, &calls.concat(), &mut out), out.len() as u64);
            for (n, (call, says)) in calls.iter().zip(&says).enumerate() {
                let title = format!("image {round}, call {n}, {}", program.name());
                assert_eq!(answer(&out, n), *says, "{title}: {}", describe(call));
            }
            out
        });
        assert!(ours == theirs, "image {round}: the programs differ");

        // Words that a walk has read.
        let mut read = BTreeSet::new();
        for (n, (call, (number, _))) in calls.iter().zip(&says).enumerate() {
            bench.seen.see(format!("answer {number:03}"));
            let address = match call[..2] {
                [boundary::REQUEST, _] if [23, 100].contains(number) => word(call, 4),
                [boundary::WRITE, PREFETCH] if *number == 0 => word(call, 8) << 10,
                _ => continue,
            };
            let new = read.insert(session.plain.walk(address).last.physical);
            let hit = from(&ours, n) == 0;
            bench.seen.see_if(hit, "a slot served");
            bench.seen.see_if(hit && new, "a slot served in place of another word");
            bench.seen.see_if(hit && *number == 23, "a slot denied");
        }
        see_image(&mut bench.seen, &image, &pages);
    }
    let answers =
        [0, 1, 2, 7, 21, 23, 24, 100, 101, 102].map(|number| format!("answer {number:03}"));
    let mut names = answers.to_vec();
    let others = [
        "a slot served",
        "a slot served in place of another word",
        "a slot denied",
        "a shared table",
        "a table over the first level",
        "a coarse table within a fine one",
        "a coarse table's tiny word",
    ];
    names.extend(others.map(String::from));
    bench.seen.demand(5, &names);
}

/// Where a group differs, a slot that one of its words has filled answers for the others:
/// the cache shows, and the image is refused 18.
#[test]
fn the_cache_shows_in_refused_images() {
    let _turn = turn();
    let mut bench = Bench::new();
    // The first-level word; the word of a page, how often it stands in the table's first
    // group, and another in place of the last. What the page says of the last address,
    // and what the walk answers there.
    for (table, word, count, last, cached, walked) in [
        (COARSE, 0x1234_0031, 16, 0x5678_0031, 0x1234_F000, (100, 0x5678_F000)),
        (FINE, 0x1234_0031, 64, 0, 0x1234_FC00, (21, 0)),
        (FINE, 0x1234_0032, 4, 0x5678_0032, 0x1234_0C00, (100, 0x5678_0C00)),
        (FINE, 0x1234_0032, 4, 0x1234_0012, 0x1234_0C00, (23, 0)),
    ] {
        let at = (table & 0xFFFF_FC00) - BASE;
        let address = cached as u32 & 0xFFFF;
        let whole = Image::written(BASE, 0x2000, &[(0, 1, table), (at as usize, count, word)]);
        let mut image = whole.clone();
        image.put(BASE + at + 4 * (count as u32 - 1), last);
        bench.expect(&image, Err(unequal(at)), format_args!("{last:x} of {count}"));
        assert_eq!(Plain::of(&image).request(0, address), walked);
        let lending = Lending::plain(&image.memory, BASE);
        for program in bench.programs() {
            let (fresh, _) = rows::play(program, &lending, &[request(0, address)]);
            assert_eq!(fresh, [walked], "{}", program.name());
            let calls = [request(0, 0), request(0, address)];
            let (warm, _) = rows::play(program, &lending, &calls);
            assert_eq!(warm, [(100, 0x1234_0000), (100, cached)], "{}", program.name());
        }

        // With all words equal it is accepted, and a slot says what the walk says.
        let says = [page(0, 0x1234_0000, word as u8 & 3, 3)];
        bench.expect(&whole, Ok(&says), format_args!("{count} equal words"));
        assert_eq!(Plain::of(&whole).request(0, address), (100, cached));
    }
}
