//! Where two images part (P14): the second program and the proved implementation against
//! each other, against the definition, and against what is said here by hand.
//!
//! NX_LONG, NX_SEED and NX_WITHOUT_NATIVE are as for `differential.rs`.

mod common;

use common::images::Image;
use common::lists::{self, Record};
use common::partings::*;
use common::{long, seed, turn, Bench};
use second::boundary::{Program, Second};
use second::dice::Dice;
use std::fmt::Display;

// ---------------------------------------------------------------------------
// Two images under both programs

impl Bench {
    /// Compares two images with both programs, in rooms of every sort, and what they answer
    /// and every byte in and after the room with the definition. Gives what it says.
    fn part(&mut self, new: &[u8], signed: &[u8], title: impl Display) -> Said {
        let said = definition(new, signed);
        for (how, room) in ROOMS {
            self.lent(new, signed, room, said, format_args!("{title}, {how}"));
            self.seen.see(format!("room: {how}"));
        }
        let got = Said::called(new, signed);
        assert_eq!(got, said, "{title}: {} and {} bytes", new.len(), signed.len());
        see(&mut self.seen, new, signed, said);
        said
    }

    /// The same, where what comes of it is said.
    fn expect(&mut self, new: &[u8], signed: &[u8], says: Said, title: impl Display) {
        let said = self.part(new, signed, &title);
        assert_eq!(said, says, "{title}: {} and {} bytes", new.len(), signed.len());
    }

    /// Both programs in a room of so many bytes, with others before and after it.
    fn lent(&self, new: &[u8], signed: &[u8], room: usize, said: Said, title: impl Display) {
        const DIRT: u8 = 0xC3;
        for program in self.programs() {
            let place =
                || format!("{title}, {}: {} and {}", program.name(), new.len(), signed.len());
            let mut out = [DIRT; BYTES + 100];
            let (before, rest) = out.split_at_mut(1 + room % 8);
            let got = program.part(new, signed, &mut rest[..room]);
            let written = if room < BYTES { 0 } else { BYTES };
            assert_eq!(got, written as u64, "{}", place());
            let (written, after) = rest.split_at(written);
            if !written.is_empty() {
                assert_eq!(Said::read(written), said, "{}", place());
            }
            let stay = before.iter().chain(after).all(|&byte| byte == DIRT);
            assert!(stay, "{}: {before:x?} {after:x?}", place());
        }
    }
}

// ---------------------------------------------------------------------------
// Images

/// So many bytes from the dice.
fn drawn(dice: &mut Dice, length: usize) -> Vec<u8> {
    let mut image = vec![0; length];
    dice.fill(&mut image);
    image
}

// ---------------------------------------------------------------------------
// Images of which it is said here what comes of them

/// Each sentence of P14, in words that can be read.
#[test]
fn written_by_hand() {
    let _turn = turn();
    let mut bench = Bench::new();
    let rows: [(&[u8], &[u8], Said); 29] = [
        // From the first word that differs.
        (b"aaaabbbbcccc", b"aaaaBbbbcccc", of_new(4, 1)),
        (b"aaaabbbbcccc", b"aaaabbbBcccC", of_new(4, 2)),
        (b"aaaabbbbcccc", b"AAAABBBBCCCC", of_new(0, 3)),
        (b"aaaabbbbcccc", b"aAaaBbbbcccc", of_new(0, 2)),
        (b"aaaabbbbcccc", b"aaaabbbbccCc", of_new(8, 1)),
        (b"aaaa", b"aaaA", of_new(0, 1)),
        // The same where one is the longer: words over the common length count.
        (b"aaaabbbbcccc", b"aaaaBbbb", of_new(4, 1)),
        (b"aaaabbbb", b"aaaaBbbbcccc", of_new(4, 1)),
        (b"aaaabbbbcccc", b"AaaaBbbb", of_new(0, 2)),
        (b"aaaabbbb", b"AaaaBbbbCccc", of_new(0, 2)),
        (b"aaaabbbbccccdddd", b"aaaaBbbbcccc", of_new(4, 1)),
        (b"aaaabbbbcccc", b"aaaaBbbbccccdddd", of_new(4, 1)),
        (b"aaaabbbbcccc", b"Aaaa", of_new(0, 1)),
        (b"aaaa", b"Aaaabbbbcccc", of_new(0, 1)),
        // The new one is the shorter and agrees; the signed one is.
        (b"aaaabbbb", b"aaaabbbbcccc", of_signed(8)),
        (b"aaaa", b"aaaabbbbcccc", of_signed(4)),
        (b"", b"aaaa", of_signed(0)),
        (b"aaaabbbbcccc", b"aaaabbbb", of_new(8, 0)),
        (b"aaaabbbbcccc", b"aaaa", of_new(4, 0)),
        (b"aaaa", b"", of_new(0, 0)),
        // Equal images.
        (b"aaaabbbbcccc", b"aaaabbbbcccc", of_new(12, 0)),
        (b"", b"", of_new(0, 0)),
        // Lengths that are no multiple of 4.
        (b"aaaabbb", b"aaaabbb", refused(7)),
        (b"aaaabbb", b"Aaaabbbb", refused(7)),
        (b"aaaabbbb", b"aaaab", refused(8)),
        (b"aaaabbbb", b"Aaaab", refused(8)),
        (b"aaaabbb", b"Aaaab", refused(7)),
        (b"", b"a", refused(0)),
        (b"aa", b"", refused(2)),
    ];
    for (n, (new, signed, says)) in rows.into_iter().enumerate() {
        bench.expect(new, signed, says, format_args!("row {n}"));
    }
    bench.seen.demand(1, &all_cases());
}

/// Equal images of every length: two copies, and one slice given twice.
#[test]
fn equal_images() {
    let _turn = turn();
    let mut bench = Bench::new();
    let mut dice = Dice::new(seed(0x14E0));
    for words in (0..=200).chain([1_023, 1_024, 1_025, 16_384, 32_768, 40_001]) {
        for image in [vec![0; 4 * words], vec![0xFF; 4 * words], drawn(&mut dice, 4 * words)] {
            let says = of_new(image.len(), 0);
            bench.expect(&image, &image.clone(), says, "two copies");
            bench.expect(&image, &image, says, "one slice");
        }
    }
    bench.seen.demand(1_000, &names(&["as long, agrees"]));
}

/// One word changed at every place of an image, of as many words as the other or of fewer or
/// more.
#[test]
fn one_word_changed() {
    let _turn = turn();
    let mut bench = Bench::new();
    let mut dice = Dice::new(seed(0x14E1));
    for words in 1..=200 {
        let image = drawn(&mut dice, 4 * words + 40);
        for at in 0..words {
            let other = changed(&mut dice, &image, [at]);
            let title = format_args!("word {at} of {words}");
            let (long, short) = (4 * words + 4 * dice.below(11) as usize, 4 * words);
            for (one, two) in [(short, short), (long, short), (short, long)] {
                bench.expect(&other[..one], &image[..two], of_new(4 * at, 1), title);
            }
        }
    }
    bench.seen.demand(100, &[whatever_length(&PLACES[1..]), bytes_of_a_word()].concat());
}

/// Every bit of every word turned, in zeros, in ones and in words from the dice.
#[test]
fn one_bit_turned() {
    let _turn = turn();
    let mut bench = Bench::new();
    let mut dice = Dice::new(seed(0x14E2));
    for words in [1, 2, 3, 4, 5, 8, 16, 17, 37] {
        for image in [vec![0; 4 * words], vec![0xFF; 4 * words], drawn(&mut dice, 4 * words)] {
            for bit in 0..32 * words {
                let mut other = image.clone();
                other[bit / 8] ^= 1 << (bit % 8);
                let says = of_new(bit / 32 * 4, 1);
                bench.expect(&other, &image, says, format_args!("bit {bit} of the new"));
                bench.expect(&image, &other, says, format_args!("bit {bit} of the signed"));
            }
        }
    }
    bench.seen.demand(1_000, &bytes_of_a_word());
}

/// Every two lengths up to 200 words: images that agree as far as both go, that differ in
/// the last word that both have, and that differ in all.
#[test]
fn every_two_lengths() {
    let _turn = turn();
    let mut bench = Bench::new();
    let mut dice = Dice::new(seed(0x14E3));
    let image = drawn(&mut dice, 800);
    let all = changed(&mut dice, &image, 0..200);
    for (one, two) in (0..=200).flat_map(|one| (0..=200).map(move |two| (one, two))) {
        let (new, signed) = (&image[..4 * one], &image[..4 * two]);
        let agrees = if one < two { of_signed(4 * one) } else { of_new(4 * two, 0) };
        bench.expect(new, signed, agrees, "agree");
        if let Some(last) = one.min(two).checked_sub(1) {
            let mut other = new.to_vec();
            change(&mut dice, &mut other, last);
            bench.expect(&other, signed, of_new(4 * last, 1), "the last word");
            bench.expect(&all[..4 * one], signed, of_new(0, last + 1), "all words");
        }
    }
    let places = whatever_length(&["agrees", "first word", "last common word"]);
    let others = names(&["new empty", "signed empty", "all words differ"]);
    bench.seen.demand(100, &[places, others].concat());
}

/// Every two lengths in bytes up to 80, of images that agree or differ somewhere: refused
/// where one of them is no multiple of 4.
#[test]
fn every_two_lengths_in_bytes() {
    let _turn = turn();
    let mut bench = Bench::new();
    let mut dice = Dice::new(seed(0x14E4));
    let image = drawn(&mut dice, 80);
    let others = [vec![], vec![0], vec![9], vec![19], (0..20).collect()];
    let others = others.map(|words| changed(&mut dice, &image, words));
    for (one, two) in (0..=80).flat_map(|one| (0..=80).map(move |two| (one, two))) {
        for other in &others {
            let said = bench.part(&other[..one], &image[..two], "cut");
            let even = one % 4 == 0 && two % 4 == 0;
            assert_eq!(said.refusal == 4, !even, "{one} and {two} bytes");
            assert!(even || said == refused(one), "{one} and {two} bytes: {said:?}");
        }
    }
    bench.seen.demand(100, &refusals());
}

/// Either image cut short at any byte, before or after the words that differ.
#[test]
fn cut_short() {
    let _turn = turn();
    let mut bench = Bench::new();
    let mut dice = Dice::new(seed(0x14E5));
    const BYTES: usize = 400;
    let image = drawn(&mut dice, BYTES);
    for at in [0, 1, 15, 16, 17, 50, 63, 64, 98, 99, 100] {
        let other = changed(&mut dice, &image, (at..100).take(1));
        for cut in 0..=BYTES {
            // The word that differs is there, or it is cut off.
            let there = 4 * at < cut && at < 100;
            let (new_cut, signed_cut) = match (cut % 4, there) {
                (0, true) => (of_new(4 * at, 1), of_new(4 * at, 1)),
                (0, false) if cut < BYTES => (of_signed(cut), of_new(cut, 0)),
                (0, false) => (of_new(BYTES, 0), of_new(BYTES, 0)),
                _ => (refused(cut), refused(BYTES)),
            };
            let title = format_args!("word {at}, cut at {cut}");
            bench.expect(&other[..cut], &image, new_cut, title);
            bench.expect(&other, &image[..cut], signed_cut, title);
            bench.seen.see_if(cut % 4 == 0 && !there && at < 100, "cut before it differs");
        }
    }
    let seen = [
        "cut before it differs",
        "new shorter, agrees",
        "new shorter, middle word",
        "signed shorter, agrees",
        "signed shorter, middle word",
        "refused for the new, words agree",
        "refused for the new, words differ",
        "refused for the signed, words agree",
        "refused for the signed, words differ",
    ];
    bench.seen.demand(100, &names(&seen));
}

/// About every power of two of words, up to 256 KiB: none, one at either end, every so
/// many, all from the middle on, and all.
#[test]
fn about_powers_of_two() {
    let _turn = turn();
    let mut bench = Bench::new();
    let mut dice = Dice::new(seed(0x14E6));
    for words in (1..=16).flat_map(|bits| [(1 << bits) - 1, 1 << bits, (1 << bits) + 1]) {
        let image = drawn(&mut dice, 4 * words);
        let mut go = |first: usize, step: usize| {
            let others: Vec<usize> = (first..words).step_by(step).collect();
            let new = changed(&mut dice, &image, others.iter().copied());
            let says = of_new(4 * first.min(words), others.len());
            bench.expect(&new, &image, says, format_args!("{first} and every {step} on"));
        };
        for first in [0, words / 2, words - 1, words] {
            go(first, words);
            go(first, 1);
        }
        go(0, 16);
        go(words.min(5), 3);
        // One of them a word shorter.
        let short = &image[..4 * words - 4];
        bench.expect(short, &image, of_signed(short.len()), "the new one shorter");
        bench.expect(&image, short, of_new(short.len(), 0), "the signed one shorter");
    }
    bench.seen.demand(30, &[names(&COUNTS), whatever_length(&["agrees"])].concat());
}

/// Images of 128 KiB and of more, up to 4 MiB where every word differs.
#[test]
fn large_images() {
    let _turn = turn();
    let mut bench = Bench::new();
    let mut dice = Dice::new(seed(0x14E7));
    for words in [32_767, 32_768, 32_769, 65_536, 262_143, 262_144, 262_145] {
        let image = drawn(&mut dice, 4 * words);
        bench.expect(&image, &image, of_new(4 * words, 0), "equal");
        let at = dice.below(words as u32) as usize;
        for at in [0, at, words - 1] {
            let new = changed(&mut dice, &image, [at]);
            bench.expect(&new, &image, of_new(4 * at, 1), "one word");
            let cut = &image[..4 * at];
            bench.expect(&new, cut, of_new(4 * at, 0), "cut before it");
            bench.expect(cut, &new, of_signed(4 * at), "cut before it");
            bench.expect(&new, &image[..4 * at + 4], of_new(4 * at, 1), "cut after it");
            bench.expect(&new, &image[..4 * words - 1], refused(4 * words), "a byte less");
            bench.expect(&new[..4 * words - 3], &image, refused(4 * words - 3), "three less");
        }
        let new = changed(&mut dice, &image, at..words);
        bench.expect(&new, &image, of_new(4 * at, words - at), "from one word on");
    }
    let (zeros, ones) = (vec![0; 1 << 22], vec![1; 1 << 22]);
    bench.expect(&ones, &zeros, of_new(0, 1 << 20), "all words");
    bench.seen.demand(1, &[names(&COUNTS), refusals()[..4].to_vec()].concat());
}

/// Images that begin at any byte, between bytes that play no part.
#[test]
fn any_start() {
    let _turn = turn();
    let mut bench = Bench::new();
    let mut dice = Dice::new(seed(0x14E8));
    for (one, two) in (0..17).flat_map(|one| (0..17).map(move |two| (one, two))) {
        let words: usize = dice.pick(&[1, 2, 7, 16, 33, 64, 130, 300]);
        let image = drawn(&mut dice, 4 * words);
        let at = dice.below(words as u32) as usize;
        let other = changed(&mut dice, &image, [at]);
        let placed = |image: &[u8], from: usize, around: u8| {
            [&vec![around; from][..], image, &[around; 40]].concat()
        };
        // Different bytes around the two, or the same.
        for around in [0x55, 0xAA] {
            let title = format_args!("at {one} and {two}, {around:x}");
            let [equal, new] = [&image, &other].map(|image| placed(image, one, around));
            let signed = placed(&image, two, 0x55);
            let [equal, new] = [&equal, &new].map(|image| &image[one..one + 4 * words]);
            let signed = &signed[two..two + 4 * words];
            bench.expect(equal, signed, of_new(4 * words, 0), title);
            bench.expect(new, signed, of_new(4 * at, 1), title);
            bench.expect(&equal[..4 * at], signed, of_signed(4 * at), title);
            bench.expect(equal, &signed[..4 * at], of_new(4 * at, 0), title);
        }
    }
    bench.seen.demand(20, &[whatever_length(&["agrees"]), bytes_of_a_word()].concat());
}

/// Both images in one buffer, one over the other.
#[test]
fn one_over_the_other() {
    let _turn = turn();
    let mut bench = Bench::new();
    let mut dice = Dice::new(seed(0x14E9));
    // Every byte the same: they agree wherever they are.
    let buffer = vec![7; 700];
    let rising: Vec<u8> = (0..175_u32).flat_map(u32::to_le_bytes).collect();
    for _ in 0..2_000 {
        let [(one, one_ends), (two, two_ends)] = [(); 2].map(|()| {
            let from = dice.below(100) as usize;
            (from, from + 4 * dice.below(151) as usize)
        });
        let (length, other) = (one_ends - one, two_ends - two);
        let agrees = if length < other { of_signed(length) } else { of_new(other, 0) };
        let title = format_args!("{one} to {one_ends} and {two} to {two_ends}");
        bench.expect(&buffer[one..one_ends], &buffer[two..two_ends], agrees, title);
        // Numbers that rise: from two places they differ in every word.
        let (one, two) = (one / 4 * 4, two / 4 * 4);
        let (new, signed) = (&rising[one..one + length], &rising[two..two + other]);
        let common = length.min(other) / 4;
        let says = if one == two || common == 0 { agrees } else { of_new(0, common) };
        bench.expect(new, signed, says, title);
    }
    let seen = ["new shorter, agrees", "signed shorter, agrees", "all words differ"];
    bench.seen.demand(100, &names(&seen));
}

/// Rooms of up to 100 bytes, for each sort of answer.
#[test]
fn rooms() {
    let _turn = turn();
    let bench = Bench::new();
    let mut dice = Dice::new(seed(0x14EA));
    let image = drawn(&mut dice, 2_000);
    let other = changed(&mut dice, &image, [300, 400]);
    let pairs: [(&[u8], &[u8], Said); 6] = [
        (&other, &image, of_new(1_200, 2)),
        (&image[..1_000], &image, of_signed(1_000)),
        (&image, &image[..1_000], of_new(1_000, 0)),
        (&image, &image, of_new(2_000, 0)),
        (&other[..1_999], &image, refused(1_999)),
        (&other, &image[..2], refused(2_000)),
    ];
    for (new, signed, says) in pairs {
        assert_eq!(definition(new, signed), says);
        for room in 0..=100 {
            bench.lent(new, signed, room, says, format_args!("room of {room}"));
        }
    }
}

// ---------------------------------------------------------------------------
// Images of the builder

/// Images of lists that differ in one mapping: they part at its first word, and its words
/// are those that differ.
#[test]
fn one_mapping_changed() {
    let _turn = turn();
    let mut bench = Bench::new();
    for round in 0..300 * long() {
        let mut dice = Dice::new(seed(0x14B1_0000_0000 + u64::from(round)));
        let mut list = match dice.below(6) {
            0 => lists::list_a(),
            1 | 2 => lists::mixed(&mut dice),
            3 => lists::wide(&mut dice),
            _ => {
                let most = dice.pick(&[1, 4, 16, 60, 200]);
                lists::good(&mut dice, most)
            }
        };
        let base = dice.word() & 0xFFFC_F000;
        let built = |program: &dyn Program, list: &[Record]| {
            Image::built(program, &lists::bytes(list), base)
        };
        let signed = built(&Second, &list);
        let same = built(&*bench.rival, &list);
        let length = signed.memory.len();
        bench.expect(&same.memory, &signed.memory, of_new(length, 0), "built twice");

        for _ in 0..4 {
            let index = dice.below(list.len() as u32) as usize;
            let before = list[index];
            // Another access, or another place.
            let access = dice.once_in(3);
            if access {
                list[index].access ^= 1;
            } else {
                let lowest = before.size().trailing_zeros();
                list[index].physical ^= 1 << (lowest + dice.below(32 - lowest));
            }
            let new = built(&*bench.rival, &list);
            let (offset, count) = signed.words_of(&before);
            let title = format_args!("list {round}, {before:x?}");
            bench.expect(&new.memory, &signed.memory, of_new(offset, count), title);
            bench.expect(&signed.memory, &new.memory, of_new(offset, count), title);
            let how = if access { "access" } else { "place" };
            bench.seen.see(format!("type {}, {count} words, {how}", before.kind));
            list[index] = before;
        }

        // A memory with other bytes after the image.
        let more = [&signed.memory[..], &[0; 64]].concat();
        bench.expect(&signed.memory, &more, of_signed(length), "more after the signed one");
        bench.expect(&more, &signed.memory, of_new(length, 0), "more after the new one");

        // A mapping less, and another base.
        list.remove(dice.below(list.len() as u32) as usize);
        let new = built(&*bench.rival, &list);
        let said = bench.part(&new.memory, &signed.memory, "a mapping less");
        assert!(said.source == 1 && said.differing > 0, "list {round}: {said:?}");
        bench.seen.see_if(new.memory.len() < length, "a mapping less, and shorter");
        bench.part(&signed.memory, &new.memory, "a mapping more");
    }
    let mut seen = names(&["a mapping less, and shorter"]);
    for (kind, count) in [(0, 1), (1, 16), (1, 64), (2, 1), (2, 4), (3, 1)] {
        seen.extend(["access", "place"].map(|how| format!("type {kind}, {count} words, {how}")));
    }
    bench.seen.demand(10, &seen);
}

// ---------------------------------------------------------------------------
// Images from the dice

/// Many words changed, either image cut, and both anywhere in their buffers.
#[test]
fn from_the_dice() {
    let _turn = turn();
    let mut bench = Bench::new();
    for round in 0..6_000 * long() {
        let mut dice = Dice::new(seed(0x14D1_0000_0000 + u64::from(round)));
        let most = dice.pick(&[1, 2, 5, 20, 70, 300, 1_100, 4_200]);
        let words = dice.below(most + 1) as usize;
        let from = dice.below(16) as usize;
        let buffer = drawn(&mut dice, from + 4 * words);
        let signed = &buffer[from..];
        let others = some_words(&mut dice, words);
        let new = changed(&mut dice, signed, others.iter().copied());
        let [one, two] = [(); 2].map(|()| match dice.below(8) {
            0 | 1 => 4 * dice.below(words as u32 + 1) as usize,
            2 => dice.below(4 * words as u32 + 1) as usize,
            _ => 4 * words,
        });
        let common = one.min(two) / 4;
        let within = others.iter().take_while(|&&word| word < common).count();
        let says = match others.first() {
            _ if one % 4 > 0 || two % 4 > 0 => refused(one),
            Some(first) if within > 0 => of_new(4 * first, within),
            _ if one < two => of_signed(one),
            _ => of_new(two, 0),
        };
        bench.expect(&new[..one], &signed[..two], says, format_args!("images {round}"));
    }
    bench.seen.demand(10, &all_cases());
}
