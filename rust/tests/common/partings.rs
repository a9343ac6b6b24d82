//! What P14 says of two images, byte by byte, how one is changed, and what was seen of such
//! pairs.

use super::coverage::Coverage;
use super::{double, word};
use second::dice::Dice;
use second::parting::{self, Comparison, Source};
use std::cmp::Ordering;

/// Bytes that say it.
pub const BYTES: usize = 24;

/// What is said of two images.
#[derive(Clone, Copy, PartialEq, Eq, Debug)]
pub struct Said {
    pub refusal: u32,
    /// The image of the part, 1 the new or 2 the signed one, and where in it the part begins.
    pub source: u32,
    pub offset: usize,
    /// The words that differ over the common length.
    pub differing: usize,
}

/// A part of the new image, and so many words that differ.
pub const fn of_new(offset: usize, differing: usize) -> Said {
    Said { refusal: 0, source: 1, offset, differing }
}

/// The remainder of the signed image.
pub const fn of_signed(offset: usize) -> Said {
    Said { refusal: 0, source: 2, offset, differing: 0 }
}

/// Refused 4, where the new image has so many bytes.
pub const fn refused(length: usize) -> Said {
    Said { refusal: 4, source: 1, offset: length, differing: 0 }
}

/// What P14 says of two images. Every byte is looked at, and nothing of the programs is
/// used.
pub fn definition(new: &[u8], signed: &[u8]) -> Said {
    if !new.len().is_multiple_of(4) || !signed.len().is_multiple_of(4) {
        return refused(new.len());
    }
    let mut words: Vec<usize> = Vec::new();
    let mut at = 0;
    while at < new.len() && at < signed.len() {
        if new[at] != signed[at] && words.last() != Some(&(at / 4)) {
            words.push(at / 4);
        }
        at += 1;
    }
    match words.first() {
        Some(first) => of_new(4 * first, words.len()),
        None if new.len() < signed.len() => of_signed(new.len()),
        None if signed.len() < new.len() => of_new(signed.len(), 0),
        None => of_new(new.len(), 0),
    }
}

impl Said {
    /// As it crosses the boundary.
    pub fn read(bytes: &[u8]) -> Said {
        let [offset, differing] = [8, 16].map(|at| double(bytes, at) as usize);
        Said { refusal: word(bytes, 0), source: word(bytes, 4), offset, differing }
    }

    /// The second program's two calls; the part must be that very slice of its image.
    pub fn called(new: &[u8], signed: &[u8]) -> Said {
        let Comparison { source, refusal, differing } = parting::compare(new, signed);
        let part = parting::part(new, signed);
        let image = if source == Source::New { new } else { signed };
        let offset = image.len() - part.len();
        assert_eq!(part.as_ptr(), image[offset..].as_ptr(), "of {source:?} at {offset}");
        let refusal = refusal.map_or(0, |refusal| refusal as u32);
        Said { refusal, source: source as u32, offset, differing }
    }
}

/// Another word in its place: of another bit, of another byte, or of any.
pub fn change(dice: &mut Dice, image: &mut [u8], word: usize) {
    let turned = match dice.below(3) {
        0 => 1 << dice.below(32),
        1 => (1 + dice.below(255)) << dice.pick(&[0, 8, 16, 24]),
        _ => 1 + dice.below(u32::MAX),
    };
    for (byte, turned) in image[4 * word..][..4].iter_mut().zip(turned.to_le_bytes()) {
        *byte ^= turned;
    }
}

/// The image with these words changed.
pub fn changed(dice: &mut Dice, image: &[u8], words: impl IntoIterator<Item = usize>) -> Vec<u8> {
    let mut other = image.to_vec();
    for word in words {
        change(dice, &mut other, word);
    }
    other
}

/// So many of an image's words, somewhere: few, in runs, or about all.
pub fn some_words(dice: &mut Dice, words: usize) -> Vec<usize> {
    if words == 0 {
        return vec![];
    }
    let any = |dice: &mut Dice| dice.below(words as u32) as usize;
    let mut some: Vec<usize> = match dice.below(6) {
        0 => vec![],
        1 => (0..1 + dice.below(3)).map(|_| any(dice)).collect(),
        2 => (any(dice)..words).take(1 + dice.below(40) as usize).collect(),
        3 => (any(dice)..words).step_by(1 + dice.below(70) as usize).collect(),
        4 => (0..words).filter(|_| dice.once_in(2)).collect(),
        _ => (0..words).filter(|_| !dice.once_in(30)).collect(),
    };
    some.sort_unstable();
    some.dedup();
    some
}

/// The rooms that are lent, and how long they are.
pub const ROOMS: [(&str, usize); 5] = [
    ("none", 0),
    ("a byte short", BYTES - 1),
    ("exactly", BYTES),
    ("a byte longer", BYTES + 1),
    ("longer", BYTES + 40),
];

/// Counts by name what two images are of which this is said.
pub fn see(seen: &mut Coverage, new: &[u8], signed: &[u8], said: Said) {
    let common = new.len().min(signed.len()) / 4;
    if said.refusal != 0 {
        let whose = match (new.len() % 4, signed.len() % 4) {
            (_, 0) => "the new",
            (0, _) => "the signed",
            _ => "both",
        };
        let agree = new[..4 * common] == signed[..4 * common];
        let words = if agree { "agree" } else { "differ" };
        seen.see(format!("refused for {whose}, words {words}"));
        return;
    }
    let lengths = match new.len().cmp(&signed.len()) {
        Ordering::Equal => "as long",
        Ordering::Less => "new shorter",
        Ordering::Greater => "signed shorter",
    };
    let place = match (said.differing, said.offset / 4) {
        (0, _) => "agrees",
        (_, 0) if common > 1 => "first word",
        (_, first) if first + 1 == common => "last common word",
        _ => "middle word",
    };
    seen.see(format!("{lengths}, {place}"));
    if said.differing > 0 {
        let differs = |byte: &usize| new[said.offset + byte] != signed[said.offset + byte];
        let byte = (0..4).find(differs).expect("one of them differs");
        seen.see(format!("byte {byte} of the word"));
    }
    seen.see(match said.differing {
        0 => "no word differs",
        1 => "one word differs",
        all if all == common => "all words differ",
        _ => "some words differ",
    });
    seen.see_if(new.is_empty() && signed.is_empty(), "both empty");
    seen.see_if(new.is_empty() && !signed.is_empty(), "new empty");
    seen.see_if(!new.is_empty() && signed.is_empty(), "signed empty");
}

/// How many words differ, and images without words.
pub const COUNTS: [&str; 4] =
    ["no word differs", "one word differs", "some words differ", "all words differ"];
pub const EMPTY: [&str; 3] = ["both empty", "new empty", "signed empty"];
/// Where two images part.
pub const PLACES: [&str; 4] = ["agrees", "first word", "middle word", "last common word"];

/// These places, whichever image is the shorter.
pub fn whatever_length(places: &[&str]) -> Vec<String> {
    let lengths = ["as long", "new shorter", "signed shorter"];
    let each = |lengths| places.iter().map(move |place| format!("{lengths}, {place}"));
    lengths.into_iter().flat_map(each).collect()
}

/// A refusal for either length and for both, after words that agree and that do not.
pub fn refusals() -> Vec<String> {
    let each = |whose| ["agree", "differ"].map(|how| format!("refused for {whose}, words {how}"));
    ["the new", "the signed", "both"].into_iter().flat_map(each).collect()
}

/// Each byte of a word, as the first that differs.
pub fn bytes_of_a_word() -> Vec<String> {
    (0..4).map(|byte| format!("byte {byte} of the word")).collect()
}

pub fn names(names: &[&str]) -> Vec<String> {
    names.iter().map(|&name| name.into()).collect()
}

/// Every case of the paper.
pub fn all_cases() -> Vec<String> {
    let rooms = ROOMS.map(|(how, _)| format!("room: {how}")).to_vec();
    let places = whatever_length(&PLACES);
    [places, names(&COUNTS), names(&EMPTY), refusals(), bytes_of_a_word(), rooms].concat()
}
