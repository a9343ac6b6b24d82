//! Images of a few words written by hand, with what P14 says of each pair.

use super::*;

/// The bytes of these words, one byte four times over for each.
fn image(words: &[u8]) -> Vec<u8> {
    words.iter().flat_map(|&byte| [byte; WORD]).collect()
}

/// The same, with one byte another.
fn but(image: &[u8], at: usize) -> Vec<u8> {
    let mut other = image.to_vec();
    other[at] ^= 0x10;
    other
}

/// What is said of two images: source, offset of the part in it, words that differ; the
/// part is that very slice.
fn says(new: &[u8], signed: &[u8]) -> (Source, usize, usize) {
    let (offset, Comparison { source, refusal, differing }) = looked_at(new, signed);
    assert_eq!(refusal, None);
    (source, offset, differing)
}

/// The same with the refusal, where the part begins.
fn looked_at(new: &[u8], signed: &[u8]) -> (usize, Comparison) {
    let comparison = compare(new, signed);
    let part = part(new, signed);
    let (same_part, same_comparison) = parted(new, signed);
    assert_eq!((same_part.as_ptr(), same_part.len()), (part.as_ptr(), part.len()));
    assert_eq!(same_comparison, comparison);
    let image = if comparison.source == Source::New { new } else { signed };
    let offset = image.len() - part.len();
    assert_eq!(part.as_ptr(), image[offset..].as_ptr());
    (offset, comparison)
}

const NEW: Source = Source::New;
const SIGNED: Source = Source::Signed;

#[test]
fn from_the_first_word_that_differs() {
    let signed = image(&[1, 2, 3, 4, 5]);
    let new = image(&[1, 2, 9, 4, 8]);
    assert_eq!(says(&new, &signed), (NEW, 8, 2));
    assert_eq!(part(&new, &signed), [9, 9, 9, 9, 4, 4, 4, 4, 8, 8, 8, 8]);
    // The other way round it is the other one's.
    assert_eq!(says(&signed, &new), (NEW, 8, 2));
    assert_eq!(part(&signed, &new), [3, 3, 3, 3, 4, 4, 4, 4, 5, 5, 5, 5]);
    // No word agrees.
    assert_eq!(says(&image(&[6, 7, 8]), &image(&[1, 2, 3])), (NEW, 0, 3));
    assert_eq!(says(&[0; 4], &[1, 0, 0, 0]), (NEW, 0, 1));
    // Words are no bytes: moved by one, all but the last of these differ.
    let (new, signed) = ([1, 2, 3, 4, 5, 5, 5, 5, 5], [1, 1, 2, 3, 4, 5, 5, 5, 5]);
    assert_eq!(says(&new[..8], &signed[..8]), (NEW, 0, 2));
    assert_eq!(says(&new[1..], &signed[1..]), (NEW, 0, 1));
}

#[test]
fn every_byte_of_every_word() {
    let signed = image(&[1, 2, 3, 4, 5, 6, 7]);
    for at in 0..28 {
        assert_eq!(says(&but(&signed, at), &signed), (NEW, at / 4 * 4, 1), "byte {at}");
        assert_eq!(says(&signed, &but(&signed, at)), (NEW, at / 4 * 4, 1), "byte {at}");
    }
    // Two bytes of one word are one word, two of neighbours are two.
    for at in 0..27 {
        let differing = if at % 4 == 3 { 2 } else { 1 };
        let new = but(&but(&signed, at), at + 1);
        assert_eq!(says(&new, &signed), (NEW, at / 4 * 4, differing), "byte {at}");
    }
}

#[test]
fn the_new_one_is_the_shorter_and_agrees() {
    let signed = image(&[1, 2, 3, 4]);
    for words in 0..4 {
        assert_eq!(says(&signed[..4 * words], &signed), (SIGNED, 4 * words, 0), "{words} words");
    }
    assert_eq!(part(&signed[..12], &signed), [4; 4]);
    assert_eq!(part(&[], &signed), signed);
    // It counts for nothing what the rest of the signed one is.
    assert_eq!(says(&signed[..8], &image(&[1, 2, 9, 9, 9, 9])), (SIGNED, 8, 0));
}

#[test]
fn the_signed_one_is_the_shorter_and_agrees() {
    let new = image(&[1, 2, 3, 4]);
    for words in 0..4 {
        assert_eq!(says(&new, &new[..4 * words]), (NEW, 4 * words, 0), "{words} words");
    }
    assert_eq!(part(&new, &new[..12]), [4; 4]);
    assert_eq!(part(&new, &[]), new);
    assert_eq!(says(&image(&[1, 2, 9, 9, 9, 9]), &new[..8]), (NEW, 8, 0));
}

#[test]
fn lengths_and_words_differ() {
    // The last word that both have; the part is the new one's to its own end.
    let (short, long) = (image(&[1, 2, 3]), image(&[1, 2, 9, 4, 5]));
    assert_eq!(says(&short, &long), (NEW, 8, 1));
    assert_eq!(part(&short, &long), [3; 4]);
    assert_eq!(says(&long, &short), (NEW, 8, 1));
    assert_eq!(part(&long, &short), [9, 9, 9, 9, 4, 4, 4, 4, 5, 5, 5, 5]);
    // The first word, and all of them.
    let long = image(&[9, 2, 3, 4]);
    assert_eq!(says(&short, &long), (NEW, 0, 1));
    assert_eq!(says(&long, &short), (NEW, 0, 1));
    let long = image(&[9, 9, 9, 9]);
    assert_eq!(says(&short, &long), (NEW, 0, 3));
    assert_eq!(says(&long, &short), (NEW, 0, 3));
}

#[test]
fn equal_images() {
    for words in [0, 1, 2, 15, 16, 17, 255, 256, 257, 1_000] {
        let image = image(&vec![7; words]);
        assert_eq!(says(&image, &image.clone()), (NEW, 4 * words, 0), "{words} words");
        // The same slice twice: the part is at its end.
        assert_eq!(says(&image, &image), (NEW, 4 * words, 0), "{words} words");
        assert!(part(&image, &image).is_empty());
    }
}

#[test]
fn lengths_that_are_no_words() {
    let one = image(&[1, 2, 3]);
    let other = but(&one, 0);
    for (new, signed) in (0..=12).flat_map(|new| (0..=12).map(move |signed| (new, signed))) {
        let even = new % 4 == 0 && signed % 4 == 0;
        for signed in [&one[..signed], &other[..signed]] {
            let (offset, comparison) = looked_at(&one[..new], signed);
            if even {
                assert_eq!(comparison.refusal, None);
                continue;
            }
            let refusal = Some(Refusal::Memory);
            assert_eq!(comparison, Comparison { source: NEW, refusal, differing: 0 });
            assert_eq!(offset, new, "an empty part at the end");
        }
    }
}

#[test]
fn about_the_blocks() {
    // A word that differs before, at and after the ends of blocks, and none or many.
    for words in [15, 16, 17, 31, 32, 33, 63, 64, 65, 255, 256, 257, 272, 319, 320, 512, 600] {
        let signed = image(&(0..words).map(|n| n as u8).collect::<Vec<u8>>());
        for at in 0..words {
            let new = but(&signed, 4 * at + at % 4);
            assert_eq!(says(&new, &signed), (NEW, 4 * at, 1), "word {at} of {words}");
            // From there on every word is another; the signed one ends with it.
            let others: Vec<u8> = signed[4 * at..].iter().map(|byte| !byte).collect();
            let new = [&signed[..4 * at], &others].concat();
            assert_eq!(says(&new, &signed), (NEW, 4 * at, words - at), "{at} of {words}");
            let ends = &signed[..4 * at + 4];
            assert_eq!(says(&new, ends), (NEW, 4 * at, 1), "{at} of {words}");
            assert_eq!(says(&new, &signed[..4 * at]), (NEW, 4 * at, 0), "{at} of {words}");
            assert_eq!(says(&signed[..4 * at], &new), (SIGNED, 4 * at, 0), "{at} of {words}");
        }
    }
}

#[test]
fn any_start() {
    // The same words from every byte on; those before and after play no part.
    let words = image(&(0..100).collect::<Vec<u8>>());
    for (one, two) in (0..8).flat_map(|one| (0..8).map(move |two| (one, two))) {
        let placed =
            |from: usize, around: u8| [&vec![around; from][..], &words, &[around]].concat();
        let (new, signed) = (placed(one, 0xAA), placed(two, 0x55));
        let (new, signed) = (&new[one..one + 400], &signed[two..two + 400]);
        assert_eq!(says(new, signed), (NEW, 400, 0));
        assert_eq!(says(&new[..200], signed), (SIGNED, 200, 0));
        assert_eq!(says(&new[4..], signed), (NEW, 0, 99));
    }
}
