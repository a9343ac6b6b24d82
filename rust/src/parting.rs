//! "Where two images part" (P14): what remains from the first word that differs, which
//! image that is of, and how many words differ.

use crate::answer::Refusal;

/// A word as it lies in an image, and its bytes.
type Word = [u8; WORD];
const WORD: usize = 4;
/// Words that are counted together.
const BLOCK: usize = 64;

/// The image that a part comes from.
#[derive(Clone, Copy, PartialEq, Eq, Debug)]
#[repr(u32)]
pub enum Source {
    New = 1,
    Signed = 2,
}

/// What is said beside the part.
#[derive(Clone, Copy, PartialEq, Eq, Debug)]
pub struct Comparison {
    pub source: Source,
    pub refusal: Option<Refusal>,
    /// The words that differ over the common length.
    pub differing: usize,
}

/// What remains of the new image from the first word that differs; the remainder of the
/// signed one where the new one is the shorter and agrees. It is empty, at the new one's
/// end, where the two are equal, or a length is no multiple of 4.
pub fn part<'a>(new: &'a [u8], signed: &'a [u8]) -> &'a [u8] {
    match agreed(new, signed) {
        Ok(at) => remainder(new, signed, at).1,
        Err(_) => &new[new.len()..],
    }
}

/// The part's source, refusal 4 where a length is no multiple of 4, and how many words
/// differ; under the refusal none are counted.
pub fn compare(new: &[u8], signed: &[u8]) -> Comparison {
    parted(new, signed).1
}

/// Both in one pass: up to the first word that differs none has to be counted.
pub fn parted<'a>(new: &'a [u8], signed: &'a [u8]) -> (&'a [u8], Comparison) {
    match agreed(new, signed) {
        Ok(at) => {
            let (source, part) = remainder(new, signed, at);
            let differing = differing(&new[at..], &signed[at..]);
            (part, Comparison { source, refusal: None, differing })
        }
        Err(refusal) => {
            let refusal = Some(refusal);
            (&new[new.len()..], Comparison { source: Source::New, refusal, differing: 0 })
        }
    }
}

/// How many bytes of the two agree from the start, in whole words: large blocks first,
/// then smaller ones, then words.
fn agreed(new: &[u8], signed: &[u8]) -> Result<usize, Refusal> {
    if !new.len().is_multiple_of(WORD) || !signed.len().is_multiple_of(WORD) {
        return Err(Refusal::Memory);
    }
    let at = agreed_from::<1_024>(new, signed, 0);
    let at = agreed_from::<64>(new, signed, at);
    Ok(agreed_from::<WORD>(new, signed, at))
}

/// Where the equal blocks of so many bytes end that begin here.
#[inline]
fn agreed_from<const BYTES: usize>(new: &[u8], signed: &[u8], at: usize) -> usize {
    let (new, _) = new[at..].as_chunks::<BYTES>();
    let (signed, _) = signed[at..].as_chunks::<BYTES>();
    at + BYTES * new.iter().zip(signed).take_while(|(new, signed)| new == signed).count()
}

/// The part of two images that agree so far and no further, with its source.
fn remainder<'a>(new: &'a [u8], signed: &'a [u8], at: usize) -> (Source, &'a [u8]) {
    if at == new.len() && at < signed.len() {
        (Source::Signed, &signed[at..])
    } else {
        (Source::New, &new[at..])
    }
}

/// How many words differ over the common length.
fn differing(new: &[u8], signed: &[u8]) -> usize {
    let common = new.len().min(signed.len());
    let (new, _) = new[..common].as_chunks();
    let (signed, _) = signed[..common].as_chunks();
    let (new_blocks, new_rest) = new.as_chunks::<BLOCK>();
    let (signed_blocks, signed_rest) = signed.as_chunks::<BLOCK>();
    let blocks = new_blocks.iter().zip(signed_blocks);
    let counted: usize = blocks.map(|(new, signed)| unequal(new, signed)).sum();
    counted + unequal(new_rest, signed_rest)
}

/// The same of a block at most, in a sum as wide as the words themselves.
#[inline]
fn unequal(new: &[Word], signed: &[Word]) -> usize {
    let words = new.iter().zip(signed);
    words.map(|(new, signed)| u32::from(new != signed)).sum::<u32>() as usize
}

#[cfg(test)]
#[path = "parting_tests.rs"]
mod tests;
