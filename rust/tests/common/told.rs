//! What nx tells of an image (P4): its pages, or the sentence that says why it is refused.

use super::images::Image;
use super::lists::{self, Record};
use second::answer::{Refusal, Refused};
use second::audit;

/// A page's kind and access in words.
pub const KINDS: [&str; 4] = ["section", "large", "small", "tiny"];
pub const ACCESS: [&str; 4] = ["-", "-1", "r", "rw"];

/// Its pages as the second program lists them, or the refusal of its check.
pub fn pages(image: &Image) -> Result<Vec<Record>, Refused> {
    let mut out = vec![0; 12 * 16_384];
    let listed = audit::list(&image.memory, image.base, &mut out);
    assert_eq!(audit::check(&image.memory, image.base), listed.map(|_| ()));
    Ok(lists::records(&out[..listed?]))
}

/// How the sentence of a refusal begins.
fn refused(Refused { refusal, at }: Refused) -> String {
    match refusal {
        Refusal::Memory => "refused 4: ".into(),
        _ => format!("refused {} at {at:08X}: ", refusal as u32),
    }
}

/// How the sentence goes on, found in the image word by word.
pub fn why(image: &Image) -> Option<String> {
    let (base, length, end) = (image.base, image.memory.len(), image.end());
    if base % 128 != 0 {
        return Some(format!("the base, {base:08X}, is no multiple of 128"));
    }
    if length > 131_072 {
        return Some("the image has more than 131072 bytes".into());
    }
    if length % 4 != 0 {
        return Some(format!("the image has {length} bytes, which is no multiple of 4"));
    }
    if end > 1 << 32 {
        return Some(format!("the image, {length} bytes at {base:08X}, ends past FFFFFFFF"));
    }
    if length < 64 {
        return Some(format!(
            "the first-level table, {base:08X} to {:08X}, is not inside the image, \
             which has {length} bytes",
            base + 63
        ));
    }
    (0..16).find_map(|megabyte| {
        let first = image.first(megabyte);
        let (kind, table, words) = match first & 3 {
            1 => ("coarse", first & !0x3FF, 256),
            3 => ("fine", first & !0xFFF, 1_024),
            _ => return None,
        };
        let last = table + (4 * words - 1);
        if table < base || u64::from(last) >= end {
            return Some(format!(
                "word {megabyte} of the first level, {first:08X}, names a {kind} table at \
                 {table:08X} to {last:08X}, which is not inside the image, {base:08X} to {:08X}",
                end - 1
            ));
        }
        (0..words).find_map(|index| {
            let own = image.word(table + 4 * index);
            let (page, group) = match own & 3 {
                1 => ("large", words / 16),
                2 => ("small", words / 256),
                _ => return None,
            };
            let head = table + 4 * (index - index % group);
            let other = (0..group).map(|n| head + 4 * n).find(|&at| image.word(at) != own)?;
            Some(format!(
                "word {index} of the {kind} table of megabyte {megabyte} at {table:08X}, \
                 for virtual {:06X}, says a {page} page (value {own:08X}), and its group of \
                 {group} words, {head:08X} to {:08X}, is not all equal: \
                 the word at {other:08X} is {:08X}",
                (megabyte << 20) + index * ((1 << 20) / words),
                head + (4 * group - 1),
                image.word(other)
            ))
        })
    })
}

/// Its pages or its refusal, and the line that `nx check` says of it under a name.
pub fn checked(image: &Image, name: &str) -> (Result<Vec<Record>, Refused>, String) {
    let (base, length) = (image.base, image.memory.len());
    let says = pages(image);
    let said = match (&says, why(image)) {
        (Ok(pages), None) => {
            format!("accepted, {} pages, {length} bytes at {base:08X}", pages.len())
        }
        (Err(refusal), Some(why)) => refused(*refusal) + &why,
        (says, why) => panic!("{length} bytes at {base:08X}: {says:x?}, {why:?}"),
    };
    (says, format!("{name}: {said}\n"))
}
