//! A list of mappings as text, a line for each: kind, virtual and physical
//! address in hex, access, and behind `#` what it is for.

use crate::builder::MOST_RECORDS;
use crate::walk::Kind;

/// The most bytes of a text, and of a line without its end.
const TEXT: usize = 262_144;
const LINE: usize = 200;

/// What is wrong with a line, or with the text at that line.
#[derive(Clone, Copy, PartialEq, Eq, Debug)]
pub enum Wrong {
    UnknownKind,
    VirtualNotHex,
    VirtualTooLarge,
    VirtualUneven,
    PhysicalNotHex,
    PhysicalTooLarge,
    PhysicalUneven,
    UnknownAccess,
    WordMissing,
    WordTooMany,
    LineTooLong,
    TextTooLong,
    TooManyMappings,
}

/// A record of 12 bytes, and the line that it stands on, counted from 1.
pub type Listed = ([u8; 12], u32);

/// The records of a text, no more of them than the builder takes, or the first bad
/// line (0: the text as a whole) and what is wrong with it.
pub fn read(text: &[u8]) -> Result<Vec<Listed>, (u32, Wrong)> {
    if text.len() > TEXT {
        return Err((0, Wrong::TextTooLong));
    }
    let mut list = Vec::new();
    for (line, number) in text.split(|&byte| byte == b'\n').zip(1..) {
        let Some(record) = record(line).map_err(|wrong| (number, wrong))? else { continue };
        if list.len() == MOST_RECORDS {
            return Err((number, Wrong::TooManyMappings));
        }
        list.push((record, number));
    }
    Ok(list)
}

/// The record of a line, `None` where there is none.
fn record(line: &[u8]) -> Result<Option<[u8; 12]>, Wrong> {
    let line = line.strip_suffix(b"\r").unwrap_or(line);
    if line.len() > LINE {
        return Err(Wrong::LineTooLong);
    }
    let plain = line.split(|&byte| byte == b'#').next().unwrap_or_default();
    let mut words =
        plain.split(|&byte| byte == b' ' || byte == b'\t').filter(|word| !word.is_empty());
    let Some(kind) = words.next() else { return Ok(None) };
    let kind = match kind {
        b"section" => Kind::Section,
        b"large" => Kind::Large,
        b"small" => Kind::Small,
        b"tiny" => Kind::Tiny,
        _ => return Err(Wrong::UnknownKind),
    };
    let mut address = |end: u64, [not_hex, too_large, uneven]: [Wrong; 3]| {
        let word = words.next().ok_or(Wrong::WordMissing)?;
        match number(word) {
            None => Err(not_hex),
            Some(address) if address >= end => Err(too_large),
            Some(address) if address & u64::from(kind.within()) != 0 => Err(uneven),
            Some(address) => Ok(address as u32),
        }
    };
    let at =
        address(1 << 24, [Wrong::VirtualNotHex, Wrong::VirtualTooLarge, Wrong::VirtualUneven])?;
    let to =
        address(1 << 32, [Wrong::PhysicalNotHex, Wrong::PhysicalTooLarge, Wrong::PhysicalUneven])?;
    let access = match words.next() {
        None => return Err(Wrong::WordMissing),
        Some(b"r") => 2,
        Some(b"rw") => 3,
        Some(_) => return Err(Wrong::UnknownAccess),
    };
    if words.next().is_some() {
        return Err(Wrong::WordTooMany);
    }
    let mut record = [0; 12];
    record[..4].copy_from_slice(&at.to_le_bytes());
    record[4..8].copy_from_slice(&to.to_le_bytes());
    record[8] = kind as u8;
    record[9] = access;
    Ok(Some(record))
}

/// A number in hex, with or without 0x, cut off at 2^32: what is larger is too
/// large for every address.
fn number(word: &[u8]) -> Option<u64> {
    let digits = word.strip_prefix(b"0x").or_else(|| word.strip_prefix(b"0X")).unwrap_or(word);
    if digits.is_empty() {
        return None;
    }
    digits.iter().try_fold(0u64, |number, &digit| {
        let digit = (digit as char).to_digit(16)?;
        Some((number * 16 + u64::from(digit)).min(1 << 32))
    })
}
