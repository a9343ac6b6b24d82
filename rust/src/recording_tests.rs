//! Checks that are published, and recordings written by hand with what P1 says of each. The
//! checks of their blocks are zlib's.

use super::*;

const DROPPED: Call = [DROP, 0, 0, 0, 0, 0, 0, 0, 0, 0, 0, 0];

/// One call of each kind, with every field that it uses.
const EACH: [Call; 5] = [
    [WRITE, 0x08, 0, 0, 0, 0, 0, 0, 0x07, 0, 0, 0],
    [READ, 0xFE, 0, 0, 0, 0, 0, 0, 0, 0, 0, 0],
    [REQUEST, 1, 0, 0, 0x78, 0x56, 0x34, 0x12, 0, 0, 0, 0],
    DROPPED,
    [SHIFT, 0, 0, 0, 0xFF, 0xFF, 0xFF, 0xFF, 0, 0, 0, 0],
];

/// A block: the bytes from its start on, zeros, the check.
fn block(start: &[u8], check: u32) -> Vec<u8> {
    let mut block = start.to_vec();
    block.resize(508, 0);
    block.extend(check.to_le_bytes());
    block
}

/// The same with the check that it ought to have.
fn checked(start: &[u8]) -> Vec<u8> {
    let block = block(start, 0);
    [&block[..508], &crc32(&block[..508]).to_le_bytes()].concat()
}

/// A block of that number with a count, then these calls.
fn counted(count: u16, number: u16, calls: &[Call]) -> Vec<u8> {
    let head = [count.to_le_bytes(), number.to_le_bytes()];
    checked(&[head.as_flattened(), calls.as_flattened()].concat())
}

/// The recording of these calls, in room that is longer than it.
fn recording(calls: &[Call]) -> Vec<u8> {
    let mut out = vec![0xAA; 1_600];
    let length = record(calls.as_flattened(), &mut out).expect("it is recorded");
    assert!(out[length..].iter().all(|&byte| byte == 0xAA));
    out.truncate(length);
    out
}

/// The calls of this recording, likewise.
fn calls(recording: &[u8]) -> Vec<u8> {
    let mut out = vec![0xAA; 1_600];
    let length = recorded(recording, &mut out).expect("it is accepted");
    assert!(out[length..].iter().all(|&byte| byte == 0xAA));
    out.truncate(length);
    out
}

/// The index that refusal 16 names, whatever the room; nothing is written.
fn bad(go: fn(&[u8], &mut [u8]) -> Result<usize, Refused>, bytes: &[u8]) -> u32 {
    let [first, second] = [0, 4_096].map(|room| {
        let mut out = vec![0xAA; room];
        let Refused { refusal, at } = go(bytes, &mut out).expect_err("it is refused");
        assert_eq!(refusal, Refusal::Recording);
        assert!(out.iter().all(|&byte| byte == 0xAA));
        at
    });
    assert_eq!(first, second);
    first
}

#[test]
fn published_checks() {
    let rows: [(&[u8], u32); 9] = [
        (b"123456789", 0xCBF4_3926),
        (b"", 0),
        (b"a", 0xE8B7_BE43),
        (b"The quick brown fox jumps over the lazy dog", 0x414F_A339),
        (&[0; 32], 0x190A_55AD),
        (&[0xFF; 32], 0xFF6C_AB0B),
        (&[0; 1], 0xD202_EF8D),
        (&[0; 4], 0x2144_DF1C),
        (&[0xFF; 4], 0xFFFF_FFFF),
    ];
    for (bytes, check) in rows {
        assert_eq!(crc32(bytes), check, "{bytes:x?}");
    }
}

#[test]
fn a_whole_recording() {
    assert_eq!(recording(&[]), []);
    assert_eq!(calls(&[]), []);
    let one = block(&[1, 0, 0, 0, 4], 0xF8F4_FD81);
    assert_eq!(one[508..], [0x81, 0xFD, 0xF4, 0xF8]);
    assert_eq!(recording(&[DROPPED]), one);
    assert_eq!(calls(&one), DROPPED);
    let each = block(&[&[5, 0, 0, 0], EACH.as_flattened()].concat(), 0xC5EC_44E5);
    assert_eq!(recording(&EACH), each);
    assert_eq!(calls(&each), EACH.as_flattened());
}

#[test]
fn full_blocks() {
    let full = block(&[&[42, 0, 0, 0], [DROPPED; 42].as_flattened()].concat(), 0xD347_FB9E);
    let next = block(&[1, 0, 1, 0, 4], 0xCA4F_9B3E);
    // The last block is full.
    assert_eq!(recording(&[DROPPED; 42]), full);
    assert_eq!(calls(&full), [DROPPED; 42].as_flattened());
    // Another block for one call more.
    let two = [full, next].concat();
    assert_eq!(recording(&[DROPPED; 43]), two);
    assert_eq!(calls(&two), [DROPPED; 43].as_flattened());
}

#[test]
fn calls_not_as_said() {
    for call in EACH {
        assert!(as_said(&call), "{call:x?}");
        for at in 0..CALL {
            // Kinds that there are not, and bytes that this kind does not use.
            let bytes: &[u8] = match (call[0], at) {
                (_, 0) => &[0, 6, 255],
                (WRITE | READ, 1) | (REQUEST | SHIFT, 4..8) | (WRITE, 8..10) => continue,
                (REQUEST, 1) => &[2, 3, 0x80, 255],
                _ => &[1, 0x80, 255],
            };
            for &byte in bytes {
                let mut other = call;
                other[at] = byte;
                assert!(!as_said(&other), "{other:x?}");
                assert_eq!(bad(record, &other), 0);
                assert_eq!(bad(record, &[call, other, other].concat()), 1);
                assert_eq!(bad(recorded, &counted(1, 0, &[other])), 0);
                assert_eq!(bad(recorded, &counted(2, 0, &[call, other])), 0);
            }
        }
    }
    // A call of fewer bytes.
    for length in (0..EACH.as_flattened().len()).filter(|length| length % 12 != 0) {
        assert_eq!(bad(record, &EACH.as_flattened()[..length]), length as u32 / 12);
    }
}

#[test]
fn blocks_not_as_said() {
    let full = counted(42, 0, &[DROPPED; 42]);
    let next = counted(1, 1, &[DROPPED]);
    assert_eq!(calls(&[&full[..], &next].concat()).len(), 43 * 12);
    // Short, after none and after one.
    for length in 1..512 {
        assert_eq!(bad(recorded, &full[..length]), 0, "{length}");
        assert_eq!(bad(recorded, &[&full, &next[..length]].concat()), 1, "{length}");
    }
    // After one that is not full.
    let one = counted(1, 0, &[DROPPED]);
    assert_eq!(bad(recorded, &[&one[..], &next].concat()), 1);
    // A wrong number, and numbers from 1.
    assert_eq!(bad(recorded, &next), 0);
    assert_eq!(bad(recorded, &[&full[..], &full].concat()), 1);
    assert_eq!(bad(recorded, &[&full[..], &counted(1, 256, &[DROPPED])].concat()), 1);
    // Counts: of none, of too many, of fewer and more than there are.
    for count in [0, 2, 41, 43, 257, 0xFFFF] {
        assert_eq!(bad(recorded, &counted(count, 0, &[DROPPED])), 0, "{count}");
    }
    for count in [0, 1, 41, 43, 298, 0xFFFF] {
        assert_eq!(bad(recorded, &counted(count, 0, &[DROPPED; 42])), 0, "{count}");
    }
    assert_eq!(bad(recorded, &counted(0, 0, &[])), 0);
    // A wrong check, and junk after the calls.
    for at in 0..512 {
        let mut other = one.clone();
        other[at] ^= 0x10;
        assert_eq!(bad(recorded, &other), 0, "{at}");
        if at < 508 {
            assert_eq!(bad(recorded, &checked(&other[..508])), 0, "{at}");
        }
    }
}

#[test]
fn rooms() {
    let recording = recording(&[DROPPED; 43]);
    let refused = |bytes| Err(Refused { refusal: Refusal::Room, at: bytes });
    let mut out = [0xAA; 1_024];
    for room in 0..1_024 {
        assert_eq!(record(&DROPPED.repeat(43), &mut out[..room]), refused(1_024), "{room}");
    }
    for room in 0..516 {
        assert_eq!(recorded(&recording, &mut out[..room]), refused(516), "{room}");
    }
    assert_eq!(out, [0xAA; 1_024]);
    assert_eq!(recorded(&recording, &mut out[..516]), Ok(516));
    assert_eq!(out[..516], DROPPED.repeat(43));
    assert_eq!(out[516..], [0xAA; 508]);
    assert_eq!(record(&DROPPED.repeat(43), &mut out), Ok(1_024));
    assert_eq!(out, *recording);
    // None is needed for no calls.
    assert_eq!(record(&[], &mut []), Ok(0));
    assert_eq!(recorded(&[], &mut []), Ok(0));
}
