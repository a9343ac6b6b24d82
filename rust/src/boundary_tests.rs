//! Rows worked out by hand from the boundary's description.

use super::*;

fn call(kind: u8, second: u8, address: u32, value: u32) -> [u8; 12] {
    let mut bytes = [kind, second, 0, 0, 0, 0, 0, 0, 0, 0, 0, 0];
    bytes[4..8].copy_from_slice(&address.to_le_bytes());
    bytes[8..].copy_from_slice(&value.to_le_bytes());
    bytes
}

const FLAT: Quote = (0, 1.0, f64::NAN);

/// Two empty memories.
const NOTHING: Lending = Lending {
    on: &[],
    on_base: 0,
    external: &[],
    external_base: 0,
    on_price: FLAT,
    external_price: FLAT,
};

fn run_fresh(calls: &[u8], out: &mut [u8]) -> u64 {
    run(&NOTHING, calls, out)
}

#[test]
fn a_fresh_state() {
    let mut out = [0xAA; STATE + 1];
    assert_eq!(run_fresh(&[], &mut out), STATE as u64);
    let mut expected = [0; STATE];
    expected[ROWS_AT..].fill(0xFF);
    assert_eq!(out[..STATE], expected);
    assert_eq!(out[STATE], 0xAA);
}

#[test]
fn answers_and_state_to_the_byte() {
    let calls = [
        call(WRITE, 0x1C, 0, 0x1234),
        call(WRITE, 0x24, 0, 31 << 10 | 5 << 4),
        call(WRITE, 0x2C, 0, 2),
        call(WRITE, 0x30, 0, 0x5677),
        call(WRITE, 0x34, 0, 0x89AB),
        call(WRITE, 0x38, 0, 0xCD00),
        call(WRITE, 0x28, 0, 1),
        call(WRITE, 0x28, 0, 2),
        call(WRITE, 0x08, 0, 3),
        call(REQUEST, 1, 0x12_3456, 0),
        call(READ, 0x10, 0, 0),
        call(SHIFT, 0, 0, 0),
        call(READ, 0xFE, 0, 0),
    ]
    .concat();
    let mut out = vec![0xAA; 13 * 16 + STATE];
    assert_eq!(run_fresh(&calls, &mut out), out.len() as u64);
    let numbers: Vec<(u64, u64)> = out[..13 * 16]
        .chunks(16)
        .map(|answer| {
            let (number, value) = answer.split_at(8);
            (
                u64::from_le_bytes(number.try_into().unwrap()),
                u64::from_le_bytes(value.try_into().unwrap()),
            )
        })
        .collect();
    let mut expected = vec![(0, 0); 13];
    expected[9] = (22, 0);
    expected[10] = (101, 0x3400);
    expected[11] = (3, 0);
    expected[12] = (5, 0);
    assert_eq!(numbers, expected);
    let state = &out[13 * 16..];
    let head = [
        0, 0, 3, 0, 0, 0, 0x34, 0x12, 31, 0, 5, 0, 2, 0, 0x77, 0x56, 0xAB, 0x89, 0, 0xCD, 2, 0,
        0x77, 0x56, 0xAB, 0x89, 0, 0xCD,
    ];
    assert_eq!(state[..28], head);
    for slot in 0..32 {
        let bytes = &state[28 + 8 * slot..][..8];
        assert_eq!(bytes, if slot == 5 { &head[12..20] } else { &[0; 8] });
    }
    assert_eq!(state[284..292], [2, 1, 0, 0, 0x56, 0x34, 0x12, 0]);
    assert_eq!(state[292..304], [1, 0, 0, 0, 0, 0, 0, 0, 0, 0, 0, 0]);
    assert_eq!(state[304..312], [0; 8]);
    assert_eq!(state[312..320], 0.125_f64.to_le_bytes());
    assert_eq!(state[320..], [0xFF; 8]);
}

#[test]
fn answers_say_where_the_word_came_from() {
    // First level at 20000080, the on-chip memory's start: word 0 is no page,
    // word 1 a section, word 2 a coarse table 10 hex into the external memory.
    let mut on = [0; 64];
    on[4..8].copy_from_slice(&0x5550_0C02_u32.to_le_bytes());
    on[8..12].copy_from_slice(&0x1000_0401_u32.to_le_bytes());
    let mut external = [0; 0x410];
    external[0x4C..0x50].copy_from_slice(&0x7777_0031_u32.to_le_bytes());
    let lending = Lending {
        on: &on,
        on_base: 0x2000_0080,
        external: &external,
        external_base: 0x1000_03F0,
        ..NOTHING
    };
    let rows: [([u8; 12], u32, u32, u64); 14] = [
        (call(WRITE, 0x1C, 0, 0x2000), 0, 0, 0),
        (call(WRITE, 0x20, 0, 0x0080), 0, 0, 0),
        (call(WRITE, 0x08, 0, 7), 0, 0, 0),
        (call(REQUEST, 0, 0, 0), 21, 0x1000_0000, 0),
        (call(REQUEST, 0, 0, 0), 2, 0, 0),
        (call(SHIFT, 0, 0x10_0000, 0), 102, 0x1000_0004, 0x5540_0000),
        (call(DROP, 0, 0, 0), 0, 0, 0),
        (call(REQUEST, 1, 0x1A_BCDE, 0), 100, 0x1000_0004, 0x555A_BCDE),
        (call(REQUEST, 1, 0x1A_BCDE, 0), 100, 0, 0x555A_BCDE),
        (call(REQUEST, 0, 0x20_F123, 0), 100, 0x2000_004C, 0x7777_F123),
        (call(WRITE, 0x00, 0, 0x0900), 24, 0x2000_0110, 0),
        (call(WRITE, 0x18, 0, 1), 0, 0, 0),
        (call(READ, 0x00, 0, 0), 101, 0, 0x0900),
        (call(REQUEST, 0, 0x100_0000, 0), 1, 0, 0),
    ];
    let calls: Vec<u8> = rows.iter().flat_map(|row| row.0).collect();
    let mut out = vec![0xAA; rows.len() * ANSWER + STATE];
    assert_eq!(run(&lending, &calls, &mut out), out.len() as u64);
    for ((call, number, from, value), answer) in rows.into_iter().zip(out.chunks(ANSWER)) {
        assert_eq!(answer[..4], number.to_le_bytes(), "{call:02x?}");
        assert_eq!(answer[4..8], from.to_le_bytes(), "{call:02x?}");
        assert_eq!(answer[8..], value.to_le_bytes(), "{call:02x?}");
    }
}

#[test]
fn lists_that_are_not_as_said() {
    let good = call(REQUEST, 1, 0, 0);
    let refused = |calls: &[u8]| {
        let mut out = vec![0xAA; calls.len() / 12 * 16 + STATE];
        let answer = run_fresh(calls, &mut out);
        assert_eq!(answer == 0, out.iter().all(|&byte| byte == 0xAA));
        answer == 0
    };
    assert!(!refused(&good));
    assert!(refused(&good[..11]));
    for (at, byte) in [(0, 0), (0, 6), (0, 255), (1, 2), (2, 1), (3, 1), (10, 1), (11, 1)] {
        let mut bad = good;
        bad[at] = byte;
        assert!(refused(&bad), "{at} {byte}");
        assert!(refused(&[good, bad].concat()), "{at} {byte}");
    }
    let mut out = [0xAA; 16 + STATE];
    assert_eq!(run_fresh(&good, &mut out[1..]), 0);
    let on = Lending { on_price: (2, 0.0, 0.0), ..NOTHING };
    assert_eq!(run(&on, &good, &mut out), 0);
    let external = Lending { external_price: (9, 0.0, 0.0), ..NOTHING };
    assert_eq!(run(&external, &good, &mut out), 0);
    assert_eq!(out, [0xAA; 16 + STATE]);
}

#[test]
fn states_are_handed_through() {
    // Any bytes are taken as they stand; out of range, every call answers 8.
    let mut state: [u8; STATE] = core::array::from_fn(|at| (at * 7 + 3) as u8);
    state[PENDING_AT..PENDING_AT + 4].copy_from_slice(&[8, 1, 0, 0]);
    let calls = [
        call(WRITE, 0xFF, 0, 0),
        call(READ, 0, 0, 0),
        call(REQUEST, 0, u32::MAX, 0),
        call(DROP, 0, 0, 0),
        call(SHIFT, 0, u32::MAX, 0),
    ]
    .concat();
    let mut out = vec![0xAA; 5 * 16 + STATE];
    let nan = f64::from_bits(0xFFF0_0000_0000_0001);
    let lending = Lending { on_base: 1, external_base: 2, ..NOTHING };
    let n = from(&lending, &state, (nan, -0.0), &calls, &mut out);
    assert_eq!(n, out.len() as u64);
    for answer in out[..80].chunks(16) {
        assert_eq!(answer, [8, 0, 0, 0, 0, 0, 0, 0, 0, 0, 0, 0, 0, 0, 0, 0]);
    }
    state[304..312].copy_from_slice(&0x7FF8_0000_0000_0000_u64.to_le_bytes());
    state[312..320].copy_from_slice(&(1_u64 << 63).to_le_bytes());
    assert_eq!(out[80..], state);
    for (at, byte) in [(284, 3), (284, 16), (285, 2), (286, 1), (286, 0x80), (287, 1), (287, 0xFF)]
    {
        let mut bad = state;
        bad[at] = byte;
        assert_eq!(from(&NOTHING, &bad, (0.0, 0.0), &[], &mut out), 0, "{at} {byte}");
    }
    assert_eq!(from(&NOTHING, &state[1..], (0.0, 0.0), &[], &mut out), 0);
}

#[test]
fn fetched_words() {
    let on = [1, 2, 3, 4, 5, 6, 7, 8];
    let external = [9, 10, 11, 12];
    let at = |external_base| Lending {
        on: &on,
        on_base: 0x100,
        external: &external,
        external_base,
        ..NOTHING
    };
    let go = |address| fetch(&at(0x108), address);
    assert_eq!(go(0x100), 0x1000_0000_0403_0201);
    assert_eq!(go(0x104), 0x1000_0004_0807_0605);
    assert_eq!(go(0x103), 0x1000_0003_0706_0504);
    assert_eq!(go(0x108), 0x2000_0000_0C0B_0A09);
    assert_eq!(go(0x105), 0);
    assert_eq!(go(0x10C), 0);
    assert_eq!(fetch(&at(0x104), 0x100), 0);
}

#[test]
fn builds_as_numbers() {
    assert_eq!(build(&[], 0, &mut [1; 64]), 64);
    assert_eq!(build(&[], 4, &mut [1; 64]), 1 << 63 | 4 << 32);
    assert_eq!(build(&[0], 0, &mut [1; 64]), 1 << 63 | 10 << 32);
    assert_eq!(build(&[], 0, &mut [1; 60]), 1 << 63 | 12 << 32);
}

#[test]
fn audits_as_numbers() {
    // A section for megabyte 1, without access.
    let mut memory = [0; 64];
    memory[4..8].copy_from_slice(&0x5550_0002_u32.to_le_bytes());
    assert_eq!(check(&memory, 0x80), 0);
    let mut out = [0xAA; 13];
    assert_eq!(list(&memory, 0x80, &mut out), 12);
    assert_eq!(out, [0, 0, 0x10, 0, 0, 0, 0x50, 0x55, 0, 0, 0, 0, 0xAA]);
    assert_eq!(list(&memory, 0x80, &mut out[..11]), 1 << 63 | 12 << 32 | 1);
    assert_eq!(check(&memory, 0x40), 1 << 63 | 4 << 32);
    assert_eq!(check(&memory[4..], 0xFFFF_FF80), 1 << 63 | 17 << 32 | 0xFFFF_FF80);
    memory[60] = 1;
    assert_eq!(check(&memory, 0x80), 1 << 63 | 17 << 32 | 0xBC);
    assert_eq!(list(&memory, 0x80, &mut out), 1 << 63 | 17 << 32 | 0xBC);
    // One large word in a coarse table at 400.
    let mut memory = [0; 0x400];
    memory[..4].copy_from_slice(&0x0000_0402_u32.to_le_bytes());
    memory[8..12].copy_from_slice(&0x0000_0401_u32.to_le_bytes());
    assert_eq!(check(&memory, 0x400), 1 << 63 | 18 << 32 | 0x408);
}

#[test]
fn partings_as_numbers() {
    // Refusal, source, offset and words that differ, of five words and other ones.
    let image: [u8; 20] = core::array::from_fn(|at| at as u8);
    let mut other = image;
    other[7] = 0x80;
    other[16] = 0x80;
    let rows: [(&[u8], &[u8], [u8; PARTING]); 8] = [
        (&other, &image, numbers(0, 1, 4, 2)),
        (&other, &image[..8], numbers(0, 1, 4, 1)),
        (&image[..16], &image, numbers(0, 2, 16, 0)),
        (&image, &image[..16], numbers(0, 1, 16, 0)),
        (&image, &image, numbers(0, 1, 20, 0)),
        (&[], &[], numbers(0, 1, 0, 0)),
        (&other[..19], &image, numbers(4, 1, 19, 0)),
        (&other, &image[..3], numbers(4, 1, 20, 0)),
    ];
    for (new, signed, said) in rows {
        for room in 0..60 {
            let mut out = vec![0xAA; room];
            let length = part(new, signed, &mut out);
            if room < 24 {
                assert_eq!(length, 0, "{room}");
                assert!(out.iter().all(|&byte| byte == 0xAA), "{room}");
            } else {
                assert_eq!(length, 24, "{room}");
                assert_eq!(out[..24], said, "{room}");
                assert!(out[24..].iter().all(|&byte| byte == 0xAA), "{room}");
            }
        }
    }
}

/// Numbers below 256 in 4, 4, 8 and 8 bytes.
fn numbers(refusal: u8, source: u8, offset: u8, differing: u8) -> [u8; PARTING] {
    let mut bytes = [0; PARTING];
    (bytes[0], bytes[4], bytes[8], bytes[16]) = (refusal, source, offset, differing);
    bytes
}

#[test]
fn partings_to_the_byte() {
    // The part begins at 12340 hex, and 205 hex words differ.
    let image = vec![0; 0x2_0000];
    let mut new = image.clone();
    for word in 0..0x205 {
        new[0x1_2340 + 12 * word + word % 4] = 1;
    }
    let mut out = [0xAA; PARTING];
    assert_eq!(part(&new, &image, &mut out), 24);
    let said = [0, 0, 0, 0, 1, 0, 0, 0, 0x40, 0x23, 1, 0, 0, 0, 0, 0, 5, 2, 0, 0, 0, 0, 0, 0];
    assert_eq!(out, said);
    // The signed one's remainder from there on.
    assert_eq!(part(&image[..0x1_2340], &new, &mut out), 24);
    let said = [0, 0, 0, 0, 2, 0, 0, 0, 0x40, 0x23, 1, 0, 0, 0, 0, 0, 0, 0, 0, 0, 0, 0, 0, 0];
    assert_eq!(out, said);
}

#[test]
fn recordings_as_numbers() {
    // A shift report, then a drop: two calls of block 0, and zlib's check.
    let calls = [call(SHIFT, 0, 0x8000_0001, 0), call(DROP, 0, 0, 0)].concat();
    let mut said = [0; 512];
    said[..8].copy_from_slice(&[2, 0, 0, 0, 5, 0, 0, 0]);
    said[8..17].copy_from_slice(&[1, 0, 0, 0x80, 0, 0, 0, 0, 4]);
    said[508..].copy_from_slice(&[0xC8, 0x45, 0x94, 0x89]);
    let mut out = [0xAA; 513];
    assert_eq!(record(&calls, &mut out[..511]), 1 << 63 | 12 << 32 | 512);
    assert_eq!(record(&calls[..23], &mut out), 1 << 63 | 16 << 32 | 1);
    assert_eq!(out, [0xAA; 513]);
    assert_eq!(record(&calls, &mut out), 512);
    assert_eq!(out[..512], said);
    assert_eq!(out[512], 0xAA);
    let mut out = [0xAA; 25];
    assert_eq!(recorded(&said, &mut out[..23]), 1 << 63 | 12 << 32 | 24);
    assert_eq!(recorded(&[said, said].concat(), &mut out), 1 << 63 | 16 << 32 | 1);
    assert_eq!(out, [0xAA; 25]);
    assert_eq!(recorded(&said, &mut out), 24);
    assert_eq!(out[..24], calls);
    assert_eq!(out[24], 0xAA);
    assert_eq!(crc(b"123456789"), 0xCBF4_3926);
}
