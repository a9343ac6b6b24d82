//! The bench sheet, and rows for each of the "Errors we have paid for", for
//! whichever program. Each row is from the paper's numbers, worked out by hand.

use super::lists::{self, Record};
use super::*;
use second::boundary::STATE;

pub const BASE: u32 = 0x2000_0000;

/// The base set, on and walking.
pub fn start() -> Vec<Call> {
    vec![write(BASE_HIGH, 0x2000), write(BASE_LOW, 0), write(CONTROL, 7)]
}

/// The image of a list, in a memory of that room with bytes that are not zero.
pub fn image(program: &dyn Program, list: &[Record], room: usize) -> Vec<u8> {
    let mut memory = vec![0xA5; room];
    let length = program.build(&lists::bytes(list), BASE, &mut memory);
    assert!(length <= room as u64, "{length:x}");
    assert!(memory[length as usize..].iter().all(|&byte| byte == 0xA5));
    memory.truncate(length as usize);
    memory
}

/// Runs the start and then these calls. What is written for them: answers and state.
fn run(program: &dyn Program, lending: &Lending, calls: &[Call]) -> Vec<u8> {
    let start = start();
    let all = [&start[..], calls].concat();
    let mut out = vec![0xA5; all.len() * 16 + STATE];
    let written = program.run(lending, &all.concat(), &mut out);
    assert_eq!(written, out.len() as u64);
    let rest = out.split_off(start.len() * 16);
    assert!(out.iter().all(|&byte| byte == 0));
    rest
}

/// The answers of these calls, and the state.
pub fn play(
    program: &dyn Program,
    lending: &Lending,
    calls: &[Call],
) -> (Vec<(u32, i64)>, Vec<u8>) {
    let mut out = run(program, lending, calls);
    let answers = (0..calls.len()).map(|index| answer(&out, index)).collect();
    (answers, out.split_off(calls.len() * 16))
}

/// Where the words of these calls came from.
fn froms(program: &dyn Program, lending: &Lending, calls: &[Call]) -> Vec<u32> {
    let out = run(program, lending, calls);
    (0..calls.len()).map(|index| from(&out, index)).collect()
}

/// Answers alone, on an on-chip memory.
fn answers(program: &dyn Program, memory: &[u8], calls: &[Call]) -> Vec<(u32, i64)> {
    play(program, &Lending::plain(memory, BASE), calls).0
}

fn state(program: &dyn Program, memory: &[u8], calls: &[Call]) -> Vec<u8> {
    play(program, &Lending::plain(memory, BASE), calls).1
}

const fn address(physical: i64) -> (u32, i64) {
    (100, physical)
}

/// Control, lock, CAM, RAM and load writes that put an entry in a slot.
pub fn load(slot: u16, cam: u32, ram: u32) -> Vec<Call> {
    vec![
        write(CONTROL, 3),
        write(LOCK, slot << 4),
        write(CAM_HIGH, (cam >> 16) as u16),
        write(CAM_LOW, cam as u16),
        write(RAM_HIGH, (ram >> 16) as u16),
        write(RAM_LOW, ram as u16),
        write(LOAD, 1),
        write(LOCK, 0),
        write(CONTROL, 7),
    ]
}

/// The lines marked (p).
pub fn bench_sheet(program: &dyn Program) {
    let list = lists::list_a();
    let memory = image(program, &list, 65_536);

    // Words 0, 3 and 5; coarse words 16 to 31; fine word 1.
    assert_eq!(memory.len(), 8_192);
    assert_eq!(word(&memory, 0), 0x2000_0401);
    assert_eq!(word(&memory, 12), 0x1120_0802);
    assert_eq!(word(&memory, 20), 0x2000_1003);
    for n in 16..32 {
        assert_eq!(word(&memory, 0x400 + 4 * n), 0x1002_0031);
    }
    assert_eq!(word(&memory, 0x1004), 0x1000_0C33);
    let set = (0..8_192).step_by(4).filter(|&at| word(&memory, at) != 0).count();
    assert_eq!(set, 20, "all else is zero");

    // 012345 answers 10022345 from the word at 20000448; slot 0 after it.
    assert_eq!(answers(program, &memory, &[request(0, 0x01_2345)]), [address(0x1002_2345)]);
    let after = state(program, &memory, &[request(0, 0x01_2345)]);
    assert_eq!(View(&after).slot(0), [0, 0x0405, 0x1002, 0x0300]);
    assert_eq!((1..32).map(|n| View(&after).slot(n)).max(), Some([0; 4]));
    assert_eq!((View(&after).fresh(), View(&after).retries(), View(&after).words()), (1, 0, 2));
    let mut other = memory.clone();
    put_word(&mut other, 0x448, 0x7777_0031);
    assert_eq!(answers(program, &other, &[request(0, 0x01_2345)]), [address(0x7777_2345)]);
    let fetched = program.fetch(&Lending::plain(&memory, BASE), 0x2000_0448);
    assert_eq!(fetched, 1 << 60 | 0x448 << 32 | 0x1002_0031);

    // Reads and writes.
    assert_eq!(answers(program, &memory, &[request(0, 0x3A_BCDE)]), [address(0x112A_BCDE)]);
    assert_eq!(answers(program, &memory, &[request(1, 0x3A_BCDE)]), [(23, 0)]);
    assert_eq!(answers(program, &memory, &[request(0, 0x50_07FF)]), [address(0x1000_0FFF)]);
    assert_eq!(answers(program, &memory, &[request(0, 0x50_0800)]), [(21, 0)]);
    assert_eq!(answers(program, &memory, &[request(0, 0xFF_FFFF)]), [(21, 0)]);
    assert_eq!(answers(program, &memory, &[request(0, 0x100_0000)]), [(1, 0)]);

    // Room.
    let records = lists::bytes(&list);
    assert_eq!(program.build(&records, BASE, &mut [0x5A; 8_192]), 8_192);
    let mut short = [0x5A; 8_188];
    assert_eq!(program.build(&records, BASE, &mut short), 1 << 63 | 12 << 32 | 3);
    assert_eq!(short, [0x5A; 8_188]);

    // Lock base 31, victim 0: the fill goes to slot 31.
    let after = state(program, &memory, &[write(LOCK, 31 << 10), request(0, 0x01_2345)]);
    assert_eq!(View(&after).slot(31), [0, 0x0405, 0x1002, 0x0300]);
    assert_eq!((0..31).map(|n| View(&after).slot(n)).max(), Some([0; 4]));
    assert_eq!((View(&after).lock_base(), View(&after).victim()), (31, 31));
}

/// "Empty list: every address 21", for every 1,024 bytes of 2^24.
pub fn empty_list(program: &dyn Program) {
    let memory = image(program, &[], 64);
    assert_eq!(memory, [0; 64]);
    let lending = Lending::plain(&memory, BASE);

    // All in one list, with a drop after each.
    let calls: Vec<Call> = (0..1 << 14)
        .flat_map(|page: u32| [request(page as u8 & 1, page << 10), drop_fault()])
        .collect();
    let (answers, after) = play(program, &lending, &calls);
    for (page, pair) in answers.chunks(2).enumerate() {
        assert_eq!(pair, [(21, 0), (0, 0)], "page {page:x}");
    }
    assert_eq!((View(&after).fresh(), View(&after).words()), (1 << 14, 1 << 14));
    assert_eq!((0..32).map(|n| View(&after).slot(n)).max(), Some([0; 4]));

    // Each from a fresh device with the base set, on and walking, at the
    // page's first byte, its last, and one within.
    let (_, begun) = play(program, &lending, &[]);
    let mut out = [0; 16 + STATE];
    for page in 0..1_u32 << 14 {
        for low in [0, 1_023, page * 37 % 1_024] {
            let calls = request(page as u8 >> 1 & 1, page << 10 | low);
            let written = program.from(&lending, &begun, (0.0, 0.0), &calls, &mut out);
            assert_eq!(written, out.len() as u64);
            assert_eq!(answer(&out, 0), (21, 0), "page {page:x}");
        }
    }
}

/// "Flushing by lock base in place of P."
pub fn flush_goes_by_p(program: &dyn Program) {
    let memory = image(program, &lists::list_a(), 65_536);
    // Slot 0 plain and below the lock base; slot 1 preserved and below it;
    // slot 8 preserved and above it; slot 9 plain and above it.
    let calls = [
        load(0, 0x0000_0405, 0x1111_0300),
        load(1, 0x0000_080D, 0x2222_0300),
        load(8, 0x0000_0C0D, 0x3333_0300),
        load(9, 0x0000_1005, 0x4444_0300),
        vec![write(LOCK, 4 << 10 | 4 << 4), write(GLOBAL_FLUSH, 1)],
    ]
    .concat();
    let after = state(program, &memory, &calls);
    let lows = [0, 1, 8, 9].map(|slot| View(&after).slot(slot)[1]);
    assert_eq!(lows, [0x0401, 0x080D, 0x0C0D, 0x1001]);
}

/// "Writing a large page's word once in place of sixteen times."
pub fn large_pages_have_sixteen_words(program: &dyn Program) {
    let memory = image(program, &lists::list_a(), 65_536);
    for n in 0..16 {
        let within = 0x01_0000 + n * 0x1000 + 0xABC;
        let got = answers(program, &memory, &[request(1, within)]);
        assert_eq!(got, [address(0x1002_0ABC + i64::from(n) * 0x1000)]);
    }
    for outside in [0x00_FFFF, 0x02_0000] {
        assert_eq!(answers(program, &memory, &[request(1, outside)]), [(21, 0)]);
    }
}

/// In a fine table a large page's word stands sixty-four times and a small one's four
/// times, and each of them leads to the page (P3); a coarse table's tiny word to none.
pub fn fine_tables_repeat_words(program: &dyn Program) {
    let page =
        |virtual_start, physical, kind, access| Record { virtual_start, physical, kind, access };
    let list = [
        page(0x01_0000, 0x1002_0000, 1, 3),
        page(0x02_0000, 0x1003_1000, 2, 2),
        page(0x00_0400, 0x1000_0C00, 3, 3),
    ];
    let memory = image(program, &list, 65_536);
    assert_eq!((memory.len(), word(&memory, 0)), (8_192, 0x2000_1003));
    for n in 0..1_024 {
        let expected = match n {
            1 => 0x1000_0C33,
            64..=127 => 0x1002_0031,
            128..=131 => 0x1003_1022,
            _ => 0,
        };
        assert_eq!(word(&memory, 0x1000 + 4 * n), expected, "word {n}");
    }
    let lending = Lending::plain(&memory, BASE);
    // Requests and shift reports; the same page's last byte is then a match.
    let pages = [
        (1, 0x01_0000, 64, 0x1002_0000, 0x01_FFFF, [0, 0x0405, 0x1002, 0x0300]),
        (0, 0x02_0000, 4, 0x1003_1000, 0x02_0FFF, [0, 0x0806, 0x1003, 0x1200]),
    ];
    for (access, start, count, to, last, slot) in pages {
        for n in 0..count {
            let within = n * 0x400 + 0x2AB;
            let calls = [request(access, start + within), request(access, last), shift(start)];
            let (got, after) = play(program, &lending, &calls);
            let (first, second) = (to + i64::from(within), to + i64::from(last - start));
            let expected = [address(first), address(second), (102, to - i64::from(start))];
            assert_eq!(got, expected, "word {n} from {start:06x}");
            assert_eq!(View(&after).slot(0), slot);
            assert_eq!((1..32).map(|n| View(&after).slot(n)).max(), Some([0; 4]));
            assert_eq!((View(&after).words(), View(&after).victim()), (2, 1));
        }
    }
    for outside in [0x00_0000, 0x00_0800, 0x00_FFFF, 0x02_1000] {
        assert_eq!(answers(program, &memory, &[request(0, outside)]), [(21, 0)]);
    }
    let mut coarse = image(program, &lists::list_a(), 65_536);
    put_word(&mut coarse, 0x448, 0x1002_0033);
    let calls = [request(0, 0x01_2345), drop_fault(), shift(0x01_2345), write(PREFETCH, 0x48)];
    assert_eq!(answers(program, &coarse, &calls), [(21, 0), (0, 0), (21, 0), (24, 0)]);
}

/// "Taking section access from bits 5:4."
pub fn section_access_is_in_11_10(program: &dyn Program) {
    let expected = [[23, 23], [23, 23], [100, 23], [100, 100]];
    for low in 0..4 {
        for (access, numbers) in expected.into_iter().enumerate() {
            let mut memory = vec![0; 64];
            put_word(&mut memory, 0, 0x5550_0002 | (access as u32) << 10 | low << 4);
            for write in 0..2 {
                let got = answers(program, &memory, &[request(write, 0x01_2345)]);
                let value = if numbers[write as usize] == 100 { 0x5551_2345 } else { 0 };
                assert_eq!(got, [(numbers[write as usize], value)]);
            }
        }
    }
}

/// "Metering an acknowledged request as fresh."
pub fn retries_are_not_fresh(program: &dyn Program) {
    let memory = image(program, &lists::list_a(), 65_536);
    let mut calls = vec![request(1, 0x3A_BCDE), write(ACKNOWLEDGE, 1)];
    calls.extend(load(0, 0x0000_C004, 0x1120_0300));
    calls.push(write(ACKNOWLEDGE, 1));
    let (got, after) = play(program, &Lending::plain(&memory, BASE), &calls);
    assert_eq!(got[..2], [(23, 0), (23, 0)]);
    assert_eq!(got[got.len() - 1], address(0x112A_BCDE));
    assert_eq!((View(&after).fresh(), View(&after).retries(), View(&after).words()), (1, 2, 1));
    assert_eq!(View(&after).pending(), (0, 0, 0));
}

/// "Caching a translation fault."
pub fn faults_are_not_cached(program: &dyn Program) {
    let memory = image(program, &lists::list_a(), 65_536);
    let calls = [request(0, 0x50_0800), drop_fault(), request(0, 0x50_0800), drop_fault()];
    let (got, after) = play(program, &Lending::plain(&memory, BASE), &calls);
    assert_eq!(got, [(21, 0), (0, 0), (21, 0), (0, 0)]);
    assert_eq!((0..32).map(|n| View(&after).slot(n)).max(), Some([0; 4]));
    assert_eq!((View(&after).victim(), View(&after).words()), (0, 4));
    // The table changes between two calls: the next walk sees it.
    let mut changed = memory.clone();
    put_word(&mut changed, 0x1008, 0x1234_5433);
    let mut out = [0; 16 + STATE];
    let lending = Lending::plain(&changed, BASE);
    program.from(&lending, &after, (0.0, 0.0), &request(0, 0x50_0ABC), &mut out);
    assert_eq!(answer(&out, 0), address(0x1234_56BC));
}

/// "Filling below the lock base after the host moved the victim there."
pub fn fills_stay_above_the_lock_base(program: &dyn Program) {
    let memory = image(program, &lists::list_a(), 65_536);
    let lending = Lending::plain(&memory, BASE);
    for lock_base in 0..32_u16 {
        for victim in 0..32_u16 {
            let calls = [write(LOCK, lock_base << 10 | victim << 4), request(0, 0x01_0000)];
            let (_, after) = play(program, &lending, &calls);
            let filled = lock_base.max(victim);
            for slot in 0..32 {
                let expected = if slot == filled { [0, 0x0405, 0x1002, 0x0300] } else { [0; 4] };
                assert_eq!(View(&after).slot(slot.into()), expected);
            }
            let next = if filled == 31 { lock_base } else { filled + 1 };
            assert_eq!((View(&after).lock_base(), View(&after).victim()), (lock_base, next));
        }
    }
}

/// "Page FFFC00 to 0 is −16,776,192", and the greatest distance above zero.
pub fn distances(program: &dyn Program) {
    let list = [
        Record { virtual_start: 0xFF_FC00, physical: 0, kind: 3, access: 2 },
        Record { virtual_start: 0, physical: 0xFFF0_0000, kind: 0, access: 3 },
    ];
    let memory = image(program, &list, 65_536);
    let calls = [shift(0xFF_FC00), shift(0xFF_FFFF), shift(0), shift(0x10_0000), shift(0x100_0000)];
    let (got, after) = play(program, &Lending::plain(&memory, BASE), &calls);
    let far = (102, -16_776_192);
    assert_eq!(got, [far, far, (102, 0xFFF0_0000), (21, 0), (1, 0)]);
    let (_, begun) = play(program, &Lending::plain(&memory, BASE), &[]);
    assert_eq!(after, begun, "a shift report changes nothing");
}

/// "Say where the word came from" (P6): list A on-chip at 20000000, then as the
/// external memory, then at the end of the longest on-chip memory.
pub fn words_come_from(program: &dyn Program) {
    let memory = image(program, &lists::list_a(), 65_536);
    let plain = Lending::plain(&memory, BASE);
    let external = Lending { external: &memory, external_base: BASE, ..Lending::plain(&[], 0) };
    let longest = [vec![0xA5; 122_880], memory.clone()].concat();
    let at_the_end = Lending::plain(&longest, BASE - 122_880);
    // By lending: large page, section, tiny page, fault at the second level and
    // at the first.
    let rows = [
        (plain, [0x1000_0448, 0x1000_000C, 0x1000_1004, 0x1000_1008, 0x1000_003C]),
        (external, [0x2000_0448, 0x2000_000C, 0x2000_1004, 0x2000_1008, 0x2000_003C]),
        (at_the_end, [0x1001_E448, 0x1001_E00C, 0x1001_F004, 0x1001_F008, 0x1001_E03C]),
    ];
    let addresses = [0x01_2345, 0x3A_BCDE, 0x50_07FF, 0x50_0800, 0xFF_FFFF];
    for (lending, expected) in rows {
        let from = |calls: &[Call]| froms(program, &lending, calls);
        for (address, place) in addresses.into_iter().zip(expected) {
            assert_eq!(from(&[request(0, address)]), [place], "{address:06x}");
            assert_eq!(from(&[request(1, address)]), [place], "{address:06x}");
            assert_eq!(from(&[shift(address)]), [place], "{address:06x}");
            // The second prefetch is a match, or refused 2.
            let prefetch = write(PREFETCH, (address >> 10) as u16);
            assert_eq!(from(&[prefetch, prefetch]), [place, 0], "{address:06x}");
        }
        let [large, section, .., fault] = expected;
        // Refused; a second request of the page, and a write to the section: matches.
        assert_eq!(from(&[request(0, 0x100_0000)]), [0]);
        assert_eq!(from(&[request(0, 0x01_2345), request(1, 0x01_F000)]), [large, 0]);
        let denied = [request(0, 0x3A_BCDE), request(1, 0x30_0000), write(ACKNOWLEDGE, 1)];
        assert_eq!(from(&denied), [section, 0, 0]);
        // A retry that walks again; then a request refused 2, a read and a drop.
        let retried = [request(0, 0xFF_FFFF), write(ACKNOWLEDGE, 1)];
        let after = [request(0, 0x01_2345), read(CONTROL), drop_fault()];
        assert_eq!(from(&[&retried[..], &after].concat()), [fault, fault, 0, 0, 0]);
        // Without walking, and off.
        assert_eq!(from(&[write(CONTROL, 3), request(0, 0x01_2345)]), [0, 0]);
        assert_eq!(from(&[write(CONTROL, 5), request(0, 0x01_2345)]), [0, 0]);
    }
}

/// A row of the sheet: its name, and the test.
pub type Row = (&'static str, fn(&dyn Program));

/// Every row.
pub const ROWS: [Row; 11] = [
    ("bench sheet", bench_sheet),
    ("empty list", empty_list),
    ("flushing by lock base", flush_goes_by_p),
    ("a large page's word once", large_pages_have_sixteen_words),
    ("pages of a fine table", fine_tables_repeat_words),
    ("section access from 5:4", section_access_is_in_11_10),
    ("a retry metered as fresh", retries_are_not_fresh),
    ("a cached fault", faults_are_not_cached),
    ("a fill below the lock base", fills_stay_above_the_lock_base),
    ("distances", distances),
    ("where the word came from", words_come_from),
];
