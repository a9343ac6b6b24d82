//! Rows worked out by hand from the paper.

use super::*;
use crate::bill::{Price, NO_ROW};
use crate::builder::build;
use crate::memory::Role;

const BASE: u32 = 0x2000_0000;
const EXTERNAL: u32 = 0x1000_0000;

/// Offsets of Table 3, typed from it.
const PREFETCH: u32 = 0x00;
const CONTROL: u32 = 0x08;
const FAULT_HIGH: u32 = 0x0C;
const FAULT_LOW: u32 = 0x10;
const STATUS: u32 = 0x14;
const ACKNOWLEDGE: u32 = 0x18;
const BASE_HIGH: u32 = 0x1C;
const BASE_LOW: u32 = 0x20;
const LOCK: u32 = 0x24;
const LOAD: u32 = 0x28;
const CAM_HIGH: u32 = 0x2C;
const CAM_LOW: u32 = 0x30;
const RAM_HIGH: u32 = 0x34;
const RAM_LOW: u32 = 0x38;
const GLOBAL_FLUSH: u32 = 0x3C;
const ENTRY_FLUSH: u32 = 0x40;
const READ_CAM_HIGH: u32 = 0x44;
const READ_RAM_LOW: u32 = 0x50;

/// A unit, its books, an on-chip memory with the image of a list, and an
/// external memory.
struct Bench {
    unit: Unit,
    books: Books,
    memory: Vec<u8>,
    external: Vec<u8>,
    price: Price,
}

fn record(virtual_start: u32, physical: u32, kind: u8, access: u8) -> [u8; 12] {
    let mut bytes = [0; 12];
    bytes[..4].copy_from_slice(&virtual_start.to_le_bytes());
    bytes[4..8].copy_from_slice(&physical.to_le_bytes());
    bytes[8] = kind;
    bytes[9] = access;
    bytes
}

fn list_a() -> [[u8; 12]; 3] {
    [
        record(0x01_0000, 0x1002_0000, 1, 3),
        record(0x30_0000, 0x1120_0000, 0, 2),
        record(0x50_0400, 0x1000_0C00, 3, 3),
    ]
}

impl Bench {
    fn with(list: &[[u8; 12]]) -> Bench {
        let mut memory = vec![0xEE; 65_536];
        build(&list.concat(), BASE, &mut memory).unwrap();
        let mut bench = Bench {
            unit: Unit::fresh(),
            books: Books::default(),
            memory,
            external: Vec::new(),
            price: Price::Flat(1.0),
        };
        bench.done(BASE_HIGH, 0x2000);
        bench.done(CONTROL, 7);
        bench
    }

    fn list_a() -> Bench {
        Bench::with(&list_a())
    }

    fn go<T>(&mut self, call: impl FnOnce(&mut Unit, &Lent, &mut Books) -> T) -> T {
        let memories = Memories::new(&self.memory, BASE, &self.external, EXTERNAL);
        let lent = Lent { memories, prices: Prices::new(self.price, Price::Flat(1.0)) };
        call(&mut self.unit, &lent, &mut self.books)
    }

    fn request(&mut self, access: Access, address: u32) -> Reply {
        self.go(|unit, lent, books| unit.request(lent, books, address, access))
    }

    fn write(&mut self, offset: u32, value: u16) -> Reply {
        self.go(|unit, lent, books| unit.write(lent, books, offset, value))
    }

    fn report(&mut self, address: u32) -> Reply {
        self.go(|unit, lent, _| unit.shift_report(&lent.memories, address))
    }

    fn read_at(&mut self, address: u32) -> Answer {
        self.request(Access::Read, address).answer
    }

    fn write_at(&mut self, address: u32) -> Answer {
        self.request(Access::Write, address).answer
    }

    fn set(&mut self, offset: u32, value: u16) -> Answer {
        self.write(offset, value).answer
    }

    fn done(&mut self, offset: u32, value: u16) {
        assert_eq!(self.set(offset, value), Answer::Done, "{offset:x} {value:x}");
    }

    fn get(&self, offset: u32) -> u16 {
        match self.unit.read(offset) {
            Answer::Value(value) => value,
            other => panic!("{offset:x}: {other:?}"),
        }
    }

    fn load(&mut self, slot: u16, cam: u32, ram: u32) {
        let control = self.get(CONTROL);
        let lock = self.get(LOCK);
        self.done(CONTROL, control & !4);
        self.done(LOCK, lock & 0xFC00 | slot << 4);
        self.done(CAM_HIGH, high(cam));
        self.done(CAM_LOW, low(cam));
        self.done(RAM_HIGH, high(ram));
        self.done(RAM_LOW, low(ram));
        self.done(LOAD, 1);
        self.done(LOCK, lock);
        self.done(CONTROL, control);
    }

    fn slot(&self, slot: usize) -> (u32, u32) {
        self.unit.image().slots[slot]
    }
}

/// The answer has that number, and a refusal comes from no word.
fn refused<T: Into<Reply>>(number: u32) -> impl Fn(T) {
    move |reply| {
        let Reply { answer, from } = reply.into();
        assert_eq!(answer.number(), number, "{answer:?}");
        assert!(from.is_none() || number >= 21, "{from:?}");
    }
}

// "The unit", "The walk" and the bench sheet.

#[test]
fn a_fresh_device_is_all_zero() {
    let image = Unit::fresh().image();
    assert_eq!(image, Image::default());
    assert!(image.in_range());
    for offset in (0..=0x50).step_by(4).filter(|&offset| offset != ACKNOWLEDGE) {
        assert_eq!(Unit::fresh().read(offset), Answer::Value(0));
    }
}

#[test]
fn off_is_virtual_and_unchecked() {
    let mut bench = Bench::list_a();
    bench.done(CONTROL, 5);
    let bill = bench.books.bill;
    assert_eq!(bench.write_at(0xFF_FFFF), Answer::Physical(0xFF_FFFF));
    assert_eq!(bench.books.bill, bill);
    assert_eq!(bench.books.meters, Meters { fresh: 1, retries: 0, words: 0 });
}

#[test]
fn a_walk_fills_slot_0() {
    let mut bench = Bench::list_a();
    assert_eq!(bench.read_at(0x01_2345), Answer::Physical(0x1002_2345));
    assert_eq!(bench.slot(0), (0x0000_0405, 0x1002_0300));
    assert_eq!(bench.books.meters, Meters { fresh: 1, retries: 0, words: 2 });
    // First row 80000 hex (word 0), then the word at 20000448, in row 80001.
    assert_eq!(bench.books.bill, Bill { total: 2.0, misses: 0.125, rows: [0x8_0001, NO_ROW] });
    assert_eq!(bench.write_at(0x01_FFFF), Answer::Physical(0x1002_FFFF));
    assert_eq!(bench.books.meters, Meters { fresh: 2, retries: 0, words: 2 });
    assert_eq!(bench.books.bill.misses, 0.125 - 0.015625);
    assert_eq!(bench.get(LOCK), 1 << 4);
}

#[test]
fn a_permission_fault_leaves_the_slot_filled() {
    let mut bench = Bench::list_a();
    assert_eq!(bench.write_at(0x3A_BCDE), Answer::Faulted(Fault::Permission));
    // Section: tag 300000, type 0, valid; access 2.
    assert_eq!(bench.slot(0), (0x0000_C004, 0x1120_0200));
    assert_eq!(bench.get(STATUS), 4);
    assert_eq!(bench.get(FAULT_HIGH), 0x3A);
    assert_eq!(bench.get(FAULT_LOW), 0xBC80);
    refused(2)(bench.read_at(0x01_0000));
    refused(1)(bench.read_at(0x100_0000));
    assert_eq!(bench.unit.drop_fault(), Answer::Done);
    refused(7)(bench.unit.drop_fault());
    assert_eq!((bench.get(STATUS), bench.get(FAULT_HIGH), bench.get(FAULT_LOW)), (0, 0, 0));
    assert_eq!(bench.read_at(0x3A_BCDE), Answer::Physical(0x112A_BCDE));
    assert_eq!(bench.books.meters.words, 1);
}

#[test]
fn a_translation_fault_is_not_cached() {
    let mut bench = Bench::list_a();
    assert_eq!(bench.read_at(0x50_0800), Answer::Faulted(Fault::Translation));
    assert_eq!((bench.get(LOCK), bench.slot(0)), (0, (0, 0)));
    assert_eq!(bench.get(STATUS), 1);
    assert_eq!(bench.books.meters.words, 2);
    bench.unit.drop_fault();
    assert_eq!(bench.read_at(0xFF_FFFF), Answer::Faulted(Fault::Translation));
    assert_eq!(bench.books.meters.words, 3);
}

#[test]
fn the_fill_goes_to_the_larger_of_victim_and_lock_base() {
    let mut bench = Bench::list_a();
    bench.done(LOCK, 31 << 10);
    bench.read_at(0x01_0000);
    assert_eq!(bench.slot(31), (0x0000_0405, 0x1002_0300));
    assert_eq!(bench.get(LOCK), 31 << 10 | 31 << 4);
    bench.done(LOCK, 4 << 10 | 31 << 4);
    bench.read_at(0x30_0000);
    assert_eq!(bench.slot(31), (0x0000_C004, 0x1120_0200));
    assert_eq!(bench.get(LOCK), 4 << 10 | 4 << 4);
    bench.done(LOCK, 4 << 10 | 3 << 4);
    bench.read_at(0x50_07FF);
    // Tiny page 500400: page number 1401 hex, so 14010 + V + type 3.
    assert_eq!(bench.slot(4), (0x0001_4017, 0x1000_0F00));
    assert_eq!(bench.get(LOCK), 4 << 10 | 5 << 4);
    assert_eq!(bench.slot(3), (0, 0));
}

#[test]
fn the_lowest_slot_that_matches_wins() {
    let mut bench = Bench::list_a();
    // Slot 9: section 000000 with odd tag and frame bits; slot 4: tiny page
    // 012000, not valid; slot 7: small page 012000, no access.
    bench.load(9, 0x0000_FFF4 & 0x3FF4, 0x700F_FF00);
    assert_eq!(bench.write_at(0x01_2345), Answer::Physical(0x7001_2345));
    bench.load(4, 0x0000_0483, 0x5000_0300);
    assert_eq!(bench.write_at(0x01_2345), Answer::Physical(0x7001_2345));
    bench.load(7, 0x0000_0486, 0x6000_0100);
    assert_eq!(bench.read_at(0x01_2345), Answer::Faulted(Fault::Permission));
    assert_eq!(bench.books.meters.words, 0);
    assert_eq!(bench.books.bill.misses, 0.0);
}

#[test]
fn no_match_without_walking_is_a_miss() {
    let mut bench = Bench::list_a();
    bench.done(CONTROL, 3);
    assert_eq!(bench.read_at(0x01_2345), Answer::Faulted(Fault::Miss));
    assert_eq!(bench.get(STATUS), 2);
    assert_eq!(bench.books.bill.misses, 0.125);
    assert_eq!(bench.books.meters, Meters { fresh: 1, retries: 0, words: 0 });
}

// "Registers".

#[test]
fn register_layouts() {
    let mut bench = Bench::list_a();
    let layouts = [
        (CONTROL, 0x0027),
        (BASE_HIGH, 0xFFFF),
        (BASE_LOW, 0xFF80),
        (CAM_HIGH, 0x0003),
        (CAM_LOW, 0xFFFF),
        (RAM_HIGH, 0xFFFF),
        (RAM_LOW, 0xFF00),
    ];
    for (offset, bits) in layouts {
        bench.done(offset, 0xFFFF);
        assert_eq!(bench.get(offset), bits);
    }
    for (offset, bits) in layouts {
        assert_eq!(bench.get(offset), bits);
    }
    bench.done(LOCK, 0x7DFF);
    assert_eq!(bench.get(LOCK), 0x7DF0);
    for bad in [0x8000, 0x0200, 0xFFFF, 0x81F0] {
        refused(8)(bench.set(LOCK, bad));
        assert_eq!(bench.get(LOCK), 0x7DF0);
    }
}

#[test]
fn offsets_and_directions_of_table_3() {
    let mut bench = Bench::list_a();
    for offset in [0x54, 0x58, 0x100, 1, 2, 3, 0x51, 0xFFFF_FFFC, u32::MAX] {
        refused(5)(bench.set(offset, 0));
        refused(5)(bench.unit.read(offset));
    }
    for offset in [0x04, 0x0C, 0x10, 0x14, 0x44, 0x48, 0x4C, 0x50] {
        refused(6)(bench.set(offset, 0));
    }
    refused(6)(bench.unit.read(ACKNOWLEDGE));
}

#[test]
fn control_with_bit_0_clear_makes_the_device_fresh() {
    let mut bench = Bench::list_a();
    bench.read_at(0x01_0000);
    bench.write_at(0x30_0000);
    let books = bench.books;
    bench.done(CONTROL, 0xFFFE);
    assert_eq!(bench.unit.image(), Image::default());
    assert_eq!(bench.books, books);
}

#[test]
fn load_and_copy_use_the_victim() {
    let mut bench = Bench::list_a();
    for value in [1, 2] {
        refused(7)(bench.set(LOAD, value));
    }
    for value in [3, 0xFFFF] {
        refused(8)(bench.set(LOAD, value));
    }
    bench.done(LOAD, 0xFFFC);
    bench.done(CONTROL, 3);
    // Victim 2 below lock base 5.
    bench.done(LOCK, 5 << 10 | 2 << 4);
    bench.done(CAM_HIGH, 2);
    bench.done(CAM_LOW, 0x1238);
    bench.done(RAM_HIGH, 0xABCD);
    bench.done(RAM_LOW, 0xEF00);
    bench.done(LOAD, 1);
    assert_eq!(bench.slot(2), (0x0002_1238, 0xABCD_EF00));
    bench.done(CAM_LOW, 0);
    bench.done(LOAD, 2);
    let read: Vec<u16> =
        (READ_CAM_HIGH..=READ_RAM_LOW).step_by(4).map(|at| bench.get(at)).collect();
    assert_eq!(read, [2, 0x1238, 0xABCD, 0xEF00]);
    assert_eq!(bench.get(LOCK), 5 << 10 | 2 << 4);
    assert_eq!(bench.get(LOAD), 0);
    refused(8)(bench.set(LOAD, 3));
}

#[test]
fn global_flush_goes_by_p_alone() {
    let mut bench = Bench::list_a();
    bench.load(0, 0x0000_0405, 0);
    bench.load(1, 0x0000_080D, 0);
    bench.load(20, 0x0000_0C0E, 0);
    bench.load(21, 0x0000_1006, 0);
    bench.done(LOCK, 10 << 10 | 12 << 4);
    bench.done(GLOBAL_FLUSH, 0xFFFE);
    assert_eq!(bench.slot(0).0, 0x405);
    bench.done(GLOBAL_FLUSH, 1);
    let cams = [0, 1, 20, 21].map(|slot| bench.slot(slot).0);
    assert_eq!(cams, [0x401, 0x80D, 0xC0E, 0x1002]);
    assert_eq!(bench.get(GLOBAL_FLUSH), 0);
}

#[test]
fn entry_flush_goes_by_each_slots_own_type() {
    let mut bench = Bench::list_a();
    // Section 000000, large page 010000 preserved, small page 012000, tiny
    // pages 012000 and 012400.
    let cams = [0x0004, 0x040D, 0x0486, 0x0487, 0x0497];
    for (slot, cam) in cams.into_iter().enumerate() {
        bench.load(slot as u16, cam, 0);
    }
    // The CAM's own type, P and V play no part.
    bench.done(CAM_HIGH, 0);
    bench.done(CAM_LOW, 0x0480);
    bench.done(ENTRY_FLUSH, 2);
    assert_eq!([0, 1, 2, 3, 4].map(|slot| bench.slot(slot).0), cams);
    bench.done(ENTRY_FLUSH, 1);
    let after = [0, 1, 2, 3, 4].map(|slot| bench.slot(slot).0);
    assert_eq!(after, [0x0000, 0x0409, 0x0482, 0x0483, 0x0497]);
}

#[test]
fn prefetch() {
    let mut bench = Bench::list_a();
    refused(8)(bench.set(PREFETCH, 0x4000));
    bench.done(PREFETCH, 0x8000 | 0x0048);
    assert_eq!(bench.get(PREFETCH), 0x0048);
    assert_eq!(bench.slot(0), (0x0000_0405, 0x1002_0300));
    assert_eq!(bench.books.meters, Meters { fresh: 0, retries: 0, words: 2 });
    assert_eq!((bench.books.bill.total, bench.books.bill.misses), (2.0, 0.0));
    // On a match: no effect but the register.
    bench.done(PREFETCH, 0x0049);
    assert_eq!((bench.get(PREFETCH), bench.books.meters.words), (0x49, 2));
    // A fault in it is pending as prefetch, and the register keeps the write.
    assert_eq!(bench.set(PREFETCH, 0x1402), Answer::Faulted(Fault::Prefetch));
    assert_eq!((bench.get(PREFETCH), bench.get(STATUS)), (0x1402, 8));
    assert_eq!((bench.get(FAULT_HIGH), bench.get(FAULT_LOW)), (0x50, 0x0800));
    let pending = Pending { fault: Fault::Prefetch, access: Access::Read, address: 0x50_0800 };
    assert_eq!(bench.unit.pending, Some(pending));
    assert_eq!(bench.books.meters, Meters { fresh: 0, retries: 0, words: 4 });
    refused(2)(bench.set(PREFETCH, 0x0048));
    refused(8)(bench.set(PREFETCH, 0x4048));
    // It is only dropped, with no retry and no meter.
    bench.done(ACKNOWLEDGE, 1);
    assert_eq!(bench.unit.pending, None);
    assert_eq!(bench.books.meters, Meters { fresh: 0, retries: 0, words: 4 });
    for control in [1, 3, 5] {
        bench.done(CONTROL, control);
        refused(7)(bench.set(PREFETCH, 0x0048));
    }
    assert_eq!(bench.get(PREFETCH), 0x1402);
}

#[test]
fn prefetch_checks_no_access() {
    let mut bench = Bench::list_a();
    // A section word with no access at all.
    bench.memory[16..20].copy_from_slice(&0x7000_0002_u32.to_le_bytes());
    bench.done(PREFETCH, 0x1000);
    assert_eq!(bench.slot(0), (0x0001_0004, 0x7000_0000));
    assert_eq!(bench.read_at(0x40_0000), Answer::Faulted(Fault::Permission));
}

#[test]
fn acknowledge() {
    let mut bench = Bench::list_a();
    refused(7)(bench.set(ACKNOWLEDGE, 1));
    bench.done(ACKNOWLEDGE, 0xFFFE);
    bench.write_at(0x3A_BCDE);
    bench.done(ACKNOWLEDGE, 0);
    assert_eq!(bench.books.meters, Meters { fresh: 1, retries: 0, words: 1 });
    // The fault comes again and is pending anew.
    assert_eq!(bench.set(ACKNOWLEDGE, 1), Answer::Faulted(Fault::Permission));
    assert_eq!(bench.books.meters, Meters { fresh: 1, retries: 1, words: 1 });
    bench.load(0, 0x0000_C004, 0x1120_0300);
    assert_eq!(bench.set(ACKNOWLEDGE, 1), Answer::Physical(0x112A_BCDE));
    assert_eq!(bench.books.meters, Meters { fresh: 1, retries: 2, words: 1 });
    assert_eq!(bench.unit.pending, None);
    refused(7)(bench.set(ACKNOWLEDGE, 1));
}

#[test]
fn acknowledge_goes_by_the_state_as_it_is_now() {
    let mut bench = Bench::list_a();
    bench.write_at(0x3A_BCDE);
    let misses = bench.books.bill.misses;
    // Flushed and without walking: the permission fault has become a miss.
    bench.done(GLOBAL_FLUSH, 1);
    bench.done(CONTROL, 3);
    assert_eq!(bench.set(ACKNOWLEDGE, 1), Answer::Faulted(Fault::Miss));
    assert_eq!(bench.get(STATUS), 2);
    assert_eq!(bench.books.bill.misses, misses + (1.0 - misses) * 0.125);
    // Off: the virtual address, with no smoothing.
    bench.done(CONTROL, 1);
    let misses = bench.books.bill.misses;
    assert_eq!(bench.set(ACKNOWLEDGE, 1), Answer::Physical(0x3A_BCDE));
    assert_eq!(bench.books.bill.misses, misses);
    assert_eq!(bench.books.meters.retries, 2);
}

// "Meters and the walk bill".

#[test]
fn rows_and_their_prices() {
    let mut bench = Bench::list_a();
    bench.price = Price::Row { same: 1.5, new: 4.25 };
    bench.read_at(0x01_0000);
    assert_eq!(bench.books.bill.total, 8.5);
    bench.done(GLOBAL_FLUSH, 1);
    bench.read_at(0x30_0000);
    assert_eq!(bench.books.bill.total, 12.75);
    bench.read_at(0xF0_0000);
    assert_eq!(bench.books.bill.total, 14.25);
    assert_eq!(bench.books.bill.rows, [0x8_0000, NO_ROW]);
}

#[test]
fn shift_reports() {
    let mut bench =
        Bench::with(&[record(0xFF_FC00, 0, 3, 2), record(0x00_0000, 0xFFF0_0000, 0, 3)]);
    bench.done(CONTROL, 1);
    let before = (bench.unit.image(), bench.books);
    assert_eq!(bench.report(0xFF_FFFF).answer, Answer::Distance(-16_776_192));
    assert_eq!(bench.report(0x0F_FFFF).answer, Answer::Distance(0xFFF0_0000));
    assert_eq!(bench.report(0xFF_0000).answer, Answer::Faulted(Fault::Translation));
    refused(1)(bench.report(0x100_0000));
    assert_eq!((bench.unit.image(), bench.books), before);
    bench.done(BASE_HIGH, 0x3000);
    refused(3)(bench.report(0));
}

// "Say where the word came from" (P6).

const TRANSLATION: Answer = Answer::Faulted(Fault::Translation);
const MISS: Answer = Answer::Faulted(Fault::Miss);
const PERMISSION: Answer = Answer::Faulted(Fault::Permission);
const NOT_PREFETCHED: Answer = Answer::Faulted(Fault::Prefetch);

fn physical(address: u32) -> Answer {
    Answer::Physical(address)
}

/// An answer from the word at an offset of the on-chip memory.
fn on_chip(answer: Answer, offset: u32) -> Reply {
    answer.beside(Place::new(Role::OnChip, offset))
}

/// An answer from the word at an offset of the external memory.
fn external(answer: Answer, offset: u32) -> Reply {
    answer.beside(Place::new(Role::External, offset))
}

/// An answer without a walk.
fn none(answer: Answer) -> Reply {
    Reply { answer, from: None }
}

impl Bench {
    /// Flushes the slots and drops what is pending.
    fn flush(&mut self) {
        self.done(GLOBAL_FLUSH, 1);
        self.unit.drop_fault();
    }

    fn put_word(&mut self, offset: usize, word: u32) {
        self.memory[offset..offset + 4].copy_from_slice(&word.to_le_bytes());
    }
}

#[test]
fn requests_say_their_walks_last_word() {
    let mut bench = Bench::list_a();
    let rows = [
        // A large page: the coarse table is at 400, its word 12 hex.
        (Access::Read, 0x01_2345, on_chip(physical(0x1002_2345), 0x448)),
        (Access::Write, 0x01_0000, on_chip(physical(0x1002_0000), 0x440)),
        // A section: its own word 3; also where it permits no write.
        (Access::Read, 0x3A_BCDE, on_chip(physical(0x112A_BCDE), 0xC)),
        (Access::Write, 0x3A_BCDE, on_chip(PERMISSION, 0xC)),
        // A tiny page: the fine table is at 1000, its word 1; word 2 is no page.
        (Access::Read, 0x50_07FF, on_chip(physical(0x1000_0FFF), 0x1004)),
        (Access::Read, 0x50_0800, on_chip(TRANSLATION, 0x1008)),
        // No page at the second level of megabyte 0, none at the first of F.
        (Access::Read, 0x00_0000, on_chip(TRANSLATION, 0x400)),
        (Access::Write, 0xFF_FFFF, on_chip(TRANSLATION, 0x3C)),
    ];
    for (access, address, expected) in rows {
        assert_eq!(bench.request(access, address), expected, "{address:06x}");
        bench.flush();
    }
}

#[test]
fn the_first_word_of_a_memory_is_a_place_too() {
    let mut bench = Bench::with(&[]);
    let reply = bench.request(Access::Read, 0);
    assert_eq!(reply, on_chip(TRANSLATION, 0));
    assert_eq!(reply.from.map(Place::number), Some(0x1000_0000));
    bench.unit.drop_fault();
    core::mem::swap(&mut bench.memory, &mut bench.external);
    bench.done(BASE_HIGH, 0x1000);
    let reply = bench.request(Access::Read, 0);
    assert_eq!(reply, external(TRANSLATION, 0));
    assert_eq!(reply.from.map(Place::number), Some(0x2000_0000));
}

#[test]
fn the_last_word_may_be_in_the_other_memory() {
    let mut bench = Bench::list_a();
    // Word 1 points at a coarse table, word 2 at a fine one, at the start and
    // 1,000 hex into the external memory.
    bench.put_word(4, 0x1000_0001);
    bench.put_word(8, 0x1000_1003);
    bench.external = vec![0; 0x2000];
    bench.external[8..12].copy_from_slice(&0x7654_3022_u32.to_le_bytes());
    bench.external[0x1FFC..].copy_from_slice(&0x7654_3C33_u32.to_le_bytes());
    assert_eq!(bench.request(Access::Read, 0x10_2ABC), external(physical(0x7654_3ABC), 8));
    assert_eq!(bench.request(Access::Write, 0x2F_FFFF), external(physical(0x7654_3FFF), 0x1FFC));
    assert_eq!(bench.report(0x10_2000), external(Answer::Distance(0x7644_1000), 8));
    bench.flush();
    assert_eq!(bench.request(Access::Write, 0x10_2ABC), external(PERMISSION, 8));
    bench.flush();
    assert_eq!(bench.request(Access::Read, 0x10_0000), external(TRANSLATION, 0));
    bench.flush();
    // And the other way about: the first level in the external memory, word 4
    // of it pointing at list A's coarse table.
    bench.external[0x90..0x94].copy_from_slice(&0x2000_0401_u32.to_le_bytes());
    bench.done(BASE_HIGH, 0x1000);
    bench.done(BASE_LOW, 0x80);
    assert_eq!(bench.request(Access::Read, 0x41_2345), on_chip(physical(0x1002_2345), 0x448));
    assert_eq!(bench.request(Access::Read, 0xFF_FFFF), external(TRANSLATION, 0xBC));
}

#[test]
fn offsets_are_from_the_memorys_base() {
    // List A's image at 20003000, in a memory lent from 20000000.
    let mut bench = Bench::list_a();
    build(&list_a().concat(), BASE + 0x3000, &mut bench.memory[0x3000..]).unwrap();
    bench.done(BASE_LOW, 0x3000);
    assert_eq!(bench.request(Access::Read, 0x01_2345), on_chip(physical(0x1002_2345), 0x3448));
    assert_eq!(bench.request(Access::Read, 0x3A_BCDE), on_chip(physical(0x112A_BCDE), 0x300C));
    assert_eq!(bench.write(PREFETCH, 0x1401), on_chip(Answer::Done, 0x4004));
    assert_eq!(bench.report(0xFF_FFFF), on_chip(TRANSLATION, 0x303C));
    assert_eq!(bench.request(Access::Read, 0xFF_FFFF), on_chip(TRANSLATION, 0x303C));
    // Word F points at a coarse table at the end of the longest memory.
    bench.memory.resize(131_072, 0);
    bench.put_word(0x303C, 0x2001_FC01);
    bench.put_word(0x1_FFFC, 0x7654_3032);
    assert_eq!(bench.write(ACKNOWLEDGE, 1), on_chip(physical(0x7654_3FFF), 0x1_FFFC));
    assert_eq!(bench.report(0xFF_E000), on_chip(TRANSLATION, 0x1_FFF8));
}

#[test]
fn a_request_without_a_walk_says_none() {
    let mut bench = Bench::list_a();
    // A match, permitted and not.
    bench.read_at(0x01_2345);
    bench.read_at(0x30_0000);
    assert_eq!(bench.request(Access::Write, 0x01_FFFF), none(physical(0x1002_FFFF)));
    assert_eq!(bench.request(Access::Write, 0x3A_BCDE), none(PERMISSION));
    // Refused 1 and 2 while that is pending.
    refused(1)(bench.request(Access::Read, 0x100_0000));
    refused(2)(bench.request(Access::Read, 0x50_0400));
    bench.flush();
    // No match and no walking; off.
    bench.done(CONTROL, 3);
    assert_eq!(bench.request(Access::Read, 0x01_2345), none(MISS));
    bench.unit.drop_fault();
    bench.done(CONTROL, 5);
    assert_eq!(bench.request(Access::Read, 0x01_2345), none(physical(0x01_2345)));
}

#[test]
fn prefetches_say_their_walks_last_word() {
    let mut bench = Bench::list_a();
    assert_eq!(bench.write(PREFETCH, 0x0048), on_chip(Answer::Done, 0x448));
    assert_eq!(bench.write(PREFETCH, 0x0C00), on_chip(Answer::Done, 0xC));
    // A match, and a bit out of range.
    assert_eq!(bench.write(PREFETCH, 0x0049), none(Answer::Done));
    refused(8)(bench.write(PREFETCH, 0x4048));
    // No page at the second level; then one is pending, which is only dropped.
    assert_eq!(bench.write(PREFETCH, 0x1402), on_chip(NOT_PREFETCHED, 0x1008));
    refused(2)(bench.write(PREFETCH, 0x1402));
    assert_eq!(bench.write(ACKNOWLEDGE, 0), none(Answer::Done));
    assert_eq!(bench.write(ACKNOWLEDGE, 1), none(Answer::Done));
    // No page at the first level; not walking.
    assert_eq!(bench.write(PREFETCH, 0x3FFF), on_chip(NOT_PREFETCHED, 0x3C));
    bench.unit.drop_fault();
    bench.done(CONTROL, 3);
    refused(7)(bench.write(PREFETCH, 0x1402));
}

#[test]
fn retries_say_their_walks_last_word() {
    let mut bench = Bench::list_a();
    refused(7)(bench.write(ACKNOWLEDGE, 1));
    assert_eq!(bench.write(ACKNOWLEDGE, 0xFFFE), none(Answer::Done));
    // It walks again, and again finds no page.
    assert_eq!(bench.request(Access::Read, 0x50_0800), on_chip(TRANSLATION, 0x1008));
    assert_eq!(bench.write(ACKNOWLEDGE, 0), none(Answer::Done));
    assert_eq!(bench.write(ACKNOWLEDGE, 1), on_chip(TRANSLATION, 0x1008));
    // Without walking it is a miss.
    bench.done(CONTROL, 3);
    assert_eq!(bench.write(ACKNOWLEDGE, 1), none(MISS));
    // Walking, it now finds a page that may be read.
    bench.done(CONTROL, 7);
    bench.put_word(0x1008, 0x1234_5423);
    assert_eq!(bench.write(ACKNOWLEDGE, 1), on_chip(physical(0x1234_5400), 0x1008));
    // A permission fault on a match, on a walk, and then an address on a match.
    assert_eq!(bench.request(Access::Write, 0x50_0800), none(PERMISSION));
    assert_eq!(bench.write(ACKNOWLEDGE, 1), none(PERMISSION));
    bench.done(GLOBAL_FLUSH, 1);
    assert_eq!(bench.write(ACKNOWLEDGE, 1), on_chip(PERMISSION, 0x1008));
    bench.load(1, 0x0001_4027, 0x1234_5700);
    assert_eq!(bench.write(ACKNOWLEDGE, 1), none(physical(0x1234_5400)));
    // Off.
    assert_eq!(bench.request(Access::Read, 0xFF_FFFF), on_chip(TRANSLATION, 0x3C));
    bench.done(CONTROL, 5);
    assert_eq!(bench.write(ACKNOWLEDGE, 1), none(physical(0xFF_FFFF)));
}

#[test]
fn shift_reports_say_their_walks_last_word() {
    let mut bench = Bench::list_a();
    // Off, on without walking, walking, on a match and with a fault pending.
    for control in [1, 3, 7] {
        bench.done(CONTROL, control);
        for _ in 0..2 {
            assert_eq!(bench.report(0x01_2345), on_chip(Answer::Distance(0x1001_0000), 0x448));
            assert_eq!(bench.report(0x3A_BCDE), on_chip(Answer::Distance(0x10F0_0000), 0xC));
            assert_eq!(bench.report(0x50_0800), on_chip(TRANSLATION, 0x1008));
            assert_eq!(bench.report(0xFF_FFFF), on_chip(TRANSLATION, 0x3C));
            refused(1)(bench.report(0x100_0000));
            bench.read_at(0x01_2345);
            bench.read_at(0x50_0800);
        }
        bench.flush();
    }
    // Memories that share an address.
    let shared = Memories::new(&bench.memory, BASE, &bench.memory, BASE);
    refused(4)(bench.unit.shift_report(&shared, 0x01_2345));
    // In neither memory: the second word, then the first.
    bench.put_word(0, 0x4000_0001);
    refused(3)(bench.report(0x01_2345));
    bench.done(BASE_HIGH, 0x3000);
    refused(3)(bench.report(0x01_2345));
}

#[test]
fn a_refusal_3_says_none() {
    let mut bench = Bench::list_a();
    // The second word is in neither memory, then the first.
    bench.put_word(0, 0x4000_0001);
    for base in [0x2000, 0x4000] {
        bench.done(BASE_HIGH, base);
        refused(3)(bench.request(Access::Read, 0x01_0000));
        refused(3)(bench.write(PREFETCH, 0x40));
    }
    bench.done(BASE_HIGH, 0x2000);
    bench.done(CONTROL, 3);
    bench.read_at(0x01_0000);
    bench.done(CONTROL, 7);
    for base in [0x2000, 0x4000] {
        bench.done(BASE_HIGH, base);
        refused(3)(bench.write(ACKNOWLEDGE, 1));
    }
}

#[test]
fn other_writes_say_none() {
    let mut bench = Bench::list_a();
    for offset in (0..=0x60).filter(|&offset| ![PREFETCH, ACKNOWLEDGE].contains(&offset)) {
        for value in [0, 1, 2, 3, 7, 0x0403, 0xFFFF] {
            for control in [3, 7] {
                bench.done(CONTROL, control);
                assert_eq!(bench.write(offset, value).from, None, "{offset:x} {value:x}");
            }
        }
    }
}

// Large and small pages in fine tables (P3).

/// Megabyte A has a fine table at 1000, with a large page at its words C0 to FF, a
/// small one at 204 to 207 and a tiny one at 0; megabyte B has a coarse table at
/// 2000, with a large page at its words 10 to 1F.
fn mixed() -> Bench {
    Bench::with(&[
        record(0xA3_0000, 0x7654_0000, 1, 3),
        record(0xA8_1000, 0x1234_5000, 2, 2),
        record(0xA0_0000, 0x0000_0400, 3, 3),
        record(0xB1_0000, 0x4321_0000, 1, 3),
    ])
}

/// Slots that the pages of megabyte A fill: page numbers 28C0, 2A04 and 2800.
const LARGE_SLOT: (u32, u32) = (0x0002_8C05, 0x7654_0300);
const SMALL_SLOT: (u32, u32) = (0x0002_A046, 0x1234_5200);
const TINY_SLOT: (u32, u32) = (0x0002_8007, 0x0000_0700);

#[test]
fn a_large_page_of_a_fine_table_fills_one_slot() {
    let mut bench = mixed();
    assert_eq!(bench.request(Access::Read, 0xA3_ABCD), on_chip(physical(0x7654_ABCD), 0x13A8));
    assert_eq!((bench.slot(0), bench.get(LOCK)), (LARGE_SLOT, 1 << 4));
    // The slot serves all 64 KB, and no word is read.
    for address in [0xA3_0000, 0xA3_03FF, 0xA3_A400, 0xA3_AC00, 0xA3_FFFF] {
        let expected = none(physical(0x7654_0000 | address & 0xFFFF));
        assert_eq!(bench.request(Access::Write, address), expected, "{address:06x}");
    }
    assert_eq!(bench.books.meters, Meters { fresh: 6, retries: 0, words: 2 });
    assert_eq!((bench.slot(1), bench.get(LOCK)), ((0, 0), 1 << 4));
    // Before it and after it there is no page.
    assert_eq!(bench.request(Access::Read, 0xA2_FFFF), on_chip(TRANSLATION, 0x12FC));
    bench.unit.drop_fault();
    assert_eq!(bench.request(Access::Read, 0xA4_0000), on_chip(TRANSLATION, 0x1400));
}

#[test]
fn a_small_page_of_a_fine_table_fills_one_slot() {
    let mut bench = mixed();
    assert_eq!(bench.request(Access::Read, 0xA8_1ABC), on_chip(physical(0x1234_5ABC), 0x1818));
    assert_eq!((bench.slot(0), bench.get(LOCK)), (SMALL_SLOT, 1 << 4));
    for address in [0xA8_1000, 0xA8_13FF, 0xA8_1400, 0xA8_1C00, 0xA8_1FFF] {
        let expected = none(physical(0x1234_5000 | address & 0xFFF));
        assert_eq!(bench.request(Access::Read, address), expected, "{address:06x}");
    }
    assert_eq!(bench.request(Access::Write, 0xA8_1400), none(PERMISSION));
    bench.unit.drop_fault();
    assert_eq!(bench.books.meters, Meters { fresh: 7, retries: 0, words: 2 });
    assert_eq!(bench.request(Access::Read, 0xA8_0FFF), on_chip(TRANSLATION, 0x180C));
    bench.unit.drop_fault();
    assert_eq!(bench.request(Access::Read, 0xA8_2000), on_chip(TRANSLATION, 0x1820));
    bench.unit.drop_fault();
    // A tiny page in the same table stays one.
    assert_eq!(bench.request(Access::Write, 0xA0_0001), on_chip(physical(0x0000_0401), 0x1000));
    assert_eq!(bench.slot(1), TINY_SLOT);
    assert_eq!(bench.request(Access::Read, 0xA0_0400), on_chip(TRANSLATION, 0x1004));
}

#[test]
fn every_word_of_a_page_of_a_fine_table_leads_to_it() {
    let mut bench = mixed();
    for n in 0..64 {
        let address = 0xA3_0000 + n * 0x400 + 0x155;
        let expected = on_chip(physical(0x7654_0155 + n * 0x400), 0x1300 + n * 4);
        assert_eq!(bench.request(Access::Write, address), expected, "{address:06x}");
        assert_eq!(bench.slot(n as usize % 32), LARGE_SLOT);
        bench.done(GLOBAL_FLUSH, 1);
    }
    for n in 0..4 {
        let address = 0xA8_1000 + n * 0x400 + 0x2AA;
        let expected = on_chip(physical(0x1234_52AA + n * 0x400), 0x1810 + n * 4);
        assert_eq!(bench.request(Access::Read, address), expected, "{address:06x}");
        assert_eq!(bench.slot(n as usize), SMALL_SLOT);
        bench.done(GLOBAL_FLUSH, 1);
    }
}

#[test]
fn prefetches_of_large_and_small_pages_of_a_fine_table() {
    let mut bench = mixed();
    // The last word of each.
    assert_eq!(bench.write(PREFETCH, 0x28FF), on_chip(Answer::Done, 0x13FC));
    assert_eq!(bench.write(PREFETCH, 0x2A07), on_chip(Answer::Done, 0x181C));
    assert_eq!((bench.slot(0), bench.slot(1)), (LARGE_SLOT, SMALL_SLOT));
    // Elsewhere in them: matches.
    assert_eq!(bench.write(PREFETCH, 0x28C0), none(Answer::Done));
    assert_eq!(bench.write(PREFETCH, 0x2A04), none(Answer::Done));
    assert_eq!(bench.request(Access::Write, 0xA3_1234), none(physical(0x7654_1234)));
    assert_eq!(bench.request(Access::Read, 0xA8_1234), none(physical(0x1234_5234)));
    assert_eq!(bench.books.meters, Meters { fresh: 2, retries: 0, words: 4 });
    assert_eq!(bench.get(LOCK), 2 << 4);
    // Right after them.
    assert_eq!(bench.write(PREFETCH, 0x2900), on_chip(NOT_PREFETCHED, 0x1400));
}

#[test]
fn shift_reports_through_a_fine_table() {
    let mut bench = mixed();
    // 76540000 - A30000, and 12345000 - A81000.
    let large = Answer::Distance(0x75B1_0000);
    assert_eq!(bench.report(0xA3_0000), on_chip(large, 0x1300));
    assert_eq!(bench.report(0xA3_ABCD), on_chip(large, 0x13A8));
    assert_eq!(bench.report(0xA3_FFFF), on_chip(large, 0x13FC));
    let small = Answer::Distance(0x118C_4000);
    assert_eq!(bench.report(0xA8_1000), on_chip(small, 0x1810));
    assert_eq!(bench.report(0xA8_1FFF), on_chip(small, 0x181C));
    // The last word alone: large page AF0000 to 0.
    bench.put_word(0x1FFC, 0x0000_0001);
    assert_eq!(bench.report(0xAF_FC00), on_chip(Answer::Distance(-11_468_800), 0x1FFC));
    assert_eq!(bench.report(0xAF_FBFF), on_chip(TRANSLATION, 0x1FF8));
}

#[test]
fn a_walk_takes_the_word_that_it_read() {
    let mut bench = mixed();
    // The large page's group, with another large page's word at its head and at its
    // end, a fault, and a tiny and a small page's word side by side. Bits below a
    // page's base are ignored, but for access.
    bench.put_word(0x1300, 0x1111_FFF1);
    bench.put_word(0x1310, 0x7654_0030);
    bench.put_word(0x13A8, 0x5555_5433);
    bench.put_word(0x13AC, 0x6666_6FEE);
    bench.put_word(0x13FC, 0x2222_0021);
    // The small page's group, with a large page's word in it.
    bench.put_word(0x1814, 0x3333_8031);
    let rows = [
        (0xA3_0000, on_chip(physical(0x1111_0000), 0x1300), (0x0002_8C05, 0x1111_0300)),
        (0xA3_0400, on_chip(physical(0x7654_0400), 0x1304), LARGE_SLOT),
        (0xA3_1000, on_chip(TRANSLATION, 0x1310), (0, 0)),
        (0xA3_A7FF, on_chip(physical(0x7654_A7FF), 0x13A4), LARGE_SLOT),
        (0xA3_ABCD, on_chip(physical(0x5555_57CD), 0x13A8), (0x0002_8EA7, 0x5555_5700)),
        (0xA3_AFFF, on_chip(physical(0x6666_6FFF), 0x13AC), (0x0002_8E86, 0x6666_6200)),
        (0xA3_FBFF, on_chip(physical(0x7654_FBFF), 0x13F8), LARGE_SLOT),
        (0xA3_FFFF, on_chip(physical(0x2222_FFFF), 0x13FC), (0x0002_8C05, 0x2222_0200)),
        (0xA8_1000, on_chip(physical(0x1234_5000), 0x1810), SMALL_SLOT),
        (0xA8_1400, on_chip(physical(0x3333_1400), 0x1814), (0x0002_A005, 0x3333_0300)),
    ];
    for (address, expected, slot) in rows {
        bench.done(CONTROL, 0);
        bench.done(BASE_HIGH, 0x2000);
        bench.done(CONTROL, 7);
        assert_eq!(bench.request(Access::Read, address), expected, "{address:06x}");
        assert_eq!(bench.slot(0), slot, "{address:06x}");
        assert_eq!(bench.report(address).from, expected.from);
    }
}

#[test]
fn after_a_walk_the_slot_decides_for_the_whole_page() {
    let mut bench = mixed();
    bench.put_word(0x1310, 0);
    bench.put_word(0x13A8, 0x5555_5433);
    bench.put_word(0x13AC, 0x6666_6022);
    // The tiny page alone; then the small one, which does not hide it.
    assert_eq!(bench.request(Access::Read, 0xA3_A800), on_chip(physical(0x5555_5400), 0x13A8));
    assert_eq!(bench.request(Access::Read, 0xA3_AC00), on_chip(physical(0x6666_6C00), 0x13AC));
    assert_eq!(bench.request(Access::Read, 0xA3_ABFF), none(physical(0x5555_57FF)));
    // The large page's words at A3A000 are not read any more.
    assert_eq!(bench.request(Access::Read, 0xA3_A000), none(physical(0x6666_6000)));
    assert_eq!(bench.request(Access::Write, 0xA3_A7FF), none(PERMISSION));
    bench.flush();
    // The large page first: none of the three other words is read.
    assert_eq!(bench.request(Access::Write, 0xA3_FFFF), on_chip(physical(0x7654_FFFF), 0x13FC));
    for address in [0xA3_1000, 0xA3_A800, 0xA3_AC00] {
        let expected = none(physical(0x7654_0000 | address & 0xFFFF));
        assert_eq!(bench.request(Access::Write, address), expected, "{address:06x}");
    }
    bench.flush();
    // A fault is not kept, and a retry takes the word as it then is.
    assert_eq!(bench.request(Access::Read, 0xA3_1000), on_chip(TRANSLATION, 0x1310));
    assert_eq!(bench.write(ACKNOWLEDGE, 1), on_chip(TRANSLATION, 0x1310));
    bench.put_word(0x1310, 0x7777_0021);
    assert_eq!(bench.write(ACKNOWLEDGE, 1), on_chip(physical(0x7777_1000), 0x1310));
    assert_eq!(bench.request(Access::Read, 0xA3_A800), none(physical(0x7777_A800)));
}

#[test]
fn a_coarse_tables_tiny_word_is_a_fault() {
    let mut bench = mixed();
    // Word 18 of the coarse table, within the large page's group.
    bench.put_word(0x2060, 0x5555_5433);
    assert_eq!(bench.request(Access::Read, 0xB1_8000), on_chip(TRANSLATION, 0x2060));
    assert_eq!((bench.slot(0), bench.get(LOCK), bench.get(STATUS)), ((0, 0), 0, 1));
    assert_eq!(bench.write(ACKNOWLEDGE, 1), on_chip(TRANSLATION, 0x2060));
    bench.unit.drop_fault();
    assert_eq!(bench.write(PREFETCH, 0x2C60), on_chip(NOT_PREFETCHED, 0x2060));
    bench.unit.drop_fault();
    assert_eq!(bench.report(0xB1_8000), on_chip(TRANSLATION, 0x2060));
    // Its neighbours are the large page, and the slot that they fill holds it too.
    assert_eq!(bench.request(Access::Write, 0xB1_7FFF), on_chip(physical(0x4321_7FFF), 0x205C));
    assert_eq!(bench.slot(0), (0x0002_C405, 0x4321_0300));
    assert_eq!(bench.request(Access::Write, 0xB1_8000), none(physical(0x4321_8000)));
}

// "When the unit says no".

/// Memories that share an address, and a price out of its range.
fn bad_lent(bytes: &[u8], bad_memory: bool, bad_price: bool) -> Lent<'_> {
    let price = Price::Flat(if bad_price { f64::NAN } else { 1.0 });
    let external_base = if bad_memory { BASE } else { 0x4000_0000 };
    Lent {
        memories: Memories::new(bytes, BASE, bytes, external_base),
        prices: Prices::new(Price::Flat(1.0), price),
    }
}

#[test]
fn order_of_a_request() {
    let bench = Bench::list_a();
    let mut unit = bench.unit.clone();
    let mut books = Books::default();
    let bytes = &bench.memory[..64];
    let mut go = |bad_memory, bad_price, address| {
        let lent = bad_lent(bytes, bad_memory, bad_price);
        unit.request(&lent, &mut books, address, Access::Read)
    };
    refused(1)(go(true, true, 0x100_0000));
    refused(4)(go(true, true, 0));
    refused(9)(go(false, true, 0));
    refused(3)(go(false, false, 0));
    refused(21)(go(false, false, 0xFF_0000));
    refused(1)(go(true, true, 0x100_0000));
    refused(4)(go(true, true, 0));
    refused(9)(go(false, true, 0));
    refused(2)(go(false, false, 0));
    assert_eq!(books.meters, Meters { fresh: 1, retries: 0, words: 1 });
}

#[test]
fn order_of_a_register_write() {
    let bench = Bench::list_a();
    let mut unit = bench.unit.clone();
    let mut books = Books::default();
    let bytes = &bench.memory[..64];
    let mut go = |bad_memory, bad_price, offset, value| {
        let lent = bad_lent(bytes, bad_memory, bad_price);
        unit.write(&lent, &mut books, offset, value)
    };
    refused(5)(go(true, true, 0x02, 0x4000));
    refused(6)(go(true, true, 0x04, 0));
    refused(4)(go(true, true, PREFETCH, 0x4000));
    refused(9)(go(false, true, PREFETCH, 0x4000));
    refused(8)(go(false, false, PREFETCH, 0x4000));
    refused(3)(go(false, false, PREFETCH, 0));
    refused(4)(go(true, true, ACKNOWLEDGE, 0));
    refused(9)(go(false, true, ACKNOWLEDGE, 0));
    refused(7)(go(false, false, ACKNOWLEDGE, 1));
    // Never at another register.
    for offset in [CONTROL, BASE_HIGH, BASE_LOW, LOCK, CAM_HIGH, CAM_LOW, RAM_HIGH, RAM_LOW] {
        let value = if offset == CONTROL { 7 } else { 0 };
        refused(0)(go(true, true, offset, value));
    }
    refused(8)(go(true, true, LOAD, 3));
    refused(7)(go(true, true, LOAD, 2));
    refused(0)(go(true, true, GLOBAL_FLUSH, 1));
    refused(0)(go(true, true, ENTRY_FLUSH, 1));
}

#[test]
fn bill_figures_are_tried_too() {
    for bad in [f64::NAN, f64::INFINITY, f64::NEG_INFINITY] {
        for smoothed in [false, true] {
            let mut bench = Bench::list_a();
            let bill = &mut bench.books.bill;
            *(if smoothed { &mut bill.misses } else { &mut bill.total }) = bad;
            refused(9)(bench.read_at(0));
            refused(9)(bench.set(PREFETCH, 0));
            refused(9)(bench.set(ACKNOWLEDGE, 0));
            bench.done(CONTROL, 5);
            refused(9)(bench.read_at(0));
            assert_eq!(bench.books.meters, Meters::default());
        }
    }
}

#[test]
fn a_refusal_3_after_the_first_word_changes_nothing() {
    let mut bench = Bench::list_a();
    bench.memory[0..4].copy_from_slice(&0x4000_0001_u32.to_le_bytes());
    let before = (bench.unit.image(), bench.books);
    refused(3)(bench.read_at(0x01_0000));
    refused(3)(bench.set(PREFETCH, 0x40));
    assert_eq!((bench.unit.image(), bench.books), before);
    // Nor does one at a retry.
    bench.read_at(0xFF_0000);
    bench.done(BASE_HIGH, 0x4000);
    let before = (bench.unit.image(), bench.books);
    refused(3)(bench.set(ACKNOWLEDGE, 1));
    assert_eq!((bench.unit.image(), bench.books), before);
}

#[test]
fn ranges_of_a_handed_in_device() {
    let good = |change: &dyn Fn(&mut Image)| {
        let mut image = Image::default();
        change(&mut image);
        image.in_range()
    };
    assert!(good(&|image| image.control = 0x27));
    assert!(good(&|image| image.control = 2));
    for bit in [3, 4, 6, 7, 15] {
        assert!(!good(&|image| image.control = 1 << bit));
    }
    assert!(good(&|image| image.base = 0xFFFF_FF80));
    assert!(!good(&|image| image.base = 0x40));
    assert!(good(&|image| image.prefetch = 0x3FFF));
    assert!(!good(&|image| image.prefetch = 0x4000));
    assert!(good(&|image| image.lock_base = 31));
    assert!(!good(&|image| image.lock_base = 32));
    assert!(good(&|image| image.victim = 31));
    assert!(!good(&|image| image.victim = 32));
    assert!(!good(&|image| image.victim = 256));
    assert!(good(&|image| image.cam = 0x3_FFFF));
    assert!(!good(&|image| image.cam = 0x4_0000));
    assert!(good(&|image| image.ram = 0xFFFF_FF00));
    assert!(!good(&|image| image.ram = 0x80));
    assert!(!good(&|image| image.read_cam = 0x4_0000));
    assert!(!good(&|image| image.read_ram = 1));
    assert!(good(&|image| image.slots[31] = (0x3_FFFF, 0xFFFF_FF00)));
    assert!(!good(&|image| image.slots[31].0 = 0x8000_0000));
    assert!(!good(&|image| image.slots[0].1 = 0x80));
    let pending =
        |address| Some(Pending { fault: Fault::Prefetch, access: Access::Write, address });
    assert!(good(&|image| image.pending = pending(0xFF_FFFF)));
    assert!(!good(&|image| image.pending = pending(0x100_0000)));
}

#[test]
fn registers_are_in_the_order_of_table_3() {
    for n in 0..21 {
        assert_eq!(Register::at(4 * n).map(|register| register as u32), Ok(n));
    }
    assert_eq!(Register::at(84), Err(Refusal::Offset));
}

/// All slots at once against one slot after the other, by the paper's words.
#[test]
fn matching_is_as_defined() {
    let mut dice = crate::dice::Dice::new(0x3A7C);
    for _ in 0..2_000 {
        let mut slots = Slots::FRESH;
        let near = dice.below(1 << 14);
        for slot in 0..SLOTS {
            let tag = near ^ (1 << dice.below(14)) ^ (1 << dice.below(14));
            slots.set(slot, tag << 4 | dice.below(16), dice.word() & RAM_BITS);
            if dice.once_in(8) {
                slots.clear_valid(slot);
            }
        }
        for _ in 0..32 {
            let number = near ^ dice.pick(&[0, 1, 2, 4, 0x40, 0x400, 0x2000]);
            let by_one = |slot: usize| {
                let cam = slots.cams[slot];
                let address_bits = [20, 16, 12, 10][(cam & 3) as usize];
                cam & 4 != 0 && cam >> 4 << 10 >> address_bits == number << 10 >> address_bits
            };
            let mut matching = slots.matching(number as u16);
            for slot in (0..SLOTS).filter(|&slot| by_one(slot)) {
                assert_eq!(Slots::lowest(matching), Some(slot));
                matching &= matching - 1;
            }
            assert_eq!(Slots::lowest(matching), None);
        }
    }
}
