//! The second program against the proved implementation, through the byte
//! boundary: answers, the whole state, and every byte of the buffers.
//!
//! NX_LONG multiplies the number of cases, NX_SEED moves the seeds. Without the
//! archive these tests fail; NX_WITHOUT_NATIVE=1 compares the second program
//! with itself, which tries the tests and their coverage.

mod common;

use common::callers::{self, Caller};
use common::coverage::{self, see_list, see_step, Coverage};
use common::groups::Group;
use common::lists::Record;
use common::places::{self, Told};
use common::states;
use common::worlds::{self, World};
use common::*;
use second::boundary::{Program, Second, ANSWER, BILL_AT, CALL, STATE};
use second::builder::{MOST_BYTES, MOST_RECORDS};
use second::dice::Dice;
use second::memory::Memories;
use std::collections::BTreeMap;
use std::fmt::{Arguments, Write as _};

// ---------------------------------------------------------------------------
// One step of both programs

/// Where both programs write: so much room, with this byte in it before.
#[derive(Default)]
struct Buffers {
    room: usize,
    dirt: u8,
    out: Vec<u8>,
    other: Vec<u8>,
}

/// Everything that a list from a state is run with.
struct Step<'a> {
    lending: Lending<'a>,
    state: &'a [u8],
    bill: (f64, f64),
    calls: &'a [u8],
}

impl Step<'_> {
    /// Runs both programs on buffers with the same bytes in them, and compares
    /// what they answer and every byte of the buffers.
    fn compare(&self, rival: &dyn Program, buffers: &mut Buffers, place: &str) -> u64 {
        let Buffers { room, dirt, out, other } = buffers;
        for buffer in [&mut *out, &mut *other] {
            buffer.clear();
            buffer.resize(*room, *dirt);
        }
        let first = Second.from(&self.lending, self.state, self.bill, self.calls, out);
        let second = rival.from(&self.lending, self.state, self.bill, self.calls, other);
        if first != second || out != other {
            panic!("{}", self.difference(rival, place, first, second, out, other));
        }
        first
    }

    /// Each call on its own, from the state that the one before it left: what it
    /// says is what the whole list said, and its place is right.
    fn check_places(&self, out: &[u8], rival: &dyn Program, seen: &mut Coverage, title: &str) {
        let mut before = self.state.to_vec();
        put_double(&mut before, BILL_AT, self.bill.0.to_bits());
        put_double(&mut before, BILL_AT + 8, self.bill.1.to_bits());
        let mut one = [0; ANSWER + STATE];
        for (call, said) in self.calls.chunks(CALL).zip(out.chunks(ANSWER)) {
            rival.from(&self.lending, &before, bill_of(&before), call, &mut one);
            let (got, after) = one.split_at(ANSWER);
            assert_eq!(got, said, "{title}: {} alone", describe(call));
            let told = Told {
                title,
                lending: self.lending,
                before: &before,
                call,
                answer: answer(got, 0),
                from: from(got, 0),
                after,
            };
            told.check([&Second, rival]);
            told.see(seen, rival);
            before.copy_from_slice(after);
        }
    }

    fn difference(
        &self,
        rival: &dyn Program,
        place: &str,
        first: u64,
        second: u64,
        out: &[u8],
        other: &[u8],
    ) -> String {
        let mut text = format!("{place}: second and {} differ\n", rival.name());
        writeln!(text, "written: {first} and {second}").unwrap();
        for (index, call) in self.calls.chunks(CALL).enumerate() {
            if call.len() == CALL {
                writeln!(text, "call {index}: {}", describe(call)).unwrap();
            } else {
                writeln!(text, "call {index}: {call:02x?}").unwrap();
            }
            let at = index * ANSWER;
            if out.len() >= at + ANSWER {
                writeln!(text, "  second {}", hex(&out[at..at + ANSWER])).unwrap();
                writeln!(text, "  other  {}", hex(&other[at..at + ANSWER])).unwrap();
            }
        }
        let state_at = self.calls.len() / CALL * ANSWER;
        for at in (0..out.len()).filter(|&at| out[at] != other[at]) {
            let where_ = at as i64 - state_at as i64;
            writeln!(text, "  byte {at} (state {where_}): {:02x} {:02x}", out[at], other[at])
                .unwrap();
        }
        let lending = &self.lending;
        writeln!(text, "state {}", hex(self.state)).unwrap();
        writeln!(text, "bill {:x?}", [self.bill.0.to_bits(), self.bill.1.to_bits()]).unwrap();
        writeln!(text, "on-chip {:x} + {:x}", lending.on_base, lending.on.len()).unwrap();
        writeln!(text, "external {:x} + {:x}", lending.external_base, lending.external.len())
            .unwrap();
        writeln!(text, "prices {:?} {:?}", lending.on_price, lending.external_price).unwrap();
        text
    }
}

/// Memories that are not refused 4.
fn lawful(lending: &Lending) -> bool {
    let Lending { on, on_base, external, external_base, .. } = *lending;
    Memories::new(on, on_base, external, external_base).lawful()
}

/// The bill of a state.
fn bill_of(state: &[u8]) -> (f64, f64) {
    (View(state).total(), View(state).misses())
}

// ---------------------------------------------------------------------------
// One build of both programs

/// Everything that an image is built with: the memory has other bytes in it.
struct Build<'a> {
    records: &'a [u8],
    base: u32,
    memory: &'a [u8],
}

impl Build<'_> {
    /// Builds with both programs in copies of the memory, and compares what they
    /// answer and every byte. The bytes after an image stay, and all bytes where
    /// there is none.
    fn compare(&self, rival: &dyn Program, title: Arguments) -> u64 {
        let &Build { records, base, memory } = self;
        let place =
            || format!("{title}: base {base:x}, room {}, records {}", memory.len(), hex(records));
        let [mut ours, mut theirs] = [memory.to_vec(), memory.to_vec()];
        let expected = Second.build(records, base, &mut ours);
        let got = rival.build(records, base, &mut theirs);
        assert_eq!(got, expected, "{}: {got:x} {expected:x}", place());
        if ours != theirs {
            let at = (0..memory.len()).find(|&at| ours[at] != theirs[at]).expect("they differ");
            panic!("{}: byte {at:x} is {:02x}, not {:02x}", place(), theirs[at], ours[at]);
        }
        let written = if expected >> 63 == 0 { expected as usize } else { 0 };
        assert!(ours[written..] == memory[written..], "{}: more is written", place());
        expected
    }
}

// ---------------------------------------------------------------------------
// The tests

#[test]
fn sheet() {
    let _turn = turn();
    let rival = rival();
    for (name, row) in rows::ROWS {
        println!("{name}");
        row(&*rival);
    }
}

/// Sessions, one call at a time: after each the answer and the whole state are
/// compared, and the place that it says is checked. Memories, prices, bill and
/// state may be exchanged at any call.
#[test]
fn sessions() {
    let _turn = turn();
    let rival = rival();
    let mut seen = Coverage::default();
    let too_long = worlds::too_long();
    let mut buffers = Buffers::default();
    let mut calls_made = 0_u64;
    for session in 0..4_000 * long() {
        let mut dice = Dice::new(seed(0x5E55_0000_0000 + u64::from(session)));
        let world = World::new(&mut dice);
        let quotes = (worlds::good_quote(&mut dice), worlds::good_quote(&mut dice));
        // How often something is exchanged, once in so many calls.
        let rarely = dice.pick(&[8, 20, 60]);
        let mut caller = Caller::new();
        let mut state: Vec<u8> = states::fresh_state().into();
        if dice.once_in(2) {
            for _ in 0..8 {
                states::stir(&mut dice, &mut state, &world);
            }
        }
        if dice.once_in(2) {
            put_word(&mut state, 4, world.tables);
            put_half(&mut state, 2, 7);
        }
        for index in 0..100 {
            let mut lending = world.lending(quotes.0, quotes.1);
            if dice.once_in(rarely) {
                worlds::bend(&mut dice, &mut lending, &too_long);
            }
            if dice.once_in(rarely) {
                let quote = if dice.once_in(2) {
                    worlds::bad_quote(&mut dice)
                } else {
                    worlds::good_quote(&mut dice)
                };
                if dice.once_in(2) {
                    lending.on_price = quote;
                } else {
                    lending.external_price = quote;
                }
            }
            if dice.once_in(2 * rarely) {
                states::stir(&mut dice, &mut state, &world);
            }
            let mut call = caller.next(&mut dice, &world, View(&state)).to_vec();
            let mut bill = bill_of(&state);
            let mut given = state.clone();
            // Exchanged for this call only.
            let mut passing = false;
            if dice.once_in(2 * rarely) {
                if dice.once_in(2) {
                    bill.0 = worlds::bill_figure(&mut dice);
                } else {
                    bill.1 = worlds::bill_figure(&mut dice);
                }
                passing = !(bill.0.is_finite() && bill.1.is_finite());
                // The state's own bytes for the bill are not looked at.
                dice.fill(&mut given[304..320]);
            }
            if dice.once_in(3 * rarely) {
                states::break_range(&mut dice, &mut given);
                seen.see("device out of range");
                passing = true;
            }
            if dice.once_in(6 * rarely) {
                callers::spoil_call(&mut dice, &mut call);
                seen.see("list not as said");
            }
            if dice.once_in(40) {
                // A few calls at once.
                for _ in 0..1 + dice.below(4) {
                    call.extend(callers::any_call(&mut dice, &world));
                }
            }
            let need = call.len() / CALL * ANSWER + STATE;
            buffers.room = need + dice.pick(&[0, 0, 0, 0, 1, 7, 64]);
            buffers.dirt = dice.word() as u8;
            let step = Step { lending, state: &given, bill, calls: &call };
            let place = format!("session {session}, step {index}");
            let written = step.compare(&*rival, &mut buffers, &place) as usize;
            let Buffers { out, dirt, .. } = &buffers;
            calls_made += 1;
            if written == 0 {
                seen.see("answered 0");
                assert!(out.iter().all(|byte| byte == dirt), "{place}: written though refused");
                continue;
            }
            assert_eq!(written, need);
            assert!(out[need..].iter().all(|byte| byte == dirt));
            step.check_places(out, &*rival, &mut seen, &place);
            let after = &out[need - STATE..need];
            if call.len() == CALL {
                // As it was handed in, to see what has changed.
                put_double(&mut given, BILL_AT, bill.0.to_bits());
                put_double(&mut given, BILL_AT + 8, bill.1.to_bits());
                see_step(&mut seen, &call, answer(out, 0), &given, after);
            } else {
                seen.see("a few calls at once");
            }
            if !passing {
                state.clear();
                state.extend_from_slice(after);
            }
        }
    }
    println!("{calls_made} calls, one at a time");
    assert!(calls_made >= 200_000 * u64::from(long()));

    let mut names: Vec<String> = Vec::new();
    names.extend((1..=9).map(|number| format!("answer {number:03}")));
    names.extend((21..=24).map(|number| format!("answer {number:03}")));
    names.extend([0, 100, 101, 102].map(|number| format!("answer {number:03}")));
    for offset in (0..=0x50_u8).step_by(4) {
        let read_only = [0x04, 0x0C, 0x10, 0x14, 0x44, 0x48, 0x4C, 0x50].contains(&offset);
        let how = if read_only { " refused" } else { "" };
        names.push(format!("write of {offset:02x}{how}"));
        let how = if offset == ACKNOWLEDGE { " refused" } else { "" };
        names.push(format!("read of {offset:02x}{how}"));
    }
    for number in [1, 2, 3, 4, 8, 9, 21, 22, 23, 100] {
        names.push(format!("request answered {number:03}"));
    }
    for number in [0, 2, 3, 4, 5, 6, 7, 8, 9, 21, 22, 23, 24, 100] {
        names.push(format!("write answered {number:03}"));
    }
    for number in [5, 6, 8, 101] {
        names.push(format!("read answered {number:03}"));
    }
    for number in [0, 7, 8] {
        names.push(format!("drop answered {number:03}"));
    }
    for number in [1, 3, 4, 8, 21, 102] {
        names.push(format!("shift report answered {number:03}"));
    }
    names.extend((0..4).map(|kind| format!("fill of type {kind}")));
    names.extend(
        [
            "hit",
            "miss, walked and found",
            "section found",
            "page of a table found",
            "fault at the first level",
            "fault at the second level",
            "permission fault on a match",
            "permission fault after a walk",
            "attempt while off",
            "retry got an address",
            "retry got a fault",
            "retry got another fault",
            "retry while off",
            "retry refused 3",
            "address with bit 31",
            "attempt meter at its stop",
            "words meter at its stop",
            "smoothing from below zero",
            "a row moved",
            "no row before",
            "prefetch on a match",
            "prefetch filled",
            "prefetch fault",
            "pending prefetch dropped",
            "acknowledge with bit 0 clear",
            "fill of slot 31",
            "fill with the victim below the base",
            "victim back to the base",
            "locked slot flushed",
            "unlocked slot preserved",
            "entry flush of one slot",
            "entry flush of more slots",
            "reset",
            "load",
            "copy",
            "distance below zero",
            "distance above zero",
            "device out of range",
            "list not as said",
            "answered 0",
            "a few calls at once",
        ]
        .map(String::from),
    );
    names.extend(places::KINDS.map(String::from));
    names.extend(coverage::words());
    seen.demand(20, &names);
}

/// A group of words that are equal but for one, at every place of it: a walk takes the
/// word that it reads, and from then on the slot serves all of that word's page. What
/// comes of each call is said here.
#[test]
fn unequal_groups() {
    let _turn = turn();
    let rival = rival();
    let mut seen = Coverage::default();
    let mut buffers = Buffers { dirt: 0xC3, ..Buffers::default() };
    let mut compare = |group: &Group, first: u32, then: u32| {
        let (memory, state) = (group.memory(), states::fresh_state());
        let lending = Lending::plain(&memory, rows::BASE);
        let [one, two] = [first, then].map(|n| group.address(n));
        let report = (shift(two), group.distance(then), group.place(then));
        let filled = if group.is_page(first) { 0 } else { 24 };
        // Where the first word is a page that holds the other address, it counts there.
        let held = group.holds(first, then);
        let (served, place) =
            if held { (group.word(first), 0) } else { (group.word(then), group.place(then)) };
        for (call, said) in [
            (request(0, one), group.says(group.word(first), 0, one)),
            (request(1, one), group.says(group.word(first), 1, one)),
            (write(PREFETCH, (one >> 10) as u16), (filled, 0)),
        ] {
            let dropped = if matches!(said.0, 0 | 100) { 7 } else { 0 };
            let rows = [
                report,
                (call, said, group.place(first)),
                (drop_fault(), (dropped, 0), 0),
                (request(1, two), group.says(served, 1, two), place),
                report,
            ];
            let start = rows::start();
            let calls = [start.concat(), rows.map(|(call, ..)| call).concat()].concat();
            let Group { count, broken, odd, .. } = group;
            let title = format!("{odd:08x} at {broken} of {count}, {first} and then {then}");
            let step = Step { lending, state: &state, bill: (0.0, 0.0), calls: &calls };
            buffers.room = calls.len() / CALL * ANSWER + STATE;
            let written = step.compare(&*rival, &mut buffers, &title);
            assert_eq!(written, buffers.room as u64, "{title}");
            for (n, (call, said, place)) in (start.len()..).zip(rows) {
                let got = (answer(&buffers.out, n), from(&buffers.out, n));
                assert_eq!(got, (said, place), "{title}: {}", describe(&call));
            }
            step.check_places(&buffers.out, &*rival, &mut seen, &title);
        }
        seen.see_if(held && first == group.broken, "the odd word's slot in place of another");
        seen.see_if(held && then == group.broken, "another word's slot in place of the odd one");
        seen.see_if(!held && group.is_page(first), "two walks in a group");
    };
    // Coarse or fine table, and how often a large or small page's word stands in it.
    for (table, word, count) in [(1, 0x1234_0031, 16), (3, 0x1234_0031, 64), (3, 0x1234_0032, 4)] {
        // A fault, pages of all three types with ignored bits, and the same page to be
        // read only.
        for odd in [0x1234_0030, 0x9876_FFF1, 0x9876_5FEE, 0x9876_57FF, word ^ 0x10] {
            for broken in 0..count {
                let group = Group { table, count, word, broken, odd };
                for n in [0, count / 2, count - 1].into_iter().filter(|&n| n != broken) {
                    compare(&group, broken, n);
                    compare(&group, n, broken);
                }
            }
        }
    }
    let names = [
        "the odd word's slot in place of another",
        "another word's slot in place of the odd one",
        "two walks in a group",
    ];
    seen.demand(100, &names.map(String::from));
}

/// Whole lists through run, their prefixes, and the same list one call at a
/// time through from: all agree.
#[test]
fn whole_lists() {
    let _turn = turn();
    let rival = rival();
    let mut calls_made = 0;
    let mut numbers = BTreeMap::new();
    for round in 0..400 * long() {
        let mut dice = Dice::new(seed(0x1157_0000_0000 + u64::from(round)));
        let world = World::new(&mut dice);
        let lending = world.lending(worlds::good_quote(&mut dice), worlds::good_quote(&mut dice));
        let mut caller = Caller::new();
        let mut list: Vec<u8> = Vec::new();
        let mut states = vec![states::fresh_state().to_vec()];
        let mut answers: Vec<u8> = Vec::new();
        let mut out = [0; ANSWER + STATE];
        for _ in 0..1 + dice.below(300) {
            let state = &states[states.len() - 1];
            let call = caller.next(&mut dice, &world, View(state));
            let written = rival.from(&lending, state, bill_of(state), &call, &mut out);
            assert_eq!(written, out.len() as u64);
            *numbers.entry(answer(&out, 0).0).or_insert(0) += 1;
            answers.extend_from_slice(&out[..ANSWER]);
            states.push(out[ANSWER..].to_vec());
            list.extend(call);
        }
        let count = states.len() - 1;
        calls_made += count;
        let prefixes = (0..4).map(|_| dice.below(count as u32 + 1) as usize);
        for length in prefixes.chain([0, count]) {
            let expected = [&answers[..length * ANSWER], &states[length]].concat();
            for program in [&Second as &dyn Program, &*rival] {
                let mut out = vec![0x3C; expected.len() + 5];
                let written = program.run(&lending, &list[..length * CALL], &mut out);
                let place = format!("list {round}, {length} calls, {}", program.name());
                assert_eq!(written, expected.len() as u64, "{place}");
                let (written, rest) = out.split_at(expected.len());
                for (index, call) in list[..length * CALL].chunks(CALL).enumerate() {
                    let at = index * ANSWER..(index + 1) * ANSWER;
                    let (got, expected) = (&written[at.clone()], &expected[at]);
                    assert_eq!(got, expected, "{place}: call {index}, {}", describe(call));
                }
                assert!(written == expected, "{place}: the states differ");
                assert_eq!(rest, [0x3C; 5], "{place}");
            }
        }
    }
    println!("{calls_made} calls in lists; answers {numbers:?}");
    assert!(calls_made as u64 >= 20_000 * u64::from(long()));
}

/// The same bytes, lent with 4,096 others before them from a base 4,096 lower:
/// of all that a list writes, only the offsets of that memory's places change,
/// by 4,096. No call of the list is refused 3, for the bytes before might hold
/// the word that it needs.
#[test]
fn places_shift_with_the_base() {
    const MORE: u32 = 4_096;
    let _turn = turn();
    let rival = rival();
    let mut seen = Coverage::default();
    for round in 0..600 * long() {
        let mut dice = Dice::new(seed(0x91AC_0000_0000 + u64::from(round)));
        let world = World::new(&mut dice);
        let lending = world.lending(worlds::good_quote(&mut dice), worlds::good_quote(&mut dice));
        let mut caller = Caller::new();
        let mut list: Vec<u8> = Vec::new();
        let mut state = states::fresh_state();
        let mut out = [0; ANSWER + STATE];
        for _ in 0..1 + dice.below(300) {
            let call = caller.next(&mut dice, &world, View(&state));
            Second.from(&lending, &state, bill_of(&state), &call, &mut out);
            if answer(&out, 0).0 != 3 {
                state.copy_from_slice(&out[ANSWER..]);
                list.extend(call);
            }
        }
        let count = list.len() / CALL;
        let [on, external] = [lending.on, lending.external].map(|memory| {
            let mut bytes = vec![0; MORE as usize + memory.len()];
            let (more, same) = bytes.split_at_mut(MORE as usize);
            dice.fill(more);
            same.copy_from_slice(memory);
            bytes
        });
        // The on-chip memory, the external one, both: by the sum of their numbers.
        for lowered in 1..=3 {
            let mut other = lending;
            if lowered & 1 != 0 {
                other.on = &on;
                other.on_base = other.on_base.wrapping_sub(MORE);
            }
            if lowered & 2 != 0 {
                other.external = &external;
                other.external_base = other.external_base.wrapping_sub(MORE);
            }
            if !lawful(&other) {
                continue;
            }
            for program in [&Second as &dyn Program, &*rival] {
                let play = |lending: &Lending| {
                    let mut out = vec![0x3C; count * ANSWER + STATE];
                    assert_eq!(program.run(lending, &list, &mut out), out.len() as u64);
                    out
                };
                let (plain, got) = (play(&lending), play(&other));
                let mut expected = plain.clone();
                for (index, call) in list.chunks(CALL).enumerate() {
                    let place = from(&plain, index);
                    let moves = place >> 28 & lowered != 0;
                    if moves {
                        put_word(&mut expected, index * ANSWER + 4, place + MORE);
                    }
                    let at = index * ANSWER..(index + 1) * ANSWER;
                    let title = format!("list {round}, call {index} of {}", program.name());
                    assert_eq!(got[at.clone()], expected[at], "{title}: {}", describe(call));
                    let memory = ["no", "on-chip", "external"][(place >> 28) as usize];
                    let how = if moves { "moved" } else { "where it was" };
                    seen.see(format!("{memory} place {how}"));
                }
                assert!(got == expected, "list {round}, {}: the states differ", program.name());
            }
        }
    }
    let names = [
        "on-chip place moved",
        "external place moved",
        "on-chip place where it was",
        "external place where it was",
        "no place where it was",
    ];
    seen.demand(1_000, &names.map(String::from));
}

/// Lists, prices, buffers and states that are not as said: 0, and `out` unchanged.
#[test]
fn not_as_said() {
    let _turn = turn();
    let rival = rival();
    let good = [write(CONTROL, 7), request(1, 0x12_3456), drop_fault(), shift(0), read(0)].concat();
    let fresh = states::fresh_state();
    let lending = Lending::plain(&[], 0);
    let check = |lending: &Lending, state: &[u8], calls: &[u8], room: usize, zero: bool| {
        for program in [&Second as &dyn Program, &*rival] {
            let name = program.name();
            let mut out = vec![0xC3; room];
            let written = program.from(lending, state, (0.0, 0.0), calls, &mut out);
            assert_eq!(written == 0, zero, "{name}: {}", hex(calls));
            assert_eq!(out.iter().all(|&byte| byte == 0xC3), zero, "{name}");
            if state == fresh {
                let mut out = vec![0xC3; room];
                let written = program.run(lending, calls, &mut out);
                assert_eq!(written == 0, zero, "{name}: {}", hex(calls));
                assert_eq!(out.iter().all(|&byte| byte == 0xC3), zero, "{name}");
            }
        }
    };
    let room = 5 * ANSWER + STATE;
    check(&lending, &fresh, &good, room, false);
    check(&lending, &fresh, &good, room + 100, false);
    check(&lending, &fresh, &[], STATE, false);
    for short in [0, 1, STATE, room - ANSWER, room - 1] {
        check(&lending, &fresh, &good, short, true);
    }
    check(&lending, &fresh, &[], STATE - 1, true);
    for length in (0..good.len()).filter(|length| length % CALL != 0) {
        check(&lending, &fresh, &good[..length], room, true);
    }
    // Kinds, the two zero bytes and the value of each call; access of a request.
    for at in 0..good.len() {
        let bytes: &[u8] = match at % CALL {
            0 => &[0, 6, 7, 16, 128, 255],
            1 if at / CALL == 1 => &[2, 3, 128, 255],
            2 | 3 | 10 | 11 => &[1, 2, 128, 255],
            _ => continue,
        };
        for &byte in bytes {
            let mut bad = good.clone();
            bad[at] = byte;
            check(&lending, &fresh, &bad, room, true);
        }
    }
    for kind in [2, 3, 256, u32::MAX] {
        let bad = Lending { on_price: (kind, 1.0, 1.0), ..lending };
        check(&bad, &fresh, &good, room, true);
        let bad = Lending { external_price: (kind, 1.0, 1.0), ..lending };
        check(&bad, &fresh, &good, room, true);
    }
    for length in [0, 1, 327, 329, 656] {
        check(&lending, &vec![0; length], &good, room, true);
    }
    for at in [286, 287] {
        for byte in [1, 2, 128, 255] {
            let mut state = fresh;
            state[at] = byte;
            check(&lending, &state, &good, room, true);
        }
    }
    for status in 0..=255 {
        let mut state = fresh;
        state[284] = status;
        check(&lending, &state, &good, room, ![0, 1, 2, 4, 8].contains(&status));
        for access in [2, 3, 128, 255] {
            state[285] = access;
            check(&lending, &state, &good, room, true);
        }
    }
}

/// Fields that a call does not have are zero: the address of a write, a read
/// or a drop, the second byte of a drop or a shift report, the value of all
/// but a write. Where one is not, the list is not as said.
#[test]
fn unused_fields() {
    let _turn = turn();
    let rival = rival();
    let plain =
        [write(CONTROL, 7), request(1, 0x12_3456), drop_fault(), shift(0), read(0)].concat();
    let lending = Lending::plain(&[0; 64], 0);
    for program in [&Second as &dyn Program, &*rival] {
        for at in 0..plain.len() {
            let field = (plain[at / CALL * CALL], at % CALL);
            if matches!(field, (1 | 2 | 4, 4..=7) | (4 | 5, 1) | (2..=5, 8 | 9)) {
                let mut other = plain.clone();
                other[at] = 0xFF;
                let mut out = vec![0xC3; 5 * ANSWER + STATE];
                assert_eq!(
                    program.run(&lending, &other, &mut out),
                    0,
                    "{} at byte {at}",
                    program.name()
                );
                assert!(out.iter().all(|&byte| byte == 0xC3), "{} at byte {at}", program.name());
            }
        }
    }
}

/// Every offset that a call can carry, in a few states, written and read.
#[test]
fn every_offset() {
    let _turn = turn();
    let rival = rival();
    let mut dice = Dice::new(seed(0x0FF5));
    let mut buffers = Buffers::default();
    for round in 0..8 * long() {
        let world = World::new(&mut dice);
        let lending = world.lending((0, 1.0, 0.0), (1, 2.0, 3.0));
        let mut state: Vec<u8> = states::fresh_state().into();
        for _ in 0..round {
            states::stir(&mut dice, &mut state, &world);
        }
        for offset in 0..=255 {
            let values = [0, 1, 2, 3, 4, 7, 0x4000, 0x8000, 0xFFFF, dice.word() as u16];
            let calls = values.map(|value| write(offset, value));
            for call in calls.into_iter().chain([read(offset)]) {
                let bill = bill_of(&state);
                let step = Step { lending, state: &state, bill, calls: &call };
                let place = format!("offset {offset:02x}, round {round}");
                buffers.room = ANSWER + STATE;
                step.compare(&*rival, &mut buffers, &place);
            }
        }
    }
}

/// The four bytes at any address.
#[test]
fn fetches() {
    let _turn = turn();
    let rival = rival();
    let too_long = worlds::too_long();
    let mut seen = Coverage::default();
    for round in 0..2_000 * long() {
        let mut dice = Dice::new(seed(0xFE7C_0000_0000 + u64::from(round)));
        let world = World::new(&mut dice);
        let mut lending = world.lending((0, 0.0, 0.0), (0, 0.0, 0.0));
        if dice.once_in(2) {
            worlds::bend(&mut dice, &mut lending, &too_long);
        }
        for _ in 0..16 {
            let (base, length) = if dice.once_in(2) {
                (lending.on_base, lending.on.len())
            } else {
                (lending.external_base, lending.external.len())
            };
            let address = match dice.below(4) {
                0 => base.wrapping_add(dice.below(16)).wrapping_sub(8),
                1 => base.wrapping_add(length as u32).wrapping_add(dice.below(16)).wrapping_sub(8),
                2 => base.wrapping_add(dice.below(length as u32 + 1)),
                _ => dice.pick(&[0, 1, 3, 0xFFFF_FFFC, 0xFFFF_FFFD, u32::MAX]),
            };
            let expected = Second.fetch(&lending, address);
            assert_eq!(rival.fetch(&lending, address), expected, "{address:x}, round {round}");
            seen.see(["nowhere", "on-chip", "external"][(expected >> 60) as usize]);
            seen.see_if(expected != 0 && address % 4 != 0, "unaligned");
        }
    }
    seen.demand(1_000, &["nowhere", "on-chip", "external", "unaligned"].map(String::from));
}

/// Builds: answers and every byte of a memory that had other bytes in it.
#[test]
fn builds() {
    let _turn = turn();
    let rival = rival();
    let mut seen = Coverage::default();
    let full = format!("built with {MOST_RECORDS} records");
    let past = format!("refused 10 at {MOST_RECORDS}");
    let rounds = 24_000 * long();
    for round in 0..rounds {
        let mut dice = Dice::new(seed(0xB111_0000_0000 + u64::from(round)));
        let list = match dice.below(40) {
            0 => lists::full(&mut dice),
            1 => lists::good(&mut dice, MOST_RECORDS as u32),
            2 | 3 => lists::good(&mut dice, 100),
            4 | 5 => vec![],
            6..=9 => lists::mixed(&mut dice),
            _ => {
                let most = 1 + dice.below(24);
                lists::good(&mut dice, most)
            }
        };
        let mut records = lists::bytes(&list);
        for _ in 0..dice.pick(&[0, 0, 0, 0, 1, 1, 1, 2, 3]) {
            lists::spoil(&mut dice, &mut records);
        }
        // The length that the image would have, if it has one.
        let mut scratch = [0; 131_072];
        let need = second::builder::build(&records, 0, &mut scratch).unwrap_or(64);
        let length = match dice.below(24) {
            0 => dice.pick(&[0, 4, 60, 64, 68]),
            1 | 2 => need - 4,
            3 | 4 => need,
            5 => need + 1 + dice.below(8) as usize,
            6 => 65_536,
            7 => dice.pick(&[131_068, 131_072, 131_076, 131_080, 131_073]),
            8 => 4 * dice.below(3_000) as usize,
            _ => need + 4 * dice.below(100) as usize,
        };
        let base = match dice.below(16) {
            0 => dice.word(),
            1 => dice.word() & !3,
            2 => dice.word() & !0x3FF,
            3 => 0xFFFF_F000,
            4 => (length as u32).wrapping_neg() & !0xFFF,
            5 => ((length as u32).wrapping_neg() & !0xFFF).wrapping_sub(0x1000),
            6 => 0,
            _ => dice.word() & 0xFFFE_0000,
        };
        let mut memory = vec![0; length];
        dice.fill(&mut memory);
        let build = Build { records: &records, base, memory: &memory };
        let answer = build.compare(&*rival, format_args!("build {round}"));
        if answer >> 63 == 0 {
            let image = answer as usize;
            seen.see("built");
            seen.see_if(image == length, "built with no room left");
            seen.see_if(image == 64, "built with no second level");
            seen.see_if(image > 65_536, "built past 65,536 bytes");
            seen.see_if(records.len() == MOST_BYTES, &full);
            see_list(&mut seen, &lists::records(&records));
        } else {
            seen.see(format!("refused {:02}", answer >> 32 & 0xFF));
            seen.see_if(answer == refused(10, MOST_RECORDS as u64), &past);
            seen.see_if(answer as u32 > 0, "refused past the first");
        }
    }
    println!("{rounds} builds");
    let mut names = coverage::LISTS.map(String::from).to_vec();
    let others = [
        "refused 04",
        "refused 10",
        "refused 11",
        "refused 12",
        &past,
        "refused past the first",
        "built",
        "built with no room left",
        "built with no second level",
        "built past 65,536 bytes",
        &full,
    ];
    names.extend(others.map(String::from));
    seen.demand(20, &names);
}

/// Lists that are as long as they may be, or a little shorter or longer, in the
/// figures of P5: what comes of each is said here.
#[test]
fn limit_of_records() {
    const SORTS: [(&str, &[u8], usize); 6] = [
        ("tiny pages, near one another", &[3], 2),
        ("tiny pages", &[3], 16),
        ("small pages, near one another", &[2], 5),
        ("small pages", &[2], 16),
        ("all kinds, near one another", &lists::ALL_KINDS, 4),
        ("all kinds", &lists::ALL_KINDS, 16),
    ];
    // A byte of a record, and what makes the record bad there.
    const BAD: [(usize, u8); 8] =
        [(0, 1), (3, 1), (4, 1), (8, 4), (9, 1), (9, 4), (10, 1), (11, 1)];
    let _turn = turn();
    let rival = rival();
    let mut seen = Coverage::default();
    // Sixteen fine tables have room, with some bytes after them.
    let mut memory = vec![0; 70_000];
    for round in 0..6 * long() {
        let mut dice = Dice::new(seed(0x1024_0000_0000 + u64::from(round)));
        dice.fill(&mut memory);
        for (sort, kinds, megabytes) in SORTS {
            let list = lists::exactly(&mut dice, 1_025, kinds, megabytes);
            let records = lists::bytes(&list);
            let base = dice.word() & 0xFFFE_0000;
            let build = |records: &[u8], room: usize, what: Arguments| {
                let build = Build { records, base, memory: &memory[..room] };
                build.compare(&*rival, format_args!("{what}, {sort}, round {round}"))
            };
            let expect = |records: &[u8], expected: u64, what: Arguments| {
                let got = build(records, memory.len(), what);
                assert_eq!(got, expected, "{what}, {sort}, round {round}: {got:x} {expected:x}");
            };

            // These are built, in no less room than the image takes.
            for count in [700, 1_023, 1_024] {
                let what = format_args!("{count} records");
                let records = &records[..12 * count];
                let image = build(records, memory.len(), what);
                assert!(image >> 63 == 0, "{what}, {sort}, round {round}: {image:x}");
                assert_eq!(build(records, image as usize, what), image);
                assert_eq!(build(records, image as usize - 4, what), refused(12, count as u64));
            }

            // These are not, however many bytes there are of the 1,025th, or after it.
            for length in [12_289, 12_290, 12_299, 12_300] {
                expect(&records[..length], refused(10, 1_024), format_args!("{length} bytes"));
            }
            let twice = [&records[..], &records].concat();
            expect(&twice, refused(10, 1_024), format_args!("2,050 records"));
            expect(&records[..12_287], refused(10, 1_023), format_args!("12,287 bytes"));

            // One record overlaps an earlier one or is bad, in a list of 1,024 and in one
            // of 1,025.
            for at in [1, 2 + dice.below(1_021) as usize, 1_023, 1_024] {
                let earlier = list[dice.below(at as u32) as usize];
                let overlap = |kind| (Record::holding(earlier.virtual_start, kind).bytes(), 11);
                let bad = |(byte, value): (usize, u8)| {
                    let mut record = list[at].bytes();
                    record[byte] = value;
                    (record, 10)
                };
                for (record, number) in (0..4).map(overlap).chain(BAD.map(bad)) {
                    let mut records = records.clone();
                    records[12 * at..][..12].copy_from_slice(&record);
                    // The 1,025th is past the limit before it is anything else.
                    let number = if at == 1_024 { 10 } else { number };
                    for length in [12_288, 12_300] {
                        if 12 * at < length {
                            let what = format_args!("{} at {at} of {length} bytes", hex(&record));
                            expect(&records[..length], refused(number, at as u64), what);
                        }
                    }
                }
            }
            let has = |kind| list.iter().any(|record| record.kind == kind);
            seen.see_if((0..4).all(has), "a list with all kinds");
        }
    }
    seen.demand(4, &["a list with all kinds".into()]);
}
