//! Where the word came from (P6): what bytes 4 to 7 of an answer have to say of
//! a call, seen from what was lent, what came out, and the fetch.

use super::coverage::{see_word, Coverage};
use super::*;
use second::boundary::{ANSWER, METERS_AT, STATE};

/// A call, run on its own from a state, and what came of it.
pub struct Told<'a> {
    /// Which call of which test, for messages.
    pub title: &'a str,
    pub lending: Lending<'a>,
    pub before: &'a [u8],
    pub call: &'a [u8],
    pub answer: (u32, i64),
    pub from: u32,
    pub after: &'a [u8],
}

/// The page that a walk found, by its first-level word and its last one: its type and
/// how many low bits it has. `None` where that is no page.
fn page(first: u32, last: u32) -> Option<(u32, u32)> {
    match (first & 3, last & 3) {
        (2, _) => Some((0, 20)),
        (1 | 3, 1) => Some((1, 16)),
        (1 | 3, 2) => Some((2, 12)),
        (3, 3) => Some((3, 10)),
        _ => None,
    }
}

impl Told<'_> {
    /// The call in words, with what it answered.
    fn message(&self) -> String {
        let (number, value) = self.answer;
        let (title, call, from) = (self.title, describe(self.call), self.from);
        format!("{title}: {call} answers {number} {value:x} from {from:08x}")
    }

    fn is(&self, kind: u8) -> bool {
        self.call[0] == kind
    }

    fn writes(&self, offset: u8) -> bool {
        self.is(boundary::WRITE) && self.call[1] == offset
    }

    /// The virtual address that the call would walk for.
    fn address(&self) -> u32 {
        if self.writes(PREFETCH) {
            u32::from(half(self.call, 8) & 0x3FFF) << 10
        } else if self.writes(ACKNOWLEDGE) {
            View(self.before).pending().2
        } else {
            word(self.call, 4)
        }
    }

    /// The words that the call metered. Near the meter's stop it is run again
    /// with that meter at zero, which plays no part in its answer.
    fn words(&self, program: &dyn Program) -> u32 {
        let (old, new) = (View(self.before), View(self.after));
        if old.words() < u32::MAX - 1 {
            return new.words() - old.words();
        }
        let mut state = self.before.to_vec();
        put_word(&mut state, METERS_AT + 8, 0);
        let mut out = [0; ANSWER + STATE];
        let bill = (old.total(), old.misses());
        program.from(&self.lending, &state, bill, self.call, &mut out);
        let said = (answer(&out, 0), from(&out, 0));
        assert_eq!(said, (self.answer, self.from), "{}", self.message());
        View(&out[ANSWER..]).words()
    }

    /// Where the call's first-level word is, and what a fetch gives there.
    fn first(&self, program: &dyn Program) -> (u32, u64) {
        let at = View(self.before).base().wrapping_add(self.address() >> 20 << 2);
        (at, program.fetch(&self.lending, at))
    }

    /// A place is said exactly where the call walked; then both programs fetch
    /// a word there, it is the one that the tables lead to, its row is the last
    /// of its memory, it says what the answer says, and the slot that was filled is
    /// of that word's own kind.
    pub fn check(&self, programs: [&dyn Program; 2]) {
        let [program, _] = programs;
        let words = self.words(program);
        let (number, value) = self.answer;
        let report = self.is(boundary::SHIFT);
        let walked = if report { matches!(number, 21 | 102) } else { words > 0 };
        assert_eq!(self.from != 0, walked, "{}, {words} words", self.message());
        if !walked {
            return;
        }
        let (memory, offset) = (self.from >> 28, self.from & 0x0FFF_FFFF);
        let base = match memory {
            1 => self.lending.on_base,
            2 => self.lending.external_base,
            _ => panic!("{}: no memory has that number", self.message()),
        };
        let at = base.wrapping_add(offset);
        let [last, _] = programs.map(|program| {
            let fetched = program.fetch(&self.lending, at);
            let name = program.name();
            assert_eq!(fetched >> 32, u64::from(self.from), "{}, fetch of {name}", self.message());
            fetched as u32
        });

        let address = self.address();
        let (first_at, first) = self.first(program);
        let first = first as u32;
        let (led_to, read) = match first & 3 {
            1 => ((first & !0x3FF) + (address >> 12 & 0xFF) * 4, 2),
            3 => ((first & !0xFFF) + (address >> 10 & 0x3FF) * 4, 2),
            _ => (first_at, 1),
        };
        assert_eq!(at, led_to, "{}, tables lead to {led_to:08x}", self.message());
        if !report {
            let row = View(self.after).row(memory as usize - 1);
            assert_eq!((words, row), (read, at >> 10), "{}", self.message());
        }

        let page = page(first, last);
        let access = if read == 1 { last >> 10 & 3 } else { last >> 4 & 3 };
        let leads_to = |physical: i64| {
            page.is_some_and(|(_, bits)| {
                let within = (1 << bits) - 1;
                physical == i64::from(last & !within | address & within)
            })
        };
        let agrees = match number {
            100 => leads_to(value),
            102 => leads_to(value + i64::from(address)),
            // A prefetch that filled a slot.
            0 => page.is_some(),
            23 => page.is_some() && access < 2 + u32::from(View(self.after).pending().1),
            _ => page.is_none(),
        };
        assert!(agrees, "{}, where {last:08x} is", self.message());
        if let (Some((kind, bits)), false) = (page, report) {
            // Page number, V and type; frame and access.
            let upper = u32::MAX << bits;
            let cam = (address & upper) >> 6 | 4 | kind;
            let ram = last & upper | access << 8;
            let old = View(self.before);
            let slot = old.victim().max(old.lock_base());
            let halves = [cam >> 16, cam & 0xFFFF, ram >> 16, ram & 0xFFFF];
            let filled = View(self.after).slot(slot.into()).map(u32::from);
            assert_eq!(filled, halves, "{}, slot {slot}", self.message());
        }
    }

    /// What kind of place was said, or of call without one.
    pub fn see(&self, seen: &mut Coverage, program: &dyn Program) {
        let (number, _) = self.answer;
        let old = View(self.before);
        let (request, report) = (self.is(boundary::REQUEST), self.is(boundary::SHIFT));
        let (prefetch, acknowledge) = (self.writes(PREFETCH), self.writes(ACKNOWLEDGE));
        if self.from != 0 {
            let first = self.first(program).1;
            let two = matches!(first & 3, 1 | 3);
            let fault = matches!(number, 21 | 24);
            seen.see(["", "place on-chip", "place external"][(self.from >> 28) as usize]);
            seen.see_if(self.from == 0x1000_0000, "place of the first word on-chip");
            seen.see_if(self.from == 0x2000_0000, "place of the first word external");
            let other = two && first >> 60 != u64::from(self.from >> 28);
            seen.see_if(other, "place in another memory than the first word's");
            seen.see_if(!two && !fault, "place of a section");
            seen.see_if(two && !fault, "place of a page of a table");
            seen.see_if(!two && fault, "place of a fault at the first level");
            seen.see_if(two && fault, "place of a fault at the second level");
            if two {
                let base = [0, self.lending.on_base, self.lending.external_base];
                let at = base[(self.from >> 28) as usize] + (self.from & 0x0FFF_FFFF);
                see_word(seen, &self.lending, first as u32, at);
            }
            seen.see_if(number == 23, "place of a permission fault after a walk");
            seen.see_if(request && number == 100, "place of a request's address");
            seen.see_if(request && number != 100, "place of a request's fault");
            seen.see_if(acknowledge && number == 100, "place of a retry's address");
            seen.see_if(acknowledge && number != 100, "place of a retry's fault");
            seen.see_if(prefetch && number == 0, "place of a prefetch that filled");
            seen.see_if(prefetch && number == 24, "place of a prefetch fault");
            seen.see_if(report && number == 102, "place of a distance");
            seen.see_if(report && number == 21, "place of a shift report's fault");
            seen.see_if(!report && old.words() == u32::MAX, "place with the meter at its stop");
            return;
        }
        let attempt = request || acknowledge;
        let matched = attempt && old.on() && matches!(number, 23 | 100);
        seen.see_if(matched && number == 100, "no place on a match");
        seen.see_if(matched && number == 23, "no place of a permission fault on a match");
        seen.see_if(matched && acknowledge, "no place of a retry on a match");
        seen.see_if(prefetch && number == 0, "no place of a prefetch on a match");
        seen.see_if(attempt && number == 22, "no place of a miss");
        seen.see_if(attempt && number == 100 && !old.on(), "no place while off");
        if matches!(number, 1..=9) {
            seen.see(format!("no place, refused {number}"));
        }
        if number == 3 {
            seen.see_if(self.first(program).1 != 0, "no place, refused 3 after the first word");
            seen.see_if(acknowledge, "no place of a retry refused 3");
            seen.see_if(prefetch, "no place of a prefetch refused 3");
            seen.see_if(report, "no place of a shift report refused 3");
        }
        if acknowledge && number == 0 {
            let clear = self.call[8] & 1 == 0;
            seen.see_if(clear, "no place of an acknowledge with bit 0 clear");
            seen.see_if(!clear, "no place of a dropped prefetch");
        }
        seen.see_if(self.is(boundary::READ), "no place of a read");
        seen.see_if(self.is(boundary::DROP), "no place of a drop");
        let other = self.is(boundary::WRITE) && !prefetch && !acknowledge;
        seen.see_if(other, "no place of another write");
    }
}

/// What `see` must have seen.
pub const KINDS: [&str; 43] = [
    "place on-chip",
    "place external",
    "place of the first word on-chip",
    "place of the first word external",
    "place in another memory than the first word's",
    "place of a section",
    "place of a page of a table",
    "place of a fault at the first level",
    "place of a fault at the second level",
    "place of a permission fault after a walk",
    "place of a request's address",
    "place of a request's fault",
    "place of a retry's address",
    "place of a retry's fault",
    "place of a prefetch that filled",
    "place of a prefetch fault",
    "place of a distance",
    "place of a shift report's fault",
    "place with the meter at its stop",
    "no place on a match",
    "no place of a permission fault on a match",
    "no place of a retry on a match",
    "no place of a prefetch on a match",
    "no place of a miss",
    "no place while off",
    "no place, refused 1",
    "no place, refused 2",
    "no place, refused 3",
    "no place, refused 4",
    "no place, refused 5",
    "no place, refused 6",
    "no place, refused 7",
    "no place, refused 8",
    "no place, refused 9",
    "no place, refused 3 after the first word",
    "no place of a retry refused 3",
    "no place of a prefetch refused 3",
    "no place of a shift report refused 3",
    "no place of an acknowledge with bit 0 clear",
    "no place of a dropped prefetch",
    "no place of a read",
    "no place of a drop",
    "no place of another write",
];
