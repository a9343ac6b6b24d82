//! "When the unit says no": answers and their numbers, and what stands beside one.

use crate::memory::Place;

/// Refusals 1 to 12, 16 (P1), and 17 and 18 (P4). A refused call changes nothing at all.
/// They and the faults are as wide as an address: every outcome then has one
/// layout, quick to hand over.
#[derive(Clone, Copy, PartialEq, Eq, Debug)]
#[repr(u32)]
pub enum Refusal {
    /// A virtual address of 2^24 or more.
    Address = 1,
    /// A request or a prefetch while a fault is pending.
    Pending = 2,
    /// A descriptor that the walk needs is in neither memory.
    Nowhere = 3,
    /// A memory that may not be lent, alone or beside the other; an image of no whole words.
    Memory = 4,
    /// A register offset that there is not.
    Offset = 5,
    /// A write to a read register, or a read of acknowledge.
    Direction = 6,
    /// Load, prefetch, acknowledge or drop at the wrong moment.
    Moment = 7,
    /// A field out of its range.
    Range = 8,
    /// A price or a bill figure that is none.
    Price = 9,
    /// A record that is bad, short or past the limit.
    Record = 10,
    /// A record that overlaps an earlier one.
    Overlap = 11,
    /// An image longer than the memory, or a list of pages, a recording or its calls longer
    /// than the room.
    Room = 12,
    /// A call or a block of a recording that is not as said, or one too many.
    Recording = 16,
    /// A table that does not lie wholly inside the memory.
    Outside = 17,
    /// A large or small word whose group differs.
    Unequal = 18,
}

/// A refusal that names something: the index of a record, a call or a block, a count, the
/// address of a word; refusal 4 names nothing, which is 0.
#[derive(Clone, Copy, PartialEq, Eq, Debug)]
pub struct Refused {
    pub refusal: Refusal,
    pub at: u32,
}

impl Refused {
    /// As it crosses the boundary: 2^63 + number * 2^32 + what it names.
    pub const fn number(self) -> u64 {
        1 << 63 | (self.refusal as u64) << 32 | self.at as u64
    }
}

/// Faults 21 to 24. They are answers, and leave a pending fault behind.
#[derive(Clone, Copy, PartialEq, Eq, Debug)]
#[repr(u32)]
pub enum Fault {
    Translation = 21,
    Miss = 22,
    Permission = 23,
    Prefetch = 24,
}

impl Fault {
    /// The bit of the fault status register (Table 9).
    #[inline]
    pub const fn status(self) -> u8 {
        1 << (self as u32 - Fault::Translation as u32)
    }

    /// The fault of a status register's value, where it is exactly one bit.
    pub const fn from_status(status: u8) -> Option<Fault> {
        match status {
            1 => Some(Fault::Translation),
            2 => Some(Fault::Miss),
            4 => Some(Fault::Permission),
            8 => Some(Fault::Prefetch),
            _ => None,
        }
    }
}

/// What a call of the unit answers.
#[derive(Clone, Copy, PartialEq, Eq, Debug)]
pub enum Answer {
    /// Accepted, with nothing to say.
    Done,
    /// A physical address.
    Physical(u32),
    /// A register's value.
    Value(u16),
    /// Physical minus virtual, of a shift report.
    Distance(i64),
    Refused(Refusal),
    Faulted(Fault),
}

impl Answer {
    /// The paper's number, with 0, 100, 101 and 102 for answers that have none there.
    #[inline]
    pub const fn number(self) -> u32 {
        match self {
            Answer::Done => 0,
            Answer::Refused(refusal) => refusal as u32,
            Answer::Faulted(fault) => fault as u32,
            Answer::Physical(_) => 100,
            Answer::Value(_) => 101,
            Answer::Distance(_) => 102,
        }
    }

    /// The value beside the number; 0 where there is none.
    #[inline]
    pub const fn value(self) -> i64 {
        match self {
            Answer::Physical(address) => address as i64,
            Answer::Value(value) => value as i64,
            Answer::Distance(distance) => distance,
            Answer::Done | Answer::Refused(_) | Answer::Faulted(_) => 0,
        }
    }

    /// The reply of a call whose walk ended at that place.
    #[inline]
    pub const fn beside(self, place: Place) -> Reply {
        Reply { answer: self, from: Some(place) }
    }
}

impl From<Refusal> for Answer {
    #[inline]
    fn from(refusal: Refusal) -> Answer {
        Answer::Refused(refusal)
    }
}

/// What a call that may walk says: its answer, and beside it where the last word
/// of its walk came from (P6); none where it made no walk or is refused.
#[derive(Clone, Copy, PartialEq, Eq, Debug)]
pub struct Reply {
    pub answer: Answer,
    pub from: Option<Place>,
}

/// The reply of a call that made no walk.
impl From<Answer> for Reply {
    #[inline]
    fn from(answer: Answer) -> Reply {
        Reply { answer, from: None }
    }
}

/// The reply of a refused call. Calls are seldom refused: `cold` keeps this out
/// of the way of the others.
impl From<Refusal> for Reply {
    #[cold]
    #[inline]
    fn from(refusal: Refusal) -> Reply {
        Answer::from(refusal).into()
    }
}

#[cfg(test)]
mod tests {
    use super::*;

    #[test]
    fn numbers_of_the_paper() {
        assert_eq!(Answer::Refused(Refusal::Address).number(), 1);
        assert_eq!(Answer::Refused(Refusal::Room).number(), 12);
        let bad = Refused { refusal: Refusal::Recording, at: 65_536 };
        assert_eq!(bad.number(), 0x8000_0010_0001_0000);
        let outside = Refused { refusal: Refusal::Outside, at: 0xFFFF_FFFC };
        assert_eq!(outside.number(), 0x8000_0011_FFFF_FFFC);
        assert_eq!(Refused { refusal: Refusal::Unequal, at: 4 }.number(), 0x8000_0012_0000_0004);
        assert_eq!(Answer::Faulted(Fault::Translation).number(), 21);
        assert_eq!(Answer::Faulted(Fault::Prefetch).number(), 24);
        assert_eq!(Answer::Physical(0xFFFF_FFFF).value(), 0xFFFF_FFFF);
        assert_eq!(Answer::Distance(-16_776_192).value(), -16_776_192);
        assert_eq!(Answer::Done.number(), 0);
    }

    #[test]
    fn status_bits_of_table_9() {
        let all = [Fault::Translation, Fault::Miss, Fault::Permission, Fault::Prefetch];
        for (fault, bit) in all.into_iter().zip([1, 2, 4, 8]) {
            assert_eq!(fault.status(), bit);
            assert_eq!(Fault::from_status(bit), Some(fault));
        }
        for none in [0, 3, 5, 16, 255] {
            assert_eq!(Fault::from_status(none), None);
        }
    }
}
