//! Document 01's refusals, in the order of their numbers.

use std::fmt;

/// Why a call was refused. A refusal leaves everything lent unchanged.
///
/// More will come with further calls, so a `match` outside this crate needs an arm for the rest.
#[derive(Clone, Copy, Debug, PartialEq, Eq, Hash)]
#[non_exhaustive]
pub enum Refusal {
    /// 1: the event list is under 372 words.
    ShortList = 1,
    /// 2: the words hold no pool: too few, another form number, a wrong header, or fewer words than its total.
    NoPool,
    /// 3: the commit word is not 0, so a change is unfinished: recover first.
    Unfinished,
    /// 4: the header's counts or a node on the way to the key are damaged, or a put would split all of eight levels.
    Damaged,
    /// 5: a split needs more nodes than are left.
    NoRoom,
    /// 6: the log is not one that recovery takes.
    BadLog,
    /// 7: the capacity is outside 1 to 40,000.
    BadCapacity,
    /// 8: the slice is shorter than a pool of that capacity.
    ShortSlice,
    /// 9: there is no such desk: the list of desks is empty or over 16, or the member or last served is past it.
    NoDesk,
    /// 10: the member's desk is full.
    FullDesk,
    /// 11: the marks are shorter than the capacity.
    ShortMarks,
    /// 12: there is no such event, or it reaches outside the words.
    NoEvent,
}

impl Refusal {
    /// Every refusal, in the order of the numbers.
    pub const ALL: &'static [Refusal] = &[
        Refusal::ShortList,
        Refusal::NoPool,
        Refusal::Unfinished,
        Refusal::Damaged,
        Refusal::NoRoom,
        Refusal::BadLog,
        Refusal::BadCapacity,
        Refusal::ShortSlice,
        Refusal::NoDesk,
        Refusal::FullDesk,
        Refusal::ShortMarks,
        Refusal::NoEvent,
    ];

    /// The number of document 01, 1 to 12.
    pub const fn number(self) -> u64 {
        self as u64
    }

    /// The refusal of this number, if there is one.
    pub fn of_number(number: u64) -> Option<Refusal> {
        Refusal::ALL.iter().copied().find(|r| r.number() == number)
    }

    fn words(self) -> &'static str {
        match self {
            Refusal::ShortList => "the event list is under 372 words",
            Refusal::NoPool => "the words hold no pool",
            Refusal::Unfinished => "a change is unfinished: recover first",
            Refusal::Damaged => "the pool is damaged on the way to the key, or all of eight levels are full",
            Refusal::NoRoom => "no room: a split needs more nodes than are left",
            Refusal::BadLog => "the log is not one that recovery takes",
            Refusal::BadCapacity => "the capacity is outside 1 to 40,000",
            Refusal::ShortSlice => "the slice is shorter than a pool of that capacity",
            Refusal::NoDesk => "no such desk, member or last served",
            Refusal::FullDesk => "the member's desk is full",
            Refusal::ShortMarks => "the marks are shorter than the capacity",
            Refusal::NoEvent => "no event that can be carried out",
        }
    }
}

impl fmt::Display for Refusal {
    fn fmt(&self, f: &mut fmt::Formatter<'_>) -> fmt::Result {
        write!(f, "{} (refusal {})", self.words(), self.number())
    }
}

impl std::error::Error for Refusal {}

#[cfg(test)]
mod tests {
    use super::Refusal;

    #[test]
    fn the_numbers_are_1_to_12_in_order() {
        let numbers: Vec<u64> = Refusal::ALL.iter().map(|r| r.number()).collect();
        assert_eq!(numbers, (1..=12).collect::<Vec<u64>>());
    }

    #[test]
    fn a_number_names_its_refusal_and_no_other_number_does() {
        for refusal in Refusal::ALL {
            assert_eq!(Refusal::of_number(refusal.number()), Some(*refusal));
        }
        for number in [0, 13, 256 + 1, u64::MAX] {
            assert_eq!(Refusal::of_number(number), None);
        }
    }

    #[test]
    fn the_words_carry_the_number() {
        assert_eq!(Refusal::NoPool.to_string(), "the words hold no pool (refusal 2)");
        assert_eq!(
            Refusal::NoRoom.to_string(),
            "no room: a split needs more nodes than are left (refusal 5)"
        );
    }
}
