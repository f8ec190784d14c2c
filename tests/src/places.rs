//! The rule of places: a new member takes the lowest free one, and is refused
//! with 18 where none is free. Whatever needs the rule here goes by `lowest_free`.
//!
//! As in the decoder, a `Fault` plants one error that the comparisons have to
//! find.

use crate::counts::{lines, Line};
use crate::members::Member;

/// Places in a table.
pub const PLACES: usize = 64;

/// Which of the places are held.
pub type Held = [bool; PLACES];

/// The member at each place, if there is one.
pub type Places = [Option<Member>; PLACES];

#[derive(Clone, Copy, Debug, PartialEq, Eq)]
pub enum Fault {
    /// As many places as are held behind the last free one: leading zeros.
    LeadingZeros,
    /// The lowest held place: trailing zeros of the word itself.
    LowestHeld,
    /// The place behind the lowest free one, where that is free too.
    PlaceBehind,
    /// The place before the lowest free one, where there is one; 63 where none is
    /// free.
    PlaceBefore,
    /// 63 where none is free.
    LastForNone,
    /// None where 63 alone is free.
    LastUnused,
    /// The highest free place.
    HighestFree,
    /// Counted are the held places below the lowest free one.
    CountedBelowFree,
}

impl Fault {
    pub const ALL: [Fault; 8] = [
        Fault::LeadingZeros,
        Fault::LowestHeld,
        Fault::PlaceBehind,
        Fault::PlaceBefore,
        Fault::LastForNone,
        Fault::LastUnused,
        Fault::HighestFree,
        Fault::CountedBelowFree,
    ];
}

/// The first place that is free, if any is.
pub fn lowest_free(held: &Held) -> Option<usize> {
    (0..PLACES).find(|&place| !held[place])
}

/// The same, with a planted fault.
pub fn lowest_free_with(held: &Held, fault: Option<Fault>) -> Option<usize> {
    let lowest = lowest_free(held);
    let is_free = |place: &usize| held.get(*place) == Some(&false);
    match fault {
        Some(Fault::LeadingZeros) => {
            let held_last = held.iter().rev().take_while(|&&held| held).count();
            (held_last < PLACES).then_some(held_last)
        }
        Some(Fault::LowestHeld) => held.iter().position(|&held| held),
        Some(Fault::PlaceBehind) => {
            let behind = lowest.map(|place| place + 1);
            behind.filter(is_free).or(lowest)
        }
        Some(Fault::PlaceBefore) => Some(lowest.unwrap_or(PLACES).saturating_sub(1)),
        Some(Fault::LastForNone) => lowest.or(Some(PLACES - 1)),
        Some(Fault::LastUnused) => lowest.filter(|&place| place < PLACES - 1),
        Some(Fault::HighestFree) => held.iter().rposition(|&held| !held),
        Some(Fault::CountedBelowFree) | None => lowest,
    }
}

/// How many places are held, with a planted fault.
pub fn count_held_with(held: &Held, fault: Option<Fault>) -> usize {
    let counted = match fault {
        Some(Fault::CountedBelowFree) => lowest_free(held).unwrap_or(PLACES),
        _ => PLACES,
    };
    held[..counted].iter().filter(|&&held| held).count()
}

/// How often a new member took each kind of place.
#[derive(Clone, Copy, Debug, Default)]
pub struct Joins {
    /// Place 0, with others held.
    pub first: u64,
    /// Place 63, and so with all others held.
    pub last: u64,
    /// One between them, with another free place behind it and a held one behind that.
    pub before_others: u64,
    /// One that a member has left.
    pub again: u64,
}

impl Joins {
    /// A new member at the lowest free place. `used` marks the places that have had
    /// a member.
    pub fn count(&mut self, held: &Held, used: &mut Held, place: usize) {
        let behind = &held[place + 1..];
        let others = behind.windows(2).any(|pair| pair == [false, true]);
        self.first += u64::from(place == 0 && held.contains(&true));
        self.last += u64::from(place == PLACES - 1);
        self.before_others += u64::from(place > 0 && others);
        self.again += u64::from(used[place]);
        used[place] = true;
    }

    pub fn add(&mut self, more: &Joins) {
        self.first += more.first;
        self.last += more.last;
        self.before_others += more.before_others;
        self.again += more.again;
    }

    pub fn lines(&self) -> Vec<Line> {
        lines([
            ("new at place 0, others held", self.first),
            ("new at place 63, others held", self.last),
            ("new before another free one", self.before_others),
            ("new at a place left", self.again),
        ])
    }
}
