//! New members that have the number or the place, or both, of one that left with a
//! tally: each starts with a tally of 0.
//!
//! As in the decoder, a `Fault` plants one error that the comparisons have to
//! find.

use crate::counts::{lines, Line};
use crate::members::Call;
use crate::table_values::is_held;
use prunepocket_sys::Table;
use std::collections::HashMap;

/// How a member left.
#[derive(Clone, Copy, Debug, PartialEq, Eq)]
pub enum LeftBy {
    Farewell,
    Sweep,
}

/// What a new member shares with one that left.
#[derive(Clone, Copy, Debug, PartialEq, Eq)]
pub enum Shared {
    /// Its number and its place.
    Both,
    /// Its number, at another place.
    Number,
    /// Its place, under another number.
    Place,
}

#[derive(Clone, Copy, Debug, PartialEq, Eq)]
pub enum Fault {
    /// A new member that shares this with one that left so starts with its tally.
    Kept(LeftBy, Shared),
}

impl Fault {
    pub const ALL: [Fault; 6] = [
        Fault::Kept(LeftBy::Farewell, Shared::Both),
        Fault::Kept(LeftBy::Farewell, Shared::Number),
        Fault::Kept(LeftBy::Farewell, Shared::Place),
        Fault::Kept(LeftBy::Sweep, Shared::Both),
        Fault::Kept(LeftBy::Sweep, Shared::Number),
        Fault::Kept(LeftBy::Sweep, Shared::Place),
    ];
}

/// A member that left, with its tally at that time.
#[derive(Clone, Copy, Debug)]
pub struct Leaving {
    pub by: LeftBy,
    pub source: u32,
    pub place: usize,
    pub tally: u32,
}

/// The last leaving of each number, and the last from each place.
#[derive(Clone, Debug, Default)]
pub struct Leavings {
    of_number: HashMap<u32, Leaving>,
    from_place: HashMap<usize, Leaving>,
}

impl Leavings {
    pub fn add(&mut self, leaving: Leaving) {
        self.of_number.insert(leaving.source, leaving);
        self.from_place.insert(leaving.place, leaving);
    }

    /// The members that a call took out.
    pub fn add_all(&mut self, call: &Call, before: &Table, after: &Table) {
        let by = match call {
            Call::Report(..) => return,
            Call::Farewell(..) => LeftBy::Farewell,
            Call::Sweep(_) => LeftBy::Sweep,
        };
        for (place, member) in before.members.iter().enumerate() {
            if is_held(before, place) && !is_held(after, place) {
                self.add(Leaving {
                    by,
                    source: member.record.source,
                    place,
                    tally: member.tally,
                });
            }
        }
    }

    /// What a new member shares with members that left.
    fn shared(&self, source: u32, place: usize) -> impl Iterator<Item = (Shared, &Leaving)> {
        let of_number = self.of_number.get(&source);
        let of_number = of_number.map(|left| match left.place == place {
            true => (Shared::Both, left),
            false => (Shared::Number, left),
        });
        let from_place = self.from_place.get(&place);
        let from_place = from_place.filter(|left| left.source != source);
        let from_place = from_place.map(|left| (Shared::Place, left));
        of_number.into_iter().chain(from_place)
    }

    /// The tally that a new member starts with: 0, but for a planted fault.
    pub fn first_tally(&self, source: u32, place: usize, fault: Option<Fault>) -> u32 {
        let mut shared = self.shared(source, place);
        let kept = shared.find(|(shared, left)| fault == Some(Fault::Kept(left.by, *shared)));
        kept.map_or(0, |(_, left)| left.tally)
    }
}

/// How often a new member shared something with one that left with a tally.
#[derive(Clone, Copy, Debug, Default)]
pub struct Rejoins {
    /// By how that one left, then by what is shared, both in their order.
    times: [[u64; 3]; 2],
}

impl Rejoins {
    pub fn count(&mut self, leavings: &Leavings, source: u32, place: usize) {
        for (shared, left) in leavings.shared(source, place) {
            self.times[left.by as usize][shared as usize] += u64::from(left.tally > 0);
        }
    }

    pub fn add(&mut self, more: &Rejoins) {
        let times = self.times.iter_mut().flatten();
        for (times, more) in times.zip(more.times.iter().flatten()) {
            *times += more;
        }
    }

    pub fn lines(&self) -> Vec<Line> {
        let [farewell, sweep] = self.times;
        lines([
            ("tally, farewell, back there", farewell[0]),
            ("tally, farewell, back elsewhere", farewell[1]),
            ("tally, farewell, another there", farewell[2]),
            ("tally, sweep, back there", sweep[0]),
            ("tally, sweep, back elsewhere", sweep[1]),
            ("tally, sweep, another there", sweep[2]),
        ])
    }
}
