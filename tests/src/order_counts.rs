//! What was met of reports in two orders of arrival.

use crate::call_history::TALLY_LIMIT;
use crate::counts::{answer_name, lines, Line};
use crate::members::{Member, Reading};
use crate::places::Places;

/// What the two tables took in either order.
#[derive(Clone, Copy, Debug, PartialEq, Eq)]
pub enum Form {
    Reports,
    InBurst,
    Bursts,
    Datagrams,
    Mixed,
}

/// Accepted reports that two tables took in either order.
pub struct Swap {
    pub form: Form,
    /// Their source numbers, each once: those of the first, and those of the second.
    pub sources: [Vec<u32>; 2],
    pub readings: [Reading; 2],
}

/// A swap, with the one table's places before and after it.
pub struct Seen<'a> {
    pub swap: &'a Swap,
    pub before: &'a Places,
    pub after: &'a Places,
    /// Whether members stood at other places in the other table before it, and after
    /// it.
    pub differed: bool,
    pub differs: bool,
}

/// What a line counts: the swaps of which it holds.
type Kind = (&'static str, fn(&Seen) -> bool);

const KINDS: [Kind; 24] = [
    ("two reports", |seen| seen.swap.form == Form::Reports),
    ("two reports of a burst", |seen| {
        seen.swap.form == Form::InBurst
    }),
    ("two bursts", |seen| seen.swap.form == Form::Bursts),
    ("two datagrams", |seen| seen.swap.form == Form::Datagrams),
    ("two of several kinds", |seen| seen.swap.form == Form::Mixed),
    ("at one reading", |seen| {
        seen.swap.readings[0] == seen.swap.readings[1]
    }),
    ("at two readings", |seen| {
        seen.swap.readings[0] != seen.swap.readings[1]
    }),
    ("from one origin", |seen| {
        let [first, second] = seen.standing();
        first.record.origin == second.record.origin
    }),
    ("the second received earlier", |seen| {
        let [first, second] = seen.standing().map(|member| member.record.report);
        (second.received.wrapping_sub(first.received) as i64) < 0
    }),
    ("both of new members", |seen| seen.joining() == [true, true]),
    ("the first of a new member", |seen| {
        seen.joining() == [true, false]
    }),
    ("the second of a new member", |seen| {
        seen.joining() == [false, true]
    }),
    ("both of members", |seen| seen.joining() == [false, false]),
    ("to an empty table", |seen| seen.members() == 0),
    ("both new, a gap among places", |seen| {
        seen.joining() == [true, true] && seen.has_gap()
    }),
    ("62 members, two new ones", |seen| {
        seen.members() == 62 && seen.new_members() == 2
    }),
    ("63 members, a new one", |seen| {
        seen.members() == 63 && seen.new_members() == 1
    }),
    ("64 members", |seen| seen.members() == 64),
    ("a tally on one of them", |seen| seen.tallied(1) == 1),
    ("a tally on several of them", |seen| seen.tallied(1) > 1),
    ("a tally at the limit", |seen| seen.tallied(TALLY_LIMIT) > 0),
    ("same places before and after", |seen| {
        !seen.differed && !seen.differs
    }),
    ("other places from then on", |seen| {
        !seen.differed && seen.differs
    }),
    ("other places before, too", |seen| {
        seen.differed && seen.differs
    }),
];

fn member(places: &Places, source: u32) -> Option<&Member> {
    let mut members = places.iter().flatten();
    members.find(|member| member.record.source == source)
}

impl Seen<'_> {
    fn members(&self) -> usize {
        self.before.iter().flatten().count()
    }

    /// The member of the first, and that of the second; of several, one of each.
    fn standing(&self) -> [Member; 2] {
        let member = |source: u32| member(self.after, source).copied();
        [0, 1].map(|side| member(self.swap.sources[side][0]).unwrap_or_default())
    }

    /// Whether a new member is among those of the first, and of the second.
    fn joining(&self) -> [bool; 2] {
        let is_new = |source: &u32| member(self.before, *source).is_none();
        [0, 1].map(|side| self.swap.sources[side].iter().any(is_new))
    }

    fn new_members(&self) -> usize {
        let sources = self.swap.sources.iter().flatten();
        let new = sources.filter(|&&source| member(self.before, source).is_none());
        new.count()
    }

    /// Whether a free place is before a held one.
    fn has_gap(&self) -> bool {
        let mut pairs = self.before.windows(2);
        pairs.any(|pair| pair[0].is_none() && pair[1].is_some())
    }

    /// How many of their members have such a tally at least.
    fn tallied(&self, least: u32) -> usize {
        let sources = self.swap.sources.iter().flatten();
        let members = sources.filter_map(|&source| member(self.before, source));
        members.filter(|member| member.tally >= least).count()
    }
}

/// How often each thing was met.
#[derive(Default)]
pub struct Counts {
    pub courses: u64,
    /// Reports, farewells and sweeps, bursts and datagrams.
    pub calls: u64,
    pub swaps: u64,
    kinds: [u64; KINDS.len()],
    pub later: Later,
    pub choices: Choices,
}

/// What came behind a swap, while members stood at other places.
#[derive(Default)]
pub struct Later {
    /// Calls by their answer, a refusal's number or 0.
    pub answers: [u64; 25],
    pub bursts: u64,
    pub datagrams: u64,
    /// At the end, of the last swap: a member of it has left, and another stands at
    /// its place.
    pub left: u64,
    pub replaced: u64,
    /// Members stand at the same places again, or still at others.
    pub same_again: u64,
    pub other_places: u64,
}

/// Choices of both tables.
#[derive(Default)]
pub struct Choices {
    pub at_once: u64,
    pub later: u64,
    pub refused: u64,
    /// Several members are equally late, and at other places.
    pub ties: u64,
    /// The same, and one of the swap is chosen.
    pub own_ties: u64,
}

/// The answers that calls behind a swap can get.
const LATER: [usize; 8] = [0, 13, 14, 15, 16, 17, 18, 19];

impl Counts {
    pub fn count(&mut self, seen: &Seen) {
        self.swaps += 1;
        for (times, (_, holds)) in self.kinds.iter_mut().zip(KINDS) {
            *times += u64::from(holds(seen));
        }
    }

    pub fn lines(&self) -> Vec<Line> {
        let kinds = KINDS.iter().zip(self.kinds);
        let kinds = kinds.map(|((name, _), times)| (name.to_string(), times));
        let later = LATER.map(|number| {
            let name = format!("then {}", answer_name(number));
            (name, self.later.answers[number])
        });
        kinds.chain(later).chain(self.others()).collect()
    }

    fn others(&self) -> Vec<Line> {
        let (later, choices) = (&self.later, &self.choices);
        lines([
            ("then a burst", later.bursts),
            ("then a datagram", later.datagrams),
            ("then one of them leaves", later.left),
            ("then another at its place", later.replaced),
            ("same places at the end", later.same_again),
            ("other places at the end", later.other_places),
            ("choices at once", choices.at_once),
            ("choices later", choices.later),
            ("choices refused 20", choices.refused),
            ("ties, at other places", choices.ties),
            ("the same, one of them chosen", choices.own_ties),
        ])
    }
}
