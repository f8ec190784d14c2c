//! What was met of bursts.

use crate::call_history::TALLY_LIMIT;
use crate::counts::Line;
use crate::members::{Burst, Record};
use crate::places::PLACES;
use crate::table_values::{holder, is_held};
use prunepocket_sys::Table;
use std::collections::HashSet;

/// A burst, its number and those of its reports, and the tables before and after it.
pub struct Seen<'a> {
    pub burst: &'a Burst,
    pub number: u64,
    pub numbers: &'a [u64],
    pub before: &'a Table,
    pub after: &'a Table,
}

/// What a line counts: the bursts of which it holds.
type Kind = (&'static str, fn(&Seen) -> bool);

/// Asked of every long run.
const KINDS: [Kind; 38] = [
    ("bursts without reports", |seen| seen.reports() == 0),
    ("bursts of 1 report", |seen| seen.reports() == 1),
    ("bursts of 2 to 62 reports", |seen| {
        (2..=62).contains(&seen.reports())
    }),
    ("bursts of 63 reports", |seen| seen.reports() == 63),
    ("bursts of 64 reports", |seen| seen.reports() == 64),
    ("bursts of 65 reports", |seen| seen.reports() == 65),
    ("bursts of 66 reports and more", |seen| seen.reports() >= 66),
    ("no report, no list", |seen| {
        seen.reports() == 0 && seen.length() == 0
    }),
    ("no report, a list", |seen| {
        seen.reports() == 0 && seen.length() > 0
    }),
    ("64 reports, list of 63", |seen| seen.has(64, 63)),
    ("64 reports, list of 64", |seen| seen.has(64, 64)),
    ("64 reports, list of 65", |seen| seen.has(64, 65)),
    ("list empty, refused 24", |seen| {
        seen.number == 24 && seen.length() == 0
    }),
    ("list one shorter, refused 24", |seen| {
        seen.number == 24 && seen.missing() == 1
    }),
    ("list shorter still, refused 24", |seen| {
        seen.number == 24 && seen.missing() > 1
    }),
    ("list shorter too, refused 23", |seen| {
        seen.number == 23 && seen.missing() > 0
    }),
    ("list long enough, refused 23", |seen| {
        seen.number == 23 && seen.missing() == 0
    }),
    ("list as long", |seen| seen.spare() == Some(0)),
    ("list one longer", |seen| seen.spare() == Some(1)),
    ("list of 64, fewer reports", |seen| {
        seen.spare() > Some(0) && seen.length() == 64
    }),
    ("list above 64", |seen| {
        seen.spare().is_some() && seen.length() > 64
    }),
    ("refused, first is acceptable", |seen| seen.is_refused(0)),
    ("refused, first is a twin's", |seen| seen.is_refused(14)),
    ("13 before one accepted", |seen| seen.before_accepted(13)),
    ("14 before one accepted", |seen| seen.before_accepted(14)),
    ("15 before one accepted", |seen| seen.before_accepted(15)),
    ("16 before one accepted", |seen| seen.before_accepted(16)),
    ("17 before one accepted", |seen| seen.before_accepted(17)),
    ("18 before one accepted", |seen| seen.before_accepted(18)),
    ("one number, several origins", |seen| seen.has_twins()),
    ("joins, then its twin gets 14", |seen| {
        seen.follows_joining(14)
    }),
    ("joins, then reports again", |seen| seen.follows_joining(0)),
    ("a tally raised twice", |seen| seen.raises_twice()),
    ("burst to an empty table", |seen| {
        seen.tried() && seen.free() == PLACES
    }),
    ("burst to a full table", |seen| {
        seen.tried() && seen.free() == 0
    }),
    ("burst, 1 to 3 places free", |seen| {
        seen.tried() && (1..=3).contains(&seen.free())
    }),
    ("burst fills the table", |seen| {
        seen.free() > 0 && seen.after.held == u64::MAX
    }),
    ("fills the table, then 18", |seen| {
        seen.free() > 0 && seen.numbers.contains(&18)
    }),
];

/// Asked where tallies are around the limit.
const AROUND_LIMIT: [Kind; 5] = [
    ("a 14 raises to the limit", |seen| {
        seen.meets(TALLY_LIMIT - 1, 1)
    }),
    ("two raise to the limit", |seen| {
        seen.meets(TALLY_LIMIT - 2, 2)
    }),
    ("two, one below the limit", |seen| {
        seen.meets(TALLY_LIMIT - 1, 2)
    }),
    ("two at the limit", |seen| seen.meets(TALLY_LIMIT, 2)),
    ("refused, a twin's at the limit", |seen| {
        seen.is_refused(14) && seen.first_holder() == Some(TALLY_LIMIT)
    }),
];

/// How often each kind was met, in all bursts.
pub struct Bursts {
    kinds: [u64; KINDS.len()],
    around_limit: [u64; AROUND_LIMIT.len()],
    /// Numbers of lists behind those of the reports.
    spare: u64,
}

impl Default for Bursts {
    fn default() -> Self {
        Bursts {
            kinds: [0; KINDS.len()],
            around_limit: [0; AROUND_LIMIT.len()],
            spare: 0,
        }
    }
}

impl Bursts {
    pub fn count(&mut self, seen: &Seen) {
        count_kinds(&mut self.kinds, &KINDS, seen);
        count_kinds(&mut self.around_limit, &AROUND_LIMIT, seen);
        self.spare += seen.spare().unwrap_or(0) as u64;
    }

    /// All but what was met around the limit of the tally.
    pub fn lines(&self) -> Vec<Line> {
        let mut lines = named(&KINDS, &self.kinds);
        lines.push((String::from("numbers behind the reports"), self.spare));
        lines
    }

    pub fn around_limit(&self) -> Vec<Line> {
        named(&AROUND_LIMIT, &self.around_limit)
    }
}

fn count_kinds(times: &mut [u64], kinds: &[Kind], seen: &Seen) {
    for (times, (_, is_met)) in times.iter_mut().zip(kinds) {
        *times += u64::from(is_met(seen));
    }
}

fn named(kinds: &[Kind], times: &[u64]) -> Vec<Line> {
    let names = kinds.iter().map(|(name, _)| name.to_string());
    names.zip(times.iter().copied()).collect()
}

impl Seen<'_> {
    fn reports(&self) -> usize {
        self.burst.reports.len()
    }

    fn length(&self) -> usize {
        self.burst.list.len()
    }

    fn has(&self, reports: usize, length: usize) -> bool {
        self.reports() == reports && self.length() == length
    }

    /// How many numbers the list is too short by.
    fn missing(&self) -> usize {
        self.reports().saturating_sub(self.length())
    }

    /// How many numbers of the list stay, where there are reports and they are tried.
    fn spare(&self) -> Option<usize> {
        self.tried().then(|| self.length() - self.reports())
    }

    /// Whether there are reports, and the burst is not refused.
    fn tried(&self) -> bool {
        self.number == 0 && self.reports() > 0
    }

    fn free(&self) -> usize {
        PLACES - self.before.held.count_ones() as usize
    }

    /// Whether the burst is refused, and its first report alone would get this number.
    fn is_refused(&self, number: u64) -> bool {
        let reading = &self.burst.reading;
        let first = self.burst.reports.first();
        self.number != 0
            && first.is_some_and(|first| self.before.report(first, reading).number == number)
    }

    /// The tally of the member that holds the first report's number.
    fn first_holder(&self) -> Option<u32> {
        let first = self.burst.reports.first()?;
        let place = holder(self.before, first.source)?;
        Some(self.before.members[place].tally)
    }

    /// Whether a report gets this number, and one behind it is accepted.
    fn before_accepted(&self, number: u64) -> bool {
        let first = self.numbers.iter().position(|&other| other == number);
        first.is_some_and(|first| self.numbers[first..].contains(&0))
    }

    /// Whether reports under one number that are tried come from several origins.
    fn has_twins(&self) -> bool {
        let told = self.burst.reports.iter();
        let sources: HashSet<u32> = told.clone().map(|told| told.source).collect();
        let sender = |told: &Record| (told.source, told.origin.address, told.origin.port);
        let senders: HashSet<_> = told.map(sender).collect();
        self.number == 0 && senders.len() > sources.len()
    }

    /// Whether a new member joins, and a report of its number behind that gets this
    /// number.
    fn follows_joining(&self, number: u64) -> bool {
        let mut joined = HashSet::new();
        let pairs = self.burst.reports.iter().zip(self.numbers);
        pairs.into_iter().any(|(told, &own)| {
            let follows = joined.contains(&told.source) && own == number;
            if own == 0 && holder(self.before, told.source).is_none() {
                joined.insert(told.source);
            }
            follows
        })
    }

    /// Whether a member of this tally meets 14 so often.
    fn meets(&self, tally: u32, times: usize) -> bool {
        let members = (0..PLACES).filter(|&place| is_held(self.before, place));
        let mut members = members.map(|place| &self.before.members[place]);
        members.any(|member| {
            member.tally == tally && self.refused_under(member.record.source) == times
        })
    }

    /// How many reports under a number get 14.
    fn refused_under(&self, source: u32) -> usize {
        let pairs = self.burst.reports.iter().zip(self.numbers);
        pairs
            .filter(|(told, &number)| told.source == source && number == 14)
            .count()
    }

    /// Whether a number gets 14 more than once.
    fn raises_twice(&self) -> bool {
        let mut sources = self.burst.reports.iter().map(|told| told.source);
        sources.any(|source| self.refused_under(source) > 1)
    }
}
