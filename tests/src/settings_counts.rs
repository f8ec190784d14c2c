//! What was met of settings packets.

use crate::counts::{lines, Line};
use crate::members::{Record, ReportFields};
use crate::settings_check::{Query, SettingsCheck, Suits, LIMIT, REFUSALS, SECOND, SLACK_LIMIT};
use crate::settings_times::unit;

/// A packet with its answer, and the members with no fault in them.
pub struct Seen<'a> {
    pub query: &'a Query,
    pub check: SettingsCheck<'a>,
    pub answer: Suits,
    /// The table is any value.
    pub value: bool,
    /// The lateness of each counted member.
    pub counted: Vec<i128>,
    pub arrival: bool,
}

impl<'a> Seen<'a> {
    pub fn new(query: &'a Query, check: SettingsCheck<'a>, answer: Suits, value: bool) -> Self {
        Seen {
            query,
            check,
            answer,
            value,
            counted: check.counted(&query.reading),
            arrival: check.is_arrival(&query.reading),
        }
    }

    fn greatest(&self) -> Option<i128> {
        self.counted.iter().max().copied()
    }

    /// How much later than the latest member; nothing beside a refusal.
    fn excess(&self) -> Option<i128> {
        let lateness = self.check.packet_lateness(self.query);
        self.answer.ok()?;
        self.greatest().map(|greatest| lateness - greatest)
    }

    /// By how much later than the slack allows; nothing beside a refusal.
    fn surplus(&self) -> Option<i128> {
        let allowance = self.check.allowance(self.query.slack);
        self.excess().map(|excess| excess - allowance)
    }

    fn unit(&self) -> i128 {
        unit(self.check.rate())
    }

    /// At the limit of a slack that is not 0.
    fn at_limit(&self, slack: i128) -> bool {
        self.query.slack == slack as u32 && self.surplus() == Some(0)
    }

    fn refused(&self, number: u64) -> bool {
        self.answer == Err(number)
    }

    fn ntp_age(&self) -> i128 {
        let received = self.query.settings.received;
        self.check.ntp_age(received, &self.query.reading)
    }

    fn rtp_age(&self) -> i128 {
        self.check
            .rtp_age(self.query.settings.rtp, &self.query.reading)
    }

    fn delay(&self) -> i128 {
        self.check.packet_delay(&self.query.settings)
    }

    fn most_rtp_age(&self) -> i128 {
        60 * self.check.rate()
    }

    /// Whether group and media source are the table's.
    fn own(&self) -> [bool; 2] {
        let (settings, opening) = (&self.query.settings, &self.check.opening);
        [
            settings.group == opening.group,
            settings.media == opening.media,
        ]
    }

    fn reports(&self) -> impl Iterator<Item = &ReportFields> {
        self.check.members.iter().map(|member| &member.report)
    }

    fn is_fresh(&self, report: &ReportFields) -> bool {
        self.check.is_fresh(report, &self.query.reading)
    }

    /// A member that is not counted is later than all that are.
    fn later_beside(&self, not_counted: impl Fn(&ReportFields) -> bool) -> bool {
        let (reading, greatest) = (&self.query.reading, self.greatest());
        let mut others = self.reports().filter(|report| not_counted(report));
        let later = |report: &ReportFields| {
            let arrival = self.arrival || !self.check.presents(report);
            greatest < Some(self.check.member_lateness(report, reading, arrival))
        };
        self.answer.is_ok() && others.any(later)
    }

    /// A counted member for which this holds.
    fn counts(&self, holds: impl Fn(&ReportFields) -> bool) -> bool {
        let counted = |report: &ReportFields| self.arrival || self.check.presents(report);
        let mut reports = self.reports();
        self.answer.is_ok()
            && reports.any(|report| self.is_fresh(report) && counted(report) && holds(report))
    }
}

/// What a line counts: the packets of which it holds.
type Kind = (&'static str, fn(&Seen) -> bool);

/// Lateness beside that of the members, with the answer yes or no.
const OF_LATENESS: [Kind; 21] = [
    ("as late as the latest", |seen| seen.excess() == Some(0)),
    ("a unit below", |seen| seen.excess() == Some(-1)),
    ("the next lateness below", |seen| {
        seen.unit() > 1 && seen.excess() == Some(-seen.unit())
    }),
    ("far below", |seen| {
        seen.excess()
            .is_some_and(|excess| excess < -1000 * seen.unit())
    }),
    ("as late as the least late", |seen| {
        let least = seen.counted.iter().min();
        seen.excess().is_some_and(|excess| excess < 0)
            && least == Some(&seen.check.packet_lateness(seen.query))
    }),
    ("slack 0, as late as the latest", |seen| {
        seen.query.slack == 0 && seen.excess() == Some(0)
    }),
    ("slack 0, a unit above", |seen| {
        seen.query.slack == 0 && seen.excess() == Some(1)
    }),
    ("slack 0, the next above", |seen| {
        seen.query.slack == 0 && seen.unit() > 1 && seen.excess() == Some(seen.unit())
    }),
    ("at the slack's limit", |seen| {
        seen.query.slack > 0 && seen.surplus() == Some(0)
    }),
    ("a unit below the limit", |seen| {
        seen.query.slack > 0 && seen.surplus() == Some(-1)
    }),
    ("a unit above the limit", |seen| {
        seen.query.slack > 0 && seen.surplus() == Some(1)
    }),
    ("the next above the limit", |seen| {
        seen.query.slack > 0 && seen.unit() > 1 && seen.surplus() == Some(seen.unit())
    }),
    ("between latest and limit", |seen| {
        seen.excess().is_some_and(|excess| excess > 0)
            && seen.surplus().is_some_and(|surplus| surplus < 0)
    }),
    ("far above the limit", |seen| {
        seen.surplus()
            .is_some_and(|surplus| surplus > 1000 * seen.unit())
    }),
    ("slack 1, at its limit", |seen| seen.at_limit(1)),
    ("slack 1966079, at its limit", |seen| {
        seen.at_limit(SLACK_LIMIT - 1)
    }),
    ("slack 1966080, at its limit", |seen| {
        seen.at_limit(SLACK_LIMIT)
    }),
    ("slack 1966081, refused 11", |seen| {
        i128::from(seen.query.slack) == SLACK_LIMIT + 1 && seen.refused(11)
    }),
    ("slack 2^32 - 1, refused 11", |seen| {
        seen.query.slack == u32::MAX && seen.refused(11)
    }),
    ("before the reading", |seen| {
        seen.answer == Ok(true) && seen.check.packet_lateness(seen.query) < 0
    }),
    ("beyond 64 bits", |seen| {
        let lateness = seen.check.packet_lateness(seen.query);
        seen.answer.is_ok() && i64::try_from(lateness).is_err()
    }),
];

/// The packet's fields at their limits.
const OF_FIELDS: [Kind; 25] = [
    ("received at the reading", |seen| {
        seen.answer.is_ok() && seen.ntp_age() == 0
    }),
    ("received 30 s before", |seen| {
        seen.answer.is_ok() && seen.ntp_age() == LIMIT
    }),
    ("received a unit after, 15", |seen| {
        seen.refused(15) && seen.ntp_age() == (1 << 64) - 1
    }),
    ("received 30 s and a unit, 15", |seen| {
        seen.refused(15) && seen.ntp_age() == LIMIT + 1
    }),
    ("RTP age 0", |seen| {
        seen.answer.is_ok() && seen.rtp_age() == 0
    }),
    ("RTP age 60 s", |seen| {
        seen.answer.is_ok() && seen.rtp_age() == seen.most_rtp_age()
    }),
    ("RTP a tick after, 16", |seen| {
        seen.refused(16) && seen.rtp_age() == SECOND - 1
    }),
    ("RTP age 60 s and a tick, 16", |seen| {
        seen.refused(16) && seen.rtp_age() == seen.most_rtp_age() + 1
    }),
    ("delay 1", |seen| seen.answer.is_ok() && seen.delay() == 1),
    ("delay 30 s", |seen| {
        seen.answer.is_ok() && seen.delay() == LIMIT
    }),
    ("delay 0, 17", |seen| {
        seen.refused(17) && seen.delay() == 0 && seen.query.settings.presented != 0
    }),
    ("delay 30 s and a unit, 17", |seen| {
        seen.refused(17) && seen.delay() == LIMIT + 1
    }),
    ("delay right but for 2^48, 17", |seen| {
        let delay = seen.delay() - (1 << 48);
        seen.refused(17) && (1..=LIMIT).contains(&delay)
    }),
    ("presented 0, good delay, 17", |seen| {
        let delay = seen.delay();
        seen.refused(17) && seen.query.settings.presented == 0 && (1..=LIMIT).contains(&delay)
    }),
    ("presented 0, any delay, 17", |seen| {
        seen.refused(17) && seen.query.settings.presented == 0 && seen.delay() > LIMIT
    }),
    ("presented 1", |seen| {
        seen.answer.is_ok() && seen.query.settings.presented == 1
    }),
    ("presented behind the wrap", |seen| {
        seen.answer.is_ok() && seen.query.settings.presented < seen.query.settings.received
    }),
    ("the reading behind the wrap", |seen| {
        seen.answer.is_ok() && seen.query.reading.ntp < seen.query.settings.received
    }),
    ("R behind the wrap", |seen| {
        seen.answer.is_ok() && seen.query.reading.rtp < seen.query.settings.rtp
    }),
    ("another group alone, 13", |seen| {
        seen.refused(13) && seen.own() == [false, true]
    }),
    ("another media source alone, 13", |seen| {
        seen.refused(13) && seen.own() == [true, false]
    }),
    ("both exchanged, 13", |seen| {
        let (settings, opening) = (&seen.query.settings, &seen.check.opening);
        let exchanged = [settings.group, settings.media] == [opening.media, opening.group];
        seen.refused(13) && exchanged
    }),
    ("sender 0", |seen| {
        seen.answer.is_ok() && seen.query.settings.sender == 0
    }),
    ("sender the media source", |seen| {
        seen.answer.is_ok() && seen.query.settings.sender == seen.check.opening.media
    }),
    ("sender a member", |seen| {
        let is_sender = |member: &Record| member.source == seen.query.settings.sender;
        seen.answer.is_ok() && seen.check.members.iter().any(is_sender)
    }),
];

/// The members beside it.
const OF_MEMBERS: [Kind; 18] = [
    ("no members, 20", |seen| {
        seen.refused(20) && seen.check.members.is_empty()
    }),
    ("no fresh member, 20", |seen| {
        seen.refused(20) && !seen.check.members.is_empty()
    }),
    ("64 members", |seen| {
        seen.answer.is_ok() && seen.check.members.len() == 64
    }),
    ("counted by presentation", |seen| {
        seen.answer.is_ok() && !seen.arrival
    }),
    ("counted by arrival", |seen| {
        seen.answer.is_ok() && seen.arrival
    }),
    ("by arrival, yes", |seen| {
        seen.answer == Ok(true) && seen.arrival
    }),
    ("later members with P 0", |seen| {
        seen.later_beside(|report| {
            !seen.arrival && seen.is_fresh(report) && !seen.check.presents(report)
        })
    }),
    ("later members not fresh", |seen| {
        seen.later_beside(|report| !seen.is_fresh(report))
    }),
    ("not fresh by RTP age alone", |seen| {
        seen.later_beside(|report| {
            let age = seen.check.ntp_age(report.received, &seen.query.reading);
            !seen.is_fresh(report) && age <= LIMIT
        })
    }),
    ("several latest members", |seen| {
        let latest = seen
            .counted
            .iter()
            .filter(|&&each| Some(each) == seen.greatest());
        seen.answer.is_ok() && latest.count() > 1
    }),
    ("wired members", |seen| {
        seen.counts(|report| !seen.arrival && seen.check.member_delay(report) == 1)
    }),
    ("value, rate 0", |seen| {
        seen.answer.is_ok() && seen.check.opening.rate == 0
    }),
    ("value, rate above 192000", |seen| {
        seen.answer.is_ok() && seen.check.opening.rate > 192_000
    }),
    ("value, 60 s above 2^32 ticks", |seen| {
        seen.answer.is_ok() && seen.most_rtp_age() >= SECOND
    }),
    ("value, P above 1", |seen| {
        seen.counts(|report| report.p > 1)
    }),
    ("value, only P above 1", |seen| {
        let other = |report: &ReportFields| seen.is_fresh(report) && report.p == 1;
        seen.counts(|report| report.p > 1) && !seen.reports().any(other)
    }),
    ("value, member delay above 30 s", |seen| {
        seen.counts(|report| !seen.arrival && seen.check.member_delay(report) > LIMIT)
    }),
    ("value, group 0 or 2^32 - 1", |seen| {
        seen.answer.is_ok() && matches!(seen.check.opening.group, 0 | u32::MAX)
    }),
];

/// Yes, no, and the refusals.
const ANSWERS: usize = 8;

/// A refusal, and another behind it that would apply.
const PAIRS: usize = 15;

#[derive(Default)]
pub struct Counts {
    pub cases: u64,
    /// By kind of table, a history's or any value.
    answers: [[u64; ANSWERS]; 2],
    lateness: [u64; OF_LATENESS.len()],
    fields: [u64; OF_FIELDS.len()],
    members: [u64; OF_MEMBERS.len()],
    pairs: [u64; PAIRS],
    pub own: Own,
}

/// Our own choices, as settings, and other checks of the archive by itself.
#[derive(Default)]
pub struct Own {
    /// From a table that calls have left, as it is and written.
    suit: u64,
    by_arrival: u64,
    /// From any value.
    value_suits: u64,
    value_refused: u64,
    pub none: u64,
    /// Packets that were written, read behind an RR and checked.
    pub written: u64,
    /// Copies with other numbers, origins and tallies, and other places.
    pub copies: u64,
}

/// Each two refusals, the first of which is given.
fn pairs() -> impl Iterator<Item = (u64, u64)> {
    let behind = |place: usize| REFUSALS[place + 1..].iter();
    let places = 0..REFUSALS.len();
    places.flat_map(move |place| behind(place).map(move |&next| (REFUSALS[place], next)))
}

fn count(times: &mut [u64], kinds: &[Kind], seen: &Seen) {
    for (times, (_, holds)) in times.iter_mut().zip(kinds) {
        *times += u64::from(holds(seen));
    }
}

fn named(times: &[u64], kinds: &[Kind]) -> Vec<Line> {
    let named = kinds.iter().zip(times);
    named
        .map(|((name, _), times)| (name.to_string(), *times))
        .collect()
}

impl Counts {
    pub fn queries(&self) -> u64 {
        self.answers.iter().flatten().sum()
    }

    pub fn count(&mut self, seen: &Seen) {
        let answer = match seen.answer {
            Ok(suits) => usize::from(!suits),
            Err(number) => {
                let place = REFUSALS.iter().position(|&refusal| refusal == number);
                2 + place.expect("a refusal of the request")
            }
        };
        self.answers[usize::from(seen.value)][answer] += 1;
        count(&mut self.lateness, &OF_LATENESS, seen);
        count(&mut self.fields, &OF_FIELDS, seen);
        count(&mut self.members, &OF_MEMBERS, seen);
        for (times, (given, next)) in self.pairs.iter_mut().zip(pairs()) {
            let both = seen.refused(given) && seen.check.refuses(next, seen.query);
            *times += u64::from(both);
        }
    }

    pub fn lines(&self) -> Vec<Line> {
        let mut lines = Vec::new();
        for (kind, answers) in ["history", "value"].iter().zip(&self.answers) {
            let refused = REFUSALS.map(|number| format!("refused {number}"));
            let names = [String::from("yes"), String::from("no")];
            let names = names.into_iter().chain(refused);
            lines.extend(
                names
                    .zip(answers)
                    .map(|(name, &times)| (format!("{kind}, {name}"), times)),
            );
        }
        lines.extend(named(&self.lateness, &OF_LATENESS));
        lines.extend(named(&self.fields, &OF_FIELDS));
        lines.extend(named(&self.members, &OF_MEMBERS));
        let both = pairs().zip(&self.pairs);
        lines.extend(
            both.map(|((given, next), &times)| (format!("{given}, and {next} applies"), times)),
        );
        lines.extend(self.own.lines());
        lines
    }
}

impl Own {
    pub fn count(&mut self, value: bool, verdict: Suits) {
        let times = match (value, verdict.is_ok()) {
            (false, true) => &mut self.suit,
            (false, false) => &mut self.by_arrival,
            (true, true) => &mut self.value_suits,
            (true, false) => &mut self.value_refused,
        };
        *times += 1;
    }

    fn lines(&self) -> Vec<Line> {
        lines([
            ("own choice, yes", self.suit),
            ("own choice by arrival, 17", self.by_arrival),
            ("no own choice, 20", self.none),
            ("value, own choice, yes", self.value_suits),
            ("value, own choice refused", self.value_refused),
            ("written, read and checked", self.written),
            ("copies of other numbers", self.copies),
        ])
    }
}
