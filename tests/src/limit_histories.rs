//! Histories and courses around the limit of the tally, which calls alone do not
//! reach: one member's tally is written into a table that public calls made.

use crate::arrivals::{Course, Event};
use crate::call_history::TALLY_LIMIT;
use crate::histories::{History, Step};
use crate::members::{Burst, Call};
use crate::plain_reports::{arrival, origin, reading, record, OPENING};

/// The tallies that are written: also before a carry into another byte or the sign.
pub const TALLIES: [u32; 8] = [
    0,
    1,
    u8::MAX as u32,
    u16::MAX as u32,
    i32::MAX as u32,
    TALLY_LIMIT - 2,
    TALLY_LIMIT - 1,
    TALLY_LIMIT,
];

/// Members beside the one in question, with their tallies: before it, and behind it.
const OTHERS: [(u32, u32); 2] = [(10, TALLY_LIMIT - 1), (30, 3)];

/// The number of the member in question.
const NUMBER: u32 = 20;

/// The unit that holds the number at first, and its twin.
const OWN: u16 = 5000;
const TWIN: u16 = 6000;

/// When the members join.
const START: u32 = 1000;

/// How long after a sweep takes out all members but the first, which received a
/// second later than the others, and how long after one takes out all.
const FIRST_FRESH: u32 = 30;
const STALE: u32 = 40;

/// How many calls follow on each other.
const CALLS: u32 = 3;

/// A list with a number more than the burst has reports, and one with too few.
const LONG_LIST: usize = 6;
const SHORT_LIST: usize = 4;

/// What the list of a burst holds beforehand.
const BEFORE: u64 = 4_294_967_296;

/// The calls under the number in question, and beside it.
#[derive(Clone, Copy, Debug)]
enum CallKind {
    Report(u16),
    Farewell(u16),
    /// Refused with 13, whoever sends it.
    OtherGroup(u16),
    /// Refused with 15, 16 and 17, where the number is this unit's or free.
    Old,
    OldMedia,
    Late,
    /// A farewell of the last member's twin, and one of the first member.
    TwinOfAnother,
    FirstLeaves,
    Sweep,
    SweepAllButFirst,
    SweepAllOut,
    /// Reports of both units and others in one, with a list of this length.
    Burst(usize),
}

const ALL: [CallKind; 16] = [
    CallKind::Report(OWN),
    CallKind::Report(TWIN),
    CallKind::Farewell(OWN),
    CallKind::Farewell(TWIN),
    CallKind::OtherGroup(OWN),
    CallKind::OtherGroup(TWIN),
    CallKind::Old,
    CallKind::OldMedia,
    CallKind::Late,
    CallKind::TwinOfAnother,
    CallKind::FirstLeaves,
    CallKind::Sweep,
    CallKind::SweepAllButFirst,
    CallKind::SweepAllOut,
    CallKind::Burst(LONG_LIST),
    CallKind::Burst(SHORT_LIST),
];

/// The calls that lead to the table: the member in question is in the middle.
fn joinings() -> [Call; 3] {
    let [(first, _), (last, _)] = OTHERS;
    [(first, START), (NUMBER, START - 1), (last, START - 1)]
        .map(|(source, received)| Call::Report(record(source, OWN, received), reading(START)))
}

/// The tallies that are written then, by number.
fn written(tally: u32) -> [(u32, u32); 3] {
    let [first, last] = OTHERS;
    [first, (NUMBER, tally), last]
}

impl CallKind {
    /// At the clock, which two of the sweeps move.
    fn step(self, clock: &mut u32) -> Step {
        *clock += match self {
            CallKind::SweepAllButFirst => FIRST_FRESH,
            CallKind::SweepAllOut => STALE,
            _ => 0,
        };
        let now = reading(*clock);
        let mut told = record(NUMBER, OWN, *clock - 1);
        match self {
            CallKind::Report(port) => told.origin.port = port,
            CallKind::OtherGroup(port) => {
                told.origin.port = port;
                told.report.group += 1;
            }
            CallKind::Old => told.report.received = reading(*clock - STALE).ntp,
            CallKind::OldMedia => told.report.rtp = now.rtp + 1,
            CallKind::Late => told.report.presented += STALE << 16,
            CallKind::Farewell(port) => return farewell(NUMBER, port),
            CallKind::TwinOfAnother => return farewell(OTHERS[1].0, TWIN),
            CallKind::FirstLeaves => return farewell(OTHERS[0].0, OWN),
            CallKind::Sweep | CallKind::SweepAllButFirst | CallKind::SweepAllOut => {
                return Step::Call(Call::Sweep(now))
            }
            CallKind::Burst(length) => return Step::Burst(burst(length, *clock)),
        }
        Step::Call(Call::Report(told, now))
    }
}

fn farewell(source: u32, port: u16) -> Step {
    Step::Call(Call::Farewell(source, origin(port)))
}

/// Two reports of the twin with one of the holder between them, one of the first
/// member's twin, and one of the holder that gets 15.
fn burst(length: usize, clock: u32) -> Burst {
    let told = |source: u32, port: u16| record(source, port, clock - 1);
    let [twin, own, mut old] = [TWIN, OWN, OWN].map(|port| told(NUMBER, port));
    old.report.received = reading(clock - STALE).ntp;
    Burst {
        reports: vec![twin, own, twin, told(OTHERS[0].0, TWIN), old],
        reading: reading(clock),
        list: vec![BEFORE; length],
    }
}

/// Every three calls in turn, from a tally on. All members are compared after each
/// of them, so fewer calls are not histories of their own.
pub fn histories(tally: u32) -> impl Iterator<Item = History> {
    let orders = 0..ALL.len().pow(CALLS);
    let kind = |order: usize, place: u32| ALL[order / ALL.len().pow(place) % ALL.len()];
    let kinds = move |order: usize| (0..CALLS).map(move |place| kind(order, place));
    orders.map(move |order| history(tally, kinds(order)))
}

fn history(tally: u32, kinds: impl Iterator<Item = CallKind>) -> History {
    let mut clock = START;
    let mut steps: Vec<Step> = joinings().map(Step::Call).into();
    steps.extend(written(tally).map(|(source, tally)| Step::SetTally(source, tally)));
    steps.extend(kinds.flat_map(|kind| [kind.step(&mut clock), Step::Members]));
    steps.push(Step::Choose(reading(clock)));
    History {
        opening: OPENING,
        steps,
    }
}

/// Part of a course: a call, then datagrams, with number, port and items of each.
type Part = (CallKind, &'static [(u32, u16, &'static str)]);

/// The member in question leaves and comes back: by farewell to the same place, by
/// sweep to the same and to another, and by farewell to another, since the first
/// member has come back before it. The bursts raise the tallies of both.
const PARTS: [Part; 6] = [
    (
        CallKind::Sweep,
        &[
            (NUMBER, TWIN, "RF"),
            (NUMBER, OWN, "R"),
            (NUMBER, TWIN, "FFRR"),
            (NUMBER, OWN, "FR"),
            (NUMBER, TWIN, "RRF"),
            (NUMBER, OWN, "F"),
            (NUMBER, TWIN, "R"),
            (NUMBER, OWN, "RFR"),
        ],
    ),
    (CallKind::Burst(SHORT_LIST), &[]),
    (CallKind::Burst(LONG_LIST), &[]),
    (
        CallKind::SweepAllButFirst,
        &[(NUMBER, OWN, "R"), (NUMBER, TWIN, "FR")],
    ),
    (
        CallKind::SweepAllOut,
        &[(NUMBER, OWN, "R"), (NUMBER, TWIN, "RF"), (NUMBER, OWN, "F")],
    ),
    (
        CallKind::Sweep,
        &[(OTHERS[0].0, OWN, "R"), (NUMBER, OWN, "R")],
    ),
];

/// Datagrams from the twin and from the holder, with bursts and sweeps between
/// them, from a tally on.
pub fn course(tally: u32) -> Course {
    let mut clock = START;
    let mut events: Vec<Event> = joinings().map(Event::Call).into();
    events.extend(written(tally).map(|(source, tally)| Event::SetTally(source, tally)));
    for (kind, datagrams) in PARTS {
        events.extend(Event::of(kind.step(&mut clock)));
        let arrivals = datagrams.iter().map(|(source, port, items)| {
            Event::Arrival(arrival(&record(*source, *port, clock - 1), items, clock))
        });
        events.extend(arrivals);
    }
    Course {
        opening: OPENING,
        events,
    }
}
