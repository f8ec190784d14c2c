//! Tables at the edges of the rule of places, made by public calls alone: for each
//! lowest free place, and for a full table, several patterns of places held behind
//! it.

use prunepocket_sys::{Answered, Place, Table};
use prunepocket_tests::archive;
use prunepocket_tests::compare::same;
use prunepocket_tests::generator::{self, Rng};
use prunepocket_tests::members::{Member, Record};
use prunepocket_tests::places::{count_held_with, lowest_free, lowest_free_with};
use prunepocket_tests::places::{Fault, Held, PLACES};
use prunepocket_tests::plain_reports::{self, reading, OPENING};
use std::array::from_fn;

const SECOND: u64 = 1 << 32;

/// The places behind the lowest free one that are held: none, all, those of even or
/// of odd number, and the last alone.
const PATTERNS: [u64; 5] = [0, u64::MAX, u64::MAX / 3, u64::MAX / 3 * 2, 1 << 63];

/// As many more patterns are drawn for each lowest free place.
const DRAWN: usize = 3;

/// Joining sources have numbers from here on, those before them number and place
/// alike.
const NEW: u32 = 1000;

/// When the tables are filled, and when they are as they are to be.
const FILLED: u32 = 1000;
const READY: u32 = 1006;

/// Each source has a port of its own.
fn record(source: u32, seconds: u32) -> Record {
    plain_reports::record(source, source as u16, seconds)
}

/// A member that stands on this record, and has had no twin.
fn place_of(record: Record) -> Place {
    let member = Member { record, tally: 0 };
    Place { held: 1, member }
}

/// Which places of a table are held.
struct Edge {
    /// The lowest that is free, or 64 where none is.
    lowest: usize,
    held: Held,
}

impl Edge {
    /// All places before the lowest free one are held, those behind it as in the
    /// pattern, whose lowest bit is of place 0.
    fn new(lowest: usize, pattern: u64) -> Self {
        let behind = |place: usize| place > lowest && pattern >> place & 1 == 1;
        let held = from_fn(|place| place < lowest || behind(place));
        Edge { lowest, held }
    }

    fn free(&self) -> Vec<usize> {
        (0..PLACES).filter(|&place| !self.held[place]).collect()
    }
}

fn edges() -> Vec<Edge> {
    let mut rng = Rng::new(generator::seed());
    let with = |lowest: usize| {
        let drawn: [u64; DRAWN] = from_fn(|_| rng.number());
        let patterns = PATTERNS.into_iter().chain(drawn);
        patterns.map(move |pattern| Edge::new(lowest, pattern))
    };
    (0..=PLACES).flat_map(with).collect()
}

fn accepted(answered: Answered) -> Table {
    assert_eq!(answered.number, 0);
    answered.table
}

/// A member at every place, with a report received then.
fn full_table(received: impl Fn(usize) -> u32) -> Table {
    let table = archive::open(&OPENING).expect("it opens");
    (0..PLACES).fold(table, |table, place| {
        let told = record(place as u32, received(place));
        accepted(table.report(&told, &reading(FILLED)))
    })
}

/// The members of all places that are to be free leave one by one.
fn left_by_farewells(edge: &Edge) -> Table {
    let full = full_table(|_| FILLED);
    edge.free().into_iter().fold(full, |table, place| {
        let leaver = record(place as u32, FILLED);
        accepted(table.farewell(leaver.source, &leaver.origin))
    })
}

/// A sweep takes them out, 36 seconds after they received.
fn left_by_sweep(edge: &Edge) -> Table {
    let full = full_table(|place| match edge.held[place] {
        true => FILLED,
        false => FILLED - 30,
    });
    accepted(full.sweep(&reading(READY)))
}

fn shown(table: &Table) -> [Place; PLACES] {
    from_fn(|place| table.member_at(place))
}

/// What is at the edge's places: members where it has them, else zeros.
fn expected_places(edge: &Edge) -> [Place; PLACES] {
    from_fn(|place| match edge.held[place] {
        false => Place::default(),
        true => place_of(record(place as u32, FILLED)),
    })
}

/// New members join until none is taken any more: each at the lowest free place,
/// with all others as before. The one that gets 18 leaves the table as before.
/// Answers the places in the order in which they were taken.
fn join_all(edge: &Edge, table: Table, fault: Option<Fault>) -> Result<Vec<usize>, String> {
    let (mut table, mut held, mut taken) = (table, edge.held, Vec::new());
    let mut places = expected_places(edge);
    same(format_args!("all places"), &shown(&table), &places)?;
    loop {
        let count = count_held_with(&held, fault) as u32;
        same(format_args!("members"), &table.count_members(), &count)?;
        let member = record(NEW + taken.len() as u32, FILLED);
        let Answered {
            number,
            table: after,
        } = table.report(&member, &reading(READY));
        let Some(place) = lowest_free_with(&held, fault) else {
            same(format_args!("no place"), &number, &18)?;
            same(format_args!("the full table"), &after, &table)?;
            return Ok(taken);
        };
        same(format_args!("a free place"), &number, &0)?;
        places[place] = place_of(member);
        same(format_args!("all places"), &shown(&after), &places)?;
        held[place] = true;
        taken.push(place);
        table = after;
    }
}

#[test]
fn the_rule_gives_the_edge_and_none_exactly_where_all_are_held() {
    for edge in edges() {
        let lowest = Some(edge.lowest).filter(|&lowest| lowest < PLACES);
        assert_eq!(lowest_free(&edge.held), lowest);
    }
}

#[test]
fn new_members_take_the_free_places_in_order_and_the_next_gets_18() {
    for edge in edges() {
        let free = Ok(edge.free());
        assert_eq!(join_all(&edge, left_by_farewells(&edge), None), free);
        assert_eq!(join_all(&edge, left_by_sweep(&edge), None), free);
    }
}

#[test]
fn a_member_keeps_its_place_while_lower_ones_are_free() {
    for edge in edges() {
        let mut table = left_by_farewells(&edge);
        let mut places = expected_places(&edge);
        for place in (0..PLACES).filter(|&place| edge.held[place]) {
            let member = record(place as u32, READY);
            table = accepted(table.report(&member, &reading(READY)));
            places[place] = place_of(member);
            assert_eq!(shown(&table), places);
        }
    }
}

/// 13, 15, 16 and 17, which come before 18, and 14 where there is a member.
fn refused_reports(edge: &Edge) -> Vec<(u64, Record)> {
    let spoilt = |spoil: fn(&mut Record)| {
        let mut told = record(NEW, FILLED);
        spoil(&mut told);
        told
    };
    let mut reports = vec![
        (13, spoilt(|told| told.report.group += 1)),
        (13, spoilt(|told| told.report.media += 1)),
        (15, spoilt(|told| told.report.received -= 24 * SECOND + 1)),
        (15, spoilt(|told| told.report.received += 6 * SECOND + 1)),
        (16, spoilt(|told| told.report.rtp -= 54 * OPENING.rate + 1)),
        (17, spoilt(|told| told.report.presented += 30 << 16)),
    ];
    if let Some(place) = edge.held.iter().rposition(|&held| held) {
        let mut twin = record(place as u32, FILLED);
        twin.origin.port += 1;
        reports.push((14, twin));
    }
    reports
}

#[test]
fn a_refused_report_takes_no_place() {
    for edge in edges() {
        let table = left_by_farewells(&edge);
        for (number, told) in refused_reports(&edge) {
            let refused = table.report(&told, &reading(READY));
            let (mut table, mut places) = (table, expected_places(&edge));
            if number == 14 {
                // The twin's number and its holder's place are alike.
                table.members[told.source as usize].tally = 1;
                places[told.source as usize].member.tally = 1;
            }
            assert_eq!(refused, Answered { number, table });
            assert_eq!(shown(&refused.table), places);
        }
    }
}

#[test]
fn each_planted_fault_is_found_at_the_edges() {
    let found = |fault: Fault| {
        let differs = |edge: &Edge| join_all(edge, left_by_farewells(edge), Some(fault)).is_err();
        edges().iter().any(differs)
    };
    assert_eq!(Fault::ALL.map(found), Fault::ALL.map(|_| true));
}
