//! The comparisons over histories and courses around the limit of the tally.

use prunepocket_tests::call_history::TALLY_LIMIT;
use prunepocket_tests::compare_intake::{self, IntakeComparison};
use prunepocket_tests::compare_table::{self, TableComparison};
use prunepocket_tests::counts::Line;
use prunepocket_tests::generator;
use prunepocket_tests::limit_histories::{course, histories, TALLIES};

const HEADER: &str = include_str!("../../include/prunepocket.h");

/// Each thing has to be met so often in the histories, which are the same in every run.
const LEAST: u64 = 20;

fn ask(met: Vec<Line>, least: u64) {
    for (name, times) in met {
        assert!(times >= least, "{name}: met {times} times");
    }
}

#[test]
fn header_and_bindings_have_this_limit() {
    assert_eq!(prunepocket_sys::TALLY_LIMIT, TALLY_LIMIT);
    let define = format!("#define PRUNEPOCKET_TALLY_LIMIT UINT32_C({TALLY_LIMIT}) ");
    assert!(HEADER.lines().any(|line| line.starts_with(&define)));
}

#[test]
fn calls_around_the_limit_are_answered_alike() {
    let seed = generator::seed();
    let mut comparison = TableComparison::new(seed, None);
    for history in TALLIES.into_iter().flat_map(histories) {
        if let Err(difference) = comparison.check(&history) {
            let smallest = compare_table::smallest(seed, None, &history);
            panic!("{difference}: {smallest:#?}");
        }
    }
    let twins = &comparison.counts.twins;
    ask(twins.lines(), LEAST);
    ask(twins.around_limit.lines(), LEAST);
    ask(comparison.counts.bursts.around_limit(), LEAST);
}

#[test]
fn datagrams_around_the_limit_are_taken_alike() {
    let seed = generator::seed();
    let mut comparison = IntakeComparison::new(seed, None);
    for course in TALLIES.map(course) {
        if let Err(difference) = comparison.check(&course) {
            let smallest = compare_intake::smallest(seed, None, &course);
            panic!("{difference}: {smallest:#?}");
        }
    }
    let counts = &comparison.counts;
    ask(counts.met.around_limit.lines(), 1);
    ask(counts.met.rejoins.lines(), 1);
    assert_eq!(counts.datagrams[0][1..], [0; 10]);
    assert!(counts.raising_again > 0);
    assert!(counts.bursts.iter().all(|&times| times > 0));
    assert!(counts.calls.iter().all(|numbers| numbers[14] > 0));
}
