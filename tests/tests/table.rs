//! Compares the archive's member table with the plain register over a million
//! calls, its targets with their definition, and prints what was met.

use prunepocket_tests::compare_table::{smallest, Counts, StepZero, TableComparison, KINDS};
use prunepocket_tests::counts::{
    answer_name, ask_greatest_tally, ask_step_zero, lines, print_answers, print_greatest_tally,
    print_lines, settle, Line,
};
use prunepocket_tests::generator::{self, Rng};
use prunepocket_tests::histories::{self, History};
use std::process::exit;
use std::time::Instant;

/// The answers that a table can give: 0 is no refusal.
const NUMBERS: [usize; 12] = [0, 12, 13, 14, 15, 16, 17, 18, 19, 20, 23, 24];

/// Among so many calls, each line has to be met at least once.
const SHARE: u64 = 2_000;

fn main() {
    let seed = generator::seed();
    let runs = generator::runs();
    let start = Instant::now();
    let mut rng = Rng::new(seed);
    let mut comparison = TableComparison::new(seed, None);
    while comparison.counts.calls() < runs {
        let history = histories::history(&mut rng);
        if let Err(difference) = comparison.check(&history) {
            report_mismatch(seed, comparison.counts.histories, &history, &difference);
            exit(1);
        }
    }
    print_table(seed, &comparison.counts);
    let answers = NUMBERS.map(|number| (answer_name(number), comparison.counts.met(number)));
    let met = answers.into_iter().chain(others(&comparison.counts));
    settle(start, met, runs / SHARE);
    let step_zero = comparison.counts.step_zero.reports;
    let reports = comparison.counts.reports();
    ask_step_zero(step_zero, reports);
    ask_greatest_tally(comparison.counts.twins.greatest);
}

fn report_mismatch(seed: u64, run: u64, history: &History, difference: &str) {
    println!("FAILED: history {run} of seed {seed:#x}, {difference}");
    let smallest = smallest(seed, None, history);
    if let Err(difference) = TableComparison::new(seed, None).check(&smallest) {
        println!("smallest case: {difference}");
    }
    println!("{:?}", smallest.opening);
    for step in smallest.steps {
        println!("{step:?}");
    }
}

fn print_table(seed: u64, counts: &Counts) {
    println!();
    println!("archive and register, seed {seed:#x}");
    println!("{} calls in {} histories", counts.calls(), counts.histories);
    print_answers("in all", &KINDS, &NUMBERS, &counts.answers);
    print_lines(&others(counts));
    print_greatest_tally(counts.twins.greatest);
}

fn others(counts: &Counts) -> Vec<Line> {
    let targets = &counts.targets;
    let mut others = lines([
        ("lists of members", counts.member_lists),
        ("lists of 64 members", counts.full_lists),
        ("members", counts.members),
        ("targets by presentation", targets.by_presentation),
        ("targets by arrival", targets.by_arrival),
        ("targets before the reading", targets.before_reading),
        ("targets of several members", targets.ties),
        ("targets of step 0", targets.wired),
        ("targets slower than step 0", targets.beside_wired),
        ("targets a unit beside step 0", targets.unit_apart),
    ]);
    others.extend(counts.joins.lines());
    others.extend(counts.bursts.lines());
    others.extend(counts.twins.lines());
    others.extend(of_step_zero(&counts.step_zero));
    others
}

/// Low bits and times at the wrap are those of accepted reports.
fn of_step_zero(counts: &StepZero) -> Vec<Line> {
    let [low_0, low_1, low_65535] = counts.low_bits;
    lines([
        ("reports of step 0", counts.reports),
        ("step 0 accepted", counts.accepted),
        ("step 0 refused 17", counts.refused),
        ("step 0, low bits 0", low_0),
        ("step 0, low bits 1", low_1),
        ("step 0, low bits 65535", low_65535),
        ("step 0, received 2^64 - 2", counts.last_but_one),
        ("step 0, received 0", counts.at_zero),
    ])
}
