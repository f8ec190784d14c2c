//! Compares the archive's intake of whole datagrams with the independent one
//! over 200,000 datagrams, each with a value of the flag for reduced size, and
//! prints what was met.

use prunepocket_tests::arrivals::{self, Course, Event};
use prunepocket_tests::compare::hex;
use prunepocket_tests::compare_intake::{smallest, Counts, IntakeComparison, KINDS};
use prunepocket_tests::counts::{
    answer_name, ask_greatest_tally, ask_step_zero, lines, print_answers, print_greatest_tally,
    print_lines, settle, Line,
};
use prunepocket_tests::first_packets::FLAGS;
use prunepocket_tests::generator::{self, Rng};
use std::process::exit;
use std::time::Instant;

/// One datagram for so many of a run's tries, since each is compared with all
/// members.
const SCALE: u64 = 5;

/// The answers that a datagram can get: 0 is no refusal.
const DATAGRAM_NUMBERS: [usize; 9] = [0, 1, 2, 3, 4, 5, 6, 7, 10];

/// The answers that a call for an item can get.
const CALL_NUMBERS: [usize; 8] = [0, 13, 14, 15, 16, 17, 18, 19];

/// Among so many datagrams, each line has to be met at least once.
const SHARE: u64 = 1_000;

fn main() {
    let seed = generator::seed();
    let datagrams = generator::runs() / SCALE;
    let start = Instant::now();
    let mut rng = Rng::new(seed);
    let mut comparison = IntakeComparison::new(seed, None);
    while comparison.counts.taken() < datagrams {
        let course = arrivals::course(&mut rng);
        if let Err(difference) = comparison.check(&course) {
            report_mismatch(seed, comparison.counts.courses, &course, &difference);
            exit(1);
        }
    }
    print_table(seed, &comparison.counts);
    let counts = &comparison.counts;
    let met = of_datagrams(counts).into_iter().chain(of_kinds(counts));
    let met = met.chain(counts.firsts.type_lines());
    settle(start, met.chain(others(counts)), datagrams / SHARE);
    let (step_zero, reports) = (counts.step_zero, counts.calls[0].iter().sum());
    ask_step_zero(step_zero, reports);
    ask_greatest_tally(counts.greatest_tally);
}

fn report_mismatch(seed: u64, run: u64, course: &Course, difference: &str) {
    println!("FAILED: course {run} of seed {seed:#x}, {difference}");
    let smallest = smallest(seed, None, course);
    if let Err(difference) = IntakeComparison::new(seed, None).check(&smallest) {
        println!("smallest case: {difference}");
    }
    println!("{:?}", smallest.opening);
    for event in smallest.events {
        match &event {
            Event::Call(call) => println!("{call:?}"),
            Event::Arrival(arrival) => {
                println!("{:?} {:?}", arrival.origin, arrival.reading);
                println!("list of {}, then {:?}", arrival.length, arrival.choice);
                println!("reduced size {}", arrival.reduced_size);
                println!("datagram {}", hex(&arrival.datagram));
            }
            Event::Burst(_) | Event::Choose(_) | Event::SetTally(..) => println!("{event:?}"),
        }
    }
}

fn print_table(seed: u64, counts: &Counts) {
    println!();
    println!("archive and intake, seed {seed:#x}");
    println!("{} datagrams in {} courses", counts.taken(), counts.courses);
    print_answers("datagrams", &FLAGS, &DATAGRAM_NUMBERS, &counts.datagrams);
    counts.firsts.print();
    print_answers("calls", &KINDS, &CALL_NUMBERS, &counts.calls);
    print_lines(&others(counts));
    print_greatest_tally(counts.greatest_tally);
}

/// The answers that a datagram can get with each value of the flag: 4 with one.
fn of_datagrams(counts: &Counts) -> Vec<Line> {
    let line = |flag: usize, number: usize| {
        let name = format!("datagram {}, {}", answer_name(number), FLAGS[flag]);
        (name, counts.datagrams[flag][number])
    };
    let not_agreed = DATAGRAM_NUMBERS.map(|number| line(0, number));
    let agreed = DATAGRAM_NUMBERS.into_iter().filter(|&number| number != 4);
    let agreed = agreed.map(|number| line(1, number));
    not_agreed.into_iter().chain(agreed).collect()
}

fn others(counts: &Counts) -> Vec<Line> {
    let mut others = lines([
        ("reports of step 0", counts.step_zero),
        ("step 0 accepted", counts.step_zero_accepted),
        ("step 0 refused 17", counts.step_zero_refused),
        ("bursts between, taken", counts.bursts[0]),
        ("bursts between, refused", counts.bursts[1]),
        ("alike with both values", counts.alike),
        ("refused 4 with one value", counts.beside_four),
        ("settings passed by", counts.settings),
        ("datagrams with accepted calls", counts.changing),
        ("datagrams of several answers", counts.mixed),
        ("numbers behind the calls", counts.spare),
        ("tables without members", counts.empty_tables),
        ("tables of 64 members", counts.full_tables),
        ("members", counts.members),
        ("targets", counts.targets),
        ("choices refused 20", counts.none_fresh),
    ]);
    others.extend(counts.met.joins.lines());
    others.extend(counts.met.rejoins.lines());
    others.extend(of_twins(counts));
    others
}

fn of_twins(counts: &Counts) -> Vec<Line> {
    lines([
        ("datagrams that raise a tally", counts.raising),
        ("the same, by more than one", counts.raising_again),
        ("members with a tally", counts.tallied),
    ])
}

/// The answers that each kind of call can get.
fn of_kinds(counts: &Counts) -> Vec<Line> {
    let line = |kind: usize, number: usize| {
        let name = format!("{} {}", KINDS[kind], answer_name(number));
        (name, counts.calls[kind][number])
    };
    let reports = [0, 13, 14, 15, 16, 17, 18].map(|number| line(0, number));
    let farewells = [0, 14, 19].map(|number| line(1, number));
    reports.into_iter().chain(farewells).collect()
}
