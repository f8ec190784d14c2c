//! Compares the archive's replay of recordings with the independent one and with
//! the archive's own single calls, over 50,000 recordings, and prints what was met.

use prunepocket_tests::compare::hex;
use prunepocket_tests::compare_replay::{smallest, ReplayComparison};
use prunepocket_tests::counts::{print_lines, settle};
use prunepocket_tests::generator::{self, Rng};
use prunepocket_tests::recording_counts::Counts;
use prunepocket_tests::recordings::{self, Replay};
use std::process::exit;
use std::time::Instant;

/// One recording for so many of a run's tries, since each has many datagrams.
const SCALE: u64 = 20;

/// Among so many recordings, each line has to be met at least once.
const SHARE: u64 = 2_000;

fn main() {
    let seed = generator::seed();
    let runs = generator::runs() / SCALE;
    let start = Instant::now();
    let mut rng = Rng::new(seed);
    let mut comparison = ReplayComparison::new(seed, None);
    for run in 1..=runs {
        let replay = recordings::replay(&mut rng);
        if let Err(difference) = comparison.check(&replay) {
            report_mismatch(seed, run, &replay, &difference);
            exit(1);
        }
    }
    print_table(seed, &comparison.counts);
    let counts = &comparison.counts;
    let met = counts.answer_lines().into_iter().chain(counts.lines());
    settle(start, met, runs / SHARE);
}

fn report_mismatch(seed: u64, run: u64, replay: &Replay, difference: &str) {
    println!("FAILED: recording {run} of seed {seed:#x}, {difference}");
    let smallest = smallest(seed, None, replay);
    if let Err(difference) = ReplayComparison::new(seed, None).check(&smallest) {
        println!("smallest case: {difference}");
    }
    println!("{:?}", smallest.recording.opening);
    for entry in &smallest.recording.entries {
        println!("{:?} {:?}", entry.origin, entry.reading);
        println!("body {}", hex(&entry.body));
    }
    for change in &smallest.changes {
        println!("{change:?}");
    }
    println!("rows of {} numbers", smallest.rows_length());
}

fn print_table(seed: u64, counts: &Counts) {
    println!();
    println!("archive and independent replay, seed {seed:#x}");
    println!("{} recordings", counts.recordings());
    print_lines(&counts.answer_lines());
    print_lines(&counts.lines());
}
