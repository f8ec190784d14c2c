//! Compares the archive's check of another maker's settings with the independent one
//! over a million packets, its answers with what they mean, and prints what was met.

use prunepocket_tests::compare_settings::{smallest, SettingsComparison};
use prunepocket_tests::counts::{print_lines, settle};
use prunepocket_tests::generator::{self, Rng};
use prunepocket_tests::settings_counts::Counts;
use prunepocket_tests::settings_queries::{settings_case, SettingsCase, Start};
use prunepocket_tests::table_values::members_at;
use std::process::exit;
use std::time::Instant;

/// Among so many packets, each line has to be met at least once.
const SHARE: u64 = 2_000;

fn main() {
    let seed = generator::seed();
    let runs = generator::runs();
    let start = Instant::now();
    let mut rng = Rng::new(seed);
    let mut comparison = SettingsComparison::new(seed, None);
    while comparison.counts.queries() < runs {
        let case = settings_case(&mut rng);
        if let Err(difference) = comparison.check(&case) {
            report_mismatch(seed, comparison.counts.cases, &case, &difference);
            exit(1);
        }
    }
    print_table(seed, &comparison.counts);
    settle(start, comparison.counts.lines(), runs / SHARE);
}

fn report_mismatch(seed: u64, run: u64, case: &SettingsCase, difference: &str) {
    println!("FAILED: case {run} of seed {seed:#x}, {difference}");
    let smallest = smallest(seed, None, case);
    if let Err(difference) = SettingsComparison::new(seed, None).check(&smallest) {
        println!("smallest case: {difference}");
    }
    match &smallest.start {
        Start::History(history) => {
            println!("{:?}", history.opening);
            for step in &history.steps {
                println!("{step:?}");
            }
        }
        Start::Value(table) => {
            let (group, media, rate) = (table.group, table.media, table.rate);
            println!("table of group {group}, media {media}, rate {rate}");
            for member in members_at(table, table.held) {
                println!("{member:?}");
            }
        }
    }
    for query in smallest.queries {
        println!("{query:?}");
    }
}

fn print_table(seed: u64, counts: &Counts) {
    println!();
    println!("archive and check of settings, seed {seed:#x}");
    println!("{} packets in {} cases", counts.queries(), counts.cases);
    print_lines(&counts.lines());
}
