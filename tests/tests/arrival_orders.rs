//! Compares tables that take accepted reports in two orders of arrival, on the archive
//! and on the independent intake, and prints what was met.

use prunepocket_tests::archive;
use prunepocket_tests::arrival_orders::{two_orders, TwoOrders};
use prunepocket_tests::compare_orders::{smallest, OrderComparison};
use prunepocket_tests::counts::{lines, print_lines, settle};
use prunepocket_tests::generator::{self, Rng};
use prunepocket_tests::intake::Intake;
use prunepocket_tests::members::Opening;
use prunepocket_tests::order_counts::Counts;
use prunepocket_tests::sides::Side;
use std::process::exit;
use std::time::Instant;

/// One call on the intake for so many of a run's tries: it is slower than the archive.
const INTAKE_SCALE: u64 = 10;

/// Among so many calls, each line has to be met at least once.
const SHARE: u64 = 4_000;

fn main() {
    let runs = generator::runs();
    run("archive", runs, archive::open);
    run("intake", runs / INTAKE_SCALE, |opening| {
        Intake::open(opening, None)
    });
}

/// So many calls on both tables of a side, which are opened so.
fn run<S: Side>(side: &str, calls: u64, open: impl Fn(&Opening) -> Result<S, u64>) {
    let seed = generator::seed();
    let start = Instant::now();
    let mut rng = Rng::new(seed);
    let mut comparison = OrderComparison::new(&open);
    while comparison.counts.calls < calls {
        let orders = two_orders(&mut rng);
        if let Err(difference) = comparison.check(&orders) {
            let run = comparison.counts.courses;
            println!("FAILED: {side}, course {run} of seed {seed:#x}, {difference}");
            report_mismatch(&open, &orders);
            exit(1);
        }
    }
    print_table(side, seed, &comparison.counts);
    settle(start, comparison.counts.lines(), calls / SHARE);
}

fn report_mismatch<S: Side>(open: impl Fn(&Opening) -> Result<S, u64>, orders: &TwoOrders) {
    let smallest = smallest(&open, orders);
    if let Err(difference) = OrderComparison::new(&open).check(&smallest) {
        println!("smallest case: {difference}");
    }
    println!("{:?}", smallest.opening);
    for part in smallest.parts {
        println!("{part:?}");
    }
}

fn print_table(side: &str, seed: u64, counts: &Counts) {
    println!();
    println!("two orders of arrival, {side}, seed {seed:#x}");
    println!("{} calls in {} courses", counts.calls, counts.courses);
    print_lines(&lines([("reports in two orders", counts.swaps)]));
    print_lines(&counts.lines());
}
