//! The receiving bench's scenes on the archive and on the independent side.

use prunepocket_sys::Table;
use prunepocket_tests::intake::Intake;
use prunepocket_tests::scenes::{run, Ran};
use std::process::exit;

const TEXT: &str = include_str!("../../crates/receiving_bench/stdin");

/// What the receiving bench prints of it.
const PRINTED: &str = include_str!("../../crates/receiving_bench/stdout");

/// How many answers the receiving bench compares.
fn answers() -> usize {
    let last = PRINTED.lines().last().unwrap_or("");
    let counts = last
        .strip_prefix("receiving bench: ")
        .and_then(|counts| counts.strip_suffix(" as expected"))
        .and_then(|counts| counts.split_once(" of "));
    match counts {
        Some((met, all)) if met == all => all.parse().expect("a number of answers"),
        _ => panic!("not the receiving bench's last line: {last}"),
    }
}

fn main() {
    let due = Ran {
        steps: TEXT.lines().filter(|line| line.starts_with("  ")).count(),
        answers: answers(),
    };
    let runs = [
        ("archive", run::<Table>(TEXT)),
        ("independent side", run::<Intake>(TEXT)),
    ];
    for (side, ran) in runs {
        match ran {
            Ok(ran) if ran == due && due.answers > 0 => {
                println!(
                    "scenes: {side}, {} steps, {} answers",
                    ran.steps, ran.answers
                );
            }
            Ok(ran) => {
                println!("FAILED: {side}, {ran:?} in place of {due:?}");
                exit(1);
            }
            Err(wrong) => {
                println!("FAILED: {side}, {wrong}");
                exit(1);
            }
        }
    }
}
