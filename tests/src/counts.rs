//! What the long comparisons print of what they met, and what they ask of it.

use std::process::exit;
use std::time::Instant;

/// Among so many reports, one has to present with a step of 0.
const STEP_ZERO_SHARE: u64 = 10;

/// The greatest tally has to be at least this.
const LEAST_TALLY: u32 = 100;

/// A name, and how often it was met.
pub type Line = (String, u64);

/// The name of an answer: a refusal's number, or 0.
pub fn answer_name(number: usize) -> String {
    match number {
        0 => String::from("accepted"),
        _ => format!("refused {number}"),
    }
}

/// For each number how often it was the answer, in all and to each kind of
/// call.
pub fn print_answers<const MOST: usize>(
    title: &str,
    kinds: &[&str],
    numbers: &[usize],
    answers: &[[u64; MOST]],
) {
    let columns: String = kinds.iter().map(|kind| format!("{kind:>10}")).collect();
    println!("{:<32}{title:>12}{columns}", "answer");
    for &number in numbers {
        let times = answers.iter().map(|answers| answers[number]);
        let columns: String = times.clone().map(|times| format!("{times:>10}")).collect();
        let in_all: u64 = times.sum();
        println!("{:<32}{in_all:>12}{columns}", answer_name(number));
    }
}

pub fn print_lines(lines: &[Line]) {
    for (name, times) in lines {
        println!("{name:<32}{times:>12}");
    }
}

/// Lines with a name that is known beforehand.
pub fn lines<const COUNT: usize>(lines: [(&str, u64); COUNT]) -> Vec<Line> {
    lines.map(|(name, times)| (name.to_string(), times)).into()
}

/// The run had no mismatch. It fails where a line was met less often than that.
pub fn settle(start: Instant, lines: impl IntoIterator<Item = Line>, least: u64) {
    println!("no mismatch, {:.1} s", start.elapsed().as_secs_f64());
    let least = least.max(1);
    if let Some((name, _)) = lines.into_iter().find(|(_, times)| *times < least) {
        println!("FAILED: {name}: met less than {least} times");
        exit(1);
    }
}

/// The run fails where fewer of the reports have a step of 0.
pub fn ask_step_zero(step_zero: u64, reports: u64) {
    if step_zero * STEP_ZERO_SHARE < reports {
        println!("FAILED: reports of step 0: {step_zero} among {reports}");
        exit(1);
    }
}

pub fn print_greatest_tally(greatest: u32) {
    print_lines(&lines([("greatest tally", greatest.into())]));
}

/// The run fails where no member had a great tally.
pub fn ask_greatest_tally(greatest: u32) {
    if greatest < LEAST_TALLY {
        println!("FAILED: the greatest tally is {greatest}, below {LEAST_TALLY}");
        exit(1);
    }
}
