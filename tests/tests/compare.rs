//! Compares archive and decoder over a million generated datagrams, each with
//! both values of the flag for reduced size, and prints what they met.

use prunepocket_tests::compare::{hex, Comparison, Counts};
use prunepocket_tests::counts::{answer_name, lines, print_answers, print_lines, settle, Line};
use prunepocket_tests::first_packets::FLAGS;
use prunepocket_tests::generator::{self, Rng};
use std::process::exit;
use std::time::Instant;

/// The answers that a reader can give: 0 is no refusal.
const NUMBERS: [usize; 10] = [0, 1, 2, 3, 4, 5, 6, 7, 9, 10];

/// The answers where reduced size was agreed to what is otherwise refused with 4.
const BESIDE_FOUR: [usize; 6] = [0, 2, 3, 5, 6, 7];

fn main() {
    let seed = generator::seed();
    let start = Instant::now();
    let mut rng = Rng::new(seed);
    let mut comparison = Comparison::new(seed, None);
    for run in 0..generator::runs() {
        let datagram = generator::datagram(&mut rng);
        if let Err(difference) = comparison.check(&datagram) {
            report_mismatch(seed, run, &datagram, &difference);
            exit(1);
        }
    }
    print_table(seed, &comparison.counts);
    settle(start, met(&comparison.counts), 1);
}

fn report_mismatch(seed: u64, run: u64, datagram: &[u8], difference: &str) {
    println!("FAILED: datagram {run} of seed {seed:#x}, {difference}");
    println!("datagram {}", hex(datagram));
}

fn print_table(seed: u64, counts: &Counts) {
    println!();
    println!("archive and decoder, seed {seed:#x}");
    println!("{} datagrams, each with both values", counts.datagrams);
    println!("answers 0 to 7 are of datagrams, 9 and 10 of calls");
    print_answers("in all", &FLAGS, &NUMBERS, &counts.answers);
    print_lines(&kinds(counts));
    print_lines(&of_both_values(counts));
    counts.firsts.print();
}

/// All of these have to be met.
fn met(counts: &Counts) -> Vec<Line> {
    let parts = [answers(counts), kinds(counts), of_both_values(counts)];
    let firsts = counts.firsts.all_lines();
    parts.into_iter().flatten().chain(firsts).collect()
}

/// Every answer with each value of the flag, but for 4 where it was agreed.
fn answers(counts: &Counts) -> Vec<Line> {
    let mut lines = Vec::new();
    for (flag, answers) in FLAGS.iter().zip(&counts.answers) {
        for number in NUMBERS {
            if (*flag, number) != (FLAGS[1], 4) {
                let name = format!("{}, {flag}", answer_name(number));
                lines.push((name, answers[number]));
            }
        }
    }
    lines
}

fn kinds(counts: &Counts) -> Vec<Line> {
    let of_flag = |flag: usize| {
        let names = ["reports", "settings", "farewells"];
        let kinds = names.into_iter().zip(&counts.kinds[flag][1..]);
        kinds.map(move |(name, times)| (format!("{name}, {}", FLAGS[flag]), *times))
    };
    of_flag(0).chain(of_flag(1)).collect()
}

/// What the two values of the flag made of one datagram.
fn of_both_values(counts: &Counts) -> Vec<Line> {
    let beside_four = BESIDE_FOUR.map(|number| {
        let name = format!("4 with flag 0, {} with 1", answer_name(number));
        (name, counts.beside_four[number])
    });
    let alike = lines([("alike with both values", counts.alike)]);
    alike.into_iter().chain(beside_four).collect()
}
