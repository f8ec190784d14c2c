//! Compares the archive's reader and writer of a site file's line with the
//! independent ones, over the edges and a million lines each, and prints what
//! was met.

use prunepocket_tests::compare::Verdict;
use prunepocket_tests::compare_site_lines::{LineComparison, ReadCounts, WriteCounts};
use prunepocket_tests::counts::{answer_name, lines, print_answers, print_lines, settle, Line};
use prunepocket_tests::generator::{self, Rng};
use prunepocket_tests::site_lines::{self, Kind, SiteLine, Writing};
use std::process::exit;
use std::time::Instant;

/// The answers to each kind of line that have to be met. Cut and near lines have
/// no other, and noise has another by chance alone.
const READ: [(Kind, &[usize]); 7] = [
    (Kind::Digits, &[0, 21, 22]),
    (Kind::Changed, &[0, 21, 22]),
    (Kind::Missing, &[0, 21, 22]),
    (Kind::Added, &[0, 21, 22]),
    (Kind::Cut, &[21]),
    (Kind::Near, &[21]),
    (Kind::Noise, &[21]),
];

fn main() {
    let seed = generator::seed();
    let runs = generator::runs();
    let start = Instant::now();
    let comparison = match check_all(seed, runs) {
        Ok(comparison) => comparison,
        Err(difference) => {
            println!("FAILED: seed {seed:#x}, {difference}");
            exit(1);
        }
    };
    println!();
    println!("archive and independent reader and writer of site files' lines, seed {seed:#x}");
    println!("the edges, then {runs} lines to be read and {runs} to be written");
    print_read(&comparison.read);
    println!();
    print_written(&comparison.written);
    let met = [
        met_in_reading(&comparison.read),
        met_in_writing(&comparison.written),
    ];
    settle(start, met.concat(), 1);
}

fn check_all(seed: u64, runs: u64) -> Result<LineComparison, String> {
    let mut rng = Rng::new(seed);
    let mut comparison = LineComparison::new(seed, None);
    for line in site_lines::edge_lines(&mut rng) {
        check_line(&mut comparison, &line)?;
    }
    for writing in site_lines::edge_writings() {
        check_writing(&mut comparison, &writing)?;
    }
    for _ in 0..runs {
        check_line(&mut comparison, &site_lines::line(&mut rng))?;
        check_writing(&mut comparison, &site_lines::writing(&mut rng))?;
    }
    Ok(comparison)
}

fn check_line(comparison: &mut LineComparison, line: &SiteLine) -> Verdict {
    comparison.check_line(line).map_err(|difference| {
        let shown = line.bytes.escape_ascii();
        format!("{difference}\nline \"{shown}\"")
    })
}

fn check_writing(comparison: &mut LineComparison, writing: &Writing) -> Verdict {
    let (group, length) = writing;
    comparison
        .check_writing(writing)
        .map_err(|difference| format!("{difference}\ngroup {group}, a buffer of {length} bytes"))
}

fn print_read(counts: &ReadCounts) {
    let kinds = Kind::ALL.map(|kind| format!("{kind:?}").to_lowercase());
    let kinds: Vec<&str> = kinds.iter().map(String::as_str).collect();
    print_answers("lines read", &kinds, &[0, 21, 22], &counts.answers);
    print_lines(&others_in_reading(counts));
}

fn print_written(counts: &WriteCounts) {
    let digits: Vec<String> = (1..=10).map(|count| count.to_string()).collect();
    let digits: Vec<&str> = digits.iter().map(String::as_str).collect();
    print_answers("by digits", &digits, &[0, 10, 22], &counts.answers);
    print_lines(&others_in_writing(counts));
}

fn others_in_reading(counts: &ReadCounts) -> Vec<Line> {
    let digits = counts.digits.iter().enumerate().skip(1);
    let digits = digits.map(|(count, times)| (format!("read, count of digits {count}"), *times));
    let others = lines([
        ("read, with leading zeros", counts.leading_zeros),
        ("read, group 0", counts.group_zero),
        ("read, group 4294967294", counts.last_group),
        ("written back", counts.written_back),
        ("written back without zeros", counts.shortened),
        ("22, up to ten digits", counts.high_values),
        ("22, more than ten digits", counts.many_digits),
        ("22, value in range", counts.many_digits_in_range),
        ("22, 1,000 digits", counts.thousand_digits),
        ("21, 22 due too", counts.both_refusals),
        ("21, 1,000 digits but one", counts.thousand_digits_but_one),
        ("21, no digit", counts.no_digit),
    ]);
    digits.chain(others).collect()
}

fn others_in_writing(counts: &WriteCounts) -> Vec<Line> {
    lines([
        ("22, 10 due too", counts.both_refusals),
        ("buffers of the line's length", counts.exact.iter().sum()),
        ("buffers one byte shorter", counts.one_short.iter().sum()),
        ("read back", counts.read_back),
    ])
}

fn met_in_reading(counts: &ReadCounts) -> Vec<Line> {
    let answers = READ.into_iter().flat_map(|(kind, numbers)| {
        let times = &counts.answers[kind as usize];
        let name = move |number| format!("{} ({kind:?})", answer_name(number));
        numbers
            .iter()
            .map(move |&number| (name(number), times[number]))
    });
    answers.chain(others_in_reading(counts)).collect()
}

/// Lines of every length, in buffers that are as long and one byte shorter.
fn met_in_writing(counts: &WriteCounts) -> Vec<Line> {
    let mut met = others_in_writing(counts);
    for (index, answers) in counts.answers.iter().enumerate() {
        let name = |what: &str| format!("{what} ({} digits)", index + 1);
        met.extend([
            (name("accepted"), answers[0]),
            (name("refused 10"), answers[10]),
            (name("exactly as long"), counts.exact[index]),
            (name("one byte shorter"), counts.one_short[index]),
        ]);
    }
    met.push((answer_name(22), counts.answers[9][22]));
    met
}
