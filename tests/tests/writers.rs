//! Compares the archive's writers with the encoder over a million messages
//! each, writes the items of generated datagrams again, and prints what was
//! met.

use prunepocket_tests::compare::{hex, Verdict};
use prunepocket_tests::compare_writers::{Counts, WriterComparison};
use prunepocket_tests::counts::{lines, settle, Line};
use prunepocket_tests::encoder::Message;
use prunepocket_tests::generator::{self, Rng};
use std::process::exit;
use std::time::Instant;

fn main() {
    let seed = generator::seed();
    let runs = generator::runs();
    let start = Instant::now();
    let comparison = match check_all(seed, runs) {
        Ok(comparison) => comparison,
        Err(difference) => {
            println!("FAILED: seed {seed:#x}, {difference}");
            exit(1);
        }
    };
    println!();
    println!("archive and encoder, seed {seed:#x}");
    println!("{runs} messages of each writer, items of {runs} datagrams");
    print_table(&comparison);
    let both = [&comparison.reports, &comparison.settings];
    settle(start, both.into_iter().flat_map(met), 1);
}

fn check_all(seed: u64, runs: u64) -> Result<WriterComparison, String> {
    let mut rng = Rng::new(seed);
    let mut comparison = WriterComparison::new(seed, None);
    check_messages(&mut comparison, &mut rng, runs, generator::report_message)?;
    check_messages(&mut comparison, &mut rng, runs, generator::settings_message)?;
    check_compounds(&mut comparison, &mut rng, runs)?;
    Ok(comparison)
}

fn check_messages(
    comparison: &mut WriterComparison,
    rng: &mut Rng,
    runs: u64,
    make: fn(&mut Rng) -> Message,
) -> Verdict {
    for run in 0..runs {
        let message = make(rng);
        let length = generator::buffer_length(rng, &message);
        comparison
            .check(&message, length)
            .map_err(|difference| format!("message {run}, {difference}\n{message:?}"))?;
    }
    Ok(())
}

fn check_compounds(comparison: &mut WriterComparison, rng: &mut Rng, runs: u64) -> Verdict {
    for run in 0..runs {
        let start = generator::start(rng);
        let compound = generator::valid(rng, start);
        comparison.check_compound(&compound).map_err(|difference| {
            let datagram = hex(&compound.bytes);
            format!("datagram {run}, {difference}\ndatagram {datagram}")
        })?;
    }
    Ok(())
}

/// The lines of the table; every one has to be met by both writers.
fn met(counts: &Counts) -> Vec<Line> {
    lines([
        ("accepted", counts.accepted),
        ("refused 10", counts.short_buffer),
        ("refused 11", counts.out_of_range),
        ("read back behind RR, flag 0", counts.read_back[0]),
        ("read back behind RR, flag 1", counts.read_back[1]),
        ("read back alone, flag 1", counts.read_alone),
        ("refused 4 alone, flag 0", counts.refused_alone),
        ("items written back, flag 0", counts.written_back[0]),
        ("items written back, flag 1", counts.written_back[1]),
        ("of these, without SR or RR", counts.written_from_reduced),
        ("items not written back (11)", counts.not_written_back),
    ])
}

fn print_table(comparison: &WriterComparison) {
    println!("{:<32}{:>12}{:>12}", "", "report", "settings");
    let settings = met(&comparison.settings);
    for ((name, reports), (_, settings)) in met(&comparison.reports).into_iter().zip(settings) {
        println!("{name:<32}{reports:>12}{settings:>12}");
    }
}
