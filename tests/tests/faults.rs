//! Plants each fault in the decoder, in the encoder, in the reader and writer of
//! site files' lines, in the register, in bursts, in the tallies, in those of new
//! members, in the rule of places, in the order of arrival, in the intake, in the
//! replay of recordings and in the check of settings, and asserts that the comparison
//! finds it.

use prunepocket_tests::arrival_orders::two_orders;
use prunepocket_tests::arrivals::Course;
use prunepocket_tests::call_history::TALLY_LIMIT;
use prunepocket_tests::compare::{Comparison, Verdict};
use prunepocket_tests::compare_intake::{self, IntakeComparison};
use prunepocket_tests::compare_orders::{self, OrderComparison};
use prunepocket_tests::compare_replay::{self, ReplayComparison};
use prunepocket_tests::compare_settings::{self, SettingsComparison};
use prunepocket_tests::compare_site_lines::LineComparison;
use prunepocket_tests::compare_table::{self, TableComparison};
use prunepocket_tests::compare_writers::WriterComparison;
use prunepocket_tests::encoder::Message;
use prunepocket_tests::generator::{self, Rng};
use prunepocket_tests::histories::History;
use prunepocket_tests::intake::Intake;
use prunepocket_tests::members::Opening;
use prunepocket_tests::settings_faults;
use prunepocket_tests::settings_queries::settings_case;
use prunepocket_tests::{arrivals, histories, limit_histories, recordings, site_lines};
use prunepocket_tests::{burst, call_history, decoder, encoder, intake, order_faults};
use prunepocket_tests::{places, recording, register, rejoins, replay, sync_group};
use std::borrow::Borrow;
use std::fmt::Debug;
use std::iter::once;
use std::process::exit;

/// Each fault has to be found within so many datagrams, messages, lines,
/// histories, courses, recordings or cases of settings.
const BOUND: u64 = 20_000;

/// Written tallies that a fault of the limit leaves alone.
const BELOW_LIMIT: [u32; 2] = [TALLY_LIMIT - 1, TALLY_LIMIT - 2];

/// Which datagram, message, line, history, course, recording or case of settings showed
/// the fault, and how.
type Found = Option<(u64, String)>;

fn main() {
    let seed = generator::seed();
    let mut missed = false;
    println!();
    println!("planted faults, seed {seed:#x}");
    for fault in decoder::Fault::ALL {
        missed |= !print_found(fault, "datagram", in_datagrams(seed, fault));
    }
    for fault in encoder::Fault::OF_REPORTS {
        let found = in_messages(seed, fault, generator::report_message);
        missed |= !print_found(fault, "report", found);
    }
    for fault in encoder::Fault::OF_SETTINGS {
        let found = in_messages(seed, fault, generator::settings_message);
        missed |= !print_found(fault, "settings", found);
    }
    missed |= !lines_find_all(seed);
    for fault in register::Fault::all() {
        let planted = compare_table::Fault::Register(fault);
        missed |= !print_found(fault, "history", in_histories(seed, planted));
    }
    missed |= !bursts_find_all(seed);
    missed |= !tallies_find_all(seed);
    missed |= !rejoins_find_all(seed);
    missed |= !places_find_all(seed);
    for fault in intake::Fault::ALL {
        missed |= !print_found(fault, "course", in_courses(seed, fault));
    }
    for fault in order_faults::all() {
        missed |= !print_found(fault, "orders", in_two_orders(seed, fault));
    }
    missed |= !recordings_find_all(seed);
    for fault in settings_faults::Fault::all() {
        missed |= !print_found(fault, "case", in_settings(seed, fault));
    }
    if missed {
        exit(1);
    }
}

/// Each fault of reader and writer is found in the edges, and again in the lines
/// of the generator alone.
fn lines_find_all(seed: u64) -> bool {
    let lines = site_lines::edge_lines(&mut Rng::new(seed));
    let writings = site_lines::edge_writings();
    let mut found = true;
    for fault in sync_group::Fault::OF_READER {
        let check = LineComparison::check_line;
        found &= print_found(fault, "edge", in_lines(seed, fault, lines.iter(), check));
        let more = generated(seed, site_lines::line);
        found &= print_found(fault, "line", in_lines(seed, fault, more, check));
    }
    for fault in sync_group::Fault::OF_WRITER {
        let check = LineComparison::check_writing;
        found &= print_found(fault, "edge", in_lines(seed, fault, writings.iter(), check));
        let more = generated(seed, site_lines::writing);
        found &= print_found(fault, "writing", in_lines(seed, fault, more, check));
    }
    found
}

/// Each fault of bursts is found in histories, and again in courses.
fn bursts_find_all(seed: u64) -> bool {
    let mut found = true;
    for fault in burst::Fault::ALL {
        let of_register = register::Fault::Burst(fault);
        let planted = compare_table::Fault::Register(of_register);
        found &= print_found(fault, "history", in_histories(seed, planted));
        let planted = intake::Fault::Register(of_register);
        found &= print_found(fault, "course", in_courses(seed, planted));
    }
    found
}

/// Each fault of the tallies is found in histories, and again in courses: those of
/// the limit in such as raise a written tally to it.
fn tallies_find_all(seed: u64) -> bool {
    let of_register = register::Fault::CallHistory;
    let of_table = |fault| compare_table::Fault::Register(of_register(fault));
    let of_intake = |fault| intake::Fault::Register(of_register(fault));
    let mut found = true;
    for fault in call_history::Fault::ALL {
        found &= print_found(fault, "history", in_histories(seed, of_table(fault)));
        found &= print_found(fault, "course", in_courses(seed, of_intake(fault)));
    }
    for fault in call_history::Fault::AT_LIMIT {
        for tally in BELOW_LIMIT {
            let (of_table, of_intake) = (of_table(fault), of_intake(fault));
            found &= print_found(fault, "limit", in_limit_histories(seed, of_table, tally));
            found &= print_found(fault, "limit", in_limit_course(seed, of_intake, tally));
        }
    }
    found
}

/// Each fault of new members' tallies is found in histories, and again in courses:
/// those of the generator, and those from a written tally on.
fn rejoins_find_all(seed: u64) -> bool {
    let mut found = true;
    for fault in rejoins::Fault::ALL {
        let of_table = compare_table::Fault::Rejoins(fault);
        let of_intake = intake::Fault::Rejoins(fault);
        found &= print_found(fault, "history", in_histories(seed, of_table));
        found &= print_found(fault, "course", in_courses(seed, of_intake));
        let in_histories = in_limit_histories(seed, of_table, TALLY_LIMIT);
        found &= print_found(fault, "limit", in_histories);
        let in_course = in_limit_course(seed, of_intake, TALLY_LIMIT);
        found &= print_found(fault, "limit", in_course);
    }
    found
}

/// Each fault of the rule is found in histories, and again in courses.
fn places_find_all(seed: u64) -> bool {
    let mut found = true;
    for fault in places::Fault::ALL {
        let planted = compare_table::Fault::Places(fault);
        found &= print_found(fault, "history", in_histories(seed, planted));
        let planted = intake::Fault::Places(fault);
        found &= print_found(fault, "course", in_courses(seed, planted));
    }
    found
}

/// Each fault of the replay, of the layout, and of the intake and the register below
/// the replay.
fn recordings_find_all(seed: u64) -> bool {
    let mut found = true;
    for fault in replay::Fault::PLAIN {
        found &= print_found(fault, "recording", in_recordings(seed, fault));
    }
    for fault in recording::Fault::ALL {
        let planted = replay::Fault::Recording(fault);
        found &= print_found(fault, "recording", in_recordings(seed, planted));
    }
    for fault in replay::Fault::OF_INTAKE {
        let planted = replay::Fault::Intake(fault);
        found &= print_found(fault, "recording", in_recordings(seed, planted));
    }
    for fault in replay::Fault::OF_REGISTER {
        let planted = replay::Fault::Intake(intake::Fault::Register(fault));
        found &= print_found(fault, "recording", in_recordings(seed, planted));
    }
    found
}

/// Whether the fault was found.
fn print_found(fault: impl Debug, unit: &str, found: Found) -> bool {
    let name = format!("{fault:?}");
    match &found {
        Some((run, difference)) => {
            println!("{name:<28} found in {unit:<9} {run:>6}: {difference}");
        }
        None => println!("{name:<28} FAILED: not found in any {unit}"),
    }
    found.is_some()
}

/// As many inputs of a generator as are tried.
fn generated<I>(seed: u64, mut make: impl FnMut(&mut Rng) -> I) -> impl Iterator<Item = I> {
    let mut rng = Rng::new(seed);
    (0..BOUND).map(move |_| make(&mut rng))
}

/// The first input that shows the fault, which one it is, and how. The sound
/// side answers it as the archive does: it is the fault that was found, not an
/// error of the archive.
fn hunt<I>(
    inputs: impl Iterator<Item = I>,
    mut faulty: impl FnMut(&I) -> Verdict,
    sound: impl Fn(&I) -> Verdict,
) -> Option<(u64, I, String)> {
    for (run, input) in (1..).zip(inputs) {
        if let Err(difference) = faulty(&input) {
            assert_eq!(sound(&input), Ok(()));
            return Some((run, input, difference));
        }
    }
    None
}

fn in_datagrams(seed: u64, fault: decoder::Fault) -> Found {
    let mut comparison = Comparison::new(seed, Some(fault));
    let found = hunt(
        generated(seed, generator::datagram),
        |datagram| comparison.check(datagram),
        |datagram| Comparison::new(seed, None).check(datagram),
    );
    found.map(|(run, _, difference)| (run, difference))
}

fn in_messages(seed: u64, fault: encoder::Fault, make: fn(&mut Rng) -> Message) -> Found {
    let mut comparison = WriterComparison::new(seed, Some(fault));
    let found = hunt(
        generated(seed, |rng| {
            let message = make(rng);
            (message, generator::buffer_length(rng, &message))
        }),
        |(message, length)| comparison.check(message, *length),
        |(message, length)| WriterComparison::new(seed, None).check(message, *length),
    );
    found.map(|(run, _, difference)| (run, difference))
}

fn in_lines<I: Borrow<T>, T>(
    seed: u64,
    fault: sync_group::Fault,
    inputs: impl Iterator<Item = I>,
    check: fn(&mut LineComparison, &T) -> Verdict,
) -> Found {
    let mut comparison = LineComparison::new(seed, Some(fault));
    let found = hunt(
        inputs,
        |input| check(&mut comparison, input.borrow()),
        |input| check(&mut LineComparison::new(seed, None), input.borrow()),
    );
    found.map(|(run, _, difference)| (run, difference))
}

fn in_histories(seed: u64, fault: compare_table::Fault) -> Found {
    in_these_histories(seed, fault, generated(seed, histories::history))
}

fn in_limit_histories(seed: u64, fault: compare_table::Fault, tally: u32) -> Found {
    in_these_histories(seed, fault, limit_histories::histories(tally))
}

/// The difference is that of the smallest history with the fault in it.
fn in_these_histories(
    seed: u64,
    fault: compare_table::Fault,
    histories: impl Iterator<Item = History>,
) -> Found {
    let mut comparison = TableComparison::new(seed, Some(fault));
    let (run, history, _) = hunt(
        histories,
        |history| comparison.check(history),
        |history| TableComparison::new(seed, None).check(history),
    )?;
    let history = compare_table::smallest(seed, Some(fault), &history);
    let difference = TableComparison::new(seed, Some(fault)).check(&history);
    difference.err().map(|difference| (run, difference))
}

fn in_courses(seed: u64, fault: intake::Fault) -> Found {
    in_these_courses(seed, fault, generated(seed, arrivals::course))
}

fn in_limit_course(seed: u64, fault: intake::Fault, tally: u32) -> Found {
    in_these_courses(seed, fault, once(limit_histories::course(tally)))
}

/// The difference is that of the smallest course with the fault in it.
fn in_these_courses(
    seed: u64,
    fault: intake::Fault,
    courses: impl Iterator<Item = Course>,
) -> Found {
    let mut comparison = IntakeComparison::new(seed, Some(fault));
    let (run, course, _) = hunt(
        courses,
        |course| comparison.check(course),
        |course| IntakeComparison::new(seed, None).check(course),
    )?;
    let course = compare_intake::smallest(seed, Some(fault), &course);
    let difference = IntakeComparison::new(seed, Some(fault)).check(&course);
    difference.err().map(|difference| (run, difference))
}

/// Two tables with the fault differ from each other, and two without it do not. The
/// difference is that of the smallest course with the fault in it.
fn in_two_orders(seed: u64, fault: intake::Fault) -> Found {
    let with = |fault: Option<intake::Fault>| move |opening: &Opening| Intake::open(opening, fault);
    let mut comparison = OrderComparison::new(with(Some(fault)));
    let (run, orders, _) = hunt(
        generated(seed, two_orders),
        |orders| comparison.check(orders),
        |orders| OrderComparison::new(with(None)).check(orders),
    )?;
    let orders = compare_orders::smallest(with(Some(fault)), &orders);
    let difference = OrderComparison::new(with(Some(fault))).check(&orders);
    difference.err().map(|difference| (run, difference))
}

/// The difference is that of the smallest recording with the fault in it.
fn in_recordings(seed: u64, fault: replay::Fault) -> Found {
    let mut comparison = ReplayComparison::new(seed, Some(fault));
    let (run, recording, _) = hunt(
        generated(seed, recordings::replay),
        |recording| comparison.check(recording),
        |recording| ReplayComparison::new(seed, None).check(recording),
    )?;
    let recording = compare_replay::smallest(seed, Some(fault), &recording);
    let difference = ReplayComparison::new(seed, Some(fault)).check(&recording);
    difference.err().map(|difference| (run, difference))
}

/// The difference is that of the smallest case with the fault in it.
fn in_settings(seed: u64, fault: settings_faults::Fault) -> Found {
    let mut comparison = SettingsComparison::new(seed, Some(fault));
    let (run, case, _) = hunt(
        generated(seed, settings_case),
        |case| comparison.check(case),
        |case| SettingsComparison::new(seed, None).check(case),
    )?;
    let case = compare_settings::smallest(seed, Some(fault), &case);
    let difference = SettingsComparison::new(seed, Some(fault)).check(&case);
    difference.err().map(|difference| (run, difference))
}
