//! Bursts at the ends of the ranges: every number of reports with every length of
//! the list up to a few above 64, lengths that wrap, and twins in one burst.

use prunepocket_tests::archive;
use prunepocket_tests::burst::BURST_LIMIT;
use prunepocket_tests::compare_burst::{check_burst, check_single_calls, Taken};
use prunepocket_tests::members::{Burst, Record};
use prunepocket_tests::plain_reports::{reading, record, OPENING};
use prunepocket_tests::register::Register;

const HEADER: &str = include_str!("../../include/prunepocket.h");

/// The most reports, and the longest list, that are tried with all of the others.
const LONGEST: usize = BURST_LIMIT + 4;

/// Numbers of reports that are at most 64 where they wrap at 2^8 or 2^16.
const WRAPPING: [usize; 6] = [256, 257, 320, 65_536, 65_537, 65_600];

/// What the list holds beforehand.
const BEFORE: u64 = u64::MAX;

/// A port for each source.
fn plain(source: usize) -> Record {
    record(source as u32, source as u16, 999)
}

fn burst(reports: Vec<Record>, length: usize) -> Burst {
    Burst {
        reports,
        reading: reading(1000),
        list: vec![BEFORE; length],
    }
}

/// What the archive answers on a new table, which is what a new register answers and
/// what single calls come to.
fn taken(burst: &Burst) -> Taken {
    let table = archive::open(&OPENING).expect("it opens");
    let mut register = Register::open(&OPENING, None).expect("it opens");
    let answer = |list: &mut [u64]| register.burst(&burst.reports, &burst.reading, list);
    let taken = check_burst(&table, burst, answer).expect("as the register's");
    check_single_calls(&table, burst, &taken, |_, _, _, _| {}).expect("as the single calls'");
    taken
}

#[test]
fn header_has_these_numbers() {
    for define in ["LONG_BURST 23 ", "SHORT_ANSWERS 24 ", "BURST_LIMIT 64 "] {
        let define = format!("#define PRUNEPOCKET_{define}");
        assert!(HEADER.lines().any(|line| line.starts_with(&define)));
    }
}

#[test]
fn every_number_of_reports_with_every_list() {
    let told: Vec<Record> = (0..LONGEST).map(plain).collect();
    let pairs = (0..=LONGEST).flat_map(|reports| (0..=LONGEST).map(move |list| (reports, list)));
    for (reports, length) in pairs {
        let taken = taken(&burst(told[..reports].to_vec(), length));
        let expected = match (reports > BURST_LIMIT, length < reports) {
            (true, _) => 23,
            (false, true) => 24,
            (false, false) => 0,
        };
        assert_eq!(
            taken.number, expected,
            "{reports} reports, {length} numbers"
        );
        let members = if expected == 0 { reports } else { 0 };
        assert_eq!(taken.table.count_members(), members as u32);
        assert!(taken.numbers.iter().all(|&number| number == 0));
    }
}

#[test]
fn more_reports_than_64_get_23_also_where_their_number_wraps() {
    for reports in WRAPPING {
        let told = vec![plain(1); reports];
        for length in [0, 1, BURST_LIMIT, reports - 1, reports, reports + 1] {
            assert_eq!(taken(&burst(told.clone(), length)).number, 23);
        }
    }
}

#[test]
fn a_long_list_is_long_enough_also_where_its_length_wraps() {
    for length in WRAPPING {
        for reports in [0, 1, BURST_LIMIT - 1, BURST_LIMIT] {
            let told = (0..reports).map(plain).collect();
            assert_eq!(taken(&burst(told, length)).number, 0);
        }
    }
}

#[test]
fn the_first_of_two_twins_takes_the_number() {
    let own = plain(1);
    for byte in 0..18 {
        let mut twin = own;
        match byte {
            0..=15 => twin.origin.address[byte] ^= 1,
            _ => twin.origin.port ^= 1 << (8 * (byte - 16)),
        }
        let met = taken(&burst(vec![own, twin, own, twin], 4));
        assert_eq!(met.numbers, [0, 14, 0, 14], "byte {byte}");
        let member = met.table.member_at(0).member;
        assert_eq!((member.record, member.tally), (own, 2));
        let met = taken(&burst(vec![twin, own, plain(2)], 4));
        assert_eq!(met.numbers, [0, 14, 0], "byte {byte}");
        assert_eq!(met.table.member_at(0).member.record, twin);
    }
}

#[test]
fn each_report_has_its_own_origin() {
    let told: Vec<Record> = (0..BURST_LIMIT).map(plain).collect();
    let met = taken(&burst(told.clone(), BURST_LIMIT));
    for (place, told) in told.iter().enumerate() {
        assert_eq!(met.table.member_at(place).member.record, *told);
    }
}
