//! Every case of cases.txt through the decoder and through the archive, with
//! its value of the flag for reduced size, or with both.

use prunepocket_tests::cases::{archive_lines, decoder_lines, parse, Case};
use std::collections::HashSet;

fn all_cases() -> Vec<Case> {
    parse(include_str!("../cases.txt"))
}

fn check(side: &str, lines: fn(&Case, bool) -> Vec<String>) {
    let mut wrong = Vec::new();
    for case in all_cases() {
        for reduced_size in case.values() {
            let answer = lines(&case, reduced_size);
            if answer != case.expected {
                wrong.push(format!(
                    "{}, reduced size {reduced_size}\n  expected {:#?}\n  {side} {answer:#?}",
                    case.name, case.expected
                ));
            }
        }
    }
    assert!(wrong.is_empty(), "{}", wrong.join("\n"));
}

#[test]
fn decoder_answers_every_case() {
    check("decoder", decoder_lines);
}

#[test]
fn archive_answers_every_case() {
    check("archive", archive_lines);
}

#[test]
fn names_are_distinct() {
    let cases = all_cases();
    let names: HashSet<_> = cases
        .iter()
        .flat_map(|case| case.values().into_iter().map(|value| (&case.name, value)))
        .collect();
    let runs: usize = cases.iter().map(|case| case.values().len()).sum();
    assert_eq!(names.len(), runs);
}

/// A case with one value has a counterpart with the other, and only there may
/// the expected lines differ.
#[test]
fn every_case_is_run_with_both_values() {
    let cases = all_cases();
    for case in &cases {
        let Some(value) = case.reduced_size else {
            continue;
        };
        let counterpart = cases
            .iter()
            .find(|other| (&other.name, other.reduced_size) == (&case.name, Some(!value)));
        let counterpart = counterpart.unwrap_or_else(|| panic!("{}: one value", case.name));
        let asked = (&case.datagram, case.index);
        assert_eq!((&counterpart.datagram, counterpart.index), asked);
        assert_ne!(counterpart.expected, case.expected, "{}", case.name);
    }
}

/// Of the first packets that are neither 200 nor 201, and of lone ones.
#[test]
fn other_first_packets_have_cases_with_both_values() {
    let cases = all_cases();
    let has = |packet_type: u8, value: bool, start: &str| {
        cases.iter().any(|case| {
            let first = case.datagram.get(1) == Some(&packet_type);
            first && case.values().contains(&value) && case.expected[0].starts_with(start)
        })
    };
    for packet_type in [199, 202, 203, 204, 207, 211] {
        assert!(has(packet_type, false, "refused 4 at 0"), "{packet_type}");
        assert!(has(packet_type, true, "items "), "{packet_type}");
    }
    for value in [false, true] {
        assert!(has(207, value, "refused 3 at 0"), "{value}");
        assert!(has(200, value, "refused 5 at 0"), "{value}");
        assert!(has(201, value, "refused 5 at 0"), "{value}");
    }
}

#[test]
fn every_refusal_and_kind_has_a_case() {
    let cases = all_cases();
    let lines: Vec<_> = cases.iter().flat_map(|case| &case.expected).collect();
    let starts = [
        "refused 1 at ",
        "refused 2 at ",
        "refused 3 at ",
        "refused 4 at ",
        "refused 5 at ",
        "refused 6 at ",
        "refused 7 at ",
        "refused 9 at ",
        "report at ",
        "settings at ",
        "farewell at ",
    ];
    for start in starts {
        assert!(lines.iter().any(|line| line.starts_with(start)), "{start}");
    }
}
