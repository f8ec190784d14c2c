//! Recordings made by hand: the request's example byte by byte, every refusal and
//! the order of refusals, and sizes at the limits. Each is replayed by the archive
//! and by the independent side.

use prunepocket_sys::{RecordingAnswered, Target};
use prunepocket_tests::plain_recordings::{entry, recording, replayed, BEFORE};
use prunepocket_tests::plain_reports::{record, OPENING};
use prunepocket_tests::recording::{Recording, CONTENTS, ENTRY_LIMIT, HEAD, RECORDING_LIMIT};
use prunepocket_tests::recordings::{report_datagram, without_items};
use prunepocket_tests::replay::ENTRY_ROW;

const HEADER: &str = include_str!("../../include/prunepocket.h");

/// Cases P1 and P2 of document 01 as two datagrams, each an RR of 8 bytes and the XR:
/// head, both entries (N, R, address, port and length), both bodies.
const EXAMPLE: &str = "
    00000002 0000002A 00000007 00015F90
    000003E8 00000000 00895440 00000000 00000000 0000FFFF C0000201 13920030
    000003E8 00000000 00895440 00000000 00000000 0000FFFF C0000201 139C0030
    80C90001 0000000A
    80CF0009 0000000A 0C110007 42000000 0000002A 00000007 000003E7 00000000 0087F4B0 03E78000
    80C90001 00000014
    80CF0009 00000014 0C110007 42000000 0000002A 00000007 000003E6 00000000 00869520 03E6C000
";

/// What the request prints for it.
const PRINTED: &str = "capture 2\n0 1 1 0\n1 1 1 0\ntarget 20 998 3221225472\n";

const EXAMPLE_ROWS: usize = 2 * ENTRY_ROW;

fn example() -> Vec<u8> {
    let words = EXAMPLE.split_whitespace();
    let word = |digits: &str| u32::from_str_radix(digits, 16).expect("a word in hex");
    words
        .flat_map(|digits| word(digits).to_be_bytes())
        .collect()
}

/// The lines of the request.
fn printed(replayed: &RecordingAnswered, rows: &[u64]) -> String {
    if replayed.number != 0 {
        return format!("refused {}\n", replayed.number);
    }
    let mut text = format!("capture {}\n", replayed.entries);
    for (index, row) in rows.chunks(ENTRY_ROW).enumerate() {
        text += &format!("{index} {} {} {}\n", row[0], row[1], row[2]);
    }
    let Target {
        source, presented, ..
    } = replayed.target;
    text + &match replayed.choice {
        0 => format!("target {source} {} {}\n", presented >> 32, presented as u32),
        _ => String::from("target none\n"),
    }
}

/// Refused, the rows are as before, and there are neither entries nor a target.
fn assert_refused(bytes: &[u8], length: usize, number: u64) {
    let (replayed, rows) = replayed(bytes, length);
    let expected = RecordingAnswered {
        number,
        entries: 0,
        choice: 20,
        target: Target::default(),
    };
    assert_eq!(
        replayed,
        expected,
        "{} bytes, rows of {length}",
        bytes.len()
    );
    assert!(rows.iter().all(|&number| number == BEFORE));
}

#[test]
fn header_and_bindings_have_these_numbers() {
    let defines = [
        ("BAD_LAYOUT", 25),
        ("RECORDING_LIMIT", prunepocket_sys::RECORDING_LIMIT),
        ("ENTRY_LIMIT", prunepocket_sys::ENTRY_LIMIT),
        ("ENTRY_ITEMS", prunepocket_sys::ENTRY_ITEMS),
        ("ENTRY_ACCEPTED", prunepocket_sys::ENTRY_ACCEPTED),
        ("ENTRY_NUMBER", prunepocket_sys::ENTRY_NUMBER),
        ("ENTRY_ROW", prunepocket_sys::ENTRY_ROW),
    ];
    for (name, number) in defines {
        let define = format!("#define PRUNEPOCKET_{name} {number} ");
        assert!(
            HEADER.lines().any(|line| line.starts_with(&define)),
            "{name}"
        );
    }
    assert_eq!(prunepocket_sys::RECORDING_LIMIT, RECORDING_LIMIT);
    assert_eq!(prunepocket_sys::ENTRY_LIMIT, ENTRY_LIMIT);
    assert_eq!(prunepocket_sys::ENTRY_ROW, ENTRY_ROW);
}

#[test]
fn the_example_prints_what_the_request_says() {
    let (replayed, rows) = replayed(&example(), EXAMPLE_ROWS);
    assert_eq!(rows, [1, 1, 0, 1, 1, 0]);
    let target = Target {
        source: 20,
        group: 42,
        media: 7,
        received: 998 << 32,
        rtp: 8_820_000,
        presented: 998 << 32 | 3_221_225_472,
        counted: 2,
    };
    assert_eq!((replayed.choice, replayed.target), (0, target));
    assert_eq!(printed(&replayed, &rows), PRINTED);
}

#[test]
fn without_entries_there_is_no_target() {
    let bytes = recording(Vec::new()).write();
    assert_eq!(bytes.len(), HEAD);
    for length in [0, 1, ENTRY_ROW * ENTRY_LIMIT] {
        let (replayed, rows) = replayed(&bytes, length);
        assert_eq!(printed(&replayed, &[]), "capture 0\ntarget none\n");
        assert!(rows.iter().all(|&number| number == BEFORE));
    }
}

#[test]
fn the_example_cut_at_any_byte_is_refused() {
    let bytes = example();
    for length in 0..bytes.len() {
        assert_refused(&bytes[..length], EXAMPLE_ROWS, 25);
    }
}

#[test]
fn the_example_with_bytes_behind_it_is_refused() {
    for more in (1..100).chain([65_536 - example().len(), 65_536, 131_072]) {
        let longer = [example(), vec![0; more]].concat();
        assert_refused(&longer, EXAMPLE_ROWS, 25);
    }
}

/// Each changed bit is answered alike by both sides, and each of a number that the
/// layout hangs on is refused.
#[test]
fn the_example_with_any_bit_changed() {
    let bytes = example();
    let is_length = |at: usize| [46, 47, 78, 79].contains(&at);
    for bit in 0..8 * bytes.len() {
        let mut changed = bytes.clone();
        changed[bit / 8] ^= 1 << (bit % 8);
        match bit / 8 {
            at if at < 4 || is_length(at) => assert_refused(&changed, EXAMPLE_ROWS, 25),
            // A rate of 90000 with its highest bits set is too high.
            12 => assert_refused(&changed, EXAMPLE_ROWS, 12),
            _ => assert!(matches!(replayed(&changed, EXAMPLE_ROWS).0.number, 0 | 12)),
        }
    }
}

#[test]
fn every_number_of_entries_with_rows_of_each_length() {
    for entries in 0..=ENTRY_LIMIT + 4 {
        let made = recording(vec![entry(1000, 1, Vec::new()); entries]);
        let (bytes, needed) = (made.write(), ENTRY_ROW * entries);
        let lengths = [0, needed.saturating_sub(1), needed, needed + 1, 1000];
        for length in lengths {
            match (entries > ENTRY_LIMIT, length < needed) {
                (true, _) => assert_refused(&bytes, length, 25),
                (false, true) => assert_refused(&bytes, length, 10),
                (false, false) => {
                    let (replayed, rows) = replayed(&bytes, length);
                    assert_eq!((replayed.number, replayed.entries), (0, entries as u64));
                    let (rows, behind) = rows.split_at(needed);
                    assert!(rows.chunks(ENTRY_ROW).all(|row| row == [0, 0, 1]));
                    assert!(behind.iter().all(|&number| number == BEFORE));
                }
            }
        }
    }
}

#[test]
fn a_body_of_every_length() {
    let lengths = (0..2100).chain([4096, 32_767, 32_768, 65_484, 65_487, 65_488]);
    for length in lengths {
        let bytes = recording(vec![entry(1000, 1, without_items(length))]).write();
        let (replayed, rows) = replayed(&bytes, ENTRY_ROW);
        // Shorter than both packets it is zeros, of version 0.
        let number = match length {
            _ if length == 0 || length % 4 != 0 || length > 2048 => 1,
            4 | 8 => 2,
            _ => 0,
        };
        assert_eq!((replayed.number, &rows[..]), (0, &[0, 0, number][..]));
    }
}

#[test]
fn a_recording_of_more_than_65536_bytes_is_refused() {
    let room = RECORDING_LIMIT - HEAD;
    for entries in [1, 2, 31, 255, 256] {
        let full = room / entries - CONTENTS;
        let mut bodies = vec![vec![0; full]; entries];
        bodies[0].resize(full + room % entries, 0);
        for more in 0..40 {
            let made = bodies.iter().map(|body| entry(1000, 1, body.clone()));
            let bytes = recording(made.collect()).write();
            assert_eq!(bytes.len(), RECORDING_LIMIT + more);
            match more {
                0 => {
                    assert_eq!(replayed(&bytes, ENTRY_ROW * entries).0.number, 0);
                    assert_refused(&[&bytes[..], &[0]].concat(), ENTRY_ROW * entries, 25);
                }
                _ => assert_refused(&bytes, ENTRY_ROW * entries, 25),
            }
            bodies[more % entries].push(0);
        }
    }
}

/// A table is opened for 12 alone: without entries and with them.
#[test]
fn openings_at_the_ends_of_the_ranges() {
    let openings = [
        (0, 90_000, 12),
        (1, 90_000, 0),
        (u32::MAX - 1, 90_000, 0),
        (u32::MAX, 90_000, 12),
        (42, 0, 12),
        (42, 1, 0),
        (42, 192_000, 0),
        (42, 192_001, 12),
        (42, u32::MAX, 12),
        (0, 0, 12),
    ];
    for (group, rate, number) in openings {
        for entries in [0, 1, ENTRY_LIMIT] {
            let mut made = recording(vec![entry(1000, 1, Vec::new()); entries]);
            made.opening.group = group;
            made.opening.rate = rate;
            let (bytes, length) = (made.write(), ENTRY_ROW * entries);
            match number {
                0 => assert_eq!(replayed(&bytes, length).0.number, 0),
                _ => assert_refused(&bytes, length, number),
            }
        }
    }
}

/// The layouts that are bad, each made of a recording whose entry has a report.
fn bad_layouts(made: &Recording) -> Vec<Vec<u8>> {
    let bytes = made.write();
    let many = Recording {
        entries: vec![made.entries[0].clone(); ENTRY_LIMIT + 1],
        ..made.clone()
    };
    let mut count = bytes.clone();
    count[3] += 1;
    vec![
        bytes[..HEAD - 1].to_vec(),
        bytes[..HEAD + CONTENTS - 1].to_vec(),
        bytes[..bytes.len() - 1].to_vec(),
        [&bytes[..], &[0]].concat(),
        [&bytes[..], &[0; RECORDING_LIMIT]].concat(),
        many.write(),
        count,
    ]
}

/// 25 before 12 before 10, whichever of them apply.
#[test]
fn the_first_refusal_that_applies_is_the_answer() {
    let body = report_datagram(&record(1, 1, 999));
    let good = recording(vec![entry(1000, 1, body)]);
    let mut bad = good.clone();
    bad.opening.group = 0;
    for length in 0..=ENTRY_ROW {
        for bytes in bad_layouts(&good).iter().chain(&bad_layouts(&bad)) {
            assert_refused(bytes, length, 25);
        }
        assert_refused(&bad.write(), length, 12);
        if length < ENTRY_ROW {
            assert_refused(&good.write(), length, 10);
        }
    }
    let (replayed, rows) = replayed(&good.write(), ENTRY_ROW);
    assert_eq!((replayed.number, &rows[..]), (0, &[1, 1, 0][..]));
    assert_eq!(replayed.target.group, OPENING.group);
}

/// Lengths and entry counts that are those of a good layout where they wrap.
#[test]
fn numbers_that_wrap_are_refused() {
    let bytes = example();
    for added in [1 << 8, 1 << 16, 1 << 24, 1 << 27, 1 << 31] {
        let mut changed = bytes.clone();
        let count = 2 + added as u32;
        changed[..4].copy_from_slice(&count.to_be_bytes());
        assert_refused(&changed, 1000, 25);
    }
    let mut changed = bytes;
    changed[46] |= 0x80;
    changed[78] |= 0x80;
    assert_refused(&changed, EXAMPLE_ROWS, 25);
}
