//! Lines of site files at the ends of the ranges, through the independent reader
//! and writer and through the archive.

use prunepocket_tests::items::Refusal;
use prunepocket_tests::sync_group;

/// What lent memory holds before a call.
const FILL: u8 = 0xA5;

type Memory = [u8; 64];

/// Both sides answer a line with a group or with a refusal's number, and leave
/// the lent group as before where they refuse.
fn assert_read(line: &[u8], expected: Result<u32, u64>) {
    let expected = expected.map_err(|number| Refusal::new(number, 0));
    for read in [sync_group::read, prunepocket_sys::read_sync_group] {
        for before in [0, 42, u32::MAX] {
            let mut group = before;
            let answer = read(line, &mut group);
            assert_eq!(answer, expected.map(|_| ()), "{}", line.escape_ascii());
            assert_eq!(group, expected.unwrap_or(before));
        }
    }
}

/// Both sides write a line into a buffer of a length or refuse with a number,
/// and leave everything else as before.
fn assert_written(group: u32, length: usize, expected: Result<&str, u64>) {
    let line = expected.unwrap_or("");
    let mut after: Memory = [FILL; 64];
    after[..line.len()].copy_from_slice(line.as_bytes());
    let length_after = expected.map_or(u64::MAX, |line| line.len() as u64);
    for write in [sync_group::write, prunepocket_sys::write_sync_group] {
        let mut memory: Memory = [FILL; 64];
        let mut written = u64::MAX;
        let answer = write(group, &mut memory[..length], &mut written);
        let refusal = expected.err().map(|number| Refusal::new(number, 0));
        assert_eq!(answer.err(), refusal, "{group} into {length} bytes");
        assert_eq!((written, memory), (length_after, after));
    }
}

fn line_of(digits: &str) -> Vec<u8> {
    format!("a=rtcp-idms:sync-group={digits}\r\n").into_bytes()
}

#[test]
fn one_to_ten_digits_are_read() {
    for count in 1..=10 {
        assert_read(&line_of(&"0".repeat(count)), Ok(0));
        assert_read(&line_of(&format!("{:0count$}", 7)), Ok(7));
    }
    assert_read(&line_of("999999999"), Ok(999_999_999));
    assert_read(&line_of("0999999999"), Ok(999_999_999));
    assert_read(&line_of("4294967294"), Ok(4_294_967_294));
    assert_read(&line_of("4294967295"), Err(22));
    assert_read(&line_of("4294967296"), Err(22));
}

#[test]
fn any_number_of_digits_above_ten_is_refused_with_22() {
    for count in (11..=300).chain([1000, 65_535, 65_536, 65_537, 65_546]) {
        assert_read(&line_of(&"0".repeat(count)), Err(22));
        assert_read(&line_of(&"9".repeat(count)), Err(22));
    }
}

#[test]
fn a_bad_byte_among_a_thousand_digits_is_refused_with_21() {
    for at in 0..1000 {
        for byte in [b'/', b':', b'a', b' ', 0, 0xB0] {
            let mut line = line_of(&"0".repeat(1000));
            line["a=rtcp-idms:sync-group=".len() + at] = byte;
            assert_read(&line, Err(21));
        }
    }
}

#[test]
fn no_front_and_no_back_of_a_line_is_read() {
    let line = line_of("4294967295");
    for at in 0..line.len() {
        assert_read(&line[..at], Err(21));
        assert_read(&line[at + 1..], Err(21));
    }
}

/// In each count of digits the lowest and the highest group.
#[test]
fn a_line_needs_its_own_length_and_changes_nothing_behind() {
    let lines = [
        (0, "a=rtcp-idms:sync-group=0\r\n"),
        (9, "a=rtcp-idms:sync-group=9\r\n"),
        (10, "a=rtcp-idms:sync-group=10\r\n"),
        (99, "a=rtcp-idms:sync-group=99\r\n"),
        (100, "a=rtcp-idms:sync-group=100\r\n"),
        (999, "a=rtcp-idms:sync-group=999\r\n"),
        (1_000, "a=rtcp-idms:sync-group=1000\r\n"),
        (9_999, "a=rtcp-idms:sync-group=9999\r\n"),
        (10_000, "a=rtcp-idms:sync-group=10000\r\n"),
        (99_999, "a=rtcp-idms:sync-group=99999\r\n"),
        (100_000, "a=rtcp-idms:sync-group=100000\r\n"),
        (999_999, "a=rtcp-idms:sync-group=999999\r\n"),
        (1_000_000, "a=rtcp-idms:sync-group=1000000\r\n"),
        (9_999_999, "a=rtcp-idms:sync-group=9999999\r\n"),
        (10_000_000, "a=rtcp-idms:sync-group=10000000\r\n"),
        (99_999_999, "a=rtcp-idms:sync-group=99999999\r\n"),
        (100_000_000, "a=rtcp-idms:sync-group=100000000\r\n"),
        (999_999_999, "a=rtcp-idms:sync-group=999999999\r\n"),
        (1_000_000_000, "a=rtcp-idms:sync-group=1000000000\r\n"),
        (4_294_967_294, "a=rtcp-idms:sync-group=4294967294\r\n"),
    ];
    for (group, line) in lines {
        for length in 0..line.len() {
            assert_written(group, length, Err(10));
        }
        for length in line.len()..=64 {
            assert_written(group, length, Ok(line));
        }
        assert_read(line.as_bytes(), Ok(group));
    }
}

#[test]
fn the_reserved_group_is_refused_with_22_before_10() {
    for length in 0..=64 {
        assert_written(u32::MAX, length, Err(22));
    }
}
