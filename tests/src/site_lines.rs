//! The lines of a site file that are read, and the group numbers whose lines
//! are written: the edges, which are the same in every run but for some digits,
//! and a seeded generator of more.

use crate::generator::{Rng, LONGEST_BUFFER};
use crate::sync_group::{ATTRIBUTE, LAST_GROUP, LINE_END, MOST_DIGITS};
use std::iter::once;

/// Digits of the longest lines.
pub const THOUSAND: usize = 1000;

/// How a line was made.
#[derive(Clone, Copy, Debug, PartialEq, Eq)]
pub enum Kind {
    /// The attribute, any number of digits, CR LF.
    Digits,
    /// Such a line with one byte changed.
    Changed,
    /// Such a line without one of its bytes.
    Missing,
    /// Such a line with one byte more.
    Added,
    /// The front or the back of such a line.
    Cut,
    /// Digits between other bytes than those of the line.
    Near,
    Noise,
}

impl Kind {
    pub const ALL: [Kind; 7] = [
        Kind::Digits,
        Kind::Changed,
        Kind::Missing,
        Kind::Added,
        Kind::Cut,
        Kind::Near,
        Kind::Noise,
    ];
}

#[derive(Clone, Debug)]
pub struct SiteLine {
    pub kind: Kind,
    pub bytes: Vec<u8>,
}

/// A group number to be written into a buffer of a length.
pub type Writing = (u32, usize);

/// Digits of the lines that are damaged at each of their bytes.
const DAMAGED: [&str; 9] = [
    "0",
    "42",
    "999999999",
    "0000000042",
    "4294967294",
    "4294967295",
    "00000000042",
    "000000000042",
    "18446744073709551658",
];

/// Digits that stand in every line which is nearly right.
const MISPLACED: [&str; 6] = [
    "",
    "0",
    "42",
    "4294967294",
    "4294967295",
    "0000000000000000000042",
];

/// Counts of digits that are ten or less where they wrap at 2^8 or 2^16.
const WRAPPING: [usize; 6] = [256, 257, 258, 266, 65_537, 65_546];

/// Bytes that are not digits: next to them, upper and lower case of letters,
/// a digit with another high bit or high half, blanks and line ends.
const BAD_BYTES: &[u8] = b"/:xAaF \t\r\n\0+-.,\x10\x40\x70\xB0\xB9\xFF";

/// What stands before and behind the digits. None of these is the line,
/// whatever the digits are.
const NEAR: [(&str, &str); 50] = [
    ("", ""),
    ("", "\r\n"),
    ("a=rtcp-idms:sync-group=", ""),
    ("a=rtcp-idms:sync-group=", "\n"),
    ("a=rtcp-idms:sync-group=", "\r"),
    ("a=rtcp-idms:sync-group=", "\n\r"),
    ("a=rtcp-idms:sync-group=", "\r\r\n"),
    ("a=rtcp-idms:sync-group=", "\r\n\n"),
    ("a=rtcp-idms:sync-group=", "\r\n\r\n"),
    ("a=rtcp-idms:sync-group=", "\r\n\0"),
    ("a=rtcp-idms:sync-group=", "\0\r\n"),
    ("a=rtcp-idms:sync-group=", "\\r\\n"),
    ("a=rtcp-idms:sync-group=", " \r\n"),
    ("a=rtcp-idms:sync-group=", "\r\n "),
    ("a=rtcp-idms:sync-group=", "\t\r\n"),
    ("a=rtcp-idms:sync-group=", ";\r\n"),
    ("a=rtcp-idms:sync-group=", ".0\r\n"),
    ("a=rtcp-idms:sync-group=", ",000\r\n"),
    ("a=rtcp-idms:sync-group=", "e1\r\n"),
    ("a=rtcp-idms:sync-group=", "A\r\n"),
    ("a=rtcp-idms:sync-group=", "u\r\n"),
    ("a=rtcp-idms:sync-group=", "\u{664}\u{662}\r\n"),
    (
        "a=rtcp-idms:sync-group=",
        "\r\na=rtcp-idms:sync-group=42\r\n",
    ),
    (
        "a=rtcp-idms:sync-group=42\r\na=rtcp-idms:sync-group=",
        "\r\n",
    ),
    ("a=rtcp-idms:sync-group=42 sync-group=", "\r\n"),
    ("a=rtcp-idms:sync-group= ", "\r\n"),
    ("a=rtcp-idms:sync-group=+", "\r\n"),
    ("a=rtcp-idms:sync-group=-", "\r\n"),
    ("a=rtcp-idms:sync-group=0x", "\r\n"),
    ("a=rtcp-idms:sync-group==", "\r\n"),
    ("a=rtcp-idms:sync-group=\"", "\"\r\n"),
    ("a=rtcp-idms:sync-group:", "\r\n"),
    ("a=rtcp-idms:sync-group ", "\r\n"),
    ("a=rtcp-idms:sync-group", "\r\n"),
    ("a=rtcp-idms:sync-group =", "\r\n"),
    ("a=rtcp-idms:sync-grp=", "\r\n"),
    ("a=rtcp-idms:sync_group=", "\r\n"),
    ("a=rtcp-idms:sync-Group=", "\r\n"),
    ("a=rtcp-idms:Sync-group=", "\r\n"),
    ("a=rtcp-idms: sync-group=", "\r\n"),
    ("a=rtcp-idms=sync-group=", "\r\n"),
    ("a=rtcp-idms:", "\r\n"),
    ("a=rtcp_idms:sync-group=", "\r\n"),
    ("a=RTCP-IDMS:sync-group=", "\r\n"),
    ("a =rtcp-idms:sync-group=", "\r\n"),
    ("A=rtcp-idms:sync-group=", "\r\n"),
    ("A=RTCP-IDMS:SYNC-GROUP=", "\r\n"),
    (" a=rtcp-idms:sync-group=", "\r\n"),
    ("\u{FEFF}a=rtcp-idms:sync-group=", "\r\n"),
    ("\r\na=rtcp-idms:sync-group=", "\r\n"),
];

/// The line of these digits, whatever they are.
pub fn line_of(digits: &[u8]) -> Vec<u8> {
    [ATTRIBUTE, digits, LINE_END].concat()
}

fn site_line(kind: Kind, bytes: Vec<u8>) -> SiteLine {
    SiteLine { kind, bytes }
}

/// The edges, among them every damage of single bytes of some lines.
pub fn edge_lines(rng: &mut Rng) -> Vec<SiteLine> {
    let mut digits = counted_digits(rng);
    digits.extend(edge_numbers().into_iter().flat_map(padded));
    let lines = digits.iter().map(|digits| line_of(digits));
    let mut lines: Vec<_> = lines.map(|line| site_line(Kind::Digits, line)).collect();
    for digits in DAMAGED {
        damage(&line_of(digits.as_bytes()), &mut lines);
    }
    for digits in thousand_digits(rng) {
        spoil_thousand(&digits, &mut lines);
        lines.push(site_line(Kind::Digits, line_of(&digits)));
    }
    let thousand = "0".repeat(THOUSAND);
    for (before, behind) in NEAR {
        for digits in MISPLACED.into_iter().chain(once(&thousand[..])) {
            let bytes = [before, digits, behind].concat().into_bytes();
            lines.push(site_line(Kind::Near, bytes));
        }
    }
    lines
}

/// Every count of digits from 0 to 20, with several values each, and counts that
/// wrap.
fn counted_digits(rng: &mut Rng) -> Vec<Vec<u8>> {
    let mut all = Vec::new();
    for count in 0..=20 {
        all.extend([b'0', b'1', b'9'].map(|digit| vec![digit; count]));
        for _ in 0..8 {
            let digits = any_digits(rng, count);
            // The same with leading zeros.
            for zeros in 1..=count {
                all.push([&vec![b'0'; zeros], &digits[zeros..]].concat());
            }
            all.push(digits);
        }
    }
    all.extend(WRAPPING.map(|count| behind_zeros(b"42", count)));
    all
}

/// The powers of ten and of two with their neighbours, the last groups, and
/// values that are a group once they wrap at 2^32 or 2^64.
fn edge_numbers() -> Vec<u128> {
    let powers_of_ten = (0..=30).map(|power| 10_u128.pow(power));
    let powers_of_two = (0..=100).map(|power| 1 << power);
    let powers = powers_of_ten.chain(powers_of_two);
    let wrapped = [32, 33, 34, 63, 64, 65, 66, 96].map(|power| 1 << power);
    let groups = [0, 1, 42, u128::from(LAST_GROUP)];
    powers
        .flat_map(|power| [power - 1, power, power + 1])
        .chain(4_294_967_290..=4_294_967_299)
        .chain(
            wrapped
                .into_iter()
                .flat_map(|power| groups.map(|group| power + group)),
        )
        .collect()
}

/// A number's digits, as many as it has, ten, eleven and twenty.
fn padded(number: u128) -> Vec<Vec<u8>> {
    let widths = [1, MOST_DIGITS, MOST_DIGITS + 1, 20];
    let digits = widths.map(|width| format!("{number:0width$}").into_bytes());
    digits.into()
}

/// Each byte as every other, each byte missing, every byte at each place, and
/// the line's fronts and backs.
fn damage(line: &[u8], lines: &mut Vec<SiteLine>) {
    for at in 0..line.len() {
        for byte in (0..=255).filter(|byte| *byte != line[at]) {
            lines.push(site_line(Kind::Changed, changed(line, at, byte)));
        }
        lines.push(site_line(Kind::Missing, missing(line, at)));
        lines.push(site_line(Kind::Cut, line[..at].to_vec()));
        lines.push(site_line(Kind::Cut, line[at + 1..].to_vec()));
    }
    for at in 0..=line.len() {
        for byte in 0..=255 {
            lines.push(site_line(Kind::Added, added(line, at, byte)));
        }
    }
}

fn changed(line: &[u8], at: usize, byte: u8) -> Vec<u8> {
    [&line[..at], &[byte], &line[at + 1..]].concat()
}

fn missing(line: &[u8], at: usize) -> Vec<u8> {
    [&line[..at], &line[at + 1..]].concat()
}

fn added(line: &[u8], at: usize, byte: u8) -> Vec<u8> {
    [&line[..at], &[byte], &line[at..]].concat()
}

fn thousand_digits(rng: &mut Rng) -> [Vec<u8>; 4] {
    [
        vec![b'0'; THOUSAND],
        vec![b'9'; THOUSAND],
        behind_zeros(b"42", THOUSAND),
        any_digits(rng, THOUSAND),
    ]
}

/// One bad byte at each place, and every one at the first, in the middle and at
/// the last.
fn spoil_thousand(digits: &[u8], lines: &mut Vec<SiteLine>) {
    for at in 0..digits.len() {
        lines.push(site_line(
            Kind::Changed,
            line_of(&changed(digits, at, b'x')),
        ));
    }
    for at in [0, digits.len() / 2, digits.len() - 1] {
        for byte in BAD_BYTES {
            lines.push(site_line(
                Kind::Changed,
                line_of(&changed(digits, at, *byte)),
            ));
        }
    }
}

/// So many digits, of which these are the last.
fn behind_zeros(digits: &[u8], count: usize) -> Vec<u8> {
    [&vec![b'0'; count - digits.len()], digits].concat()
}

fn any_digits(rng: &mut Rng, count: usize) -> Vec<u8> {
    (0..count).map(|_| b'0' + rng.below(10) as u8).collect()
}

/// The next line of a run.
pub fn line(rng: &mut Rng) -> SiteLine {
    let digits = digits(rng);
    let line = line_of(&digits);
    let at = rng.below(line.len());
    match rng.below(100) {
        0..=39 => site_line(Kind::Digits, line),
        40..=57 => {
            let byte = other_byte(rng, line[at]);
            site_line(Kind::Changed, changed(&line, at, byte))
        }
        58..=65 => site_line(Kind::Missing, missing(&line, at)),
        66..=75 => {
            let at = rng.pick(&[0, at, at, ATTRIBUTE.len(), line.len() - 2, line.len()]);
            let byte = likely_byte(rng);
            site_line(Kind::Added, added(&line, at, byte))
        }
        76..=80 if rng.chance(50) => site_line(Kind::Cut, line[at + 1..].to_vec()),
        76..=80 => {
            let end = rng.pick(&[at, line.len() - 1, line.len() - 2]);
            site_line(Kind::Cut, line[..end].to_vec())
        }
        81..=92 => {
            let (before, behind) = rng.pick(&NEAR);
            let bytes = [before.as_bytes(), &digits, behind.as_bytes()].concat();
            site_line(Kind::Near, bytes)
        }
        _ => site_line(Kind::Noise, noise(rng)),
    }
}

fn digits(rng: &mut Rng) -> Vec<u8> {
    match rng.below(20) {
        0..=5 => {
            let width = rng.between(1, MOST_DIGITS);
            format!("{:0width$}", group(rng)).into_bytes()
        }
        6..=8 => rng
            .between(4_294_967_285, 4_294_967_305)
            .to_string()
            .into_bytes(),
        9 | 10 => {
            let width = rng.between(MOST_DIGITS + 1, 20);
            format!("{:0width$}", group(rng)).into_bytes()
        }
        11 | 12 => {
            let power = rng.pick(&[32, 33, 63, 64, 65]);
            ((1_u128 << power) + u128::from(group(rng)))
                .to_string()
                .into_bytes()
        }
        13..=18 => {
            let count = rng.between(0, 20);
            any_digits(rng, count)
        }
        _ => {
            let count = match rng.chance(5) {
                true => rng.pick(&WRAPPING),
                false => rng.pick(&[21, 35, 64, 255, 256, THOUSAND]),
            };
            let random = match rng.chance(50) {
                true => rng.between(1, MOST_DIGITS),
                false => count,
            };
            behind_zeros(&any_digits(rng, random), count)
        }
    }
}

/// Any number of digits is as likely as another, and so is an edge.
fn group(rng: &mut Rng) -> u32 {
    let power = 10_u32.pow(rng.below(10) as u32);
    match rng.below(10) {
        0 => 0,
        1 => u32::MAX - rng.below(8) as u32,
        2 => power - 1,
        3 => power,
        4 => 1 << rng.below(32),
        _ => match power {
            1_000_000_000 => rng.word().max(power),
            _ => power + rng.below(9 * power as usize) as u32,
        },
    }
}

/// Another byte: in one bit, next to it, or any.
fn other_byte(rng: &mut Rng, byte: u8) -> u8 {
    match rng.below(4) {
        0 => byte ^ 1 << rng.below(8),
        1 => byte.wrapping_add(rng.pick(&[1, 255])),
        2 => byte ^ rng.between(1, 255) as u8,
        _ => match likely_byte(rng) {
            likely if likely == byte => !byte,
            likely => likely,
        },
    }
}

/// A byte that a line has, or one that is easily taken for such.
fn likely_byte(rng: &mut Rng) -> u8 {
    match rng.below(4) {
        0 => rng.pick(b"0123456789"),
        1 => rng.pick(ATTRIBUTE),
        2 => rng.pick(BAD_BYTES),
        _ => rng.byte(),
    }
}

/// Any bytes, alone or behind the attribute.
fn noise(rng: &mut Rng) -> Vec<u8> {
    let count = rng.between(0, 64);
    let likely = rng.chance(50);
    let bytes = (0..count).map(|_| match likely {
        true => likely_byte(rng),
        false => rng.byte(),
    });
    let bytes: Vec<u8> = bytes.collect();
    match rng.below(3) {
        0 => [ATTRIBUTE, &bytes].concat(),
        1 => line_of(&bytes),
        _ => bytes,
    }
}

/// The edges of what is written, each in buffers of every length.
pub fn edge_writings() -> Vec<Writing> {
    let numbers = edge_numbers().into_iter().chain(0..=99);
    let mut groups: Vec<u32> = numbers
        .filter_map(|number| number.try_into().ok())
        .collect();
    groups.sort();
    groups.dedup();
    let lengths = |group| (0..=LONGEST_BUFFER).map(move |length| (group, length));
    groups.into_iter().flat_map(lengths).collect()
}

/// The next number of a run to be written: in a buffer of any length, or often
/// one around the line's.
pub fn writing(rng: &mut Rng) -> Writing {
    let group = group(rng);
    let size = line_of(group.to_string().as_bytes()).len();
    let length = match rng.chance(50) {
        true => rng.pick(&[size - 1, size, size + 1, LONGEST_BUFFER]),
        false => rng.between(0, LONGEST_BUFFER),
    };
    (group, length)
}

#[cfg(test)]
mod tests {
    use super::*;
    use crate::generator::seed;
    use crate::items::Refusal;
    use crate::sync_group::read;

    fn read_line(line: &[u8]) -> Result<u32, Refusal> {
        let mut group = 0;
        read(line, &mut group).map(|()| group)
    }

    /// The numbers are known, so they can judge the reader too.
    #[test]
    fn numbers_are_read_up_to_ten_digits_and_the_last_group() {
        for number in edge_numbers() {
            for digits in padded(number) {
                let expected = match digits.len() <= 10 && number <= 4_294_967_294 {
                    true => Ok(number as u32),
                    false => Err(Refusal::new(22, 0)),
                };
                assert_eq!(read_line(&line_of(&digits)), expected, "{number}");
            }
        }
    }

    #[test]
    fn lines_that_are_cut_or_nearly_right_are_refused_with_21() {
        let mut rng = Rng::new(seed());
        let edges = edge_lines(&mut rng);
        let lines = (0..50_000).map(|_| line(&mut rng));
        for line in edges.into_iter().chain(lines) {
            if [Kind::Cut, Kind::Near].contains(&line.kind) {
                let shown = line.bytes.escape_ascii();
                assert_eq!(read_line(&line.bytes), Err(Refusal::new(21, 0)), "{shown}");
            }
        }
    }
}
