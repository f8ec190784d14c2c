//! The bench cases of cases.txt, and what decoder and archive answer to them.
//!
//! A case is a name, a datagram in hex (`repeat N BYTE` stands for N equal
//! bytes), whether reduced size was agreed where that matters, an index where
//! one item is asked for, and the expected lines.

use crate::archive;
use crate::decoder::decode;
use crate::items::{Refusal, ROW};

#[derive(Debug, PartialEq, Eq)]
pub struct Case {
    pub name: String,
    pub datagram: Vec<u8>,
    /// None where the expected lines are those with either value.
    pub reduced_size: Option<bool>,
    pub index: Option<u64>,
    pub expected: Vec<String>,
}

impl Case {
    /// The values of the flag that the case is run with.
    pub fn values(&self) -> Vec<bool> {
        self.reduced_size
            .map_or(vec![false, true], |value| vec![value])
    }
}

/// Panics where the text is malformed, since nothing can be tested then.
pub fn parse(text: &str) -> Vec<Case> {
    let mut cases = Vec::new();
    for paragraph in text.trim_end().split("\n\n") {
        let lines: Vec<&str> = paragraph.lines().collect();
        cases.push(parse_case(&lines).unwrap_or_else(|| panic!("malformed case: {lines:?}")));
    }
    cases
}

fn parse_case(lines: &[&str]) -> Option<Case> {
    let (name, rest) = lines.split_first()?;
    let (datagram, rest) = rest.split_first()?;
    let (reduced_size, rest) = match *rest.first()? {
        "reduced size agreed" => (Some(true), &rest[1..]),
        "reduced size not agreed" => (Some(false), &rest[1..]),
        _ => (None, rest),
    };
    let (index, rest) = match rest.first()?.strip_prefix("index ") {
        Some(index) => (Some(index.parse().ok()?), &rest[1..]),
        None => (None, rest),
    };
    let expected: Option<Vec<String>> = rest
        .iter()
        .map(|line| line.strip_prefix("= ").map(String::from))
        .collect();
    Some(Case {
        name: name.strip_prefix("case ")?.to_string(),
        datagram: parse_bytes(datagram.strip_prefix("datagram")?)?,
        reduced_size,
        index,
        expected: expected.filter(|lines| !lines.is_empty())?,
    })
}

/// Hex digits and `repeat N BYTE`, with any spaces between.
pub fn parse_bytes(text: &str) -> Option<Vec<u8>> {
    let mut bytes = Vec::new();
    let mut words = text.split_whitespace();
    while let Some(word) = words.next() {
        if word == "repeat" {
            let times: usize = words.next()?.parse().ok()?;
            let byte = u8::from_str_radix(words.next()?, 16).ok()?;
            bytes.extend(vec![byte; times]);
        } else {
            bytes.extend(parse_hex(word)?);
        }
    }
    Some(bytes)
}

fn parse_hex(word: &str) -> Option<Vec<u8>> {
    if !word.len().is_multiple_of(2) || !word.is_ascii() {
        return None;
    }
    let pairs = (0..word.len()).step_by(2);
    pairs
        .map(|at| u8::from_str_radix(&word[at..at + 2], 16).ok())
        .collect()
}

/// The decoder's lines for a case, with one of its values of the flag.
pub fn decoder_lines(case: &Case, reduced_size: bool) -> Vec<String> {
    let items = match decode(&case.datagram, reduced_size) {
        Ok(items) => items,
        Err(refusal) => return vec![refusal.to_string()],
    };
    match case.index {
        None => {
            let mut lines = vec![format!("items {}", items.len())];
            lines.extend(items.iter().map(|item| item.to_string()));
            lines
        }
        Some(index) => match items.get(index as usize) {
            Some(item) => vec![item.to_string()],
            // Refusal 9: the index is not below the item count; place 0.
            None => vec![Refusal::new(9, 0).to_string()],
        },
    }
}

/// The archive's lines for a case, by index where the case has one, else all
/// items both as rows and by index.
pub fn archive_lines(case: &Case, reduced_size: bool) -> Vec<String> {
    let answer = match case.index {
        None => all_lines(&case.datagram, reduced_size),
        Some(index) => line_at(&case.datagram, reduced_size, index).map(|line| vec![line]),
    };
    answer.unwrap_or_else(|refusal| vec![refusal.to_string()])
}

fn all_lines(datagram: &[u8], reduced_size: bool) -> Result<Vec<String>, Refusal> {
    let mut count = 0;
    prunepocket_sys::count_items(datagram, reduced_size, &mut count)?;
    let mut rows = vec![0; ROW * count as usize];
    let mut rows_count = 0;
    prunepocket_sys::read_items(datagram, reduced_size, &mut rows, &mut rows_count)?;
    let mut lines = vec![format!("items {rows_count}")];
    for (index, row) in rows.chunks_exact(ROW).enumerate() {
        let line = row_line(row);
        let by_index = line_at(datagram, reduced_size, index as u64)?;
        assert_eq!(line, by_index, "the row and the fields of item {index}");
        lines.push(line);
    }
    Ok(lines)
}

fn line_at(datagram: &[u8], reduced_size: bool, index: u64) -> Result<String, Refusal> {
    let row = archive::item_at(datagram, reduced_size, index)?;
    Ok(row_line(&row))
}

/// An item line from a row's numbers alone.
fn row_line(row: &[u64]) -> String {
    let high = |number: u64, bits: u32| format!("{} {}", number >> bits, number % (1 << bits));
    let head = format!("at {} source {}", row[1], row[2]);
    let times = format!("received {} rtp {}", high(row[5], 32), row[6]);
    match row[0] {
        1 => format!(
            "report {head} payload-type {} p {} group {} media {} {times} presented {}",
            row[8],
            row[9],
            row[3],
            row[4],
            high(row[7], 16)
        ),
        2 => format!(
            "settings {head} group {} media {} {times} presented {}",
            row[3],
            row[4],
            high(row[7], 32)
        ),
        3 => format!("farewell {head}"),
        kind => format!("an item of kind {kind}"),
    }
}
