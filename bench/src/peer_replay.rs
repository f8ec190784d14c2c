//! The peer's replay of a recording. It checks the layout, the opening and the rows
//! first, and on a refusal writes nothing; then it takes each datagram into a table
//! that is changed in place. Nothing is allocated.

use crate::peer::{each_call, Call};
use crate::peer_table::{Record, Table};
use prunepocket_sys::{Origin, Reading, RecordingAnswered, Target};

/// The most bytes of a recording.
const LONGEST: usize = 65_536;

/// The most entries of a recording.
const MOST_ENTRIES: usize = 256;

/// Bytes of the head: entry count, group, media source, rate.
const HEAD: usize = 16;

/// Bytes of an entry in the table of contents: N 8, R 4, address 16, port 2, length 2.
const ENTRY: usize = 32;

/// Columns of a row: items, accepted, first refusal.
const ROW: usize = 3;

/// A recording in its parts.
struct Recording<'a> {
    head: &'a [u8; HEAD],
    contents: &'a [[u8; ENTRY]],
    bodies: &'a [u8],
}

/// Not inlined, since the archive is not.
#[inline(never)]
pub fn replay(recording: &[u8], rows: &mut [u64]) -> RecordingAnswered {
    let (number, entries, choice) = match open(recording, rows.len()) {
        Err(number) => (number, 0, Err(20)),
        Ok((recording, mut table)) => {
            let choice = run(&recording, &mut table, rows.as_chunks_mut().0);
            (0, recording.contents.len() as u64, choice)
        }
    };
    RecordingAnswered {
        number,
        entries,
        choice: choice.err().unwrap_or(0),
        target: choice.unwrap_or_default(),
    }
}

/// The recording and a new table for it; or 25, then 12, then 10.
fn open(bytes: &[u8], length: usize) -> Result<(Recording<'_>, Table), u64> {
    let recording = parts(bytes).ok_or(25u64)?;
    let head = recording.head;
    let table = Table::open(word(head, 4), word(head, 8), word(head, 12))?;
    if length < ROW * recording.contents.len() {
        return Err(10);
    }
    Ok((recording, table))
}

/// The parts, unless the layout is bad.
fn parts(bytes: &[u8]) -> Option<Recording<'_>> {
    let (head, rest) = bytes.split_first_chunk()?;
    let count = word(head, 0) as usize;
    if bytes.len() > LONGEST || count > MOST_ENTRIES {
        return None;
    }
    let (contents, bodies) = rest.split_at_checked(ENTRY * count)?;
    let contents: &[[u8; ENTRY]] = contents.as_chunks().0;
    let length: usize = contents.iter().map(body_length).sum();
    (length == bodies.len()).then_some(Recording {
        head,
        contents,
        bodies,
    })
}

/// A row for each entry, and the choice at the last one's reading.
fn run(recording: &Recording, table: &mut Table, rows: &mut [[u64; ROW]]) -> Result<Target, u64> {
    let mut bodies = recording.bodies;
    let mut reading = Reading::default();
    for (entry, row) in recording.contents.iter().zip(rows) {
        let (body, rest) = bodies.split_at(body_length(entry));
        bodies = rest;
        reading = reading_of(entry);
        *row = take(table, body, &origin_of(entry), &reading);
    }
    // Without entries the table is empty, and this is 20 at any reading.
    table.choose(&reading)
}

fn take(table: &mut Table, datagram: &[u8], origin: &Origin, reading: &Reading) -> [u64; ROW] {
    let (mut accepted, mut first) = (0, 0);
    let items = each_call(datagram, false, |call| {
        let answer = match call {
            Call::Report(report) => {
                let (source, origin) = (report.sender, *origin);
                let record = Record {
                    source,
                    origin,
                    report,
                };
                table.report(&record, reading)
            }
            Call::Farewell(source) => table.farewell(source, origin),
        };
        match answer {
            Ok(()) => accepted += 1,
            Err(number) if first == 0 => first = number,
            Err(_) => {}
        }
    });
    match items {
        Ok(items) => [items, accepted, first],
        Err(refusal) => [0, 0, refusal.number],
    }
}

/// The big-endian number at a place of the head or of an entry.
fn word<const LENGTH: usize>(bytes: &[u8; LENGTH], at: usize) -> u32 {
    u32::from_be_bytes([bytes[at], bytes[at + 1], bytes[at + 2], bytes[at + 3]])
}

fn body_length(entry: &[u8; ENTRY]) -> usize {
    (word(entry, 28) & 0xFFFF) as usize
}

fn reading_of(entry: &[u8; ENTRY]) -> Reading {
    Reading {
        ntp: u64::from(word(entry, 0)) << 32 | u64::from(word(entry, 4)),
        rtp: word(entry, 8),
    }
}

fn origin_of(entry: &[u8; ENTRY]) -> Origin {
    Origin {
        address: std::array::from_fn(|byte| entry[12 + byte]),
        port: (word(entry, 28) >> 16) as u16,
    }
}
