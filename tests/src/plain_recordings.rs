//! Recordings that are made by hand, for the opening of `plain_reports`, and both
//! sides' replay of one.

use crate::encoder::Message;
use crate::members::Record;
use crate::plain_reports::{origin, reading, OPENING};
use crate::recording::{Entry, Recording};
use crate::replay;
use prunepocket_sys::{RecordingAnswered, SettingsMessage};

/// What lent memory holds beforehand; no answer is this.
pub const BEFORE: u64 = u64::MAX;

/// Numbers on both sides of the rows that are not lent.
const GUARD: usize = 16;

/// A datagram that came from this port after so many seconds.
pub fn entry(seconds: u32, port: u16, body: Vec<u8>) -> Entry {
    Entry {
        reading: reading(seconds),
        origin: origin(port),
        body,
    }
}

pub fn recording(entries: Vec<Entry>) -> Recording {
    Recording {
        opening: OPENING,
        entries,
    }
}

/// An RR of 8 bytes, and packets behind it.
pub fn datagram(packets: &[Vec<u8>]) -> Vec<u8> {
    let receiver_report = vec![0x80, 201, 0, 1, 0, 0, 0, 1];
    [&[receiver_report], packets].concat().concat()
}

/// An XR packet of one report.
pub fn report(told: &Record) -> Vec<u8> {
    written(&Message::from(told))
}

fn written(message: &Message) -> Vec<u8> {
    let bytes = message.encode_with(message.size(), None);
    bytes.expect("its fields are in range")
}

/// A settings packet that would pass for the report.
pub fn settings(told: &Record) -> Vec<u8> {
    let Record { source, report, .. } = told;
    written(&Message::Settings(SettingsMessage {
        sender: *source,
        group: report.group,
        media: report.media,
        received: report.received,
        rtp: report.rtp,
        presented: u64::from(report.presented) << 16,
    }))
}

/// A BYE packet of these sources, at most 31.
pub fn farewells(sources: &[u32]) -> Vec<u8> {
    let count = sources.len() as u8;
    let header = u32::from_be_bytes([0x80 | count, 203, 0, count]);
    let words = [&[header], sources].concat();
    words.iter().flat_map(|word| word.to_be_bytes()).collect()
}

/// What the archive answers with rows of this length, which is what the independent
/// side answers, and the rows. The memory around them is as before.
pub fn replayed(bytes: &[u8], length: usize) -> (RecordingAnswered, Vec<u64>) {
    // In memory of their own, so that valgrind sees a read past the end.
    let bytes = &bytes.to_vec();
    let run = |replay: fn(&[u8], &mut [u64]) -> RecordingAnswered| {
        let mut memory = vec![BEFORE; GUARD + length + GUARD];
        let replayed = replay(bytes, &mut memory[GUARD..GUARD + length]);
        let around = memory[..GUARD].iter().chain(&memory[GUARD + length..]);
        assert!(around.into_iter().all(|&number| number == BEFORE));
        (replayed, memory[GUARD..GUARD + length].to_vec())
    };
    let archive = run(prunepocket_sys::replay);
    assert_eq!(archive, run(replay::replay));
    archive
}

/// The same with rows that are exactly long enough, of a recording that is taken.
pub fn taken(recording: &Recording) -> (RecordingAnswered, Vec<replay::Row>) {
    let length = replay::ENTRY_ROW * recording.entries.len();
    let (replayed, rows) = replayed(&recording.write(), length);
    assert_eq!(replayed.number, 0);
    assert_eq!(replayed.entries, recording.entries.len() as u64);
    (replayed, rows.as_chunks().0.to_vec())
}
