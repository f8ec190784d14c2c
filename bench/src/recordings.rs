//! Times the replay of recordings beside the peer's.

use crate::inputs::{farewells, put_header, receiver_report, Random};
use crate::tables::{record, twin_record, READING};
use crate::{interleaved, peer_replay, peer_table as peer};
use prunepocket_sys::replay;
use std::hint::black_box;

/// The most entries of a recording.
const ENTRIES: usize = 256;

/// Columns of an entry's row.
const ROW: usize = 3;

/// Who sends the datagrams, one after the other: as many as a table has places.
const MEMBERS: usize = 64;

/// Bytes of head, of an entry in the table of contents, and of an RR and an XR packet
/// without blocks.
const HEAD: usize = 16;
const ENTRY: usize = 32;
const PACKETS: usize = 16;

/// Bytes of a report block.
const BLOCK: usize = 32;

/// Farewells of a datagram of 2,048 bytes, and how many such datagrams a recording has room for behind
/// the reports of all members.
const FAREWELLS: usize = 494;
const FAREWELL_DATAGRAMS: usize = 29;

/// Altered copies of each recording on which the two have to agree as well.
const ALTERED: usize = 1_000;

struct Input {
    name: &'static str,
    recording: Vec<u8>,
    entries: usize,
    items: usize,
    accepted: usize,
}

fn inputs() -> Vec<Input> {
    let full = |name, bytes, entries| {
        let reports = (bytes - HEAD - entries * (ENTRY + PACKETS)) / BLOCK;
        input(name, bytes, entries, reports)
    };
    let one_each = HEAD + ENTRIES * (ENTRY + PACKETS + BLOCK);
    vec![
        full("reports", 65_536, ENTRIES),
        full("half of them", 32_768, ENTRIES / 2),
        full("a quarter", 16_384, ENTRIES / 4),
        input("one report an entry", one_each, ENTRIES, ENTRIES),
        twins_farewells(),
    ]
}

/// So many reports over so many entries, as evenly as can be. What is left of the
/// bytes goes to the first datagram.
fn input(name: &'static str, bytes: usize, entries: usize, reports: usize) -> Input {
    let left = bytes - HEAD - entries * (ENTRY + PACKETS) - reports * BLOCK;
    let sent = |entry: usize| {
        let sent = record((entry % MEMBERS) as u32 + 1);
        let blocks = reports / entries + usize::from(entry < reports % entries);
        let surplus = if entry == 0 { left } else { 0 };
        (sent, datagram(&sent, blocks, surplus))
    };
    let recording = recording((0..entries).map(sent).collect());
    assert_eq!(recording.len(), bytes);
    Input {
        name,
        recording,
        entries,
        items: reports,
        accepted: reports,
    }
}

/// A report of each member, then farewells of the first 31 of their numbers from another's address: 14.
fn twins_farewells() -> Input {
    let member = |entry: usize| record(entry as u32 + 1);
    let mut sent: Vec<_> = (0..MEMBERS)
        .map(|entry| (member(entry), datagram(&member(entry), 1, 0)))
        .collect();
    let farewells = (member(MEMBERS - 1), farewells(2_048));
    sent.extend(std::iter::repeat_n(farewells, FAREWELL_DATAGRAMS));
    Input {
        name: "twins' farewells",
        entries: sent.len(),
        recording: recording(sent),
        items: MEMBERS + FAREWELL_DATAGRAMS * FAREWELLS,
        accepted: MEMBERS,
    }
}

/// Members' reports, their twins', settings and farewells, for the two to agree on.
fn mixed() -> Vec<u8> {
    let sent = |entry: usize| {
        let source = (entry % 40) as u32 + 1;
        let sent = match entry % 5 {
            0 => twin_record(source),
            _ => record(source),
        };
        let mut body = datagram(&sent, 1, 0);
        if entry.is_multiple_of(3) {
            put_settings(&mut body, source);
        }
        if entry.is_multiple_of(7) {
            body.extend(&farewells(64)[8..]);
        }
        (sent, body)
    };
    recording((0..ENTRIES).map(sent).collect())
}

fn put_settings(datagram: &mut Vec<u8>, source: u32) {
    put_header(datagram, 0, 211, 9);
    let words = [source, 7, 42, 999, 0, 8_910_000, 999, 1 << 31];
    datagram.extend(words.map(u32::to_be_bytes).concat());
}

/// These datagrams, each under the origin of its sender, for the table that `tables`
/// times.
fn recording(sent: Vec<(peer::Record, Vec<u8>)>) -> Vec<u8> {
    let head = [sent.len() as u32, 42, 7, 90_000];
    let mut recording = head.map(u32::to_be_bytes).concat();
    for (sender, body) in &sent {
        put_entry(&mut recording, sender, body.len());
    }
    recording.extend(sent.into_iter().flat_map(|(_, body)| body));
    recording
}

fn put_entry(recording: &mut Vec<u8>, sent: &peer::Record, length: usize) {
    recording.extend(READING.ntp.to_be_bytes());
    recording.extend(READING.rtp.to_be_bytes());
    recording.extend(sent.origin.address);
    recording.extend(sent.origin.port.to_be_bytes());
    recording.extend((length as u16).to_be_bytes());
}

/// An RR with so many surplus bytes, and an XR of this source with as many blocks.
fn datagram(sent: &peer::Record, blocks: usize, surplus: usize) -> Vec<u8> {
    let mut datagram = receiver_report();
    datagram[3] += surplus as u8 / 4;
    datagram.resize(datagram.len() + surplus, 0);
    put_header(&mut datagram, 0, 207, 2 + 8 * blocks);
    datagram.extend(sent.source.to_be_bytes());
    let report = &sent.report;
    let words = [
        0x0C11_0007,
        u32::from(report.payload_type) << 25,
        report.group,
        report.media,
        (report.received >> 32) as u32,
        report.received as u32,
        report.rtp,
        report.presented,
    ];
    let block = words.map(u32::to_be_bytes).concat();
    datagram.extend(block.repeat(blocks));
    datagram
}

/// Panics where other items are read or accepted than were meant, or not all members are counted.
fn assert_accepted(input: &Input) {
    let mut rows = vec![0; ROW * input.entries];
    let replayed = replay(&input.recording, &mut rows);
    assert_eq!(replayed.target.counted, MEMBERS as u32);
    let sum = |column: usize| rows.chunks(ROW).map(|row| row[column]).sum::<u64>();
    assert_eq!(sum(0), input.items as u64);
    assert_eq!(sum(1), input.accepted as u64);
}

/// Panics where the archive and the peer differ on a recording, or on altered copies of
/// it.
fn agree_on(recording: &[u8], entries: usize) {
    agree(recording, entries);
    let mut random = Random(0x3611);
    for _ in 0..ALTERED {
        let mut altered = recording.to_vec();
        for _ in 0..random.below(4) {
            let front = [HEAD, HEAD + ENTRY * entries, altered.len()][random.below(3)];
            altered[random.below(front)] ^= 1 << random.below(8);
        }
        match random.below(8) {
            0 => altered.truncate(random.below(recording.len())),
            1 => altered.push(0),
            _ => {}
        }
        agree(&altered, entries);
    }
}

fn agree(recording: &[u8], entries: usize) {
    let exact = ROW * entries;
    for length in [exact, exact + 1, exact - 1] {
        let mut ours = vec![u64::MAX; length];
        let mut peers = ours.clone();
        let answer = replay(recording, &mut ours);
        assert_eq!(answer, peer_replay::replay(recording, &mut peers));
        assert_eq!(ours, peers);
    }
}

fn time(input: &Input) -> (f64, f64) {
    let mut rows = [0; ROW * ENTRIES];
    let mut other_rows = rows;
    interleaved(
        1,
        || {
            let replayed = replay(black_box(&input.recording), black_box(&mut rows));
            black_box(replayed.number ^ replayed.target.presented);
        },
        || {
            let recording = black_box(&input.recording);
            let replayed = peer_replay::replay(recording, black_box(&mut other_rows));
            black_box(replayed.number ^ replayed.target.presented);
        },
    )
}

pub fn print() {
    let inputs = inputs();
    for input in &inputs {
        assert_accepted(input);
        agree_on(&input.recording, input.entries);
    }
    agree_on(&mixed(), ENTRIES);
    println!();
    println!(
        "{:<24}{:>8}{:>9}{:>9}{:>10}{:>10}{:>10}{:>10}{:>12}",
        "replay, 64 members",
        "bytes",
        "entries",
        "items",
        "ours ns",
        "per byte",
        "peer ns",
        "per byte",
        "ours/peer"
    );
    for input in inputs {
        let (ours, peers) = time(&input);
        let bytes = input.recording.len();
        println!(
            "{:<24}{bytes:>8}{:>9}{:>9}{ours:>10.0}{:>10.3}{peers:>10.0}{:>10.3}{:>12.2}",
            input.name,
            input.entries,
            input.items,
            ours / bytes as f64,
            peers / bytes as f64,
            ours / peers
        );
    }
}
