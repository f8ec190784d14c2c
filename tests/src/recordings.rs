//! A seeded generator of recordings: datagrams that speak of a table's own group,
//! sources and times, in as many entries and bytes as stand at the limits and next
//! to them; changes of the bytes; and rows of every length.

use crate::arrivals::{fit, fitted};
use crate::generator::{self, Rng, Start};
use crate::histories::World;
use crate::members::{Origin, Reading, Record};
use crate::recording::{
    Entry, Recording, ADDRESS, CONTENTS, ENTRY_LIMIT, HEAD, LENGTH, NTP, PORT, RECORDING_LIMIT, RTP,
};
use crate::replay::ENTRY_ROW;

const SECOND: u64 = 1 << 32;

/// The longest datagram that is read.
const LONGEST: usize = 2048;

/// Sizes at the limit of a recording and next to it.
const SIZES: [usize; 6] = [65_532, 65_535, 65_536, 65_536, 65_537, 65_540];

/// What is replayed: a recording, what is changed in its bytes, and how long the
/// rows are that are lent.
#[derive(Clone, Debug, PartialEq, Eq)]
pub struct Replay {
    pub recording: Recording,
    pub changes: Vec<Change>,
    /// By how many numbers the rows are longer than the entries need, or shorter.
    pub spare: isize,
}

/// A change of a recording's bytes. Entries are counted modulo their number.
#[derive(Clone, Copy, Debug, PartialEq, Eq)]
pub enum Change {
    /// This number of the head, from 0, becomes that.
    Head(usize, u32),
    /// Bits of this byte of an entry's contents are turned.
    Contents(usize, usize, u8),
    /// An entry and the next change lengths by so many bytes: the bodies are
    /// divided otherwise.
    Divided(usize, u16),
    /// The lengths of an entry and the next change by 2^15: the sum of all lengths is
    /// as before, modulo 2^16.
    Raised(usize),
    /// Bits of the byte at this place are turned, wherever it is.
    Turned(usize, u8),
    /// So many bytes are cut off at the end.
    Cut(usize),
    /// So many bytes, all 0, are added at the end.
    Added(usize),
}

impl Replay {
    /// The bytes that are replayed, and those that were cut off behind them.
    pub fn file(&self) -> (Vec<u8>, Vec<u8>) {
        let mut bytes = self.recording.write();
        let mut behind = Vec::new();
        let entries = self.recording.entries.len();
        for change in &self.changes {
            match *change {
                Change::Cut(count) => {
                    let length = bytes.len().saturating_sub(count);
                    behind = bytes.split_off(length);
                }
                Change::Added(count) => bytes.resize(bytes.len() + count, 0),
                _ => change.write(&mut bytes, entries),
            }
        }
        (bytes, behind)
    }

    pub fn rows_length(&self) -> usize {
        let needed = ENTRY_ROW * self.recording.entries.len();
        needed.saturating_add_signed(self.spare)
    }
}

impl Change {
    /// One that leaves as many bytes as there are. A byte that is not there stays so.
    fn write(&self, bytes: &mut [u8], entries: usize) {
        let contents = |entry: usize| HEAD + CONTENTS * (entry % entries.max(1));
        match *self {
            Change::Head(field, number) => {
                if let Some(place) = bytes.get_mut(4 * field..4 * field + 4) {
                    place.copy_from_slice(&number.to_be_bytes());
                }
            }
            Change::Contents(entry, byte, bits) if entries > 0 => {
                turn(bytes, contents(entry) + byte, bits);
            }
            Change::Divided(entry, by) if entries > 1 => {
                lengthen(bytes, contents(entry), by);
                lengthen(bytes, contents(entry + 1), by.wrapping_neg());
            }
            Change::Raised(entry) if entries > 1 => {
                turn(bytes, contents(entry) + LENGTH, 0x80);
                turn(bytes, contents(entry + 1) + LENGTH, 0x80);
            }
            Change::Turned(at, bits) => turn(bytes, at, bits),
            _ => {}
        }
    }
}

fn turn(bytes: &mut [u8], at: usize, bits: u8) {
    if let Some(byte) = bytes.get_mut(at) {
        *byte ^= bits;
    }
}

/// Of the entry whose contents start here.
fn lengthen(bytes: &mut [u8], contents: usize, by: u16) {
    let place = contents + LENGTH;
    if let Some([high, low]) = bytes.get_mut(place..place + 2) {
        let length = u16::from_be_bytes([*high, *low]);
        [*high, *low] = length.wrapping_add(by).to_be_bytes();
    }
}

/// The next recording of a run.
pub fn replay(rng: &mut Rng) -> Replay {
    let recording = recording(rng);
    let count = match rng.below(100) {
        0..=64 => 0,
        65..=96 => 1,
        _ => 2,
    };
    let mut changes: Vec<Change> = (0..count).map(|_| change(rng, &recording)).collect();
    if recording.size() == RECORDING_LIMIT && rng.chance(25) {
        changes.push(Change::Added(rng.pick(&[1, 4, 32, 65_536])));
    }
    Replay {
        changes,
        spare: spare(rng, recording.entries.len()),
        recording,
    }
}

fn recording(rng: &mut Rng) -> Recording {
    let mut world = World::any(rng);
    let mut recording = Recording {
        opening: world.opening,
        entries: fill(rng, &mut world),
    };
    match rng.below(100) {
        0..=1 => recording.entries.clear(),
        2..=3 => grow(rng, &mut world, &mut recording),
        4..=6 => {
            let count = rng.pick(&[ENTRY_LIMIT - 1, ENTRY_LIMIT, ENTRY_LIMIT + 1]);
            add_entries(rng, &mut world, &mut recording, count);
        }
        _ => {
            let most = rng.pick(&[1, 3, 8, 8, 20, 40]);
            let count = recording.entries.len() + rng.between(1, most);
            add_entries(rng, &mut world, &mut recording, count);
        }
    }
    if let Some(last) = recording.entries.last_mut() {
        last.reading = last_reading(rng, &world, last.reading);
    }
    recording
}

/// A report of each of the first sources, in turn.
fn fill(rng: &mut Rng, world: &mut World) -> Vec<Entry> {
    let filled = world.filled();
    let report = |index: usize| {
        world.advance(rng);
        let (source, origin) = world.own_sender(index);
        Entry {
            reading: world.clock,
            origin,
            body: one_report(rng, world, source, origin),
        }
    };
    (0..filled).map(report).collect()
}

/// Up to so many entries, each no longer than its share of the longest recording.
fn add_entries(rng: &mut Rng, world: &mut World, recording: &mut Recording, count: usize) {
    let room = (RECORDING_LIMIT - HEAD) / count - CONTENTS;
    while recording.entries.len() < count {
        let entry = entry(rng, world, |rng, world, origin| {
            let body = body(rng, world, origin);
            match body.len() <= room {
                true => body,
                false => small(rng, world, origin),
            }
        });
        recording.entries.push(entry);
    }
}

/// Long datagrams, and a last one that makes it a size at the limit.
fn grow(rng: &mut Rng, world: &mut World, recording: &mut Recording) {
    let size = rng.pick(&SIZES);
    let longest = rng.pick(&[LONGEST, LONGEST, 1024, 600]);
    while recording.size() + CONTENTS + longest + CONTENTS + 8 <= size {
        let entry = entry(rng, world, |rng, world, origin| {
            let mut compound = generator::crowded_up_to(rng, Start::Report, longest);
            fit(rng, world, origin, &mut compound);
            compound.bytes
        });
        recording.entries.push(entry);
    }
    let length = size - recording.size() - CONTENTS;
    let entry = entry(rng, world, |_, _, _| without_items(length));
    recording.entries.push(entry);
}

fn entry(
    rng: &mut Rng,
    world: &mut World,
    body: impl FnOnce(&mut Rng, &mut World, &Origin) -> Vec<u8>,
) -> Entry {
    world.advance(rng);
    let (_, origin) = world.sender(rng);
    let body = body(rng, world, &origin);
    Entry {
        reading: world.clock,
        origin,
        body,
    }
}

/// A datagram for a table, or any other bytes.
fn body(rng: &mut Rng, world: &mut World, origin: &Origin) -> Vec<u8> {
    if rng.below(1500) == 0 {
        let mut compound = generator::many_farewells(rng, Start::Report);
        fit(rng, world, origin, &mut compound);
        return compound.bytes;
    }
    let start = match rng.below(100) {
        0..=1 => return Vec::new(),
        2..=3 => return without_items(long(rng)),
        4..=9 => return generator::datagram(rng),
        10..=29 => return small(rng, world, origin),
        30..=33 => Start::Any,
        _ => Start::Report,
    };
    let mut compound = fitted(rng, world, origin, start);
    if rng.chance(20) {
        generator::spoil(rng, &mut compound);
    }
    compound.bytes
}

/// At the longest datagram that is read, and longer ones.
fn long(rng: &mut Rng) -> usize {
    match rng.below(4) {
        0 => LONGEST,
        1 => LONGEST + rng.between(1, 4),
        2 => rng.between(LONGEST, 2 * LONGEST),
        _ => rng.pick(&[4096, 8192, 32_764, 32_768, 40_000, 65_488]),
    }
}

/// A report of a source at this origin, mostly.
fn small(rng: &mut Rng, world: &mut World, origin: &Origin) -> Vec<u8> {
    let source = world.source_at(rng, origin);
    one_report(rng, world, source, *origin)
}

fn one_report(rng: &mut Rng, world: &mut World, source: u32, origin: Origin) -> Vec<u8> {
    let report = world.report(rng);
    report_datagram(&Record {
        source,
        origin,
        report,
    })
}

/// An RR of 8 bytes and an XR of one report.
pub fn report_datagram(told: &Record) -> Vec<u8> {
    let Record { source, report, .. } = told;
    let p = u32::from(report.p & 1);
    let payload_type = u32::from(report.payload_type & 0x7F);
    let words = [
        0x80C9_0001,
        *source,
        0x80CF_0009,
        *source,
        0x0C10_0007 | p << 16,
        payload_type << 25,
        report.group,
        report.media,
        (report.received >> 32) as u32,
        report.received as u32,
        report.rtp,
        report.presented,
    ];
    words.map(u32::to_be_bytes).concat()
}

/// An RR of 8 bytes and a packet that is stepped over, where they are so long and
/// of whole words; zeros otherwise.
pub fn without_items(length: usize) -> Vec<u8> {
    let mut bytes = vec![0; length];
    if length >= 12 && length.is_multiple_of(4) {
        let words = (length - 8) / 4 - 1;
        bytes[..8].copy_from_slice(&[0x80, 201, 0, 1, 0, 0, 0, 1]);
        bytes[8..12].copy_from_slice(&[0x80, 202, (words >> 8) as u8, words as u8]);
    }
    bytes
}

/// That of the last entry, or another: near the limits of reports, or so much later
/// that all are stale.
fn last_reading(rng: &mut Rng, world: &World, reading: Reading) -> Reading {
    match rng.below(100) {
        0..=4 => world.later(rng.between(31, 70) as u64 * SECOND),
        5..=14 => world.some_reading(rng),
        _ => reading,
    }
}

fn change(rng: &mut Rng, recording: &Recording) -> Change {
    let entry = rng.below(recording.entries.len().max(1));
    let bits = 1 << rng.below(8);
    match rng.below(20) {
        0..=2 => Change::Head(0, entry_count(rng, recording.entries.len() as u32)),
        3..=5 => opening(rng),
        6..=10 => Change::Contents(entry, contents_byte(rng), bits),
        11 => Change::Divided(entry, rng.pick(&[1, 4, 8, 40, u16::MAX, u16::MAX - 3])),
        12 => Change::Raised(entry),
        13 => Change::Turned(rng.below(recording.size()), bits),
        14..=16 => Change::Cut(cut(rng, recording)),
        _ => Change::Added(rng.pick(&[1, 1, 1, 2, 3, 4, 8, 32, 48, 65_536, 65_536, 131_072])),
    }
}

/// Entry counts next to the true one, at the limit, and such as are the true one
/// where they are cut or wrap.
fn entry_count(rng: &mut Rng, count: u32) -> u32 {
    match rng.below(8) {
        0 => count + 1,
        1 => count.wrapping_sub(1),
        2 => rng.pick(&[0, 1, 255, 256, 257, 65_536, u32::MAX]),
        3 => count + 256,
        4 => count + 65_536,
        // The table of contents of so many entries wraps at 2^32.
        5 => count + (1 << 27),
        6 => count.swap_bytes(),
        _ => rng.word(),
    }
}

/// Another group, media source or rate.
fn opening(rng: &mut Rng) -> Change {
    let field = rng.between(1, 3);
    let number = match (field, rng.below(4)) {
        (1, 0 | 1) => rng.pick(&[0, u32::MAX]),
        (3, 0..=2) => rng.pick(&[0, 1, 192_000, 192_001, u32::MAX]),
        _ => rng.word(),
    };
    Change::Head(field, number)
}

/// A byte of N, R, address, port or length, each as often.
fn contents_byte(rng: &mut Rng) -> usize {
    match rng.below(5) {
        0 => rng.between(NTP, RTP - 1),
        1 => rng.between(RTP, ADDRESS - 1),
        2 => rng.between(ADDRESS, PORT - 1),
        3 => rng.between(PORT, LENGTH - 1),
        _ => rng.between(LENGTH, CONTENTS - 1),
    }
}

/// One byte, a few, or down into the bodies, the table of contents or the head.
fn cut(rng: &mut Rng, recording: &Recording) -> usize {
    let size = recording.size();
    let contents = CONTENTS * recording.entries.len();
    match rng.below(8) {
        0..=2 => 1,
        3 => rng.between(2, 48),
        4 => size - rng.below(HEAD),
        5 => size - HEAD - rng.below(contents.max(1)),
        _ => rng.below(size + 1),
    }
}

/// Exactly as long as the entries need, longer, one too short, empty, or any less.
fn spare(rng: &mut Rng, entries: usize) -> isize {
    let needed = (ENTRY_ROW * entries) as isize;
    match rng.below(20) {
        0..=8 => 0,
        9..=11 => rng.between(1, 3) as isize,
        12..=13 => rng.pick(&[9, 40, 512]),
        14 => (ENTRY_ROW * ENTRY_LIMIT) as isize - needed,
        15..=16 => -1,
        17 => -needed,
        _ => -(rng.between(0, needed as usize) as isize),
    }
}

#[cfg(test)]
mod tests {
    use super::*;
    use crate::decoder::decode;
    use crate::items::Item;
    use crate::plain_reports::record;
    use crate::recording::read;

    #[test]
    fn a_report_datagram_has_the_report() {
        let told = record(10, 5010, 999);
        let items = decode(&report_datagram(&told), false).expect("it is read");
        let [Item::Report(report)] = items.iter().map(|item| item.item).collect::<Vec<_>>()[..]
        else {
            panic!("not one report");
        };
        assert_eq!((report.source, report.group), (10, told.report.group));
        assert_eq!(report.received, told.report.received);
        assert_eq!(report.presented, told.report.presented);
        assert_eq!(report.payload_type, told.report.payload_type);
    }

    #[test]
    fn a_datagram_without_items_is_read() {
        for length in (12..=LONGEST).step_by(4) {
            assert_eq!(decode(&without_items(length), false), Ok(Vec::new()));
        }
    }

    #[test]
    fn a_recording_without_changes_is_read() {
        let mut rng = Rng::new(generator::seed());
        for _ in 0..300 {
            let made = Replay {
                changes: Vec::new(),
                ..replay(&mut rng)
            };
            let (bytes, behind) = made.file();
            assert!(behind.is_empty());
            if bytes.len() <= RECORDING_LIMIT && made.recording.entries.len() <= ENTRY_LIMIT {
                assert_eq!(read(&bytes), Ok(made.recording));
            }
        }
    }

    #[test]
    fn what_was_cut_off_stands_behind() {
        let mut made = replay(&mut Rng::new(generator::seed()));
        let whole = made.recording.write();
        for count in [0, 1, whole.len(), whole.len() + 1] {
            made.changes = vec![Change::Cut(count)];
            let (bytes, behind) = made.file();
            assert_eq!(behind.len(), count.min(whole.len()));
            assert_eq!([bytes, behind].concat(), whole);
        }
    }
}
