//! What the entries of recordings made by hand give: items, accepted items, first
//! refusals, and the choice at the last entry's reading. Each recording is replayed by
//! the archive and by the independent side.

use prunepocket_tests::members::{Reading, Record};
use prunepocket_tests::plain_recordings::{
    datagram, entry, farewells, recording, report, settings, taken,
};
use prunepocket_tests::plain_reports::{reading, record, OPENING};
use prunepocket_tests::recording::Entry;
use prunepocket_tests::replay::Row;

/// The port of every unit that has no twin.
const PORT: u16 = 5000;

/// A report that a table takes after 1000 s.
fn told(source: u32) -> Record {
    record(source, PORT, 999)
}

/// The same of another group: 13.
fn foreign(source: u32) -> Record {
    let mut told = told(source);
    told.report.group ^= 1;
    told
}

/// The same received after the reading: 15.
fn early(source: u32) -> Record {
    record(source, PORT, 1001)
}

/// A datagram of reports that arrived after 1000 s.
fn reports(sources: impl IntoIterator<Item = u32>) -> Entry {
    let packets = sources.into_iter().map(|source| report(&told(source)));
    at_1000(&packets.collect::<Vec<_>>())
}

fn at_1000(packets: &[Vec<u8>]) -> Entry {
    entry(1000, PORT, datagram(packets))
}

fn rows(entries: Vec<Entry>) -> Vec<Row> {
    taken(&recording(entries)).1
}

/// The chosen source at the last entry's reading, or 20.
fn chosen(entries: Vec<Entry>) -> Result<u32, u64> {
    let (replayed, _) = taken(&recording(entries));
    match replayed.choice {
        0 => Ok(replayed.target.source),
        number => Err(number),
    }
}

#[test]
fn the_table_is_carried_from_entry_to_entry() {
    let leaves = || at_1000(&[farewells(&[1])]);
    let entries = vec![
        reports([1]),
        reports([1, 2]),
        leaves(),
        leaves(),
        reports([1]),
    ];
    let expected = [[1, 1, 0], [2, 2, 0], [1, 1, 0], [1, 0, 19], [1, 1, 0]];
    assert_eq!(rows(entries), expected);
}

#[test]
fn settings_are_neither_accepted_nor_refused() {
    let settings = || settings(&told(7));
    let only = at_1000(&[settings(), settings()]);
    let among = at_1000(&[settings(), report(&told(1)), settings(), farewells(&[2])]);
    let leaves = at_1000(&[farewells(&[7])]);
    let expected = [[2, 0, 0], [4, 1, 19], [1, 0, 19]];
    assert_eq!(rows(vec![only, among, leaves]), expected);
}

#[test]
fn the_first_refusal_of_several_is_given() {
    let (foreign, early) = (report(&foreign(1)), report(&early(1)));
    let unheld = farewells(&[9, 1]);
    let told = report(&told(1));
    let entries = vec![
        at_1000(&[foreign.clone(), early.clone(), unheld.clone()]),
        at_1000(&[early.clone(), foreign.clone(), unheld.clone()]),
        at_1000(&[unheld.clone(), early.clone(), foreign.clone()]),
        at_1000(&[told.clone(), early, told, unheld, foreign]),
    ];
    let expected = [[4, 0, 13], [4, 0, 15], [4, 0, 19], [6, 3, 15]];
    assert_eq!(rows(entries), expected);
}

/// A datagram of each refusal of the reader, with a report in it before that.
fn refused_datagrams() -> [Vec<u8>; 7] {
    let front = || report(&told(3));
    let behind = |words: &[u32]| {
        let packet = words.iter().flat_map(|word| word.to_be_bytes()).collect();
        datagram(&[front(), packet])
    };
    [
        datagram(&[front(), vec![0]]),
        behind(&[0x40CA_0000]),
        behind(&[0xA0CA_0000]),
        front(),
        behind(&[0x80D3_0000]),
        behind(&[0x80CF_0002, 3, 0x0400_0001]),
        behind(&[0x80CF_0003, 3, 0x0C10_0001, 0]),
    ]
}

#[test]
fn a_datagram_that_the_reader_refuses_leaves_the_table() {
    for (number, body) in (1..).zip(refused_datagrams()) {
        let refused = entry(1000, PORT, body);
        let leaves = at_1000(&[farewells(&[3])]);
        let entries = vec![reports([1]), refused, leaves, reports([3])];
        let expected = [[1, 1, 0], [0, 0, number], [1, 0, 19], [1, 1, 0]];
        assert_eq!(rows(entries), expected);
    }
}

/// Each of the eighteen bytes of an origin is read.
#[test]
fn a_twin_at_another_entrys_origin_is_refused() {
    for byte in 0..18 {
        let twin = |mut entry: Entry| {
            match byte {
                0..=15 => entry.origin.address[byte] ^= 1,
                _ => entry.origin.port ^= 1 << (8 * (byte - 16)),
            }
            entry
        };
        let leaves = || at_1000(&[farewells(&[1])]);
        let entries = vec![
            reports([1]),
            twin(reports([1, 2])),
            twin(leaves()),
            leaves(),
        ];
        let expected = [[1, 1, 0], [2, 1, 14], [1, 0, 14], [1, 1, 0]];
        assert_eq!(rows(entries), expected, "byte {byte}");
    }
}

/// No entry takes out members that are no longer fresh.
#[test]
fn a_stale_member_keeps_its_number() {
    let twin = |seconds: u32| {
        let told = record(1, PORT + 1, seconds - 1);
        entry(seconds, PORT + 1, datagram(&[report(&told)]))
    };
    let leaves = entry(2000, PORT, datagram(&[farewells(&[1])]));
    let entries = vec![reports([1]), twin(1030), twin(2000), leaves, twin(2000)];
    let expected = [[1, 1, 0], [1, 0, 14], [1, 0, 14], [1, 1, 0], [1, 1, 0]];
    assert_eq!(rows(entries), expected);
}

/// A report that is as old as can be after 1000 s: one more unit of N gives 15, and
/// one more of R 16.
fn oldest(source: u32) -> Record {
    let mut told = record(source, PORT, 970);
    told.report.rtp = reading(1000).rtp - 60 * OPENING.rate;
    told
}

/// Each of the 96 bits of N and R is read.
#[test]
fn an_entry_has_its_own_reading() {
    let told = oldest(1).report;
    let oldest = || at_1000(&[report(&oldest(1))]);
    for bit in 0..96 {
        let mut entry = oldest();
        match bit {
            0..=31 => entry.reading.rtp ^= 1 << bit,
            _ => entry.reading.ntp ^= 1 << (bit - 32),
        }
        let Reading { ntp, rtp } = entry.reading;
        let row = match (ntp.wrapping_sub(told.received), rtp.wrapping_sub(told.rtp)) {
            (ntp_age, _) if ntp_age > 30 << 32 => [1, 0, 15],
            (_, rtp_age) if rtp_age > 60 * OPENING.rate => [1, 0, 16],
            _ => [1, 1, 0],
        };
        let expected = [[1, 1, 0], row, [1, 1, 0]];
        assert_eq!(rows(vec![oldest(), entry, oldest()]), expected, "bit {bit}");
    }
}

#[test]
fn the_65th_member_gets_18() {
    let mut entries: Vec<Entry> = (1..=65).map(|source| reports([source])).collect();
    entries.push(at_1000(&[farewells(&[1])]));
    entries.push(reports([65, 66]));
    let rows = rows(entries);
    assert!(rows[..64].iter().all(|row| *row == [1, 1, 0]));
    assert_eq!(rows[64..], [[1, 0, 18], [1, 1, 0], [2, 1, 18]]);
}

/// The most reports and the most farewells that a datagram has room for.
#[test]
fn the_most_items_of_a_datagram() {
    let leaving: Vec<u32> = (1..=494).collect();
    let byes: Vec<Vec<u8>> = leaving.chunks(31).map(farewells).collect();
    let entries = vec![reports(1..=51), at_1000(&byes), at_1000(&byes)];
    assert!(entries.iter().all(|entry| entry.body.len() > 2040));
    assert_eq!(rows(entries), [[51, 51, 0], [494, 51, 19], [494, 0, 19]]);
}

/// Also where the reader refuses that entry's datagram.
#[test]
fn the_choice_is_made_at_the_last_entrys_reading() {
    let at = |seconds: u32| entry(seconds, PORT, Vec::new());
    assert_eq!(chosen(vec![reports([1])]), Ok(1));
    // Received after 999 s: fresh up to 1029 s, and not before 999 s.
    for (seconds, expected) in [(998, Err(20)), (999, Ok(1)), (1029, Ok(1)), (1030, Err(20))] {
        assert_eq!(chosen(vec![reports([1]), at(seconds)]), expected);
        assert_eq!(chosen(vec![at(seconds), reports([1])]), Ok(1));
        assert_eq!(chosen(vec![reports([1]), at(seconds), at(1000)]), Ok(1));
    }
    assert_eq!(chosen(vec![at(1000)]), Err(20));
}

/// All are equally late, so the lowest source is chosen.
#[test]
fn the_last_datagram_counts_for_the_choice() {
    assert_eq!(chosen(vec![reports([2]), reports([1])]), Ok(1));
    let leaves = at_1000(&[farewells(&[1])]);
    assert_eq!(chosen(vec![reports([1, 2]), leaves.clone()]), Ok(2));
    assert_eq!(chosen(vec![reports([1]), leaves]), Err(20));
}

#[test]
fn in_arrival_mode_the_target_presents_nothing() {
    let mut arrival = told(1);
    arrival.report.p = 0;
    arrival.report.presented = 0;
    let by_arrival = at_1000(&[report(&arrival)]);
    let (replayed, rows) = taken(&recording(vec![by_arrival.clone()]));
    assert_eq!(rows, [[1, 1, 0]]);
    assert_eq!((replayed.choice, replayed.target.source), (0, 1));
    assert_eq!((replayed.target.presented, replayed.target.counted), (0, 1));
    assert_eq!(chosen(vec![by_arrival, reports([2])]), Ok(2));
}
