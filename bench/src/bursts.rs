//! Times 64 reports at one reading: as one burst and as single calls of the archive,
//! and as calls of the peer, which changes its table in place.

use crate::peer_table as peer;
use crate::tables::{record, twin_record, Pair, READING};
use crate::{passes_in_a_round, round, ROUNDS};
use prunepocket_sys::{Record, Table};
use std::hint::black_box;

/// The most reports of a burst.
const REPORTS: usize = 64;

/// What the list holds beforehand; no answer is this.
const BEFORE: u64 = u64::MAX;

/// The tables that the reports come to, and the reports of both sides.
struct Input {
    pair: Pair,
    sent: Vec<peer::Record>,
    told: Vec<Record>,
}

impl Input {
    /// Reports of sources 1 to 64 to a table with so many members. Panics where
    /// burst, single calls and peer differ, or another number than this is given.
    fn new(members: u32, make: fn(u32) -> peer::Record, number: u64) -> Self {
        let sent: Vec<peer::Record> = (1..=REPORTS as u32).map(make).collect();
        let told: Vec<Record> = sent.iter().map(Record::from).collect();
        let mut after = Pair::with(members);
        for record in &sent {
            assert_eq!(after.report(record, &READING), number);
        }
        let pair = Pair::with(members);
        let mut list = [BEFORE; REPORTS + 1];
        let answered = pair.ours.report_burst(&told, &READING, &mut list);
        assert_eq!(answered.number, 0);
        assert_eq!(list[..REPORTS], [number; REPORTS]);
        assert_eq!(list[REPORTS], BEFORE);
        assert_eq!(answered.table, after.ours);
        Input { pair, sent, told }
    }

    /// Nanoseconds of burst, single calls and peer, each the best of its rounds. The
    /// table is handed back and stored by each, as a host does.
    fn time(self, again: Again) -> [f64; 3] {
        let Input { pair, sent, told } = self;
        let (start, peer_start) = (pair.ours, pair.peers.clone());
        let (mut burst, mut single, mut peers) = (pair.ours, pair.ours, pair.peers);
        let mut list = [BEFORE; REPORTS];
        best_rounds(
            || {
                again.reset(&mut burst, &start);
                let answer = burst.report_burst(black_box(&told), &READING, &mut list);
                burst = answer.table;
                black_box(answer.number);
                black_box(&list);
            },
            || {
                again.reset(&mut single, &start);
                report_each(&mut single, black_box(&told));
            },
            || {
                again.reset(&mut peers, &peer_start);
                report_each_to_peer(&mut peers, black_box(&sent));
            },
        )
    }
}

fn report_each(table: &mut Table, told: &[Record]) {
    for told in told {
        let answer = table.report(told, &READING);
        *table = answer.table;
        black_box(answer.number);
    }
}

fn report_each_to_peer(table: &mut peer::Table, sent: &[peer::Record]) {
    for sent in sent {
        let _ = black_box(black_box(&mut *table).report(sent, black_box(&READING)));
    }
}

/// What the next 64 reports come to.
#[derive(Clone, Copy)]
enum Again {
    /// The table that the last 64 left.
    Handed,
    /// A copy of the table before them, which is timed on every side.
    Copied,
}

impl Again {
    fn reset<T: Clone>(self, table: &mut T, start: &T) {
        if let Again::Copied = self {
            table.clone_from(black_box(start));
        }
    }
}

fn best_rounds(
    mut burst: impl FnMut(),
    mut single: impl FnMut(),
    mut peers: impl FnMut(),
) -> [f64; 3] {
    // The first rounds warm up and tell how many passes fill a round.
    let passes = [
        passes_in_a_round(&mut burst),
        passes_in_a_round(&mut single),
        passes_in_a_round(&mut peers),
    ];
    let mut best = [f64::MAX; 3];
    for _ in 0..ROUNDS {
        best[0] = round(passes[0], &mut burst).min(best[0]);
        best[1] = round(passes[1], &mut single).min(best[1]);
        best[2] = round(passes[2], &mut peers).min(best[2]);
    }
    best
}

/// A row's name, how many members there are, the reports and their number, and what
/// the next ones come to.
type Row = (&'static str, u32, fn(u32) -> peer::Record, u64, Again);

const ROWS: [Row; 3] = [
    ("members report", 64, record, 0, Again::Handed),
    ("new members join", 0, record, 0, Again::Copied),
    ("twins, refused", 64, twin_record, 14, Again::Handed),
];

pub fn print() {
    println!();
    println!(
        "{:<24}{:>8}{:>10}{:>10}{:>10}{:>14}{:>12}{:>13}",
        "64 reports, ns for all",
        "members",
        "burst",
        "single",
        "peer",
        "burst/single",
        "burst/peer",
        "single/peer"
    );
    for (name, members, make, number, again) in ROWS {
        let [burst, single, peers] = Input::new(members, make, number).time(again);
        println!(
            "{name:<24}{members:>8}{burst:>10.0}{single:>10.0}{peers:>10.0}{:>14.3}{:>12.2}{:>13.2}",
            burst / single,
            burst / peers,
            single / peers
        );
    }
}
