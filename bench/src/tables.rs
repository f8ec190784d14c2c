//! Times the calls of the member table beside the peer's, which changes its
//! table in place.

use crate::interleaved;
use crate::peer_table as peer;
use crate::settings;
use prunepocket_sys::{Member, Origin, Reading, Record, Table};
use std::hint::black_box;

const SECOND: u64 = 1 << 32;

pub const READING: Reading = Reading {
    ntp: 1000 * SECOND,
    rtp: 9_000_000,
};

pub fn record(source: u32) -> peer::Record {
    let mut address = [0, 0, 0, 0, 0, 0, 0, 0, 0, 0, 255, 255, 192, 0, 2, 0];
    address[15] = source as u8;
    peer::Record {
        source,
        origin: Origin {
            address,
            port: 5000,
        },
        report: peer::Report {
            sender: source,
            payload_type: 33,
            p: true,
            group: 42,
            media: 7,
            received: 999 * SECOND + u64::from(source) * 0x1_0000,
            rtp: 8_910_000,
            presented: 0x03E7_8000 + source * 7 % 64,
        },
    }
}

/// The same, presented in the slot of 2^-16 s in which it was received.
fn wired_record(source: u32) -> peer::Record {
    let mut record = record(source);
    record.report.presented = (record.report.received >> 16) as u32;
    record
}

/// The same from another origin: a twin of the source.
pub fn twin_record(source: u32) -> peer::Record {
    let mut record = record(source);
    record.origin.port += 1;
    record
}

/// Both tables with members 1 to `members`.
pub struct Pair {
    pub ours: Table,
    pub peers: peer::Table,
}

impl Pair {
    pub fn with(members: u32) -> Pair {
        let mut pair = Pair {
            ours: Table::open(42, 7, 90_000).expect("it opens"),
            peers: peer::Table::open(42, 7, 90_000).expect("it opens"),
        };
        for source in 1..=members {
            assert_eq!(pair.report(&record(source), &READING), 0);
        }
        pair
    }

    /// Panics where the two differ.
    pub fn report(&mut self, record: &peer::Record, reading: &Reading) -> u64 {
        let answered = self.ours.report(&record.into(), reading);
        let answer = self.peers.report(record, reading);
        assert_eq!(answered.number, answer.err().unwrap_or(0));
        self.ours = answered.table;
        self.agree(reading);
        answered.number
    }

    /// Panics where the two differ.
    fn farewell(&mut self, record: &peer::Record) -> u64 {
        let answered = self.ours.farewell(record.source, &record.origin);
        let answer = self.peers.farewell(record.source, &record.origin);
        assert_eq!(answered.number, answer.err().unwrap_or(0));
        self.ours = answered.table;
        self.agree(&READING);
        answered.number
    }

    fn agree(&self, reading: &Reading) {
        let followed = self.ours.choose(reading);
        assert_eq!(followed.choice(), self.peers.choose(reading));
        assert_eq!(self.ours.count_members(), self.peers.count());
        for place in 0..64 {
            let ours = self.ours.member_at(place);
            let peers = self.peers.member_at(place).map(Member::from);
            assert_eq!((ours.held == 1).then_some(ours.member), peers);
        }
    }
}

/// A report of a member, or of the first source where there is none. It stays.
fn time_report(members: u32) -> (f64, f64) {
    time_report_of(members, record)
}

/// The same with a report of step 0.
fn time_wired_report(members: u32) -> (f64, f64) {
    time_report_of(members, wired_record)
}

fn time_report_of(members: u32, make: fn(u32) -> peer::Record) -> (f64, f64) {
    let known = make(members.max(1));
    let mut pair = Pair::with(members);
    assert_eq!(pair.report(&known, &READING), 0);
    time_one_report(pair, &known)
}

/// A report of one more source than there are places: 18.
fn time_refused_report(members: u32) -> (f64, f64) {
    let surplus = record(members + 1);
    let mut pair = Pair::with(members);
    assert_eq!(pair.report(&surplus, &READING), 18);
    time_one_report(pair, &surplus)
}

/// A report of the last member's twin: 14, and its tally is one more.
fn time_twin_report(members: u32) -> (f64, f64) {
    let twin = twin_record(members);
    let mut pair = Pair::with(members);
    assert_eq!(pair.report(&twin, &READING), 14);
    time_one_report(pair, &twin)
}

fn time_one_report(pair: Pair, sent: &peer::Record) -> (f64, f64) {
    let Pair {
        mut ours,
        mut peers,
    } = pair;
    let told = Record::from(sent);
    interleaved(
        1,
        || {
            let answer = ours.report(&told, &READING);
            ours = answer.table;
            black_box(answer.number);
        },
        || {
            let _ = black_box(black_box(&mut peers).report(black_box(sent), black_box(&READING)));
        },
    )
}

/// A report of a new source, which takes the lowest free place, and the farewell that
/// frees it again. Both calls are timed, on either side.
fn time_new_member(members: u32) -> (f64, f64) {
    let new = record(members + 1);
    let mut pair = Pair::with(members);
    assert_eq!(pair.report(&new, &READING), 0);
    assert_eq!(pair.farewell(&new), 0);
    let Pair {
        mut ours,
        mut peers,
    } = pair;
    let told = Record::from(&new);
    interleaved(
        1,
        || {
            let answer = ours.report(&told, &READING);
            black_box(answer.number);
            let answer = answer.table.farewell(told.source, &told.origin);
            ours = answer.table;
            black_box(answer.number);
        },
        || {
            let peers = black_box(&mut peers);
            let _ = black_box(peers.report(black_box(&new), black_box(&READING)));
            let peers = black_box(peers);
            let _ = black_box(peers.farewell(black_box(new.source), black_box(&new.origin)));
        },
    )
}

/// A farewell of a number that no member has: 19.
fn time_unheld_farewell(members: u32) -> (f64, f64) {
    let unheld = record(members + 1);
    let mut pair = Pair::with(members);
    assert_eq!(pair.farewell(&unheld), 19);
    time_one_farewell(pair, &unheld)
}

/// A farewell of the last member's twin: 14, and its tally is one more.
fn time_twin_farewell(members: u32) -> (f64, f64) {
    let twin = twin_record(members);
    let mut pair = Pair::with(members);
    assert_eq!(pair.farewell(&twin), 14);
    time_one_farewell(pair, &twin)
}

/// The source of this record, from its origin.
fn time_one_farewell(pair: Pair, sent: &peer::Record) -> (f64, f64) {
    let Pair {
        mut ours,
        mut peers,
    } = pair;
    let (source, origin) = (sent.source, sent.origin);
    interleaved(
        1,
        || {
            let answer = ours.farewell(source, &origin);
            ours = answer.table;
            black_box(answer.number);
        },
        || {
            let _ =
                black_box(black_box(&mut peers).farewell(black_box(source), black_box(&origin)));
        },
    )
}

/// A sweep that removes nobody.
fn time_sweep(members: u32) -> (f64, f64) {
    let Pair {
        mut ours,
        mut peers,
    } = Pair::with(members);
    interleaved(
        1,
        || ours = ours.sweep(&READING).table,
        || black_box(&mut peers).sweep(black_box(&READING)),
    )
}

fn time_choose(members: u32) -> (f64, f64) {
    let Pair { mut ours, peers } = Pair::with(members);
    interleaved(
        1,
        || {
            let followed = ours.choose(&READING);
            ours = followed.table;
            black_box(followed.number);
        },
        || {
            let _ = black_box(black_box(&peers).choose(black_box(&READING)));
        },
    )
}

/// At the start of a cache line. A copy can take many times as long where its destination starts 1 to 31 bytes
/// behind its source, modulo 4,096, as that of two tables of 4,120 bytes side by side does. Where the compiler puts
/// the variables is not to be timed.
#[repr(align(64))]
struct Aligned<T>(T);

/// Copies of a table of the archive and of the peer: what passing one by value costs at least.
fn time_copy(members: u32) -> (f64, f64) {
    let Pair { ours, peers } = Pair::with(members);
    let mut our_copy = Aligned(ours);
    let mut peer_copy = Aligned(peers.clone());
    let (ours, peers) = (Aligned(ours), Aligned(peers));
    interleaved(
        1,
        || {
            our_copy.0 = *black_box(&ours.0);
            black_box(&our_copy.0);
        },
        || {
            peer_copy.0.clone_from(black_box(&peers.0));
            black_box(&peer_copy.0);
        },
    )
}

/// A row's name, what it times, and with how many members.
type Row = (&'static str, fn(u32) -> (f64, f64), &'static [u32]);

/// From no member to a full table.
const ANY: &[u32] = &[0, 1, 32, 64];

/// From no member to a single free place.
const WITH_ROOM: &[u32] = &[0, 1, 32, 63];

/// From one member to a full table.
const WITH_MEMBERS: &[u32] = &[1, 32, 64];

const CALLS: [Row; 12] = [
    ("copy of the table", time_copy, ANY),
    ("report", time_report, ANY),
    ("report, wired", time_wired_report, ANY),
    ("report, new, then farewell", time_new_member, WITH_ROOM),
    ("report, new, refused", time_refused_report, &[64]),
    ("report, twin, refused", time_twin_report, WITH_MEMBERS),
    ("farewell, unheld, refused", time_unheld_farewell, ANY),
    ("farewell, twin, refused", time_twin_farewell, WITH_MEMBERS),
    ("sweep", time_sweep, ANY),
    ("choose", time_choose, ANY),
    ("check settings", settings::time_check, ANY),
    ("check settings, refused 11", settings::time_refused, &[64]),
];

pub fn print() {
    println!();
    println!(
        "{:<32}{:>8}{:>10}{:>10}{:>12}",
        "member table", "members", "ours ns", "peer ns", "ours/peer"
    );
    for (name, time, members) in CALLS {
        for &members in members {
            let (ours, peers) = time(members);
            println!(
                "{name:<32}{members:>8}{ours:>10.1}{peers:>10.1}{:>12.2}",
                ours / peers
            );
        }
    }
}
