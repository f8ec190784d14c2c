//! Tables of any bytes for the check of settings: any rate, any P, any places held,
//! and reports that no call would have accepted.

use crate::generator::Rng;
use crate::members::{Member, Origin, Reading, Record, ReportFields};
use crate::settings_check::LIMIT;
use crate::settings_times::{any_times, Times};
use prunepocket_sys::Table;
use std::array::from_fn;

/// Rates at the ends of the range, around that of an opening, of a whole number of
/// powers of two, and around the one whose 60 seconds are 2^32 ticks.
const RATES: [u32; 18] = [
    0,
    1,
    2,
    3,
    5,
    8_000,
    90_000,
    191_999,
    192_000,
    192_001,
    71_582_788,
    71_582_789,
    71_582_791,
    (1 << 28) + 1,
    1 << 31,
    (1 << 31) + 1,
    u32::MAX - 1,
    u32::MAX,
];

/// Group and media source at the ends of their range.
const EDGES: [u32; 4] = [0, 1, u32::MAX - 1, u32::MAX];

/// P, most often 0 or 1.
const PS: [u8; 8] = [0, 0, 1, 1, 1, 2, 128, 255];

/// A table, and a reading at which some of its members are fresh.
pub fn table_value(rng: &mut Rng) -> (Table, Reading) {
    let reading = any_reading(rng);
    let rate = any_rate(rng);
    let presenting = rng.pick(&[0, 50, 100]);
    let mut table = Table {
        group: any_identifier(rng),
        media: any_identifier(rng),
        rate,
        held: held(rng),
        members: from_fn(|_| member(rng, &reading, rate.into(), presenting)),
    };
    let (own, equals) = (rng.pick(&[50, 100]), rng.pick(&[0, 20, 60]));
    for place in 0..table.members.len() {
        let report = &mut table.members[place].record.report;
        if rng.chance(own) {
            (report.group, report.media) = (table.group, table.media);
        }
    }
    for place in 1..table.members.len() {
        if rng.chance(equals) {
            let earlier = table.members[rng.below(place)];
            table.members[place].record.report = earlier.record.report;
        }
    }
    (table, reading)
}

fn any_identifier(rng: &mut Rng) -> u32 {
    match rng.chance(20) {
        true => rng.pick(&EDGES),
        false => rng.word(),
    }
}

fn any_rate(rng: &mut Rng) -> u32 {
    match rng.below(10) {
        0..=6 => rng.pick(&RATES),
        7..=8 => rng.between(1, 192_000) as u32 | 1,
        _ => rng.word(),
    }
}

/// None, one, few, the last ones, any or all.
fn held(rng: &mut Rng) -> u64 {
    let one = 1 << rng.below(64);
    match rng.below(10) {
        0 => 0,
        1 => one,
        2..=4 => one | 1 << rng.below(64) | 1 << rng.below(64),
        5 => 1 << 63,
        6 => u64::MAX,
        _ => rng.number(),
    }
}

/// Often shortly before or behind a wrap.
pub fn any_reading(rng: &mut Rng) -> Reading {
    let soon = rng.number() % (2 * LIMIT as u64);
    let ntp = match rng.below(6) {
        0..=1 => soon.wrapping_sub(LIMIT as u64),
        2 => rng.below(3) as u64,
        3 => u64::MAX - rng.below(3) as u64,
        _ => rng.number(),
    };
    let rtp = match rng.below(4) {
        0 => rng.below(3) as u32,
        1 => u32::MAX - rng.below(3) as u32,
        _ => rng.word(),
    };
    Reading { ntp, rtp }
}

fn member(rng: &mut Rng, reading: &Reading, rate: i128, presenting: usize) -> Member {
    let mut report = report_of(reading, &any_times(rng, rate));
    match rng.below(12) {
        0 => report.received = rng.number(),
        1 => report.rtp = rng.word(),
        2 => report.presented = rng.word(),
        3 => report.presented = (report.received >> 16) as u32,
        _ => {}
    }
    report.p = match rng.chance(presenting) {
        true => rng.pick(&PS),
        false => 0,
    };
    let (group, media, payload_type) = (rng.word(), rng.word(), rng.byte());
    Member {
        record: Record {
            source: rng.word(),
            origin: Origin {
                address: from_fn(|_| rng.byte()),
                port: rng.word() as u16,
            },
            report: ReportFields {
                group,
                media,
                payload_type,
                ..report
            },
        },
        tally: rng.word(),
    }
}

/// The start of the slot at or behind the delay.
fn report_of(reading: &Reading, times: &Times) -> ReportFields {
    let received = reading.ntp.wrapping_sub(times.ntp_age as u64);
    let presented = received.wrapping_add(times.delay as u64);
    ReportFields {
        received,
        rtp: reading.rtp.wrapping_sub(times.rtp_age as u32),
        presented: (presented >> 16) as u32,
        ..ReportFields::default()
    }
}
