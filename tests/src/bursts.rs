//! Bursts for a history: as many reports and as long lists as stand at the limits
//! and next to them, and reports of one number from several origins.

use crate::burst::BURST_LIMIT;
use crate::generator::Rng;
use crate::histories::World;
use crate::members::{Burst, Origin, Record};

const SECOND: u64 = 1 << 32;

/// More reports than a burst may have; some are few where they wrap at 2^8.
const MANY: [usize; 8] = [66, 67, 100, 128, 255, 256, 257, 320];

/// Who reports in a burst.
#[derive(Clone, Copy)]
enum Senders {
    /// Anybody, as in single calls.
    Any,
    /// Each source in turn, from one of them on, so that many join.
    InTurn(usize),
    /// So many sources from one of them on, each from its own origin or another.
    Few(usize, usize),
}

impl Senders {
    fn any(rng: &mut Rng) -> Self {
        let first = rng.below(BURST_LIMIT);
        match rng.below(6) {
            0..=1 => Senders::InTurn(first),
            2 => Senders::Few(first, rng.between(1, 3)),
            _ => Senders::Any,
        }
    }

    fn sender(self, rng: &mut Rng, world: &World, index: usize) -> (u32, Origin) {
        match self {
            Senders::Any => world.sender(rng),
            Senders::InTurn(first) => world.own_sender(first + index),
            Senders::Few(first, count) => {
                let source = first + rng.below(count);
                match rng.chance(50) {
                    true => world.own_sender(source),
                    false => world.twin(rng, source),
                }
            }
        }
    }
}

/// A burst at the world's clock.
pub(crate) fn burst(rng: &mut Rng, world: &mut World) -> Burst {
    let count = report_count(rng);
    let senders = Senders::any(rng);
    let mut burst = burst_of(rng, world, count, |rng, world, index| {
        senders.sender(rng, world, index)
    });
    let length = list_length(rng, count);
    burst.list = numbers(rng, length);
    if count > 0 && rng.chance(60) {
        spoil(rng, world, &mut burst.reports);
    }
    burst
}

/// A report of each of the first sources, in turn, and a list that is long enough.
pub(crate) fn burst_in_turn(rng: &mut Rng, world: &mut World, count: usize) -> Burst {
    let mut burst = burst_of(rng, world, count, |_, world, index| world.own_sender(index));
    let length = count + rng.below(3);
    burst.list = numbers(rng, length);
    burst
}

/// So many reports, and no list.
fn burst_of(
    rng: &mut Rng,
    world: &mut World,
    count: usize,
    sender: impl Fn(&mut Rng, &World, usize) -> (u32, Origin),
) -> Burst {
    let report = |index: usize| {
        let (source, origin) = sender(rng, world, index);
        Record {
            source,
            origin,
            report: world.report(rng),
        }
    };
    Burst {
        reports: (0..count).map(report).collect(),
        reading: world.clock,
        list: Vec::new(),
    }
}

fn report_count(rng: &mut Rng) -> usize {
    match rng.below(20) {
        0 | 1 => 0,
        2 => 1,
        3 | 4 => BURST_LIMIT - 1,
        5..=9 => BURST_LIMIT,
        10 => BURST_LIMIT + 1,
        11 => rng.pick(&MANY),
        12..=14 => rng.between(2, 12),
        _ => rng.between(2, BURST_LIMIT - 2),
    }
}

/// Exactly as long as the reports are many, one longer or shorter, 64, empty, or
/// longer than is ever needed.
fn list_length(rng: &mut Rng, reports: usize) -> usize {
    match rng.below(20) {
        0 => 0,
        1 | 2 => reports.saturating_sub(1),
        3 => rng.below(reports + 1),
        4..=9 => reports,
        10..=12 => reports + 1,
        13 | 14 => BURST_LIMIT,
        15 => BURST_LIMIT + 1,
        _ => reports + rng.pick(&[2, 9, 40, 192]),
    }
}

/// Any numbers, which are to stay where none is put.
fn numbers(rng: &mut Rng, length: usize) -> Vec<u64> {
    (0..length).map(|_| rng.number()).collect()
}

/// Makes some of the reports such as get 13 or 15 to 17, or come from a twin, whatever
/// the history is like.
fn spoil(rng: &mut Rng, world: &World, reports: &mut [Record]) {
    for _ in 0..rng.between(1, 4) {
        let index = rng.below(reports.len());
        let told = &mut reports[index];
        match rng.below(6) {
            0 => told.report.group ^= 1,
            1 => told.report.media ^= 1 << 31,
            2 => told.origin.port ^= 1 << rng.below(16),
            3 => told.report.received = world.clock.ntp.wrapping_add(rng.pick(&[1, SECOND])),
            4 => told.report.rtp = world.clock.rtp.wrapping_add(1),
            _ => {
                let m = (told.report.received >> 16) as u32;
                told.report.presented = m.wrapping_add((31 << 16) + 1);
                told.report.p = 1;
            }
        }
    }
}
