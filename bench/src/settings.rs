//! Times the check of a settings packet beside the peer's, which is lent its table.

use crate::inputs::Random;
use crate::tables::{Pair, READING};
use crate::{interleaved, ALTERED};
use prunepocket_sys::{Reading, Settings, SLACK_LIMIT};
use std::hint::black_box;

/// 30 s, the greatest NTP age and the greatest delay.
const LIMIT: u64 = 30 << 32;

/// Of the tables' group and media source, and later than each of their members by less
/// than a second.
const PACKET: Settings = Settings {
    sender: 1,
    media: 7,
    group: 42,
    received: 999 << 32,
    rtp: 8_910_000,
    presented: 1000 << 32,
};

/// A slack of a second.
const SLACK: u32 = 1 << 16;

/// Yes, or 20 without members.
pub fn time_check(members: u32) -> (f64, f64) {
    let pair = Pair::with(members);
    let expected = if members == 0 { Err(20) } else { Ok(true) };
    assert_eq!(check(&pair, &PACKET, &READING, SLACK), expected);
    time(pair, SLACK)
}

/// A slack one above the greatest: 11, with nothing else looked at.
pub fn time_refused(members: u32) -> (f64, f64) {
    let pair = Pair::with(members);
    let slack = SLACK_LIMIT + 1;
    assert_eq!(check(&pair, &PACKET, &READING, slack), Err(11));
    time(pair, slack)
}

/// The two have to agree on altered packets, too.
fn time(pair: Pair, slack: u32) -> (f64, f64) {
    agree_on_altered(&pair);
    let Pair { mut ours, peers } = pair;
    // Each is hidden from the compiler, so that no side is built for one packet.
    let (packet, slack) = (black_box(PACKET), black_box(slack));
    interleaved(
        1,
        || {
            let answered = ours.check_settings(&packet, &READING, slack);
            ours = answered.table;
            black_box(answered.number ^ u64::from(answered.suits));
        },
        || {
            let (peers, packet) = (black_box(&peers), black_box(&packet));
            let _ = black_box(peers.check_settings(packet, black_box(&READING), black_box(slack)));
        },
    )
}

/// Panics where the two differ, or the table does not come back as it was.
fn check(pair: &Pair, settings: &Settings, reading: &Reading, slack: u32) -> Result<bool, u64> {
    let answered = pair.ours.check_settings(settings, reading, slack);
    let verdict = pair.peers.check_settings(settings, reading, slack);
    assert_eq!(answered.verdict(), verdict, "{settings:?} with {slack}");
    assert!(answered.table == pair.ours);
    verdict
}

/// Packets at and next to the limits, and readings at which members are not fresh.
fn agree_on_altered(pair: &Pair) {
    let mut random = Random(0x7272);
    for _ in 0..ALTERED {
        let mut packet = PACKET;
        let mut reading = READING;
        let mut slack = random.number() as u32 % (SLACK_LIMIT + 2);
        for _ in 0..random.below(4) {
            let unit = random.below(3) as u64;
            match random.below(8) {
                0 => packet.group ^= 1,
                1 => packet.media ^= 1,
                2 => packet.received = (reading.ntp - LIMIT + 1).wrapping_sub(unit),
                3 => packet.received = reading.ntp + 1 - unit,
                4 => packet.rtp = reading.rtp - 60 * 90_000 + 1 - unit as u32,
                5 => packet.presented = packet.received + LIMIT + 1 - unit,
                6 => packet.presented = [0, packet.received, packet.received + 1][unit as usize],
                _ => reading.ntp += unit * LIMIT / 2,
            }
        }
        if random.below(4) == 0 {
            // As late as the latest member, or a unit beside it.
            if let Ok(target) = pair.peers.choose(&reading) {
                packet.received = target.received;
                packet.rtp = target.rtp;
                packet.presented = target.presented + random.below(3) as u64 - 1;
                slack = random.below(2) as u32;
            }
        }
        let _ = check(pair, &packet, &reading, slack);
    }
}
