//! The messages that are timed.

use crate::inputs::Random;
use prunepocket_sys::{ReportMessage, SettingsMessage};

const MESSAGES: usize = 256;

/// Reports with all fields in range.
pub fn reports() -> Vec<ReportMessage> {
    let mut random = Random(0x7272);
    let in_range = |_| ReportMessage {
        payload_type: random.below(128) as u32,
        p: 1,
        group: random.below(1000) as u32,
        ..report(&mut random)
    };
    (0..MESSAGES).map(in_range).collect()
}

/// SettingsMessage with all fields in range.
pub fn settings() -> Vec<SettingsMessage> {
    let mut random = Random(0x7272);
    let in_range = |_| SettingsMessage {
        group: random.below(1000) as u32,
        ..settings_packet(&mut random)
    };
    (0..MESSAGES).map(in_range).collect()
}

/// Any report, now and then with fields out of range.
pub fn report(random: &mut Random) -> ReportMessage {
    let p = random.below(3) as u32;
    ReportMessage {
        sender: random.number() as u32,
        payload_type: random.below(160) as u32,
        p,
        group: group(random),
        media: random.number() as u32,
        received: random.number(),
        rtp: random.number() as u32,
        presented: match (p, random.below(8)) {
            (0, 1..) => 0,
            _ => random.number() as u32,
        },
    }
}

/// Any settings, now and then with a group out of range.
pub fn settings_packet(random: &mut Random) -> SettingsMessage {
    SettingsMessage {
        sender: random.number() as u32,
        group: group(random),
        media: random.number() as u32,
        received: random.number(),
        rtp: random.number() as u32,
        presented: random.number(),
    }
}

fn group(random: &mut Random) -> u32 {
    match random.below(8) {
        0 => u32::MAX,
        _ => random.number() as u32,
    }
}
