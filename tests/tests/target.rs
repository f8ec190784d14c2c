//! Targets that are not as defined are found to be so.

use prunepocket_tests::members::{Choice, Reading, Record, ReportFields, Target};
use prunepocket_tests::target::{AtReading, Seen};

const SECOND: u64 = 1 << 32;

const READING: Reading = Reading {
    ntp: 100 * SECOND,
    rtp: 500_000,
};

/// A report `age` seconds old by both clocks, presented `quarters` of a second
/// after it was received.
fn member(source: u32, age: u32, quarters: u32) -> Record {
    Record {
        source,
        report: ReportFields {
            received: READING.ntp - u64::from(age) * SECOND,
            group: 1,
            media: 2,
            rtp: READING.rtp - age * 8000,
            presented: ((100 - age) << 16) + (quarters << 14),
            payload_type: 96,
            p: 1,
        },
        ..Record::default()
    }
}

/// Member 4 is the later one: by 6,000 ticks after the reading, member 3 by
/// 4,000.
const RIGHT: Target = Target {
    source: 4,
    group: 1,
    media: 2,
    received: 98 * SECOND,
    rtp: 484_000,
    presented: 98 * SECOND + 3 * SECOND / 4,
    counted: 2,
};

#[test]
fn the_definition_finds_wrong_targets() {
    let members = [member(3, 1, 2), member(4, 2, 3)];
    let at_reading = AtReading {
        rate: 8000,
        reading: READING,
        members: &members,
    };
    let find = |choice: Choice| at_reading.check(&choice, &[0, -1, 1, 1 << 40]).is_err();
    assert!(!find(Ok(RIGHT)));
    let change = |presented: u64, source: u32| Target {
        presented,
        source,
        ..RIGHT
    };
    let wrong = [
        change(RIGHT.presented - 1, 4),
        change(RIGHT.presented + 1, 4),
        change(0, 4),
        change(RIGHT.presented, 3),
        change(RIGHT.presented, 5),
        Target {
            rtp: RIGHT.rtp + 1,
            ..RIGHT
        },
    ];
    assert!(wrong.into_iter().all(|target| find(Ok(target))));
    assert!(find(Err(20)));
    let stale = AtReading {
        reading: Reading {
            ntp: 129 * SECOND + 1,
            ..READING
        },
        ..at_reading
    };
    assert!(stale.check(&Ok(RIGHT), &[0]).is_err());
    assert_eq!(stale.check(&Err(20), &[0]), Ok(None));
}

/// At a rate of 8000.
fn check(members: &[Record], target: Target) -> Result<Option<Seen>, String> {
    let at_reading = AtReading {
        rate: 8000,
        reading: READING,
        members,
    };
    at_reading.check(&Ok(target), &[0, -1, 1])
}

/// Member 3 presents in the slot of 2^-16 s in which it received, at its first,
/// second or last unit; member 4 is slower.
#[test]
fn the_definition_finds_wrong_targets_of_step_0() {
    for low_bits in [0, 1, 65_535] {
        let mut wired = member(3, 1, 0);
        wired.report.received += low_bits;
        let received = wired.report.received;
        let right = Target {
            source: 3,
            received,
            rtp: wired.report.rtp,
            presented: received + 1,
            counted: 1,
            ..RIGHT
        };
        let seen = |wired: bool| Seen {
            by_presentation: true,
            before: false,
            tie: false,
            wired,
            beside_wired: !wired,
            unit_apart: false,
        };
        assert_eq!(check(&[wired], right), Ok(Some(seen(true))));
        for presented in [received, received + 2, received - low_bits + (1 << 48)] {
            assert!(check(&[wired], Target { presented, ..right }).is_err());
        }
        let both = [wired, member(4, 2, 3)];
        assert_eq!(check(&both, RIGHT), Ok(Some(seen(false))));
        assert!(check(&both, right).is_err());
    }
}
