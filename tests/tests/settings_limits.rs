//! Settings packets worked out by hand beside the reports of the papers' cases P1 and
//! P2, on the archive and on the independent side: every limit, and the order of
//! refusals.

use prunepocket_sys::{Settings, Table, SLACK_LIMIT};
use prunepocket_tests::intake::Intake;
use prunepocket_tests::members::{Call, Opening, Reading, Record, ReportFields};
use prunepocket_tests::settings_check::{self, Query, Suits};
use prunepocket_tests::sides::Side;

const HEADER: &str = include_str!("../../include/prunepocket.h");

const SECOND: u64 = 1 << 32;

const OPENING: Opening = Opening {
    group: 42,
    media: 7,
    rate: 90_000,
};

const READING: Reading = Reading {
    ntp: 1000 * SECOND,
    rtp: 9_000_000,
};

const P1: ReportFields = ReportFields {
    received: 999 * SECOND,
    group: 42,
    media: 7,
    rtp: 8_910_000,
    presented: 0x03E7_8000,
    payload_type: 33,
    p: 1,
};

const P2: ReportFields = ReportFields {
    received: 998 * SECOND,
    rtp: 8_820_000,
    presented: 0x03E6_C000,
    ..P1
};

/// P3, the choice of P1 and P2: a lateness of 67,500 × 2^32.
const P3: Settings = Settings {
    sender: 1,
    media: 7,
    group: 42,
    received: 998 * SECOND,
    rtp: 8_820_000,
    presented: 998 * SECOND + 3 * SECOND / 4,
};

/// Received and read at once, and presented 30 s later, 67,500 ticks after its sample:
/// exactly 30 s later than P3.
const LATEST: Settings = Settings {
    received: 1000 * SECOND,
    rtp: 9_000_000 - 67_500,
    presented: 1030 * SECOND,
    ..P3
};

/// A packet for a table of these reports, and the answer.
struct Case<'a> {
    opening: Opening,
    reports: &'a [ReportFields],
    query: Query,
    answer: Suits,
}

impl Case<'_> {
    fn answer_of<S: Side>(&self) -> Suits {
        let mut side = S::open(&self.opening).expect("it opens");
        for (source, report) in (10..).step_by(10).zip(self.reports) {
            let told = Record {
                source,
                report: *report,
                ..Record::default()
            };
            // The reading at which the report is just received.
            let reading = Reading {
                ntp: report.received,
                rtp: report.rtp,
            };
            assert_eq!(side.call(&Call::Report(told, reading)), 0);
        }
        side.check_settings(&self.query)
    }

    fn check(&self) {
        let name = format!("{:?} beside {:?}", self.query, self.reports);
        assert_eq!(self.answer_of::<Intake>(), self.answer, "{name}");
        assert_eq!(self.answer_of::<Table>(), self.answer, "{name}");
    }
}

fn check_at(
    reading: Reading,
    reports: &[ReportFields],
    settings: Settings,
    slack: u32,
    answer: Suits,
) {
    let query = Query {
        settings,
        reading,
        slack,
    };
    let case = Case {
        opening: OPENING,
        reports,
        query,
        answer,
    };
    case.check();
}

fn check(reports: &[ReportFields], settings: Settings, slack: u32, answer: Suits) {
    check_at(READING, reports, settings, slack, answer);
}

/// Presented so many units later than P3.
fn later(units: i64) -> Settings {
    let presented = P3.presented.wrapping_add_signed(units);
    Settings { presented, ..P3 }
}

#[test]
fn header_and_bindings_have_this_limit() {
    assert_eq!(i128::from(SLACK_LIMIT), settings_check::SLACK_LIMIT);
    let define = format!("#define PRUNEPOCKET_SLACK_LIMIT UINT32_C({SLACK_LIMIT}) ");
    assert!(HEADER.lines().any(|line| line.starts_with(&define)));
}

#[test]
fn own_choice_suits_with_any_sender() {
    for sender in [0, 1, 7, 10, 20, 42, u32::MAX] {
        let settings = Settings { sender, ..P3 };
        check(&[P1, P2], settings, 0, Ok(true));
        check(&[P2, P1], settings, SLACK_LIMIT, Ok(true));
    }
}

#[test]
fn both_limits_of_lateness_suit() {
    check(&[P1, P2], later(-1), 0, Ok(false));
    check(&[P1, P2], later(-1), SLACK_LIMIT, Ok(false));
    check(&[P1, P2], later(1), 0, Ok(false));
    for (units, suits) in [(0, true), (1, true), (65_536, true), (65_537, false)] {
        check(&[P1, P2], later(units), 1, Ok(suits));
    }
    // A tick of media clock is 2^32 units of lateness.
    let tick_less = Settings {
        rtp: P3.rtp + 1,
        ..P3
    };
    let tick_more = Settings {
        rtp: P3.rtp - 1,
        ..P3
    };
    check(&[P1, P2], tick_less, 0, Ok(false));
    check(&[P1, P2], tick_more, 0, Ok(false));
    check(&[P1, P2], tick_more, 1, Ok(true));
}

#[test]
fn the_greatest_slack_is_30_seconds() {
    check(&[P1, P2], LATEST, SLACK_LIMIT, Ok(true));
    check(&[P1, P2], LATEST, SLACK_LIMIT - 1, Ok(false));
    let slot_less = Settings {
        presented: LATEST.presented - 65_536,
        ..LATEST
    };
    check(&[P1, P2], slot_less, SLACK_LIMIT - 1, Ok(true));
    let tick_more = Settings {
        rtp: LATEST.rtp - 1,
        ..LATEST
    };
    check(&[P1, P2], tick_more, SLACK_LIMIT, Ok(false));
    for slack in [SLACK_LIMIT + 1, 1 << 31, u32::MAX] {
        check(&[P1, P2], LATEST, slack, Err(11));
        check(&[], LATEST, slack, Err(11));
    }
}

/// At a rate of 1, a unit of the delay is a unit of lateness.
#[test]
fn one_unit_decides_at_rate_1() {
    let rtp = READING.rtp;
    let report = ReportFields { rtp, ..P1 };
    let presented = 999 * SECOND + SECOND / 2;
    for (units, slack, suits) in [
        (-1, 0, false),
        (0, 0, true),
        (1, 0, false),
        (65_536, 1, true),
        (65_537, 1, false),
    ] {
        let settings = Settings {
            received: report.received,
            rtp,
            presented: presented.wrapping_add_signed(units),
            ..P3
        };
        let case = Case {
            opening: Opening { rate: 1, ..OPENING },
            reports: &[report],
            query: Query {
                settings,
                reading: READING,
                slack,
            },
            answer: Ok(suits),
        };
        case.check();
    }
}

/// P1 is late by 45,000 × 2^32; packets of this age are not, and not refused.
#[test]
fn times_at_their_limits() {
    let received = |received: u64| Settings {
        received,
        presented: received + 1,
        ..P3
    };
    check(&[P1], received(970 * SECOND), 0, Ok(false));
    check(&[P1], received(970 * SECOND - 1), 0, Err(15));
    check(&[P1], received(1000 * SECOND), SLACK_LIMIT, Ok(true));
    check(&[P1], received(1000 * SECOND + 1), 0, Err(15));
    for (rtp, answer) in [
        (3_600_000, Ok(false)),
        (3_599_999, Err(16)),
        (9_000_000, Ok(false)),
        (9_000_001, Err(16)),
    ] {
        check(&[P1], Settings { rtp, ..P3 }, 0, answer);
    }
    let delay = |delay: u64| Settings {
        presented: P3.received + delay,
        ..P3
    };
    check(&[P1], delay(30 * SECOND), 0, Ok(false));
    check(&[P1], delay(30 * SECOND + 1), 0, Err(17));
    check(&[P1], delay(1), 0, Ok(false));
    check(&[P1], delay(0), 0, Err(17));
    check(&[P1], delay(SECOND << 16), 0, Err(17));
    check(&[P1], Settings { presented: 0, ..P3 }, 0, Err(17));
    let before = Settings {
        presented: P3.received - 1,
        ..P3
    };
    check(&[P1], before, 0, Err(17));
}

/// As P6, whose presented time is behind the wrap.
#[test]
fn times_wrap() {
    let received = 0xFFFF_FFFF_0000_0000;
    let report = ReportFields {
        received,
        rtp: 9_000_000,
        presented: 0x4000,
        ..P1
    };
    let reading = Reading {
        ntp: SECOND,
        ..READING
    };
    let presented = |presented: u64| Settings {
        received,
        rtp: 9_000_000,
        presented,
        ..P3
    };
    check_at(reading, &[report], presented(0x4000_0000), 0, Ok(true));
    check_at(reading, &[report], presented(0x3FFF_FFFF), 0, Ok(false));
    check_at(reading, &[report], presented(0x4000_0001), 0, Ok(false));
    check_at(reading, &[report], presented(1), 0, Ok(false));
    check_at(reading, &[report], presented(0), 0, Err(17));
    check_at(reading, &[report], presented(u64::MAX), 0, Ok(false));
}

#[test]
fn who_is_counted_by_arrival() {
    // A lateness of 0.
    let arrival = ReportFields { p: 0, ..P1 };
    let at_once = Settings {
        received: READING.ntp,
        rtp: READING.rtp,
        presented: READING.ntp + 1,
        ..P3
    };
    check(&[arrival], at_once, 0, Ok(false));
    check(&[arrival], at_once, 1, Ok(true));
    let own = Settings {
        received: P1.received,
        rtp: P1.rtp,
        presented: 0,
        ..P3
    };
    check(&[arrival], own, 0, Err(17));
    // Beside P 1, one that is later by arrival is not counted.
    let later = ReportFields {
        rtp: 8_000_000,
        ..arrival
    };
    check(&[later, P2], P3, 0, Ok(true));
    check(&[later], P3, 0, Ok(false));
}

/// Received 30 s before the reading, a member is counted, and a unit earlier not.
#[test]
fn who_is_fresh() {
    let old = ReportFields {
        received: 970 * SECOND,
        rtp: 3_600_000,
        presented: 999 << 16,
        ..P1
    };
    let unit_older = ReportFields {
        received: 970 * SECOND - 1,
        ..old
    };
    check(&[old, P2], P3, 0, Ok(false));
    check(&[unit_older, P2], P3, 0, Ok(true));
    let tick_older = ReportFields {
        rtp: 3_599_999,
        ..old
    };
    check(&[tick_older, P2], P3, 0, Ok(true));
    check(&[unit_older, tick_older], P3, 0, Err(20));
    check(&[], P3, 0, Err(20));
}

/// Everything is wrong at first, and then one thing less each time.
#[test]
fn refusals_come_in_order() {
    let mut settings = Settings {
        group: 7,
        media: 42,
        received: READING.ntp + 1,
        rtp: READING.rtp + 1,
        presented: 0,
        ..P3
    };
    let slack = SLACK_LIMIT + 1;
    check(&[], settings, slack, Err(11));
    check(&[], settings, 0, Err(20));
    check(&[P1], settings, 0, Err(13));
    settings.group = 42;
    check(&[P1], settings, 0, Err(13));
    settings.media = 7;
    check(&[P1], settings, 0, Err(15));
    settings.received = P3.received;
    check(&[P1], settings, 0, Err(16));
    settings.rtp = P3.rtp;
    check(&[P1], settings, 0, Err(17));
    settings.presented = P3.presented;
    check(&[P2], settings, 0, Ok(true));
}
