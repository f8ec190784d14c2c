//! What the answer to settings means, from the definition of targets alone: they suit
//! exactly if they ask no counted member for a sample earlier, and would ask one if they
//! were earlier by more than the slack.

use crate::compare::Verdict;
use crate::members::{Record, Target};
use crate::settings_check::Query;
use crate::target::AtReading;
use prunepocket_sys::Settings;

/// For an answer that is no refusal. The samples are any whole numbers past R.
pub fn check_meaning(
    rate: u32,
    members: &[Record],
    query: &Query,
    suits: bool,
    samples: &[i128],
) -> Verdict {
    let members: Vec<Record> = members.iter().map(with_plain_p).collect();
    let at_reading = AtReading {
        rate,
        reading: query.reading,
        members: &members,
    };
    let asks_earlier = at_reading.asks_earlier();
    let lateness = at_reading.lateness(&target_of(&query.settings));
    // Earlier by a unit more than the slack.
    let allowance = i128::from(rate) * (i128::from(query.slack) << 16);
    let without_slack = lateness - allowance - 1;
    for &sample in samples {
        let earlier = asks_earlier(lateness, sample);
        let needed = asks_earlier(without_slack, sample);
        if suits && earlier {
            return Err(format!("yes, and a member is asked for {sample} earlier"));
        }
        if suits && !needed {
            return Err(format!("yes, and {sample} is later than with the slack"));
        }
        if !suits && !earlier && needed {
            return Err(format!("no, and {sample} is neither earlier nor too late"));
        }
    }
    Ok(())
}

/// Any P but 0 counts as 1.
fn with_plain_p(member: &Record) -> Record {
    let mut member = *member;
    member.report.p = member.report.p.min(1);
    member
}

/// The three times of a packet, as those of a target.
fn target_of(settings: &Settings) -> Target {
    Target {
        received: settings.received,
        rtp: settings.rtp,
        presented: settings.presented,
        ..Target::default()
    }
}

/// A target as the settings packet of a sender.
pub fn settings_of(target: &Target, sender: u32) -> Settings {
    Settings {
        sender,
        media: target.media,
        group: target.group,
        received: target.received,
        rtp: target.rtp,
        presented: target.presented,
    }
}

#[cfg(test)]
mod tests {
    use super::*;
    use crate::plain_reports::{reading, record, OPENING};

    const NOW: u32 = 1000;
    const SAMPLES: [i128; 4] = [0, -1, 1 << 60, -(1 << 60)];

    /// Whether this answer is right for a packet presented so many units after what the
    /// only member presents, with a slack of 1.
    fn fits(suits: bool, later: i64) -> bool {
        let member = record(1, 5000, NOW - 1);
        let received = member.report.received;
        let presented = (received + (1 << 31)).wrapping_add_signed(later);
        let settings = Settings {
            received,
            rtp: member.report.rtp,
            presented,
            ..Settings::default()
        };
        let query = Query {
            settings,
            reading: reading(NOW),
            slack: 1,
        };
        check_meaning(OPENING.rate, &[member], &query, suits, &SAMPLES).is_ok()
    }

    #[test]
    fn wrong_answers_are_found() {
        for later in [0, 1, 65_535, 65_536] {
            assert!(fits(true, later) && !fits(false, later), "{later}");
        }
        for later in [-65_536, -1, 65_537, 1 << 32] {
            assert!(fits(false, later) && !fits(true, later), "{later}");
        }
    }

    /// A member that is not fresh, or has P 0 beside P 1, is asked nothing.
    #[test]
    fn members_that_are_not_counted_are_left_out() {
        let member = record(1, 5000, NOW - 1);
        let mut other_p = member;
        other_p.report.p = 255;
        let mut arrival = record(2, 5001, NOW - 1);
        (arrival.report.p, arrival.report.rtp) = (0, 0);
        let stale = record(3, 5002, NOW - 31);
        let query = Query {
            settings: Settings {
                received: member.report.received,
                rtp: member.report.rtp,
                presented: member.report.received + (1 << 31),
                ..Settings::default()
            },
            reading: reading(NOW),
            slack: 0,
        };
        for counted in [member, other_p] {
            let members = [arrival, stale, counted];
            let verdict = check_meaning(OPENING.rate, &members, &query, true, &SAMPLES);
            assert_eq!(verdict, Ok(()));
        }
    }
}
