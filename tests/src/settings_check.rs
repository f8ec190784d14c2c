//! The independent check of another maker's settings packet, in 128-bit integers:
//! whether its lateness is at least that of every counted member, and exceeds the
//! greatest by no more than the slack.
//!
//! As in the decoder, a `Fault` plants one error that the comparison has to
//! find.

use crate::members::{Opening, Reading, Record, ReportFields};
use crate::settings_faults::Fault;
use prunepocket_sys::Settings;

pub const SECOND: i128 = 1 << 32;

/// The greatest NTP age, and the greatest delay.
pub const LIMIT: i128 = 30 * SECOND;

/// The greatest slack, in units of 2^-16 s.
pub const SLACK_LIMIT: i128 = 1_966_080;

/// The refusals, in order.
pub const REFUSALS: [u64; 6] = [11, 20, 13, 15, 16, 17];

/// What is asked of a table.
#[derive(Clone, Copy, Debug, PartialEq, Eq)]
pub struct Query {
    pub settings: Settings,
    pub reading: Reading,
    /// In units of 2^-16 s.
    pub slack: u32,
}

/// Whether the packet suits, or a refusal's number.
pub type Suits = Result<bool, u64>;

/// Members, and what their table was opened for.
#[derive(Clone, Copy)]
pub struct SettingsCheck<'a> {
    pub opening: Opening,
    pub members: &'a [Record],
    pub fault: Option<Fault>,
}

impl SettingsCheck<'_> {
    pub fn answer(&self, query: &Query) -> Suits {
        let mut refusals = REFUSALS;
        if let Some(Fault::Swapped(first)) = self.fault {
            let place = refusals.iter().position(|&number| number == first);
            let place = place.expect("a refusal with another behind it");
            refusals.swap(place, place + 1);
        }
        let mut refusals = refusals.into_iter();
        match refusals.find(|&number| self.refuses(number, query)) {
            Some(number) => Err(number),
            None => Ok(self.suits(query)),
        }
    }

    fn planted(&self, fault: Fault) -> bool {
        self.fault == Some(fault)
    }

    pub fn rate(&self) -> i128 {
        self.opening.rate.into()
    }

    /// Whether the check of this number applies.
    pub fn refuses(&self, number: u64, query: &Query) -> bool {
        let (settings, reading) = (&query.settings, &query.reading);
        match number {
            11 => i128::from(query.slack) > SLACK_LIMIT + self.more_slack(),
            20 => self.fresh(reading).next().is_none(),
            13 => self.is_foreign(settings),
            15 => !self.is_recent(self.ntp_age(settings.received, reading)),
            16 => !self.is_recent_media(self.rtp_age(settings.rtp, reading)),
            _ => self.is_badly_presented(settings),
        }
    }

    fn more_slack(&self) -> i128 {
        match self.fault {
            Some(Fault::SlackLimit(more)) => more,
            _ => 0,
        }
    }

    /// 13: another group or media source. The sender is not looked at.
    fn is_foreign(&self, settings: &Settings) -> bool {
        let (mut group, mut media) = (settings.group, settings.media);
        if self.planted(Fault::IdentifiersExchanged) {
            (group, media) = (media, group);
        }
        let group = group != self.opening.group && !self.planted(Fault::GroupIgnored);
        let media = media != self.opening.media && !self.planted(Fault::MediaIgnored);
        let of_member = |member: &Record| member.source == settings.sender;
        let sender = match self.fault {
            Some(Fault::SenderZeroRefused) => settings.sender == 0,
            Some(Fault::MemberSenderRefused) => self.members.iter().any(of_member),
            Some(Fault::SenderNotMediaRefused) => settings.sender != settings.media,
            _ => false,
        };
        group || media || sender
    }

    /// Not 15: received within 30 s at or before the reading.
    fn is_recent(&self, ntp_age: i128) -> bool {
        let more = match self.fault {
            Some(Fault::NtpLimit(more)) => more,
            _ => 0,
        };
        (0..=LIMIT + more).contains(&ntp_age)
    }

    /// Not 16: RTP age up to 60 seconds of media clock.
    fn is_recent_media(&self, rtp_age: i128) -> bool {
        let limit = match self.fault {
            Some(Fault::RtpLimit(more)) => 60 * self.rate() + more,
            Some(Fault::RtpLimitWraps) => 60 * self.rate() % SECOND,
            _ => 60 * self.rate(),
        };
        (0..=limit).contains(&rtp_age)
    }

    /// 17: a delay over 30 s, presented 0, or a delay of 0.
    fn is_badly_presented(&self, settings: &Settings) -> bool {
        let more = match self.fault {
            Some(Fault::DelayLimit(more)) => more,
            _ => 0,
        };
        let delay = self.packet_delay(settings);
        let empty = settings.presented == 0 && !self.planted(Fault::PresentedZeroTaken);
        let at_once = delay == 0 && !self.planted(Fault::DelayZeroTaken);
        !(0..=LIMIT + more).contains(&delay) || empty || at_once
    }

    /// (presented − received) modulo 2^64: all bits of both are in the packet.
    pub fn packet_delay(&self, settings: &Settings) -> i128 {
        let (presented, received) = (settings.presented, settings.received);
        match self.fault {
            Some(Fault::DelayPlain) => i128::from(presented) - i128::from(received),
            Some(Fault::PresentedCut) => modulo(presented as u32, received, 64),
            Some(Fault::PresentedShort) => {
                let short = (presented >> 16) as u32;
                self.short_delay(received, short)
            }
            _ => modulo(presented, received, 64),
        }
    }

    /// (N − received) modulo 2^64.
    pub fn ntp_age(&self, received: u64, reading: &Reading) -> i128 {
        match self.planted(Fault::NtpPlain) {
            true => i128::from(reading.ntp) - i128::from(received),
            false => modulo(reading.ntp, received, 64),
        }
    }

    /// (R − RTP) modulo 2^32.
    pub fn rtp_age(&self, rtp: u32, reading: &Reading) -> i128 {
        match self.planted(Fault::RtpPlain) {
            true => i128::from(reading.rtp) - i128::from(rtp),
            false => modulo(reading.rtp, rtp, 32),
        }
    }

    /// The delay of a short presented time: from received to the start of its slot, or
    /// one unit for a step of 0.
    fn short_delay(&self, received: u64, presented: u32) -> i128 {
        let step = modulo(presented, (received >> 16) as u32, 32);
        let low_bits = i128::from(received % (1 << 16));
        match (step, self.fault) {
            (0, Some(Fault::StepZeroFullTurn)) => (1 << 48) - low_bits,
            (0, Some(Fault::StepZeroNoDelay)) => 0,
            (0, _) => 1,
            (step, _) => (step << 16) - low_bits,
        }
    }

    /// The delay of a member's own report.
    pub fn member_delay(&self, report: &ReportFields) -> i128 {
        self.short_delay(report.received, report.presented)
    }

    /// Rate × (delay − NTP age) + RTP age × 2^32.
    fn lateness(&self, received: u64, rtp: u32, delay: i128, reading: &Reading) -> i128 {
        let after = delay - self.ntp_age(received, reading);
        self.kept(self.rate() * after + self.rtp_age(rtp, reading) * SECOND)
    }

    /// All bits, but for the fault.
    fn kept(&self, lateness: i128) -> i128 {
        match self.planted(Fault::LatenessIn64Bits) {
            true => (lateness as i64).into(),
            false => lateness,
        }
    }

    pub fn packet_lateness(&self, query: &Query) -> i128 {
        let settings = &query.settings;
        let delay = self.packet_delay(settings);
        self.lateness(settings.received, settings.rtp, delay, &query.reading)
    }

    /// That of a member's own report, or of its arrival.
    pub fn member_lateness(&self, report: &ReportFields, reading: &Reading, arrival: bool) -> i128 {
        let delay = match arrival {
            true => 0,
            false => self.member_delay(report),
        };
        self.lateness(report.received, report.rtp, delay, reading)
    }

    /// Neither 15 nor 16 would be given for the standing report.
    pub fn is_fresh(&self, report: &ReportFields, reading: &Reading) -> bool {
        let media = self.is_recent_media(self.rtp_age(report.rtp, reading));
        let media = media || self.planted(Fault::MediaAgeIgnored);
        self.is_recent(self.ntp_age(report.received, reading)) && media
    }

    fn fresh(&self, reading: &Reading) -> impl Iterator<Item = &Record> {
        let reading = *reading;
        let members = self.members.iter();
        members.filter(move |member| {
            self.is_fresh(&member.report, &reading) || self.planted(Fault::StaleCounted)
        })
    }

    /// P 1: any value but 0 counts as it.
    pub fn presents(&self, report: &ReportFields) -> bool {
        match self.planted(Fault::OtherPIsZero) {
            true => report.p == 1,
            false => report.p != 0,
        }
    }

    /// Whether fresh members are counted by arrival, as none has P 1.
    pub fn is_arrival(&self, reading: &Reading) -> bool {
        let mut fresh = self.fresh(reading);
        !fresh.any(|member| self.presents(&member.report))
    }

    /// The lateness of each counted member.
    pub fn counted(&self, reading: &Reading) -> Vec<i128> {
        let arrival = self.is_arrival(reading);
        let everyone = arrival || self.planted(Fault::ArrivalCountedToo);
        let counted = self.fresh(reading).filter(|member| {
            let late = self.member_delay(&member.report) > LIMIT;
            let left_out = late && !arrival && self.planted(Fault::LateMembersLeftOut);
            (everyone || self.presents(&member.report)) && !left_out
        });
        let lateness = |member: &Record| {
            let by_arrival = match self.fault {
                Some(Fault::MemberDelayIgnored) => true,
                Some(Fault::DelayInArrival) => false,
                _ => arrival || !self.presents(&member.report),
            };
            self.member_lateness(&member.report, reading, by_arrival)
        };
        counted.map(lateness).collect()
    }

    /// Rate × slack × 2^16.
    pub fn allowance(&self, slack: u32) -> i128 {
        let slack = i128::from(slack);
        match self.fault {
            Some(Fault::SlackInUnits) => self.rate() * slack,
            Some(Fault::SlackWithoutRate) => slack << 16,
            _ => (self.rate() * slack) << 16,
        }
    }

    fn suits(&self, query: &Query) -> bool {
        let counted = self.counted(&query.reading);
        let lateness = self.packet_lateness(query);
        let (mut low, mut high) = (counted.iter().max(), counted.iter().max());
        match self.fault {
            Some(Fault::LeastCompared) => (low, high) = (counted.iter().min(), low),
            Some(Fault::SlackFromLeast) => high = counted.iter().min(),
            Some(Fault::FirstCompared) => (low, high) = (counted.first(), counted.first()),
            _ => {}
        }
        let (low_more, high_more) = match self.fault {
            Some(Fault::Lower(more)) => (more, 0),
            Some(Fault::Upper(more)) => (0, more),
            _ => (0, 0),
        };
        let (Some(low), Some(high)) = (low, high) else {
            return false;
        };
        let most = self.kept(high + self.allowance(query.slack));
        low + low_more <= lateness && lateness <= most + high_more
    }
}

/// The difference of two times modulo 2^bits.
fn modulo(to: impl Into<i128>, from: impl Into<i128>, bits: u32) -> i128 {
    (to.into() - from.into()).rem_euclid(1 << bits)
}
