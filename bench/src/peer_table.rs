//! A member table for one synchronization group, after document 01, that is
//! changed in place. It keeps 64 places and a word of places held.

use prunepocket_sys::{Origin, Reading, Settings, Target};

/// Places in a table.
pub const PLACES: usize = 64;

/// One second of a full time, in units of 2^-32 s.
const SECOND: u64 = 1 << 32;

/// The greatest NTP age (15) and the greatest presentation delay (17).
const LIMIT: u64 = 30 * SECOND;

/// The greatest slack (11), in units of 2^-16 s.
const SLACK_LIMIT: u32 = 30 << 16;

/// The fields of a report item; `presented` is the short time.
#[derive(Clone, Copy, PartialEq, Eq, Debug)]
pub struct Report {
    pub sender: u32,
    pub payload_type: u8,
    pub p: bool,
    pub group: u32,
    pub media: u32,
    pub received: u64,
    pub rtp: u32,
    pub presented: u32,
}

/// A report with its source number and its origin.
#[derive(Clone, Copy, PartialEq, Eq, Debug)]
pub struct Record {
    pub source: u32,
    pub origin: Origin,
    pub report: Report,
}

/// A member: the record that it stands on, and how often its number was refused with
/// 14 since it joined.
#[derive(Clone, Copy, PartialEq, Eq, Debug)]
pub struct Member {
    pub record: Record,
    pub tally: u32,
}

/// What stands in a place before its first member.
const BLANK: Member = Member {
    record: Record {
        source: 0,
        origin: Origin {
            address: [0; 16],
            port: 0,
        },
        report: Report {
            sender: 0,
            payload_type: 0,
            p: false,
            group: 0,
            media: 0,
            received: 0,
            rtp: 0,
            presented: 0,
        },
    },
    tally: 0,
};

/// The places whose bits are set in a word, lowest first.
struct Ones(u64);

impl Iterator for Ones {
    type Item = usize;

    fn next(&mut self) -> Option<usize> {
        if self.0 == 0 {
            return None;
        }
        let place = self.0.trailing_zeros() as usize;
        self.0 &= self.0 - 1;
        Some(place)
    }
}

impl Report {
    /// What a settings packet shares with a report; its presented time is a full one.
    fn of_settings(settings: &Settings) -> Report {
        Report {
            sender: settings.sender,
            group: settings.group,
            media: settings.media,
            received: settings.received,
            rtp: settings.rtp,
            ..BLANK.record.report
        }
    }

    /// NTP age: (N - received) modulo 2^64.
    fn ntp_age(&self, reading: &Reading) -> u64 {
        reading.ntp.wrapping_sub(self.received)
    }

    /// RTP age: (R - RTP) modulo 2^32.
    fn rtp_age(&self, reading: &Reading) -> u32 {
        reading.rtp.wrapping_sub(self.rtp)
    }

    /// (presented - M) modulo 2^32, M being bits 16 to 47 of received.
    fn step(&self) -> u32 {
        let middle = (self.received >> 16) as u32;
        self.presented.wrapping_sub(middle)
    }

    /// Expanded minus received before wrapping, at least 1 and below 2^48. A step of 0 is one unit,
    /// and any other counts from received with its low 16 bits cleared.
    fn delay(&self) -> u64 {
        match self.step() {
            0 => 1,
            step => (u64::from(step) << 16) - (self.received & 0xFFFF),
        }
    }

    /// The expanded presentation: the delay after received, modulo 2^64.
    fn expanded(&self) -> u64 {
        self.received.wrapping_add(self.delay())
    }

    /// Refusal 15: received is not within 30 s at or before the reading.
    fn check_received(&self, reading: &Reading) -> Result<(), u64> {
        if self.ntp_age(reading) > LIMIT {
            Err(15)
        } else {
            Ok(())
        }
    }

    /// Refusal 16: the RTP age is above 60 s of media clock.
    /// The product fits, as an opened table's rate is at most 192,000.
    fn check_rtp(&self, reading: &Reading, rate: u32) -> Result<(), u64> {
        if self.rtp_age(reading) > 60 * rate {
            Err(16)
        } else {
            Ok(())
        }
    }

    /// Refusal 17, only where P is 1: a delay over 30 s, or an expanded presentation of 0.
    fn check_presentation(&self) -> Result<(), u64> {
        if self.p && (self.delay() > LIMIT || self.expanded() == 0) {
            Err(17)
        } else {
            Ok(())
        }
    }

    /// Fresh: neither 15 nor 16 would be given at this reading.
    fn is_fresh(&self, reading: &Reading, rate: u32) -> bool {
        self.check_received(reading).is_ok() && self.check_rtp(reading, rate).is_ok()
    }

    /// Lateness under a delay: rate x (delay - NTP age) + RTP age x 2^32.
    ///
    /// An i64 holds it for a fresh member of an opened table. The rate is at most 192,000.
    /// The NTP age (15) and the delay (17, or 0 in arrival mode) are at most 30 x 2^32, so the
    /// first term lies within 5,760,000 x 2^32 of 0. The RTP age (16) is at most 11,520,000.
    /// The sum lies between -5,760,000 x 2^32 and 17,280,000 x 2^32, which is below 2^57.
    fn lateness(&self, delay: u64, reading: &Reading, rate: u32) -> i64 {
        let ahead = delay as i64 - self.ntp_age(reading) as i64;
        i64::from(rate) * ahead + (i64::from(self.rtp_age(reading)) << 32)
    }
}

/// The member table. A place not marked in `held` has no member, whatever stands there.
#[derive(Clone, Debug)]
pub struct Table {
    group: u32,
    media: u32,
    rate: u32,
    held: u64,
    places: [Member; PLACES],
}

impl Table {
    /// Opens a table without members; 12 for group 0 or 4,294,967,295 or a rate out of range.
    pub fn open(group: u32, media: u32, rate: u32) -> Result<Table, u64> {
        if group == 0 || group == u32::MAX || !(1..=192_000).contains(&rate) {
            return Err(12);
        }
        Ok(Table {
            group,
            media,
            rate,
            held: 0,
            places: [BLANK; PLACES],
        })
    }

    /// Files a report under its source number, or refuses it with the first of 13 to 18.
    pub fn report(&mut self, record: &Record, reading: &Reading) -> Result<(), u64> {
        let report = &record.report;
        self.check_subject(report)?;
        let own = self.held_by(record.source, &record.origin);
        let own = own.map_err(|place| self.refuse_twin(place))?;
        report.check_received(reading)?;
        report.check_rtp(reading, self.rate)?;
        report.check_presentation()?;
        match own {
            Some(place) => self.places[place].record = *record,
            None => {
                let place = self.free_place()?;
                let (record, tally) = (*record, 0);
                self.places[place] = Member { record, tally };
                self.held |= 1 << place;
            }
        }
        Ok(())
    }

    /// Removes the member if its origin holds the number; otherwise 19 or 14.
    pub fn farewell(&mut self, source: u32, origin: &Origin) -> Result<(), u64> {
        let own = self.held_by(source, origin);
        let own = own.map_err(|place| self.refuse_twin(place))?;
        let place = own.ok_or(19u64)?;
        self.held &= !(1 << place);
        Ok(())
    }

    /// Removes every member not fresh at the reading.
    pub fn sweep(&mut self, reading: &Reading) {
        self.held = self.fresh(reading);
    }

    /// Chooses the greatest lateness and, among equals, the lowest source; 20 if none is fresh.
    pub fn choose(&self, reading: &Reading) -> Result<Target, u64> {
        let fresh = self.fresh(reading);
        let presenting = self.presenting(fresh);
        let arrival = presenting == 0;
        let counted = if arrival { fresh } else { presenting };
        let chosen = self.latest(counted, arrival, reading).ok_or(20u64)?;
        let report = &chosen.report;
        Ok(Target {
            source: chosen.source,
            group: report.group,
            media: report.media,
            received: report.received,
            rtp: report.rtp,
            presented: if arrival { 0 } else { report.expanded() },
            counted: counted.count_ones(),
        })
    }

    /// Whether a settings packet is as late as the latest member or later, by the slack at most; or
    /// the first of 11, 20, 13, 15, 16 and 17.
    pub fn check_settings(
        &self,
        settings: &Settings,
        reading: &Reading,
        slack: u32,
    ) -> Result<bool, u64> {
        if slack > SLACK_LIMIT {
            return Err(11);
        }
        let fresh = self.fresh(reading);
        if fresh == 0 {
            return Err(20);
        }
        let packet = Report::of_settings(settings);
        self.check_subject(&packet)?;
        packet.check_received(reading)?;
        packet.check_rtp(reading, self.rate)?;
        let delay = settings.presented.wrapping_sub(settings.received);
        if settings.presented == 0 || delay == 0 || delay > LIMIT {
            return Err(17);
        }
        let presenting = self.presenting(fresh);
        let arrival = presenting == 0;
        let counted = if arrival { fresh } else { presenting };
        let excess =
            packet.lateness(delay, reading, self.rate) - self.greatest(counted, arrival, reading);
        let allowance = i64::from(self.rate) * (i64::from(slack) << 16);
        Ok((0..=allowance).contains(&excess))
    }

    /// How many members there are.
    pub fn count(&self) -> u32 {
        self.held.count_ones()
    }

    /// The member at a place; none where the place is free or not below 64.
    pub fn member_at(&self, place: usize) -> Option<&Member> {
        if place < PLACES && (self.held >> place) & 1 == 1 {
            Some(&self.places[place])
        } else {
            None
        }
    }

    /// Refusal 13: a report of another group or media source.
    fn check_subject(&self, report: &Report) -> Result<(), u64> {
        if report.group == self.group && report.media == self.media {
            Ok(())
        } else {
            Err(13)
        }
    }

    /// The place that holds the number, if any; as an error where another origin holds it.
    fn held_by(&self, source: u32, origin: &Origin) -> Result<Option<usize>, usize> {
        match Ones(self.held).find(|&place| self.places[place].record.source == source) {
            Some(place) if self.places[place].record.origin != *origin => Err(place),
            own => Ok(own),
        }
    }

    /// Refusal 14: the tally of the member at this place is one more, up to 4294967295.
    fn refuse_twin(&mut self, place: usize) -> u64 {
        let tally = &mut self.places[place].tally;
        *tally = tally.saturating_add(1);
        14
    }

    /// The lowest free place; 18 where all are held.
    fn free_place(&self) -> Result<usize, u64> {
        let place = (!self.held).trailing_zeros() as usize;
        if place < PLACES {
            Ok(place)
        } else {
            Err(18)
        }
    }

    /// The held places whose members are fresh at the reading.
    fn fresh(&self, reading: &Reading) -> u64 {
        self.select(self.held, |report| report.is_fresh(reading, self.rate))
    }

    /// Of these places, those whose report has P 1.
    fn presenting(&self, among: u64) -> u64 {
        self.select(among, |report| report.p)
    }

    /// Of these places, those whose report meets the condition.
    fn select(&self, among: u64, meets: impl Fn(&Report) -> bool) -> u64 {
        Ones(among).fold(0, |word, place| {
            word | (u64::from(meets(&self.places[place].record.report)) << place)
        })
    }

    /// The greatest lateness at these places.
    fn greatest(&self, among: u64, arrival: bool, reading: &Reading) -> i64 {
        Ones(among).fold(i64::MIN, |greatest, place| {
            let report = &self.places[place].record.report;
            let delay = if arrival { 0 } else { report.delay() };
            greatest.max(report.lateness(delay, reading, self.rate))
        })
    }

    /// Of these places, the member with the greatest lateness and then the lowest source.
    fn latest(&self, among: u64, arrival: bool, reading: &Reading) -> Option<&Record> {
        let mut best: Option<(i64, &Record)> = None;
        for place in Ones(among) {
            let member = &self.places[place].record;
            let delay = if arrival { 0 } else { member.report.delay() };
            let lateness = member.report.lateness(delay, reading, self.rate);
            let later = match best {
                None => true,
                Some((most, held)) => {
                    lateness > most || (lateness == most && member.source < held.source)
                }
            };
            if later {
                best = Some((lateness, member));
            }
        }
        best.map(|(_, member)| member)
    }
}
