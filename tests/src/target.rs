//! The target's property, from its definition alone: it asks no counted member
//! for a sample earlier, and every earlier target does.

use crate::members::{Choice, Reading, Record, ReportFields, Target};

const SECOND: i128 = 1 << 32;

/// A slot of 2^-16 s, the unit of a short time.
const SLOT: i128 = 1 << 16;

/// Members at a reading of the sender's clock.
pub struct AtReading<'a> {
    pub rate: u32,
    pub reading: Reading,
    pub members: &'a [Record],
}

/// What a target was like.
#[derive(Debug, PartialEq, Eq)]
pub struct Seen {
    pub by_presentation: bool,
    /// Its moment for the reading's own sample is before the reading.
    pub before: bool,
    /// More than one counted member has its lateness.
    pub tie: bool,
    /// The member to follow is wired.
    pub wired: bool,
    /// Another counted member is wired, and the one to follow has more delay.
    pub beside_wired: bool,
    /// The latest wired member and the latest other are at most a unit apart.
    pub unit_apart: bool,
}

/// A counted member: when it presents the sample that it reported, in units of
/// 1/(rate × 2^32) s after N, and how far before R that sample is.
struct Counted {
    source: u32,
    presents: i128,
    rtp_age: i128,
    /// Counted by presentation, and received in the presented slot: step 0.
    wired: bool,
}

impl Counted {
    /// When it presents the sample whose RTP time is so far past R.
    fn moment(&self, sample: i128) -> i128 {
        self.presents + (self.rtp_age + sample) * SECOND
    }
}

/// A member that is asked for a sample before its own moment.
fn asked_earlier(counted: &[Counted], lateness: i128, sample: i128) -> Option<u32> {
    let moment = lateness + sample * SECOND;
    let mut counted = counted.iter();
    let member = counted.find(|member| moment < member.moment(sample));
    member.map(|member| member.source)
}

impl AtReading<'_> {
    /// What the target was like, nothing where 20 is right, or what is wrong.
    /// The samples are any whole numbers past R.
    pub fn check(&self, choice: &Choice, samples: &[i128]) -> Result<Option<Seen>, String> {
        let by_presentation = self.fresh().any(|member| member.report.p == 1);
        let counted = self.counted(by_presentation);
        match choice {
            Err(20) if counted.is_empty() => Ok(None),
            Err(number) => Err(format!("{number}, with {} to follow", counted.len())),
            Ok(_) if counted.is_empty() => Err(String::from("no member is fresh")),
            Ok(target) => {
                let lateness = self.lateness(target);
                check_least(&counted, lateness, samples)?;
                let tie = count_equals(&counted, lateness, target)? > 1;
                let chosen = |member: &Counted| member.source == target.source;
                let slower = difference(target.presented, target.received) > 1;
                let (wired, other) = (latest(&counted, true), latest(&counted, false));
                let apart = wired.zip(other).map(|(wired, other)| (wired - other).abs());
                Ok(Some(Seen {
                    by_presentation,
                    before: lateness < 0,
                    tie,
                    wired: counted.iter().any(|member| member.wired && chosen(member)),
                    beside_wired: slower && wired.is_some(),
                    unit_apart: apart.is_some_and(|apart| apart <= self.rate.into()),
                }))
            }
        }
    }

    /// Whether a target of some lateness asks a counted member for a sample earlier.
    pub(crate) fn asks_earlier(&self) -> impl Fn(i128, i128) -> bool {
        let by_presentation = self.fresh().any(|member| member.report.p == 1);
        let counted = self.counted(by_presentation);
        move |lateness, sample| asked_earlier(&counted, lateness, sample).is_some()
    }

    fn fresh(&self) -> impl Iterator<Item = &Record> {
        let media = 60 * i128::from(self.rate);
        self.members.iter().filter(move |member| {
            let report = &member.report;
            self.ntp_age(report.received) <= 30 * SECOND && self.rtp_age(report.rtp) <= media
        })
    }

    fn counted(&self, by_presentation: bool) -> Vec<Counted> {
        let counted = self
            .fresh()
            .filter(|member| !by_presentation || member.report.p == 1);
        counted
            .map(|member| {
                let report = &member.report;
                let delay = if by_presentation { delay(report) } else { 0 };
                Counted {
                    source: member.source,
                    presents: i128::from(self.rate) * (delay - self.ntp_age(report.received)),
                    rtp_age: self.rtp_age(report.rtp),
                    wired: by_presentation && slots(report) == 0,
                }
            })
            .collect()
    }

    /// That of the three times in an answer.
    pub fn lateness(&self, target: &Target) -> i128 {
        let delay = match target.presented {
            0 => 0,
            presented => difference(presented, target.received),
        };
        let presents = delay - self.ntp_age(target.received);
        i128::from(self.rate) * presents + self.rtp_age(target.rtp) * SECOND
    }

    fn ntp_age(&self, received: u64) -> i128 {
        difference(self.reading.ntp, received)
    }

    fn rtp_age(&self, rtp: u32) -> i128 {
        (i128::from(self.reading.rtp) - i128::from(rtp)).rem_euclid(1 << 32)
    }
}

/// No sample is asked for earlier, and one unit less would do that.
fn check_least(counted: &[Counted], lateness: i128, samples: &[i128]) -> Result<(), String> {
    for &sample in samples {
        if let Some(source) = asked_earlier(counted, lateness, sample) {
            return Err(format!("{source} is asked for sample {sample} earlier"));
        }
        if asked_earlier(counted, lateness - 1, sample).is_none() {
            return Err(String::from("a target one unit earlier would do"));
        }
    }
    Ok(())
}

/// How many counted members have the lateness by their own reports; the member
/// to follow has to be one of them.
fn count_equals(counted: &[Counted], lateness: i128, target: &Target) -> Result<usize, String> {
    let equals = counted.iter().filter(|member| member.moment(0) == lateness);
    let sources: Vec<u32> = equals.map(|member| member.source).collect();
    match sources.contains(&target.source) {
        true => Ok(sources.len()),
        false => Err(format!("{} is not as late by its report", target.source)),
    }
}

/// The greatest lateness of wired members, or of the others.
fn latest(counted: &[Counted], wired: bool) -> Option<i128> {
    let counted = counted.iter().filter(|member| member.wired == wired);
    counted.map(|member| member.moment(0)).max()
}

/// The full time from one to another, modulo 2^64.
fn difference(to: u64, from: u64) -> i128 {
    (i128::from(to) - i128::from(from)).rem_euclid(1 << 64)
}

/// From the received time's slot of 2^-16 s to the next, or this one, that has the
/// short presented time.
fn slots(report: &ReportFields) -> i128 {
    let own = i128::from(report.received) / SLOT;
    (i128::from(report.presented) - own).rem_euclid(1 << 32)
}

/// From the received time to the start of the presented slot; one unit of 2^-32 s
/// where it was received in that slot.
fn delay(report: &ReportFields) -> i128 {
    match slots(report) {
        0 => 1,
        slots => slots * SLOT - i128::from(report.received) % SLOT,
    }
}
