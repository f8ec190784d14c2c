//! The plain register of document 01: rows of source number, origin and
//! standing report, fed with the calls' arguments alone, and the list of the
//! calls, which tells the tallies.
//!
//! As in the decoder, a `Fault` plants one error that the comparison has to
//! find.

use crate::burst::{self, Taker};
use crate::call_history::{self, Before, CallHistory};
use crate::members::{
    Call, Choice, Member, Opening, Origin, Reading, Record, ReportFields, Target,
};
use crate::settings_check::{Query, SettingsCheck, Suits};
use std::cmp::Reverse;

const SECOND: i128 = 1 << 32;

/// The bytes of an origin: sixteen of the address, two of the port.
const ORIGIN_BYTES: usize = 18;

#[derive(Clone, Copy, Debug, PartialEq, Eq)]
pub enum Fault {
    /// A table is opened for group 0.
    GroupZeroOpened,
    /// A table is opened for group 4,294,967,295.
    LastGroupOpened,
    /// A table is opened for rate 0.
    RateZeroOpened,
    /// A table is opened for rate 192,001.
    FastRateOpened,
    /// A report of another group is taken.
    GroupIgnored,
    /// A report of another media source is taken.
    MediaIgnored,
    /// A report is filed without check 14.
    OriginUnchecked,
    /// Origins are equal when their addresses are.
    PortIgnored,
    /// Origins are equal when all bytes but this one are.
    OriginByteIgnored(usize),
    /// A report's check of this number comes after the next one.
    Swapped(u64),
    /// NTP times are compared as plain numbers.
    NtpPlain,
    /// RTP times are compared as plain numbers.
    RtpPlain,
    /// The greatest NTP age is so many units more.
    NtpLimit(i128),
    /// The greatest RTP age is so many units more.
    RtpLimit(i128),
    /// The greatest delay is so many units more.
    DelayLimit(i128),
    /// A step of 0 is a full turn: it is read as 2^32.
    StepZeroFullTurn,
    /// A step of 0 has delay 0, though it expands to one unit after received.
    StepZeroNoDelay,
    /// A step of 0 expands to received itself, though its delay is 1.
    StepZeroUnmoved,
    /// For a step of 0, the unit after the last full time does not wrap to 0.
    StepZeroNotWrapped,
    /// For a step of 0, the unit is added to received with low 16 bits cleared.
    StepZeroLowBitsCleared,
    /// An expanded presentation of 0 is taken.
    ExpandedZeroTaken,
    /// Check 17 also where P is 0.
    SeventeenWithoutP,
    /// So many rows instead of 64.
    Rows(usize),
    /// Later reports of a member are accepted, and the first stays.
    FirstReportStands,
    /// A report received earlier than the standing one is accepted only.
    EarlierReportDropped,
    /// A report is filed even where 17 refuses it.
    RefusedReportFiled,
    /// A farewell from another origin removes the holder.
    TwinFarewellRemoves,
    /// A farewell is accepted, and the member stays.
    FarewellKeepsRow,
    /// A farewell from a number not held is accepted.
    UnheldFarewellTaken,
    /// A sweep keeps the last row, fresh or not.
    SweepKeepsStale,
    /// A sweep takes out the first row, fresh or not.
    SweepClearsFresh,
    /// Members that are not fresh are counted.
    StaleCounted,
    /// Arrival members are counted beside presentation ones.
    ArrivalCountedToo,
    /// RTP ages are rounded to milliseconds.
    RtpInMilliseconds,
    /// Lateness without the delay.
    DelayIgnored,
    /// The least lateness is chosen.
    EarliestChosen,
    /// Among equals, the highest source number is chosen.
    HighestOnTie,
    /// Among equals, the greatest tally is chosen.
    GreatestTallyOnTie,
    /// Among equals, the least tally is chosen.
    LeastTallyOnTie,
    /// One more is counted than there are.
    CountOneMore,
    /// The presented time is not expanded.
    PresentedShort,
    /// The presented time is the received one in arrival mode.
    PresentedInArrival,
    /// The tallies err.
    CallHistory(call_history::Fault),
    /// Bursts err.
    Burst(burst::Fault),
}

impl Fault {
    /// Those that err in one way, or by one unit more or less.
    const PLAIN: [Fault; 44] = [
        Fault::GroupZeroOpened,
        Fault::LastGroupOpened,
        Fault::RateZeroOpened,
        Fault::FastRateOpened,
        Fault::GroupIgnored,
        Fault::MediaIgnored,
        Fault::OriginUnchecked,
        Fault::PortIgnored,
        Fault::NtpPlain,
        Fault::RtpPlain,
        Fault::NtpLimit(-1),
        Fault::NtpLimit(1),
        Fault::RtpLimit(-1),
        Fault::RtpLimit(1),
        Fault::DelayLimit(-1),
        Fault::DelayLimit(1),
        Fault::StepZeroFullTurn,
        Fault::StepZeroNoDelay,
        Fault::StepZeroUnmoved,
        Fault::StepZeroNotWrapped,
        Fault::StepZeroLowBitsCleared,
        Fault::ExpandedZeroTaken,
        Fault::SeventeenWithoutP,
        Fault::Rows(63),
        Fault::Rows(65),
        Fault::FirstReportStands,
        Fault::EarlierReportDropped,
        Fault::RefusedReportFiled,
        Fault::TwinFarewellRemoves,
        Fault::FarewellKeepsRow,
        Fault::UnheldFarewellTaken,
        Fault::SweepKeepsStale,
        Fault::SweepClearsFresh,
        Fault::StaleCounted,
        Fault::ArrivalCountedToo,
        Fault::RtpInMilliseconds,
        Fault::DelayIgnored,
        Fault::EarliestChosen,
        Fault::HighestOnTie,
        Fault::GreatestTallyOnTie,
        Fault::LeastTallyOnTie,
        Fault::CountOneMore,
        Fault::PresentedShort,
        Fault::PresentedInArrival,
    ];

    /// All but those of the tallies and of bursts.
    pub fn all() -> Vec<Fault> {
        let swaps = (13..18).map(Fault::Swapped);
        let bytes = (0..ORIGIN_BYTES).map(Fault::OriginByteIgnored);
        let plain = Fault::PLAIN.into_iter();
        plain.chain(swaps).chain(bytes).collect()
    }
}

#[derive(Clone, Debug)]
pub struct Register {
    opening: Opening,
    rows: Vec<Record>,
    calls: CallHistory,
    fault: Option<Fault>,
}

impl Register {
    /// The register without rows, or 12.
    pub fn open(opening: &Opening, fault: Option<Fault>) -> Result<Register, u64> {
        let calls_fault = match fault {
            Some(Fault::CallHistory(fault)) => Some(fault),
            _ => None,
        };
        let register = Register {
            opening: *opening,
            rows: Vec::new(),
            calls: CallHistory::new(calls_fault),
            fault,
        };
        match register.opens() {
            true => Ok(register),
            false => Err(12),
        }
    }

    /// Refusal 12: group 0 or 4,294,967,295, or rate outside 1 to 192,000.
    fn opens(&self) -> bool {
        let group = match self.opening.group {
            0 => self.planted(Fault::GroupZeroOpened),
            4_294_967_295 => self.planted(Fault::LastGroupOpened),
            _ => true,
        };
        let rate = match self.opening.rate {
            0 => self.planted(Fault::RateZeroOpened),
            1..=192_000 => true,
            192_001 => self.planted(Fault::FastRateOpened),
            _ => false,
        };
        group && rate
    }

    fn planted(&self, fault: Fault) -> bool {
        self.fault == Some(fault)
    }

    pub fn rows(&self) -> &[Record] {
        &self.rows
    }

    /// Each row with its tally.
    pub fn members(&self) -> Vec<Member> {
        let rows = self.rows.iter();
        rows.map(|row| self.member(row)).collect()
    }

    /// The member with this number.
    pub fn member_of(&self, source: u32) -> Option<Member> {
        self.row(source).map(|row| self.member(row))
    }

    fn member(&self, row: &Record) -> Member {
        Member {
            record: *row,
            tally: self.tally(row.source),
        }
    }

    /// Of a member, or of the last one with this number.
    pub fn tally(&self, source: u32) -> u32 {
        self.calls.tally(source)
    }

    /// As if this number, where a row has it, had been refused with 14 so often
    /// since its member joined.
    pub fn set_tally(&mut self, source: u32, tally: u32) {
        if self.row(source).is_some() {
            self.calls.set_tally(source, tally);
        }
    }

    /// The refusal's number, or 0 where there is none.
    pub fn call(&mut self, call: &Call) -> u64 {
        let before = Before {
            held: call
                .source()
                .is_some_and(|source| self.row(source).is_some()),
            first: self.rows.first().map(|row| row.source),
        };
        let number = match call {
            Call::Report(told, reading) => self.report(told, reading),
            Call::Farewell(source, origin) => self.farewell(*source, origin),
            Call::Sweep(reading) => self.sweep(reading),
        };
        self.calls.add(call, number, &before);
        number
    }

    /// The burst's number; those of its reports go to the list.
    pub fn burst(&mut self, reports: &[Record], reading: &Reading, list: &mut [u64]) -> u64 {
        let fault = match self.fault {
            Some(Fault::Burst(fault)) => Some(fault),
            _ => None,
        };
        let call = Register::call;
        let side = self;
        Taker { side, call, fault }.take(reports, reading, list)
    }

    fn report(&mut self, told: &Record, reading: &Reading) -> u64 {
        let mut checks = [13, 14, 15, 16, 17, 18];
        if let Some(Fault::Swapped(number)) = self.fault {
            checks.swap(number as usize - 13, number as usize - 12);
        }
        let refusal = checks
            .into_iter()
            .find(|&number| self.refuses(number, told, reading));
        match refusal {
            None => self.file(told),
            Some(17) if self.planted(Fault::RefusedReportFiled) => self.file(told),
            Some(_) => {}
        }
        refusal.unwrap_or(0)
    }

    /// Whether the check of this number applies to a report.
    fn refuses(&self, number: u64, told: &Record, reading: &Reading) -> bool {
        match number {
            13 => self.is_foreign(&told.report),
            14 => self.is_twin(told),
            15 => self.is_old(&told.report, reading),
            16 => self.is_old_media(&told.report, reading),
            17 => self.is_late(&told.report),
            _ => self.is_surplus(told.source),
        }
    }

    /// 13: another group or media source.
    fn is_foreign(&self, report: &ReportFields) -> bool {
        let group = report.group != self.opening.group && !self.planted(Fault::GroupIgnored);
        let media = report.media != self.opening.media && !self.planted(Fault::MediaIgnored);
        group || media
    }

    /// 14: a row has its number with another origin.
    fn is_twin(&self, told: &Record) -> bool {
        let elsewhere = |row: &Record| !self.same_origin(&row.origin, &told.origin);
        !self.planted(Fault::OriginUnchecked) && self.row(told.source).is_some_and(elsewhere)
    }

    /// 15: received not within 30 s at or before the reading.
    fn is_old(&self, report: &ReportFields, reading: &Reading) -> bool {
        let more = match self.fault {
            Some(Fault::NtpLimit(more)) => more,
            _ => 0,
        };
        !(0..=30 * SECOND + more).contains(&self.ntp_age(report, reading))
    }

    /// 16: RTP age above 60 seconds of media clock.
    fn is_old_media(&self, report: &ReportFields, reading: &Reading) -> bool {
        let more = match self.fault {
            Some(Fault::RtpLimit(more)) => more,
            _ => 0,
        };
        let limit = 60 * i128::from(self.opening.rate) + more;
        !(0..=limit).contains(&self.rtp_age(report, reading))
    }

    /// 17, only where P is 1: delay over 30 s, or expanded presentation 0.
    fn is_late(&self, report: &ReportFields) -> bool {
        let more = match self.fault {
            Some(Fault::DelayLimit(more)) => more,
            _ => 0,
        };
        let looked_at = report.p == 1 || self.planted(Fault::SeventeenWithoutP);
        let zero = self.expanded(report) == 0 && !self.planted(Fault::ExpandedZeroTaken);
        looked_at && (self.delay(report) > 30 * SECOND + more || zero)
    }

    /// 18: no row has its number, and there are 64 rows.
    fn is_surplus(&self, source: u32) -> bool {
        let most = match self.fault {
            Some(Fault::Rows(most)) => most,
            _ => 64,
        };
        self.row(source).is_none() && self.rows.len() >= most
    }

    fn row(&self, source: u32) -> Option<&Record> {
        self.rows.iter().find(|row| row.source == source)
    }

    /// Replaces the report in its number's row, or makes a new row.
    fn file(&mut self, told: &Record) {
        let first = self.planted(Fault::FirstReportStands);
        let newest = self.planted(Fault::EarlierReportDropped);
        let row = self.rows.iter_mut().find(|row| row.source == told.source);
        match row {
            None => self.rows.push(*told),
            Some(_) if first => {}
            Some(row) if newest && told.report.received < row.report.received => {}
            Some(row) => row.report = told.report,
        }
    }

    fn farewell(&mut self, source: u32, origin: &Origin) -> u64 {
        let Some(row) = self.row(source) else {
            return if self.planted(Fault::UnheldFarewellTaken) {
                0
            } else {
                19
            };
        };
        let holds = self.same_origin(&row.origin, origin);
        if !holds && !self.planted(Fault::TwinFarewellRemoves) {
            return 14;
        }
        if !self.planted(Fault::FarewellKeepsRow) {
            self.rows.retain(|row| row.source != source);
        }
        0
    }

    /// Takes out each row not fresh, and is never refused.
    fn sweep(&mut self, reading: &Reading) -> u64 {
        let last = self.rows.len().wrapping_sub(1);
        let stays = |place: usize, row: &Record| match self.fault {
            Some(Fault::SweepKeepsStale) if place == last => true,
            Some(Fault::SweepClearsFresh) if place == 0 => false,
            _ => self.is_fresh(&row.report, reading),
        };
        let rows = self.rows.iter().enumerate();
        self.rows = rows
            .filter(|(place, row)| stays(*place, row))
            .map(|(_, row)| *row)
            .collect();
        0
    }

    /// Neither 15 nor 16 would be given at this reading.
    fn is_fresh(&self, report: &ReportFields, reading: &Reading) -> bool {
        !self.is_old(report, reading) && !self.is_old_media(report, reading)
    }

    /// All eighteen bytes are equal.
    fn same_origin(&self, one: &Origin, other: &Origin) -> bool {
        let (one, other) = (origin_bytes(one), origin_bytes(other));
        let ignored = |place: usize| match self.fault {
            Some(Fault::PortIgnored) => place >= 16,
            Some(Fault::OriginByteIgnored(byte)) => place == byte,
            _ => false,
        };
        (0..ORIGIN_BYTES).all(|place| one[place] == other[place] || ignored(place))
    }

    /// (N − received) modulo 2^64.
    fn ntp_age(&self, report: &ReportFields, reading: &Reading) -> i128 {
        match self.planted(Fault::NtpPlain) {
            true => i128::from(reading.ntp) - i128::from(report.received),
            false => reading.ntp.wrapping_sub(report.received).into(),
        }
    }

    /// (R − RTP) modulo 2^32.
    fn rtp_age(&self, report: &ReportFields, reading: &Reading) -> i128 {
        match self.planted(Fault::RtpPlain) {
            true => i128::from(reading.rtp) - i128::from(report.rtp),
            false => reading.rtp.wrapping_sub(report.rtp).into(),
        }
    }

    /// The expanded presentation before wrapping. A step of 0 is one unit after
    /// received. Any other is received with its low 16 bits cleared, plus
    /// step × 2^16.
    fn presentation(&self, report: &ReportFields) -> i128 {
        let received = i128::from(report.received);
        let cleared = received >> 16 << 16;
        match (step(report.received, report.presented), self.fault) {
            (0, Some(Fault::StepZeroFullTurn)) => cleared + (1 << 48),
            (0, Some(Fault::StepZeroLowBitsCleared)) => cleared + 1,
            (0, _) => received + 1,
            (step, _) => cleared + (i128::from(step) << 16),
        }
    }

    /// The presentation modulo 2^64.
    fn expanded(&self, report: &ReportFields) -> u64 {
        let presentation = self.presentation(report);
        match (step(report.received, report.presented), self.fault) {
            (0, Some(Fault::StepZeroUnmoved)) => report.received,
            (0, Some(Fault::StepZeroNotWrapped)) => presentation.min(u64::MAX.into()) as u64,
            _ => presentation as u64,
        }
    }

    /// From received to the presentation before wrapping.
    fn delay(&self, report: &ReportFields) -> i128 {
        match (step(report.received, report.presented), self.fault) {
            (0, Some(Fault::StepZeroNoDelay)) => 0,
            _ => self.presentation(report) - i128::from(report.received),
        }
    }

    /// Whether a settings packet suits the rows.
    pub fn check_settings(&self, query: &Query) -> Suits {
        let check = SettingsCheck {
            opening: self.opening,
            members: &self.rows,
            fault: None,
        };
        check.answer(query)
    }

    /// The member to follow at a reading, or 20.
    pub fn choose(&self, reading: &Reading) -> Choice {
        self.choose_by(reading, |source| source)
    }

    /// The same, where the number with the lowest key is chosen among equals.
    pub fn choose_by(&self, reading: &Reading, key: impl Fn(u32) -> u32) -> Choice {
        let fresh: Vec<&Record> = self
            .rows
            .iter()
            .filter(|row| self.is_fresh(&row.report, reading) || self.planted(Fault::StaleCounted))
            .collect();
        let presents = |row: &&Record| row.report.p == 1;
        let by_presentation = fresh.iter().any(presents);
        let everyone = !by_presentation || self.planted(Fault::ArrivalCountedToo);
        let counted = fresh.into_iter().filter(|row| everyone || presents(row));
        let counted: Vec<&Record> = counted.collect();
        let chosen = counted.iter().max_by_key(|row| {
            let lateness = self.lateness(&row.report, reading, by_presentation);
            self.rank(lateness, row.source, key(row.source))
        });
        let chosen = chosen.ok_or(20u64)?;
        let count = counted.len() as u32 + u32::from(self.planted(Fault::CountOneMore));
        Ok(self.target(chosen, by_presentation, count))
    }

    /// The greatest is chosen: greater lateness, then lower key. The number between
    /// them is always 0, but for the faults.
    fn rank(&self, lateness: i128, source: u32, key: u32) -> (i128, i64, Reverse<u32>) {
        let tally = || i64::from(self.tally(source));
        match self.fault {
            Some(Fault::EarliestChosen) => (-lateness, 0, Reverse(key)),
            Some(Fault::HighestOnTie) => (lateness, 0, Reverse(!key)),
            Some(Fault::GreatestTallyOnTie) => (lateness, tally(), Reverse(key)),
            Some(Fault::LeastTallyOnTie) => (lateness, -tally(), Reverse(key)),
            _ => (lateness, 0, Reverse(key)),
        }
    }

    /// rate × (delay − NTP age) + RTP age × 2^32; in arrival mode the delay
    /// is 0.
    fn lateness(&self, report: &ReportFields, reading: &Reading, by_presentation: bool) -> i128 {
        let rate = i128::from(self.opening.rate);
        let delay = match by_presentation && report.p == 1 && !self.planted(Fault::DelayIgnored) {
            true => self.delay(report),
            false => 0,
        };
        let age = self.rtp_age(report, reading);
        let media = match self.planted(Fault::RtpInMilliseconds) {
            true => age * 1000 / rate * rate * SECOND / 1000,
            false => age * SECOND,
        };
        rate * (delay - self.ntp_age(report, reading)) + media
    }

    /// The settings fields of the chosen row's own report.
    fn target(&self, chosen: &Record, by_presentation: bool, counted: u32) -> Target {
        let report = &chosen.report;
        let presented = match by_presentation {
            true if self.planted(Fault::PresentedShort) => report.presented.into(),
            true => self.expanded(report),
            false if self.planted(Fault::PresentedInArrival) => report.received,
            false => 0,
        };
        Target {
            source: chosen.source,
            group: report.group,
            media: report.media,
            received: report.received,
            rtp: report.rtp,
            presented,
            counted,
        }
    }
}

/// (presented − M) modulo 2^32, where M is bits 16 to 47 of received.
pub(crate) fn step(received: u64, presented: u32) -> u32 {
    let m = (received >> 16) as u32;
    presented.wrapping_sub(m)
}

fn origin_bytes(origin: &Origin) -> [u8; ORIGIN_BYTES] {
    let mut bytes = [0; ORIGIN_BYTES];
    bytes[..16].copy_from_slice(&origin.address);
    bytes[16..].copy_from_slice(&origin.port.to_be_bytes());
    bytes
}
