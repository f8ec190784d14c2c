//! The independent burst: checks 23 and 24, then each report as a single call, in
//! list order. Whose calls these are, the register's or the intake's, it is told.
//!
//! As in the decoder, a `Fault` plants one error that the comparisons have to
//! find.

use crate::members::{Call, Reading, Record};

/// The most reports of a burst.
pub const BURST_LIMIT: usize = 64;

#[derive(Clone, Copy, Debug, PartialEq, Eq)]
pub enum Fault {
    /// 23 for 64 reports.
    LimitRefused,
    /// A burst of 65 reports is taken.
    LongTaken,
    /// 24 before 23.
    ShortListFirst,
    /// 24 for a list exactly as long as the reports.
    ExactListRefused,
    /// A list one too short is taken, and the last number is lost.
    ShortListTaken,
    /// 24 for an empty list, also where there are no reports.
    EmptyListRefused,
    /// The first report of a refused burst is filed.
    RefusedFiled,
    /// The number of a refused burst goes to the front of the list.
    RefusedListed,
    /// No call behind a report that is refused.
    StoppedAtRefusal,
    /// The burst's number is the first refusal among its reports.
    NumberOfReport,
    /// The last report first; each number goes to its report's place.
    LastFirst,
    /// The list is filled from the last report's place to the first's.
    ListBackwards,
    /// The place behind those of the reports becomes 0.
    PlaceBehindWritten,
    /// All reports are filed under the origin of the first.
    FirstOrigin,
    /// The numbers are those of single calls on the table before the burst.
    CheckedBeforehand,
    /// The 14 of a report in a burst raises no tally.
    TwinsNotCounted,
}

impl Fault {
    pub const ALL: [Fault; 16] = [
        Fault::LimitRefused,
        Fault::LongTaken,
        Fault::ShortListFirst,
        Fault::ExactListRefused,
        Fault::ShortListTaken,
        Fault::EmptyListRefused,
        Fault::RefusedFiled,
        Fault::RefusedListed,
        Fault::StoppedAtRefusal,
        Fault::NumberOfReport,
        Fault::LastFirst,
        Fault::ListBackwards,
        Fault::PlaceBehindWritten,
        Fault::FirstOrigin,
        Fault::CheckedBeforehand,
        Fault::TwinsNotCounted,
    ];
}

/// A side that makes single calls, and how it makes one.
pub struct Taker<'a, S> {
    pub side: &'a mut S,
    pub call: fn(&mut S, &Call) -> u64,
    pub fault: Option<Fault>,
}

impl<S: Clone> Taker<'_, S> {
    /// The burst's number, 0 where it is not refused. Each report's own number goes
    /// to its place in the list.
    pub fn take(&mut self, reports: &[Record], reading: &Reading, list: &mut [u64]) -> u64 {
        match self.refusal(reports.len(), list.len()) {
            Some(number) => self.refuse(number, reports, reading, list),
            None => self.make(reports, reading, list),
        }
    }

    /// 23: more than 64 reports. 24: the list is shorter than the reports. In this
    /// order.
    fn refusal(&self, reports: usize, length: usize) -> Option<u64> {
        let most = match self.fault {
            Some(Fault::LimitRefused) => BURST_LIMIT - 1,
            Some(Fault::LongTaken) => BURST_LIMIT + 1,
            _ => BURST_LIMIT,
        };
        let needed = match self.fault {
            Some(Fault::ExactListRefused) => reports + 1,
            Some(Fault::ShortListTaken) => reports.saturating_sub(1),
            Some(Fault::EmptyListRefused) => reports.max(1),
            _ => reports,
        };
        let long = (reports > most).then_some(23);
        let short = (length < needed).then_some(24);
        match self.fault {
            Some(Fault::ShortListFirst) => short.or(long),
            _ => long.or(short),
        }
    }

    /// No report is tried, and the list is as before.
    fn refuse(
        &mut self,
        number: u64,
        reports: &[Record],
        reading: &Reading,
        list: &mut [u64],
    ) -> u64 {
        match (self.fault, reports.first(), list.first_mut()) {
            (Some(Fault::RefusedFiled), Some(first), _) => {
                (self.call)(self.side, &Call::Report(*first, *reading));
            }
            (Some(Fault::RefusedListed), _, Some(front)) => *front = number,
            _ => {}
        }
        number
    }

    fn make(&mut self, reports: &[Record], reading: &Reading, list: &mut [u64]) -> u64 {
        let checked = self.fault == Some(Fault::CheckedBeforehand);
        let before = checked.then(|| self.side.clone());
        let mut first_refusal = 0;
        for turn in 0..reports.len() {
            let index = match self.fault {
                Some(Fault::LastFirst) => reports.len() - 1 - turn,
                _ => turn,
            };
            let mut told = reports[index];
            if self.fault == Some(Fault::FirstOrigin) {
                told.origin = reports[0].origin;
            }
            let number = self.call(before.as_ref(), &Call::Report(told, *reading));
            self.put(list, index, reports.len(), number);
            if first_refusal == 0 {
                first_refusal = number;
            }
            if number != 0 && self.fault == Some(Fault::StoppedAtRefusal) {
                break;
            }
        }
        match self.fault {
            Some(Fault::NumberOfReport) => first_refusal,
            _ => 0,
        }
    }

    /// A single call, and its number. `before` is the side before the burst, for
    /// the fault that looks at it.
    fn call(&mut self, before: Option<&S>, call: &Call) -> u64 {
        let counted = self.fault != Some(Fault::TwinsNotCounted);
        let kept = (!counted).then(|| self.side.clone());
        let number = (self.call)(self.side, call);
        match (kept, before) {
            // 14 changes nothing but the tally.
            (Some(kept), _) if number == 14 => *self.side = kept,
            (_, Some(before)) => return (self.call)(&mut before.clone(), call),
            _ => {}
        }
        number
    }

    fn put(&self, list: &mut [u64], index: usize, reports: usize, number: u64) {
        let place = match self.fault {
            Some(Fault::ListBackwards) => reports - 1 - index,
            _ => index,
        };
        if let Some(place) = list.get_mut(place) {
            *place = number;
        }
        if self.fault == Some(Fault::PlaceBehindWritten) {
            if let Some(behind) = list.get_mut(reports) {
                *behind = 0;
            }
        }
    }
}
