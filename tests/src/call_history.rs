//! The calls under each source number with the answers that they got, and a
//! member's tally from its definition over them: it is counted whenever it is
//! looked at.
//!
//! As in the decoder, a `Fault` plants one error that the comparisons have to
//! find.

use crate::members::Call;
use std::collections::HashMap;

/// Where the tally stops.
pub const TALLY_LIMIT: u32 = 4_294_967_295;

/// The answer that the tally counts.
const TWIN: u64 = 14;

#[derive(Clone, Copy, Debug, PartialEq, Eq)]
pub enum Fault {
    /// This answer is counted too.
    AlsoCounted(u64),
    /// The 14 of a report is not counted.
    ReportNotCounted,
    /// The 14 of a farewell is not counted.
    FarewellNotCounted,
    /// A number keeps its tally where its member left by farewell.
    KeptAfterFarewell,
    /// A number keeps its tally where a sweep took its member out.
    KeptAfterSweep,
    /// The member's own accepted report starts the tally anew.
    ResetByReport,
    /// The first row's tally is raised, whoever holds the number.
    RaisedElsewhere,
    /// The tally is counted modulo 2^32.
    Wraps,
    /// The tally stops one before the limit.
    StopsEarly,
}

impl Fault {
    /// Those that calls alone can show.
    pub const ALL: [Fault; 10] = [
        Fault::AlsoCounted(13),
        Fault::AlsoCounted(15),
        Fault::AlsoCounted(16),
        Fault::AlsoCounted(17),
        Fault::ReportNotCounted,
        Fault::FarewellNotCounted,
        Fault::KeptAfterFarewell,
        Fault::KeptAfterSweep,
        Fault::ResetByReport,
        Fault::RaisedElsewhere,
    ];

    /// Those that only a tally near the limit shows.
    pub const AT_LIMIT: [Fault; 2] = [Fault::Wraps, Fault::StopsEarly];
}

#[derive(Clone, Copy, Debug, PartialEq, Eq)]
enum Kind {
    /// An accepted report whose number had no row before it.
    Joining,
    Report,
    Farewell,
}

/// A call, and the answer that it got.
#[derive(Clone, Copy, Debug)]
struct Entry {
    kind: Kind,
    number: u64,
    /// How many such calls in turn it stands for.
    times: u64,
}

impl Entry {
    fn left(&self) -> bool {
        self.kind == Kind::Farewell && self.number == 0
    }
}

/// What was known before a call.
pub struct Before {
    /// Whether its number had a row.
    pub held: bool,
    /// The number of the first row.
    pub first: Option<u32>,
}

#[derive(Clone, Debug)]
pub struct CallHistory {
    under: HashMap<u32, Vec<Entry>>,
    fault: Option<Fault>,
}

impl CallHistory {
    pub fn new(fault: Option<Fault>) -> Self {
        let under = HashMap::new();
        CallHistory { under, fault }
    }

    fn planted(&self, fault: Fault) -> bool {
        self.fault == Some(fault)
    }

    /// A call that was made, and its answer. A sweep has no number.
    pub fn add(&mut self, call: &Call, number: u64, before: &Before) {
        let Some(source) = call.source() else {
            return;
        };
        let kind = match call {
            Call::Report(..) if number == 0 && !before.held => self.joining(source),
            Call::Farewell(..) => Kind::Farewell,
            _ => Kind::Report,
        };
        let source = match before.first {
            Some(first) if number == TWIN && self.planted(Fault::RaisedElsewhere) => first,
            _ => source,
        };
        let times = 1;
        let entry = Entry {
            kind,
            number,
            times,
        };
        self.under.entry(source).or_default().push(entry);
    }

    /// A joining, but for a number that keeps its tally.
    fn joining(&self, source: u32) -> Kind {
        let mut last = self.entries(source).iter().rev();
        let last = last.find(|entry| entry.left() || entry.kind == Kind::Joining);
        let keeps = last.is_some_and(|entry| match entry.left() {
            true => self.planted(Fault::KeptAfterFarewell),
            false => self.planted(Fault::KeptAfterSweep),
        });
        if keeps {
            Kind::Report
        } else {
            Kind::Joining
        }
    }

    fn entries(&self, source: u32) -> &[Entry] {
        self.under.get(&source).map_or(&[], Vec::as_slice)
    }

    /// Where the calls behind the last joining start, in a number's list.
    fn since(&self, entries: &[Entry]) -> usize {
        let starts = |entry: &Entry| match (entry.kind, entry.number) {
            (Kind::Joining, _) => true,
            (Kind::Report, 0) => self.planted(Fault::ResetByReport),
            _ => false,
        };
        entries.iter().rposition(starts).map_or(0, |last| last + 1)
    }

    fn counts(&self, entry: &Entry) -> bool {
        match (entry.number, entry.kind) {
            (TWIN, Kind::Farewell) => !self.planted(Fault::FarewellNotCounted),
            (TWIN, _) => !self.planted(Fault::ReportNotCounted),
            (number, _) => self.planted(Fault::AlsoCounted(number)),
        }
    }

    /// Of the calls under this number behind its last joining, how many got 14,
    /// cut at the limit.
    pub fn tally(&self, source: u32) -> u32 {
        let entries = self.entries(source);
        let counted = entries[self.since(entries)..]
            .iter()
            .filter(|entry| self.counts(entry));
        let times: u64 = counted.map(|entry| entry.times).sum();
        let limit = match self.fault {
            Some(Fault::Wraps) => return times as u32,
            Some(Fault::StopsEarly) => TALLY_LIMIT - 1,
            _ => TALLY_LIMIT,
        };
        times.min(limit.into()) as u32
    }

    /// As if the calls under this number were a joining, and so many reports
    /// that got 14.
    pub fn set_tally(&mut self, source: u32, tally: u32) {
        let entry = |kind: Kind, number: u64, times: u64| Entry {
            kind,
            number,
            times,
        };
        let joining = entry(Kind::Joining, 0, 1);
        let refused = entry(Kind::Report, TWIN, tally.into());
        self.under.insert(source, vec![joining, refused]);
    }
}
