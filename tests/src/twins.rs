//! What was met of twins, and of members that have a tally.

use crate::call_history::TALLY_LIMIT;
use crate::counts::{lines, Line};
use crate::members::Call;
use crate::places::PLACES;
use crate::rejoins::Rejoins;
use crate::table_values::{holder, is_held};
use prunepocket_sys::Table;

#[derive(Default)]
pub struct Twins {
    /// Refused with 14.
    pub reports: u64,
    pub farewells: u64,
    /// Reports from elsewhere under a number that is held, refused with 13.
    pub other_stream: u64,
    /// Reports of a member with a tally: accepted, and refused with 13 or 15 to 17.
    pub own_accepted: u64,
    pub own_refused: u64,
    /// Members with a tally that a sweep left, that left by farewell, and that a
    /// sweep took out.
    pub outlasted: u64,
    pub left: u64,
    pub swept: u64,
    pub rejoins: Rejoins,
    /// Members shown with a tally.
    pub shown: u64,
    pub greatest: u32,
    pub around_limit: AroundLimit,
    /// Choices compared on copies with other tallies.
    pub copies: u64,
}

impl Twins {
    /// A call, its answer, and the tables before and after it.
    pub fn count(&mut self, before: &Table, call: &Call, number: u64, after: &Table) {
        match call {
            Call::Report(..) => self.reports += u64::from(number == 14),
            Call::Farewell(..) => self.farewells += u64::from(number == 14),
            Call::Sweep(_) => self.count_sweep(before, after),
        }
        let place = call.source().and_then(|source| holder(before, source));
        let Some(member) = place.map(|place| before.members[place]) else {
            return;
        };
        let tallied = u64::from(member.tally > 0);
        match (call, number) {
            (_, 14) => self.around_limit.count(call, member.tally),
            (Call::Farewell(..), 0) => self.left += tallied,
            (Call::Report(told, _), 13) if told.origin != member.record.origin => {
                self.other_stream += 1;
            }
            (Call::Report(..), 0) => self.own_accepted += tallied,
            (Call::Report(..), 13 | 15..=17) => self.own_refused += tallied,
            _ => {}
        }
    }

    fn count_sweep(&mut self, before: &Table, after: &Table) {
        let tallied = |place: &usize| is_held(before, *place) && before.members[*place].tally > 0;
        for place in (0..PLACES).filter(tallied) {
            match is_held(after, place) {
                true => self.outlasted += 1,
                false => self.swept += 1,
            }
        }
    }

    /// A member of this tally is shown.
    pub fn count_shown(&mut self, tally: u32) {
        self.shown += u64::from(tally > 0);
        self.greatest = self.greatest.max(tally);
    }

    /// All but the greatest tally, and what was met around the limit.
    pub fn lines(&self) -> Vec<Line> {
        let mut met = lines([
            ("reports refused 14", self.reports),
            ("farewells refused 14", self.farewells),
            ("twins' reports refused 13", self.other_stream),
            ("tally, own report accepted", self.own_accepted),
            ("tally, own report refused", self.own_refused),
            ("tally, outlasts a sweep", self.outlasted),
            ("tally, leaves by farewell", self.left),
            ("tally, is swept out", self.swept),
            ("members with a tally", self.shown),
            ("choices with other tallies", self.copies),
        ]);
        met.extend(self.rejoins.lines());
        met
    }
}

/// Reports and farewells that got 14 around the limit of the tally.
#[derive(Clone, Copy, Debug, Default)]
pub struct AroundLimit {
    /// At one less than the limit, to which the tally is raised.
    pub raised: [u64; 2],
    /// At the limit, where it stays.
    pub stayed: [u64; 2],
}

impl AroundLimit {
    /// A call that got 14, and the holder's tally before it.
    pub fn count(&mut self, call: &Call, tally: u32) {
        let kind = usize::from(matches!(call, Call::Farewell(..)));
        self.raised[kind] += u64::from(tally == TALLY_LIMIT - 1);
        self.stayed[kind] += u64::from(tally == TALLY_LIMIT);
    }

    pub fn add(&mut self, more: &AroundLimit) {
        for kind in 0..2 {
            self.raised[kind] += more.raised[kind];
            self.stayed[kind] += more.stayed[kind];
        }
    }

    pub fn lines(&self) -> Vec<Line> {
        lines([
            ("report raises to the limit", self.raised[0]),
            ("farewell raises to the limit", self.raised[1]),
            ("report refused at the limit", self.stayed[0]),
            ("farewell refused at the limit", self.stayed[1]),
        ])
    }
}
