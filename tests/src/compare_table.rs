//! The comparison of the archive's member table with the plain register, call
//! by call, of the places that new members take with the rule, and of its targets
//! with their definition.

use crate::archive;
use crate::burst_counts::{self, Bursts};
use crate::compare::{same, Verdict};
use crate::compare_burst::{check_burst, check_single_calls, smallest_burst, Taken};
use crate::generator::Rng;
use crate::histories::{History, Step};
use crate::members::{Burst, Call, Member, Opening, Reading, Record, ReportFields, Target};
use crate::places::{self, count_held_with, lowest_free_with, Held, Joins, PLACES};
use crate::register::{self, step, Register};
use crate::rejoins::{self, Leavings};
use crate::table_values::{check_other_tallies, check_refused, is_held, raise, with_tally, COPIES};
use crate::target::{AtReading, Seen};
use crate::twins::Twins;
use prunepocket_sys::{Answered, Place, Table};
use std::array::from_fn;
use std::cell::OnceCell;

/// Kinds of calls, as columns of a count. The last is of the reports in bursts.
pub const KINDS: [&str; 7] = [
    "open", "report", "farewell", "sweep", "choose", "burst", "in burst",
];

const BURST: usize = 5;
const IN_BURST: usize = 6;

/// What errs where a fault is planted.
#[derive(Clone, Copy, Debug, PartialEq, Eq)]
pub enum Fault {
    Register(register::Fault),
    Places(places::Fault),
    Rejoins(rejoins::Fault),
}

/// How often each thing was met.
#[derive(Default)]
pub struct Counts {
    pub histories: u64,
    /// By kind of call and by its answer, a refusal's number or 0.
    pub answers: [[u64; 25]; KINDS.len()],
    /// Comparisons of all members, how many had 64, and members in all.
    pub member_lists: u64,
    pub full_lists: u64,
    pub members: u64,
    pub joins: Joins,
    pub bursts: Bursts,
    pub twins: Twins,
    pub step_zero: StepZero,
    pub targets: Targets,
}

/// Low 16 bits of received that are counted with a step of 0.
pub const LOW_BITS: [u16; 3] = [0, 1, u16::MAX];

/// Reports with P 1 and a step of 0.
#[derive(Default)]
pub struct StepZero {
    pub reports: u64,
    pub accepted: u64,
    /// Refused with 17: received at the last full time, and so presented at 0.
    pub refused: u64,
    /// Accepted, by the low 16 bits of received.
    pub low_bits: [u64; LOW_BITS.len()],
    /// Accepted, and received at the last full time but one, or at 0.
    pub last_but_one: u64,
    pub at_zero: u64,
}

/// Targets that have their defined property.
#[derive(Default)]
pub struct Targets {
    pub by_presentation: u64,
    pub by_arrival: u64,
    pub before_reading: u64,
    pub ties: u64,
    /// The member to follow is wired: its report's step is 0.
    pub wired: u64,
    /// A counted member is wired, and a slower one is to be followed.
    pub beside_wired: u64,
    /// A wired member's unit of delay can decide.
    pub unit_apart: u64,
}

impl Counts {
    /// Single reports, farewells and sweeps.
    pub fn calls(&self) -> u64 {
        self.answers[1..4].iter().flatten().sum()
    }

    /// Those in bursts included.
    pub fn reports(&self) -> u64 {
        let single = self.answers[1].iter();
        single.chain(&self.answers[IN_BURST]).sum()
    }

    fn count_burst(&mut self, before: &Table, burst: &Burst, taken: &Taken) {
        self.answers[BURST][taken.number as usize] += 1;
        for (told, &number) in burst.reports.iter().zip(&taken.numbers) {
            self.answers[IN_BURST][number as usize] += 1;
            self.step_zero.count(&told.report, number);
        }
        self.bursts.count(&burst_counts::Seen {
            burst,
            number: taken.number,
            numbers: &taken.numbers,
            before,
            after: &taken.table,
        });
    }

    /// How often an answer was met with all kinds of calls.
    pub fn met(&self, number: usize) -> u64 {
        self.answers.iter().map(|answers| answers[number]).sum()
    }
}

/// A table of the archive, with its places once they have been looked at.
struct Shown {
    table: Table,
    places: OnceCell<[Place; PLACES]>,
}

impl Shown {
    fn new(table: Table) -> Self {
        let places = OnceCell::new();
        Shown { table, places }
    }

    fn places(&self) -> &[Place; PLACES] {
        let look = || from_fn(|place| self.table.member_at(place));
        self.places.get_or_init(look)
    }

    fn held(&self) -> Held {
        self.places().map(|place| place.held == 1)
    }

    fn members(&self) -> Vec<Member> {
        let held = self.places().iter().filter(|place| place.held == 1);
        held.map(|place| place.member).collect()
    }

    fn records(&self) -> Vec<Record> {
        let members = self.members().into_iter();
        members.map(|member| member.record).collect()
    }

    /// What is shown at each place.
    fn check_same(&self, expected: &[Place; PLACES]) -> Verdict {
        for (place, (shown, expected)) in self.places().iter().zip(expected).enumerate() {
            same(format_args!("place {place}"), shown, expected)?;
        }
        Ok(())
    }

    /// The word marks the places with a member; any other shows zeros.
    fn check_places(&self) -> Verdict {
        for (place, shown) in self.places().iter().enumerate() {
            let held = u32::from(is_held(&self.table, place));
            same(format_args!("whether {place} is held"), &shown.held, &held)?;
            if held == 0 {
                let free = Place::default();
                same(format_args!("the free place {place}"), shown, &free)?;
            }
        }
        Ok(())
    }
}

/// The two sides, opened alike.
struct Sides {
    opening: Opening,
    shown: Shown,
    register: Register,
    /// The places that have had a member.
    used: Held,
    leavings: Leavings,
}

pub struct TableComparison {
    fault: Option<Fault>,
    rng: Rng,
    pub counts: Counts,
}

impl TableComparison {
    /// With a planted fault, the independent side is the one that errs.
    pub fn new(seed: u64, fault: Option<Fault>) -> Self {
        TableComparison {
            fault,
            rng: Rng::new(!seed),
            counts: Counts::default(),
        }
    }

    fn register_fault(&self) -> Option<register::Fault> {
        match self.fault {
            Some(Fault::Register(fault)) => Some(fault),
            _ => None,
        }
    }

    fn places_fault(&self) -> Option<places::Fault> {
        match self.fault {
            Some(Fault::Places(fault)) => Some(fault),
            _ => None,
        }
    }

    fn rejoins_fault(&self) -> Option<rejoins::Fault> {
        match self.fault {
            Some(Fault::Rejoins(fault)) => Some(fault),
            _ => None,
        }
    }

    /// A whole history, from its opening on.
    pub fn check(&mut self, history: &History) -> Verdict {
        self.counts.histories += 1;
        let Some(mut sides) = self.open(&history.opening)? else {
            return Ok(());
        };
        for (place, step) in history.steps.iter().enumerate() {
            self.check_step(&mut sides, step)
                .map_err(|difference| format!("step {place}, {difference}"))?;
        }
        self.check_members(&sides)
            .map_err(|difference| format!("at the end, {difference}"))
    }

    fn open(&mut self, opening: &Opening) -> Result<Option<Sides>, String> {
        let table = archive::open(opening);
        let register = Register::open(opening, self.register_fault());
        let number = |refused: Option<&u64>| refused.copied().unwrap_or(0);
        let answer = number(table.as_ref().err());
        let expected = number(register.as_ref().err());
        same(format_args!("opening"), &answer, &expected)?;
        self.counts.answers[0][answer as usize] += 1;
        let (Ok(table), Ok(register)) = (table, register) else {
            return Ok(None);
        };
        Ok(Some(Sides {
            opening: *opening,
            shown: Shown::new(table),
            register,
            used: [false; PLACES],
            leavings: Leavings::default(),
        }))
    }

    fn check_step(&mut self, sides: &mut Sides, step: &Step) -> Verdict {
        match step {
            Step::Call(call) => self.check_call(sides, call),
            Step::Burst(burst) => self.check_burst(sides, burst),
            Step::Choose(reading) => self.check_choice(sides, reading),
            Step::Members => self.check_members(sides),
            Step::SetTally(source, tally) => {
                let table = with_tally(&sides.shown.table, *source, *tally);
                sides.shown = Shown::new(table);
                sides.register.set_tally(*source, *tally);
                Ok(())
            }
        }
    }

    fn check_call(&mut self, sides: &mut Sides, call: &Call) -> Verdict {
        let rows = sides.register.rows().len();
        let expected = sides.register.call(call);
        let Answered { number, table } = archive::call(&sides.shown.table, call);
        same(format_args!("the answer"), &number, &expected)?;
        self.counts.answers[kind(call)][number as usize] += 1;
        if number != 0 {
            check_refused(&sides.shown.table, call, number, &table)?;
        }
        let twins = &mut self.counts.twins;
        twins.count(&sides.shown.table, call, number, &table);
        sides.leavings.add_all(call, &sides.shown.table, &table);
        let after = Shown::new(table);
        if let Call::Report(told, _) = call {
            self.counts.step_zero.count(&told.report, number);
            if sides.register.rows().len() > rows || number == 18 {
                self.check_join(sides, number, &after, told)?;
            }
        }
        // Any other answer leaves the same table, which may have been looked at.
        if matches!(number, 0 | 14) {
            sides.shown = after;
        }
        Ok(())
    }

    /// The burst is answered as by the register, and as the archive's single calls
    /// are. Members, places and the choice are compared after each.
    fn check_burst(&mut self, sides: &mut Sides, burst: &Burst) -> Verdict {
        let (reports, reading) = (&burst.reports, &burst.reading);
        let (before, register) = (sides.shown.table, &mut sides.register);
        let taken = check_burst(&before, burst, |list| {
            register.burst(reports, reading, list)
        })?;
        self.counts.count_burst(&before, burst, &taken);
        let counts = &mut self.counts;
        check_single_calls(&before, burst, &taken, |before, call, number, after| {
            counts.twins.count(before, call, number, after);
        })?;
        let places = self.places_after(sides, reports, &taken.numbers)?;
        sides.shown = Shown::new(taken.table);
        sides.shown.check_same(&places)?;
        self.check_members(sides)?;
        self.check_choice(sides, reading)
    }

    /// What stands at each place after reports with these numbers: a member's own at
    /// its place, a new one at the lowest free one, and a tally more for each 14.
    fn places_after(
        &mut self,
        sides: &mut Sides,
        reports: &[Record],
        numbers: &[u64],
    ) -> Result<[Place; PLACES], String> {
        let mut places = *sides.shown.places();
        for (told, &number) in reports.iter().zip(numbers) {
            let holds =
                |place: &Place| place.held == 1 && place.member.record.source == told.source;
            let holder = places.iter_mut().find(|place| holds(place));
            match (number, holder) {
                (0, Some(place)) => place.member.record = *told,
                (14, Some(place)) => raise(&mut place.member.tally),
                (0 | 18, None) => self.join(sides, &mut places, number, told)?,
                (13 | 15..=17, _) => {}
                (_, holder) => return Err(format!("{number} beside {holder:?}")),
            }
        }
        Ok(places)
    }

    /// A single report of a new source. All other places are as before.
    fn check_join(
        &mut self,
        sides: &mut Sides,
        number: u64,
        after: &Shown,
        told: &Record,
    ) -> Verdict {
        let mut places = *sides.shown.places();
        self.join(sides, &mut places, number, told)?;
        after.check_same(&places)
    }

    /// A report of a new source that meets none of 13 to 17 gets 18 exactly where
    /// no place is free. Else it stands at the lowest free one.
    fn join(
        &mut self,
        sides: &mut Sides,
        places: &mut [Place; PLACES],
        number: u64,
        told: &Record,
    ) -> Verdict {
        let held = places.map(|place| place.held == 1);
        let free = lowest_free_with(&held, self.places_fault());
        let expected = if free.is_some() { 0 } else { 18 };
        same(format_args!("a new member"), &number, &expected)?;
        if let Some(place) = free {
            let leavings = &sides.leavings;
            let member = Member {
                record: *told,
                tally: leavings.first_tally(told.source, place, self.rejoins_fault()),
            };
            places[place] = Place { held: 1, member };
            self.counts.joins.count(&held, &mut sides.used, place);
            let rejoins = &mut self.counts.twins.rejoins;
            rejoins.count(leavings, told.source, place);
        }
        Ok(())
    }

    /// As many members as places are shown held. Members and rows one to one,
    /// whatever their order.
    fn check_members(&mut self, sides: &Sides) -> Verdict {
        let Shown { table, .. } = &sides.shown;
        sides.shown.check_places()?;
        let held = count_held_with(&sides.shown.held(), self.places_fault());
        let count = table.count_members();
        same(format_args!("how many members"), &count, &(held as u32))?;
        let mut members = sides.shown.members();
        let mut rows = sides.register.members();
        members.sort_by_key(|member| member.record.source);
        rows.sort_by_key(|row| row.record.source);
        same(format_args!("the members"), &members, &rows)?;
        let outside = PLACES + (self.rng.number() as usize >> self.rng.between(1, 63));
        for place in [PLACES, outside, usize::MAX] {
            let shown = table.member_at(place);
            same(format_args!("place {place}"), &shown, &Place::default())?;
        }
        self.counts.member_lists += 1;
        self.counts.full_lists += u64::from(rows.len() == PLACES);
        self.counts.members += rows.len() as u64;
        for row in rows {
            self.counts.twins.count_shown(row.tally);
        }
        Ok(())
    }

    /// Choosing answers as the register, with a target as defined, and leaves
    /// the table as it was. It does so with any tallies.
    fn check_choice(&mut self, sides: &Sides, reading: &Reading) -> Verdict {
        let expected = sides.register.choose(reading);
        let followed = sides.shown.table.choose(reading);
        let choice = followed.choice();
        same(format_args!("the choice"), &choice, &expected)?;
        if followed.table != sides.shown.table {
            return Err(String::from("the table after choosing is not as before"));
        }
        if choice.is_err() {
            let nothing = Target::default();
            same(
                format_args!("the target beside 20"),
                &followed.target,
                &nothing,
            )?;
        }
        self.counts.answers[4][followed.number as usize] += 1;
        let (rng, table) = (&mut self.rng, &sides.shown.table);
        check_other_tallies(rng, table, reading, &choice, Table::choose)?;
        self.counts.twins.copies += COPIES;
        let at_reading = AtReading {
            rate: sides.opening.rate,
            reading: *reading,
            members: &sides.shown.records(),
        };
        let seen = at_reading.check(&choice, &samples(&mut self.rng));
        let seen = seen.map_err(|wrong| format!("the target {choice:?}: {wrong}"))?;
        self.counts.targets.count(seen);
        Ok(())
    }
}

impl StepZero {
    fn count(&mut self, report: &ReportFields, number: u64) {
        if report.p != 1 || step(report.received, report.presented) != 0 {
            return;
        }
        self.reports += 1;
        self.refused += u64::from(number == 17);
        if number != 0 {
            return;
        }
        self.accepted += 1;
        for (times, low_bits) in self.low_bits.iter_mut().zip(LOW_BITS) {
            *times += u64::from(report.received as u16 == low_bits);
        }
        self.last_but_one += u64::from(report.received == u64::MAX - 1);
        self.at_zero += u64::from(report.received == 0);
    }
}

impl Targets {
    fn count(&mut self, seen: Option<Seen>) {
        let Some(seen) = seen else {
            return;
        };
        match seen.by_presentation {
            true => self.by_presentation += 1,
            false => self.by_arrival += 1,
        }
        self.before_reading += u64::from(seen.before);
        self.ties += u64::from(seen.tie);
        self.wired += u64::from(seen.wired);
        self.beside_wired += u64::from(seen.beside_wired);
        self.unit_apart += u64::from(seen.unit_apart);
    }
}

/// The column of a call in a count.
fn kind(call: &Call) -> usize {
    match call {
        Call::Report(..) => 1,
        Call::Farewell(..) => 2,
        Call::Sweep(_) => 3,
    }
}

/// The reading's own sample, the ones beside it, and any others before and
/// after it.
fn samples(rng: &mut Rng) -> [i128; 7] {
    let mut any = || i128::from(rng.number() as i64) >> rng.below(64);
    [0, 1, -1, any(), any(), -any().abs(), any().abs()]
}

/// The history with every step left out that the difference does without, and what
/// each burst does without.
pub fn smallest(seed: u64, fault: Option<Fault>, history: &History) -> History {
    let with = |steps: &[Step]| History {
        opening: history.opening,
        steps: steps.to_vec(),
    };
    let differs = |steps: &[Step]| {
        let mut comparison = TableComparison::new(seed, fault);
        comparison.check(&with(steps)).is_err()
    };
    let mut steps = fewest(&history.steps, differs);
    for index in 0..steps.len() {
        if let Step::Burst(burst) = &steps[index] {
            let smallest = smallest_burst(burst, |burst| {
                let mut fewer = steps.clone();
                fewer[index] = Step::Burst(burst.clone());
                differs(&fewer)
            });
            steps[index] = Step::Burst(smallest);
        }
    }
    with(&steps)
}

/// The list with everything left out that the difference does without.
pub(crate) fn fewest<T: Clone>(list: &[T], differs: impl Fn(&[T]) -> bool) -> Vec<T> {
    let mut smallest = list.to_vec();
    let mut share = smallest.len().max(1);
    while share > 0 {
        let mut start = 0;
        while start < smallest.len() {
            let mut fewer = smallest.clone();
            let end = (start + share).min(fewer.len());
            fewer.drain(start..end);
            match differs(&fewer) {
                true => smallest = fewer,
                false => start = end,
            }
        }
        share /= 2;
    }
    smallest
}
