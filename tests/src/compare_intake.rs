//! The comparison of the archive's intake of whole datagrams with the
//! independent one: the answer, the whole list, all members and a choice. Then
//! that of both values of the flag for reduced size, without the independent
//! one.

use crate::archive;
use crate::arrivals::{Arrival, Course, Event};
use crate::compare::{check_list, compare_values, same, Lent, Values, Verdict};
use crate::compare::{BEFORE, LIST_GUARD};
use crate::compare_burst::{check_burst, check_single_calls, smallest_burst};
use crate::compare_table::fewest;
use crate::decoder::decode;
use crate::first_packets::FirstPackets;
use crate::generator::Rng;
use crate::intake::{Answer, Fault, Intake, Met};
use crate::items::{Item, Refusal};
use crate::members::{Burst, Call, Reading};
use crate::places::PLACES;
use crate::register::step;
use crate::table_values::{check_other_tallies, check_refused, with_tally};
use prunepocket_sys::{Answered, DatagramAnswered, Place, Table};
use std::slice::from_ref;

/// Kinds of items that are calls, as columns of a count.
pub const KINDS: [&str; 2] = ["report", "farewell"];

/// How often each thing was met.
#[derive(Default)]
pub struct Counts {
    pub courses: u64,
    /// Bursts between the datagrams, taken and refused.
    pub bursts: [u64; 2],
    /// Datagrams by their value of the flag and their answer, a refusal's number
    /// or 0.
    pub datagrams: [[u64; 11]; 2],
    pub firsts: FirstPackets,
    /// Datagrams that both values answer alike, and those that are refused with
    /// 4 with one of them alone.
    pub alike: u64,
    pub beside_four: u64,
    /// Calls by kind and by their answer, a refusal's number or 0.
    pub calls: [[u64; 20]; KINDS.len()],
    /// Reports with P 1 and a step of 0, those accepted and those refused with 17.
    pub step_zero: u64,
    pub step_zero_accepted: u64,
    pub step_zero_refused: u64,
    /// What the calls of datagrams met.
    pub met: Met,
    /// Datagrams that raised a tally, and that raised one more than once.
    pub raising: u64,
    pub raising_again: u64,
    /// Members that were shown with a tally, and the greatest one.
    pub tallied: u64,
    pub greatest_tally: u32,
    /// Settings that were passed by.
    pub settings: u64,
    /// Datagrams with an accepted call, and with calls of several answers.
    pub changing: u64,
    pub mixed: u64,
    /// Numbers of a list behind those of the calls.
    pub spare: u64,
    /// Comparisons of all members with none and with 64, and members in all.
    pub empty_tables: u64,
    pub full_tables: u64,
    pub members: u64,
    pub targets: u64,
    pub none_fresh: u64,
}

impl Counts {
    /// Datagrams that were taken in, refused or not.
    pub fn taken(&self) -> u64 {
        self.datagrams.iter().flatten().sum()
    }

    /// A datagram's answer, by its flag and its first packet. 10 is of the list.
    fn count_answer(&mut self, arrival: &Arrival, answer: &Answer) {
        let (number, place) = (answer.number, answer.place);
        self.datagrams[usize::from(arrival.reduced_size)][number as usize] += 1;
        let refusal = Refusal { number, place };
        let refusal = (!matches!(number, 0 | 10)).then_some(refusal);
        let firsts = &mut self.firsts;
        firsts.count(&arrival.datagram, arrival.reduced_size, refusal);
    }

    /// An accepted datagram's items, with the numbers of its calls.
    fn count_items(&mut self, arrival: &Arrival, numbers: &[u64]) {
        let mut rest = numbers.iter();
        for item in decode(&arrival.datagram, arrival.reduced_size).unwrap_or_default() {
            let kind = match item.item {
                Item::Report(_) => 0,
                Item::Farewell { .. } => 1,
                Item::Settings(_) => {
                    self.settings += 1;
                    continue;
                }
            };
            if let Some(&number) = rest.next() {
                self.calls[kind][number as usize] += 1;
                self.count_step_zero(&item.item, number);
            }
        }
        self.changing += u64::from(numbers.contains(&0));
        self.mixed += u64::from(numbers.windows(2).any(|pair| pair[0] != pair[1]));
    }

    /// A datagram, by the most that it raised a tally.
    fn count_raised(&mut self, before: &Table, after: &Table) {
        let pairs = before.members.iter().zip(&after.members);
        let raised = pairs.map(|(before, after)| after.tally.saturating_sub(before.tally));
        let most = raised.max().unwrap_or(0);
        self.raising += u64::from(most > 0);
        self.raising_again += u64::from(most > 1);
    }

    fn count_step_zero(&mut self, item: &Item, number: u64) {
        match item {
            Item::Report(report) if report.p && step(report.received, report.presented) == 0 => {
                self.step_zero += 1;
                self.step_zero_accepted += u64::from(number == 0);
                self.step_zero_refused += u64::from(number == 17);
            }
            _ => {}
        }
    }
}

/// The two sides, opened alike.
struct Sides {
    table: Table,
    intake: Intake,
}

pub struct IntakeComparison {
    fault: Option<Fault>,
    rng: Rng,
    pub counts: Counts,
}

impl IntakeComparison {
    /// With a planted fault, the independent intake is the one that errs.
    pub fn new(seed: u64, fault: Option<Fault>) -> Self {
        IntakeComparison {
            fault,
            rng: Rng::new(!seed),
            counts: Counts::default(),
        }
    }

    /// A whole course, from its opening on. One that is refused has no table to
    /// take a datagram.
    pub fn check(&mut self, course: &Course) -> Verdict {
        self.counts.courses += 1;
        let table = archive::open(&course.opening);
        let intake = Intake::open(&course.opening, self.fault);
        let (table, intake) = match (table, intake) {
            (Ok(table), Ok(intake)) => (table, intake),
            (table, intake) => {
                return same(format_args!("opening"), &table.err(), &intake.err());
            }
        };
        let mut sides = Sides { table, intake };
        for (place, event) in course.events.iter().enumerate() {
            let verdict = match event {
                Event::Call(call) => check_call(&mut sides, call),
                Event::Burst(burst) => self.take_burst(&mut sides, burst),
                Event::Arrival(arrival) => self.check_arrival(&mut sides, arrival),
                Event::Choose(reading) => self.check_choice(&sides, reading),
                Event::SetTally(source, tally) => {
                    sides.table = with_tally(&sides.table, *source, *tally);
                    sides.intake.set_tally(*source, *tally);
                    Ok(())
                }
            };
            verdict.map_err(|difference| format!("event {place}, {difference}"))?;
        }
        Ok(())
    }

    /// A burst between the datagrams.
    fn take_burst(&mut self, sides: &mut Sides, burst: &Burst) -> Verdict {
        let Burst {
            reports, reading, ..
        } = burst;
        let Sides { table, intake } = sides;
        let taken = check_burst(table, burst, |list| intake.burst(reports, reading, list))?;
        check_single_calls(table, burst, &taken, |_, _, _, _| {})?;
        sides.table = taken.table;
        self.counts.bursts[usize::from(taken.number != 0)] += 1;
        self.check_members(sides)
    }

    fn check_arrival(&mut self, sides: &mut Sides, arrival: &Arrival) -> Verdict {
        let before = sides.table;
        let answer = self.check_take(sides, arrival)?;
        self.counts.count_answer(arrival, &answer);
        self.counts.count_raised(&before, &sides.table);
        self.counts.met.add(&sides.intake.met);
        if answer.number == 0 {
            self.counts.spare += arrival.length as u64 - answer.count;
        }
        self.check_members(sides)?;
        self.check_choice(sides, &arrival.reading)?;
        self.check_choice(sides, &arrival.choice)
    }

    /// The answer is the independent one, and so is all memory around the list.
    /// After a refusal of the datagram the table has all fields as before.
    fn check_take(&mut self, sides: &mut Sides, arrival: &Arrival) -> Result<Answer, String> {
        let lent = Lent::new(&mut self.rng, &arrival.datagram);
        let list = LIST_GUARD..LIST_GUARD + arrival.length;
        let mut expected_memory = vec![BEFORE; LIST_GUARD + arrival.length + LIST_GUARD];
        let expected = sides
            .intake
            .take(arrival, &mut expected_memory[list.clone()]);
        let both = [false, true].map(|flag| take(&sides.table, &lent, flag, arrival));
        let (taken, memory) = &both[usize::from(arrival.reduced_size)];
        let answer = Answer {
            number: taken.number,
            place: taken.place,
            count: taken.count,
        };
        let call = format_args!(
            "reduced size {}, a list of {}",
            arrival.reduced_size, arrival.length
        );
        same(call, &answer, &expected)?;
        check_list(memory, &expected_memory)?;
        self.check_alike(&both)?;
        if answer.number != 0 && taken.table != sides.table {
            return Err(String::from("the table after a refusal is not as before"));
        }
        sides.table = taken.table;
        if answer.number == 0 {
            let numbers = &memory[list][..answer.count as usize];
            self.counts.count_items(arrival, numbers);
        }
        Ok(answer)
    }

    /// The archive with both values of the flag, table and list included, without
    /// the independent intake.
    fn check_alike(&mut self, [not_agreed, agreed]: &[Taken; 2]) -> Verdict {
        let number = |(taken, _): &Taken| taken.number;
        match compare_values(from_ref(not_agreed), from_ref(agreed), number)? {
            Values::Alike => self.counts.alike += 1,
            Values::FourAlone => self.counts.beside_four += 1,
        }
        Ok(())
    }

    /// The same member at each place, or none.
    fn check_members(&mut self, sides: &Sides) -> Verdict {
        let members = sides.intake.members();
        for (place, member) in members.iter().enumerate() {
            let expected = match member {
                None => Place::default(),
                Some(member) => Place {
                    held: 1,
                    member: *member,
                },
            };
            let shown = sides.table.member_at(place);
            same(format_args!("place {place}"), &shown, &expected)?;
            let tally = shown.member.tally;
            self.counts.tallied += u64::from(tally > 0);
            self.counts.greatest_tally = self.counts.greatest_tally.max(tally);
        }
        let count = sides.intake.count_members();
        let answer = sides.table.count_members();
        same(format_args!("how many members"), &answer, &(count as u32))?;
        self.counts.empty_tables += u64::from(count == 0);
        self.counts.full_tables += u64::from(count == PLACES);
        self.counts.members += count as u64;
        Ok(())
    }

    fn check_choice(&mut self, sides: &Sides, reading: &Reading) -> Verdict {
        let expected = sides.intake.choose(reading);
        let followed = sides.table.choose(reading);
        same(format_args!("the choice"), &followed.choice(), &expected)?;
        if followed.table != sides.table {
            return Err(String::from("the table after choosing is not as before"));
        }
        let (rng, table) = (&mut self.rng, &sides.table);
        check_other_tallies(rng, table, reading, &expected, Table::choose)?;
        match followed.number {
            0 => self.counts.targets += 1,
            _ => self.counts.none_fresh += 1,
        }
        Ok(())
    }
}

/// What the archive answers, and the list with what stands around it.
type Taken = (DatagramAnswered, Vec<u64>);

/// An arrival with either value of the flag; the table stays as it is.
fn take(table: &Table, lent: &Lent, reduced_size: bool, arrival: &Arrival) -> Taken {
    let mut memory = vec![BEFORE; LIST_GUARD + arrival.length + LIST_GUARD];
    let taken = table.take_datagram(
        lent.bytes(),
        reduced_size,
        &arrival.origin,
        &arrival.reading,
        &mut memory[LIST_GUARD..LIST_GUARD + arrival.length],
    );
    (taken, memory)
}

/// A single call between the datagrams.
fn check_call(sides: &mut Sides, call: &Call) -> Verdict {
    let expected = sides.intake.call(call);
    let Answered { number, table } = archive::call(&sides.table, call);
    same(format_args!("the answer"), &number, &expected)?;
    if number != 0 {
        check_refused(&sides.table, call, number, &table)?;
    }
    sides.table = table;
    Ok(())
}

/// The course with every event left out that the difference does without, and what
/// each burst does without.
pub fn smallest(seed: u64, fault: Option<Fault>, course: &Course) -> Course {
    let with = |events: &[Event]| Course {
        opening: course.opening,
        events: events.to_vec(),
    };
    let differs = |events: &[Event]| {
        let mut comparison = IntakeComparison::new(seed, fault);
        comparison.check(&with(events)).is_err()
    };
    let mut events = fewest(&course.events, differs);
    for index in 0..events.len() {
        if let Event::Burst(burst) = &events[index] {
            let smallest = smallest_burst(burst, |burst| {
                let mut fewer = events.clone();
                fewer[index] = Event::Burst(burst.clone());
                differs(&fewer)
            });
            events[index] = Event::Burst(smallest);
        }
    }
    with(&events)
}
