//! The comparison of two tables of one side that take accepted reports in two orders
//! of arrival: all answers, all members with reports and tallies, and all choices
//! agree, at once and behind the same further events. Places may differ.

use crate::arrival_orders::{Part, TwoOrders};
use crate::arrivals::{Arrival, Event};
use crate::compare::Verdict;
use crate::compare_table::fewest;
use crate::decoder::decode;
use crate::items;
use crate::members::{Burst, Call, Member, Opening, Reading, Record};
use crate::order_counts::{Counts, Form, Seen, Swap};
use crate::places::Places;
use crate::sides::Side;
use crate::target::AtReading;
use prunepocket_sys::Refusal;
use std::fmt::{Arguments, Debug};

/// So many of the course's own readings are chosen at after a swap, beside those of
/// the reports.
const OWN_READINGS: usize = 4;

/// What an event answers.
#[derive(Debug, PartialEq, Eq)]
struct Answer {
    /// Of a burst or a datagram; its number is 0 where there is none.
    refusal: Refusal,
    /// Of each call, or the whole list of a burst.
    numbers: Vec<u64>,
}

/// Two tables, opened alike.
struct Tables<S> {
    opening: Opening,
    one: S,
    other: S,
    /// The course's own, and how many of them were taken.
    readings: Vec<Reading>,
    taken: usize,
    /// Whether members stood at other places in the other table when they were last
    /// looked at, and whether they ever did.
    differ: bool,
    differed: bool,
    /// The members of the last swap, with their places in the one table.
    last: Vec<(usize, u32)>,
}

impl<S: Side> Tables<S> {
    /// Some of the course's own readings, in turn.
    fn own_readings(&mut self) -> Vec<Reading> {
        let readings = self.readings.iter().cycle().skip(self.taken);
        let count = OWN_READINGS.min(self.readings.len());
        self.taken = (self.taken + count) % self.readings.len().max(1);
        readings.take(count).copied().collect()
    }

    /// The members are the same and as many, wherever they stand. Answers those of the
    /// one table, with their places.
    fn check_members(&mut self) -> Result<Places, String> {
        let places = [self.one.places(), self.other.places()];
        let [one, other] = places.map(|places| by_number(&places));
        let counts = [self.one.count_members(), self.other.count_members()];
        agree(format_args!("how many members"), &counts[0], &counts[1])?;
        agree(format_args!("members shown"), &one.len(), &other.len())?;
        for (one, other) in one.iter().zip(&other) {
            agree(format_args!("a member"), one, other)?;
        }
        let numbers = places.map(|places| places.map(|member| number(&member)));
        self.differ = numbers[0] != numbers[1];
        self.differed |= self.differ;
        Ok(places[0])
    }
}

pub struct OrderComparison<F> {
    open: F,
    pub counts: Counts,
}

impl<S: Side, F: Fn(&Opening) -> Result<S, u64>> OrderComparison<F> {
    /// Both tables are opened so.
    pub fn new(open: F) -> Self {
        OrderComparison {
            open,
            counts: Counts::default(),
        }
    }

    /// A whole course, from its opening on. One that is refused has no tables.
    pub fn check(&mut self, orders: &TwoOrders) -> Verdict {
        self.counts.courses += 1;
        let opening = &orders.opening;
        let (Ok(one), Ok(other)) = ((self.open)(opening), (self.open)(opening)) else {
            return Ok(());
        };
        let mut tables = Tables {
            opening: *opening,
            one,
            other,
            readings: orders.readings(),
            taken: 0,
            differ: false,
            differed: false,
            last: Vec::new(),
        };
        for (index, part) in orders.parts.iter().enumerate() {
            self.check_part(&mut tables, part)
                .map_err(|difference| format!("part {index}, {difference}"))?;
        }
        self.check_end(&mut tables)
            .map_err(|difference| format!("at the end, {difference}"))
    }

    fn check_part(&mut self, tables: &mut Tables<S>, part: &Part) -> Verdict {
        match part {
            Part::Alike(event) => self.check_alike(tables, event),
            Part::Pair(first, second) => self.check_pair(tables, [first, second]),
            Part::InBurst(burst, place) => self.check_in_burst(tables, burst, *place),
        }
    }

    /// Both tables take the event, which is answered alike.
    fn check_alike(&mut self, tables: &mut Tables<S>, event: &Event) -> Verdict {
        if let Event::Choose(reading) = event {
            let places = tables.check_members()?;
            self.counts.choices.later += u64::from(tables.differ);
            return self.check_choice(tables, reading, &places);
        }
        let one = take(&mut tables.one, event);
        let other = take(&mut tables.other, event);
        agree(format_args!("the answer"), &one, &other)?;
        self.count_event(tables, event, &one);
        Ok(())
    }

    /// Where all reports of both are accepted, and no number is in both, the other
    /// table takes the second first, and accepts them too.
    fn check_pair(&mut self, tables: &mut Tables<S>, pair: [&Event; 2]) -> Verdict {
        let before = tables.one.places();
        let one = pair.map(|event| take(&mut tables.one, event));
        let accepted = [0, 1].map(|side| accepted(pair[side], &one[side]));
        let [Some(first), Some(second)] = accepted else {
            return self.check_unswapped(tables, pair, one);
        };
        let in_both = |source: &u32| second.sources.contains(source);
        if first.sources.iter().any(in_both) {
            return self.check_unswapped(tables, pair, one);
        }
        let other = [pair[1], pair[0]].map(|event| take(&mut tables.other, event));
        agree(format_args!("the first's answer"), &one[0], &other[1])?;
        agree(format_args!("the second's answer"), &one[1], &other[0])?;
        self.counts.calls += 2;
        let swap = Swap {
            form: form(pair),
            readings: [first.reading, second.reading],
            sources: [first.sources, second.sources],
        };
        self.check_swapped(tables, &swap, &before)
    }

    /// One of them is not accepted, or a number is in both: the other table takes them
    /// in the same order.
    fn check_unswapped(
        &mut self,
        tables: &mut Tables<S>,
        pair: [&Event; 2],
        one: [Answer; 2],
    ) -> Verdict {
        for (event, one) in pair.into_iter().zip(one) {
            let other = take(&mut tables.other, event);
            agree(format_args!("the answer"), &one, &other)?;
            self.count_event(tables, event, &one);
        }
        Ok(())
    }

    /// Where the two reports are accepted, and of different numbers, they change places
    /// in the other table's burst. The list is the same: 0 at both places.
    fn check_in_burst(&mut self, tables: &mut Tables<S>, burst: &Burst, place: usize) -> Verdict {
        let before = tables.one.places();
        let event = Event::Burst(burst.clone());
        let one = take(&mut tables.one, &event);
        let pair = burst.reports.get(place).zip(burst.reports.get(place + 1));
        let sources = pair.map(|(first, second)| [first.source, second.source]);
        let sources = sources.filter(|[first, second]| {
            let numbers = one.numbers.get(place..place + 2);
            one.refusal.number == 0 && numbers == Some(&[0, 0]) && first != second
        });
        let mut swapped = burst.clone();
        if sources.is_some() {
            swapped.reports.swap(place, place + 1);
        }
        let other = take(&mut tables.other, &Event::Burst(swapped));
        agree(format_args!("the burst's answer"), &one, &other)?;
        self.count_event(tables, &event, &one);
        let Some(sources) = sources else {
            return Ok(());
        };
        let swap = Swap {
            form: Form::InBurst,
            sources: sources.map(|source| vec![source]),
            readings: [burst.reading; 2],
        };
        self.check_swapped(tables, &swap, &before)
    }

    /// At once, members are the same, and choices at the readings of both and at
    /// others.
    fn check_swapped(&mut self, tables: &mut Tables<S>, swap: &Swap, before: &Places) -> Verdict {
        let differed = tables.differ;
        let places = tables.check_members()?;
        self.counts.count(&Seen {
            swap,
            before,
            after: &places,
            differed,
            differs: tables.differ,
        });
        tables.last = placed(&places, &swap.sources);
        let readings = swap.readings.into_iter().chain(tables.own_readings());
        for reading in readings {
            self.counts.choices.at_once += 1;
            self.check_choice(tables, &reading, &places)?;
        }
        Ok(())
    }

    fn check_choice(&mut self, tables: &Tables<S>, reading: &Reading, places: &Places) -> Verdict {
        let one = tables.one.choose(reading);
        let other = tables.other.choose(reading);
        agree(format_args!("the choice"), &one, &other)?;
        let members: Vec<Record> = places
            .iter()
            .flatten()
            .map(|member| member.record)
            .collect();
        let at_reading = AtReading {
            rate: tables.opening.rate,
            reading: *reading,
            members: &members,
        };
        // Here it is asked what the choice was like, not whether it is right.
        let seen = at_reading.check(&one, &[]).ok().flatten();
        let tie = tables.differ && seen.is_some_and(|seen| seen.tie);
        let own = |source: u32| tables.last.iter().any(|last| last.1 == source);
        let own_tie = tie && one.is_ok_and(|target| own(target.source));
        let choices = &mut self.counts.choices;
        choices.refused += u64::from(one.is_err());
        choices.ties += u64::from(tie);
        choices.own_ties += u64::from(own_tie);
        Ok(())
    }

    /// Members are the same at last, too.
    fn check_end(&mut self, tables: &mut Tables<S>) -> Verdict {
        let places = tables.check_members()?;
        let later = &mut self.counts.later;
        later.same_again += u64::from(tables.differed && !tables.differ);
        later.other_places += u64::from(tables.differ);
        for &(place, source) in &tables.last {
            let stays = |member: &Member| member.record.source == source;
            let left = !places.iter().flatten().any(stays);
            later.left += u64::from(left);
            later.replaced += u64::from(left && places[place].is_some());
        }
        Ok(())
    }

    fn count_event(&mut self, tables: &Tables<S>, event: &Event, answer: &Answer) {
        let later = &mut self.counts.later;
        match event {
            Event::Choose(_) | Event::SetTally(..) => return,
            Event::Call(_) => {}
            Event::Burst(_) => later.bursts += u64::from(tables.differ),
            Event::Arrival(_) => later.datagrams += u64::from(tables.differ),
        }
        self.counts.calls += 1;
        let calls = match event {
            Event::Burst(burst) => burst.reports.len(),
            _ => answer.numbers.len(),
        };
        if tables.differ && answer.refusal.number == 0 {
            for &number in &answer.numbers[..calls] {
                later.answers[number as usize] += 1;
            }
        }
    }
}

/// The two tables agree.
fn agree<T: PartialEq + Debug>(name: Arguments, one: &T, other: &T) -> Verdict {
    match one == other {
        true => Ok(()),
        false => Err(format!(
            "{name}: {one:?} in one order, {other:?} in the other"
        )),
    }
}

fn number(member: &Option<Member>) -> Option<u32> {
    member.map(|member| member.record.source)
}

/// The members in the order of their numbers.
pub fn by_number(places: &Places) -> Vec<Member> {
    let mut members: Vec<Member> = places.iter().flatten().copied().collect();
    members.sort_by_key(|member| member.record.source);
    members
}

/// Where the members with these numbers stand.
fn placed(places: &Places, sources: &[Vec<u32>; 2]) -> Vec<(usize, u32)> {
    let numbers = places.iter().map(number).enumerate();
    let held = numbers.filter_map(|(place, number)| number.map(|number| (place, number)));
    held.filter(|(_, number)| sources.iter().flatten().any(|source| source == number))
        .collect()
}

fn take<S: Side>(side: &mut S, event: &Event) -> Answer {
    let mut refusal = Refusal::new(0, 0);
    let numbers = match event {
        Event::Call(call) => vec![side.call(call)],
        Event::Burst(burst) => {
            let mut list = burst.list.clone();
            refusal.number = side.burst(&burst.reports, &burst.reading, &mut list);
            list
        }
        Event::Arrival(arrival) => {
            let (datagram, reduced_size) = (&arrival.datagram, arrival.reduced_size);
            let taken = side.take(datagram, reduced_size, &arrival.origin, &arrival.reading);
            taken.unwrap_or_else(|refused| {
                refusal = refused;
                Vec::new()
            })
        }
        Event::SetTally(source, tally) => {
            side.set_tally(*source, *tally);
            Vec::new()
        }
        Event::Choose(_) => Vec::new(),
    };
    Answer { refusal, numbers }
}

/// An event that is made of reports alone.
struct Reports {
    /// Their source numbers.
    sources: Vec<u32>,
    reading: Reading,
}

/// The event's reports, where all of them are accepted; each number once.
fn accepted(event: &Event, answer: &Answer) -> Option<Reports> {
    let mut reports = reports(event)?;
    let numbers = answer.numbers.get(..reports.sources.len())?;
    let accepted = answer.refusal.number == 0 && numbers.iter().all(|&number| number == 0);
    reports.sources.sort_unstable();
    reports.sources.dedup();
    (accepted && !reports.sources.is_empty()).then_some(reports)
}

/// The event's reports, if it has no other calls.
fn reports(event: &Event) -> Option<Reports> {
    let (sources, reading) = match event {
        Event::Call(Call::Report(told, reading)) => (vec![told.source], *reading),
        Event::Burst(burst) => {
            let sources = burst.reports.iter().map(|told| told.source);
            (sources.collect(), burst.reading)
        }
        Event::Arrival(arrival) => (datagram_sources(arrival)?, arrival.reading),
        Event::Call(_) | Event::Choose(_) | Event::SetTally(..) => return None,
    };
    Some(Reports { sources, reading })
}

/// The numbers of a datagram's reports, if it has no farewells; settings are no calls.
fn datagram_sources(arrival: &Arrival) -> Option<Vec<u32>> {
    let items = decode(&arrival.datagram, arrival.reduced_size).ok()?;
    let sources = items.iter().filter_map(|item| match item.item {
        items::Item::Report(report) => Some(Some(report.source)),
        items::Item::Farewell { .. } => Some(None),
        items::Item::Settings(_) => None,
    });
    sources.collect()
}

fn form(pair: [&Event; 2]) -> Form {
    match pair {
        [Event::Call(_), Event::Call(_)] => Form::Reports,
        [Event::Burst(_), Event::Burst(_)] => Form::Bursts,
        [Event::Arrival(_), Event::Arrival(_)] => Form::Datagrams,
        _ => Form::Mixed,
    }
}

/// The course with every part left out that the difference does without.
pub fn smallest<S: Side>(
    open: impl Fn(&Opening) -> Result<S, u64>,
    orders: &TwoOrders,
) -> TwoOrders {
    let with = |parts: &[Part]| TwoOrders {
        opening: orders.opening,
        parts: parts.to_vec(),
    };
    let differs = |parts: &[Part]| OrderComparison::new(&open).check(&with(parts)).is_err();
    with(&fewest(&orders.parts, differs))
}
