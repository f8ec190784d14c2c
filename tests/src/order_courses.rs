//! A seeded generator of courses for the edges of the order of arrival: two events with
//! reports of new members or of others, in tables with few free places, with gaps and
//! with tallies, where most members are equally late.

use crate::arrivals::{Course, Event};
use crate::call_history::TALLY_LIMIT;
use crate::generator::Rng;
use crate::members::{Burst, Call, Origin, Record};
use crate::plain_reports::{arrival, origin, reading, record, OPENING};

/// When the members join.
const START: u32 = 1000;

/// How many join beforehand, and how many of them then leave.
const JOINING: [usize; 10] = [0, 1, 2, 3, 30, 62, 62, 63, 64, 64];
const LEAVING: [usize; 6] = [0, 0, 0, 1, 2, 3];

/// More numbers than a table has places.
const NUMBERS: u32 = 72;

/// The lowest of them.
const LOWEST: u32 = 10;

/// Seconds before a reading at which reports were received.
const AGES: [u32; 5] = [0, 1, 5, 20, 29];

/// Seconds that pass before a sweep or a choice: some members are stale then, or all.
const PASSING: [u32; 5] = [0, 1, 10, 25, 31];

/// The bytes of the RR that a datagram has in front where reduced size was not agreed.
const RR_LENGTH: usize = 8;

/// What the reports come in.
#[derive(Clone, Copy)]
enum Form {
    Call,
    Burst,
    Datagram,
}

const FORMS: [Form; 4] = [Form::Call, Form::Call, Form::Burst, Form::Datagram];

struct Site {
    /// In any order: the first so many join beforehand.
    numbers: Vec<u32>,
    joining: usize,
    clock: u32,
    /// The numbers of the two events.
    pair: [u32; 2],
}

/// The course, and the index of the first of the two events.
pub fn course(rng: &mut Rng) -> (Course, usize) {
    let mut site = Site::any(rng);
    let mut events = site.beforehand(rng);
    let first = events.len();
    let form = rng.pick(&FORMS);
    for source in site.pair {
        let form = match rng.chance(70) {
            true => form,
            false => rng.pick(&FORMS),
        };
        events.push(site.event(rng, form, source));
        site.clock += rng.below(2) as u32;
    }
    let later = rng.between(2, 14);
    events.extend((0..later).map(|_| site.later(rng)));
    events.push(Event::Choose(reading(site.clock)));
    let opening = OPENING;
    (Course { opening, events }, first)
}

impl Site {
    fn any(rng: &mut Rng) -> Self {
        let mut numbers: Vec<u32> = (LOWEST..LOWEST + NUMBERS).collect();
        for index in 1..numbers.len() {
            numbers.swap(index, rng.below(index + 1));
        }
        let joining = rng.pick(&JOINING);
        let first = rng.below(numbers.len());
        let second = (first + rng.between(1, numbers.len() - 1)) % numbers.len();
        let mut site = Site {
            pair: [numbers[first], numbers[second]],
            numbers,
            joining,
            clock: START,
        };
        if rng.chance(60) {
            site.pair = [site.new_number(rng, 0), site.new_number(rng, 1)];
        }
        site
    }

    /// One of those that do not join beforehand, each of two another.
    fn new_number(&self, rng: &mut Rng, of_two: usize) -> u32 {
        let new = &self.numbers[self.joining..];
        let half = new.len() / 2;
        new[of_two * half + rng.below(half)]
    }

    /// Members join in a burst, some leave, and some have a tally then.
    fn beforehand(&self, rng: &mut Rng) -> Vec<Event> {
        let joining = &self.numbers[..self.joining];
        let joining: Vec<Record> = joining
            .iter()
            .map(|&source| self.told(rng, source))
            .collect();
        let mut events = vec![self.burst(joining.clone())];
        for _ in 0..rng.pick(&LEAVING).min(joining.len()) {
            let leaver = rng.pick(&joining);
            events.push(Event::Call(Call::Farewell(leaver.source, leaver.origin)));
        }
        let joined = |source: &u32| joining.iter().any(|told| told.source == *source);
        let own = self.pair.iter().copied().filter(joined);
        let tallied = own.chain(joining.first().map(|told| told.source));
        events.extend(tallied.filter_map(|source| match rng.below(6) {
            0 => Some(Event::SetTally(source, TALLY_LIMIT - rng.below(2) as u32)),
            1 => Some(Event::SetTally(source, rng.between(1, 9) as u32)),
            2 | 3 => Some(self.twin_report(rng, source)),
            _ => None,
        }));
        events
    }

    /// A report from the number's own origin: most are equally late.
    fn told(&self, rng: &mut Rng, source: u32) -> Record {
        let mut told = record(source, source as u16, self.clock - rng.pick(&AGES));
        match rng.below(10) {
            0 => told.report.presented += 1,
            1 => told.report.rtp += 1,
            2 => told.report.p = 0,
            _ => {}
        }
        told
    }

    fn burst(&self, reports: Vec<Record>) -> Event {
        Event::Burst(Burst {
            list: vec![u64::MAX; reports.len() + 1],
            reports,
            reading: reading(self.clock),
        })
    }

    fn report(&self, told: Record) -> Event {
        Event::Call(Call::Report(told, reading(self.clock)))
    }

    fn twin_report(&self, rng: &mut Rng, source: u32) -> Event {
        let mut told = self.told(rng, source);
        told.origin = twin(source);
        self.report(told)
    }

    /// A report of this number: alone, in a burst or in a datagram, at times with
    /// more.
    fn event(&self, rng: &mut Rng, form: Form, source: u32) -> Event {
        let mut told = self.told(rng, source);
        match form {
            Form::Call => self.report(told),
            Form::Burst => {
                let mut reports = vec![told];
                for _ in 0..rng.below(3) {
                    let more = rng.pick(&self.numbers);
                    reports.push(self.told(rng, more));
                }
                self.burst(reports)
            }
            Form::Datagram => {
                if told.report.p == 0 {
                    told.report.presented = 0;
                }
                let mut arrival = arrival(&told, rng.pick(&["R", "RR"]), self.clock);
                if rng.chance(30) {
                    arrival.datagram.drain(..RR_LENGTH);
                    arrival.reduced_size = true;
                }
                Event::Arrival(arrival)
            }
        }
    }

    /// What comes behind the two events: mostly of their numbers, or of new ones.
    fn later(&mut self, rng: &mut Rng) -> Event {
        let own = rng.pick(&self.pair);
        let any = rng.pick(&self.numbers);
        let form = rng.pick(&FORMS);
        match rng.below(16) {
            0 | 1 => self.event(rng, form, own),
            2 | 3 => self.twin_report(rng, own),
            4 => Event::Call(Call::Farewell(own, twin(own))),
            5 | 6 => Event::Call(Call::Farewell(own, origin(own as u16))),
            7..=9 => self.event(rng, form, any),
            10 => Event::Call(Call::Farewell(any, origin(any as u16))),
            11 => {
                self.clock += rng.pick(&PASSING);
                Event::Call(Call::Sweep(reading(self.clock)))
            }
            12 => {
                let some = rng.pick(&[2, 4, 12]);
                let reports = self.numbers[..some].iter().rev();
                self.burst(reports.map(|&source| self.told(rng, source)).collect())
            }
            13 => self.spoilt(rng, own),
            _ => Event::Choose(reading(self.clock + rng.pick(&PASSING))),
        }
    }

    /// A report that gets 13, 15, 16 or 17.
    fn spoilt(&self, rng: &mut Rng, source: u32) -> Event {
        let mut told = record(source, source as u16, self.clock);
        match rng.below(4) {
            0 => told.report.media += 1,
            1 => told.report.received += 1,
            2 => told.report.rtp += 1,
            _ => told.report.presented += 31 << 16,
        }
        self.report(told)
    }
}

/// The origin of the number's twin.
fn twin(source: u32) -> Origin {
    origin((source + NUMBERS) as u16 + 1000)
}
