//! Courses in two orders of arrival: two tables take the same events, but for some
//! neighbouring reports, which the other table takes the other way around.

use crate::arrivals::{self, Course, Event};
use crate::generator::Rng;
use crate::histories;
use crate::members::{Burst, Call, Opening, Reading};
use crate::order_courses;

#[derive(Clone, Debug, PartialEq, Eq)]
pub enum Part {
    /// Both tables take it in its turn.
    Alike(Event),
    /// The one table takes them in this order, the other in the other.
    Pair(Event, Event),
    /// In the other table's burst, the report at this place and the one behind it
    /// have changed places.
    InBurst(Burst, usize),
}

#[derive(Clone, Debug, PartialEq, Eq)]
pub struct TwoOrders {
    pub opening: Opening,
    pub parts: Vec<Part>,
}

impl TwoOrders {
    /// Those of the course's own choices.
    pub fn readings(&self) -> Vec<Reading> {
        let reading = |part: &Part| match part {
            Part::Alike(Event::Choose(reading)) => Some(*reading),
            Part::Alike(Event::Arrival(arrival)) => Some(arrival.choice),
            _ => None,
        };
        self.parts.iter().filter_map(reading).collect()
    }
}

/// The next course of a run: a history, datagrams behind one, or one that is made for
/// the edges.
pub fn two_orders(rng: &mut Rng) -> TwoOrders {
    let (course, first) = match rng.below(20) {
        0..=2 => (histories::history(rng).into(), 0),
        3 => (arrivals::course(rng), 0),
        _ => order_courses::course(rng),
    };
    in_two_orders(rng, course, first)
}

/// A single pair, so that all behind it comes of that one, or many. All are at the
/// event of this index or behind it.
pub fn in_two_orders(rng: &mut Rng, course: Course, first: usize) -> TwoOrders {
    let starts: Vec<usize> = (first..course.events.len())
        .filter(|&index| may_start(&course.events[index..]))
        .collect();
    let single = !starts.is_empty() && rng.chance(50);
    let single = single.then(|| rng.pick(&starts));
    let mut parts = Vec::new();
    let mut events = course.events.into_iter().enumerate().peekable();
    while let Some((index, event)) = events.next() {
        let starts = match single {
            Some(single) => index == single,
            None => index >= first && rng.chance(70),
        };
        let within = matches!(event, Event::Burst(_)) && rng.chance(50);
        let pairs = starts && !within && has_reports(&event);
        let next = events.next_if(|(_, next)| pairs && has_reports(next));
        parts.push(match (event, next) {
            (event, Some((_, next))) => Part::Pair(event, next),
            (Event::Burst(burst), None) if starts && burst.reports.len() > 1 => {
                let place = rng.below(burst.reports.len() - 1);
                Part::InBurst(burst, place)
            }
            (event, None) => Part::Alike(event),
        });
    }
    TwoOrders {
        opening: course.opening,
        parts,
    }
}

/// Whether the first of these events has neighbouring reports, or the first two have.
fn may_start(events: &[Event]) -> bool {
    match events {
        [Event::Burst(burst), ..] if burst.reports.len() > 1 => true,
        [first, second, ..] => has_reports(first) && has_reports(second),
        _ => false,
    }
}

/// A datagram may have some.
fn has_reports(event: &Event) -> bool {
    match event {
        Event::Call(call) => matches!(call, Call::Report(..)),
        Event::Burst(burst) => !burst.reports.is_empty(),
        Event::Arrival(_) => true,
        Event::Choose(_) | Event::SetTally(..) => false,
    }
}
