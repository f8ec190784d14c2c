//! A seeded generator of courses: the calls of a history, then datagrams that
//! arrive at its table. Many of them speak of the table's own group, sources and
//! times, also where they are spoilt.

use crate::decoder::decode;
use crate::generator::{self, Compound, Rng, Start};
use crate::histories::{history_with_world, History, Step, World};
use crate::items::{Item, Report, Settings};
use crate::members::{Burst, Call, Opening, Origin, Reading};

/// The most events behind the calls of the history.
const MOST_EVENTS: usize = 40;

/// A datagram that is taken in.
#[derive(Clone, Debug, PartialEq, Eq)]
pub struct Arrival {
    pub datagram: Vec<u8>,
    /// Whether reduced size was agreed with the sender.
    pub reduced_size: bool,
    pub origin: Origin,
    pub reading: Reading,
    /// The length of the list that is lent.
    pub length: usize,
    /// A further reading, at which is chosen afterwards.
    pub choice: Reading,
}

#[derive(Clone, Debug, PartialEq, Eq)]
pub enum Event {
    Call(Call),
    Burst(Burst),
    Arrival(Arrival),
    Choose(Reading),
    /// As that of a history.
    SetTally(u32, u32),
}

#[derive(Clone, Debug, PartialEq, Eq)]
pub struct Course {
    pub opening: Opening,
    pub events: Vec<Event>,
}

impl Event {
    /// That of a step. Members are looked at without one.
    pub(crate) fn of(step: Step) -> Option<Event> {
        match step {
            Step::Call(call) => Some(Event::Call(call)),
            Step::Burst(burst) => Some(Event::Burst(burst)),
            Step::Choose(reading) => Some(Event::Choose(reading)),
            Step::SetTally(source, tally) => Some(Event::SetTally(source, tally)),
            Step::Members => None,
        }
    }
}

impl From<History> for Course {
    fn from(history: History) -> Self {
        Course {
            opening: history.opening,
            events: history.steps.into_iter().filter_map(Event::of).collect(),
        }
    }
}

/// The next course of a run.
pub fn course(rng: &mut Rng) -> Course {
    let (history, mut world) = history_with_world(rng);
    let mut course = Course::from(history);
    for _ in 0..rng.between(1, MOST_EVENTS) {
        course.events.push(match rng.below(100) {
            0..=4 => Event::Call(world.call(rng)),
            // So that members come back by datagrams after a sweep, too.
            5..=7 => Event::Call(Call::Sweep(world.some_reading(rng))),
            _ => Event::Arrival(arrival(rng, &mut world)),
        });
    }
    course
}

fn arrival(rng: &mut Rng, world: &mut World) -> Arrival {
    world.advance(rng);
    let (_, origin) = world.sender(rng);
    let datagram = datagram(rng, world, &origin);
    let reduced_size = rng.chance(50);
    Arrival {
        length: list_length(rng, &datagram, reduced_size),
        datagram,
        reduced_size,
        origin,
        reading: world.clock,
        choice: world.some_reading(rng),
    }
}

/// Any datagram, or one that fits the table, spoilt or not.
fn datagram(rng: &mut Rng, world: &mut World, origin: &Origin) -> Vec<u8> {
    if rng.chance(20) {
        return generator::datagram(rng);
    }
    let start = generator::start(rng);
    let mut compound = fitted(rng, world, origin, start);
    if rng.chance(35) {
        generator::spoil(rng, &mut compound);
    }
    compound.bytes
}

/// A valid compound that fits the table.
pub(crate) fn fitted(rng: &mut Rng, world: &mut World, origin: &Origin, start: Start) -> Compound {
    let mut compound = match rng.chance(65) {
        true => generator::crowded(rng, start),
        false => generator::valid(rng, start),
    };
    fit(rng, world, origin, &mut compound);
    compound
}

/// Makes most packets with items speak of the world's sources and times.
pub(crate) fn fit(rng: &mut Rng, world: &mut World, origin: &Origin, compound: &mut Compound) {
    let mut packet = None;
    let mut sender = None;
    for index in 0..compound.items.len() {
        let item = compound.items[index];
        let around = Some(compound.packet_at(item.place));
        if packet != around {
            packet = around;
            sender = match rng.chance(92) {
                true => Some(world.source_at(rng, origin)),
                false => None,
            };
        }
        let Some(source) = sender else {
            continue;
        };
        let item = match item.item {
            Item::Report(_) => Item::Report(report(rng, world, source)),
            Item::Settings(_) => Item::Settings(settings(rng, world, source)),
            Item::Farewell { .. } => Item::Farewell {
                source: world.leaver(rng, origin),
            },
        };
        compound.retell(index, item);
    }
}

/// A report at the clock's reading, with the fields that a block has room for.
fn report(rng: &mut Rng, world: &mut World, source: u32) -> Report {
    let report = world.report(rng);
    let p = report.p == 1;
    Report {
        source,
        payload_type: report.payload_type >> 1,
        p,
        group: report.group,
        media: report.media,
        received: report.received,
        rtp: report.rtp,
        presented: if p { report.presented } else { 0 },
    }
}

/// Settings that would pass for a report.
fn settings(rng: &mut Rng, world: &mut World, source: u32) -> Settings {
    let report = report(rng, world, source);
    Settings {
        source,
        group: report.group,
        media: report.media,
        received: report.received,
        rtp: report.rtp,
        presented: u64::from(report.presented) << 16,
    }
}

/// Exactly as long as the calls are many, longer, or at times too short.
fn list_length(rng: &mut Rng, datagram: &[u8], reduced_size: bool) -> usize {
    let items = decode(datagram, reduced_size).unwrap_or_default();
    let calls = items
        .iter()
        .filter(|item| !matches!(item.item, Item::Settings(_)))
        .count();
    match rng.below(20) {
        0 => calls.saturating_sub(1),
        1 => rng.below(calls + 1),
        2..=9 => calls,
        _ => calls + rng.pick(&[1, 2, 9, 40, 512]),
    }
}

#[cfg(test)]
mod tests {
    use super::*;

    #[test]
    fn fitted_compounds_decode_to_the_items_told() {
        let mut rng = Rng::new(generator::seed());
        for _ in 0..2_000 {
            let (_, mut world) = history_with_world(&mut rng);
            let (_, origin) = world.sender(&mut rng);
            let start = generator::start(&mut rng);
            for make in [generator::valid, generator::crowded] {
                let mut compound = make(&mut rng, start);
                fit(&mut rng, &mut world, &origin, &mut compound);
                assert_eq!(decode(&compound.bytes, true), Ok(compound.items));
            }
        }
    }
}
