//! The independent intake of a datagram: the decoder's items, and for each
//! report and each farewell in order a call of the register. Beside the rows it
//! keeps the places of their members.
//!
//! As in the decoder, a `Fault` plants one error that the comparison has to
//! find.

use crate::arrivals::Arrival;
use crate::burst::Taker;
use crate::decoder::decode;
use crate::items::{Item, PlacedItem, Refusal};
use crate::members::{Call, Choice, Opening, Reading, Record, ReportFields};
use crate::order_faults::{self, Heard};
use crate::places::{self, count_held_with, lowest_free_with, Held, Joins, Places, PLACES};
use crate::register::{self, Register};
use crate::rejoins::{self, Leaving, Leavings, LeftBy, Rejoins};
use crate::settings_check::{Query, Suits};
use crate::twins::AroundLimit;

#[derive(Clone, Copy, Debug, PartialEq, Eq)]
pub enum Fault {
    /// Settings are counted as calls.
    SettingsCounted,
    /// Settings are taken as reports.
    SettingsFiled,
    /// Farewells before reports.
    FarewellsFirst,
    /// The last item first.
    ItemsReversed,
    /// No call behind one that is refused.
    StoppedAtRefusal,
    /// The numbers of accepted calls alone go to the list.
    AcceptedListed,
    /// The list has to be as long as the items, settings included.
    ItemsNeeded,
    /// A list one too short is taken.
    ShortListTaken,
    /// As many calls as the list is long are made before 10.
    ShortListFilled,
    /// After 10, the count of the calls.
    CountBesideTen,
    /// The first items of a refused datagram are taken.
    RefusedTaken,
    /// 10 before the datagram's own refusal.
    TenFirst,
    /// A refusal is at place 0.
    PlaceZero,
    /// The numbers of the list behind those of the calls become 0.
    RestCleared,
    /// The decoder is told that reduced size was not agreed, whatever was.
    FlagNotPassedOn,
    /// The decoder is told that reduced size was agreed, whatever was.
    FlagTakenAsSet,
    /// The decoder is told what was said with the first datagram.
    FlagKept,
    /// The rule of places errs.
    Places(places::Fault),
    /// A new member's tally errs.
    Rejoins(rejoins::Fault),
    /// The order of arrival matters.
    Orders(order_faults::Fault),
    /// The register errs.
    Register(register::Fault),
}

impl Fault {
    /// All but those of the places, of new members' tallies, of the order of arrival
    /// and of the register.
    pub const ALL: [Fault; 17] = [
        Fault::SettingsCounted,
        Fault::SettingsFiled,
        Fault::FarewellsFirst,
        Fault::ItemsReversed,
        Fault::StoppedAtRefusal,
        Fault::AcceptedListed,
        Fault::ItemsNeeded,
        Fault::ShortListTaken,
        Fault::ShortListFilled,
        Fault::CountBesideTen,
        Fault::RefusedTaken,
        Fault::TenFirst,
        Fault::PlaceZero,
        Fault::RestCleared,
        Fault::FlagNotPassedOn,
        Fault::FlagTakenAsSet,
        Fault::FlagKept,
    ];
}

/// What taking a datagram answers, but the table.
#[derive(Clone, Copy, Debug, PartialEq, Eq)]
pub struct Answer {
    pub number: u64,
    pub place: u64,
    pub count: u64,
}

impl Answer {
    fn accepted(count: usize) -> Self {
        let count = count as u64;
        Answer {
            number: 0,
            place: 0,
            count,
        }
    }

    fn refused(refusal: Refusal) -> Self {
        Answer {
            number: refusal.number,
            place: refusal.place,
            count: 0,
        }
    }
}

/// A register, with the source that stands at each place of a table.
#[derive(Clone)]
pub struct Intake {
    register: Register,
    places: [Option<u32>; PLACES],
    /// The places that have had a member.
    used: Held,
    leavings: Leavings,
    /// For the faults that go by it.
    pub(crate) heard: Option<Heard>,
    /// What was met since the last datagram came.
    pub met: Met,
    fault: Option<Fault>,
    /// The flag of the first datagram, for the fault that keeps it.
    first_flag: Option<bool>,
}

/// What the calls met: new members, and answers of 14.
#[derive(Clone, Copy, Debug, Default)]
pub struct Met {
    pub joins: Joins,
    pub rejoins: Rejoins,
    pub around_limit: AroundLimit,
}

impl Met {
    pub fn add(&mut self, more: &Met) {
        self.joins.add(&more.joins);
        self.rejoins.add(&more.rejoins);
        self.around_limit.add(&more.around_limit);
    }
}

impl Intake {
    /// Without rows, or 12.
    pub fn open(opening: &Opening, fault: Option<Fault>) -> Result<Intake, u64> {
        let register_fault = match fault {
            Some(Fault::Register(fault)) => Some(fault),
            _ => None,
        };
        let register = Register::open(opening, register_fault)?;
        Ok(Intake {
            register,
            places: [None; PLACES],
            used: [false; PLACES],
            leavings: Leavings::default(),
            heard: None,
            met: Met::default(),
            fault,
            first_flag: None,
        })
    }

    fn planted(&self, fault: Fault) -> bool {
        self.fault == Some(fault)
    }

    fn places_fault(&self) -> Option<places::Fault> {
        match self.fault {
            Some(Fault::Places(fault)) => Some(fault),
            _ => None,
        }
    }

    pub fn choose(&self, reading: &Reading) -> Choice {
        match self.fault {
            Some(Fault::Orders(fault)) => fault.choose(self, reading),
            _ => self.register.choose(reading),
        }
    }

    pub fn check_settings(&self, query: &Query) -> Suits {
        self.register.check_settings(query)
    }

    /// The number with the lowest key is chosen among equals.
    pub(crate) fn choose_by(&self, reading: &Reading, key: impl Fn(u32) -> u32) -> Choice {
        self.register.choose_by(reading, key)
    }

    /// The member at each place.
    pub fn members(&self) -> Places {
        let member = |source: u32| self.register.member_of(source);
        self.places.map(|source| source.and_then(member))
    }

    /// The place of the member with this number.
    pub(crate) fn place_of(&self, source: u32) -> Option<usize> {
        self.places.iter().position(|held| *held == Some(source))
    }

    /// As if the number of a member had been refused with 14 so often.
    pub fn set_tally(&mut self, source: u32, tally: u32) {
        self.register.set_tally(source, tally);
    }

    pub fn count_members(&self) -> usize {
        count_held_with(&self.held(), self.places_fault())
    }

    fn held(&self) -> Held {
        self.places.map(|source| source.is_some())
    }

    /// A single call: the refusal's number, or 0 where there is none.
    pub fn call(&mut self, call: &Call) -> u64 {
        match (self.fault, call) {
            (Some(Fault::Orders(fault)), Call::Report(told, reading)) => {
                fault.report(self, told, reading)
            }
            _ => self.make_call(call),
        }
    }

    /// The same, whatever was heard last.
    pub(crate) fn make_call(&mut self, call: &Call) -> u64 {
        let tally = call
            .source()
            .map_or(0, |source| self.register.tally(source));
        let number = self.register.call(call);
        match (*call, number) {
            // 18 is the last check, and it is for the places to say.
            (Call::Report(told, _), 0 | 18) => return self.take_place(told.source),
            (Call::Farewell(source, _), 0) => {
                self.keep_places(LeftBy::Farewell, |held| held != source);
            }
            (Call::Sweep(_), 0) => {
                let rows: Vec<u32> = self.register.rows().iter().map(|row| row.source).collect();
                self.keep_places(LeftBy::Sweep, |held| rows.contains(&held));
            }
            (_, 14) => self.met.around_limit.count(call, tally),
            _ => {}
        }
        number
    }

    /// A new member takes the lowest free place, or gets 18 where there is none.
    fn take_place(&mut self, source: u32) -> u64 {
        if self.place_of(source).is_some() {
            return 0;
        }
        let held = self.held();
        let Some(place) = lowest_free_with(&held, self.places_fault()) else {
            return 18;
        };
        self.met.joins.count(&held, &mut self.used, place);
        self.met.rejoins.count(&self.leavings, source, place);
        self.places[place] = Some(source);
        if let Some(Fault::Rejoins(fault)) = self.fault {
            let tally = self.leavings.first_tally(source, place, Some(fault));
            self.register.set_tally(source, tally);
        }
        0
    }

    fn keep_places(&mut self, by: LeftBy, keeps: impl Fn(u32) -> bool) {
        for (place, held) in self.places.iter_mut().enumerate() {
            let Some(source) = held.filter(|&source| !keeps(source)) else {
                continue;
            };
            let tally = self.register.tally(source);
            self.leavings.add(Leaving {
                by,
                source,
                place,
                tally,
            });
            *held = None;
        }
    }

    /// The burst's number; those of its reports go to the list.
    pub fn burst(&mut self, reports: &[Record], reading: &Reading, list: &mut [u64]) -> u64 {
        let fault = match self.fault {
            Some(Fault::Register(register::Fault::Burst(fault))) => Some(fault),
            _ => None,
        };
        let call = Intake::call;
        let side = self;
        Taker { side, call, fault }.take(reports, reading, list)
    }

    /// Takes a whole datagram, with this list for the calls' numbers.
    pub fn take(&mut self, arrival: &Arrival, list: &mut [u64]) -> Answer {
        self.met = Met::default();
        match decode(&arrival.datagram, self.flag(arrival.reduced_size)) {
            Ok(items) => self.take_items(arrival, &items, list),
            Err(refusal) => self.refuse(arrival, refusal, list.len()),
        }
    }

    /// What the decoder is told of reduced size.
    fn flag(&mut self, reduced_size: bool) -> bool {
        let first = *self.first_flag.get_or_insert(reduced_size);
        match self.fault {
            Some(Fault::FlagNotPassedOn) => false,
            Some(Fault::FlagTakenAsSet) => true,
            Some(Fault::FlagKept) => first,
            _ => reduced_size,
        }
    }

    /// The list is as before, and no call is made.
    fn refuse(&mut self, arrival: &Arrival, refusal: Refusal, length: usize) -> Answer {
        match self.fault {
            Some(Fault::RefusedTaken) => {
                let items = first_items(arrival);
                for call in self.calls(arrival, &items).into_iter().flatten() {
                    self.call(&call);
                }
            }
            Some(Fault::TenFirst) => {
                let items = first_items(arrival);
                if self.calls(arrival, &items).len() > length {
                    return Answer::refused(Refusal::new(10, 0));
                }
            }
            Some(Fault::PlaceZero) => {
                return Answer::refused(Refusal {
                    place: 0,
                    ..refusal
                });
            }
            _ => {}
        }
        Answer::refused(refusal)
    }

    fn take_items(&mut self, arrival: &Arrival, items: &[PlacedItem], list: &mut [u64]) -> Answer {
        let calls = self.calls(arrival, items);
        let needed = match self.fault {
            Some(Fault::ItemsNeeded) => items.len(),
            Some(Fault::ShortListTaken) => calls.len().saturating_sub(1),
            _ => calls.len(),
        };
        if list.len() < needed {
            if self.planted(Fault::ShortListFilled) {
                self.make(&calls, list);
            }
            let mut answer = Answer::refused(Refusal::new(10, 0));
            if self.planted(Fault::CountBesideTen) {
                answer.count = calls.len() as u64;
            }
            return answer;
        }
        Answer::accepted(self.make(&calls, list))
    }

    /// Makes the calls in order: their numbers go to the front of the list.
    /// Answers how many there are.
    fn make(&mut self, calls: &[Option<Call>], list: &mut [u64]) -> usize {
        let mut numbers = Vec::new();
        for call in calls {
            let number = call.map_or(0, |call| self.call(&call));
            if number == 0 || !self.planted(Fault::AcceptedListed) {
                numbers.push(number);
            }
            if number != 0 && self.planted(Fault::StoppedAtRefusal) {
                break;
            }
        }
        if self.planted(Fault::RestCleared) {
            list.fill(0);
        }
        for (place, number) in list.iter_mut().zip(&numbers) {
            *place = *number;
        }
        numbers.len()
    }

    /// A call for each report and each farewell; settings are passed by. A call
    /// that is none stands for settings that are counted.
    fn calls(&self, arrival: &Arrival, items: &[PlacedItem]) -> Vec<Option<Call>> {
        let mut items = items.to_vec();
        match self.fault {
            Some(Fault::FarewellsFirst) => {
                items.sort_by_key(|item| !matches!(item.item, Item::Farewell { .. }));
            }
            Some(Fault::ItemsReversed) => items.reverse(),
            _ => {}
        }
        let calls = items.iter().map(|item| self.call_of(arrival, &item.item));
        match self.fault {
            Some(Fault::SettingsCounted) => calls.collect(),
            _ => calls.filter(Option::is_some).collect(),
        }
    }

    fn call_of(&self, arrival: &Arrival, item: &Item) -> Option<Call> {
        let file = |source: u32, report: ReportFields| {
            let record = Record {
                source,
                origin: arrival.origin,
                report,
            };
            Some(Call::Report(record, arrival.reading))
        };
        match item {
            Item::Report(report) => file(
                report.source,
                ReportFields {
                    received: report.received,
                    group: report.group,
                    media: report.media,
                    rtp: report.rtp,
                    presented: report.presented,
                    payload_type: report.payload_type,
                    p: u8::from(report.p),
                },
            ),
            Item::Settings(settings) if self.planted(Fault::SettingsFiled) => file(
                settings.source,
                ReportFields {
                    received: settings.received,
                    group: settings.group,
                    media: settings.media,
                    rtp: settings.rtp,
                    presented: (settings.presented >> 16) as u32,
                    payload_type: 0,
                    p: u8::from(settings.presented != 0),
                },
            ),
            Item::Settings(_) => None,
            Item::Farewell { source } => Some(Call::Farewell(*source, arrival.origin)),
        }
    }
}

/// The items of a refused datagram's longest front that is not refused.
fn first_items(arrival: &Arrival) -> Vec<PlacedItem> {
    let fronts = (0..arrival.datagram.len()).rev();
    fronts
        .filter_map(|end| decode(&arrival.datagram[..end], arrival.reduced_size).ok())
        .next()
        .unwrap_or_default()
}
