//! The independent replay of a recording: its layout, then each datagram in turn
//! through the independent intake, then the choice at the last entry's reading.
//!
//! As in the decoder, a `Fault` plants one error that the comparison has to
//! find.

use crate::arrivals::Arrival;
use crate::decoder::decode;
use crate::intake::{self, Intake};
use crate::items::{Item, PlacedItem};
use crate::members::{Call, Choice, Reading};
use crate::plain_reports::OPENING;
use crate::recording::{self, read_opening, read_with, Entry, Recording};
use crate::register;
use prunepocket_sys::RecordingAnswered;

/// Columns of an entry's row: items, accepted, first refusal or 0.
pub const ENTRY_ROW: usize = 3;

/// More calls than a datagram can have.
const MOST_CALLS: usize = 512;

pub type Row = [u64; ENTRY_ROW];

#[derive(Clone, Copy, Debug, PartialEq, Eq)]
pub enum Fault {
    /// 12 before 25.
    TwelveFirst,
    /// 10 before 12.
    TenBeforeTwelve,
    /// 10 before 25, for the entry count that the head gives.
    TenFirst,
    /// 10 for rows that are exactly long enough.
    ExactRowsRefused,
    /// Rows one number too short are taken, and the last number is lost.
    ShortRowsTaken,
    /// 10 for an empty array, also where there are no entries.
    EmptyRowsRefused,
    /// Rows have to be long enough for 256 entries.
    AllRowsNeeded,
    /// Rows that are too short are filled before 10.
    ShortRowsFilled,
    /// The number of a refusal goes to the front of the rows.
    RefusalInRows,
    /// Without entries no table is opened, and 12 is not given.
    NotOpenedWithoutEntries,
    /// After 12 and 10, the entry count.
    EntriesBesideRefusal,
    /// After a refusal, 0 for the choice.
    ChoiceBesideRefusal,
    /// The numbers of the rows behind the last become 0.
    RowsBehindCleared,
    /// The number behind the last row becomes 0.
    NumberBehindWritten,
    /// The last entry is left out, but for its reading.
    LastEntryLeftOut,
    /// The columns of all entries stand one behind the other.
    RowsByColumn,
    /// Settings count as accepted.
    SettingsAccepted,
    /// Settings do not count as items.
    SettingsNotItems,
    /// Farewells do not count as accepted.
    FarewellsNotAccepted,
    /// Only accepted items count as items.
    AcceptedAreItems,
    /// The last refusal in place of the first.
    LastRefusal,
    /// The greatest refusal number in place of the first.
    GreatestRefusal,
    /// Accepted items are counted on from entry to entry.
    AcceptedCarried,
    /// The first refusal stays from entry to entry.
    RefusalCarried,
    /// A datagram that the reader refuses has one item.
    RefusedHasItem,
    /// A datagram that the reader refuses has the items before the refusal.
    RefusedHasFirstItems,
    /// A datagram that the reader refuses has number 0.
    ReaderNumberLost,
    /// Behind a datagram that the reader refuses, none is taken.
    StoppedAtRefused,
    /// Datagrams are read as where reduced size was agreed.
    ReducedSizeAgreed,
    /// Each entry gets a table just opened.
    TableNotCarried,
    /// The table is swept at each entry's reading.
    TableSwept,
    /// Chooses at the first entry's reading.
    ChoiceAtFirstReading,
    /// Chooses at the reading of the last datagram that the reader takes.
    ChoiceAtTakenReading,
    /// Chooses at the greatest N.
    ChoiceAtGreatestReading,
    /// Chooses at the last entry's N and the first one's R.
    ChoiceAtFirstRtp,
    /// Chooses before the last entry's datagram is taken.
    ChoiceBeforeLast,
    /// No target where the reader refuses the last datagram.
    ChoiceLostWithDatagram,
    /// The layout is misread.
    Recording(recording::Fault),
    /// The intake errs.
    Intake(intake::Fault),
}

impl Fault {
    /// All but those of the layout and the intake.
    pub const PLAIN: [Fault; 37] = [
        Fault::TwelveFirst,
        Fault::TenBeforeTwelve,
        Fault::TenFirst,
        Fault::ExactRowsRefused,
        Fault::ShortRowsTaken,
        Fault::EmptyRowsRefused,
        Fault::AllRowsNeeded,
        Fault::ShortRowsFilled,
        Fault::RefusalInRows,
        Fault::NotOpenedWithoutEntries,
        Fault::EntriesBesideRefusal,
        Fault::ChoiceBesideRefusal,
        Fault::RowsBehindCleared,
        Fault::NumberBehindWritten,
        Fault::LastEntryLeftOut,
        Fault::RowsByColumn,
        Fault::SettingsAccepted,
        Fault::SettingsNotItems,
        Fault::FarewellsNotAccepted,
        Fault::AcceptedAreItems,
        Fault::LastRefusal,
        Fault::GreatestRefusal,
        Fault::AcceptedCarried,
        Fault::RefusalCarried,
        Fault::RefusedHasItem,
        Fault::RefusedHasFirstItems,
        Fault::ReaderNumberLost,
        Fault::StoppedAtRefused,
        Fault::ReducedSizeAgreed,
        Fault::TableNotCarried,
        Fault::TableSwept,
        Fault::ChoiceAtFirstReading,
        Fault::ChoiceAtTakenReading,
        Fault::ChoiceAtGreatestReading,
        Fault::ChoiceAtFirstRtp,
        Fault::ChoiceBeforeLast,
        Fault::ChoiceLostWithDatagram,
    ];

    /// Faults of the intake that a replay shows.
    pub const OF_INTAKE: [intake::Fault; 5] = [
        intake::Fault::SettingsFiled,
        intake::Fault::FarewellsFirst,
        intake::Fault::ItemsReversed,
        intake::Fault::StoppedAtRefusal,
        intake::Fault::RefusedTaken,
    ];

    /// Faults of the register's opening, of its places, of twins and of choosing.
    pub const OF_REGISTER: [register::Fault; 12] = [
        register::Fault::GroupZeroOpened,
        register::Fault::LastGroupOpened,
        register::Fault::RateZeroOpened,
        register::Fault::FastRateOpened,
        register::Fault::OriginUnchecked,
        register::Fault::TwinFarewellRemoves,
        register::Fault::Rows(63),
        register::Fault::Rows(65),
        register::Fault::StaleCounted,
        register::Fault::ArrivalCountedToo,
        register::Fault::StepZeroFullTurn,
        register::Fault::PresentedInArrival,
    ];
}

/// Runs a recording through a table, with these rows for its entries.
pub fn replay(recording: &[u8], rows: &mut [u64]) -> RecordingAnswered {
    replay_with(recording, rows, None)
}

pub fn replay_with(recording: &[u8], rows: &mut [u64], fault: Option<Fault>) -> RecordingAnswered {
    let replayer = Replayer { fault };
    match replayer.open(recording, rows.len()) {
        Ok((recording, intake)) => replayer.run(&recording, intake, rows),
        Err(number) => replayer.refuse(number, recording, rows),
    }
}

struct Replayer {
    fault: Option<Fault>,
}

impl Replayer {
    fn planted(&self, fault: Fault) -> bool {
        self.fault == Some(fault)
    }

    fn recording_fault(&self) -> Option<recording::Fault> {
        match self.fault {
            Some(Fault::Recording(fault)) => Some(fault),
            _ => None,
        }
    }

    fn intake_fault(&self) -> Option<intake::Fault> {
        match self.fault {
            Some(Fault::Intake(fault)) => Some(fault),
            _ => None,
        }
    }

    /// The recording and a new table for it; or 25, then 12, then 10.
    fn open(&self, bytes: &[u8], length: usize) -> Result<(Recording, Intake), u64> {
        if let (Some(Fault::TwelveFirst), Some(opening)) = (self.fault, read_opening(bytes)) {
            Intake::open(&opening, None)?;
        }
        if let (Some(Fault::TenFirst), Some(count)) = (self.fault, bytes.first_chunk()) {
            self.check_rows(u32::from_be_bytes(*count) as usize, length)?;
        }
        let recording = read_with(bytes, self.recording_fault()).map_err(|_| 25u64)?;
        if self.planted(Fault::TenBeforeTwelve) {
            self.check_rows(recording.entries.len(), length)?;
        }
        let opening = match self.fault {
            Some(Fault::NotOpenedWithoutEntries) if recording.entries.is_empty() => OPENING,
            _ => recording.opening,
        };
        let intake = Intake::open(&opening, self.intake_fault())?;
        self.check_rows(recording.entries.len(), length)?;
        Ok((recording, intake))
    }

    /// Refusal 10: the rows are too short for the entries.
    fn check_rows(&self, entries: usize, length: usize) -> Result<(), u64> {
        let needed = ENTRY_ROW * entries;
        let needed = match self.fault {
            Some(Fault::ExactRowsRefused) => needed + 1,
            Some(Fault::ShortRowsTaken) => needed.saturating_sub(1),
            Some(Fault::EmptyRowsRefused) => needed.max(1),
            Some(Fault::AllRowsNeeded) => ENTRY_ROW * recording::ENTRY_LIMIT,
            _ => needed,
        };
        if length < needed {
            return Err(10);
        }
        Ok(())
    }

    /// The rows are as before. There are no entries, and there is no target.
    fn refuse(&self, number: u64, bytes: &[u8], rows: &mut [u64]) -> RecordingAnswered {
        let mut replayed = answer(0, Err(20));
        replayed.number = number;
        match self.fault {
            Some(Fault::ChoiceBesideRefusal) => replayed.choice = 0,
            Some(Fault::EntriesBesideRefusal) => {
                let recording = read_with(bytes, None);
                replayed.entries = recording.map_or(0, |read| read.entries.len() as u64);
            }
            Some(Fault::RefusalInRows) => {
                if let Some(front) = rows.first_mut() {
                    *front = number;
                }
            }
            Some(Fault::ShortRowsFilled) if number == 10 => {
                if let Ok((recording, intake)) = self.open(bytes, usize::MAX) {
                    self.run(&recording, intake, rows);
                }
            }
            _ => {}
        }
        replayed
    }

    fn run(
        &self,
        recording: &Recording,
        mut intake: Intake,
        rows: &mut [u64],
    ) -> RecordingAnswered {
        let entries = &recording.entries;
        let last = entries.len().saturating_sub(1);
        if self.planted(Fault::RowsBehindCleared) {
            rows.fill(0);
        }
        let mut before_last = None;
        let mut carried = Row::default();
        for (index, entry) in entries.iter().enumerate() {
            if index == last && self.planted(Fault::LastEntryLeftOut) {
                break;
            }
            if index == last && self.planted(Fault::ChoiceBeforeLast) {
                before_last = Some(intake.clone());
            }
            self.prepare(recording, entry, &mut intake);
            let row = self.row(&mut intake, entry);
            let row = self.carry(&mut carried, row);
            self.put(rows, entries.len(), index, &row);
            if matches!(row, [0, 0, 1..=7]) && self.planted(Fault::StoppedAtRefused) {
                break;
            }
        }
        let intake = before_last.unwrap_or(intake);
        answer(entries.len(), self.choose(entries, &intake))
    }

    /// What a fault does to the table before an entry.
    fn prepare(&self, recording: &Recording, entry: &Entry, intake: &mut Intake) {
        match self.fault {
            Some(Fault::TableNotCarried) => {
                if let Ok(new) = Intake::open(&recording.opening, None) {
                    *intake = new;
                }
            }
            Some(Fault::TableSwept) => {
                intake.call(&Call::Sweep(entry.reading));
            }
            _ => {}
        }
    }

    /// What an entry's datagram gives.
    fn row(&self, intake: &mut Intake, entry: &Entry) -> Row {
        let reduced_size = self.planted(Fault::ReducedSizeAgreed);
        let arrival = Arrival {
            datagram: entry.body.clone(),
            reduced_size,
            origin: entry.origin,
            reading: entry.reading,
            length: MOST_CALLS,
            choice: entry.reading,
        };
        let mut numbers = vec![0; MOST_CALLS];
        let answer = intake.take(&arrival, &mut numbers);
        match decode(&entry.body, reduced_size) {
            Ok(items) => self.taken(&items, &numbers[..answer.count as usize]),
            Err(refusal) => self.refused(&entry.body, refusal.number),
        }
    }

    /// Of the items, how many there are, how many were accepted, and the first
    /// refusal. Settings are neither accepted nor refused.
    fn taken(&self, items: &[PlacedItem], numbers: &[u64]) -> Row {
        let is_settings = |item: &&PlacedItem| matches!(item.item, Item::Settings(_));
        let settings = items.iter().filter(is_settings).count();
        let calls = items.iter().filter(|item| !is_settings(item));
        let accepted = calls.zip(numbers).filter(|(item, number)| match item.item {
            Item::Farewell { .. } if self.planted(Fault::FarewellsNotAccepted) => false,
            _ => **number == 0,
        });
        let accepted = accepted.count();
        let refusals: Vec<u64> = numbers.iter().copied().filter(|&one| one != 0).collect();
        let refusal = match self.fault {
            Some(Fault::LastRefusal) => refusals.last().copied(),
            Some(Fault::GreatestRefusal) => refusals.iter().copied().max(),
            _ => refusals.first().copied(),
        };
        let (count, accepted) = match self.fault {
            Some(Fault::SettingsAccepted) => (items.len(), accepted + settings),
            Some(Fault::SettingsNotItems) => (items.len() - settings, accepted),
            Some(Fault::AcceptedAreItems) => (accepted, accepted),
            _ => (items.len(), accepted),
        };
        [count as u64, accepted as u64, refusal.unwrap_or(0)]
    }

    /// A datagram that the reader refuses has no items.
    fn refused(&self, body: &[u8], number: u64) -> Row {
        match self.fault {
            Some(Fault::RefusedHasItem) => [1, 0, number],
            Some(Fault::RefusedHasFirstItems) => [first_items(body), 0, number],
            Some(Fault::ReaderNumberLost) => [0, 0, 0],
            _ => [0, 0, number],
        }
    }

    /// What a fault keeps of the rows before.
    fn carry(&self, carried: &mut Row, mut row: Row) -> Row {
        match self.fault {
            Some(Fault::AcceptedCarried) => row[1] += carried[1],
            Some(Fault::RefusalCarried) if carried[2] != 0 => row[2] = carried[2],
            _ => {}
        }
        *carried = row;
        row
    }

    /// Numbers of the rows that are not lent are lost, which only a fault needs.
    fn put(&self, rows: &mut [u64], entries: usize, index: usize, row: &Row) {
        for (column, number) in row.iter().enumerate() {
            let place = match self.fault {
                Some(Fault::RowsByColumn) => column * entries + index,
                _ => ENTRY_ROW * index + column,
            };
            if let Some(place) = rows.get_mut(place) {
                *place = *number;
            }
        }
        if self.planted(Fault::NumberBehindWritten) {
            if let Some(behind) = rows.get_mut(ENTRY_ROW * entries) {
                *behind = 0;
            }
        }
    }

    /// The choice at the last entry's reading; without entries there is none.
    fn choose(&self, entries: &[Entry], intake: &Intake) -> Choice {
        let taken = |entry: &&Entry| decode(&entry.body, false).is_ok();
        let entry = match self.fault {
            Some(Fault::ChoiceAtFirstReading) => entries.first(),
            Some(Fault::ChoiceAtTakenReading) => entries.iter().rfind(taken),
            Some(Fault::ChoiceAtGreatestReading) => {
                entries.iter().max_by_key(|entry| entry.reading.ntp)
            }
            Some(Fault::ChoiceLostWithDatagram) => entries.last().filter(taken),
            _ => entries.last(),
        };
        let mut reading: Reading = entry.ok_or(20u64)?.reading;
        if self.planted(Fault::ChoiceAtFirstRtp) {
            reading.rtp = entries[0].reading.rtp;
        }
        intake.choose(&reading)
    }
}

/// What a recording that is not refused gets.
fn answer(entries: usize, choice: Choice) -> RecordingAnswered {
    RecordingAnswered {
        number: 0,
        entries: entries as u64,
        choice: choice.err().unwrap_or(0),
        target: choice.unwrap_or_default(),
    }
}

/// How many items the longest front of a datagram has that is not refused.
fn first_items(body: &[u8]) -> u64 {
    let fronts = (0..body.len()).rev();
    let items = fronts.filter_map(|end| decode(&body[..end], false).ok());
    items.map(|items| items.len() as u64).next().unwrap_or(0)
}
