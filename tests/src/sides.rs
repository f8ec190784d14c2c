//! The archive and the independent side behind one trait, so that a text of
//! steps runs on either.

use crate::archive;
use crate::arrivals::Arrival;
use crate::decoder::decode;
use crate::encoder::Message;
use crate::intake::{Answer, Intake};
use crate::items::ROW;
use crate::members::{Call, Choice, Member, Opening, Origin, Reading, Record};
use crate::places::Places;
use crate::replay::replay;
use crate::settings_check::{Query, Suits};
use crate::sync_group::{self, LONGEST_LINE};
use crate::table_values::with_tally;
use prunepocket_sys::{count_items, RecordingAnswered, Refusal, Table};
use prunepocket_sys::{read_sync_group, write_sync_group};
use std::array::from_fn;

/// More calls than a datagram can have.
const MOST_CALLS: usize = 512;

/// A side that holds a table.
pub trait Side: Clone {
    fn open(opening: &Opening) -> Result<Self, u64>;
    fn call(&mut self, call: &Call) -> u64;
    /// The number of a burst; those of its reports go to the list.
    fn burst(&mut self, reports: &[Record], reading: &Reading, list: &mut [u64]) -> u64;
    /// The number of each call that a whole datagram makes.
    fn take(
        &mut self,
        datagram: &[u8],
        reduced_size: bool,
        origin: &Origin,
        reading: &Reading,
    ) -> Result<Vec<u64>, Refusal>;
    fn choose(&self, reading: &Reading) -> Choice;
    /// Whether a settings packet suits the members. The table that is handed back is
    /// the side's from then on.
    fn check_settings(&mut self, query: &Query) -> Suits;
    fn count_members(&self) -> u64;
    fn member_at(&self, place: usize) -> Option<Member>;
    /// The member at each place.
    fn places(&self) -> Places {
        from_fn(|place| self.member_at(place))
    }
    /// Writes the tally of the member with this number.
    fn set_tally(&mut self, source: u32, tally: u32);
    fn count_items(datagram: &[u8], reduced_size: bool) -> Result<u64, Refusal>;
    /// The row of the item at an index.
    fn item_at(datagram: &[u8], reduced_size: bool, index: u64) -> Result<[u64; ROW], Refusal>;
    fn write(message: &Message) -> Result<Vec<u8>, u64>;
    /// The group number of a site file's line.
    fn read_line(line: &[u8]) -> Result<u32, Refusal>;
    /// The line of a group number.
    fn write_line(group: u32) -> Result<Vec<u8>, Refusal>;
    /// A recording through a table of its own; what each entry gave goes to the rows.
    fn replay(recording: &[u8], rows: &mut [u64]) -> RecordingAnswered;
}

impl Answer {
    /// The numbers at the front of a list, or the refusal.
    fn numbers(self, mut list: Vec<u64>) -> Result<Vec<u64>, Refusal> {
        let (number, place) = (self.number, self.place);
        list.truncate(self.count as usize);
        match number {
            0 => Ok(list),
            _ => Err(Refusal { number, place }),
        }
    }
}

impl Side for Table {
    fn open(opening: &Opening) -> Result<Self, u64> {
        archive::open(opening)
    }

    fn call(&mut self, call: &Call) -> u64 {
        let answered = archive::call(self, call);
        *self = answered.table;
        answered.number
    }

    fn burst(&mut self, reports: &[Record], reading: &Reading, list: &mut [u64]) -> u64 {
        let answered = self.report_burst(reports, reading, list);
        *self = answered.table;
        answered.number
    }

    fn take(
        &mut self,
        datagram: &[u8],
        reduced_size: bool,
        origin: &Origin,
        reading: &Reading,
    ) -> Result<Vec<u64>, Refusal> {
        let mut numbers = vec![0; MOST_CALLS];
        let taken = self.take_datagram(datagram, reduced_size, origin, reading, &mut numbers);
        *self = taken.table;
        let answer = Answer {
            number: taken.number,
            place: taken.place,
            count: taken.count,
        };
        answer.numbers(numbers)
    }

    fn choose(&self, reading: &Reading) -> Choice {
        Table::choose(self, reading).choice()
    }

    fn check_settings(&mut self, query: &Query) -> Suits {
        let (settings, reading) = (&query.settings, &query.reading);
        let answered = Table::check_settings(self, settings, reading, query.slack);
        *self = answered.table;
        let verdict = answered.verdict();
        // 1 for yes and 0 for no; beside a refusal it is 0, too.
        assert_eq!(answered.suits, u32::from(verdict == Ok(true)), "{query:?}");
        verdict
    }

    fn count_members(&self) -> u64 {
        Table::count_members(self).into()
    }

    fn member_at(&self, place: usize) -> Option<Member> {
        let shown = Table::member_at(self, place);
        (shown.held == 1).then_some(shown.member)
    }

    fn set_tally(&mut self, source: u32, tally: u32) {
        *self = with_tally(self, source, tally);
    }

    fn count_items(datagram: &[u8], reduced_size: bool) -> Result<u64, Refusal> {
        let mut count = 0;
        count_items(datagram, reduced_size, &mut count).map(|()| count)
    }

    fn item_at(datagram: &[u8], reduced_size: bool, index: u64) -> Result<[u64; ROW], Refusal> {
        archive::item_at(datagram, reduced_size, index)
    }

    fn write(message: &Message) -> Result<Vec<u8>, u64> {
        let mut buffer = vec![0; message.size()];
        let written = archive::write(message, &mut buffer, &mut 0);
        buffer.truncate(written.map_err(|refusal| refusal.number)? as usize);
        Ok(buffer)
    }

    fn read_line(line: &[u8]) -> Result<u32, Refusal> {
        let mut group = 0;
        read_sync_group(line, &mut group).map(|()| group)
    }

    fn write_line(group: u32) -> Result<Vec<u8>, Refusal> {
        let (mut buffer, mut written) = (vec![0; LONGEST_LINE], 0);
        write_sync_group(group, &mut buffer, &mut written)?;
        buffer.truncate(written as usize);
        Ok(buffer)
    }

    fn replay(recording: &[u8], rows: &mut [u64]) -> RecordingAnswered {
        prunepocket_sys::replay(recording, rows)
    }
}

impl Side for Intake {
    fn open(opening: &Opening) -> Result<Self, u64> {
        Intake::open(opening, None)
    }

    fn call(&mut self, call: &Call) -> u64 {
        Intake::call(self, call)
    }

    fn burst(&mut self, reports: &[Record], reading: &Reading, list: &mut [u64]) -> u64 {
        Intake::burst(self, reports, reading, list)
    }

    fn take(
        &mut self,
        datagram: &[u8],
        reduced_size: bool,
        origin: &Origin,
        reading: &Reading,
    ) -> Result<Vec<u64>, Refusal> {
        let arrival = Arrival {
            datagram: datagram.to_vec(),
            reduced_size,
            origin: *origin,
            reading: *reading,
            length: MOST_CALLS,
            choice: *reading,
        };
        let mut numbers = vec![0; MOST_CALLS];
        Intake::take(self, &arrival, &mut numbers).numbers(numbers)
    }

    fn choose(&self, reading: &Reading) -> Choice {
        Intake::choose(self, reading)
    }

    fn check_settings(&mut self, query: &Query) -> Suits {
        Intake::check_settings(self, query)
    }

    fn count_members(&self) -> u64 {
        Intake::count_members(self) as u64
    }

    fn member_at(&self, place: usize) -> Option<Member> {
        self.members().get(place).copied().flatten()
    }

    fn places(&self) -> Places {
        self.members()
    }

    fn set_tally(&mut self, source: u32, tally: u32) {
        Intake::set_tally(self, source, tally);
    }

    fn count_items(datagram: &[u8], reduced_size: bool) -> Result<u64, Refusal> {
        decode(datagram, reduced_size).map(|items| items.len() as u64)
    }

    fn item_at(datagram: &[u8], reduced_size: bool, index: u64) -> Result<[u64; ROW], Refusal> {
        let items = decode(datagram, reduced_size)?;
        // Refusal 9: the index is not below the item count; place 0.
        let item = items.get(index as usize).ok_or(Refusal::new(9, 0))?;
        Ok(item.row())
    }

    fn write(message: &Message) -> Result<Vec<u8>, u64> {
        message.encode_with(message.size(), None)
    }

    fn read_line(line: &[u8]) -> Result<u32, Refusal> {
        let mut group = 0;
        sync_group::read(line, &mut group).map(|()| group)
    }

    fn write_line(group: u32) -> Result<Vec<u8>, Refusal> {
        let (mut buffer, mut written) = (vec![0; LONGEST_LINE], 0);
        sync_group::write(group, &mut buffer, &mut written)?;
        buffer.truncate(written as usize);
        Ok(buffer)
    }

    fn replay(recording: &[u8], rows: &mut [u64]) -> RecordingAnswered {
        replay(recording, rows)
    }
}
