//! The archive, told what the independent side is told.

use crate::encoder::Message;
use crate::items::ROW;
use crate::members::{Call, Opening};
use prunepocket_sys::{item_field, write_report, write_settings, Answered, Refusal, Table};

/// The row of the item at an index, by its fields; a column that the item does not have
/// is 0.
pub fn item_at(datagram: &[u8], reduced_size: bool, index: u64) -> Result<[u64; ROW], Refusal> {
    let mut row = [0; ROW];
    item_field(datagram, reduced_size, index, 0, &mut row[0])?;
    let fields = match row[0] {
        1 => 10,
        2 => 8,
        _ => 3,
    };
    for (field, value) in (0..).zip(&mut row[..fields]) {
        item_field(datagram, reduced_size, index, field, value)?;
    }
    Ok(row)
}

/// How many bytes of either message were written.
pub fn write(message: &Message, buffer: &mut [u8], written: &mut u64) -> Result<u64, Refusal> {
    match message {
        Message::Report(fields) => write_report(fields, buffer, written)?,
        Message::Settings(fields) => write_settings(fields, buffer, written)?,
    }
    Ok(*written)
}

/// The new table, or the number of the refusal.
pub fn open(opening: &Opening) -> Result<Table, u64> {
    Table::open(opening.group, opening.media, opening.rate)
}

pub fn call(table: &Table, call: &Call) -> Answered {
    match call {
        Call::Report(record, reading) => table.report(record, reading),
        Call::Farewell(source, origin) => table.farewell(*source, origin),
        Call::Sweep(reading) => table.sweep(reading),
    }
}
