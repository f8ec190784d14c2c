//! The readers and the writers.

use crate::functions::{
    prunepocket_count_items, prunepocket_item_field, prunepocket_read_items,
    prunepocket_read_sync_group, prunepocket_write_report, prunepocket_write_settings,
    prunepocket_write_sync_group,
};
use crate::structs::Answer;
use std::fmt;

/// A refusal's number, and the byte of the datagram at which it was met.
#[derive(Clone, Copy, Debug, PartialEq, Eq)]
pub struct Refusal {
    pub number: u64,
    pub place: u64,
}

impl Refusal {
    #[inline]
    pub fn new(number: u64, place: usize) -> Self {
        let place = place as u64;
        Refusal { number, place }
    }
}

impl fmt::Display for Refusal {
    fn fmt(&self, f: &mut fmt::Formatter<'_>) -> fmt::Result {
        write!(f, "refused {} at {}", self.number, self.place)
    }
}

impl Answer {
    /// Only number 0 with place 0 says that the call was not refused.
    #[inline]
    fn refusal(self) -> Result<(), Refusal> {
        match (self.number, self.place) {
            (0, 0) => Ok(()),
            (number, place) => Err(Refusal { number, place }),
        }
    }
}

/// What the report writer is given: numbers of C's widths, in range or not.
#[derive(Clone, Copy, Debug, PartialEq, Eq)]
pub struct ReportMessage {
    pub sender: u32,
    pub payload_type: u32,
    pub p: u32,
    pub group: u32,
    pub media: u32,
    pub received: u64,
    pub rtp: u32,
    pub presented: u32,
}

/// What the settings writer is given.
#[derive(Clone, Copy, Debug, PartialEq, Eq)]
pub struct SettingsMessage {
    pub sender: u32,
    pub group: u32,
    pub media: u32,
    pub received: u64,
    pub rtp: u32,
    /// 0 if empty.
    pub presented: u64,
}

/// Puts how many items the datagram has into `count`. Here and below,
/// `reduced_size` says whether reduced-size RTCP was agreed with its sender.
#[inline]
pub fn count_items(datagram: &[u8], reduced_size: bool, count: &mut u64) -> Result<(), Refusal> {
    let (bytes, length) = (datagram.as_ptr(), datagram.len());
    // SAFETY: pointers and lengths come from live slices and references, none
    // of which share memory; the pointer of an empty slice is not null.
    unsafe { prunepocket_count_items(bytes, length, reduced_size.into(), count) }.refusal()
}

/// Puts a field of the item at an index into `value`.
#[inline]
pub fn item_field(
    datagram: &[u8],
    reduced_size: bool,
    index: u64,
    field: u64,
    value: &mut u64,
) -> Result<(), Refusal> {
    let (bytes, length) = (datagram.as_ptr(), datagram.len());
    // SAFETY: as for count_items.
    unsafe { prunepocket_item_field(bytes, length, reduced_size.into(), index, field, value) }
        .refusal()
}

/// Puts every item into `rows`, and how many there are into `count`.
#[inline]
pub fn read_items(
    datagram: &[u8],
    reduced_size: bool,
    rows: &mut [u64],
    count: &mut u64,
) -> Result<(), Refusal> {
    // SAFETY: as for count_items.
    unsafe {
        prunepocket_read_items(
            datagram.as_ptr(),
            datagram.len(),
            reduced_size.into(),
            rows.as_mut_ptr(),
            rows.len(),
            count,
        )
    }
    .refusal()
}

/// Puts the message at the front of `buffer`, and its length into `written`.
#[inline]
pub fn write_report(
    message: &ReportMessage,
    buffer: &mut [u8],
    written: &mut u64,
) -> Result<(), Refusal> {
    // SAFETY: as for count_items.
    unsafe {
        prunepocket_write_report(
            message.sender,
            message.payload_type,
            message.p,
            message.group,
            message.media,
            message.received,
            message.rtp,
            message.presented,
            buffer.as_mut_ptr(),
            buffer.len(),
            written,
        )
    }
    .refusal()
}

/// As write_report.
#[inline]
pub fn write_settings(
    message: &SettingsMessage,
    buffer: &mut [u8],
    written: &mut u64,
) -> Result<(), Refusal> {
    // SAFETY: as for count_items.
    unsafe {
        prunepocket_write_settings(
            message.sender,
            message.group,
            message.media,
            message.received,
            message.rtp,
            message.presented,
            buffer.as_mut_ptr(),
            buffer.len(),
            written,
        )
    }
    .refusal()
}

/// Puts the group number of a site file's line into `group`.
#[inline]
pub fn read_sync_group(line: &[u8], group: &mut u32) -> Result<(), Refusal> {
    // SAFETY: as for count_items.
    unsafe { prunepocket_read_sync_group(line.as_ptr(), line.len(), group) }.refusal()
}

/// Puts the line of a group number at the front of `buffer`, and its length
/// into `written`.
#[inline]
pub fn write_sync_group(group: u32, buffer: &mut [u8], written: &mut u64) -> Result<(), Refusal> {
    // SAFETY: as for count_items.
    unsafe { prunepocket_write_sync_group(group, buffer.as_mut_ptr(), buffer.len(), written) }
        .refusal()
}
