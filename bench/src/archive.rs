//! The archive, called and answering as the peer is and does.

use crate::peer_table;
use prunepocket_sys::{self as sys, Member, Record, Refusal, ReportFields};
use prunepocket_sys::{ReportMessage, SettingsMessage};

/// How many items a datagram has.
pub fn count_items(datagram: &[u8], reduced_size: bool) -> Result<u64, Refusal> {
    let mut count = 0;
    sys::count_items(datagram, reduced_size, &mut count).map(|()| count)
}

/// All items into rows, and how many there are.
pub fn read_items(datagram: &[u8], reduced_size: bool, rows: &mut [u64]) -> Result<u64, Refusal> {
    let mut count = 0;
    sys::read_items(datagram, reduced_size, rows, &mut count).map(|()| count)
}

/// How many bytes were written, or the refusal's number.
#[inline(always)]
pub fn write_report(message: &ReportMessage, buffer: &mut [u8]) -> Result<u64, u64> {
    let mut written = 0;
    let answer = sys::write_report(message, buffer, &mut written);
    answer.map(|()| written).map_err(|refusal| refusal.number)
}

/// As write_report.
#[inline(always)]
pub fn write_settings(message: &SettingsMessage, buffer: &mut [u8]) -> Result<u64, u64> {
    let mut written = 0;
    let answer = sys::write_settings(message, buffer, &mut written);
    answer.map(|()| written).map_err(|refusal| refusal.number)
}

impl From<&peer_table::Record> for Record {
    fn from(record: &peer_table::Record) -> Self {
        let report = &record.report;
        Record {
            source: record.source,
            origin: record.origin,
            report: ReportFields {
                received: report.received,
                group: report.group,
                media: report.media,
                rtp: report.rtp,
                presented: report.presented,
                payload_type: report.payload_type,
                p: u8::from(report.p),
            },
        }
    }
}

impl From<&peer_table::Member> for Member {
    fn from(member: &peer_table::Member) -> Self {
        Member {
            record: Record::from(&member.record),
            tally: member.tally,
        }
    }
}
