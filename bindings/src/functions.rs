//! The functions of include/prunepocket.h, in its order.

use crate::structs::{
    Answer, Answered, DatagramAnswered, Followed, LatenessAnswered, Origin, Place, PlayoutClock,
    Reading, Record, RecordingAnswered, Settings, SettingsAnswered, Table,
};

extern "C" {
    pub fn prunepocket_count_items(
        datagram: *const u8,
        length: usize,
        reduced_size: u32,
        count: *mut u64,
    ) -> Answer;
    pub fn prunepocket_item_field(
        datagram: *const u8,
        length: usize,
        reduced_size: u32,
        index: u64,
        field: u64,
        value: *mut u64,
    ) -> Answer;
    pub fn prunepocket_read_items(
        datagram: *const u8,
        length: usize,
        reduced_size: u32,
        rows: *mut u64,
        rows_length: usize,
        count: *mut u64,
    ) -> Answer;
    pub fn prunepocket_write_report(
        sender: u32,
        payload_type: u32,
        p: u32,
        group: u32,
        media: u32,
        received: u64,
        rtp: u32,
        presented: u32,
        buffer: *mut u8,
        length: usize,
        written: *mut u64,
    ) -> Answer;
    pub fn prunepocket_write_settings(
        sender: u32,
        group: u32,
        media: u32,
        received: u64,
        rtp: u32,
        presented: u64,
        buffer: *mut u8,
        length: usize,
        written: *mut u64,
    ) -> Answer;
    pub fn prunepocket_read_sync_group(line: *const u8, length: usize, group: *mut u32) -> Answer;
    pub fn prunepocket_write_sync_group(
        group: u32,
        buffer: *mut u8,
        length: usize,
        written: *mut u64,
    ) -> Answer;
    pub fn prunepocket_open(group: u32, media: u32, rate: u32) -> Answered;
    pub fn prunepocket_report(table: Table, record: Record, reading: Reading) -> Answered;
    pub fn prunepocket_report_burst(
        table: Table,
        reports: *const Record,
        reports_length: usize,
        reading: Reading,
        answers: *mut u64,
        answers_length: usize,
    ) -> Answered;
    pub fn prunepocket_farewell(table: Table, source: u32, origin: Origin) -> Answered;
    pub fn prunepocket_sweep(table: Table, reading: Reading) -> Answered;
    pub fn prunepocket_take_datagram(
        table: Table,
        datagram: *const u8,
        length: usize,
        reduced_size: u32,
        origin: Origin,
        reading: Reading,
        answers: *mut u64,
        answers_length: usize,
    ) -> DatagramAnswered;
    pub fn prunepocket_count_members(table: Table) -> u32;
    pub fn prunepocket_member_at(table: Table, place: usize) -> Place;
    pub fn prunepocket_choose(table: Table, reading: Reading) -> Followed;
    pub fn prunepocket_check_settings(
        table: Table,
        settings: Settings,
        reading: Reading,
        slack: u32,
    ) -> SettingsAnswered;
    pub fn prunepocket_replay(
        recording: *const u8,
        length: usize,
        rows: *mut u64,
        rows_length: usize,
    ) -> RecordingAnswered;
    pub fn prunepocket_target_lateness(
        group: u32,
        media: u32,
        rate: u32,
        settings: Settings,
        reading: Reading,
    ) -> LatenessAnswered;
    pub fn prunepocket_set_target(clock: *mut PlayoutClock, target: i64) -> u64;
    pub fn prunepocket_tick(clock: *mut PlayoutClock) -> u64;
}
