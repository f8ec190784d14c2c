//! libprunepocket.a, as include/prunepocket.h declares it, behind safe
//! functions. Each lends what the C function lends, so that a caller can see
//! that a refusal leaves it alone.

// Public for values of reduced_size that a bool cannot say.
pub mod functions;
mod messages;
mod recordings;
mod structs;
mod table;

pub use messages::{
    count_items, item_field, read_items, read_sync_group, write_report, write_settings,
    write_sync_group, Refusal, ReportMessage, SettingsMessage,
};
pub use recordings::replay;
pub use structs::{
    layout, Answer, Answered, DatagramAnswered, Followed, LatenessAnswered, Member, Origin, Place,
    PlayoutClock, Reading, Record, RecordingAnswered, ReportFields, Settings, SettingsAnswered,
    Table, Target, BURST_LIMIT, ENTRY_ACCEPTED, ENTRY_ITEMS, ENTRY_LIMIT, ENTRY_NUMBER, ENTRY_ROW,
    PLACES, RECORDING_LIMIT, SLACK_LIMIT, TALLY_LIMIT,
};
