//! The structs of include/prunepocket.h: in its order, under its names without
//! the prefix, with its fields. `tools/test-layout` holds them against it.

use std::mem::{align_of, offset_of, size_of};

/// Places in a table.
pub const PLACES: usize = 64;

/// The most reports of a burst.
pub const BURST_LIMIT: usize = 64;

/// The greatest slack of a settings check, in units of 2^-16 s: 30 s.
pub const SLACK_LIMIT: u32 = 1_966_080;

/// Where a member's tally stops.
pub const TALLY_LIMIT: u32 = 4_294_967_295;

/// The most bytes of a recording.
pub const RECORDING_LIMIT: usize = 65_536;

/// The most entries of a recording.
pub const ENTRY_LIMIT: usize = 256;

/// The columns of an entry's row: its items, how many of its reports and
/// farewells were accepted, and its refusal's number or 0.
pub const ENTRY_ITEMS: usize = 0;
pub const ENTRY_ACCEPTED: usize = 1;
pub const ENTRY_NUMBER: usize = 2;

/// Columns of an entry's row.
pub const ENTRY_ROW: usize = 3;

/// Declares each struct in C's layout, and the lines of `layout`.
macro_rules! c_structs {
    ($(
        $(#[$note:meta])*
        pub struct $name:ident {
            $($(#[$field_note:meta])* pub $field:ident: $type:ty,)*
        }
    )*) => {
        $(
            $(#[$note])*
            #[repr(C)]
            #[derive(Clone, Copy, Debug, PartialEq, Eq)]
            pub struct $name {
                $($(#[$field_note])* pub $field: $type,)*
            }
        )*

        /// For each struct a line with its size and alignment, then one for
        /// each of its fields with offset and size.
        pub fn layout() -> Vec<String> {
            let mut lines = Vec::new();
            $(
                let (size, align) = (size_of::<$name>(), align_of::<$name>());
                lines.push(format!("{} {size} {align}", stringify!($name)));
                $(
                    let (offset, size) = (offset_of!($name, $field), size_of::<$type>());
                    let field = concat!(stringify!($name), ".", stringify!($field));
                    lines.push(format!("{field} {offset} {size}"));
                )*
            )*
            lines
        }
    };
}

c_structs! {
    /// What a reader or writer answers.
    pub struct Answer {
        pub number: u64,
        pub place: u64,
    }

    /// An address of sixteen bytes and a port.
    #[derive(Default)]
    pub struct Origin {
        pub address: [u8; 16],
        pub port: u16,
    }

    /// A report's fields but its sender.
    #[derive(Default)]
    pub struct ReportFields {
        pub received: u64,
        pub group: u32,
        pub media: u32,
        pub rtp: u32,
        pub presented: u32,
        pub payload_type: u8,
        pub p: u8,
    }

    /// A report under its source number and its origin.
    #[derive(Default)]
    pub struct Record {
        pub source: u32,
        pub origin: Origin,
        pub report: ReportFields,
    }

    /// A member: the record that it stands on, and its tally.
    #[derive(Default)]
    pub struct Member {
        pub record: Record,
        /// How often its number was refused with 14 since it joined, up to
        /// `TALLY_LIMIT`.
        pub tally: u32,
    }

    /// The sender's reading: NTP time N and RTP time R.
    #[derive(Default)]
    pub struct Reading {
        pub ntp: u64,
        pub rtp: u32,
    }

    /// The member to follow.
    #[derive(Default)]
    pub struct Target {
        pub source: u32,
        pub group: u32,
        pub media: u32,
        pub received: u64,
        pub rtp: u32,
        /// Expanded, or 0 in arrival mode.
        pub presented: u64,
        pub counted: u32,
    }

    /// A settings packet, as the reader gives its fields.
    #[derive(Default)]
    pub struct Settings {
        /// Not looked at.
        pub sender: u32,
        pub media: u32,
        pub group: u32,
        pub received: u64,
        pub rtp: u32,
        /// All 64 bits; 0 if empty.
        pub presented: u64,
    }

    /// A member table. Its fields are its own: a host does not look at them.
    pub struct Table {
        pub group: u32,
        pub media: u32,
        pub rate: u32,
        /// Marks the places held, from the lowest bit.
        pub held: u64,
        pub members: [Member; PLACES],
    }

    /// What opening, a report, a burst, a farewell and a sweep answer.
    pub struct Answered {
        pub number: u64,
        /// The table afterwards.
        pub table: Table,
    }

    /// What taking a whole datagram answers.
    pub struct DatagramAnswered {
        pub number: u64,
        pub place: u64,
        pub count: u64,
        /// The table afterwards.
        pub table: Table,
    }

    /// The member where `held` is 1; zeros where it is 0.
    #[derive(Default)]
    pub struct Place {
        pub held: u32,
        pub member: Member,
    }

    /// What choosing answers.
    pub struct Followed {
        pub number: u64,
        /// Zeros beside a refusal.
        pub target: Target,
        /// The table as it was.
        pub table: Table,
    }

    /// What checking a settings packet answers.
    pub struct SettingsAnswered {
        pub number: u64,
        /// 1 where the packet suits the members; 0 beside a refusal.
        pub suits: u32,
        /// The table as it was.
        pub table: Table,
    }

    /// What replaying a recording answers.
    pub struct RecordingAnswered {
        pub number: u64,
        /// 0 after a refusal.
        pub entries: u64,
        /// 0 beside a target, else 20.
        pub choice: u64,
        /// Zeros where there is none.
        pub target: Target,
    }

    /// How late a loudspeaker plays, how late it is to play, and the most by
    /// which one tick changes the first.
    pub struct PlayoutClock {
        pub current: i64,
        pub target: i64,
        pub step: i64,
    }

    /// What the lateness of a settings packet's target answers.
    pub struct LatenessAnswered {
        pub number: u64,
        /// 0 beside a refusal.
        pub lateness: i64,
    }
}
