//! What a reader answers: refusals and items, with the field numbers of
//! include/prunepocket.h and the lines of cases.txt.

use std::fmt;

pub use prunepocket_sys::Refusal;

/// Columns of a row.
pub const ROW: usize = 10;

/// A type-12 XR block with role 1, and the XR sender's SSRC.
#[derive(Clone, Copy, Debug, PartialEq, Eq)]
pub struct Report {
    pub source: u32,
    pub payload_type: u8,
    pub p: bool,
    pub group: u32,
    pub media: u32,
    pub received: u64,
    pub rtp: u32,
    /// 0 where P is 0.
    pub presented: u32,
}

/// A packet of type 211.
#[derive(Clone, Copy, Debug, PartialEq, Eq)]
pub struct Settings {
    pub source: u32,
    pub group: u32,
    pub media: u32,
    pub received: u64,
    pub rtp: u32,
    /// 0 if empty.
    pub presented: u64,
}

#[derive(Clone, Copy, Debug, PartialEq, Eq)]
pub enum Item {
    Report(Report),
    Settings(Settings),
    /// One source of a BYE packet.
    Farewell {
        source: u32,
    },
}

/// An item, and the byte at which its block, packet or source starts.
#[derive(Clone, Copy, Debug, PartialEq, Eq)]
pub struct PlacedItem {
    pub place: u64,
    pub item: Item,
}

impl PlacedItem {
    pub fn new(place: usize, item: Item) -> Self {
        let place = place as u64;
        PlacedItem { place, item }
    }

    /// 1 report, 2 settings, 3 farewell.
    pub fn kind(&self) -> u64 {
        match self.item {
            Item::Report(_) => 1,
            Item::Settings(_) => 2,
            Item::Farewell { .. } => 3,
        }
    }

    /// A field by its number, or nothing where the item has no such field.
    pub fn field(&self, field: u64) -> Option<u64> {
        match (field, self.item) {
            (0, _) => Some(self.kind()),
            (1, _) => Some(self.place),
            (_, Item::Report(report)) => report.field(field),
            (_, Item::Settings(settings)) => settings.field(field),
            (2, Item::Farewell { source }) => Some(source.into()),
            (_, Item::Farewell { .. }) => None,
        }
    }

    /// All columns; one that the item does not have is 0.
    pub fn row(&self) -> [u64; ROW] {
        std::array::from_fn(|column| self.field(column as u64).unwrap_or(0))
    }
}

impl Report {
    fn field(&self, field: u64) -> Option<u64> {
        match field {
            2 => Some(self.source.into()),
            3 => Some(self.group.into()),
            4 => Some(self.media.into()),
            5 => Some(self.received),
            6 => Some(self.rtp.into()),
            7 => Some(self.presented.into()),
            8 => Some(self.payload_type.into()),
            9 => Some(self.p.into()),
            _ => None,
        }
    }
}

impl Settings {
    fn field(&self, field: u64) -> Option<u64> {
        match field {
            2 => Some(self.source.into()),
            3 => Some(self.group.into()),
            4 => Some(self.media.into()),
            5 => Some(self.received),
            6 => Some(self.rtp.into()),
            7 => Some(self.presented),
            _ => None,
        }
    }
}

/// A row of kind 2, as the check of settings is given it.
pub fn settings_of_row(row: &[u64; ROW]) -> prunepocket_sys::Settings {
    let word = |column: usize| u32::try_from(row[column]).expect("a field of 32 bits");
    prunepocket_sys::Settings {
        sender: word(2),
        media: word(4),
        group: word(3),
        received: row[5],
        rtp: word(6),
        presented: row[7],
    }
}

impl fmt::Display for PlacedItem {
    fn fmt(&self, f: &mut fmt::Formatter<'_>) -> fmt::Result {
        let place = self.place;
        match self.item {
            Item::Report(report) => write!(f, "report at {place} {report}"),
            Item::Settings(settings) => write!(f, "settings at {place} {settings}"),
            Item::Farewell { source } => write!(f, "farewell at {place} source {source}"),
        }
    }
}

impl fmt::Display for Report {
    fn fmt(&self, f: &mut fmt::Formatter<'_>) -> fmt::Result {
        write!(
            f,
            "source {} payload-type {} p {} group {} media {} received {} {} rtp {} presented {} {}",
            self.source,
            self.payload_type,
            u8::from(self.p),
            self.group,
            self.media,
            self.received >> 32,
            self.received & 0xFFFF_FFFF,
            self.rtp,
            self.presented >> 16,
            self.presented & 0xFFFF,
        )
    }
}

impl fmt::Display for Settings {
    fn fmt(&self, f: &mut fmt::Formatter<'_>) -> fmt::Result {
        write!(
            f,
            "source {} group {} media {} received {} {} rtp {} presented {} {}",
            self.source,
            self.group,
            self.media,
            self.received >> 32,
            self.received & 0xFFFF_FFFF,
            self.rtp,
            self.presented >> 32,
            self.presented & 0xFFFF_FFFF,
        )
    }
}
