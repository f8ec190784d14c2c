//! What the member table is told and what it answers. The structs are C's, so
//! that the archive takes them as they are.

pub use prunepocket_sys::{Member, Origin, Reading, Record, ReportFields, Target};

/// What a table is opened for.
#[derive(Clone, Copy, Debug, PartialEq, Eq)]
pub struct Opening {
    pub group: u32,
    pub media: u32,
    pub rate: u32,
}

/// A call that can change the members.
#[derive(Clone, Copy, Debug, PartialEq, Eq)]
pub enum Call {
    Report(Record, Reading),
    Farewell(u32, Origin),
    Sweep(Reading),
}

impl Call {
    /// The source number that it is under; a sweep is under none.
    pub fn source(&self) -> Option<u32> {
        match self {
            Call::Report(told, _) => Some(told.source),
            Call::Farewell(source, _) => Some(*source),
            Call::Sweep(_) => None,
        }
    }
}

/// Reports that are taken at once, under one reading.
#[derive(Clone, Debug, PartialEq, Eq)]
pub struct Burst {
    pub reports: Vec<Record>,
    pub reading: Reading,
    /// The list that is lent, as it is beforehand.
    pub list: Vec<u64>,
}

/// The target, or a refusal's number.
pub type Choice = Result<Target, u64>;
