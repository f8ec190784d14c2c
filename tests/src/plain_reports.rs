//! Plain reports, for tables that are made by hand: the opening of such a table,
//! its clocks, reports that are all equally late, and datagrams of them.

use crate::arrivals::Arrival;
use crate::encoder::Message;
use crate::members::{Opening, Origin, Reading, Record, ReportFields};

pub const OPENING: Opening = Opening {
    group: 42,
    media: 7,
    rate: 90_000,
};

/// The sender's clocks after so many seconds.
pub fn reading(seconds: u32) -> Reading {
    Reading {
        ntp: u64::from(seconds) << 32,
        rtp: seconds * OPENING.rate,
    }
}

/// All have one address.
pub fn origin(port: u16) -> Origin {
    let address = [7; 16];
    Origin { address, port }
}

/// What was received after so many seconds, and presented half a second later.
pub fn record(source: u32, port: u16, seconds: u32) -> Record {
    let received = reading(seconds);
    Record {
        source,
        origin: origin(port),
        report: ReportFields {
            received: received.ntp,
            group: OPENING.group,
            media: OPENING.media,
            rtp: received.rtp,
            presented: (seconds << 16) + (1 << 15),
            payload_type: 33,
            p: 1,
        },
    }
}

/// An RR, then this report for each R and a farewell for each F.
pub(crate) fn arrival(told: &Record, items: &str, clock: u32) -> Arrival {
    let words = |words: [u32; 2]| words.map(u32::to_be_bytes).concat();
    let mut datagram = words([0x80C9_0001, told.source]);
    for item in items.bytes() {
        datagram.extend(match item {
            b'R' => written_report(told),
            _ => words([0x81CB_0001, told.source]),
        });
    }
    Arrival {
        datagram,
        reduced_size: false,
        origin: told.origin,
        reading: reading(clock),
        length: items.len(),
        choice: reading(clock),
    }
}

/// The report as the independent encoder writes it.
fn written_report(record: &Record) -> Vec<u8> {
    let message = Message::from(record);
    let written = message.encode_with(message.size(), None);
    written.expect("its fields are in range")
}
