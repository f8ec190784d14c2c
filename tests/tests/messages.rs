//! Messages at the ends of the fields' ranges, through the encoder and through
//! the archive.

use prunepocket_sys::{ReportMessage, SettingsMessage};
use prunepocket_tests::archive;
use prunepocket_tests::decoder::decode;
use prunepocket_tests::encoder::{Message, REPORT_BYTES, SETTINGS_BYTES};
use prunepocket_tests::items::{Item, Refusal, ROW};

const REPORT: ReportMessage = ReportMessage {
    sender: 20,
    payload_type: 33,
    p: 1,
    group: 42,
    media: 7,
    received: 998 << 32,
    rtp: 8_820_000,
    presented: 0x03E6_C000,
};

const SETTINGS: SettingsMessage = SettingsMessage {
    sender: 1,
    group: 42,
    media: 7,
    received: 998 << 32,
    rtp: 8_820_000,
    presented: 0x3E6_C000_0000,
};

/// What lent memory holds before a call.
const FILL: u8 = 0xA5;

type Memory = [u8; 64];

/// Memory with these bytes at the front, and as before behind them.
fn memory_with(bytes: &[u8]) -> Memory {
    let mut memory = [FILL; 64];
    memory[..bytes.len()].copy_from_slice(bytes);
    memory
}

/// Lends the archive the first bytes of memory: how many it wrote, and the
/// memory, which a refusal leaves as it was.
fn written(message: Message, length: usize) -> Result<(u64, Memory), Refusal> {
    let mut memory = memory_with(&[]);
    let mut written = u64::MAX;
    match archive::write(&message, &mut memory[..length], &mut written) {
        Ok(written) => Ok((written, memory)),
        Err(refusal) => {
            assert_eq!((written, memory), (u64::MAX, memory_with(&[])));
            Err(refusal)
        }
    }
}

/// Both sides refuse the message with a number.
fn assert_refused(message: Message, length: usize, number: u64) {
    assert_eq!(message.encode_with(length, None), Err(number));
    assert_eq!(written(message, length), Err(Refusal::new(number, 0)));
}

/// Both sides write the message, which is then the only item: behind an RR with
/// either value of the flag for reduced size, and alone where it was agreed.
fn read_back(message: Message) -> Item {
    let size = message.size();
    let bytes = message.encode_with(size, None).expect("it may be written");
    let expected = (size as u64, memory_with(&bytes));
    assert_eq!(written(message, size), Ok(expected));
    let datagram = [&[0x80, 201, 0, 1, 0, 0, 0, 99], &bytes[..]].concat();
    let item = only_item(&bytes, true);
    for reduced_size in [false, true] {
        assert_eq!(only_item(&datagram, reduced_size), item);
    }
    item
}

/// Both sides read one item, and the same.
fn only_item(datagram: &[u8], reduced_size: bool) -> Item {
    let items = decode(datagram, reduced_size).expect("the datagram is read");
    assert_eq!(items.len(), 1);
    let mut row = [0; ROW];
    let mut count = 0;
    assert_eq!(
        prunepocket_sys::read_items(datagram, reduced_size, &mut row, &mut count),
        Ok(())
    );
    assert_eq!((count, row), (1, items[0].row()));
    items[0].item
}

#[test]
fn a_message_alone_is_refused_with_4_where_reduced_size_was_not_agreed() {
    for message in [Message::Report(REPORT), Message::Settings(SETTINGS)] {
        let bytes = message
            .encode_with(message.size(), None)
            .expect("it may be written");
        let refusal = Refusal::new(4, 0);
        assert_eq!(decode(&bytes, false), Err(refusal));
        let (mut row, mut count) = ([u64::MAX; ROW], u64::MAX);
        assert_eq!(
            prunepocket_sys::read_items(&bytes, false, &mut row, &mut count),
            Err(refusal)
        );
        assert_eq!((count, row), (u64::MAX, [u64::MAX; ROW]));
    }
}

#[test]
fn a_longer_buffer_is_as_before_behind_the_message() {
    for message in [Message::Report(REPORT), Message::Settings(SETTINGS)] {
        for length in message.size()..=64 {
            let bytes = message
                .encode_with(length, None)
                .expect("it is long enough");
            let expected = (message.size() as u64, memory_with(&bytes));
            assert_eq!(written(message, length), Ok(expected));
        }
    }
}

#[test]
fn group_0_may_be_written_and_read() {
    let report = ReportMessage { group: 0, ..REPORT };
    let Item::Report(read) = read_back(Message::Report(report)) else {
        panic!("a report was written");
    };
    assert_eq!(read.group, 0);
    let settings = SettingsMessage {
        group: 0,
        ..SETTINGS
    };
    let Item::Settings(read) = read_back(Message::Settings(settings)) else {
        panic!("settings were written");
    };
    assert_eq!(read.group, 0);
}

#[test]
fn ends_of_the_ranges_may_be_written() {
    let reports = [
        ReportMessage {
            payload_type: 0,
            ..REPORT
        },
        ReportMessage {
            payload_type: 127,
            ..REPORT
        },
        ReportMessage {
            group: u32::MAX - 1,
            ..REPORT
        },
        // With P 1, presented 0 is a time like any other.
        ReportMessage {
            presented: 0,
            ..REPORT
        },
        ReportMessage {
            p: 0,
            presented: 0,
            ..REPORT
        },
    ];
    for report in reports {
        let Item::Report(read) = read_back(Message::Report(report)) else {
            panic!("a report was written");
        };
        assert_eq!(u32::from(read.payload_type), report.payload_type);
        assert_eq!(read.p, report.p == 1);
        assert_eq!(read.group, report.group);
        assert_eq!(read.presented, report.presented);
    }
    let settings = SettingsMessage {
        group: u32::MAX - 1,
        presented: 0,
        ..SETTINGS
    };
    let Item::Settings(read) = read_back(Message::Settings(settings)) else {
        panic!("settings were written");
    };
    assert_eq!((read.group, read.presented), (settings.group, 0));
}

/// Each cause alone, in buffers that are long enough and too short.
#[test]
fn refusal_11_comes_before_10() {
    let reports = [
        ReportMessage {
            payload_type: 128,
            ..REPORT
        },
        ReportMessage { p: 2, ..REPORT },
        ReportMessage { p: 0, ..REPORT },
        ReportMessage {
            group: u32::MAX,
            ..REPORT
        },
    ];
    for length in [REPORT_BYTES, REPORT_BYTES - 1, 0] {
        for report in reports {
            assert_refused(Message::Report(report), length, 11);
        }
    }
    let settings = SettingsMessage {
        group: u32::MAX,
        ..SETTINGS
    };
    for length in [SETTINGS_BYTES, SETTINGS_BYTES - 1, 0] {
        assert_refused(Message::Settings(settings), length, 11);
    }
}

#[test]
fn a_short_buffer_is_refused_with_10() {
    for length in 0..REPORT_BYTES {
        assert_refused(Message::Report(REPORT), length, 10);
    }
    for length in 0..SETTINGS_BYTES {
        assert_refused(Message::Settings(SETTINGS), length, 10);
    }
}
