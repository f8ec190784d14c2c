//! The independent encoder: the two messages of document 01, with the layouts
//! of RFC 7272 and the XR header of RFC 3611.
//!
//! As in the decoder, a `Fault` plants one error that the comparison has to
//! find.

use prunepocket_sys::{Record, ReportMessage, SettingsMessage};

/// An XR packet with one report block.
pub const REPORT_BYTES: usize = 40;

/// A settings packet.
pub const SETTINGS_BYTES: usize = 36;

/// A message to be written.
#[derive(Clone, Copy, Debug, PartialEq, Eq)]
pub enum Message {
    Report(ReportMessage),
    Settings(SettingsMessage),
}

impl Message {
    pub fn size(&self) -> usize {
        match self {
            Message::Report(_) => REPORT_BYTES,
            Message::Settings(_) => SETTINGS_BYTES,
        }
    }

    pub fn encode_with(&self, length: usize, fault: Option<Fault>) -> Result<Vec<u8>, u64> {
        match self {
            Message::Report(fields) => report_with(fields, length, fault).map(Vec::from),
            Message::Settings(fields) => settings_with(fields, length, fault).map(Vec::from),
        }
    }
}

impl From<&Record> for Message {
    /// The report of a source.
    fn from(record: &Record) -> Self {
        let report = &record.report;
        Message::Report(ReportMessage {
            sender: record.source,
            payload_type: report.payload_type.into(),
            p: report.p.into(),
            group: report.group,
            media: report.media,
            received: report.received,
            rtp: report.rtp,
            presented: report.presented,
        })
    }
}

#[derive(Clone, Copy, Debug, PartialEq, Eq)]
pub enum Fault {
    /// Group and media source in the order of the other message.
    IdentifiersSwapped,
    /// The RTP time with its least significant byte first.
    RtpLittleEndian,
    /// The presented time of settings with its least significant word first.
    PresentedTurned,
    /// One of the reserved bits in the packet's header is 1.
    ReservedBitInHeader,
    /// One of the reserved bits beside a report's P is 1.
    ReservedBitBesideP,
    /// The last of the reserved bits after the payload type is 1.
    ReservedBitAfterPayloadType,
    /// A report's P is written 0.
    PDropped,
    /// The length of the packet in words, not in words less one.
    LengthInWords,
    /// Refusal 10 before 11.
    TenBeforeEleven,
    /// A buffer may be one byte too short.
    ShortBufferTaken,
    /// A payload type above 127 may be written.
    AnyPayloadType,
    /// A P above 1 may be written.
    AnyP,
    /// Presented may be written where P is 0.
    PresentedWithoutP,
    /// Group 4,294,967,295 may be written.
    AnyGroup,
    /// Group 0 may not be written.
    GroupZeroRefused,
}

impl Fault {
    pub const OF_REPORTS: [Fault; 14] = [
        Fault::IdentifiersSwapped,
        Fault::RtpLittleEndian,
        Fault::ReservedBitInHeader,
        Fault::ReservedBitBesideP,
        Fault::ReservedBitAfterPayloadType,
        Fault::PDropped,
        Fault::LengthInWords,
        Fault::TenBeforeEleven,
        Fault::ShortBufferTaken,
        Fault::AnyPayloadType,
        Fault::AnyP,
        Fault::PresentedWithoutP,
        Fault::AnyGroup,
        Fault::GroupZeroRefused,
    ];

    pub const OF_SETTINGS: [Fault; 9] = [
        Fault::IdentifiersSwapped,
        Fault::RtpLittleEndian,
        Fault::PresentedTurned,
        Fault::ReservedBitInHeader,
        Fault::LengthInWords,
        Fault::TenBeforeEleven,
        Fault::ShortBufferTaken,
        Fault::AnyGroup,
        Fault::GroupZeroRefused,
    ];
}

/// The report's bytes at the front of a buffer of `length` bytes, or the
/// number of the refusal.
pub fn report(fields: &ReportMessage, length: usize) -> Result<[u8; REPORT_BYTES], u64> {
    report_with(fields, length, None)
}

/// The settings' bytes at the front of a buffer of `length` bytes, or the
/// number of the refusal.
pub fn settings(fields: &SettingsMessage, length: usize) -> Result<[u8; SETTINGS_BYTES], u64> {
    settings_with(fields, length, None)
}

fn report_with(
    fields: &ReportMessage,
    length: usize,
    fault: Option<Fault>,
) -> Result<[u8; REPORT_BYTES], u64> {
    let checks = Checks { fault };
    if checks.planted(Fault::TenBeforeEleven) {
        checks.buffer(length, REPORT_BYTES)?;
    }
    checks.report_only(fields)?;
    checks.group(fields.group)?;
    checks.buffer(length, REPORT_BYTES)?;
    let mut words = report_words(fields);
    spoil_report(&mut words, fault);
    Ok(big_endian(&words))
}

fn settings_with(
    fields: &SettingsMessage,
    length: usize,
    fault: Option<Fault>,
) -> Result<[u8; SETTINGS_BYTES], u64> {
    let checks = Checks { fault };
    if checks.planted(Fault::TenBeforeEleven) {
        checks.buffer(length, SETTINGS_BYTES)?;
    }
    checks.group(fields.group)?;
    checks.buffer(length, SETTINGS_BYTES)?;
    let mut words = settings_words(fields);
    spoil_settings(&mut words, fault);
    Ok(big_endian(&words))
}

struct Checks {
    fault: Option<Fault>,
}

impl Checks {
    fn planted(&self, fault: Fault) -> bool {
        self.fault == Some(fault)
    }

    fn report_only(&self, fields: &ReportMessage) -> Result<(), u64> {
        // Refusal 11: payload type above 127.
        if fields.payload_type > 127 && !self.planted(Fault::AnyPayloadType) {
            return Err(11);
        }
        // Refusal 11: P is above 1; in the message it is a single bit.
        if fields.p > 1 && !self.planted(Fault::AnyP) {
            return Err(11);
        }
        // Refusal 11: P 0 with presented non-zero.
        let without_p = fields.p == 0 && fields.presented != 0;
        if without_p && !self.planted(Fault::PresentedWithoutP) {
            return Err(11);
        }
        Ok(())
    }

    fn group(&self, group: u32) -> Result<(), u64> {
        // Refusal 11: group 4,294,967,295. Group 0 may be written.
        if group == 4_294_967_295 && !self.planted(Fault::AnyGroup) {
            return Err(11);
        }
        if group == 0 && self.planted(Fault::GroupZeroRefused) {
            return Err(11);
        }
        Ok(())
    }

    fn buffer(&self, length: usize, size: usize) -> Result<(), u64> {
        let spared = usize::from(self.planted(Fault::ShortBufferTaken));
        // Refusal 10, after 11: the buffer is shorter than the message.
        if length + spared < size {
            return Err(10);
        }
        Ok(())
    }
}

/// The XR packet of RFC 3611 with the report block of RFC 7272 section 6. The
/// group precedes the media source, reserved bits are 0.
fn report_words(fields: &ReportMessage) -> [u32; REPORT_BYTES / 4] {
    let role = 1;
    [
        header(207, REPORT_BYTES),
        fields.sender,
        // Block type 12, role (4 bits), reserved (3), P (1), block length 7.
        12 << 24 | role << 20 | fields.p << 16 | 7,
        // Payload type (7 bits), reserved (25).
        fields.payload_type << 25,
        fields.group,
        fields.media,
        high(fields.received),
        low(fields.received),
        fields.rtp,
        fields.presented,
    ]
}

/// The settings packet of RFC 7272 section 7. The media source precedes the
/// group.
fn settings_words(fields: &SettingsMessage) -> [u32; SETTINGS_BYTES / 4] {
    [
        header(211, SETTINGS_BYTES),
        fields.sender,
        fields.media,
        fields.group,
        high(fields.received),
        low(fields.received),
        fields.rtp,
        high(fields.presented),
        low(fields.presented),
    ]
}

/// Version 2 (2 bits), P 0 (1), reserved (5), type (8), length in words less
/// one (16).
fn header(packet_type: u32, size: usize) -> u32 {
    let length = size as u32 / 4 - 1;
    2 << 30 | packet_type << 16 | length
}

fn high(number: u64) -> u32 {
    (number >> 32) as u32
}

fn low(number: u64) -> u32 {
    (number & 0xFFFF_FFFF) as u32
}

/// Numbers are big-endian.
fn big_endian<const SIZE: usize>(words: &[u32]) -> [u8; SIZE] {
    std::array::from_fn(|at| words[at / 4].to_be_bytes()[at % 4])
}

fn spoil_report(words: &mut [u32; REPORT_BYTES / 4], fault: Option<Fault>) {
    match fault {
        Some(Fault::IdentifiersSwapped) => words.swap(4, 5),
        Some(Fault::RtpLittleEndian) => words[8] = words[8].swap_bytes(),
        Some(Fault::ReservedBitInHeader) => words[0] |= 1 << 24,
        Some(Fault::ReservedBitBesideP) => words[2] |= 1 << 17,
        Some(Fault::ReservedBitAfterPayloadType) => words[3] |= 1,
        Some(Fault::PDropped) => words[2] &= !(1 << 16),
        Some(Fault::LengthInWords) => words[0] += 1,
        _ => (),
    }
}

fn spoil_settings(words: &mut [u32; SETTINGS_BYTES / 4], fault: Option<Fault>) {
    match fault {
        Some(Fault::IdentifiersSwapped) => words.swap(2, 3),
        Some(Fault::RtpLittleEndian) => words[6] = words[6].swap_bytes(),
        Some(Fault::PresentedTurned) => words.swap(7, 8),
        Some(Fault::ReservedBitInHeader) => words[0] |= 1 << 24,
        Some(Fault::LengthInWords) => words[0] += 1,
        _ => (),
    }
}
