//! A recording, and the independent reading and writing of its layout: a head of
//! four numbers, a table of contents with 32 bytes an entry, and the bodies in the
//! same order, which end where the recording ends. Numbers are big-endian.
//!
//! As in the decoder, a `Fault` plants one error that the comparison has to
//! find.

use crate::members::{Opening, Origin, Reading};

/// The most bytes of a recording.
pub const RECORDING_LIMIT: usize = 65_536;

/// The most entries of a recording.
pub const ENTRY_LIMIT: usize = 256;

/// Bytes of the head.
pub const HEAD: usize = 16;

/// Bytes of an entry in the table of contents.
pub const CONTENTS: usize = 32;

/// Where the fields of an entry start in its part of the table of contents.
pub const NTP: usize = 0;
pub const RTP: usize = 8;
pub const ADDRESS: usize = 12;
pub const PORT: usize = 28;
pub const LENGTH: usize = 30;

/// The longest datagram that is read.
const LONGEST_DATAGRAM: usize = 2048;

/// A datagram, which is the entry's body, and how it came.
#[derive(Clone, Debug, PartialEq, Eq)]
pub struct Entry {
    /// The sender's reading when it arrived.
    pub reading: Reading,
    pub origin: Origin,
    pub body: Vec<u8>,
}

#[derive(Clone, Debug, PartialEq, Eq)]
pub struct Recording {
    pub opening: Opening,
    pub entries: Vec<Entry>,
}

impl Recording {
    /// Its bytes, however many there are. A body has at most 65,535.
    pub fn write(&self) -> Vec<u8> {
        let Opening { group, media, rate } = self.opening;
        let head = [self.entries.len() as u32, group, media, rate];
        let mut bytes: Vec<u8> = head.map(u32::to_be_bytes).concat();
        for entry in &self.entries {
            bytes.extend(entry.reading.ntp.to_be_bytes());
            bytes.extend(entry.reading.rtp.to_be_bytes());
            bytes.extend(entry.origin.address);
            bytes.extend(entry.origin.port.to_be_bytes());
            bytes.extend((entry.body.len() as u16).to_be_bytes());
        }
        for entry in &self.entries {
            bytes.extend(&entry.body);
        }
        bytes
    }

    /// How many bytes are written.
    pub fn size(&self) -> usize {
        let entry = |entry: &Entry| CONTENTS + entry.body.len();
        HEAD + self.entries.iter().map(entry).sum::<usize>()
    }
}

/// What is bad about a layout. All of these are refused with 25.
#[derive(Clone, Copy, Debug, PartialEq, Eq)]
pub enum BadLayout {
    /// Over 65,536 bytes.
    TooLong,
    HeadCut,
    TooManyEntries,
    ContentsCut,
    /// The bodies would end so many bytes behind the recording's end.
    BodiesCut(usize),
    /// So many bytes stand behind the last body.
    BytesBehind(usize),
}

#[derive(Clone, Copy, Debug, PartialEq, Eq)]
pub enum Fault {
    /// A recording of 65,536 bytes is refused.
    LimitRefused,
    /// A recording of 65,537 bytes is taken.
    LongTaken,
    /// Only the first 65,536 bytes are looked at.
    FrontTaken,
    /// The length of the recording wraps at 2^16.
    LengthWraps,
    /// A head that is cut short is taken, with zeros behind it.
    HeadCutTaken,
    /// A recording without entries is refused.
    NoEntriesRefused,
    /// 256 entries are refused.
    EntryLimitRefused,
    /// 257 entries are taken.
    ManyEntriesTaken,
    /// Only the last 8 bits of the entry count are looked at.
    CountIn8Bits,
    /// Only the last 16 bits of the entry count are looked at.
    CountIn16Bits,
    CountLittleEndian,
    /// Of a table of contents that is cut short, the whole entries are taken.
    ContentsCutTaken,
    /// Bodies that are one byte short are taken.
    BodyByteShortTaken,
    /// Bodies that are cut short are taken, however short they are.
    ShortBodiesTaken,
    /// One byte behind the last body is passed over.
    ByteBehindTaken,
    /// All bytes behind the last body are passed over.
    BytesBehindTaken,
    /// The sum of the bodies' lengths wraps at 2^16.
    LengthsWrap,
    /// A body of no bytes is a bad layout.
    EmptyBodyRefused,
    /// A body longer than any datagram that is read is a bad layout.
    LongBodyRefused,
    /// A body that is not of whole words is a bad layout.
    OddBodyRefused,
    LengthLittleEndian,
    /// The length stands before the port.
    LengthBeforePort,
    /// R stands before N.
    RtpBeforeNtp,
    /// The address stands before N and R.
    AddressBeforeReading,
    NtpLittleEndian,
    /// The words of N the other way round.
    NtpWordsTurned,
    RtpLittleEndian,
    /// The port is not read.
    PortLost,
    /// The address is not read.
    AddressLost,
    /// Only the last four bytes of the address are read.
    AddressIn32Bits,
    GroupAndMediaSwapped,
    MediaAndRateSwapped,
    /// Each entry but the first has the N of the one before it.
    NtpOfEntryBefore,
    /// Each entry but the first has the R of the one before it.
    RtpOfEntryBefore,
    /// Each entry but the first has the origin of the one before it.
    OriginOfEntryBefore,
    /// Each entry but the last has the reading of the one behind it.
    ReadingOfEntryBehind,
    /// The last body first.
    BodiesReversed,
    /// Every body starts where the first does.
    BodiesNotStepped,
}

impl Fault {
    pub const ALL: [Fault; 38] = [
        Fault::LimitRefused,
        Fault::LongTaken,
        Fault::FrontTaken,
        Fault::LengthWraps,
        Fault::HeadCutTaken,
        Fault::NoEntriesRefused,
        Fault::EntryLimitRefused,
        Fault::ManyEntriesTaken,
        Fault::CountIn8Bits,
        Fault::CountIn16Bits,
        Fault::CountLittleEndian,
        Fault::ContentsCutTaken,
        Fault::BodyByteShortTaken,
        Fault::ShortBodiesTaken,
        Fault::ByteBehindTaken,
        Fault::BytesBehindTaken,
        Fault::LengthsWrap,
        Fault::EmptyBodyRefused,
        Fault::LongBodyRefused,
        Fault::OddBodyRefused,
        Fault::LengthLittleEndian,
        Fault::LengthBeforePort,
        Fault::RtpBeforeNtp,
        Fault::AddressBeforeReading,
        Fault::NtpLittleEndian,
        Fault::NtpWordsTurned,
        Fault::RtpLittleEndian,
        Fault::PortLost,
        Fault::AddressLost,
        Fault::AddressIn32Bits,
        Fault::GroupAndMediaSwapped,
        Fault::MediaAndRateSwapped,
        Fault::NtpOfEntryBefore,
        Fault::RtpOfEntryBefore,
        Fault::OriginOfEntryBefore,
        Fault::ReadingOfEntryBehind,
        Fault::BodiesReversed,
        Fault::BodiesNotStepped,
    ];
}

/// The recording that the bytes are, or what is bad about their layout.
pub fn read(bytes: &[u8]) -> Result<Recording, BadLayout> {
    read_with(bytes, None)
}

pub fn read_with(bytes: &[u8], fault: Option<Fault>) -> Result<Recording, BadLayout> {
    let bytes = match fault {
        Some(Fault::FrontTaken) => &bytes[..bytes.len().min(RECORDING_LIMIT)],
        Some(Fault::LengthWraps) => &bytes[..bytes.len() % 65_536],
        _ => bytes,
    };
    let reader = Reader { bytes, fault };
    reader.check_length()?;
    let count = reader.entries()?;
    let bodies = reader.bodies(count)?;
    let entry = |(index, body): (usize, &[u8])| reader.entry(index, body);
    let mut entries: Vec<Entry> = bodies.into_iter().enumerate().map(entry).collect();
    reader.spoil(&mut entries);
    let opening = reader.opening();
    Ok(Recording { opening, entries })
}

/// What the head says of the table, if the head is there.
pub(crate) fn read_opening(bytes: &[u8]) -> Option<Opening> {
    let fault = None;
    (bytes.len() >= HEAD).then(|| Reader { bytes, fault }.opening())
}

struct Reader<'a> {
    bytes: &'a [u8],
    fault: Option<Fault>,
}

impl<'a> Reader<'a> {
    fn planted(&self, fault: Fault) -> bool {
        self.fault == Some(fault)
    }

    /// The bytes at a place. Behind the end, where only a fault looks, are zeros.
    fn array<const COUNT: usize>(&self, at: usize) -> [u8; COUNT] {
        std::array::from_fn(|index| self.bytes.get(at + index).copied().unwrap_or(0))
    }

    fn word32(&self, at: usize) -> u32 {
        u32::from_be_bytes(self.array(at))
    }

    fn check_length(&self) -> Result<(), BadLayout> {
        let most = match self.fault {
            Some(Fault::LimitRefused) => RECORDING_LIMIT - 1,
            Some(Fault::LongTaken) => RECORDING_LIMIT + 1,
            _ => RECORDING_LIMIT,
        };
        if self.bytes.len() > most {
            return Err(BadLayout::TooLong);
        }
        if self.bytes.len() < HEAD && !self.planted(Fault::HeadCutTaken) {
            return Err(BadLayout::HeadCut);
        }
        Ok(())
    }

    /// How many entries there are, whose parts of the table of contents are whole.
    fn entries(&self) -> Result<usize, BadLayout> {
        let count = self.word32(0);
        let count = match self.fault {
            Some(Fault::CountIn8Bits) => count & 0xFF,
            Some(Fault::CountIn16Bits) => count & 0xFFFF,
            Some(Fault::CountLittleEndian) => count.swap_bytes(),
            _ => count,
        };
        let most = match self.fault {
            Some(Fault::EntryLimitRefused) => ENTRY_LIMIT - 1,
            Some(Fault::ManyEntriesTaken) => ENTRY_LIMIT + 1,
            _ => ENTRY_LIMIT,
        };
        let count = count as usize;
        if count > most || count == 0 && self.planted(Fault::NoEntriesRefused) {
            return Err(BadLayout::TooManyEntries);
        }
        let whole = self.bytes.len().saturating_sub(HEAD) / CONTENTS;
        match count <= whole {
            true => Ok(count),
            false if self.planted(Fault::ContentsCutTaken) => Ok(whole),
            false if self.planted(Fault::HeadCutTaken) && self.bytes.len() < HEAD => Ok(0),
            false => Err(BadLayout::ContentsCut),
        }
    }

    fn opening(&self) -> Opening {
        let [group, media, rate] = [4, 8, 12].map(|at| self.word32(at));
        let (group, media, rate) = match self.fault {
            Some(Fault::GroupAndMediaSwapped) => (media, group, rate),
            Some(Fault::MediaAndRateSwapped) => (group, rate, media),
            _ => (group, media, rate),
        };
        Opening { group, media, rate }
    }

    /// Where an entry's part of the table of contents starts.
    fn contents(&self, index: usize) -> usize {
        HEAD + CONTENTS * index
    }

    fn length(&self, index: usize) -> usize {
        let at = match self.planted(Fault::LengthBeforePort) {
            true => PORT,
            false => LENGTH,
        };
        let length = u16::from_be_bytes(self.array(self.contents(index) + at));
        usize::from(match self.planted(Fault::LengthLittleEndian) {
            true => length.swap_bytes(),
            false => length,
        })
    }

    /// The bodies stand one behind the other and end where the recording ends.
    fn bodies(&self, count: usize) -> Result<Vec<&'a [u8]>, BadLayout> {
        let lengths: Vec<usize> = (0..count).map(|index| self.length(index)).collect();
        self.check_end(&lengths)?;
        let start = self.contents(count);
        let mut bodies = Vec::new();
        let mut at = start;
        for length in lengths {
            // Behind the end, where only a fault looks, there is nothing.
            let end = (at + length).min(self.bytes.len());
            bodies.push(self.bytes.get(at..end).unwrap_or_default());
            if !self.planted(Fault::BodiesNotStepped) {
                at += length;
            }
        }
        Ok(bodies)
    }

    fn check_end(&self, lengths: &[usize]) -> Result<(), BadLayout> {
        let sum: usize = lengths.iter().sum();
        let sum = match self.fault {
            Some(Fault::LengthsWrap) => sum % 65_536,
            _ => sum,
        };
        let (end, length) = (self.contents(lengths.len()) + sum, self.bytes.len());
        if self.takes_end(lengths.len(), end) {
            return Ok(());
        }
        if end > length || lengths.iter().any(|&length| self.refuses_body(length)) {
            return Err(BadLayout::BodiesCut(end.saturating_sub(length)));
        }
        if end < length {
            return Err(BadLayout::BytesBehind(length - end));
        }
        Ok(())
    }

    /// Whether a planted fault takes bodies of so many entries that end here.
    fn takes_end(&self, count: usize, end: usize) -> bool {
        let length = self.bytes.len();
        match self.fault {
            Some(Fault::BodyByteShortTaken) => end == length + 1,
            Some(Fault::ShortBodiesTaken) => end > length,
            Some(Fault::ByteBehindTaken) => end + 1 == length,
            Some(Fault::BytesBehindTaken) => end < length,
            Some(Fault::ContentsCutTaken) => self.word32(0) as usize > count,
            Some(Fault::HeadCutTaken) => length < HEAD,
            _ => false,
        }
    }

    /// Whether a planted fault refuses a body of this length.
    fn refuses_body(&self, length: usize) -> bool {
        match self.fault {
            Some(Fault::EmptyBodyRefused) => length == 0,
            Some(Fault::LongBodyRefused) => length > LONGEST_DATAGRAM,
            Some(Fault::OddBodyRefused) => !length.is_multiple_of(4),
            _ => false,
        }
    }

    fn entry(&self, index: usize, body: &[u8]) -> Entry {
        let start = self.contents(index);
        let (ntp, rtp, address) = match self.fault {
            Some(Fault::RtpBeforeNtp) => (4, 0, ADDRESS),
            Some(Fault::AddressBeforeReading) => (16, 24, 0),
            _ => (NTP, RTP, ADDRESS),
        };
        let port = match self.planted(Fault::LengthBeforePort) {
            true => LENGTH,
            false => PORT,
        };
        Entry {
            reading: Reading {
                ntp: self.ntp(start + ntp),
                rtp: self.rtp(start + rtp),
            },
            origin: Origin {
                address: self.address(start + address),
                port: self.port(start + port),
            },
            body: body.to_vec(),
        }
    }

    fn ntp(&self, at: usize) -> u64 {
        let ntp = u64::from_be_bytes(self.array(at));
        match self.fault {
            Some(Fault::NtpLittleEndian) => ntp.swap_bytes(),
            Some(Fault::NtpWordsTurned) => ntp.rotate_left(32),
            _ => ntp,
        }
    }

    fn rtp(&self, at: usize) -> u32 {
        let rtp = self.word32(at);
        match self.planted(Fault::RtpLittleEndian) {
            true => rtp.swap_bytes(),
            false => rtp,
        }
    }

    fn address(&self, at: usize) -> [u8; 16] {
        let mut address: [u8; 16] = self.array(at);
        match self.fault {
            Some(Fault::AddressLost) => address.fill(0),
            Some(Fault::AddressIn32Bits) => address[..12].fill(0),
            _ => {}
        }
        address
    }

    fn port(&self, at: usize) -> u16 {
        match self.planted(Fault::PortLost) {
            true => 0,
            false => u16::from_be_bytes(self.array(at)),
        }
    }

    /// What a fault takes from another entry.
    fn spoil(&self, entries: &mut [Entry]) {
        if self.fault.is_none() {
            return;
        }
        let before = entries.to_vec();
        let last = entries.len().saturating_sub(1);
        for (index, entry) in entries.iter_mut().enumerate() {
            let front = &before[index.saturating_sub(1)];
            match self.fault {
                Some(Fault::NtpOfEntryBefore) => entry.reading.ntp = front.reading.ntp,
                Some(Fault::RtpOfEntryBefore) => entry.reading.rtp = front.reading.rtp,
                Some(Fault::OriginOfEntryBefore) => entry.origin = front.origin,
                Some(Fault::ReadingOfEntryBehind) => {
                    entry.reading = before[(index + 1).min(last)].reading;
                }
                Some(Fault::BodiesReversed) => entry.body = before[last - index].body.clone(),
                _ => {}
            }
        }
    }
}

#[cfg(test)]
mod tests {
    use super::*;
    use crate::plain_reports::{origin, reading, OPENING};

    fn recording(lengths: &[usize]) -> Recording {
        let entry = |(index, &length): (usize, &usize)| Entry {
            reading: reading(1000 + index as u32),
            origin: origin(index as u16),
            body: vec![index as u8; length],
        };
        Recording {
            opening: OPENING,
            entries: lengths.iter().enumerate().map(entry).collect(),
        }
    }

    #[test]
    fn what_was_written_is_read() {
        for lengths in [&[][..], &[0], &[8, 0, 3], &[2049, 1], &[0; ENTRY_LIMIT]] {
            let written = recording(lengths);
            let bytes = written.write();
            assert_eq!(bytes.len(), written.size());
            assert_eq!(read(&bytes), Ok(written));
        }
    }

    #[test]
    fn bad_layouts_are_told_apart() {
        let bytes = recording(&[5, 7]).write();
        let bodies = HEAD + 2 * CONTENTS;
        for length in 0..bytes.len() {
            let expected = match length {
                _ if length < HEAD => BadLayout::HeadCut,
                _ if length < bodies => BadLayout::ContentsCut,
                _ => BadLayout::BodiesCut(bytes.len() - length),
            };
            assert_eq!(read(&bytes[..length]), Err(expected));
        }
        let longer = [&bytes[..], &[0; 9]].concat();
        assert_eq!(read(&longer), Err(BadLayout::BytesBehind(9)));
        let many = recording(&[0; ENTRY_LIMIT + 1]).write();
        assert_eq!(read(&many), Err(BadLayout::TooManyEntries));
        let longest = RECORDING_LIMIT - HEAD - CONTENTS;
        assert!(read(&recording(&[longest]).write()).is_ok());
        let long = recording(&[longest + 1]).write();
        assert_eq!(read(&long), Err(BadLayout::TooLong));
    }
}
