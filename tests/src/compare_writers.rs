//! The comparison of the archive's writers with the encoder, message by
//! message: answers, the whole memory around a lent buffer, the way back
//! through both readers, and items of a datagram that are written again.

use crate::archive;
use crate::compare::{hex, same, Verdict, BEFORE};
use crate::decoder::decode;
use crate::encoder::{Fault, Message};
use crate::generator::{Compound, Rng, LONGEST_BUFFER};
use crate::items::{PlacedItem, Refusal, ROW};
use prunepocket_sys::{ReportMessage, SettingsMessage};

/// Bytes on both sides of a lent buffer, more than a message has.
const GUARD: usize = 48;

/// A guard, room for the alignment, the longest buffer, a guard.
const ARENA: usize = GUARD + 8 + LONGEST_BUFFER + GUARD;

/// The group that no message may have.
const RESERVED_GROUP: u32 = u32::MAX;

/// Of a first packet that is neither 200 nor 201, where reduced size was not
/// agreed.
const BAD_FIRST: Refusal = Refusal {
    number: 4,
    place: 0,
};

type Row = [u64; ROW];

/// How often each thing was met with one of the writers.
#[derive(Default)]
pub struct Counts {
    pub accepted: u64,
    pub short_buffer: u64,
    pub out_of_range: u64,
    /// Accepted messages that both readers read again behind an RR, by the
    /// value of the flag for reduced size.
    pub read_back: [u64; 2],
    /// Those that they read alone where it was agreed, and refused with 4 where
    /// it was not.
    pub read_alone: u64,
    pub refused_alone: u64,
    /// Items of a datagram that were written again, by the value of the flag
    /// that they were read with.
    pub written_back: [u64; 2],
    /// Those of a datagram that only one value lets through.
    pub written_from_reduced: u64,
    /// Items of a datagram that were refused for their group.
    pub not_written_back: u64,
}

pub struct WriterComparison {
    fault: Option<Fault>,
    rng: Rng,
    pub reports: Counts,
    pub settings: Counts,
}

impl WriterComparison {
    /// With a planted fault, the encoder is the one that errs.
    pub fn new(seed: u64, fault: Option<Fault>) -> Self {
        WriterComparison {
            fault,
            rng: Rng::new(!seed),
            reports: Counts::default(),
            settings: Counts::default(),
        }
    }

    fn counts(&mut self, message: &Message) -> &mut Counts {
        match message {
            Message::Report(_) => &mut self.reports,
            Message::Settings(_) => &mut self.settings,
        }
    }

    /// Writes a message into a buffer of a length, and reads it again.
    pub fn check(&mut self, message: &Message, length: usize) -> Verdict {
        let answer = self.check_write(message, length)?;
        let counts = self.counts(message);
        match answer {
            Ok(bytes) => {
                counts.accepted += 1;
                self.check_read_back(message, &bytes)
            }
            Err(10) => {
                counts.short_buffer += 1;
                Ok(())
            }
            Err(_) => {
                counts.out_of_range += 1;
                Ok(())
            }
        }
    }

    /// The bytes that the archive wrote or its refusal's number, which are the
    /// encoder's.
    fn check_write(
        &mut self,
        message: &Message,
        length: usize,
    ) -> Result<Result<Vec<u8>, u64>, String> {
        let expected = message.encode_with(length, self.fault);
        let mut lent = LentBuffer::new(&mut self.rng, length);
        let after = match &expected {
            Ok(bytes) => lent.with_front(bytes),
            Err(_) => lent.memory,
        };
        let (expected_answer, expected_written) = match &expected {
            Ok(bytes) => (Ok(bytes.len() as u64), bytes.len() as u64),
            Err(number) => (Err(Refusal::new(*number, 0)), BEFORE),
        };
        let mut written = BEFORE;
        let answer = archive::write(message, lent.buffer(), &mut written);
        let call = format_args!("writing into {length} bytes");
        same(call, &answer, &expected_answer)?;
        same(call, &written, &expected_written)?;
        lent.settle(&after)?;
        Ok(expected)
    }

    /// The message is the only item for both readers, with the fields that were
    /// written: behind an 8-byte RR with count 0 with either value of the flag,
    /// and alone where reduced size was agreed. Where it was not, 4.
    fn check_read_back(&mut self, message: &Message, bytes: &[u8]) -> Verdict {
        let mut datagram = vec![0x80, 201, 0, 1];
        datagram.extend(self.rng.word().to_be_bytes());
        datagram.extend(bytes);
        let behind_rr = Ok(vec![row_at(message, 8)]);
        for (flag, reduced_size) in [false, true].into_iter().enumerate() {
            check_read(&datagram, reduced_size, &behind_rr)?;
            self.counts(message).read_back[flag] += 1;
        }
        check_read(bytes, true, &Ok(vec![row_at(message, 0)]))?;
        self.counts(message).read_alone += 1;
        check_read(bytes, false, &Err(BAD_FIRST))?;
        self.counts(message).refused_alone += 1;
        Ok(())
    }

    /// Writes every report and every settings item of a valid compound again,
    /// from what the archive read with each value of the flag that lets it.
    pub fn check_compound(&mut self, compound: &Compound) -> Verdict {
        for reduced_size in [false, true] {
            let rows = archive_rows(&compound.bytes, reduced_size);
            let expected = match compound.needs_reduced_size() && !reduced_size {
                true => Err(BAD_FIRST),
                false => Ok(rows_of(&compound.items)),
            };
            let call = format_args!("the items, reduced size {reduced_size}");
            same(call, &rows, &expected)?;
            for row in rows.unwrap_or_default() {
                let Some(message) = message_of(&row) else {
                    continue;
                };
                if self.check_written_back(&message, &compound.bytes[row[1] as usize..])? {
                    let counts = self.counts(&message);
                    counts.written_back[usize::from(reduced_size)] += 1;
                    counts.written_from_reduced += u64::from(compound.needs_reduced_size());
                }
            }
        }
        Ok(())
    }

    /// `own` starts with the item's own bytes. Only the reserved group keeps
    /// an item from being written. Answers whether it was written.
    fn check_written_back(&mut self, message: &Message, own: &[u8]) -> Result<bool, String> {
        let length = self.rng.between(message.size(), LONGEST_BUFFER);
        let answer = self.check_write(message, length)?;
        if group(message) == RESERVED_GROUP {
            self.counts(message).not_written_back += 1;
            same(format_args!("written back"), &answer, &Err(11))?;
            return Ok(false);
        }
        let (written, own) = match (message, &answer) {
            (Message::Report(_), Ok(bytes)) => (&bytes[8..40], plain_block(&own[..32])),
            (Message::Settings(_), Ok(bytes)) => (&bytes[..], plain_settings(&own[..36])),
            (_, Err(number)) => return Err(format!("written back: refused {number}")),
        };
        if written != own {
            return Err(format!(
                "written back: archive {}, the datagram has {}",
                hex(written),
                hex(&own)
            ));
        }
        Ok(true)
    }
}

/// Both readers answer with these rows or this refusal.
fn check_read(
    datagram: &[u8],
    reduced_size: bool,
    expected: &Result<Vec<Row>, Refusal>,
) -> Verdict {
    let decoded = decode(datagram, reduced_size).map(|items| rows_of(&items));
    let sides = [
        ("archive", archive_rows(datagram, reduced_size)),
        ("decoder", decoded),
    ];
    for (side, rows) in sides {
        if rows != *expected {
            return Err(format!(
                "read back, reduced size {reduced_size}: {side} {rows:?}, expected {expected:?}"
            ));
        }
    }
    Ok(())
}

fn group(message: &Message) -> u32 {
    match message {
        Message::Report(fields) => fields.group,
        Message::Settings(fields) => fields.group,
    }
}

fn rows_of(items: &[PlacedItem]) -> Vec<Row> {
    items.iter().map(PlacedItem::row).collect()
}

fn archive_rows(datagram: &[u8], reduced_size: bool) -> Result<Vec<Row>, Refusal> {
    let mut count = 0;
    prunepocket_sys::count_items(datagram, reduced_size, &mut count)?;
    let mut numbers = vec![0; ROW * count as usize];
    prunepocket_sys::read_items(datagram, reduced_size, &mut numbers, &mut count)?;
    let rows = numbers.as_chunks().0;
    Ok(rows.to_vec())
}

/// The item of a message that starts at a byte. A report's place is that of its
/// block, which the XR header precedes.
fn row_at(message: &Message, start: u64) -> Row {
    match message {
        Message::Report(fields) => [
            1,
            start + 8,
            fields.sender.into(),
            fields.group.into(),
            fields.media.into(),
            fields.received,
            fields.rtp.into(),
            fields.presented.into(),
            fields.payload_type.into(),
            fields.p.into(),
        ],
        Message::Settings(fields) => [
            2,
            start,
            fields.sender.into(),
            fields.group.into(),
            fields.media.into(),
            fields.received,
            fields.rtp.into(),
            fields.presented,
            0,
            0,
        ],
    }
}

/// The message of an item's fields; a farewell has none.
fn message_of(row: &Row) -> Option<Message> {
    let word = |column: usize| u32::try_from(row[column]).expect("a field of 32 bits");
    match row[0] {
        1 => Some(Message::Report(ReportMessage {
            sender: word(2),
            payload_type: word(8),
            p: word(9),
            group: word(3),
            media: word(4),
            received: row[5],
            rtp: word(6),
            presented: word(7),
        })),
        2 => Some(Message::Settings(SettingsMessage {
            sender: word(2),
            group: word(3),
            media: word(4),
            received: row[5],
            rtp: word(6),
            presented: row[7],
        })),
        _ => None,
    }
}

/// A report block with reserved bits 0, and presented 0 where P is 0.
fn plain_block(block: &[u8]) -> Vec<u8> {
    let mut block = block.to_vec();
    // The 3 bits between role and P, then the 25 after the payload type.
    block[1] &= 0xF1;
    block[4] &= 0xFE;
    block[5..8].fill(0);
    if block[1] & 1 == 0 {
        block[28..].fill(0);
    }
    block
}

/// A settings packet with reserved bits 0, as it is without padding.
fn plain_settings(packet: &[u8]) -> Vec<u8> {
    let mut packet = packet.to_vec();
    packet[0] &= 0xE0;
    if packet[0] & 0x20 != 0 {
        packet[0] &= !0x20;
        packet[2..4].copy_from_slice(&[0, 8]);
    }
    packet
}

/// A buffer at any alignment, with noise in it and around it.
#[derive(Clone)]
pub(crate) struct LentBuffer {
    pub(crate) memory: [u8; ARENA],
    start: usize,
    length: usize,
}

impl LentBuffer {
    pub(crate) fn new(rng: &mut Rng, length: usize) -> Self {
        let mut memory = [0; ARENA];
        for bytes in memory.chunks_exact_mut(8) {
            bytes.copy_from_slice(&rng.number().to_be_bytes());
        }
        let start = GUARD + rng.below(8);
        LentBuffer {
            memory,
            start,
            length,
        }
    }

    pub(crate) fn buffer(&mut self) -> &mut [u8] {
        &mut self.memory[self.start..self.start + self.length]
    }

    /// The whole memory, with these bytes at the front of the buffer.
    pub(crate) fn with_front(&self, bytes: &[u8]) -> [u8; ARENA] {
        let mut memory = self.memory;
        memory[self.start..self.start + bytes.len()].copy_from_slice(bytes);
        memory
    }

    pub(crate) fn settle(&self, expected: &[u8; ARENA]) -> Verdict {
        if self.memory == *expected {
            return Ok(());
        }
        let buffer = self.start..self.start + self.length;
        let (got, expected) = (&self.memory[buffer.clone()], &expected[buffer]);
        if got == expected {
            return Err(String::from(
                "bytes outside of the buffer are not as before",
            ));
        }
        Err(format!(
            "the buffer: archive {}, expected {}",
            hex(got),
            hex(expected)
        ))
    }
}
