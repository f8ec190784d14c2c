//! The peer: a Rust decoder that makes the archive's promise. It checks the
//! whole datagram first, then fills the lent rows, and on a refusal writes
//! nothing. Written for speed: no allocation, whole words, and a second walk
//! that repeats no check of the first.

use crate::peer_table::Report;
use prunepocket_sys::Refusal;

/// Columns of a row: kind, place, source, group, media source, received, RTP,
/// presented, payload type, P.
pub const ROW: usize = 10;

const REPORT: u64 = 1;
const SETTINGS: u64 = 2;
const FAREWELL: u64 = 3;

/// The longest datagram in words.
const LONGEST: usize = 512;

/// The P bit in a packet's header.
const P: u32 = 0x2000_0000;

type Word = [u8; 4];
type Row = [u64; ROW];

/// An item that the member table is told of.
pub enum Call {
    Report(Report),
    Farewell(u32),
}

/// A refusal at a word.
#[inline(always)]
fn refuse<T>(number: u64, word: usize) -> Result<T, Refusal> {
    let place = 4 * word as u64;
    Err(Refusal { number, place })
}

/// How many items a datagram has. Not inlined, since the archive is not. Here
/// and below, `reduced_size` says whether reduced size was agreed.
#[inline(never)]
pub fn count_items(datagram: &[u8], reduced_size: bool) -> Result<u64, Refusal> {
    let words = words_of(datagram)?;
    let count = check(words, reduced_size)?;
    Ok(count as u64)
}

/// All items into rows, and how many there are.
#[inline(never)]
pub fn read_items(datagram: &[u8], reduced_size: bool, rows: &mut [u64]) -> Result<u64, Refusal> {
    let words = words_of(datagram)?;
    let count = check(words, reduced_size)?;
    if rows.len() < ROW * count {
        return refuse(10, 0);
    }
    // Without items there is nothing to walk for again.
    if count > 0 {
        fill(words, rows.as_chunks_mut().0);
    }
    Ok(count as u64)
}

/// Each report and farewell to `call`, in datagram order, once the whole datagram is
/// checked; how many items there are.
#[inline(always)]
pub fn each_call(
    datagram: &[u8],
    reduced_size: bool,
    call: impl FnMut(Call),
) -> Result<u64, Refusal> {
    let words = words_of(datagram)?;
    let count = check(words, reduced_size)?;
    if count > 0 {
        make_calls(words, call);
    }
    Ok(count as u64)
}

/// Refusal 1.
#[inline(always)]
fn words_of(datagram: &[u8]) -> Result<&[Word], Refusal> {
    let (words, rest) = datagram.as_chunks();
    if words.is_empty() || !rest.is_empty() || words.len() > LONGEST {
        return refuse(1, 0);
    }
    Ok(words)
}

#[inline(always)]
fn number(word: Word) -> u64 {
    u32::from_be_bytes(word).into()
}

#[inline(always)]
fn long(high: Word, low: Word) -> u64 {
    number(high) << 32 | number(low)
}

/// The words of a packet or block, its first included.
#[inline(always)]
fn length(header: u32) -> usize {
    (header & 0xFFFF) as usize + 1
}

#[inline(always)]
fn packet_type(header: u32) -> u8 {
    (header >> 16) as u8
}

#[inline(always)]
fn count_of(header: u32) -> usize {
    (header >> 24 & 0x1F) as usize
}

/// The words of padding behind a packet's content; the packet has P set.
#[inline(always)]
fn padding(packet: &[Word]) -> usize {
    let last = packet[packet.len() - 1];
    usize::from(last[3]) / 4
}

/// All checks of the datagram; how many items it has.
#[inline(always)]
fn check(words: &[Word], reduced_size: bool) -> Result<usize, Refusal> {
    let mut items = 0;
    let mut start = 0;
    while start < words.len() {
        let header = u32::from_be_bytes(words[start]);
        let rest = &words[start..];
        if header >> 30 != 2 || length(header) > rest.len() {
            return refuse(2, start);
        }
        let mut content = &rest[..length(header)];
        if header & P != 0 {
            let last = content.len() == rest.len() && start != 0;
            if !last || !rest[rest.len() - 1][3].is_multiple_of(4) {
                return refuse(3, start);
            }
            let padding = padding(content);
            if padding == 0 || padding >= content.len() {
                return refuse(3, start);
            }
            content = &content[..content.len() - padding];
        }
        if start == 0 && !reduced_size && !matches!(packet_type(header), 200 | 201) {
            return refuse(4, 0);
        }
        let count = count_of(header);
        let short = match packet_type(header) {
            200 => content.len() < 7 + 6 * count,
            201 => content.len() < 2 + 6 * count,
            203 => {
                items += count;
                content.len() < 1 + count
            }
            207 if content.len() >= 2 => {
                items += check_blocks(content, start)?;
                false
            }
            207 => true,
            211 => {
                items += 1;
                content.len() != 9
            }
            _ => false,
        };
        if short {
            return refuse(5, start);
        }
        start += length(header);
    }
    Ok(items)
}

/// Checks 6 and 7 of the blocks in an XR packet's content; how many reports.
#[inline(always)]
fn check_blocks(content: &[Word], start: usize) -> Result<usize, Refusal> {
    let mut reports = 0;
    let mut at = 2;
    while at < content.len() {
        let header = u32::from_be_bytes(content[at]);
        let room = content.len() - at;
        if length(header) > room {
            return refuse(6, start + at);
        }
        if header >> 24 == 12 {
            if length(header) != 8 {
                return refuse(7, start + at);
            }
            reports += usize::from(header >> 20 & 0xF == 1);
            at += 8;
        } else {
            at += length(header);
        }
    }
    Ok(reports)
}

/// Fills the rows of a datagram that was checked; there are enough of them.
#[inline(always)]
fn fill(words: &[Word], mut rows: &mut [Row]) {
    let mut start = 0;
    while start < words.len() {
        let header = u32::from_be_bytes(words[start]);
        let packet = &words[start..start + length(header)];
        let filled = match packet_type(header) {
            203 => fill_farewells(&packet[1..1 + count_of(header)], start + 1, rows),
            207 => fill_reports(packet, start, rows),
            211 => fill_settings(packet, start, rows),
            _ => 0,
        };
        rows = &mut rows[filled..];
        start += packet.len();
    }
}

#[inline(always)]
fn fill_farewells(sources: &[Word], start: usize, rows: &mut [Row]) -> usize {
    let mut place = 4 * start as u64;
    for (source, row) in sources.iter().zip(rows) {
        *row = [FAREWELL, place, number(*source), 0, 0, 0, 0, 0, 0, 0];
        place += 4;
    }
    sources.len()
}

#[inline(always)]
fn fill_reports(packet: &[Word], start: usize, rows: &mut [Row]) -> usize {
    let content = match u32::from_be_bytes(packet[0]) & P {
        0 => packet,
        _ => &packet[..packet.len() - padding(packet)],
    };
    let source = number(packet[1]);
    let mut filled = 0;
    let mut at = 2;
    while at < content.len() {
        let header = u32::from_be_bytes(content[at]);
        if header >> 24 == 12 {
            if header >> 20 & 0xF == 1 {
                let place = 4 * (start + at) as u64;
                rows[filled] = report(&content[at..at + 8], place, source);
                filled += 1;
            }
            at += 8;
        } else {
            at += length(header);
        }
    }
    filled
}

#[inline(always)]
fn report(block: &[Word], place: u64, source: u64) -> Row {
    let block = &block[..8];
    let p = u64::from(block[0][1] & 1);
    [
        REPORT,
        place,
        source,
        number(block[2]),
        number(block[3]),
        long(block[4], block[5]),
        number(block[6]),
        number(block[7]) * p,
        u64::from(block[1][0] >> 1),
        p,
    ]
}

#[inline(always)]
fn fill_settings(packet: &[Word], start: usize, rows: &mut [Row]) -> usize {
    let packet = &packet[..9];
    rows[0] = [
        SETTINGS,
        4 * start as u64,
        number(packet[1]),
        number(packet[3]),
        number(packet[2]),
        long(packet[4], packet[5]),
        number(packet[6]),
        long(packet[7], packet[8]),
        0,
        0,
    ];
    1
}

/// The calls of a datagram that was checked; settings are passed by.
#[inline(always)]
fn make_calls(words: &[Word], mut call: impl FnMut(Call)) {
    let mut start = 0;
    while start < words.len() {
        let header = u32::from_be_bytes(words[start]);
        let packet = &words[start..start + length(header)];
        match packet_type(header) {
            203 => {
                for source in &packet[1..1 + count_of(header)] {
                    call(Call::Farewell(u32::from_be_bytes(*source)));
                }
            }
            207 => report_calls(packet, &mut call),
            _ => {}
        }
        start += packet.len();
    }
}

#[inline(always)]
fn report_calls(packet: &[Word], call: &mut impl FnMut(Call)) {
    let content = match u32::from_be_bytes(packet[0]) & P {
        0 => packet,
        _ => &packet[..packet.len() - padding(packet)],
    };
    let sender = u32::from_be_bytes(packet[1]);
    let mut at = 2;
    while at < content.len() {
        let header = u32::from_be_bytes(content[at]);
        if header >> 24 == 12 {
            if header >> 20 & 0xF == 1 {
                call(Call::Report(report_fields(&content[at..at + 8], sender)));
            }
            at += 8;
        } else {
            at += length(header);
        }
    }
}

#[inline(always)]
fn report_fields(block: &[Word], sender: u32) -> Report {
    let block = &block[..8];
    let p = block[0][1] & 1 == 1;
    Report {
        sender,
        payload_type: block[1][0] >> 1,
        p,
        group: u32::from_be_bytes(block[2]),
        media: u32::from_be_bytes(block[3]),
        received: long(block[4], block[5]),
        rtp: u32::from_be_bytes(block[6]),
        presented: if p { u32::from_be_bytes(block[7]) } else { 0 },
    }
}
