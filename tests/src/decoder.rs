//! The independent decoder: the walk of document 01 over one datagram, with
//! the layouts of RFC 7272, RFC 3611 and RFC 3550, and with change request E2
//! where reduced size (RFC 5506) was agreed.
//!
//! A `Fault` plants one error. The comparison has to find each of them, which
//! shows that it could find such an error in the archive too.

use crate::items::{Item, PlacedItem, Refusal, Report, Settings};

#[derive(Clone, Copy, Debug, PartialEq, Eq)]
pub enum Fault {
    /// Padding counts as content.
    PaddingIsContent,
    /// Group and media source of a report in the order of a settings packet.
    ReportIdentifiersSwapped,
    /// Of a block, check 7 before 6.
    SevenBeforeSix,
    /// Check 7 only for role 1.
    SevenForRoleOneOnly,
    /// The presented field is read where P is 0.
    PresentedWithoutP,
    /// Of the first packet, check 4 before 3.
    FourBeforeThree,
    /// A settings packet may have more than 36 bytes.
    LongSettings,
    /// Checks 2 to 4 of all packets before 5 to 7 of any.
    AllFramesFirst,
    /// 4 where reduced size was agreed, too.
    FourAtReducedSize,
    /// 4 is never given.
    FourNever,
    /// Reduced size counts as agreed where it was not, and the other way.
    FlagTurnedRound,
    /// At reduced size, a lone packet may be padded.
    LonePaddingAtReducedSize,
    /// At reduced size, a first packet with others behind it may be padded.
    FirstPaddingAtReducedSize,
    /// At reduced size, 200 and 201 may have less than their least content.
    ShortReportsAtReducedSize,
    /// At reduced size, 4 for every first packet but 200, 201 and 207.
    OnlyXrAtReducedSize,
    /// At reduced size, a first packet that is neither 200 nor 201 is stepped
    /// over unread.
    FirstUnreadAtReducedSize,
}

impl Fault {
    pub const ALL: [Fault; 16] = [
        Fault::PaddingIsContent,
        Fault::ReportIdentifiersSwapped,
        Fault::SevenBeforeSix,
        Fault::SevenForRoleOneOnly,
        Fault::PresentedWithoutP,
        Fault::FourBeforeThree,
        Fault::LongSettings,
        Fault::AllFramesFirst,
        Fault::FourAtReducedSize,
        Fault::FourNever,
        Fault::FlagTurnedRound,
        Fault::LonePaddingAtReducedSize,
        Fault::FirstPaddingAtReducedSize,
        Fault::ShortReportsAtReducedSize,
        Fault::OnlyXrAtReducedSize,
        Fault::FirstUnreadAtReducedSize,
    ];
}

/// All items of a datagram in datagram order, or the refusal of the datagram.
/// `reduced_size` says whether reduced size was agreed.
pub fn decode(datagram: &[u8], reduced_size: bool) -> Result<Vec<PlacedItem>, Refusal> {
    decode_with(datagram, reduced_size, None)
}

pub fn decode_with(
    datagram: &[u8],
    reduced_size: bool,
    fault: Option<Fault>,
) -> Result<Vec<PlacedItem>, Refusal> {
    let length = datagram.len();
    // Refusal 1: the length is 0, not a multiple of 4, or over 2,048; place 0.
    if length == 0 || !length.is_multiple_of(4) || length > 2048 {
        return Err(Refusal::new(1, 0));
    }
    let decoder = Decoder {
        datagram,
        reduced_size: reduced_size != (fault == Some(Fault::FlagTurnedRound)),
        fault,
    };
    if fault == Some(Fault::AllFramesFirst) {
        let mut start = 0;
        while start < length {
            start = decoder.frame(start)?.end;
        }
    }
    // Walking a datagram: packet by packet from the front, all checks of one
    // packet before the first of the next.
    let mut items = Vec::new();
    let mut start = 0;
    while start < length {
        let packet = decoder.frame(start)?;
        decoder.take(&packet, &mut items)?;
        start = packet.end;
    }
    Ok(items)
}

struct Decoder<'a> {
    datagram: &'a [u8],
    reduced_size: bool,
    fault: Option<Fault>,
}

/// A packet that has passed checks 2 to 4.
struct Packet {
    start: usize,
    /// Where its content ends and its padding, if any, starts.
    content_end: usize,
    end: usize,
    count: usize,
    packet_type: u8,
}

impl Packet {
    /// Content includes the header, not the padding.
    fn content(&self) -> usize {
        self.content_end - self.start
    }

    /// Check 5: content too short for the type; the packet's place.
    fn at_least(&self, least: usize) -> Result<(), Refusal> {
        if self.content() < least {
            return Err(Refusal::new(5, self.start));
        }
        Ok(())
    }
}

impl Decoder<'_> {
    fn planted(&self, fault: Fault) -> bool {
        self.fault == Some(fault)
    }

    fn word16(&self, at: usize) -> u16 {
        u16::from_be_bytes([self.datagram[at], self.datagram[at + 1]])
    }

    fn word32(&self, at: usize) -> u32 {
        u32::from(self.word16(at)) << 16 | u32::from(self.word16(at + 2))
    }

    fn word64(&self, at: usize) -> u64 {
        u64::from(self.word32(at)) << 32 | u64::from(self.word32(at + 4))
    }

    /// Checks 2, 3 and 4 of the packet at `start`. Its four header bytes are
    /// there: the datagram and every packet are whole words.
    fn frame(&self, start: usize) -> Result<Packet, Refusal> {
        let head = self.datagram[start];
        // Check 2: first the version, then the end of the packet.
        if head >> 6 != 2 {
            return Err(Refusal::new(2, start));
        }
        let end = start + 4 * (usize::from(self.word16(start + 2)) + 1);
        if end > self.datagram.len() {
            return Err(Refusal::new(2, start));
        }
        if self.planted(Fault::FourBeforeThree) {
            self.check_first(start)?;
        }
        let padding = self.padding(start, end)?;
        self.check_first(start)?;
        let content_end = match self.planted(Fault::PaddingIsContent) {
            true => end,
            false => end - padding,
        };
        Ok(Packet {
            start,
            content_end,
            end,
            count: usize::from(head & 0x1F),
            packet_type: self.datagram[start + 1],
        })
    }

    /// Check 3: how many bytes of padding the packet has.
    fn padding(&self, start: usize, end: usize) -> Result<usize, Refusal> {
        let refusal = Err(Refusal::new(3, start));
        if self.datagram[start] & 0x20 == 0 {
            return Ok(0);
        }
        // P only on the last packet, and not on the first, even where that is
        // the last; at reduced size too.
        let last = end == self.datagram.len();
        let allowed = match (start, last) {
            (0, true) => self.reduced_size && self.planted(Fault::LonePaddingAtReducedSize),
            (0, false) => self.reduced_size && self.planted(Fault::FirstPaddingAtReducedSize),
            _ => last,
        };
        if !allowed {
            return refusal;
        }
        // The final byte: a non-zero multiple of 4, at most the packet's
        // bytes less 4.
        let padding = usize::from(self.datagram[end - 1]);
        if padding == 0 || padding % 4 != 0 || padding > end - start - 4 {
            return refusal;
        }
        Ok(padding)
    }

    /// Check 4: the first packet is of type 200 or 201, or of any type where
    /// reduced size was agreed.
    fn check_first(&self, start: usize) -> Result<(), Refusal> {
        let first = self.datagram[1];
        let any_type = match self.fault {
            Some(Fault::FourAtReducedSize) => false,
            Some(Fault::FourNever) => true,
            Some(Fault::OnlyXrAtReducedSize) => self.reduced_size && first == 207,
            _ => self.reduced_size,
        };
        if start == 0 && !any_type && !matches!(first, 200 | 201) {
            return Err(Refusal::new(4, 0));
        }
        Ok(())
    }

    /// Checks 5 to 7 by type, and the packet's items.
    fn take(&self, packet: &Packet, items: &mut Vec<PlacedItem>) -> Result<(), Refusal> {
        if self.left_unread(packet) {
            return Ok(());
        }
        match packet.packet_type {
            // Sender report: header, SSRC, five words, reception reports.
            200 => packet.at_least(28 + 24 * packet.count),
            // Receiver report: header, SSRC, reception reports.
            201 => packet.at_least(8 + 24 * packet.count),
            203 => self.take_farewells(packet, items),
            207 => self.take_blocks(packet, items),
            211 => self.take_settings(packet, items),
            // Other types are stepped over unread.
            _ => Ok(()),
        }
    }

    /// Whether a planted fault keeps the packet from being looked at.
    fn left_unread(&self, packet: &Packet) -> bool {
        let report = matches!(packet.packet_type, 200 | 201);
        let concerned = match self.fault {
            Some(Fault::ShortReportsAtReducedSize) => report,
            Some(Fault::FirstUnreadAtReducedSize) => packet.start == 0 && !report,
            _ => false,
        };
        self.reduced_size && concerned
    }

    /// A farewell for each source of a BYE; a reason behind them is surplus.
    fn take_farewells(&self, packet: &Packet, items: &mut Vec<PlacedItem>) -> Result<(), Refusal> {
        packet.at_least(4 + 4 * packet.count)?;
        for index in 0..packet.count {
            let place = packet.start + 4 + 4 * index;
            let source = self.word32(place);
            items.push(PlacedItem::new(place, Item::Farewell { source }));
        }
        Ok(())
    }

    /// Blocks stand one behind the other, after the XR sender's SSRC.
    fn take_blocks(&self, packet: &Packet, items: &mut Vec<PlacedItem>) -> Result<(), Refusal> {
        packet.at_least(8)?;
        let source = self.word32(packet.start + 4);
        let mut block = packet.start + 8;
        while block < packet.content_end {
            let block_end = block + 4 * (usize::from(self.word16(block + 2)) + 1);
            if self.planted(Fault::SevenBeforeSix) {
                self.check_block_length(block)?;
            }
            // Check 6: the block runs past the content; the block's place.
            if block_end > packet.content_end {
                return Err(Refusal::new(6, block));
            }
            self.check_block_length(block)?;
            // Of type 12, only role 1 gives an item; other types are skipped.
            if self.datagram[block] == 12 && self.role(block) == 1 {
                let report = self.report(block, source);
                items.push(PlacedItem::new(block, Item::Report(report)));
            }
            block = block_end;
        }
        Ok(())
    }

    /// Check 7: a block of type 12, whatever its role, with a length other
    /// than 7; the block's place.
    fn check_block_length(&self, block: usize) -> Result<(), Refusal> {
        let looked_at = !self.planted(Fault::SevenForRoleOneOnly) || self.role(block) == 1;
        if self.datagram[block] == 12 && looked_at && self.word16(block + 2) != 7 {
            return Err(Refusal::new(7, block));
        }
        Ok(())
    }

    /// SPST, the upper four of the type-specific bits.
    fn role(&self, block: usize) -> u8 {
        self.datagram[block + 1] >> 4
    }

    /// The report block, RFC 7272 section 6: the group precedes the media
    /// source, reserved bits are ignored.
    fn report(&self, block: usize, source: u32) -> Report {
        let p = self.datagram[block + 1] & 1 == 1;
        let identifiers = (self.word32(block + 8), self.word32(block + 12));
        let (group, media) = match self.planted(Fault::ReportIdentifiersSwapped) {
            true => (identifiers.1, identifiers.0),
            false => identifiers,
        };
        // Where P is 0, presented is not looked at and reads as 0.
        let presented = match p || self.planted(Fault::PresentedWithoutP) {
            true => self.word32(block + 28),
            false => 0,
        };
        Report {
            source,
            payload_type: self.datagram[block + 4] >> 1,
            p,
            group,
            media,
            received: self.word64(block + 16),
            rtp: self.word32(block + 24),
            presented,
        }
    }

    /// The settings packet, RFC 7272 section 7: the media source precedes the
    /// group. The five bits that are a count elsewhere are reserved.
    fn take_settings(&self, packet: &Packet, items: &mut Vec<PlacedItem>) -> Result<(), Refusal> {
        // Check 5 for 211: exactly 36 bytes.
        packet.at_least(36)?;
        if packet.content() > 36 && !self.planted(Fault::LongSettings) {
            return Err(Refusal::new(5, packet.start));
        }
        let start = packet.start;
        let settings = Settings {
            source: self.word32(start + 4),
            media: self.word32(start + 8),
            group: self.word32(start + 12),
            received: self.word64(start + 16),
            rtp: self.word32(start + 24),
            presented: self.word64(start + 28),
        };
        items.push(PlacedItem::new(start, Item::Settings(settings)));
        Ok(())
    }
}
