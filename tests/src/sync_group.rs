//! The independent reader and the independent writer of a site file's line: the
//! attribute of RFC 7272 section 10, one to ten digits, CR LF. Both lend what
//! the archive's functions lend.
//!
//! As in the decoder, a `Fault` plants one error that the comparison has to
//! find.

use crate::items::Refusal;

pub const ATTRIBUTE: &[u8] = b"a=rtcp-idms:sync-group=";

pub const LINE_END: &[u8] = b"\r\n";

pub const MOST_DIGITS: usize = 10;

pub const LAST_GROUP: u32 = 4_294_967_294;

/// The longest line that is written.
pub const LONGEST_LINE: usize = 35;

#[derive(Clone, Copy, Debug, PartialEq, Eq)]
pub enum Fault {
    /// Of what stands behind the attribute, 22 before 21.
    TwentyTwoFirst,
    /// A line longer than any that is read gets 22, whatever is in it.
    LongLineUnread,
    /// More than ten digits get 21.
    ManyDigitsGetTwentyOne,
    /// A value above the range gets 21.
    HighValueGetsTwentyOne,
    /// Behind ten digits and one more, anything passes for a digit.
    FirstDigitsJudged,
    ElevenDigitsTaken,
    /// Leading zeros do not count as digits.
    LeadingZerosUncounted,
    LeadingZerosRefused,
    /// Digits behind a leading zero are octal.
    LeadingZeroIsOctal,
    ReservedGroupRead,
    GroupZeroUnread,
    /// The value wraps at 2^32 in place of 22.
    ValueWrapsAt32Bits,
    /// The value wraps at 2^64 in place of 22.
    ValueWrapsAt64Bits,
    /// The count of digits wraps at 2^8.
    CountWrapsAt8Bits,
    /// The count of digits wraps at 2^16.
    CountWrapsAt16Bits,
    /// No digit is 0.
    NoDigitTaken,
    UpperCaseTaken,
    /// The highest bit of the attribute's bytes is not looked at.
    HighBitIgnored,
    /// The attribute's colon is not looked at.
    ColonIgnored,
    /// The byte before `0` is a digit.
    SlashIsDigit,
    /// The byte behind `9` is a digit.
    ColonIsDigit,
    PlusTaken,
    BlankBeforeLineTaken,
    BlankBeforeDigitsTaken,
    BlankBehindDigitsTaken,
    LfAloneTaken,
    CrAloneTaken,
    NoLineEndTaken,
    /// One byte behind the line is not looked at.
    ByteBehindTaken,
    /// Nothing behind the first CR LF is looked at.
    LinesBehindTaken,
    /// A refusal is at the first byte that is not the attribute's.
    PlaceGiven,
    /// After a refusal the group is 0.
    GroupCleared,
    /// All ten digits are written.
    LeadingZerosWritten,
    LastDigitDropped,
    DigitsReversed,
    /// 0 is written without a digit.
    ZeroWithoutDigit,
    /// The number is written as a signed one.
    SignedNumber,
    LfAloneWritten,
    /// A zero byte behind the line, where there is room.
    ZeroBehindLine,
    /// The rest of the buffer becomes 0.
    RestCleared,
    /// 10 before 22.
    TenFirst,
    ReservedGroupWritten,
    GroupZeroRefused,
    /// The buffer has to hold the longest line.
    LongestLineNeeded,
    /// The buffer has to be longer than the line.
    ExactBufferRefused,
    /// A buffer one byte too short is taken.
    ShortBufferTaken,
    /// A buffer that is too short is filled before 10.
    ShortBufferFilled,
    /// CR LF does not count as written.
    LineEndUncounted,
    /// After 10, as many bytes as would be needed.
    WrittenBesideTen,
}

impl Fault {
    pub const OF_READER: [Fault; 32] = [
        Fault::TwentyTwoFirst,
        Fault::LongLineUnread,
        Fault::ManyDigitsGetTwentyOne,
        Fault::HighValueGetsTwentyOne,
        Fault::FirstDigitsJudged,
        Fault::ElevenDigitsTaken,
        Fault::LeadingZerosUncounted,
        Fault::LeadingZerosRefused,
        Fault::LeadingZeroIsOctal,
        Fault::ReservedGroupRead,
        Fault::GroupZeroUnread,
        Fault::ValueWrapsAt32Bits,
        Fault::ValueWrapsAt64Bits,
        Fault::CountWrapsAt8Bits,
        Fault::CountWrapsAt16Bits,
        Fault::NoDigitTaken,
        Fault::UpperCaseTaken,
        Fault::HighBitIgnored,
        Fault::ColonIgnored,
        Fault::SlashIsDigit,
        Fault::ColonIsDigit,
        Fault::PlusTaken,
        Fault::BlankBeforeLineTaken,
        Fault::BlankBeforeDigitsTaken,
        Fault::BlankBehindDigitsTaken,
        Fault::LfAloneTaken,
        Fault::CrAloneTaken,
        Fault::NoLineEndTaken,
        Fault::ByteBehindTaken,
        Fault::LinesBehindTaken,
        Fault::PlaceGiven,
        Fault::GroupCleared,
    ];

    pub const OF_WRITER: [Fault; 17] = [
        Fault::LeadingZerosWritten,
        Fault::LastDigitDropped,
        Fault::DigitsReversed,
        Fault::ZeroWithoutDigit,
        Fault::SignedNumber,
        Fault::LfAloneWritten,
        Fault::ZeroBehindLine,
        Fault::RestCleared,
        Fault::TenFirst,
        Fault::ReservedGroupWritten,
        Fault::GroupZeroRefused,
        Fault::LongestLineNeeded,
        Fault::ExactBufferRefused,
        Fault::ShortBufferTaken,
        Fault::ShortBufferFilled,
        Fault::LineEndUncounted,
        Fault::WrittenBesideTen,
    ];
}

/// Puts the group number of a line into `group`.
pub fn read(line: &[u8], group: &mut u32) -> Result<(), Refusal> {
    read_with(line, group, None)
}

/// Puts the line of a group number at the front of `buffer`, and its length
/// into `written`.
pub fn write(group: u32, buffer: &mut [u8], written: &mut u64) -> Result<(), Refusal> {
    write_with(group, buffer, written, None)
}

pub fn read_with(line: &[u8], group: &mut u32, fault: Option<Fault>) -> Result<(), Refusal> {
    let reader = Reader { fault };
    match reader.group(line) {
        Ok(read) => {
            *group = read;
            Ok(())
        }
        Err(number) => {
            if reader.planted(Fault::GroupCleared) {
                *group = 0;
            }
            Err(Refusal::new(number, reader.place(line)))
        }
    }
}

struct Reader {
    fault: Option<Fault>,
}

impl Reader {
    fn planted(&self, fault: Fault) -> bool {
        self.fault == Some(fault)
    }

    /// The group number, or the refusal's number.
    fn group(&self, line: &[u8]) -> Result<u32, u64> {
        if self.planted(Fault::LongLineUnread) && line.len() > LONGEST_LINE {
            return Err(22);
        }
        // Refusal 21: not the attribute.
        let rest = self.behind_attribute(line).ok_or(21_u64)?;
        if self.planted(Fault::TwentyTwoFirst) {
            let count = rest.iter().take_while(|byte| byte.is_ascii_digit()).count();
            self.value(&rest[..count])?;
        }
        // Refusal 21: not digits and CR LF.
        let digits = self.before_line_end(rest).ok_or(21_u64)?;
        if !self.are_digits(digits) {
            return Err(21);
        }
        self.value(digits)
    }

    fn behind_attribute<'a>(&self, line: &'a [u8]) -> Option<&'a [u8]> {
        let line = match self.fault {
            Some(Fault::BlankBeforeLineTaken) => line.strip_prefix(b" ").unwrap_or(line),
            _ => line,
        };
        let (front, rest) = line.split_at_checked(ATTRIBUTE.len())?;
        let mut pairs = front.iter().zip(ATTRIBUTE);
        let is_attribute = match self.fault {
            Some(Fault::UpperCaseTaken) => front.eq_ignore_ascii_case(ATTRIBUTE),
            Some(Fault::HighBitIgnored) => pairs.all(|(byte, due)| byte & 0x7F == *due),
            Some(Fault::ColonIgnored) => pairs.all(|(byte, due)| byte == due || *due == b':'),
            _ => front == ATTRIBUTE,
        };
        let rest = match self.fault {
            Some(Fault::BlankBeforeDigitsTaken) => rest.strip_prefix(b" ").unwrap_or(rest),
            Some(Fault::PlusTaken) => rest.strip_prefix(b"+").unwrap_or(rest),
            _ => rest,
        };
        is_attribute.then_some(rest)
    }

    fn before_line_end<'a>(&self, rest: &'a [u8]) -> Option<&'a [u8]> {
        let before = rest.strip_suffix(LINE_END);
        match self.fault {
            Some(Fault::LfAloneTaken) => before.or(rest.strip_suffix(b"\n")),
            Some(Fault::CrAloneTaken) => before.or(rest.strip_suffix(b"\r")),
            Some(Fault::NoLineEndTaken) => before.or(Some(rest)),
            Some(Fault::ByteBehindTaken) => before.or(rest.split_last()?.1.strip_suffix(LINE_END)),
            Some(Fault::LinesBehindTaken) => {
                let end = rest.windows(2).position(|bytes| bytes == LINE_END)?;
                Some(&rest[..end])
            }
            Some(Fault::BlankBehindDigitsTaken) => {
                before.map(|digits| digits.strip_suffix(b" ").unwrap_or(digits))
            }
            _ => before,
        }
    }

    /// At least one, and no other byte.
    fn are_digits(&self, bytes: &[u8]) -> bool {
        let judged = match self.fault {
            Some(Fault::FirstDigitsJudged) => &bytes[..bytes.len().min(MOST_DIGITS + 1)],
            _ => bytes,
        };
        let is_digit = |byte: &u8| match byte {
            b'0'..=b'9' => true,
            b'/' => self.planted(Fault::SlashIsDigit),
            b':' => self.planted(Fault::ColonIsDigit),
            _ => false,
        };
        let are_some = !bytes.is_empty() || self.planted(Fault::NoDigitTaken);
        are_some && judged.iter().all(is_digit)
    }

    /// Up to ten digits' value, or the refusal's number.
    fn value(&self, digits: &[u8]) -> Result<u32, u64> {
        let zeros = digits.iter().take_while(|digit| **digit == b'0').count();
        let count = match self.fault {
            Some(Fault::LeadingZerosUncounted) => digits.len() - zeros,
            Some(Fault::ElevenDigitsTaken) if digits.len() == 11 => MOST_DIGITS,
            Some(Fault::ValueWrapsAt64Bits) if is_above_64_bits(digits) => MOST_DIGITS,
            Some(Fault::CountWrapsAt8Bits) => digits.len() & 0xFF,
            Some(Fault::CountWrapsAt16Bits) => digits.len() & 0xFFFF,
            _ => digits.len(),
        };
        // Refusal 22: more than ten digits, leading zeros included.
        if count > MOST_DIGITS {
            return Err(self.instead_of_22(Fault::ManyDigitsGetTwentyOne));
        }
        if zeros > 0 && digits.len() > 1 && self.planted(Fault::LeadingZerosRefused) {
            return Err(21);
        }
        let octal = zeros > 0 && self.planted(Fault::LeadingZeroIsOctal);
        let base: u64 = if octal { 8 } else { 10 };
        // Ten digits fit in 64 bits: only with a fault planted are there more.
        let value = digits.iter().fold(0_u64, |value, digit| {
            let digit = u64::from(digit.wrapping_sub(b'0'));
            value.wrapping_mul(base).wrapping_add(digit)
        });
        self.in_range(value)
    }

    fn in_range(&self, value: u64) -> Result<u32, u64> {
        if value == 0 && self.planted(Fault::GroupZeroUnread) {
            return Err(22);
        }
        let value = match self.fault {
            Some(Fault::ValueWrapsAt32Bits) => value & 0xFFFF_FFFF,
            _ => value,
        };
        let spared = u32::from(self.planted(Fault::ReservedGroupRead));
        match u32::try_from(value) {
            Ok(group) if group <= LAST_GROUP + spared => Ok(group),
            // Refusal 22: the value is above 4,294,967,294.
            _ => Err(self.instead_of_22(Fault::HighValueGetsTwentyOne)),
        }
    }

    fn instead_of_22(&self, fault: Fault) -> u64 {
        match self.planted(fault) {
            true => 21,
            false => 22,
        }
    }

    /// A refusal's place is 0.
    fn place(&self, line: &[u8]) -> usize {
        match self.fault {
            Some(Fault::PlaceGiven) => {
                let pairs = line.iter().zip(ATTRIBUTE);
                pairs.take_while(|(byte, due)| byte == due).count()
            }
            _ => 0,
        }
    }
}

fn is_above_64_bits(digits: &[u8]) -> bool {
    let digits = std::str::from_utf8(digits).expect("digits are text");
    digits.parse::<u64>().is_err()
}

pub fn write_with(
    group: u32,
    buffer: &mut [u8],
    written: &mut u64,
    fault: Option<Fault>,
) -> Result<(), Refusal> {
    let writer = Writer { fault };
    let line = writer.line(group);
    let (needed, length) = (writer.needed(line.len()), buffer.len());
    let is_short = length < needed;
    if !(is_short && writer.planted(Fault::TenFirst)) {
        // Refusal 22: group 4,294,967,295. Group 0 may be written.
        writer.group(group).map_err(|()| Refusal::new(22, 0))?;
    }
    // Refusal 10, after 22: the buffer is shorter than the line.
    if is_short {
        match fault {
            Some(Fault::ShortBufferFilled) => buffer.copy_from_slice(&line[..length]),
            Some(Fault::WrittenBesideTen) => *written = needed as u64,
            _ => (),
        }
        return Err(Refusal::new(10, 0));
    }
    // With a fault planted, the line may be longer than the buffer.
    let (front, rest) = buffer.split_at_mut(line.len().min(length));
    front.copy_from_slice(&line[..front.len()]);
    *written = line.len() as u64;
    writer.spoil_rest(rest, written);
    Ok(())
}

struct Writer {
    fault: Option<Fault>,
}

impl Writer {
    fn planted(&self, fault: Fault) -> bool {
        self.fault == Some(fault)
    }

    fn group(&self, group: u32) -> Result<(), ()> {
        let reserved = group > LAST_GROUP && !self.planted(Fault::ReservedGroupWritten);
        match reserved || group == 0 && self.planted(Fault::GroupZeroRefused) {
            true => Err(()),
            false => Ok(()),
        }
    }

    /// How long the buffer of a line has to be.
    fn needed(&self, size: usize) -> usize {
        match self.fault {
            Some(Fault::LongestLineNeeded) => LONGEST_LINE,
            Some(Fault::ExactBufferRefused) => size + 1,
            Some(Fault::ShortBufferTaken) => size - 1,
            _ => size,
        }
    }

    fn line(&self, group: u32) -> Vec<u8> {
        let line_end: &[u8] = match self.fault {
            Some(Fault::LfAloneWritten) => b"\n",
            _ => LINE_END,
        };
        [ATTRIBUTE, self.digits(group).as_bytes(), line_end].concat()
    }

    fn digits(&self, group: u32) -> String {
        let mut digits = group.to_string();
        match self.fault {
            Some(Fault::LeadingZerosWritten) => digits = format!("{group:010}"),
            Some(Fault::LastDigitDropped) if digits.len() > 1 => _ = digits.pop(),
            Some(Fault::DigitsReversed) => digits = digits.chars().rev().collect(),
            Some(Fault::ZeroWithoutDigit) if group == 0 => digits.clear(),
            Some(Fault::SignedNumber) => digits = (group as i32).to_string(),
            _ => (),
        }
        digits
    }

    /// Nothing behind the line is changed.
    fn spoil_rest(&self, rest: &mut [u8], written: &mut u64) {
        match self.fault {
            Some(Fault::ZeroBehindLine) if !rest.is_empty() => rest[0] = 0,
            Some(Fault::RestCleared) => rest.fill(0),
            Some(Fault::LineEndUncounted) => *written -= LINE_END.len() as u64,
            _ => (),
        }
    }
}
