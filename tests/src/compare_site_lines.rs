//! The comparison of the archive with the independent reader and writer of a
//! site file's line: answers, all lent memory, and both ways around.

use crate::compare::{same, Verdict};
use crate::compare_writers::LentBuffer;
use crate::generator::{Rng, LONGEST_BUFFER};
use crate::items::Refusal;
use crate::site_lines::{line_of, Kind, SiteLine, Writing, THOUSAND};
use crate::sync_group::{self, read_with, write_with, Fault};
use crate::sync_group::{ATTRIBUTE, LAST_GROUP, LINE_END, LONGEST_LINE, MOST_DIGITS};
use prunepocket_sys::{read_sync_group, write_sync_group};

/// The highest number of a refusal, and one.
pub const NUMBERS: usize = 23;

/// What stands in memory behind a line, before noise: often what it may lack.
const BEHIND: [&[u8]; 5] = [b"", b"\n", b"\r\n", b"0\r\n", b"42\r\n"];

/// How often each thing was met in reading.
#[derive(Default)]
pub struct ReadCounts {
    /// By kind of line, then by number.
    pub answers: [[u64; NUMBERS]; Kind::ALL.len()],
    /// Lines that were read, by their count of digits.
    pub digits: [u64; MOST_DIGITS + 1],
    pub leading_zeros: u64,
    pub group_zero: u64,
    pub last_group: u64,
    /// 22 for a value of ten digits.
    pub high_values: u64,
    /// 22 for more than ten digits, and of these the values in range.
    pub many_digits: u64,
    pub many_digits_in_range: u64,
    pub thousand_digits: u64,
    /// 21 where 22 would be due too.
    pub both_refusals: u64,
    pub thousand_digits_but_one: u64,
    pub no_digit: u64,
    /// Lines that were read and written again.
    pub written_back: u64,
    /// Of these, the ones that came back without their leading zeros.
    pub shortened: u64,
}

/// How often each thing was met in writing.
#[derive(Default)]
pub struct WriteCounts {
    /// By count of digits less one, then by number.
    pub answers: [[u64; NUMBERS]; MOST_DIGITS],
    /// Buffers exactly as long as the line, and one byte shorter.
    pub exact: [u64; MOST_DIGITS],
    pub one_short: [u64; MOST_DIGITS],
    /// 22 where 10 would be due too.
    pub both_refusals: u64,
    /// Lines that were written and that both readers read again.
    pub read_back: u64,
}

pub struct LineComparison {
    fault: Option<Fault>,
    rng: Rng,
    pub read: ReadCounts,
    pub written: WriteCounts,
}

impl LineComparison {
    /// With a planted fault, the independent side is the one that errs.
    pub fn new(seed: u64, fault: Option<Fault>) -> Self {
        LineComparison {
            fault,
            rng: Rng::new(!seed),
            read: ReadCounts::default(),
            written: WriteCounts::default(),
        }
    }

    /// Reads a line, and writes what was read.
    pub fn check_line(&mut self, line: &SiteLine) -> Verdict {
        let answer = self.check_read(&line.bytes)?;
        let number = answer.err().unwrap_or(0);
        self.read.answers[line.kind as usize][number as usize] += 1;
        match answer {
            Ok(group) => {
                let (digits, _) = parts(&line.bytes).ok_or("read without the attribute")?;
                self.read.add_read(digits, group);
                self.check_written_back(digits, group)
            }
            Err(number) => {
                self.read.add_refused(&line.bytes, number);
                Ok(())
            }
        }
    }

    /// The group that the archive read or its refusal's number, which are those
    /// of the independent reader. The group is lent between two numbers.
    fn check_read(&mut self, line: &[u8]) -> Result<Result<u32, u64>, String> {
        let lent = self.lend(line);
        let mut groups = [(); 3].map(|()| self.rng.word());
        let mut expected_groups = groups;
        let expected = read_with(line, &mut expected_groups[1], self.fault);
        let answer = read_sync_group(&lent.memory[lent.start..lent.end], &mut groups[1]);
        same(format_args!("reading"), &answer, &expected)?;
        same(format_args!("the group read"), &groups, &expected_groups)?;
        Ok(expected
            .map(|()| groups[1])
            .map_err(|refusal| refusal.number))
    }

    /// The line at any alignment.
    fn lend(&mut self, line: &[u8]) -> LentLine {
        let start = self.rng.below(8);
        let mut memory = vec![0; start];
        memory.extend(line);
        let end = memory.len();
        memory.extend(self.rng.pick(&BEHIND));
        memory.extend(self.rng.number().to_be_bytes());
        LentLine { memory, start, end }
    }

    /// The archive writes the line that it read, without its leading zeros.
    fn check_written_back(&mut self, digits: &[u8], group: u32) -> Verdict {
        // The last digit stays, also where it is 0.
        let zeros = leading_zeros(digits).min(digits.len().saturating_sub(1));
        let own = line_of(&digits[zeros..]);
        let length = self.rng.between(LONGEST_LINE, LONGEST_BUFFER);
        let mut lent = LentBuffer::new(&mut self.rng, length);
        let after = lent.with_front(&own);
        let mut written = 0;
        let answer = write_sync_group(group, lent.buffer(), &mut written);
        same(format_args!("writing what was read"), &answer, &Ok(()))?;
        same(format_args!("written back"), &written, &(own.len() as u64))?;
        lent.settle(&after)?;
        self.read.written_back += 1;
        self.read.shortened += u64::from(zeros > 0);
        Ok(())
    }

    /// Writes the line of a group into a buffer of a length, and reads it.
    pub fn check_writing(&mut self, (group, length): &Writing) -> Verdict {
        let answer = self.check_write(*group, *length)?;
        let number = answer.as_ref().err().copied().unwrap_or(0);
        self.written.add(*group, *length, number);
        match answer {
            Ok(line) => self.check_read_back(*group, &line),
            Err(_) => Ok(()),
        }
    }

    /// The line that the archive wrote or its refusal's number, which are those
    /// of the independent writer. `written` is lent between two numbers.
    fn check_write(&mut self, group: u32, length: usize) -> Result<Result<Vec<u8>, u64>, String> {
        let mut lent = LentBuffer::new(&mut self.rng, length);
        let mut after = lent.clone();
        let mut written = [(); 3].map(|()| self.rng.number());
        let mut expected_written = written;
        let expected = write_with(group, after.buffer(), &mut expected_written[1], self.fault);
        let answer = write_sync_group(group, lent.buffer(), &mut written[1]);
        let call = format_args!("writing into {length} bytes");
        same(call, &answer, &expected)?;
        same(call, &written, &expected_written)?;
        lent.settle(&after.memory)?;
        let line = expected.map(|()| lent.buffer()[..written[1] as usize].to_vec());
        Ok(line.map_err(|refusal| refusal.number))
    }

    /// Both readers read the line that the archive wrote as its group.
    fn check_read_back(&mut self, group: u32, line: &[u8]) -> Verdict {
        type Read = fn(&[u8], &mut u32) -> Result<(), Refusal>;
        let sides: [(&str, Read); 2] = [
            ("archive", read_sync_group),
            ("independent reader", sync_group::read),
        ];
        for (side, read) in sides {
            let mut read_group = !group;
            let answer = read(line, &mut read_group);
            if (answer, read_group) != (Ok(()), group) {
                return Err(format!("read back: {side} {answer:?}, group {read_group}"));
            }
        }
        self.written.read_back += 1;
        Ok(())
    }
}

struct LentLine {
    memory: Vec<u8>,
    start: usize,
    end: usize,
}

/// The digits behind the attribute, and what stands behind them.
fn parts(line: &[u8]) -> Option<(&[u8], &[u8])> {
    let rest = line.strip_prefix(ATTRIBUTE)?;
    let count = rest.iter().take_while(|byte| byte.is_ascii_digit()).count();
    Some(rest.split_at(count))
}

fn leading_zeros(digits: &[u8]) -> usize {
    digits.iter().take_while(|digit| **digit == b'0').count()
}

/// Whether the value is above the last group: of two numbers with as many
/// digits, the one that is later in the order of texts is the higher.
fn is_high(digits: &[u8]) -> bool {
    let digits = &digits[leading_zeros(digits)..];
    let last = LAST_GROUP.to_string();
    (digits.len(), digits) > (last.len(), last.as_bytes())
}

impl ReadCounts {
    fn add_read(&mut self, digits: &[u8], group: u32) {
        self.digits[digits.len().min(MOST_DIGITS)] += 1;
        self.leading_zeros += u64::from(digits.len() > 1 && digits[0] == b'0');
        self.group_zero += u64::from(group == 0);
        self.last_group += u64::from(group == LAST_GROUP);
    }

    fn add_refused(&mut self, line: &[u8], number: u64) {
        let Some((digits, rest)) = parts(line) else {
            return;
        };
        let (many, high) = (digits.len() > MOST_DIGITS, is_high(digits));
        if number == 22 {
            self.high_values += u64::from(!many && high);
            self.many_digits += u64::from(many);
            self.many_digits_in_range += u64::from(many && !high);
            self.thousand_digits += u64::from(digits.len() == THOUSAND);
            return;
        }
        self.both_refusals += u64::from(many || high);
        self.no_digit += u64::from(digits.is_empty() && rest == LINE_END);
        let others = rest.iter().filter(|byte| byte.is_ascii_digit()).count();
        let but_one = digits.len() + others == THOUSAND - 1 && rest.ends_with(LINE_END);
        self.thousand_digits_but_one += u64::from(but_one);
    }
}

impl WriteCounts {
    fn add(&mut self, group: u32, length: usize, number: u64) {
        let count = group.to_string().len();
        let size = ATTRIBUTE.len() + count + LINE_END.len();
        self.answers[count - 1][number as usize] += 1;
        self.exact[count - 1] += u64::from(number == 0 && length == size);
        self.one_short[count - 1] += u64::from(number == 10 && length + 1 == size);
        self.both_refusals += u64::from(number == 22 && length < size);
    }
}
