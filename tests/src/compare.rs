//! The comparison of the archive with the decoder, datagram by datagram and
//! with both values of the flag for reduced size: answers, every field and row,
//! and the lent memory after refusals. Then that of both values, without the
//! decoder.

use crate::decoder::{decode_with, Fault};
use crate::first_packets::FirstPackets;
use crate::generator::Rng;
use crate::items::{PlacedItem, Refusal, ROW};
use std::fmt::{Arguments, Debug};

/// What lent memory holds before a call.
pub(crate) const BEFORE: u64 = 0xB4F0_2E5E_11E1_D0A7;

/// Numbers on both sides of a lent array that must stay as before.
const GUARD: usize = 2 * ROW;

/// Numbers on both sides of a lent list that must stay as before.
pub(crate) const LIST_GUARD: usize = 16;

/// More than the rows of the longest datagram, 496 farewells.
const ARENA: usize = 6000;

/// Field numbers that no item has. The last two are field 0 or 2 in 32 bits.
const NO_FIELDS: [u64; 4] = [10, u64::MAX, 1 << 32, (1 << 32) + 2];

const NO_SUCH_ITEM: Refusal = Refusal {
    number: 9,
    place: 0,
};

const SHORT_BUFFER: Refusal = Refusal {
    number: 10,
    place: 0,
};

type Answer = Result<Vec<PlacedItem>, Refusal>;

/// Nothing, or what differs.
pub type Verdict = Result<(), String>;

/// How often each thing was met.
#[derive(Default)]
pub struct Counts {
    pub datagrams: u64,
    /// By the value of the flag and the answer: 0 and 1 to 7 datagrams, 9 and
    /// 10 calls.
    pub answers: [[u64; 11]; 2],
    /// By the value of the flag and the kind: 1 reports, 2 settings, 3
    /// farewells.
    pub kinds: [[u64; 4]; 2],
    /// Datagrams that both values answer alike.
    pub alike: u64,
    /// Datagrams refused with 4 where reduced size was not agreed, by the
    /// answer where it was.
    pub beside_four: [u64; 8],
    pub firsts: FirstPackets,
}

/// What a reader is told.
#[derive(Clone, Copy)]
struct Told<'a> {
    datagram: &'a [u8],
    reduced_size: bool,
}

impl Told<'_> {
    /// The flag's place in a count.
    fn flag(&self) -> usize {
        usize::from(self.reduced_size)
    }
}

pub struct Comparison {
    fault: Option<Fault>,
    rng: Rng,
    arena: Arena,
    pub counts: Counts,
}

impl Comparison {
    /// With a planted fault, the decoder is the one that errs.
    pub fn new(seed: u64, fault: Option<Fault>) -> Self {
        Comparison {
            fault,
            rng: Rng::new(!seed),
            arena: Arena::new(),
            counts: Counts::default(),
        }
    }

    pub fn check(&mut self, datagram: &[u8]) -> Verdict {
        let lent = Lent::new(&mut self.rng, datagram);
        self.counts.datagrams += 1;
        for reduced_size in [false, true] {
            let told = Told {
                datagram: lent.bytes(),
                reduced_size,
            };
            self.check_told(told)
                .map_err(|difference| format!("reduced size {reduced_size}, {difference}"))?;
        }
        self.check_alike(lent.bytes())
    }

    fn check_told(&mut self, told: Told) -> Verdict {
        let expected = decode_with(told.datagram, told.reduced_size, self.fault);
        check_count(told, &expected)?;
        let refusal = expected.as_ref().err().copied();
        let firsts = &mut self.counts.firsts;
        firsts.count(told.datagram, told.reduced_size, refusal);
        match &expected {
            Ok(items) => self.check_accepted(told, items),
            Err(refusal) => self.check_refused(told, *refusal),
        }
    }

    /// The archive with both values, without the decoder.
    fn check_alike(&mut self, datagram: &[u8]) -> Verdict {
        let questions = Questions::new(&mut self.rng, datagram);
        let [not_agreed, agreed] = [false, true].map(|flag| questions.ask(datagram, flag));
        match compare_values(&not_agreed, &agreed, |asked| asked.number)? {
            Values::Alike => self.counts.alike += 1,
            Values::FourAlone => self.counts.beside_four[agreed[0].number as usize] += 1,
        }
        Ok(())
    }

    fn check_refused(&mut self, told: Told, refusal: Refusal) -> Verdict {
        self.counts.answers[told.flag()][refusal.number as usize] += 1;
        let indices = [0, self.rng.below(600) as u64, u64::MAX];
        let fields = [self.rng.below(ROW) as u64, self.rng.pick(&NO_FIELDS)];
        for index in indices {
            for field in fields {
                check_field(told, index, field, Err(refusal))?;
            }
        }
        // One array too short for anything, one of any length.
        for length in [0, self.rng.below(ARENA)] {
            self.check_rows(told, length, Err(refusal))?;
        }
        Ok(())
    }

    fn check_accepted(&mut self, told: Told, items: &[PlacedItem]) -> Verdict {
        self.counts.answers[told.flag()][0] += 1;
        for item in items {
            self.counts.kinds[told.flag()][item.kind() as usize] += 1;
        }
        self.check_all_rows(told, items)?;
        self.check_indices(told, items)
    }

    /// Arrays that are exactly long enough, longer and too short.
    fn check_all_rows(&mut self, told: Told, items: &[PlacedItem]) -> Verdict {
        let exact = ROW * items.len();
        self.check_rows(told, exact, Ok(items))?;
        let longer = exact + self.rng.between(1, 3 * ROW);
        self.check_rows(told, longer, Ok(items))?;
        if exact > 0 {
            for length in [exact - 1, self.rng.below(exact)] {
                self.check_rows(told, length, Err(SHORT_BUFFER))?;
                self.counts.answers[told.flag()][10] += 1;
            }
        }
        Ok(())
    }

    fn check_rows(
        &mut self,
        told: Told,
        length: usize,
        expected: Result<&[PlacedItem], Refusal>,
    ) -> Verdict {
        let mut count = BEFORE;
        let rows = self.arena.lend(length);
        let answer =
            prunepocket_sys::read_items(told.datagram, told.reduced_size, rows, &mut count);
        let (expected_answer, expected_count, items) = match expected {
            Ok(items) => (Ok(()), items.len() as u64, items),
            Err(refusal) => (Err(refusal), BEFORE, &[][..]),
        };
        let call = format_args!("reading into {length} numbers");
        same(call, &answer, &expected_answer)?;
        same(call, &count, &expected_count)?;
        self.arena.settle(length, items)
    }

    /// First, last and some other items, and indices that have no item.
    fn check_indices(&mut self, told: Told, items: &[PlacedItem]) -> Verdict {
        let count = items.len() as u64;
        if count > 0 {
            let some = self.rng.below(items.len()) as u64;
            let other = self.rng.below(items.len()) as u64;
            let mut indices = [0, count - 1, some, other].to_vec();
            indices.sort();
            indices.dedup();
            for index in indices {
                self.check_item(told, index, &items[index as usize])?;
            }
        }
        for index in [count, count + 1, 1 << 32, u64::MAX] {
            for field in [0, self.rng.below(ROW) as u64, u64::MAX] {
                check_field(told, index, field, Err(NO_SUCH_ITEM))?;
                self.counts.answers[told.flag()][9] += 1;
            }
        }
        Ok(())
    }

    fn check_item(&mut self, told: Told, index: u64, item: &PlacedItem) -> Verdict {
        for field in (0..ROW as u64).chain(NO_FIELDS) {
            let expected = item.field(field).ok_or(NO_SUCH_ITEM);
            self.counts.answers[told.flag()][9] += u64::from(expected.is_err());
            check_field(told, index, field, expected)?;
        }
        Ok(())
    }
}

fn check_count(told: Told, expected: &Answer) -> Verdict {
    let mut count = BEFORE;
    let answer = prunepocket_sys::count_items(told.datagram, told.reduced_size, &mut count);
    match expected {
        Ok(items) => {
            same(format_args!("the count call"), &answer, &Ok(()))?;
            same(format_args!("the count"), &count, &(items.len() as u64))
        }
        Err(refusal) => {
            same(format_args!("the count call"), &answer, &Err(*refusal))?;
            same(format_args!("the count after a refusal"), &count, &BEFORE)
        }
    }
}

fn check_field(told: Told, index: u64, field: u64, expected: Result<u64, Refusal>) -> Verdict {
    let mut value = BEFORE;
    let answer =
        prunepocket_sys::item_field(told.datagram, told.reduced_size, index, field, &mut value);
    let call = format_args!("field {field} at index {index}");
    same(call, &answer, &expected.map(|_| ()))?;
    same(call, &value, &expected.unwrap_or(BEFORE))
}

/// What the two values of the flag make of one datagram.
#[derive(Clone, Copy, Debug, PartialEq, Eq)]
pub(crate) enum Values {
    Alike,
    /// Refused with 4 where reduced size was not agreed.
    FourAlone,
}

/// The archive's answers to the same calls with both values. Where reduced size
/// was agreed, 4 is never answered. Where it was not, 4 is the answer to every
/// call, or both values are answered alike in everything.
pub(crate) fn compare_values<T: PartialEq + Debug>(
    not_agreed: &[T],
    agreed: &[T],
    number: impl Fn(&T) -> u64,
) -> Result<Values, String> {
    let is_four = |answer: &T| number(answer) == 4;
    if agreed.iter().any(is_four) {
        return Err(String::from("4 where reduced size was agreed"));
    }
    if not_agreed.iter().all(is_four) {
        return Ok(Values::FourAlone);
    }
    match not_agreed == agreed {
        true => Ok(Values::Alike),
        false => Err(format!("not agreed {not_agreed:?}, but agreed {agreed:?}")),
    }
}

/// What the archive is asked about a datagram with each value of the flag.
struct Questions {
    /// The lengths of the arrays that rows are read into.
    lengths: [usize; 3],
    /// Indices with fields.
    fields: [(u64, u64); 4],
}

/// What came of a call: the refusal, or zeros, and all that was lent.
#[derive(Debug, PartialEq, Eq)]
struct Asked {
    number: u64,
    place: u64,
    lent: Vec<u64>,
}

impl Questions {
    /// Around the item count where reduced size was agreed.
    fn new(rng: &mut Rng, datagram: &[u8]) -> Self {
        let mut count = 0;
        // Beside a refusal, the questions of no items.
        let _ = prunepocket_sys::count_items(datagram, true, &mut count);
        let exact = ROW * count as usize;
        let field = rng.below(ROW) as u64;
        Questions {
            lengths: [0, exact.saturating_sub(1), exact + rng.below(ROW)],
            fields: [
                (0, 0),
                (rng.below(count as usize + 1) as u64, field),
                (count.saturating_sub(1), 1),
                (count, field),
            ],
        }
    }

    /// The count first, then the rows and the fields.
    fn ask(&self, datagram: &[u8], reduced_size: bool) -> Vec<Asked> {
        let mut count = BEFORE;
        let answer = prunepocket_sys::count_items(datagram, reduced_size, &mut count);
        let mut asked = vec![Asked::new(answer, vec![count])];
        for length in self.lengths {
            let (mut rows, mut count) = (vec![BEFORE; length], BEFORE);
            let answer = prunepocket_sys::read_items(datagram, reduced_size, &mut rows, &mut count);
            rows.push(count);
            asked.push(Asked::new(answer, rows));
        }
        for (index, field) in self.fields {
            let mut value = BEFORE;
            let answer =
                prunepocket_sys::item_field(datagram, reduced_size, index, field, &mut value);
            asked.push(Asked::new(answer, vec![value]));
        }
        asked
    }
}

impl Asked {
    fn new(answer: Result<(), Refusal>, lent: Vec<u64>) -> Self {
        let Refusal { number, place } = answer.err().unwrap_or(Refusal::new(0, 0));
        Asked {
            number,
            place,
            lent,
        }
    }
}

pub fn same<T: PartialEq + Debug>(name: Arguments, archive: &T, expected: &T) -> Verdict {
    if archive == expected {
        return Ok(());
    }
    Err(format!(
        "{name}: archive {archive:?}, expected {expected:?}"
    ))
}

/// A lent list between numbers that are not lent, after a call.
pub(crate) fn check_list(memory: &[u64], expected: &[u64]) -> Verdict {
    let pairs = memory.iter().zip(expected);
    for (at, (number, expected)) in pairs.enumerate() {
        match at.checked_sub(LIST_GUARD) {
            Some(index) if at < memory.len() - LIST_GUARD => {
                same(format_args!("number {index} of the list"), number, expected)?;
            }
            _ => same(format_args!("beside the list"), number, expected)?,
        }
    }
    Ok(())
}

/// The bytes in hex, with a space between words.
pub fn hex(bytes: &[u8]) -> String {
    let words: Vec<String> = bytes
        .chunks(4)
        .map(|word| word.iter().map(|byte| format!("{byte:02X}")).collect())
        .collect();
    words.join(" ")
}

/// A datagram, or a recording, at any alignment, with noise behind its end, so that
/// reading past the end does not go unseen.
pub(crate) struct Lent {
    memory: Vec<u8>,
    start: usize,
    end: usize,
}

impl Lent {
    pub(crate) fn new(rng: &mut Rng, datagram: &[u8]) -> Self {
        Lent::before(rng, datagram, &[])
    }

    /// With these bytes between its end and the noise.
    pub(crate) fn before(rng: &mut Rng, datagram: &[u8], behind: &[u8]) -> Self {
        let start = rng.below(8);
        let mut memory = vec![0; start];
        memory.extend(datagram);
        let end = memory.len();
        memory.extend(behind);
        for _ in 0..4 {
            memory.extend(rng.number().to_be_bytes());
        }
        Lent { memory, start, end }
    }

    pub(crate) fn bytes(&self) -> &[u8] {
        &self.memory[self.start..self.end]
    }
}

/// Memory of which arrays are lent. Between calls all of it is as before.
struct Arena {
    numbers: Vec<u64>,
}

impl Arena {
    fn new() -> Self {
        Arena {
            numbers: vec![BEFORE; GUARD + ARENA + GUARD],
        }
    }

    fn lend(&mut self, length: usize) -> &mut [u64] {
        &mut self.numbers[GUARD..GUARD + length]
    }

    /// The items' rows stand at the front of the lent array, all else is as
    /// before. Makes the rows as before, too.
    fn settle(&mut self, length: usize, items: &[PlacedItem]) -> Verdict {
        let around = &mut self.numbers[..GUARD + length + GUARD];
        let (front, lent) = around.split_at_mut(GUARD);
        let (rows, behind) = lent.split_at_mut(ROW * items.len());
        for (index, (row, item)) in rows.chunks_exact_mut(ROW).zip(items).enumerate() {
            let expected = item.row();
            same(format_args!("row {index}"), &&row[..], &&expected[..])?;
            row.fill(BEFORE);
        }
        let kept = front.iter().chain(behind.iter());
        if kept.into_iter().any(|&number| number != BEFORE) {
            return Err(format!(
                "{length} lent numbers: some outside of the rows are not as before"
            ));
        }
        Ok(())
    }
}

#[cfg(test)]
mod tests {
    use super::{compare_values, Values};

    /// Each answer is a number, and what was lent.
    type Answers = [(u64, u64); 2];

    fn compared(not_agreed: Answers, agreed: Answers) -> Result<Values, String> {
        compare_values(&not_agreed, &agreed, |answer| answer.0)
    }

    #[test]
    fn values_that_are_answered_unlike_are_found() {
        let accepted = [(0, 1), (0, 2)];
        let refused = [(5, 9), (5, 9)];
        let four = [(4, 9), (4, 9)];
        assert_eq!(compared(accepted, accepted), Ok(Values::Alike));
        assert_eq!(compared(refused, refused), Ok(Values::Alike));
        assert_eq!(compared(four, accepted), Ok(Values::FourAlone));
        assert_eq!(compared(four, refused), Ok(Values::FourAlone));
        let unlike = [
            (four, four),
            (accepted, four),
            (accepted, refused),
            (refused, accepted),
            (accepted, [(0, 1), (0, 3)]),
            (accepted, [(0, 1), (4, 2)]),
            ([(4, 9), (0, 2)], accepted),
        ];
        for (not_agreed, agreed) in unlike {
            let answers = (not_agreed, agreed);
            assert!(compared(not_agreed, agreed).is_err(), "{answers:?}");
        }
    }
}
