//! Tables of the archive as values: what one is after a refusal, and copies with
//! other tallies.

use crate::call_history::TALLY_LIMIT;
use crate::compare::{same, Verdict};
use crate::generator::Rng;
use crate::members::{Call, Choice, Reading, Record};
use crate::places::PLACES;
use prunepocket_sys::{Followed, Table};
use std::fmt::Arguments;

/// How many copies with other tallies a choice is compared on.
pub const COPIES: u64 = 3;

/// Tallies that are drawn more often than others.
const TALLIES: [u32; 5] = [0, 1, 2, TALLY_LIMIT - 1, TALLY_LIMIT];

pub fn is_held(table: &Table, place: usize) -> bool {
    table.held >> place & 1 == 1
}

/// The records at the places that a word marks.
pub fn members_at(table: &Table, word: u64) -> Vec<Record> {
    let members = table.members.iter().enumerate();
    let marked = members.filter(|(place, _)| word >> place & 1 == 1);
    marked.map(|(_, member)| member.record).collect()
}

/// The place of the member with this number.
pub fn holder(table: &Table, source: u32) -> Option<usize> {
    let holds = |place: &usize| table.members[*place].record.source == source;
    let mut held = (0..PLACES).filter(|&place| is_held(table, place));
    held.find(holds)
}

/// The table with this tally of the member with this number, if there is one.
pub fn with_tally(table: &Table, source: u32, tally: u32) -> Table {
    let mut written = *table;
    if let Some(place) = holder(table, source) {
        written.members[place].tally = tally;
    }
    written
}

/// One more, or the limit.
pub fn raise(tally: &mut u32) {
    *tally += u32::from(*tally < TALLY_LIMIT);
}

/// After a refusal all fields are as before, but for the holder's tally after 14:
/// that is one more, or stays at the limit.
pub fn check_refused(before: &Table, call: &Call, number: u64, after: &Table) -> Verdict {
    let mut expected = *before;
    if number == 14 {
        let place = call.source().and_then(|source| holder(before, source));
        let place = place.ok_or("14, and nobody holds the number")?;
        raise(&mut expected.members[place].tally);
    }
    check_same_table(format_args!("after {number}"), after, &expected)
}

/// All fields are the same. Each place is compared first, so that a difference is
/// short.
pub fn check_same_table(name: Arguments, table: &Table, expected: &Table) -> Verdict {
    let pairs = table.members.iter().zip(&expected.members);
    for (place, (member, expected)) in pairs.enumerate() {
        same(format_args!("place {place} {name}"), member, expected)?;
    }
    match table == expected {
        true => Ok(()),
        false => Err(format!("the table {name} is not as expected")),
    }
}

/// Tables that differ in tallies alone choose alike, and are handed back as they
/// were: a copy with no tallies, one with all at the limit and one with any.
pub fn check_other_tallies(
    rng: &mut Rng,
    table: &Table,
    reading: &Reading,
    choice: &Choice,
    choose: impl Fn(&Table, &Reading) -> Followed,
) -> Verdict {
    let none = with_tallies(table, || 0);
    let most = with_tallies(table, || TALLY_LIMIT);
    let any = with_tallies(table, || match rng.chance(50) {
        true => rng.pick(&TALLIES),
        false => rng.word(),
    });
    let copies: [Table; COPIES as usize] = [none, most, any];
    for copy in copies {
        let followed = choose(&copy, reading);
        let call = format_args!("the choice with other tallies");
        same(call, &followed.choice(), choice)?;
        if followed.table != copy {
            return Err(String::from("the copy after choosing is not as before"));
        }
    }
    Ok(())
}

fn with_tallies(table: &Table, mut tally: impl FnMut() -> u32) -> Table {
    let mut copy = *table;
    for member in &mut copy.members {
        member.tally = tally();
    }
    copy
}

#[cfg(test)]
mod tests {
    use super::*;
    use crate::archive;
    use crate::generator;
    use crate::members::Member;
    use crate::plain_reports::{reading, record, OPENING};

    /// When the reports arrive, and when they were received.
    const NOW: u32 = 1000;
    const RECEIVED: u32 = 999;

    const OWN: u16 = 5000;
    const TWIN: u16 = 6000;

    fn twin(source: u32) -> Call {
        Call::Report(record(source, TWIN, RECEIVED), reading(NOW))
    }

    /// With sources 1 to 3, of these tallies.
    fn table(tallies: [u32; 3]) -> Table {
        let mut table = archive::open(&OPENING).expect("it opens");
        for (source, tally) in (1..).zip(tallies) {
            table.members[source as usize - 1] = Member {
                record: record(source, OWN, RECEIVED),
                tally,
            };
        }
        table.held = 7;
        table
    }

    fn fits(number: u64, before: [u32; 3], after: [u32; 3]) -> bool {
        check_refused(&table(before), &twin(2), number, &table(after)).is_ok()
    }

    #[test]
    fn after_14_the_holders_tally_is_one_more_or_at_the_limit() {
        assert!(fits(14, [5, 0, 5], [5, 1, 5]));
        assert!(fits(14, [0, TALLY_LIMIT - 1, 0], [0, TALLY_LIMIT, 0]));
        assert!(fits(14, [0, TALLY_LIMIT, 0], [0, TALLY_LIMIT, 0]));
        for after in [
            [5, 3, 5],
            [5, 5, 5],
            [6, 4, 5],
            [5, 4, 6],
            [6, 3, 5],
            [0, 4, 0],
        ] {
            assert!(!fits(14, [5, 3, 5], after), "{after:?}");
        }
        for after in [TALLY_LIMIT - 1, 0] {
            assert!(!fits(14, [0, TALLY_LIMIT - 1, 0], [0, after, 0]));
            assert!(!fits(14, [0, TALLY_LIMIT, 0], [0, after, 0]));
        }
    }

    #[test]
    fn after_another_refusal_no_tally_is_raised() {
        for number in [13, 15, 16, 17, 18, 19] {
            assert!(fits(number, [5, 3, 5], [5, 3, 5]));
            assert!(!fits(number, [5, 3, 5], [5, 4, 5]));
        }
    }

    #[test]
    fn every_other_field_is_looked_at() {
        let before = table([0; 3]);
        let alters: [fn(&mut Table); 6] = [
            |table| table.group += 1,
            |table| table.media += 1,
            |table| table.rate += 1,
            |table| table.held += 8,
            |table| table.members[1].record.report.payload_type += 1,
            |table| table.members[63].tally += 1,
        ];
        for alter in alters {
            let mut after = table([0, 1, 0]);
            assert_eq!(check_refused(&before, &twin(2), 14, &after), Ok(()));
            alter(&mut after);
            assert!(check_refused(&before, &twin(2), 14, &after).is_err());
        }
        assert!(check_refused(&before, &twin(4), 14, &before).is_err());
    }

    /// Whether a way to choose is found to look at the tallies.
    fn is_found(choose: fn(&Table, &Reading) -> Followed) -> bool {
        let table = table([3; 3]);
        let mut rng = Rng::new(generator::seed());
        let choice = Table::choose(&table, &reading(NOW)).choice();
        let mut check = || check_other_tallies(&mut rng, &table, &reading(NOW), &choice, choose);
        (0..100).any(|_| check().is_err())
    }

    /// Follows the source of the greatest by this key.
    fn follow(table: &Table, key: fn(&Member) -> u32) -> Followed {
        let mut followed = table.choose(&reading(NOW));
        let latest = table.members[..3]
            .iter()
            .rev()
            .max_by_key(|member| key(member));
        followed.target.source = latest.map_or(0, |member| member.record.source);
        followed
    }

    #[test]
    fn choosing_that_looks_at_the_tallies_is_found() {
        assert!(!is_found(Table::choose));
        assert!(!is_found(|table, _| follow(table, |_| 0)));
        assert!(is_found(|table, _| follow(table, |member| member.tally)));
        assert!(is_found(|table, _| follow(table, |member| !member.tally)));
        assert!(is_found(|table, reading| {
            let mut followed = table.choose(reading);
            followed.table.members[2].tally = 3;
            followed
        }));
        assert!(is_found(|table, reading| {
            let mut fewer = *table;
            fewer.held &= !u64::from(table.members[0].tally == TALLY_LIMIT);
            fewer.choose(reading)
        }));
    }
}
