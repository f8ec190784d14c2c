//! The comparison of one burst on the archive with the independent one: its number
//! and the whole list. The table is that of the archive's own single calls.

use crate::archive;
use crate::compare::{check_list, same, Verdict, LIST_GUARD};
use crate::compare_table::fewest;
use crate::members::{Burst, Call, Record};
use crate::table_values::check_same_table;
use prunepocket_sys::Table;

/// What the archive answers to a burst.
pub struct Taken {
    pub number: u64,
    /// The number of each report; none where the burst is refused.
    pub numbers: Vec<u64>,
    pub table: Table,
}

/// The answer and the list are those of `expected`, which gets the list beforehand.
/// After a refusal the table has all fields as before.
pub fn check_burst(
    table: &Table,
    burst: &Burst,
    expected: impl FnOnce(&mut [u64]) -> u64,
) -> Result<Taken, String> {
    let guard = [!0; LIST_GUARD];
    let mut memory = [&guard[..], &burst.list, &guard].concat();
    let mut expected_memory = memory.clone();
    let list = LIST_GUARD..LIST_GUARD + burst.list.len();
    let expected = expected(&mut expected_memory[list.clone()]);
    let lent = &mut memory[list.clone()];
    let answered = table.report_burst(&burst.reports, &burst.reading, lent);
    let (reports, length) = (burst.reports.len(), burst.list.len());
    let call = format_args!("a burst of {reports} with a list of {length}");
    same(call, &answered.number, &expected)?;
    check_list(&memory, &expected_memory)?;
    if answered.number != 0 {
        let name = format_args!("after a refused burst");
        check_same_table(name, &answered.table, table)?;
    }
    let taken = if answered.number == 0 { reports } else { 0 };
    Ok(Taken {
        number: answered.number,
        numbers: memory[list][..taken].to_vec(),
        table: answered.table,
    })
}

/// The archive's single calls in list order have the same numbers, and lead to the
/// same table. Each of them is shown with the tables before and after it.
pub fn check_single_calls(
    before: &Table,
    burst: &Burst,
    taken: &Taken,
    mut show: impl FnMut(&Table, &Call, u64, &Table),
) -> Verdict {
    let mut table = *before;
    for (index, (told, number)) in burst.reports.iter().zip(&taken.numbers).enumerate() {
        let call = Call::Report(*told, burst.reading);
        let single = archive::call(&table, &call);
        same(format_args!("report {index} alone"), &single.number, number)?;
        show(&table, &call, *number, &single.table);
        table = single.table;
    }
    let name = format_args!("after a burst, beside single calls");
    check_same_table(name, &taken.table, &table)
}

/// A report, a number of the list, or one of each.
type Entry = (Option<Record>, Option<u64>);

/// The burst with every report and every number of the list left out that the
/// difference does without. Reports go together with their numbers at first, so that
/// a list stays as much longer or shorter as it is.
pub fn smallest_burst(burst: &Burst, differs: impl Fn(&Burst) -> bool) -> Burst {
    let with = |entries: &[Entry]| Burst {
        reports: entries.iter().filter_map(|entry| entry.0).collect(),
        reading: burst.reading,
        list: entries.iter().filter_map(|entry| entry.1).collect(),
    };
    let entry = |index: usize| {
        let report = burst.reports.get(index).copied();
        (report, burst.list.get(index).copied())
    };
    let longest = burst.reports.len().max(burst.list.len());
    let entries: Vec<Entry> = (0..longest).map(entry).collect();
    let paired = with(&fewest(&entries, |entries| differs(&with(entries))));
    let with_list = |list: &[u64]| Burst {
        list: list.to_vec(),
        ..paired.clone()
    };
    with_list(&fewest(&paired.list, |list| differs(&with_list(list))))
}

#[cfg(test)]
mod tests {
    use super::*;
    use crate::plain_reports::{reading, record};

    fn burst(reports: u32, length: usize) -> Burst {
        Burst {
            reports: (0..reports).map(|source| record(source, 1, 999)).collect(),
            reading: reading(1000),
            list: vec![7; length],
        }
    }

    #[test]
    fn what_the_difference_needs_is_left() {
        let lengths = |burst: Burst| (burst.reports.len(), burst.list.len());
        let smallest = |burst: &Burst, differs: fn(usize, usize) -> bool| {
            let differs = |burst: &Burst| differs(burst.reports.len(), burst.list.len());
            lengths(smallest_burst(burst, differs))
        };
        assert_eq!(smallest(&burst(9, 12), |_, _| true), (0, 0));
        assert_eq!(smallest(&burst(9, 9), |n, list| n > 0 && n == list), (1, 1));
        assert_eq!(smallest(&burst(9, 40), |n, list| n < list), (0, 1));
        assert_eq!(smallest(&burst(70, 12), |n, list| n > list), (1, 0));
        assert_eq!(smallest(&burst(70, 12), |n, _| n > 64), (65, 0));
        let has_three = |burst: &Burst| burst.reports.iter().any(|told| told.source == 3);
        assert_eq!(lengths(smallest_burst(&burst(9, 12), has_three)), (1, 0));
    }
}
