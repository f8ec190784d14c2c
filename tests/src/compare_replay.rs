//! The comparison of the archive's replay of a recording with the independent one:
//! the answer, all rows and the memory around them. Then with the archive's own
//! single calls, entry by entry.

use crate::archive;
use crate::compare::{same, Lent, Verdict, LIST_GUARD};
use crate::compare_table::fewest;
use crate::generator::Rng;
use crate::members::Choice;
use crate::recording::{read, Entry, Recording};
use crate::recording_counts::Counts;
use crate::recordings::Replay;
use crate::replay::{replay_with, Fault, Row, ENTRY_ROW};
use crate::sides::Side;
use prunepocket_sys::{RecordingAnswered, Table};

const COLUMNS: [&str; ENTRY_ROW] = ["items", "accepted", "number"];

pub struct ReplayComparison {
    fault: Option<Fault>,
    rng: Rng,
    pub counts: Counts,
}

impl ReplayComparison {
    /// With a planted fault, the independent replay is the one that errs.
    pub fn new(seed: u64, fault: Option<Fault>) -> Self {
        ReplayComparison {
            fault,
            rng: Rng::new(!seed),
            counts: Counts::default(),
        }
    }

    /// The rows are noise beforehand. What was cut off a recording stands behind it
    /// in memory, so that reading past the end does not go unseen.
    pub fn check(&mut self, replay: &Replay) -> Verdict {
        let (bytes, behind) = replay.file();
        let length = replay.rows_length();
        let rows = LIST_GUARD..LIST_GUARD + length;
        let noise = |_| self.rng.number();
        let before: Vec<u64> = (0..length + 2 * LIST_GUARD).map(noise).collect();
        let (mut memory, mut expected_memory) = (before.clone(), before);
        let expected = replay_with(&bytes, &mut expected_memory[rows.clone()], self.fault);
        let lent = Lent::before(&mut self.rng, &bytes, &behind);
        let replayed = prunepocket_sys::replay(lent.bytes(), &mut memory[rows.clone()]);
        let call = format_args!("{} bytes, rows of {length}", bytes.len());
        same(call, &replayed.number, &expected.number)?;
        let (entries, expected_entries) = (replayed.entries, expected.entries);
        same(format_args!("entries"), &entries, &expected_entries)?;
        check_rows(&memory, &expected_memory)?;
        let choice = |replayed: &RecordingAnswered| (replayed.choice, replayed.target);
        let (choice, expected) = (choice(&replayed), choice(&expected));
        same(format_args!("the choice"), &choice, &expected)?;
        let singles = check_single_calls(&bytes, &replayed, &memory[rows])?;
        self.counts.count(replay, &bytes, &replayed, &singles);
        Ok(())
    }
}

/// The lent rows between numbers that are not lent, after a call.
fn check_rows(memory: &[u64], expected: &[u64]) -> Verdict {
    for (at, (number, expected)) in memory.iter().zip(expected).enumerate() {
        match at.checked_sub(LIST_GUARD) {
            Some(index) if at < memory.len() - LIST_GUARD => {
                let (entry, column) = (index / ENTRY_ROW, COLUMNS[index % ENTRY_ROW]);
                same(format_args!("row {entry}, {column}"), number, expected)?;
            }
            _ => same(format_args!("beside the rows"), number, expected)?,
        }
    }
    Ok(())
}

/// What the archive's single calls gave for an entry.
pub struct Single {
    pub row: Row,
    /// The numbers of its reports and farewells.
    pub numbers: Vec<u64>,
}

/// Opening, counting, taking and choosing lead to the same answer and the same rows.
/// Where the layout is bad or the rows are too short, there is nothing to be compared.
fn check_single_calls(
    bytes: &[u8],
    replayed: &RecordingAnswered,
    rows: &[u64],
) -> Result<Vec<Single>, String> {
    let Ok(recording) = read(bytes) else {
        return Ok(Vec::new());
    };
    let mut table = match archive::open(&recording.opening) {
        Ok(_) if rows.len() < ENTRY_ROW * recording.entries.len() => return Ok(Vec::new()),
        Ok(table) => table,
        Err(number) => {
            same(format_args!("opening alone"), &number, &replayed.number)?;
            return Ok(Vec::new());
        }
    };
    let mut singles = Vec::new();
    let entries = recording.entries.iter().zip(rows.chunks(ENTRY_ROW));
    for (index, (entry, row)) in entries.enumerate() {
        let single = single_calls(&mut table, entry)?;
        same(format_args!("entry {index} alone"), &&single.row[..], &row)?;
        singles.push(single);
    }
    let choice = choice(&recording, &table);
    let number = choice.err().unwrap_or(0);
    same(format_args!("choosing alone"), &number, &replayed.choice)?;
    let target = choice.unwrap_or_default();
    same(format_args!("the target alone"), &target, &replayed.target)?;
    Ok(singles)
}

fn single_calls(table: &mut Table, entry: &Entry) -> Result<Single, String> {
    let count = Table::count_items(&entry.body, false);
    let taken = table.take(&entry.body, false, &entry.origin, &entry.reading);
    let refusal = taken.as_ref().err().copied();
    same(format_args!("counting and taking"), &count.err(), &refusal)?;
    let (Ok(items), Ok(numbers)) = (count, taken) else {
        let number = refusal.map_or(0, |refusal| refusal.number);
        return Ok(Single {
            row: [0, 0, number],
            numbers: Vec::new(),
        });
    };
    let accepted = numbers.iter().filter(|&&number| number == 0).count() as u64;
    let first = numbers.iter().copied().find(|&number| number != 0);
    Ok(Single {
        row: [items, accepted, first.unwrap_or(0)],
        numbers,
    })
}

fn choice(recording: &Recording, table: &Table) -> Choice {
    let last = recording.entries.last().ok_or(20u64)?;
    Side::choose(table, &last.reading)
}

/// The recording with every entry and every change left out that the difference does
/// without.
pub fn smallest(seed: u64, fault: Option<Fault>, replay: &Replay) -> Replay {
    let differs = |replay: &Replay| ReplayComparison::new(seed, fault).check(replay).is_err();
    let with_entries = |entries: &[Entry]| {
        let mut fewer = replay.clone();
        fewer.recording.entries = entries.to_vec();
        fewer
    };
    let entries = &replay.recording.entries;
    let entries = fewest(entries, |entries| differs(&with_entries(entries)));
    let replay = with_entries(&entries);
    let with_changes = |changes: &[_]| Replay {
        changes: changes.to_vec(),
        ..replay.clone()
    };
    with_changes(&fewest(&replay.changes, |changes| {
        differs(&with_changes(changes))
    }))
}
