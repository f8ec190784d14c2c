//! The comparison of the archive's check of settings with the independent one, and with
//! what its answer means; and of our own choices with both.

use crate::archive;
use crate::compare::{same, Verdict};
use crate::compare_table::fewest;
use crate::generator::Rng;
use crate::histories::{History, Step};
use crate::items::{settings_of_row, ROW};
use crate::members::{Opening, Record};
use crate::places::PLACES;
use crate::settings_check::{Query, SettingsCheck, Suits};
use crate::settings_counts::{Counts, Seen};
use crate::settings_faults::{places_with, table_after, Fault};
use crate::settings_property::{check_meaning, settings_of};
use crate::settings_queries::{opening_of, register_after, SettingsCase, Start};
use crate::table_values::{check_same_table, is_held, members_at, with_tally};
use prunepocket_sys::{read_items, write_settings, Settings, SettingsMessage, Table};

/// One packet in so many is also checked through the writer, on copies of the table and
/// beside our own choice.
const MORE: usize = 8;

/// An RR of 8 bytes with count 0.
const RR: [u8; 8] = [0x80, 0xC9, 0, 1, 0, 0, 0, 1];

/// A table of the archive, and the members that it is to have.
struct Sides {
    table: Table,
    opening: Opening,
    members: Vec<Record>,
    value: bool,
}

pub struct SettingsComparison {
    fault: Option<Fault>,
    rng: Rng,
    pub counts: Counts,
}

impl SettingsComparison {
    /// With a planted fault, the independent side is the one that errs.
    pub fn new(seed: u64, fault: Option<Fault>) -> Self {
        SettingsComparison {
            fault,
            rng: Rng::new(!seed),
            counts: Counts::default(),
        }
    }

    /// Every packet on the case's table.
    pub fn check(&mut self, case: &SettingsCase) -> Verdict {
        self.counts.cases += 1;
        let Some(sides) = self.sides(&case.start) else {
            return Ok(());
        };
        for (place, query) in case.queries.iter().enumerate() {
            self.check_query(&sides, query)
                .map_err(|difference| format!("packet {place}, {difference}"))?;
        }
        Ok(())
    }

    /// The register's rows after a history, or what stands at the places held.
    fn sides(&self, start: &Start) -> Option<Sides> {
        Some(match start {
            Start::History(history) => Sides {
                table: table_of(history)?,
                opening: history.opening,
                members: register_after(history)?.rows().to_vec(),
                value: false,
            },
            Start::Value(table) => Sides {
                table: **table,
                opening: opening_of(table),
                members: members_at(table, places_with(table, self.fault)),
                value: true,
            },
        })
    }

    fn check_query(&mut self, sides: &Sides, query: &Query) -> Verdict {
        let check = SettingsCheck {
            opening: sides.opening,
            members: &sides.members,
            fault: self.fault,
        };
        let answer = self.check_answer(sides, query, &check)?;
        if let Ok(suits) = answer {
            let shown = members_at(&sides.table, sides.table.held);
            let samples = samples(&mut self.rng);
            check_meaning(sides.opening.rate, &shown, query, suits, &samples)?;
        }
        if self.rng.below(MORE) == 0 {
            self.check_copy(sides, query, answer)?;
            self.check_written(sides, query, answer)?;
            self.check_own_choice(sides, query)?;
        }
        let sound = SettingsCheck {
            fault: None,
            ..check
        };
        let seen = Seen::new(query, sound, answer, sides.value);
        self.counts.count(&seen);
        Ok(())
    }

    /// Number, answer, and the table as it was.
    fn check_answer(
        &self,
        sides: &Sides,
        query: &Query,
        check: &SettingsCheck,
    ) -> Result<Suits, String> {
        let table = &sides.table;
        let answered = table.check_settings(&query.settings, &query.reading, query.slack);
        let expected = check.answer(query);
        let number = expected.err().unwrap_or(0);
        same(format_args!("the number"), &answered.number, &number)?;
        let beside_refusal = self.fault == Some(Fault::SuitsBesideRefusal);
        let suits = u32::from(expected.unwrap_or(beside_refusal));
        same(format_args!("the answer"), &answered.suits, &suits)?;
        if self.fault.is_some() {
            let report = |place: usize| table.members[place].record.report;
            let fresh = |place: usize| check.is_fresh(&report(place), &query.reading);
            let after = table_after(table, self.fault, fresh);
            check_same_table(format_args!("afterwards"), &answered.table, &after)?;
        } else if answered.table != *table {
            check_same_table(format_args!("afterwards"), &answered.table, table)?;
        }
        Ok(answered.verdict())
    }

    /// Numbers, origins, tallies, payload types, the members' own group and media source,
    /// their places and what stands at free ones decide nothing.
    fn check_copy(&mut self, sides: &Sides, query: &Query, answer: Suits) -> Verdict {
        let copy = other_fields(&mut self.rng, &sides.table);
        let answered = copy.check_settings(&query.settings, &query.reading, query.slack);
        let call = format_args!("the answer with other numbers");
        same(call, &answered.verdict(), &answer)?;
        self.counts.own.copies += 1;
        check_same_table(format_args!("of the copy"), &answered.table, &copy)
    }

    /// The packet as the writer writes it and the reader reads it.
    fn check_written(&mut self, sides: &Sides, query: &Query, answer: Suits) -> Verdict {
        let Some(settings) = through_writer(&query.settings)? else {
            return Ok(());
        };
        let answered = sides
            .table
            .check_settings(&settings, &query.reading, query.slack);
        self.counts.own.written += 1;
        same(
            format_args!("the answer to what was written"),
            &answered.verdict(),
            &answer,
        )
    }

    /// From a table that calls have left, our own choice suits with slack 0, or gets 17
    /// in arrival mode. Any other table may hold what no report could.
    fn check_own_choice(&mut self, sides: &Sides, query: &Query) -> Verdict {
        let (table, reading) = (&sides.table, &query.reading);
        let Ok(target) = table.choose(reading).choice() else {
            self.counts.own.none += 1;
            let answered = table.check_settings(&query.settings, reading, 0);
            let call = format_args!("without a choice");
            return same(call, &answered.verdict(), &Err(20));
        };
        let arrival = target.presented == 0;
        let settings = settings_of(&target, query.settings.sender);
        let written = through_writer(&settings)?;
        for settings in [Some(settings), written].into_iter().flatten() {
            let verdict = table.check_settings(&settings, reading, 0).verdict();
            let right = match verdict {
                Ok(suits) => suits && !arrival,
                Err(13 | 17) if sides.value => true,
                Err(number) => arrival && number == 17,
            };
            if !right {
                return Err(format!("our own choice {settings:?}: {verdict:?}"));
            }
            self.counts.own.count(sides.value, verdict);
        }
        match written {
            None if !sides.value => Err(String::from("our own choice is not written")),
            _ => Ok(()),
        }
    }
}

/// What public calls lead to; nothing where the opening is refused.
fn table_of(history: &History) -> Option<Table> {
    let mut table = archive::open(&history.opening).ok()?;
    for step in &history.steps {
        match step {
            Step::Call(call) => table = archive::call(&table, call).table,
            Step::Burst(burst) => {
                let (reports, mut list) = (&burst.reports, burst.list.clone());
                table = table.report_burst(reports, &burst.reading, &mut list).table;
            }
            Step::SetTally(source, tally) => table = with_tally(&table, *source, *tally),
            Step::Choose(_) | Step::Members => {}
        }
    }
    Some(table)
}

/// The same times and P of each member, and anything else.
fn other_fields(rng: &mut Rng, table: &Table) -> Table {
    let mut copy = *table;
    let turn = rng.below(PLACES);
    copy.members.rotate_right(turn);
    copy.held = table.held.rotate_left(turn as u32);
    for place in 0..PLACES {
        let held = is_held(&copy, place);
        let member = &mut copy.members[place];
        let record = &mut member.record;
        member.tally = rng.word();
        record.source = rng.word();
        record.origin.port = rng.word() as u16;
        record.report.group = rng.word();
        record.report.media = rng.word();
        record.report.payload_type = rng.byte();
        if !held {
            record.report.received = rng.number();
            record.report.p = rng.byte();
        }
    }
    copy
}

/// The packet behind an RR, as the reader's row of it; nothing where the writer refuses
/// its group.
fn through_writer(settings: &Settings) -> Result<Option<Settings>, String> {
    let message = SettingsMessage {
        sender: settings.sender,
        group: settings.group,
        media: settings.media,
        received: settings.received,
        rtp: settings.rtp,
        presented: settings.presented,
    };
    let mut datagram = [0; RR.len() + 36];
    datagram[..RR.len()].copy_from_slice(&RR);
    match write_settings(&message, &mut datagram[RR.len()..], &mut 0) {
        Err(refusal) if refusal.number == 11 && settings.group == u32::MAX => return Ok(None),
        written => written.map_err(|refusal| format!("the writer: {refusal}"))?,
    }
    let (mut rows, mut count) = ([0; ROW], 0);
    read_items(&datagram, false, &mut rows, &mut count)
        .map_err(|refusal| format!("the reader: {refusal}"))?;
    same(
        format_args!("items and kind"),
        &[count, rows[0], rows[1]],
        &[1, 2, 8],
    )?;
    Ok(Some(settings_of_row(&rows)))
}

/// The reading's own sample, and any others before and after it.
fn samples(rng: &mut Rng) -> [i128; 5] {
    let mut any = || i128::from(rng.number() as i64) >> rng.below(64);
    let (before, after) = (-any().abs(), any().abs());
    [0, -1, before, after, before << 30]
}

/// The case with one packet, and with every step or member left out that the
/// difference does without.
pub fn smallest(seed: u64, fault: Option<Fault>, case: &SettingsCase) -> SettingsCase {
    let differs = |start: &Start, queries: &[Query]| {
        let (start, queries) = (start.clone(), queries.to_vec());
        let case = SettingsCase { start, queries };
        // Some packets are looked at more closely by chance.
        let mut seeds = (0..64).map(|more| seed ^ more);
        seeds.any(|seed| SettingsComparison::new(seed, fault).check(&case).is_err())
    };
    let queries = fewest(&case.queries, |queries| differs(&case.start, queries));
    let start = match &case.start {
        Start::History(history) => {
            let steps = fewest(&history.steps, |steps| {
                differs(&with_steps(history, steps), &queries)
            });
            with_steps(history, &steps)
        }
        Start::Value(table) => {
            let held: Vec<usize> = (0..PLACES).filter(|&place| is_held(table, place)).collect();
            let held = fewest(&held, |held| differs(&with_held(table, held), &queries));
            with_held(table, &held)
        }
    };
    SettingsCase { start, queries }
}

fn with_steps(history: &History, steps: &[Step]) -> Start {
    Start::History(History {
        opening: history.opening,
        steps: steps.to_vec(),
    })
}

fn with_held(table: &Table, places: &[usize]) -> Start {
    let held = places.iter().fold(0, |word, place| word | 1 << place);
    Start::Value(Box::new(Table { held, ..*table }))
}
