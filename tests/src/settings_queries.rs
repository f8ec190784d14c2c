//! A seeded generator of settings packets for the check: tables that histories lead to
//! or any values, and packets at and next to every edge of the request.

use crate::generator::Rng;
use crate::histories::{history_with_world, History, Step, World};
use crate::members::{Opening, Reading};
use crate::register::Register;
use crate::settings_check::{Query, SettingsCheck, LIMIT, SECOND, SLACK_LIMIT};
use crate::settings_tables::{any_reading, table_value};
use crate::settings_times::{any_times, times_of, unit, within, Times};
use crate::table_values::members_at;
use prunepocket_sys::{Settings, Table};

/// Slacks at the ends of the range and next to them.
const SLACKS: [u32; 8] = [0, 0, 1, 2, 65_536, 1_966_079, 1_966_080, 1_966_080];

/// Those above the limit, some of which are below it where they are cut.
const LARGE_SLACKS: [u32; 5] = [1_966_081, 1_966_082, 1 << 31, u32::MAX - 1, u32::MAX];

/// What the table comes of.
#[derive(Clone, Debug, PartialEq, Eq)]
pub enum Start {
    History(History),
    Value(Box<Table>),
}

#[derive(Clone, Debug, PartialEq, Eq)]
pub struct SettingsCase {
    pub start: Start,
    pub queries: Vec<Query>,
}

/// The next case of a run.
pub fn settings_case(rng: &mut Rng) -> SettingsCase {
    if rng.chance(50) {
        let (history, world) = history_with_world(rng);
        if let Some(register) = register_after(&history) {
            return of_history(rng, history, &world, &register);
        }
    }
    let (table, reading) = table_value(rng);
    of_value(rng, table, reading)
}

/// Every call and burst; nothing where the opening is refused.
pub fn register_after(history: &History) -> Option<Register> {
    let mut register = Register::open(&history.opening, None).ok()?;
    for step in &history.steps {
        match step {
            Step::Call(call) => {
                register.call(call);
            }
            Step::Burst(burst) => {
                register.burst(&burst.reports, &burst.reading, &mut burst.list.clone());
            }
            Step::SetTally(source, tally) => register.set_tally(*source, *tally),
            Step::Choose(_) | Step::Members => {}
        }
    }
    Some(register)
}

fn of_history(rng: &mut Rng, history: History, world: &World, rows: &Register) -> SettingsCase {
    let check = SettingsCheck {
        opening: history.opening,
        members: rows.rows(),
        fault: None,
    };
    let count = rng.pick(&[20, 100, 160]);
    let queries = (0..count)
        .map(|_| {
            let reading = match rng.chance(50) {
                true => world.clock,
                false => world.some_reading(rng),
            };
            query(rng, &check, reading)
        })
        .collect();
    let start = Start::History(history);
    SettingsCase { start, queries }
}

fn of_value(rng: &mut Rng, table: Table, reading: Reading) -> SettingsCase {
    let members = members_at(&table, table.held);
    let check = SettingsCheck {
        opening: opening_of(&table),
        members: &members,
        fault: None,
    };
    let queries = (0..30)
        .map(|_| {
            let reading = match rng.chance(90) {
                true => reading,
                false => any_reading(rng),
            };
            query(rng, &check, reading)
        })
        .collect();
    let start = Start::Value(Box::new(table));
    SettingsCase { start, queries }
}

/// What a table was opened for, by its fields.
pub fn opening_of(table: &Table) -> Opening {
    Opening {
        group: table.group,
        media: table.media,
        rate: table.rate,
    }
}

fn query(rng: &mut Rng, check: &SettingsCheck, reading: Reading) -> Query {
    let slack = slack(rng);
    let aimed = aimed_times(rng, check, &reading, slack);
    let mut times = aimed.unwrap_or_else(|| any_times(rng, check.rate()));
    if rng.chance(6) {
        wrap_presented(rng, &reading, &mut times);
    }
    let spoils = rng.pick(&[0, 0, 0, 0, 0, 0, 1, 1, 2, 3]);
    let kinds: Vec<usize> = (0..spoils).map(|_| rng.below(8)).collect();
    for &kind in &kinds {
        spoil_times(rng, kind, check.rate(), &mut times);
    }
    let received = reading.ntp.wrapping_sub(times.ntp_age as u64);
    let mut settings = Settings {
        sender: sender(rng, check),
        media: check.opening.media,
        group: check.opening.group,
        received,
        rtp: reading.rtp.wrapping_sub(times.rtp_age as u32),
        presented: received.wrapping_add(times.delay as u64),
    };
    for kind in kinds {
        spoil_fields(rng, kind, &mut settings);
    }
    Query {
        settings,
        reading,
        slack,
    }
}

fn slack(rng: &mut Rng) -> u32 {
    match rng.below(20) {
        0 => rng.pick(&LARGE_SLACKS),
        1 => rng.word(),
        2..=4 => rng.below(100_000) as u32,
        5..=7 => rng.below(SLACK_LIMIT as usize + 1) as u32,
        _ => rng.pick(&SLACKS),
    }
}

/// Not looked at, whatever it is.
fn sender(rng: &mut Rng, check: &SettingsCheck) -> u32 {
    match rng.below(5) {
        0 => rng.pick(&[0, 1, u32::MAX]),
        1 => check.opening.media,
        2 => check.opening.group,
        3 if !check.members.is_empty() => rng.pick(check.members).source,
        _ => rng.word(),
    }
}

/// Times with a lateness at or next to one that decides, as near as the rate lets it be.
fn aimed_times(
    rng: &mut Rng,
    check: &SettingsCheck,
    reading: &Reading,
    slack: u32,
) -> Option<Times> {
    let counted = check.counted(reading);
    let (greatest, least) = (counted.iter().max()?, counted.iter().min()?);
    let (allowance, unit) = (check.allowance(slack), unit(check.rate()));
    let lateness = match rng.below(20) {
        0..=3 => *greatest,
        4..=5 => greatest + allowance,
        6 => greatest + within(rng, 0, allowance),
        7 => *least,
        8 => least + allowance,
        9 => greatest + check.rate() * i128::from(slack),
        10 => greatest + (i128::from(slack) << 16),
        11 => greatest - SECOND * within(rng, 0, 1 << 20),
        12..=14 => of_any_member(rng, check, reading),
        _ => return None,
    };
    let beside = unit * rng.pick(&[-2, -1, -1, 0, 0, 0, 1, 1, 2]);
    let lateness = lateness.div_euclid(unit) * unit + beside;
    times_of(rng, check.rate(), lateness)
}

/// The lateness of a member by its report or its arrival, counted or not.
fn of_any_member(rng: &mut Rng, check: &SettingsCheck, reading: &Reading) -> i128 {
    let report = rng.pick(check.members).report;
    check.member_lateness(&report, reading, rng.chance(50))
}

/// Presented at 0 or beside it, where the packet was received shortly before.
fn wrap_presented(rng: &mut Rng, reading: &Reading, times: &mut Times) {
    let presented = rng.pick(&[0, 0, 1, 2, u64::MAX]);
    let received = reading.ntp.wrapping_sub(times.ntp_age as u64);
    let delay = i128::from(presented.wrapping_sub(received));
    if delay <= LIMIT {
        times.delay = delay;
    }
}

/// A time past its limit, often by a single unit.
fn spoil_times(rng: &mut Rng, kind: usize, rate: i128, times: &mut Times) {
    let edge = rng.chance(80);
    match kind {
        0 if edge => times.ntp_age = rng.pick(&[-1, LIMIT + 1]),
        0 => times.ntp_age = rng.number().into(),
        1 if edge => times.rtp_age = rng.pick(&[-1, 60 * rate + 1]),
        1 => times.rtp_age = rng.word().into(),
        2 if edge => times.delay = rng.pick(&[0, 0, LIMIT + 1, -1]),
        // A short time would hide what is above its bits.
        2 => times.delay += rng.pick(&[1 << 32, 1 << 48, 1 << 63]),
        _ => {}
    }
}

/// Presented 0, or identifiers that are not the table's.
fn spoil_fields(rng: &mut Rng, kind: usize, settings: &mut Settings) {
    match kind {
        3 => settings.presented = 0,
        4 => settings.group ^= 1 << rng.below(32),
        5 => settings.media ^= 1 << rng.below(32),
        6 => std::mem::swap(&mut settings.group, &mut settings.media),
        7 => settings.group = rng.pick(&[0, u32::MAX]),
        _ => {}
    }
}
