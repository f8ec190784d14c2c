//! Faults of a table that goes by the order of arrival. They are planted in the
//! intake, and two tables of it that take the same reports in either order have to
//! differ.

use crate::intake::{self, Intake};
use crate::members::{Call, Choice, Reading, Record};
use crate::places::PLACES;
use crate::table_values::raise;
use crate::{burst, call_history, register, rejoins};

/// The last accepted report of the whole table.
#[derive(Clone, Copy, Debug)]
pub struct Heard {
    told: Record,
    reading: Reading,
}

#[derive(Clone, Copy, Debug, PartialEq, Eq)]
pub enum Fault {
    /// Among equals, the member at the lowest place is chosen.
    LowestPlaceOnTie,
    /// The last member heard is followed, however late the others are.
    LastHeardFollowed,
    /// A new member raises the tally of the first of the others.
    JoiningRaisesFirst,
    /// A new member takes over the tally of the first of the others, which has none
    /// from then on.
    JoiningTakesTally,
    /// A report that was received before the last accepted one of the table gets 15.
    EarlierThanLastRefused,
    /// A report at the reading of the table's last accepted one is answered 0 and not
    /// filed.
    SameReadingDropped,
}

impl Fault {
    pub const ALL: [Fault; 6] = [
        Fault::LowestPlaceOnTie,
        Fault::LastHeardFollowed,
        Fault::JoiningRaisesFirst,
        Fault::JoiningTakesTally,
        Fault::EarlierThanLastRefused,
        Fault::SameReadingDropped,
    ];

    /// A report's number, with this fault.
    pub fn report(self, intake: &mut Intake, told: &Record, reading: &Reading) -> u64 {
        let mut after = intake.clone();
        let number = after.make_call(&Call::Report(*told, *reading));
        if let (0, Some(heard)) = (number, intake.heard) {
            let received = |told: &Record| told.report.received;
            let since = received(told).wrapping_sub(received(&heard.told));
            match self {
                Fault::EarlierThanLastRefused if (since as i64) < 0 => return 15,
                Fault::SameReadingDropped if *reading == heard.reading => return 0,
                _ => {}
            }
        }
        if after.count_members() > intake.count_members() {
            self.join(&mut after, told.source);
        }
        if number == 0 {
            let (told, reading) = (*told, *reading);
            after.heard = Some(Heard { told, reading });
        }
        *intake = after;
        number
    }

    /// What a new member alters beside itself.
    fn join(self, intake: &mut Intake, source: u32) {
        let members = intake.members().into_iter().flatten();
        let mut others = members.filter(|member| member.record.source != source);
        let Some(first) = others.next() else {
            return;
        };
        let (first, mut tally) = (first.record.source, first.tally);
        match self {
            Fault::JoiningRaisesFirst => {
                raise(&mut tally);
                intake.set_tally(first, tally);
            }
            Fault::JoiningTakesTally => {
                intake.set_tally(source, tally);
                intake.set_tally(first, 0);
            }
            _ => {}
        }
    }

    /// The member to follow, or 20, with this fault.
    pub fn choose(self, intake: &Intake, reading: &Reading) -> Choice {
        let by_number = |intake: &Intake| intake.choose_by(reading, |source| source);
        match self {
            Fault::LowestPlaceOnTie => intake.choose_by(reading, |source| {
                intake.place_of(source).unwrap_or(PLACES) as u32
            }),
            Fault::LastHeardFollowed => {
                let heard = intake.heard.map(|heard| heard.told.source);
                by_number(&alone(intake, heard)).or_else(|_| by_number(intake))
            }
            _ => by_number(intake),
        }
    }
}

/// The member with this number alone, once all others have left.
fn alone(intake: &Intake, source: Option<u32>) -> Intake {
    let mut alone = intake.clone();
    for member in intake.members().into_iter().flatten() {
        let record = member.record;
        if Some(record.source) != source {
            alone.make_call(&Call::Farewell(record.source, record.origin));
        }
    }
    alone
}

/// All of these, and those of other parts by which the order of arrival matters: rows
/// or places that decide later, a tally that stays at a place, an origin or a flag that
/// the first one tells for the others.
pub fn all() -> Vec<intake::Fault> {
    let of_orders = Fault::ALL.map(intake::Fault::Orders);
    let of_register = [
        register::Fault::SweepKeepsStale,
        register::Fault::SweepClearsFresh,
        register::Fault::CallHistory(call_history::Fault::RaisedElsewhere),
        register::Fault::Burst(burst::Fault::FirstOrigin),
    ];
    let of_register = of_register.map(intake::Fault::Register);
    let of_rejoins = rejoins::Fault::ALL.map(intake::Fault::Rejoins);
    let mut all = vec![intake::Fault::FlagKept];
    all.extend(of_orders);
    all.extend(of_register);
    all.extend(of_rejoins);
    all
}
