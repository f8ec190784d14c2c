//! The faults that can be planted in the check of settings.

use crate::table_values::is_held;
use prunepocket_sys::Table;

#[derive(Clone, Copy, Debug, PartialEq, Eq)]
pub enum Fault {
    /// The greatest slack is so many more.
    SlackLimit(i128),
    /// The check of this number comes after the next one.
    Swapped(u64),
    /// A packet of another group is taken.
    GroupIgnored,
    /// A packet of another media source is taken.
    MediaIgnored,
    /// The packet's group is held against the table's media source, and the other way
    /// around.
    IdentifiersExchanged,
    /// 13 for sender 0.
    SenderZeroRefused,
    /// 13 for the sender's number where a member has it.
    MemberSenderRefused,
    /// 13 for a sender that is not the media source.
    SenderNotMediaRefused,
    /// NTP times are compared as plain numbers.
    NtpPlain,
    /// RTP times are compared as plain numbers.
    RtpPlain,
    /// The greatest NTP age is so many units more.
    NtpLimit(i128),
    /// The greatest RTP age is so many units more.
    RtpLimit(i128),
    /// The greatest RTP age is cut to 32 bits.
    RtpLimitWraps,
    /// The packet's greatest delay is so many units more.
    DelayLimit(i128),
    /// Presented 0 is taken.
    PresentedZeroTaken,
    /// A delay of 0 is taken.
    DelayZeroTaken,
    /// The packet's delay does not wrap.
    DelayPlain,
    /// The packet's presented time is cut to 32 bits.
    PresentedCut,
    /// The packet's presented time is expanded like a report's short one.
    PresentedShort,
    /// The packet is to be as late as the least late member only.
    LeastCompared,
    /// The slack is measured from the least late member.
    SlackFromLeast,
    /// The first member stands for all.
    FirstCompared,
    /// The slack is in units of 2^-32 s.
    SlackInUnits,
    /// The slack is in units of lateness, without the rate.
    SlackWithoutRate,
    /// The least lateness that suits is so many units more.
    Lower(i128),
    /// The greatest lateness that suits is so many units more.
    Upper(i128),
    /// Arrival members are counted beside presentation ones.
    ArrivalCountedToo,
    /// Members that are not fresh are counted.
    StaleCounted,
    /// Members that are not fresh by the media clock alone are counted.
    MediaAgeIgnored,
    /// Members are late by their arrival, whatever their P.
    MemberDelayIgnored,
    /// In arrival mode, members are late by their presented field.
    DelayInArrival,
    /// A member's step of 0 is a full turn.
    StepZeroFullTurn,
    /// A member's step of 0 has delay 0.
    StepZeroNoDelay,
    /// Members with a delay over 30 s are not counted.
    LateMembersLeftOut,
    /// Lateness is cut to 64 bits.
    LatenessIn64Bits,
    /// Of P, only 1 counts as 1.
    OtherPIsZero,
    /// What stands at free places of a table value is counted.
    FreePlacesCounted,
    /// The last place of a table value is not looked at.
    LastPlaceMissed,
    /// Beside a refusal, the packet is said to suit.
    SuitsBesideRefusal,
    /// A member's tally is one more afterwards.
    TallyRaised,
    /// Members that are not fresh have left afterwards.
    StaleSwept,
    /// What stands at free places is gone afterwards.
    FreePlacesCleared,
}

impl Fault {
    /// Those that err in one way, or by one unit more or less.
    const PLAIN: [Fault; 47] = [
        Fault::SlackLimit(-1),
        Fault::SlackLimit(1),
        Fault::GroupIgnored,
        Fault::MediaIgnored,
        Fault::IdentifiersExchanged,
        Fault::SenderZeroRefused,
        Fault::MemberSenderRefused,
        Fault::SenderNotMediaRefused,
        Fault::NtpPlain,
        Fault::RtpPlain,
        Fault::NtpLimit(-1),
        Fault::NtpLimit(1),
        Fault::RtpLimit(-1),
        Fault::RtpLimit(1),
        Fault::RtpLimitWraps,
        Fault::DelayLimit(-1),
        Fault::DelayLimit(1),
        Fault::PresentedZeroTaken,
        Fault::DelayZeroTaken,
        Fault::DelayPlain,
        Fault::PresentedCut,
        Fault::PresentedShort,
        Fault::LeastCompared,
        Fault::SlackFromLeast,
        Fault::FirstCompared,
        Fault::SlackInUnits,
        Fault::SlackWithoutRate,
        Fault::Lower(-1),
        Fault::Lower(1),
        Fault::Upper(-1),
        Fault::Upper(1),
        Fault::ArrivalCountedToo,
        Fault::StaleCounted,
        Fault::MediaAgeIgnored,
        Fault::MemberDelayIgnored,
        Fault::DelayInArrival,
        Fault::StepZeroFullTurn,
        Fault::StepZeroNoDelay,
        Fault::LateMembersLeftOut,
        Fault::LatenessIn64Bits,
        Fault::OtherPIsZero,
        Fault::FreePlacesCounted,
        Fault::LastPlaceMissed,
        Fault::SuitsBesideRefusal,
        Fault::TallyRaised,
        Fault::StaleSwept,
        Fault::FreePlacesCleared,
    ];

    pub fn all() -> Vec<Fault> {
        let swaps = [11, 20, 13, 15, 16].map(Fault::Swapped);
        Fault::PLAIN.into_iter().chain(swaps).collect()
    }
}

/// The places of a table value that a member is looked for at, as a word.
pub fn places_with(table: &Table, fault: Option<Fault>) -> u64 {
    match fault {
        Some(Fault::FreePlacesCounted) => u64::MAX,
        Some(Fault::LastPlaceMissed) => table.held & (u64::MAX >> 1),
        _ => table.held,
    }
}

/// What the table is expected to be afterwards: as it was, but for the faults.
pub fn table_after(table: &Table, fault: Option<Fault>, fresh: impl Fn(usize) -> bool) -> Table {
    let mut after = *table;
    for place in 0..after.members.len() {
        let held = is_held(table, place);
        match fault {
            Some(Fault::TallyRaised) if held => {
                let tally = &mut after.members[place].tally;
                *tally = tally.wrapping_add(1);
            }
            Some(Fault::StaleSwept) if held && !fresh(place) => after.held &= !(1 << place),
            Some(Fault::FreePlacesCleared) if !held => after.members[place] = Default::default(),
            _ => {}
        }
    }
    after
}
