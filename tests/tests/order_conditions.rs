//! Where the order of arrival does not matter, by hand, and where it does: a place too
//! few, and reports of one number. Each on the archive and on the independent intake.

use prunepocket_sys::Table;
use prunepocket_tests::arrival_orders::two_orders;
use prunepocket_tests::compare_orders::{by_number, OrderComparison};
use prunepocket_tests::generator::{self, Rng};
use prunepocket_tests::intake::{self, Intake};
use prunepocket_tests::members::{Call, Member, Opening, Reading, Record};
use prunepocket_tests::places::{self, PLACES};
use prunepocket_tests::plain_reports::{self, reading, OPENING};
use prunepocket_tests::sides::Side;

/// When reports arrive, and when they were received.
const NOW: u32 = 1000;
const RECEIVED: u32 = 999;

/// The first of the numbers that are held beforehand, and two others.
const FIRST_HELD: u32 = 100;
const LOWER: u32 = 10;
const HIGHER: u32 = 20;

/// Courses that are tried on tables with another rule of places.
const COURSES: usize = 2_000;

/// Each source has a port of its own.
fn record(source: u32) -> Record {
    plain_reports::record(source, source as u16, RECEIVED)
}

fn report(told: Record) -> Call {
    Call::Report(told, reading(NOW))
}

/// A table with so many members, and what these calls are answered then.
fn after<S: Side>(held: usize, calls: &[Call]) -> (S, Vec<u64>) {
    let mut side = S::open(&OPENING).expect("it opens");
    for source in (FIRST_HELD..).take(held) {
        assert_eq!(side.call(&report(record(source))), 0);
    }
    let numbers = calls.iter().map(|call| side.call(call)).collect();
    (side, numbers)
}

fn members(side: &impl Side) -> Vec<Member> {
    by_number(&side.places())
}

fn chosen(side: &impl Side, reading: &Reading) -> u32 {
    side.choose(reading).expect("a member is fresh").source
}

fn two_new_members_change_places_and_nothing_else<S: Side>() {
    let calls = [LOWER, HIGHER].map(|source| report(record(source)));
    for held in 0..=PLACES - 2 {
        let (one, numbers) = after::<S>(held, &calls);
        let (other, other_numbers) = after::<S>(held, &[calls[1], calls[0]]);
        assert_eq!((numbers, other_numbers), (vec![0, 0], vec![0, 0]));
        assert_eq!(members(&one), members(&other));
        assert_eq!(one.member_at(held), other.member_at(held + 1));
        assert_eq!(one.member_at(held + 1), other.member_at(held));
        // All are equally late: the lowest number is chosen, at whichever place.
        assert_eq!(chosen(&one, &reading(NOW)), LOWER);
        assert_eq!(one.choose(&reading(NOW)), other.choose(&reading(NOW)));
    }
}

fn with_one_free_place_the_first_of_two_new_ones_takes_it<S: Side>() {
    let calls = [LOWER, HIGHER].map(|source| report(record(source)));
    let (one, numbers) = after::<S>(PLACES - 1, &calls);
    let (other, other_numbers) = after::<S>(PLACES - 1, &[calls[1], calls[0]]);
    assert_eq!((numbers, other_numbers), (vec![0, 18], vec![0, 18]));
    assert_eq!(members(&one)[0].record, record(LOWER));
    assert_eq!(members(&other)[0].record, record(HIGHER));
    assert_eq!(chosen(&one, &reading(NOW)), LOWER);
    assert_eq!(chosen(&other, &reading(NOW)), HIGHER);
}

fn of_two_reports_of_one_number_the_last_stands<S: Side>() {
    let (early, mut late) = (record(LOWER), record(LOWER));
    late.report.presented += 1 << 16;
    for held in [0, 1, PLACES - 1] {
        let (one, numbers) = after::<S>(held, &[report(early), report(late)]);
        let (other, other_numbers) = after::<S>(held, &[report(late), report(early)]);
        assert_eq!((numbers, other_numbers), (vec![0, 0], vec![0, 0]));
        assert_eq!(members(&one)[0].record, late);
        assert_eq!(members(&other)[0].record, early);
        assert_ne!(one.choose(&reading(NOW)), other.choose(&reading(NOW)));
    }
}

fn of_two_origins_of_one_number_the_first_holds_it<S: Side>() {
    let (own, mut twin) = (record(LOWER), record(LOWER));
    twin.origin.port += 1;
    let (one, numbers) = after::<S>(1, &[report(own), report(twin)]);
    let (other, other_numbers) = after::<S>(1, &[report(twin), report(own)]);
    assert_eq!((numbers, other_numbers), (vec![0, 14], vec![0, 14]));
    let holder = |side: &S| (members(side)[0].record, members(side)[0].tally);
    assert_eq!(holder(&one), (own, 1));
    assert_eq!(holder(&other), (twin, 1));
}

/// Two reports of one burst that are both accepted, but of one number.
fn in_a_burst_the_last_of_one_number_stands_too<S: Side>() {
    let (early, mut late) = (record(LOWER), record(LOWER));
    late.report.presented += 1 << 16;
    for order in [[early, late], [late, early]] {
        let (mut side, mut list) = (after::<S>(1, &[]).0, [7; 3]);
        assert_eq!(side.burst(&order, &reading(NOW), &mut list), 0);
        assert_eq!(list, [0, 0, 7]);
        assert_eq!(members(&side)[0].record, order[1]);
    }
}

fn all_conditions<S: Side>() {
    two_new_members_change_places_and_nothing_else::<S>();
    with_one_free_place_the_first_of_two_new_ones_takes_it::<S>();
    of_two_reports_of_one_number_the_last_stands::<S>();
    of_two_origins_of_one_number_the_first_holds_it::<S>();
    in_a_burst_the_last_of_one_number_stands_too::<S>();
}

#[test]
fn on_the_archive() {
    all_conditions::<Table>();
}

#[test]
fn on_the_intake() {
    all_conditions::<Intake>();
}

/// Places may differ: tables that give new members other places agree as well.
#[test]
fn any_rule_of_places_will_do() {
    for fault in [places::Fault::PlaceBehind, places::Fault::HighestFree] {
        let fault = Some(intake::Fault::Places(fault));
        let open = |opening: &Opening| Intake::open(opening, fault);
        let mut comparison = OrderComparison::new(open);
        let mut rng = Rng::new(generator::seed());
        for _ in 0..COURSES {
            assert_eq!(comparison.check(&two_orders(&mut rng)), Ok(()));
        }
        assert!(comparison.counts.swaps > 0);
        assert!(comparison.counts.later.other_places > 0);
    }
}
