//! "Messages and stages" and what a record keeps.

use crate::helpers::*;
use reference::book::Supply;
use reference::{Book, Record, Refusal};

const KINDS: [u64; 4] = [IMPORT, EXPORT, HOUR_AHEAD_EXPORT, WHEEL];

#[test]
fn open_makes_stage_1() {
    let points: (&[u64], &[i64]) = (&[3, 9, 5], &[-200, 100, 300]);
    let expected = [(9, 9 * 40), (17, 17 * 100), (17, 1500), (9, 600)];
    for (kind, (bid_mwh, requirement)) in KINDS.into_iter().zip(expected) {
        let differential = match kind {
            IMPORT => 40,
            EXPORT => 100,
            _ => 0,
        };
        let mut book = wide();
        let answer = book.apply(open(key(kind), differential, false), points.0, points.1);
        assert_eq!(answer, accepted(requirement, requirement, 0));
        let expected = Record {
            key: key(kind),
            stage: 1,
            bid_mwh,
            differential,
            requirement,
            ..Record::FREE
        };
        assert_eq!(book.records[0], expected);
        assert!(book.records[1..].iter().all(Record::is_free));
    }
}

#[test]
fn an_import_goes_through_its_stages() {
    let (mut book, key) = (wide(), key(IMPORT));
    take(&mut book, open(key, 6000, false), &[100], &[1]);
    let answer = book.apply(post(key, 50, 4000, 0), &[], &[]);
    assert_eq!(answer, accepted(300_000, 300_000, 0));
    let mut expected = Record {
        key,
        stage: 2,
        bid_mwh: 100,
        differential: 6000,
        exempt: false,
        schedule: 50,
        day_ahead_price: 4000,
        requirement: 300_000,
        intervals: [0; 4],
        supply: Supply::NONE,
    };
    assert_eq!(book.records[0], expected);
    let answer = book.apply(finish(key, 10, 6000, 0), &[], &[]);
    assert_eq!(answer, accepted(40_000, 40_000, 0));
    expected.stage = 3;
    expected.requirement = 40_000;
    assert_eq!(book.records[0], expected);
    let answer = book.apply(bill(key, -77), &[], &[]);
    assert_eq!(answer, accepted(-77, -77, -77));
    expected.stage = 4;
    expected.requirement = -77;
    assert_eq!(book.records[0], expected);
    let answer = book.apply(pay(key), &[], &[]);
    assert_eq!(answer, accepted(0, 0, 0));
    assert_eq!(book, wide());
}

#[test]
fn an_export_does_not_keep_its_day_ahead_price() {
    let (mut book, key) = (wide(), key(EXPORT));
    take(&mut book, open(key, 4000, false), &[60, 50], &[1, 2]);
    send(&mut book, post(key, 100, 5000, 0));
    let expected = Record {
        key,
        stage: 2,
        bid_mwh: 110,
        differential: 4000,
        exempt: false,
        schedule: 100,
        day_ahead_price: 0,
        requirement: 500_000,
        intervals: [0; 4],
        supply: Supply::NONE,
    };
    assert_eq!(book.records[0], expected);
}

#[test]
fn an_hour_ahead_export_goes_from_1_to_3() {
    let (mut book, key) = (wide(), key(HOUR_AHEAD_EXPORT));
    take(&mut book, open(key, 0, false), &[60, 50], &[1, 2]);
    let refusal = turn_away(&mut book, post(key, 10, 5, 0), &[], &[]);
    assert_eq!(refusal, Refusal::WrongStage);
    assert_eq!(send(&mut book, finish(key, 200, 30, 0)), 6000);
    let expected = Record {
        key,
        stage: 3,
        bid_mwh: 110,
        requirement: 6000,
        ..Record::FREE
    };
    assert_eq!(book.records[0], expected);
}

#[test]
fn a_wheel_uses_two_prices_and_keeps_neither() {
    let (mut book, key) = (wide(), key(WHEEL));
    take(&mut book, open(key, 0, false), &[50, 20], &[-500, 1]);
    assert_eq!(send(&mut book, post(key, 50, 300, -100)), 20_000);
    assert_eq!(book.records[0].day_ahead_price, 0);
    assert_eq!(book.records[0].schedule, 50);
    assert_eq!(send(&mut book, finish(key, 40, -200, 300)), 25_000);
}

#[test]
fn an_exempt_import_requires_nothing_until_it_is_billed() {
    let (mut book, key) = (wide(), key(IMPORT));
    assert_eq!(take(&mut book, open(key, 6000, true), MWH, PRICES), 0);
    assert!(book.records[0].exempt);
    assert_eq!(send(&mut book, post(key, 10, -4000, 0)), 0);
    assert_eq!(send(&mut book, finish(key, 0, 6000, 0)), 0);
    assert_eq!(send(&mut book, bill(key, 123)), 123);
    assert!(book.records[0].exempt);
}

#[test]
fn the_exempt_mark_is_ignored_for_kinds_2_to_4() {
    for kind in [EXPORT, HOUR_AHEAD_EXPORT, WHEEL] {
        let (mut marked, mut unmarked) = (wide(), wide());
        for message in [open, revise] {
            let with_mark = marked.apply(message(key(kind), 0, true), &[3], &[-7]);
            let without = unmarked.apply(message(key(kind), 0, false), &[3], &[-7]);
            assert_eq!(with_mark, without);
            assert_eq!(marked, unmarked);
            assert!(!marked.records[0].exempt);
        }
    }
}

#[test]
fn revise_replaces_the_group() {
    let mut book = wide();
    take(&mut book, open(key_no(IMPORT, 1), 1, false), MWH, PRICES);
    take(&mut book, open(key(IMPORT), 6000, true), &[100], &[1]);
    let answer = book.apply(revise(key(IMPORT), 50, false), &[30, 20], &[4, 5]);
    assert_eq!(answer, accepted(1500, 1510, 0));
    let expected = Record {
        key: key(IMPORT),
        stage: 1,
        bid_mwh: 30,
        differential: 50,
        requirement: 1500,
        ..Record::FREE
    };
    assert_eq!(book.records[1], expected);
    let answer = book.apply(revise(key(IMPORT), 50, true), &[30], &[4]);
    assert_eq!(answer, accepted(0, 10, 0));
    assert!(book.records[1].exempt);
}

#[test]
fn withdraw_frees_the_place() {
    let mut book = wide();
    take(&mut book, open(key(EXPORT), 5, false), MWH, PRICES);
    let answer = book.apply(withdraw(key(EXPORT)), &[], &[]);
    assert_eq!(answer, accepted(0, 0, 0));
    assert_eq!(book, wide());
}

#[test]
fn a_new_record_takes_the_lowest_free_place_and_freed_places_are_used_again() {
    let mut book = wide();
    for number in 0..5 {
        take(
            &mut book,
            open(key_no(WHEEL, number), 0, false),
            MWH,
            PRICES,
        );
    }
    send(&mut book, withdraw(key_no(WHEEL, 3)));
    send(&mut book, withdraw(key_no(WHEEL, 1)));
    for (number, place) in [(10, 1), (11, 3), (12, 5)] {
        take(
            &mut book,
            open(key_no(WHEEL, number), 0, false),
            MWH,
            PRICES,
        );
        assert_eq!(book.records[place].key, key_no(WHEEL, number));
    }
    assert!(book.records[6..].iter().all(Record::is_free));
}

#[test]
fn the_256th_record_fits_and_the_257th_is_15() {
    let mut book = wide();
    for number in 0..256 {
        take(
            &mut book,
            open(key_no(WHEEL, number), 0, false),
            MWH,
            PRICES,
        );
    }
    let refusal = turn_away(&mut book, open(key(WHEEL), 0, false), MWH, PRICES);
    assert_eq!(refusal, Refusal::BookFull);
    // A full book still takes other messages.
    take(&mut book, revise(key_no(WHEEL, 255), 0, false), MWH, PRICES);
    send(&mut book, withdraw(key_no(WHEEL, 255)));
    take(&mut book, open(key(WHEEL), 0, false), MWH, PRICES);
    assert_eq!(book.records[255].key, key(WHEEL));
}

/// The book of one record of a kind at a stage.
fn at(kind: u64, stage: u64) -> Book {
    with(staged(kind, stage))
}

#[test]
fn each_message_needs_its_stage() {
    for kind in KINDS {
        for stage in 1..=4 {
            if (kind, stage) == (HOUR_AHEAD_EXPORT, 2) {
                continue;
            }
            let finish_from = if kind == HOUR_AHEAD_EXPORT { 1 } else { 2 };
            let post_from = if kind == HOUR_AHEAD_EXPORT { 0 } else { 1 };
            let key = key(kind);
            let needed = [
                (revise(key, 0, false), 1),
                (withdraw(key), 1),
                (post(key, 5, 0, 0), post_from),
                (finish(key, 5, 0, 0), finish_from),
                (bill(key, 5), 3),
                (pay(key), 4),
            ];
            for (message, from) in needed {
                let mut book = at(kind, stage);
                assert!(book.is_sound());
                let expected = if stage == from { 0 } else { 12 };
                let answer = book.apply(message, MWH, PRICES);
                assert_eq!(answer.number(), expected, "{message:?} at {stage}");
            }
        }
    }
}

#[test]
fn the_posted_amount_is_the_requirement_on_record() {
    for (kind, requirement) in [(EXPORT, 12_345), (WHEEL, 54_321)] {
        let mut book = with(Record {
            schedule: 4,
            requirement,
            ..staged(kind, 2)
        });
        assert_eq!(
            send(&mut book, finish(key(kind), 6, 100, 0)),
            requirement + 200
        );
    }
}

#[test]
fn one_key_of_each_kind_stands_apart() {
    let mut book = wide();
    for kind in KINDS {
        take(&mut book, open(key(kind), 0, false), MWH, PRICES);
    }
    send(&mut book, withdraw(key(EXPORT)));
    assert!(!is_open(&book, key(EXPORT)));
    assert!(is_open(&book, key(HOUR_AHEAD_EXPORT)));
    assert!(is_open(&book, key(IMPORT)));
}

#[test]
fn held_and_net_owed_are_sums_over_the_records() {
    let mut book = wide();
    owe(&mut book, key_no(HOUR_AHEAD_EXPORT, 1), 500);
    owe(&mut book, key_no(HOUR_AHEAD_EXPORT, 2), -200);
    let answer = book.apply(open(key(EXPORT), 0, false), MWH, PRICES);
    assert_eq!(answer, accepted(10_000, 10_300, 300));
    let answer = book.apply(pay(key_no(HOUR_AHEAD_EXPORT, 1)), &[], &[]);
    assert_eq!(answer, accepted(0, 9_800, -200));
    let answer = book.apply(support(9), &[], &[]);
    assert_eq!(answer, accepted(0, 9_800, -200));
}
