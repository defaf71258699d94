//! Document 02, order 2: "Source document 001 has no floor in the balancing
//! payment: it is (schedule - actual) x real-time price, and only the
//! difference with the Day-Ahead payment is held at zero."

use crate::helpers::*;
use reference::{Book, Key};

/// A finished hour: schedule, actual, Day-Ahead price, real-time price.
type Hour = (u64, u64, i64, i64);

/// Brings an import from nothing to a finished hour.
fn settle(book: &mut Book, key: Key, hour: Hour, exempt: bool) -> i64 {
    let (schedule, actual, day_ahead, real_time) = hour;
    take(book, open(key, 6000, exempt), &[10_000], &[0]);
    send(book, post(key, schedule, day_ahead, 0));
    send(book, finish(key, actual, real_time, 0))
}

fn filed(hour: Hour) -> i64 {
    settle(&mut wide(), key(IMPORT), hour, false)
}

/// The balancing payment and the Day-Ahead payment.
fn payments((schedule, actual, day_ahead, real_time): Hour) -> (i64, i64) {
    let balancing = (schedule as i64 - actual as i64) * real_time;
    (balancing, schedule as i64 * day_ahead)
}

/// What 000 had, and 01 after it: a floor under the balancing payment too.
fn of_the_older_paper(hour: Hour) -> i64 {
    let (balancing, day_ahead) = payments(hour);
    (balancing.max(0) - day_ahead).max(0)
}

#[test]
fn hours_that_the_tariff_settles_otherwise_than_the_older_paper() {
    let hours = [
        // Above the schedule, at a real-time price above 0; the first is W14.
        ((50, 60, -4000, 6000), 200_000, 140_000),
        ((50, 83, -4000, 6000), 200_000, 2_000),
        ((50, 100, -4000, 6000), 200_000, 0),
        ((1, 2, -3, 2), 3, 1),
        // Below it, at one below 0.
        ((80, 30, -2500, -1500), 200_000, 125_000),
        ((40, 0, -1000, -999), 40_000, 40),
        ((40, 0, -1000, -1001), 40_000, 0),
        // The limits.
        (
            (10_000, 10_001, -1_000_000, 1_000_000),
            10_000_000_000,
            9_999_000_000,
        ),
        ((10_000, 640_000, -1_000_000, 1_000_000), 10_000_000_000, 0),
    ];
    for (hour, older, expected) in hours {
        assert_eq!(of_the_older_paper(hour), older, "{hour:?}");
        assert_eq!(filed(hour), expected, "{hour:?}");
    }
}

#[test]
fn hours_that_both_settle_alike() {
    let hours = [
        // W3, and the same at the schedule.
        ((50, 10, 4000, 6000), 40_000),
        ((50, 50, -4000, 6000), 200_000),
        // Above the schedule at a real-time price below 0.
        ((50, 60, 1000, -6000), 10_000),
        ((50, 60, -1000, -6000), 110_000),
        // A balancing payment below 0 and a Day-Ahead price that is not.
        ((50, 60, 4000, 6000), 0),
        ((50, 60, 0, 6000), 0),
        ((50, 40, 1000, -6000), 0),
        // Nothing scheduled.
        ((0, 100, -4000, 6000), 0),
        ((0, 100, -4000, -6000), 600_000),
    ];
    for (hour, expected) in hours {
        assert_eq!(of_the_older_paper(hour), expected, "{hour:?}");
        assert_eq!(filed(hour), expected, "{hour:?}");
    }
}

#[test]
fn they_differ_where_balancing_and_the_day_ahead_payment_are_below_0() {
    for schedule in 0..5 {
        for actual in 0..7 {
            for day_ahead in -4..4 {
                for real_time in -4..4 {
                    let hour = (schedule, actual, day_ahead, real_time);
                    let (balancing, payment) = payments(hour);
                    let (older, filed) = (of_the_older_paper(hour), filed(hour));
                    assert_eq!(filed, (balancing - payment).max(0), "{hour:?}");
                    assert!(filed <= older, "{hour:?}");
                    assert_eq!(filed != older, balancing < 0 && payment < 0, "{hour:?}");
                }
            }
        }
    }
}

#[test]
fn an_exempt_import_still_has_0() {
    for hour in [(50, 60, -4000, 6000), (80, 30, -2500, -1500)] {
        assert_eq!(settle(&mut wide(), key(IMPORT), hour, true), 0);
        assert!(filed(hour) > 0);
    }
}

#[test]
fn two_imports_are_held_at_zero_one_by_one() {
    let hours = [(50, 60, 0, 6000), (50, 60, -4000, 6000)];
    let mut book = wide();
    let requirements = [
        settle(&mut book, key_no(IMPORT, 1), hours[0], false),
        settle(&mut book, key_no(IMPORT, 2), hours[1], false),
    ];
    assert_eq!(requirements, [0, 140_000]);
    assert_eq!(book.held(), 140_000);
    let as_a_sum = hours
        .map(payments)
        .map(|(balancing, day_ahead)| balancing - day_ahead);
    assert_eq!(as_a_sum, [-60_000, 140_000]);
    assert_ne!(book.held(), as_a_sum.iter().sum::<i64>().max(0));
}

#[test]
fn exports_keep_their_formulas() {
    let export = |actual, real_time| {
        let mut book = wide();
        take(&mut book, open(key(EXPORT), 4000, false), &[100], &[0]);
        send(&mut book, post(key(EXPORT), 100, 5000, 0));
        send(&mut book, finish(key(EXPORT), actual, real_time, 0))
    };
    assert_eq!(export(90, 4000), 460_000); // W7
    assert_eq!(export(120, 4000), 580_000); // W8
    assert_eq!(export(90, -4000), 540_000);
    assert_eq!(export(0, 6000), -100_000);
    let hour_ahead = |actual, real_time| {
        let mut book = wide();
        take(
            &mut book,
            open(key(HOUR_AHEAD_EXPORT), 0, false),
            &[1],
            &[0],
        );
        send(
            &mut book,
            finish(key(HOUR_AHEAD_EXPORT), actual, real_time, 0),
        )
    };
    assert_eq!(hour_ahead(7, 300), 2_100);
    assert_eq!(hour_ahead(7, -300), 0);
}
