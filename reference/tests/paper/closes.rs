//! Document 02, order 3, second half: "A close message names an hour and lists
//! paths with four interval prices each: exactly the pending keys of that
//! hour, each once."

use crate::helpers::*;
use reference::{Answer, Book, Key, Record};

const HOUR: u64 = 100;

/// The prices of 002, in cents: "1st interval = $30", 40, 50 and 50.
const RTC: [i64; 4] = [3_000, 4_000, 5_000, 5_000];

fn of(path: u64, hour: u64) -> Key {
    Key {
        kind: QUARTER_HOUR_EXPORT,
        path,
        hour,
    }
}

/// Opens the bid of 002: 170, 160, 0 and 100 MWh.
fn open_example(book: &mut Book, path: u64, hour: u64) {
    let (mwh, bids) = (
        [30, 40, 100, 60, 100, 0, 100],
        [400, 500, 1000, 300, 500, 0, 1000],
    );
    take(book, open_curves(of(path, hour), [3, 2, 1, 1]), &mwh, &bids);
}

/// Opens a bid with one point of so many MWh in each interval.
fn open_level(book: &mut Book, path: u64, hour: u64, mwh: u64) {
    take(
        book,
        open_curves(of(path, hour), [1; 4]),
        &[mwh; 4],
        &[0; 4],
    );
}

/// Closes the hour, with these four prices for every path.
fn close_at(book: &mut Book, hour: u64, paths: &[u64], prices: [i64; 4]) -> Answer {
    book.apply(close(hour), paths, &prices.repeat(paths.len()))
}

/// The refusal of such a close, which must leave the book as it is.
fn not_closed(book: &Book, hour: u64, paths: &[u64]) -> u64 {
    let prices = RTC.repeat(paths.len());
    turn_away(&mut book.clone(), close(hour), paths, &prices).number()
}

#[test]
fn the_example_of_002_is_kept_at_support_412_500_and_removed_at_412_499() {
    for (support, stays) in [(412_500, true), (412_499, false)] {
        let mut book = fresh(support);
        open_example(&mut book, 7, HOUR);
        let answer = close_at(&mut book, HOUR, &[7], RTC);
        if stays {
            assert_eq!(answer, accepted(412_500, 412_500, 0));
            let expected = Record {
                key: of(7, HOUR),
                stage: 2,
                requirement: 412_500,
                intervals: [170, 160, 0, 100],
                ..Record::FREE
            };
            assert_eq!(book.records[0], expected);
        } else {
            assert_eq!(answer, removed(0, 0));
            assert_eq!(answer.number(), 0);
            assert_eq!(book, fresh(support));
        }
        assert!(book.is_sound());
    }
}

#[test]
fn held_is_in_the_balance_too() {
    for (support, stays) in [(412_600, true), (412_599, false)] {
        let mut book = fresh(support);
        open_example(&mut book, 7, HOUR);
        take(
            &mut book,
            open(key(HOUR_AHEAD_EXPORT), 0, false),
            &[1],
            &[100],
        );
        let answer = close_at(&mut book, HOUR, &[7], RTC);
        if stays {
            assert_eq!(answer, accepted(412_500, 412_600, 0));
        } else {
            assert_eq!(answer, removed(100, 0));
            assert!(is_open(&book, key(HOUR_AHEAD_EXPORT)));
        }
    }
}

#[test]
fn every_bid_of_the_batch_is_removed_though_some_would_fit() {
    let mut book = fresh(1_000);
    open_level(&mut book, 1, HOUR, 1);
    open_level(&mut book, 2, 8, 1);
    open_level(&mut book, 3, HOUR, 1_000);
    open_level(&mut book, 4, HOUR, 1);
    let other = record(&book, of(2, 8));
    assert_eq!(close_at(&mut book, HOUR, &[1, 3, 4], [1; 4]), removed(0, 0));
    // Their places are zero, and the bid of another hour is as it was.
    for place in [0, 2, 3] {
        assert!(book.records[place].is_free());
    }
    assert_eq!(book.records[1], other);
    assert!(book.is_sound());
    // The places are used again, from the lowest.
    open_level(&mut book, 9, HOUR, 1);
    assert_eq!(book.records[0].key, of(9, HOUR));
    assert_eq!(close_at(&mut book, HOUR, &[9], [1; 4]), accepted(1, 1, 0));
}

#[test]
fn the_batch_is_summed_and_the_sum_answered() {
    let mut book = wide();
    take(&mut book, open(key(EXPORT), 0, false), &[1], &[50]);
    open_level(&mut book, 1, HOUR, 1);
    open_level(&mut book, 2, HOUR, 2);
    open_level(&mut book, 3, 8, 9);
    let prices = [vec![1, 1, 1, 2], vec![10, 10, 10, -11]].concat();
    let answer = book.apply(close(HOUR), &[1, 2], &prices);
    // 5 quarters are 2 cents, 38 quarters are 10.
    assert_eq!(answer, accepted(12, 62, 0));
    assert_eq!(record(&book, of(1, HOUR)).requirement, 2);
    assert_eq!(record(&book, of(2, HOUR)).requirement, 10);
    assert_eq!(record(&book, of(3, 8)).stage, 1);
}

#[test]
fn a_requirement_is_rounded_up_once_for_each_bid() {
    for (price, cents) in [(0, 0), (1, 1), (2, 1), (3, 1), (4, 1), (5, 2), (-1, 0)] {
        let mut book = wide();
        open_level(&mut book, 1, HOUR, 1);
        open_level(&mut book, 2, HOUR, 1);
        let answer = close_at(&mut book, HOUR, &[1, 2], [price, 0, 0, 0]);
        // Two bids, each rounded by itself.
        assert_eq!(answer.requirement, 2 * cents, "{price}");
        assert_eq!(record(&book, of(1, HOUR)).requirement, cents);
    }
    let mut book = wide();
    open_level(&mut book, 1, HOUR, 1);
    assert_eq!(close_at(&mut book, HOUR, &[1], [1; 4]).requirement, 1);
}

#[test]
fn a_requirement_is_floored_once_for_each_bid() {
    let mut book = wide();
    open_level(&mut book, 1, HOUR, 4);
    open_level(&mut book, 2, HOUR, 4);
    let prices = [[30, -10, -10, 1], [-30, 10, 10, 0]].concat();
    // An interval below 0 takes from its bid's others: 11, and not 31. A bid
    // below 0 takes nothing from another.
    let answer = book.apply(close(HOUR), &[1, 2], &prices);
    assert_eq!(answer, accepted(11, 11, 0));
    assert_eq!(record(&book, of(2, HOUR)).requirement, 0);
    assert_eq!(record(&book, of(2, HOUR)).stage, 2);
}

#[test]
fn paths_are_listed_in_any_order_each_with_its_own_prices() {
    let orders: [[u64; 3]; 6] = [
        [1, 2, 3],
        [1, 3, 2],
        [2, 1, 3],
        [2, 3, 1],
        [3, 1, 2],
        [3, 2, 1],
    ];
    let opened = |paths: [u64; 3]| {
        let mut book = wide();
        for path in paths {
            open_level(&mut book, path, HOUR, path);
        }
        book
    };
    for paths in orders {
        for listed in orders {
            let mut book = opened(paths);
            let prices: Vec<i64> = listed
                .iter()
                .flat_map(|&path| [100 * path as i64; 4])
                .collect();
            let answer = book.apply(close(HOUR), &listed, &prices);
            assert_eq!(answer, accepted(1_400, 1_400, 0));
            for path in 1..=3 {
                let expected = (100 * path * path) as i64;
                assert_eq!(record(&book, of(path, HOUR)).requirement, expected);
            }
        }
    }
}

#[test]
fn exactly_the_pending_keys_of_the_hour_are_listed() {
    let mut book = wide();
    for path in [5, 6, 7] {
        open_example(&mut book, path, HOUR);
    }
    open_example(&mut book, 8, HOUR + 1);
    for paths in [
        &[5, 6][..],
        &[6, 7],
        &[5],
        &[],
        &[5, 6, 7, 8],
        &[5, 6, 8],
        &[5, 6, 7, 999],
        &[8],
    ] {
        assert_eq!(not_closed(&book, HOUR, paths), 11, "{paths:?}");
    }
    assert_eq!(not_closed(&book, HOUR + 1, &[5, 6, 7]), 11);
    assert_eq!(not_closed(&book, HOUR + 1, &[]), 11);
    assert_eq!(not_closed(&book, HOUR + 2, &[]), 11);
    assert_eq!(not_closed(&book, HOUR + 2, &[5, 6, 7]), 11);
    close_at(&mut book, HOUR, &[7, 5, 6], RTC);
    assert_eq!(book.held(), 3 * 412_500);
}

#[test]
fn bids_of_other_kinds_are_no_part_of_the_hour() {
    let mut book = wide();
    for kind in 1..=4 {
        take(&mut book, open(key(kind), 0, false), &[1], &[0]);
    }
    assert_eq!(not_closed(&book, HOUR, &[7]), 11);
    open_example(&mut book, 7, HOUR);
    let before = book.clone();
    assert_eq!(close_at(&mut book, HOUR, &[7], RTC).requirement, 412_500);
    for place in 0..4 {
        assert_eq!(book.records[place], before.records[place]);
    }
}

#[test]
fn a_bid_that_is_closed_already_is_not_listed_again() {
    let mut book = wide();
    open_example(&mut book, 7, HOUR);
    close_at(&mut book, HOUR, &[7], RTC);
    for stage in 2..=4 {
        assert_eq!(record(&book, of(7, HOUR)).stage, stage);
        assert_eq!(not_closed(&book, HOUR, &[7]), 11);
        assert_eq!(not_closed(&book, HOUR, &[]), 11);
        // A bid opened later is a batch of its own.
        let mut later = book.clone();
        open_example(&mut later, 8, HOUR);
        assert_eq!(not_closed(&later, HOUR, &[7, 8]), 11);
        assert_eq!(close_at(&mut later, HOUR, &[8], RTC).requirement, 412_500);
        assert_eq!(record(&later, of(7, HOUR)), record(&book, of(7, HOUR)));
        if stage == 2 {
            send(&mut book, finish(of(7, HOUR), 1, 1, 0));
        } else if stage == 3 {
            send(&mut book, bill(of(7, HOUR), 1));
        }
    }
}

#[test]
fn a_path_listed_twice_is_5() {
    let mut book = wide();
    for path in [5, 6, 7] {
        open_example(&mut book, path, HOUR);
    }
    for paths in [
        &[5, 5][..],
        &[5, 6, 7, 5],
        &[5, 6, 7, 7],
        &[5, 6, 6, 7],
        &[9, 9],
    ] {
        assert_eq!(not_closed(&book, HOUR, paths), 5, "{paths:?}");
    }
}

#[test]
fn prices_that_are_not_four_a_path_are_5() {
    let mut book = wide();
    open_example(&mut book, 5, HOUR);
    open_example(&mut book, 6, HOUR);
    for (paths, expected) in [(&[5, 6][..], 8), (&[5], 4), (&[], 0)] {
        for count in 0..=13 {
            let prices = vec![1; count];
            let answer = book.clone().apply(close(HOUR), paths, &prices);
            let number = match (count == expected, paths.len()) {
                (true, 2) => 0,
                (true, _) => 11,
                (false, _) => 5,
            };
            assert_eq!(answer.number(), number, "{paths:?}, {count} prices");
        }
    }
}

#[test]
fn any_listed_path_and_any_price_is_checked() {
    let mut book = wide();
    for path in [1, 500, 999] {
        open_example(&mut book, path, HOUR);
    }
    for at in 0..3 {
        for wrong in [0, 1_000, u64::MAX] {
            let mut paths = [1, 500, 999];
            paths[at] = wrong;
            assert_eq!(not_closed(&book, HOUR, &paths), 3);
        }
    }
    for at in 0..12 {
        for (price, number) in [
            (1_000_000, 0),
            (-1_000_000, 0),
            (1_000_001, 7),
            (-1_000_001, 7),
            (i64::MAX, 7),
            (i64::MIN, 7),
        ] {
            let mut prices = RTC.repeat(3);
            prices[at] = price;
            let answer = book.clone().apply(close(HOUR), &[1, 500, 999], &prices);
            assert_eq!(answer.number(), number);
        }
    }
}

#[test]
fn the_hour_is_checked() {
    let mut book = wide();
    for hour in [0, 999_999] {
        open_example(&mut book, 7, hour);
        assert_eq!(close_at(&mut book, hour, &[7], RTC).number(), 0);
    }
    for hour in [1_000_000, u64::MAX] {
        assert_eq!(not_closed(&book, hour, &[7]), 4);
        assert_eq!(not_closed(&book, hour, &[]), 4);
    }
}

#[test]
fn close_in_order() {
    let mut book = wide();
    open_example(&mut book, 7, HOUR);
    open_example(&mut book, 8, HOUR);
    book.support = -1;
    let number = |book: &Book, hour, paths: &[u64], prices: &[i64]| {
        turn_away(&mut book.clone(), close(hour), paths, prices).number()
    };
    let wrong = [i64::MAX; 9];
    assert_eq!(number(&book, u64::MAX, &[7, 0, 7], &wrong), 1);
    book.support = 0;
    assert_eq!(number(&book, u64::MAX, &[7, 0, 7], &wrong), 3);
    assert_eq!(number(&book, u64::MAX, &[7, 1, 7], &wrong), 4);
    assert_eq!(number(&book, HOUR, &[7, 1, 7], &wrong), 5);
    assert_eq!(number(&book, HOUR, &[7, 1], &wrong), 5);
    assert_eq!(number(&book, HOUR, &[7, 1], &wrong[..8]), 7);
    assert_eq!(number(&book, HOUR, &[7, 1], &[1; 8]), 11);
    assert_eq!(book.apply(close(HOUR), &[8, 7], &[1; 8]), removed(0, 0));
}

#[test]
fn the_counts_of_listed_paths() {
    let mut book = wide();
    for path in 1..=256 {
        open_level(&mut book, path, HOUR, 1);
    }
    let listed = |count: u64| (0..count).map(|at| at % 999 + 1).collect::<Vec<u64>>();
    for (count, number) in [(0, 11), (1, 11), (255, 11), (257, 11), (999, 11)] {
        assert_eq!(not_closed(&book, HOUR, &listed(count)), number);
    }
    for count in [1_000, 1_001, 5_000] {
        assert_eq!(not_closed(&book, HOUR, &listed(count)), 5);
    }
    let short = |count: u64, prices: usize| {
        turn_away(
            &mut book.clone(),
            close(HOUR),
            &listed(count),
            &vec![1; prices],
        )
        .number()
    };
    for prices in [0, 1, 1_023, 1_025] {
        assert_eq!(short(256, prices), 5);
    }
    let paths = listed(256);
    let backwards: Vec<u64> = paths.iter().rev().copied().collect();
    for paths in [paths, backwards] {
        let mut next = book.clone();
        assert_eq!(
            close_at(&mut next, HOUR, &paths, [1; 4]),
            accepted(256, 256, 0)
        );
        assert!(next.records.iter().all(|record| record.stage == 2));
        assert!(next.is_sound());
        let mut next = book.clone();
        send(&mut next, support(255));
        assert_eq!(close_at(&mut next, HOUR, &paths, [1; 4]), removed(0, 0));
        assert_eq!(next, fresh(255));
    }
}

#[test]
fn a_batch_that_adds_0_is_removed_where_held_is_above_support() {
    for (support_now, stays) in [(100, true), (99, false)] {
        let mut book = fresh(100);
        take(
            &mut book,
            open(key(HOUR_AHEAD_EXPORT), 0, false),
            &[1],
            &[100],
        );
        open_example(&mut book, 7, HOUR);
        send(&mut book, support(support_now));
        let answer = close_at(&mut book, HOUR, &[7], [-1; 4]);
        let expected = if stays {
            accepted(0, 100, 0)
        } else {
            removed(100, 0)
        };
        assert_eq!(answer, expected);
        assert_eq!(is_open(&book, of(7, HOUR)), stays);
    }
}

#[test]
fn a_suspended_book_still_closes() {
    let mut book = fresh(1_000_000);
    open_example(&mut book, 7, HOUR);
    open_example(&mut book, 8, HOUR + 1);
    owe(&mut book, key(HOUR_AHEAD_EXPORT), 500_000);
    assert!(book.is_suspended());
    let answer = close_at(&mut book, HOUR, &[7], RTC);
    assert_eq!(answer, accepted(412_500, 912_500, 500_000));
    let answer = close_at(&mut book, HOUR + 1, &[8], RTC);
    assert_eq!(answer, removed(912_500, 500_000));
}

#[test]
fn a_bill_below_0_makes_room_for_a_batch() {
    let mut book = fresh(412_499);
    open_example(&mut book, 7, HOUR);
    owe(&mut book, key(HOUR_AHEAD_EXPORT), -1);
    let answer = close_at(&mut book, HOUR, &[7], RTC);
    assert_eq!(answer, accepted(412_500, 412_499, -1));
}

#[test]
fn the_largest_batch() {
    let mut book = wide();
    for path in 1..=256 {
        let message = open_curves(of(path, HOUR), [64; 4]);
        take(&mut book, message, &[10_000; 256], &[0; 256]);
    }
    let paths: Vec<u64> = (1..=256).collect();
    let sum = 256 * 640_000_000_000;
    let mut next = book.clone();
    assert_eq!(
        close_at(&mut next, HOUR, &paths, [1_000_000; 4]),
        accepted(sum, sum, 0)
    );
    assert!(next.is_sound());
    assert_eq!(
        close_at(&mut book, HOUR, &paths, [-1_000_000; 4]),
        accepted(0, 0, 0)
    );
}
