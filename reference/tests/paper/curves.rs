//! Document 02, order 3, first half: open and revise with four interval
//! curves. "Source document 002 adds a kind 5: Hour-Ahead export bids with
//! four interval curves, points of one interval adding up."

use crate::helpers::*;
use reference::{Book, Key, Message, Record, Refusal};

const KEY: Key = Key {
    kind: QUARTER_HOUR_EXPORT,
    path: 7,
    hour: 100,
};

/// The curves of 002: "30 + 40 + 100", "60 + 100", "0" and "100".
const COUNTS: [u64; 4] = [3, 2, 1, 1];
const POINTS: [u64; 7] = [30, 40, 100, 60, 100, 0, 100];
const BIDS: [i64; 7] = [400, 500, 1000, 300, 500, 0, 1000];

/// Both messages that carry four curves.
const BOTH: [fn(Key, [u64; 4]) -> Message; 2] = [open_curves, revise_curves];

/// A book in which the message is accepted: for a revise the key is open.
fn ready(message: Message) -> Book {
    match message {
        Message::ReviseCurves(_) => with(staged(QUARTER_HOUR_EXPORT, 1)),
        _ => wide(),
    }
}

/// The number that the message is answered with so many points of 1 MWh at 1.
fn number(message: Message, mwh: usize, prices: usize) -> u64 {
    let (mwh, prices) = (vec![1; mwh], vec![1; prices]);
    ready(message).apply(message, &mwh, &prices).number()
}

#[test]
fn on_opening_a_bid_is_pending_with_requirement_0() {
    let mut book = wide();
    let answer = book.apply(open_curves(KEY, COUNTS), &POINTS, &BIDS);
    assert_eq!(answer, accepted(0, 0, 0));
    let expected = Record {
        key: KEY,
        stage: 1,
        intervals: [170, 160, 0, 100],
        ..Record::FREE
    };
    assert_eq!(book.records[0], expected);
    assert!(book.records[1..].iter().all(Record::is_free));
    assert!(book.is_sound());
}

#[test]
fn points_of_one_interval_add_up_wherever_the_others_end() {
    let counts_and_sums = [
        ([7, 0, 0, 0], [127, 0, 0, 0]),
        ([0, 7, 0, 0], [0, 127, 0, 0]),
        ([0, 0, 0, 7], [0, 0, 0, 127]),
        ([1, 2, 3, 1], [1, 6, 56, 64]),
        ([0, 3, 0, 4], [0, 7, 0, 120]),
        ([2, 0, 5, 0], [3, 0, 124, 0]),
    ];
    for (counts, sums) in counts_and_sums {
        for message in BOTH {
            let message = message(KEY, counts);
            let mut book = ready(message);
            take(&mut book, message, &[1, 2, 4, 8, 16, 32, 64], &[5; 7]);
            assert_eq!(record(&book, KEY).intervals, sums);
        }
    }
}

#[test]
fn revise_replaces_the_four_curves() {
    let mut book = wide();
    take(&mut book, open(key(EXPORT), 0, false), &[1], &[9]);
    take(&mut book, open_curves(KEY, COUNTS), &POINTS, &BIDS);
    let answer = book.apply(revise_curves(KEY, [0, 1, 0, 1]), &[8, 9], &[1, 2]);
    assert_eq!(answer, accepted(0, 9, 0));
    assert_eq!(record(&book, KEY).intervals, [0, 8, 0, 9]);
    assert_eq!(record(&book, KEY).stage, 1);
}

#[test]
fn an_interval_has_0_to_64_points() {
    for message in BOTH {
        for interval in 0..4 {
            for (count, expected) in [(1, 0), (63, 0), (64, 0), (65, 5), (66, 5)] {
                let mut counts = [0; 4];
                counts[interval] = count;
                let points = count as usize;
                assert_eq!(number(message(KEY, counts), points, points), expected);
                // With points in the other intervals too.
                let others = counts.map(|count| if count == 0 { 2 } else { count });
                let points = points + 6;
                assert_eq!(number(message(KEY, others), points, points), expected);
            }
        }
        assert_eq!(number(message(KEY, [64; 4]), 256, 256), 0);
        assert_eq!(number(message(KEY, [64, 64, 64, 65]), 257, 257), 5);
    }
}

#[test]
fn all_four_empty_is_5() {
    for message in BOTH {
        assert_eq!(number(message(KEY, [0; 4]), 0, 0), 5);
        assert_eq!(number(message(KEY, [0; 4]), 1, 1), 5);
        assert_eq!(number(message(KEY, [0, 0, 0, 1]), 0, 0), 5);
    }
}

#[test]
fn a_point_of_0_mwh_is_a_point() {
    for message in BOTH {
        let message = message(KEY, [0, 0, 1, 0]);
        let mut book = ready(message);
        take(&mut book, message, &[0], &[0]);
        assert_eq!(record(&book, KEY).intervals, [0; 4]);
        assert!(book.is_sound());
    }
}

#[test]
fn counts_that_are_not_those_of_both_lists_are_5() {
    for message in BOTH {
        for (mwh, prices) in [(6, 7), (7, 6), (8, 7), (7, 8), (6, 6), (8, 8), (0, 0)] {
            assert_eq!(number(message(KEY, COUNTS), mwh, prices), 5);
        }
    }
}

#[test]
fn counts_past_any_list_are_5_and_no_sum_of_them_wraps() {
    const MOST: u64 = u64::MAX;
    let counts = [
        [MOST, 0, 0, 0],
        [0, 0, 0, MOST],
        [MOST; 4],
        [MOST, 3, 0, 0],
        [MOST, 1, 1, 1],
        [1 << 63, 1 << 63, 1, 1],
        [1 << 62; 4],
    ];
    for counts in counts {
        for points in [0, 1, 2, 3] {
            for message in BOTH {
                assert_eq!(number(message(KEY, counts), points, points), 5);
            }
        }
    }
}

#[test]
fn one_curve_for_kind_5_and_four_for_the_others_are_5() {
    for message in [open, revise] {
        let message = message(KEY, 0, false);
        for book in [wide(), with(staged(QUARTER_HOUR_EXPORT, 1))] {
            let refusal = turn_away(&mut book.clone(), message, MWH, PRICES);
            assert_eq!(refusal, Refusal::Points);
        }
    }
    for kind in 1..=4 {
        for message in BOTH {
            let message = message(key(kind), [1, 0, 0, 0]);
            for book in [wide(), with(staged(kind, 1))] {
                let refusal = turn_away(&mut book.clone(), message, MWH, PRICES);
                assert_eq!(refusal, Refusal::Points);
            }
        }
    }
}

#[test]
fn a_quantity_and_a_price_of_any_point_are_checked() {
    for message in BOTH {
        let message = message(KEY, COUNTS);
        for at in 0..7 {
            let answer = |mwh: u64, price: i64| {
                let (mut points, mut bids) = (POINTS, BIDS);
                points[at] = mwh;
                bids[at] = price;
                ready(message).apply(message, &points, &bids).number()
            };
            assert_eq!(answer(10_000, 1_000_000), 0);
            assert_eq!(answer(0, -1_000_000), 0);
            for mwh in [10_001, 640_000, u64::MAX] {
                assert_eq!(answer(mwh, 0), 6);
                assert_eq!(answer(mwh, i64::MIN), 6);
            }
            for price in [1_000_001, -1_000_001, i64::MAX, i64::MIN] {
                assert_eq!(answer(1, price), 7);
            }
        }
    }
}

/// A full, suspended book that is above its support and not sound, with KEY
/// at stage 2 in its second place.
fn worst_book() -> Book {
    let mut book = wide();
    for (number, record) in book.records.iter_mut().enumerate() {
        *record = Record {
            key: key_no(EXPORT, number as u64),
            stage: 4,
            bid_mwh: 10,
            requirement: 10,
            ..Record::FREE
        };
    }
    book.records[1] = staged(QUARTER_HOUR_EXPORT, 2);
    book.support = -1;
    total(&mut book);
    book
}

type Mend = fn(&mut Book, &mut Key, &mut [u64; 4], &mut Vec<u64>, &mut Vec<i64>);

/// Meets each refusal in turn, then acceptance, on a book that stays above
/// its support.
fn peel(message: fn(Key, [u64; 4]) -> Message, steps: &[(u64, Mend)]) {
    let (mut book, mut key) = (
        worst_book(),
        Key {
            kind: 7,
            path: 0,
            hour: 1_000_000,
        },
    );
    let mut counts = [1, 2, 0, 65];
    let (mut mwh, mut prices) = (vec![1, 1, 10_001], vec![1, 1, 1, -1_000_001]);
    for &(number, mend) in steps {
        let refusal = turn_away(&mut book, message(key, counts), &mwh, &prices);
        assert_eq!(refusal.number(), number);
        mend(&mut book, &mut key, &mut counts, &mut mwh, &mut prices);
        total(&mut book);
    }
    assert!(book.held > book.support);
    take(&mut book, message(key, counts), &mwh, &prices);
}

const SOUND: (u64, Mend) = (1, |book, _, _, _, _| book.support = 9);
const KIND: (u64, Mend) = (2, |_, key, _, _, _| key.kind = 5);
const PATH: (u64, Mend) = (3, |_, key, _, _, _| key.path = 7);
const HOUR: (u64, Mend) = (4, |_, key, _, _, _| key.hour = 100);
const NO_SUCH_HOUR: (u64, Mend) = (4, |_, key, _, _, _| key.hour = 101);
const LONG: (u64, Mend) = (5, |_, _, counts, _, _| counts[3] = 1);
const UNEQUAL: (u64, Mend) = (5, |_, _, _, mwh, _| mwh.push(2));
const QUANTITY: (u64, Mend) = (6, |_, _, _, mwh, _| mwh[2] = 10_000);
const PRICE: (u64, Mend) = (7, |_, _, _, _, prices| prices[3] = 1);
/// The bills are taken back, and the book is above its support by one bid.
const UNSUSPEND: (u64, Mend) = (14, |book, _, _, _, _| {
    for record in &mut book.records {
        if record.stage == 4 {
            record.requirement = 0;
        }
    }
    book.records[2].stage = 1;
    book.records[2].requirement = 10;
});

#[test]
fn open_of_four_curves_in_order() {
    let already: (u64, Mend) = (10, |_, key, _, _, _| key.hour = 101);
    let full: (u64, Mend) = (15, |book, _, _, _, _| book.records[9] = Record::FREE);
    peel(
        open_curves,
        &[
            SOUND, KIND, PATH, HOUR, LONG, UNEQUAL, QUANTITY, PRICE, already, UNSUSPEND, full,
        ],
    );
}

#[test]
fn revise_of_four_curves_in_order() {
    let not_open: (u64, Mend) = (11, |_, key, _, _, _| key.hour = 100);
    let stage: (u64, Mend) = (12, |book, _, _, _, _| book.records[1].stage = 1);
    peel(
        revise_curves,
        &[
            SOUND,
            KIND,
            PATH,
            NO_SUCH_HOUR,
            LONG,
            UNEQUAL,
            QUANTITY,
            PRICE,
            not_open,
            stage,
            UNSUSPEND,
        ],
    );
}

#[test]
fn credit_is_not_checked_on_opening_or_revising() {
    let mut book = fresh(100);
    take(
        &mut book,
        open(key(HOUR_AHEAD_EXPORT), 0, false),
        &[1],
        &[100],
    );
    send(&mut book, support(99));
    assert!(!book.is_suspended());
    let answer = book.apply(open_curves(KEY, [64; 4]), &[10_000; 256], &[1_000_000; 256]);
    assert_eq!(answer, accepted(0, 100, 0));
    assert_eq!(record(&book, KEY).intervals, [640_000; 4]);
    let answer = book.apply(revise_curves(KEY, COUNTS), &POINTS, &BIDS);
    assert_eq!(answer, accepted(0, 100, 0));
    // Any other kind is turned away.
    let refusal = turn_away(&mut book, open(key(EXPORT), 0, false), &[1], &[0]);
    assert_eq!(refusal, Refusal::AboveSupport);
}

#[test]
fn a_suspended_book_takes_no_open_and_no_revise() {
    let mut book = fresh(100);
    take(&mut book, open_curves(KEY, COUNTS), &POINTS, &BIDS);
    owe(&mut book, key(HOUR_AHEAD_EXPORT), 50);
    let other = Key { hour: 3, ..KEY };
    for message in [open_curves(other, COUNTS), revise_curves(KEY, COUNTS)] {
        let refusal = turn_away(&mut book, message, &POINTS, &BIDS);
        assert_eq!(refusal, Refusal::Suspended);
    }
    // A pending bid may still be taken back.
    send(&mut book, withdraw(KEY));
}

#[test]
fn a_full_book_takes_no_open() {
    let mut book = wide();
    let no = |hour| Key { hour, ..KEY };
    for hour in 0..256 {
        take(&mut book, open_curves(no(hour), COUNTS), &POINTS, &BIDS);
    }
    let refusal = turn_away(&mut book, open_curves(no(256), COUNTS), &POINTS, &BIDS);
    assert_eq!(refusal, Refusal::BookFull);
    let refusal = turn_away(&mut book, open_curves(no(255), COUNTS), &POINTS, &BIDS);
    assert_eq!(refusal, Refusal::KeyAlreadyOpen);
    take(&mut book, revise_curves(no(255), COUNTS), &POINTS, &BIDS);
    send(&mut book, withdraw(no(17)));
    take(&mut book, open_curves(no(256), COUNTS), &POINTS, &BIDS);
    assert_eq!(book.records[17].key, no(256));
}

#[test]
fn each_message_needs_its_stage() {
    for stage in 1..=4 {
        let needed = [
            (revise_curves(KEY, [1, 0, 0, 0]), 1),
            (withdraw(KEY), 1),
            (post(KEY, 5, 0, 0), 0),
            (finish(KEY, 5, 0, 0), 2),
            (bill(KEY, 5), 3),
            (pay(KEY), 4),
        ];
        for (message, from) in needed {
            let mut book = with(staged(QUARTER_HOUR_EXPORT, stage));
            assert!(book.is_sound());
            let answer = book.apply(message, MWH, PRICES);
            let expected = if stage == from { 0 } else { 12 };
            assert_eq!(answer.number(), expected, "{message:?} at {stage}");
        }
    }
}

#[test]
fn posting_kind_5_is_12_after_6_7_and_11() {
    let mut book = wide();
    let mut number = |schedule, first, second| {
        turn_away(&mut book, post(KEY, schedule, first, second), &[], &[]).number()
    };
    assert_eq!(number(640_001, 1_000_001, 1), 6);
    assert_eq!(number(640_000, 1_000_001, 0), 7);
    assert_eq!(number(640_000, 0, 1), 7);
    assert_eq!(number(640_000, 0, 0), 11);
    for stage in 1..=4 {
        let mut book = with(staged(QUARTER_HOUR_EXPORT, stage));
        let mut number = |schedule, first, second| {
            turn_away(&mut book, post(KEY, schedule, first, second), &[], &[]).number()
        };
        assert_eq!(number(640_001, 0, 1), 6);
        assert_eq!(number(1, 0, 1), 7);
        // 12 and not 13, with any schedule above the bid MWh of 0.
        assert_eq!(number(1, 0, 0), 12);
        assert_eq!(number(0, -7, 0), 12);
    }
}

#[test]
fn finish_from_stage_2_has_one_price() {
    let mut book = with(Record {
        requirement: 77,
        ..staged(QUARTER_HOUR_EXPORT, 2)
    });
    let refusal = turn_away(&mut book, finish(KEY, 640_001, 5, 0), &[], &[]);
    assert_eq!(refusal, Refusal::Quantity);
    let refusal = turn_away(&mut book, finish(KEY, 640_000, 5, 1), &[], &[]);
    assert_eq!(refusal, Refusal::Price);
    let at = |actual, price| {
        let mut next = book.clone();
        let answer = next.apply(finish(KEY, actual, price, 0), &[], &[]);
        assert_eq!(answer, accepted(answer.requirement, answer.requirement, 0));
        let expected = Record {
            stage: 3,
            requirement: answer.requirement,
            ..staged(QUARTER_HOUR_EXPORT, 3)
        };
        assert_eq!(next.records[0], expected);
        assert!(next.is_sound());
        answer.requirement
    };
    assert_eq!(at(7, 300), 2_100);
    assert_eq!(at(7, -300), 0);
    assert_eq!(at(0, 300), 0);
    assert_eq!(at(640_000, 1_000_000), 640_000_000_000);
    assert_eq!(at(640_000, -1_000_000), 0);
}

#[test]
fn the_life_of_a_bid_ends_with_its_place_free() {
    let mut book = wide();
    take(&mut book, open_curves(KEY, COUNTS), &POINTS, &BIDS);
    assert_eq!(
        take(&mut book, close(100), &[7], &[3_000, 4_000, 5_000, 5_000]),
        412_500
    );
    assert_eq!(record(&book, KEY).stage, 2);
    assert_eq!(send(&mut book, finish(KEY, 120, 3_000, 0)), 360_000);
    assert_eq!(send(&mut book, bill(KEY, -5)), -5);
    assert_eq!(record(&book, KEY).intervals, [170, 160, 0, 100]);
    assert_eq!(book.net_owed(), -5);
    assert_eq!(send(&mut book, pay(KEY)), 0);
    assert_eq!(book, wide());
    take(&mut book, open_curves(KEY, COUNTS), &POINTS, &BIDS);
    send(&mut book, withdraw(KEY));
    assert_eq!(book, wide());
}

#[test]
fn kind_5_stands_apart_from_the_other_kinds_of_its_path_and_hour() {
    let mut book = wide();
    for kind in 1..=4 {
        take(&mut book, open(key(kind), 0, false), MWH, PRICES);
    }
    take(&mut book, open_curves(KEY, COUNTS), &POINTS, &BIDS);
    send(&mut book, withdraw(key(HOUR_AHEAD_EXPORT)));
    assert!(is_open(&book, KEY));
    assert!(is_open(&book, key(EXPORT)));
}
