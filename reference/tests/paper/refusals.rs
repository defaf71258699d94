//! "Turned away, and why": each refusal of each message, at its limits.

use crate::helpers::*;
use reference::{Book, Key, Message, Refusal};

#[test]
fn refusals_are_numbered_1_to_18() {
    let numbers: Vec<u64> = ALL.iter().map(|refusal| refusal.number()).collect();
    assert_eq!(numbers, (1..=18).collect::<Vec<u64>>());
}

/// The number that a fresh book of the largest support answers.
fn number(message: Message, mwh: &[u64], prices: &[i64]) -> u64 {
    wide().apply(message, mwh, prices).number()
}

/// The seven messages of document 01 that carry a key.
fn keyed(key: Key) -> Vec<Message> {
    one_of_each(key)[..7].to_vec()
}

/// What the message answers about a key in range that is not open.
fn when_not_open(message: Message) -> u64 {
    match message {
        Message::Open(_) => 0,
        _ => 11,
    }
}

#[test]
fn refusal_1_book_not_sound() {
    let mut book = wide();
    book.support = -1;
    for message in one_of_each(key(IMPORT)) {
        let refusal = turn_away(&mut book, message, MWH, PRICES);
        assert_eq!(refusal, Refusal::BookNotSound);
    }
}

#[test]
fn refusal_2_kind_not_1_to_6() {
    for kind in [0, 7, 8, u64::MAX] {
        for message in keyed(key(kind)) {
            assert_eq!(number(message, MWH, PRICES), 2);
        }
    }
    for kind in 1..=4 {
        for message in keyed(key(kind)) {
            assert_eq!(number(message, MWH, PRICES), when_not_open(message));
        }
    }
    for kind in [QUARTER_HOUR_EXPORT, VIRTUAL] {
        for message in keyed(key(kind)) {
            let expected = match message {
                Message::Open(_) | Message::Revise(_) => 5,
                _ => 11,
            };
            assert_eq!(number(message, MWH, PRICES), expected);
        }
    }
}

#[test]
fn refusal_2_of_four_curves_is_for_kinds_that_are_none() {
    for kind in [0, 7, 8, u64::MAX] {
        for message in [open_curves, revise_curves] {
            assert_eq!(number(message(key(kind), [1, 0, 0, 0]), MWH, PRICES), 2);
        }
    }
}

#[test]
fn refusal_3_path_out_of_range() {
    for (path, inside) in [
        (0, false),
        (1, true),
        (999, true),
        (1000, false),
        (u64::MAX, false),
    ] {
        for message in keyed(Key { path, ..key(WHEEL) }) {
            let expected = if inside { when_not_open(message) } else { 3 };
            assert_eq!(number(message, MWH, PRICES), expected);
        }
    }
}

#[test]
fn refusal_4_hour_out_of_range() {
    for (hour, inside) in [
        (0, true),
        (999_999, true),
        (1_000_000, false),
        (u64::MAX, false),
    ] {
        for message in keyed(Key { hour, ..key(WHEEL) }) {
            let expected = if inside { when_not_open(message) } else { 4 };
            assert_eq!(number(message, MWH, PRICES), expected);
        }
    }
}

#[test]
fn refusal_5_point_count_out_of_range_or_lists_unequal() {
    let (mwh, prices) = ([0_u64; 70], [0_i64; 70]);
    let counts = [
        (0, 0, 5),
        (1, 1, 0),
        (64, 64, 0),
        (65, 65, 5),
        (70, 70, 5),
        (0, 1, 5),
        (1, 0, 5),
        (1, 2, 5),
        (64, 63, 5),
        (64, 65, 5),
        (65, 64, 5),
    ];
    for kind in 1..=4 {
        for (mwh_count, price_count, expected) in counts {
            let (mwh, prices) = (&mwh[..mwh_count], &prices[..price_count]);
            assert_eq!(number(open(key(kind), 0, false), mwh, prices), expected);
            let expected = if expected == 5 { 5 } else { 11 };
            assert_eq!(number(revise(key(kind), 0, false), mwh, prices), expected);
        }
    }
}

#[test]
fn refusal_6_a_points_mwh_out_of_range() {
    for kind in 1..=4 {
        for (mwh, inside) in [
            (0, true),
            (10_000, true),
            (10_001, false),
            (u64::MAX, false),
        ] {
            for at in 0..3 {
                let mut points = [1, 2, 3];
                points[at] = mwh;
                let expected = if inside { 0 } else { 6 };
                let answer = number(open(key(kind), 0, false), &points, &[0, 0, 0]);
                assert_eq!(answer, expected);
                let expected = if inside { 11 } else { 6 };
                let answer = number(revise(key(kind), 0, false), &points, &[0, 0, 0]);
                assert_eq!(answer, expected);
            }
        }
    }
}

#[test]
fn refusal_6_schedule_or_actual_out_of_range() {
    for kind in 1..=4 {
        for (mwh, inside) in [
            (0, true),
            (640_000, true),
            (640_001, false),
            (u64::MAX, false),
        ] {
            let expected = if inside { 11 } else { 6 };
            assert_eq!(number(post(key(kind), mwh, 0, 0), &[], &[]), expected);
            assert_eq!(number(finish(key(kind), mwh, 0, 0), &[], &[]), expected);
        }
    }
}

const PRICE_LIMITS: [(i64, bool); 8] = [
    (-1_000_000, true),
    (1_000_000, true),
    (-1_000_001, false),
    (1_000_001, false),
    (i64::MIN, false),
    (i64::MAX, false),
    (-1, true),
    (0, true),
];

#[test]
fn refusal_7_a_points_price_out_of_range() {
    for kind in 1..=4 {
        for (price, inside) in PRICE_LIMITS {
            for at in 0..3 {
                let mut prices = [1, 2, 3];
                prices[at] = price;
                let answer = number(open(key(kind), 0, false), &[0, 0, 0], &prices);
                assert_eq!(answer, if inside { 0 } else { 7 });
                let answer = number(revise(key(kind), 0, false), &[0, 0, 0], &prices);
                assert_eq!(answer, if inside { 11 } else { 7 });
            }
        }
    }
}

#[test]
fn refusal_7_a_price_of_post_or_finish_out_of_range_or_not_0() {
    for kind in 1..=4 {
        for message in [post, finish] {
            for (price, inside) in PRICE_LIMITS {
                let first = number(message(key(kind), 0, price, 0), &[], &[]);
                assert_eq!(first, if inside { 11 } else { 7 });
                let second = number(message(key(kind), 0, 0, price), &[], &[]);
                let fits = inside && (kind == WHEEL || price == 0);
                assert_eq!(second, if fits { 11 } else { 7 });
            }
        }
    }
}

#[test]
fn refusal_8_differential_out_of_range() {
    for kind in 1..=4 {
        let most = if kind <= EXPORT { 1_000_000 } else { 0 };
        let limits = [
            (0, true),
            (most, true),
            (most + 1, false),
            (u64::MAX, false),
        ];
        for (differential, inside) in limits {
            let answer = number(open(key(kind), differential, false), &[1], &[1]);
            assert_eq!(answer, if inside { 0 } else { 8 });
            let answer = number(revise(key(kind), differential, false), &[1], &[1]);
            assert_eq!(answer, if inside { 11 } else { 8 });
        }
    }
}

#[test]
fn refusal_8_holds_for_an_exempt_import_too() {
    let message = open(key(IMPORT), 1_000_001, true);
    assert_eq!(number(message, MWH, PRICES), 8);
}

#[test]
fn refusal_9_a_bill_out_of_range() {
    const MOST: i64 = 1_000_000_000_000;
    for amount in [-MOST, MOST, 0] {
        let mut book = with(staged(WHEEL, 3));
        assert_eq!(send(&mut book, bill(key(WHEEL), amount)), amount);
    }
    for amount in [-MOST - 1, MOST + 1, i64::MIN, i64::MAX] {
        let mut book = with(staged(WHEEL, 3));
        let refusal = turn_away(&mut book, bill(key(WHEEL), amount), &[], &[]);
        assert_eq!(refusal, Refusal::Amount);
    }
}

#[test]
fn refusal_9_a_support_out_of_range() {
    let mut book = fresh(77);
    for amount in [-1, MOST_SUPPORT + 1, i64::MIN, i64::MAX] {
        let refusal = turn_away(&mut book, support(amount), &[], &[]);
        assert_eq!(refusal, Refusal::Amount);
    }
    for amount in [0, 1, MOST_SUPPORT] {
        assert_eq!(send(&mut book, support(amount)), 0);
        assert_eq!(book.support, amount);
    }
}

#[test]
fn refusal_10_key_already_open() {
    for stage in 1..=4 {
        let mut book = with(staged(EXPORT, stage));
        let refusal = turn_away(&mut book, open(key(EXPORT), 0, false), MWH, PRICES);
        assert_eq!(refusal, Refusal::KeyAlreadyOpen);
    }
}

#[test]
fn refusal_11_key_not_open() {
    let mut book = with(staged(EXPORT, 1));
    let others = [
        key(IMPORT),
        Key {
            path: 6,
            ..key(EXPORT)
        },
        Key {
            hour: 99,
            ..key(EXPORT)
        },
    ];
    for message in others.into_iter().flat_map(|key| keyed(key)[1..].to_vec()) {
        let refusal = turn_away(&mut book, message, MWH, PRICES);
        assert_eq!(refusal, Refusal::KeyNotOpen);
    }
}

#[test]
fn refusal_11_after_withdraw_and_pay() {
    let mut book = wide();
    take(&mut book, open(key(EXPORT), 0, false), MWH, PRICES);
    send(&mut book, withdraw(key(EXPORT)));
    owe(&mut book, key(HOUR_AHEAD_EXPORT), 5);
    send(&mut book, pay(key(HOUR_AHEAD_EXPORT)));
    for key in [key(EXPORT), key(HOUR_AHEAD_EXPORT)] {
        let refusal = turn_away(&mut book, pay(key), &[], &[]);
        assert_eq!(refusal, Refusal::KeyNotOpen);
    }
}

#[test]
fn refusal_12_post_is_not_for_kind_3() {
    let mut book = with(staged(HOUR_AHEAD_EXPORT, 1));
    // Even with a schedule above bid MWh, which would be 13.
    for schedule in [0, 10, 11] {
        let message = post(key(HOUR_AHEAD_EXPORT), schedule, 0, 0);
        let refusal = turn_away(&mut book, message, &[], &[]);
        assert_eq!(refusal, Refusal::WrongStage);
    }
}

#[test]
fn refusal_13_schedule_above_bid_mwh() {
    for kind in [IMPORT, EXPORT, WHEEL] {
        let mut book = with(staged(kind, 1));
        for schedule in [11, 640_000] {
            let refusal = turn_away(&mut book, post(key(kind), schedule, 0, 0), &[], &[]);
            assert_eq!(refusal, Refusal::ScheduleAboveBid);
        }
        send(&mut book, post(key(kind), 10, 0, 0));
        assert_eq!(record(&book, key(kind)).schedule, 10);
    }
}

#[test]
fn an_actual_above_bid_mwh_is_no_refusal() {
    let mut book = with(staged(EXPORT, 2));
    assert_eq!(send(&mut book, finish(key(EXPORT), 640_000, 1, 0)), 640_000);
}

/// A book of support 1,000 that owes 500, with an export at stage 1.
fn suspended_book() -> Book {
    let mut book = fresh(1000);
    take(&mut book, open(key(EXPORT), 0, false), &[1], &[7]);
    owe(&mut book, key_no(HOUR_AHEAD_EXPORT, 1), 500);
    assert!(book.is_suspended());
    book
}

#[test]
fn refusal_14_open_or_revise_while_suspended() {
    let mut book = suspended_book();
    let refusal = turn_away(&mut book, open(key(WHEEL), 0, false), &[0], &[0]);
    assert_eq!(refusal, Refusal::Suspended);
    // A revise that would lower the requirement is turned away too.
    let refusal = turn_away(&mut book, revise(key(EXPORT), 0, false), &[0], &[0]);
    assert_eq!(refusal, Refusal::Suspended);
}

#[test]
fn a_suspended_book_takes_every_other_message() {
    let mut book = suspended_book();
    let owed = key_no(HOUR_AHEAD_EXPORT, 1);
    send(&mut book, post(key(EXPORT), 1, 1, 0));
    send(&mut book, finish(key(EXPORT), 1, 1, 0));
    send(&mut book, bill(key(EXPORT), 1));
    send(&mut book, pay(key(EXPORT)));
    send(&mut book, support(900));
    assert!(book.is_suspended());
    send(&mut book, pay(owed));
    assert!(!book.is_suspended());
}

#[test]
fn post_finish_and_bill_may_lift_held_above_support() {
    let mut book = fresh(10);
    take(&mut book, open(key(EXPORT), 0, false), &[1], &[10]);
    let answer = book.apply(post(key(EXPORT), 1, 500, 0), &[], &[]);
    assert_eq!(answer, accepted(500, 500, 0));
    let answer = book.apply(finish(key(EXPORT), 2, 500, 0), &[], &[]);
    assert_eq!(answer, accepted(1000, 1000, 0));
    let answer = book.apply(bill(key(EXPORT), 9000), &[], &[]);
    assert_eq!(answer, accepted(9000, 9000, 9000));
}

#[test]
fn messages_without_points_pass_over_the_lists() {
    let (mwh, prices) = ([u64::MAX; 70], [i64::MIN; 3]);
    let (mut book, key) = (wide(), key(EXPORT));
    take(&mut book, open(key, 0, false), MWH, PRICES);
    for message in [
        post(key, 1, 1, 0),
        finish(key, 1, 1, 0),
        bill(key, 1),
        pay(key),
        support(1000),
    ] {
        take(&mut book, message, &mwh, &prices);
    }
    take(&mut book, open(key, 0, false), &[1], &[1]);
    take(&mut book, withdraw(key), &mwh, &prices);
}
