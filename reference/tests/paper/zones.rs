//! Document 02, order 6, second half: a virtual bid's life in the book. "Add
//! kind 6, with path 1 to 11 for zones A to K and both sides in one key."

use crate::helpers::*;
use reference::book::Supply;
use reference::{Book, Key, Message, Record, Refusal};

const KEY: Key = Key {
    kind: VIRTUAL,
    path: 7,
    hour: 100,
};

/// Opens 10 MWh of load at 50 and 20 of supply at 30: 600 cents.
fn open_example(book: &mut Book, key: Key) {
    assert_eq!(send(book, open_sides(key, (10, 50), (20, 30))), 600);
}

/// Another key for each number: eleven zones to an hour.
fn zone_no(number: u64) -> Key {
    Key {
        kind: VIRTUAL,
        path: number % 11 + 1,
        hour: number / 11,
    }
}

#[test]
fn a_virtual_bid_goes_through_its_stages() {
    let mut book = wide();
    open_example(&mut book, KEY);
    let mut expected = Record {
        key: KEY,
        stage: 1,
        bid_mwh: 10,
        differential: 50,
        exempt: false,
        schedule: 0,
        day_ahead_price: 0,
        requirement: 600,
        intervals: [0; 4],
        supply: Supply {
            mwh: 20,
            differential: 30,
            schedule: 0,
        },
    };
    assert_eq!(book.records[0], expected);
    let answer = book.apply(post_sides(KEY, 8, 19), &[], &[]);
    assert_eq!(answer, accepted(330, 330, 0));
    expected.stage = 2;
    expected.schedule = 8;
    expected.supply.schedule = 19;
    expected.requirement = 330;
    assert_eq!(book.records[0], expected);
    // "Fields that a message doesn't set keep their values": both sides.
    let answer = book.apply(bill(KEY, -77), &[], &[]);
    assert_eq!(answer, accepted(-77, -77, -77));
    expected.stage = 4;
    expected.requirement = -77;
    assert_eq!(book.records[0], expected);
    assert!(book.is_sound());
    let answer = book.apply(pay(KEY), &[], &[]);
    assert_eq!(answer, accepted(0, 0, 0));
    assert_eq!(book, wide());
}

#[test]
fn a_bid_may_be_withdrawn_until_it_is_posted() {
    let mut book = wide();
    open_example(&mut book, KEY);
    let answer = book.apply(withdraw(KEY), &[], &[]);
    assert_eq!(answer, accepted(0, 0, 0));
    assert_eq!(book, wide());
    open_example(&mut book, KEY);
    send(&mut book, post_sides(KEY, 0, 0));
    let refusal = turn_away(&mut book, withdraw(KEY), &[], &[]);
    assert_eq!(refusal, Refusal::WrongStage);
}

#[test]
fn each_message_needs_its_stage() {
    for stage in [1, 2, 4] {
        let needed = [
            (revise_sides(KEY, (1, 1), (1, 1)), 1),
            (withdraw(KEY), 1),
            (post_sides(KEY, 5, 5), 1),
            (post(KEY, 5, 0, 0), 0),
            (finish(KEY, 5, 0, 0), 0),
            (bill(KEY, 5), 2),
            (pay(KEY), 4),
        ];
        for (message, from) in needed {
            let mut book = with(staged(VIRTUAL, stage));
            assert!(book.is_sound());
            let answer = book.apply(message, MWH, PRICES);
            let expected = if stage == from { 0 } else { 12 };
            assert_eq!(answer.number(), expected, "{message:?} at {stage}");
        }
    }
}

#[test]
fn bill_of_the_other_kinds_still_goes_from_3() {
    for kind in 1..=5 {
        for stage in [1, 2, 3, 4] {
            if (kind, stage) != (HOUR_AHEAD_EXPORT, 2) {
                let answer = with(staged(kind, stage)).apply(bill(key(kind), 5), &[], &[]);
                assert_eq!(answer.number(), if stage == 3 { 0 } else { 12 });
            }
        }
    }
}

#[test]
fn a_bill_has_its_range() {
    const MOST: i64 = 1_000_000_000_000;
    for amount in [-MOST, 0, MOST] {
        let mut book = with(staged(VIRTUAL, 2));
        assert_eq!(send(&mut book, bill(KEY, amount)), amount);
    }
    // 9 stands before 12.
    for stage in [1, 2, 4] {
        for amount in [-MOST - 1, MOST + 1] {
            let mut book = with(staged(VIRTUAL, stage));
            let refusal = turn_away(&mut book, bill(KEY, amount), &[], &[]);
            assert_eq!(refusal, Refusal::Amount);
        }
    }
}

/// The messages that carry a key, with kind 6 in it.
fn keyed(key: Key) -> Vec<Message> {
    let all = one_of_each(key);
    [&all[..7], &all[8..10]].concat()
}

#[test]
fn a_path_above_zone_11_is_3_for_every_message_of_kind_6() {
    let mut book = with(staged(VIRTUAL, 1));
    for path in [0, 12, 13, 999, 1_000, u64::MAX] {
        let far = Key { path, ..KEY };
        let sides = one_of_each(far)[11..].to_vec();
        for message in keyed(far).into_iter().chain(sides) {
            let refusal = turn_away(&mut book, message, MWH, PRICES);
            assert_eq!(refusal, Refusal::Path, "{message:?}");
            // 3 stands before 4.
            let refusal = turn_away(
                &mut book,
                pay(Key {
                    hour: 1 << 40,
                    ..far
                }),
                &[],
                &[],
            );
            assert_eq!(refusal, Refusal::Path);
        }
    }
    for path in [1, 11] {
        let free = Key { path, ..KEY };
        for message in keyed(free) {
            let refusal = turn_away(&mut book, message, MWH, PRICES);
            assert!([5, 11].contains(&refusal.number()), "{message:?}");
        }
    }
}

#[test]
fn the_other_kinds_keep_their_999_paths() {
    for kind in 1..=4 {
        for path in [12, 999] {
            let key = Key { path, ..key(kind) };
            take(&mut wide(), open(key, 0, false), MWH, PRICES);
        }
    }
    let key = Key {
        path: 999,
        ..key(QUARTER_HOUR_EXPORT)
    };
    take(&mut wide(), open_curves(key, [1, 0, 0, 0]), MWH, PRICES);
}

#[test]
fn one_curve_or_four_for_kind_6_are_5() {
    // Whatever stands in the lists, beside them, and in the book.
    let lists: [(&[u64], &[i64]); 4] = [
        (&[10], &[1_000]),
        (&[], &[]),
        (&[1, 2], &[1]),
        (&[u64::MAX], &[i64::MIN]),
    ];
    let books = [
        wide(),
        fresh(0),
        with(staged(VIRTUAL, 1)),
        with(staged(VIRTUAL, 2)),
        with(staged(VIRTUAL, 4)),
    ];
    for mut book in books {
        for (mwh, prices) in lists {
            let messages = [
                open(KEY, 0, false),
                open(KEY, u64::MAX, true),
                revise(KEY, 0, false),
                revise(KEY, u64::MAX, true),
                open_curves(KEY, [1, 0, 0, 0]),
                open_curves(KEY, [0; 4]),
                revise_curves(KEY, [1, 0, 0, 0]),
                revise_curves(KEY, [u64::MAX; 4]),
            ];
            for message in messages {
                let refusal = turn_away(&mut book, message, mwh, prices);
                assert_eq!(refusal, Refusal::Points, "{message:?}");
            }
        }
    }
}

#[test]
fn one_curve_or_four_for_kind_6_are_5_after_1_3_and_4() {
    let mut book = wide();
    book.support = -1;
    let far = Key {
        path: 12,
        hour: 1_000_000,
        ..KEY
    };
    let messages = |key| {
        [
            open(key, u64::MAX, false),
            revise(key, u64::MAX, false),
            open_curves(key, [65; 4]),
            revise_curves(key, [65; 4]),
        ]
    };
    let all_answer = |book: &mut Book, key, number| {
        for message in messages(key) {
            assert_eq!(turn_away(book, message, &[], &[1]).number(), number);
        }
    };
    all_answer(&mut book, far, 1);
    book.support = 0;
    all_answer(&mut book, far, 3);
    all_answer(&mut book, Key { path: 11, ..far }, 4);
    all_answer(&mut book, Key { path: 11, ..KEY }, 5);
}

#[test]
fn post_and_finish_of_kind_6_are_12_after_6_7_and_11() {
    for message in [post, finish] {
        let number = |book: &Book, mwh, first, second| {
            let message = message(KEY, mwh, first, second);
            turn_away(&mut book.clone(), message, &[], &[]).number()
        };
        let empty = wide();
        assert_eq!(number(&empty, 640_001, 1_000_001, 1), 6);
        assert_eq!(number(&empty, 640_000, 1_000_001, 0), 7);
        assert_eq!(number(&empty, 640_000, 0, 1), 7);
        assert_eq!(number(&empty, 640_000, 0, 0), 11);
        for stage in [1, 2, 4] {
            let book = with(staged(VIRTUAL, stage));
            assert_eq!(number(&book, 640_001, 0, 1), 6);
            assert_eq!(number(&book, 1, -1_000_001, 0), 7);
            assert_eq!(number(&book, 1, 0, -1), 7);
            // 12 and not 13, with a schedule above either side.
            for mwh in [0, 10, 11, 20, 21, 10_001, 640_000] {
                assert_eq!(number(&book, mwh, -7, 0), 12);
            }
        }
    }
}

#[test]
fn a_close_concerns_kind_5_only() {
    let mut book = wide();
    open_example(&mut book, KEY);
    for paths in [&[7][..], &[]] {
        let prices = vec![1; 4 * paths.len()];
        let refusal = turn_away(&mut book, close(100), paths, &prices);
        assert_eq!(refusal, Refusal::KeyNotOpen);
    }
    let pending = key(QUARTER_HOUR_EXPORT);
    take(&mut book, open_curves(pending, [1, 0, 0, 0]), &[40], &[1]);
    let answer = book.apply(close(100), &[7], &[10; 4]);
    assert_eq!(answer, accepted(100, 700, 0));
    assert_eq!(record(&book, KEY).stage, 1);
    // A batch that is removed leaves it too.
    let later = Key { path: 8, ..pending };
    take(&mut book, open_curves(later, [1, 0, 0, 0]), &[40], &[1]);
    send(&mut book, support(700));
    assert_eq!(book.apply(close(100), &[8], &[1; 4]), removed(700, 0));
    assert!(is_open(&book, KEY));
}

#[test]
fn kind_6_stands_apart_from_the_other_kinds_of_its_path_and_hour() {
    let mut book = wide();
    for kind in 1..=4 {
        take(&mut book, open(key(kind), 0, false), MWH, PRICES);
    }
    let pending = key(QUARTER_HOUR_EXPORT);
    take(&mut book, open_curves(pending, [1, 0, 0, 0]), &[40], &[1]);
    let revision = revise_sides(KEY, (1, 1), (1, 1));
    for message in [revision, post_sides(KEY, 0, 0)] {
        let refusal = turn_away(&mut book, message, &[], &[]);
        assert_eq!(refusal, Refusal::KeyNotOpen);
    }
    open_example(&mut book, KEY);
    let refusal = turn_away(&mut book, open_sides(KEY, (0, 0), (0, 0)), &[], &[]);
    assert_eq!(refusal, Refusal::KeyAlreadyOpen);
    let before = book.clone();
    send(&mut book, post_sides(KEY, 10, 0));
    for place in 0..5 {
        assert_eq!(book.records[place], before.records[place]);
    }
    assert_eq!(book.records[5].stage, 2);
}

#[test]
fn zones_and_hours_stand_apart() {
    let mut book = wide();
    let others = [Key { path: 8, ..KEY }, Key { hour: 101, ..KEY }];
    open_example(&mut book, KEY);
    for other in others {
        let refusal = turn_away(&mut book, post_sides(other, 0, 0), &[], &[]);
        assert_eq!(refusal, Refusal::KeyNotOpen);
        open_example(&mut book, other);
    }
    send(&mut book, post_sides(others[0], 10, 20));
    assert_eq!(record(&book, KEY).stage, 1);
    assert_eq!(record(&book, others[0]).requirement, 300);
    assert_eq!(record(&book, others[1]).stage, 1);
    // Load of one zone does not go against supply of another.
    assert_eq!(book.held(), 600 + 300 + 600);
}

#[test]
fn held_and_net_owed_count_kind_6_among_others() {
    let mut book = wide();
    take(&mut book, open(key(EXPORT), 0, false), MWH, PRICES);
    owe(&mut book, key_no(HOUR_AHEAD_EXPORT, 1), 500);
    let answer = book.apply(open_sides(KEY, (10, 50), (20, 30)), &[], &[]);
    assert_eq!(answer, accepted(600, 11_100, 500));
    let answer = book.apply(post_sides(KEY, 10, 20), &[], &[]);
    assert_eq!(answer, accepted(300, 10_800, 500));
    let answer = book.apply(bill(KEY, -200), &[], &[]);
    assert_eq!(answer, accepted(-200, 10_300, 300));
    let answer = book.apply(pay(key_no(HOUR_AHEAD_EXPORT, 1)), &[], &[]);
    assert_eq!(answer, accepted(0, 9_800, -200));
    let answer = book.apply(pay(KEY), &[], &[]);
    assert_eq!(answer, accepted(0, 10_000, 0));
    assert_eq!(Book::rebuilt(book.support, book.records), book);
}

#[test]
fn a_bill_of_kind_6_may_suspend_the_book() {
    for (owed, suspended) in [(499, false), (500, true)] {
        let mut book = fresh(1_000);
        open_example(&mut book, KEY);
        send(&mut book, post_sides(KEY, 10, 20));
        assert!(!book.is_suspended());
        let answer = book.apply(bill(KEY, owed), &[], &[]);
        assert_eq!(answer, accepted(owed, owed, owed));
        assert_eq!(book.is_suspended(), suspended);
        let other = open_sides(zone_no(0), (0, 0), (0, 0));
        let number = book.apply(other, &[], &[]).number();
        assert_eq!(number, if suspended { 14 } else { 0 });
    }
}

#[test]
fn a_suspended_book_takes_no_open_and_no_revise_of_sides() {
    let (mut book, posted) = (fresh(2_000), zone_no(0));
    open_example(&mut book, KEY);
    open_example(&mut book, posted);
    owe(&mut book, key_no(HOUR_AHEAD_EXPORT, 1), 1_000);
    assert!(book.is_suspended());
    let nothing = (0, 0);
    for message in [
        open_sides(zone_no(1), nothing, nothing),
        revise_sides(KEY, nothing, nothing),
    ] {
        let refusal = turn_away(&mut book, message, &[], &[]);
        assert_eq!(refusal, Refusal::Suspended);
    }
    // It takes every other message.
    send(&mut book, withdraw(KEY));
    assert_eq!(send(&mut book, post_sides(posted, 0, 20)), 600);
    send(&mut book, bill(posted, 5));
    send(&mut book, pay(posted));
    assert!(book.is_suspended());
}

#[test]
fn a_bill_below_0_makes_room_for_sides() {
    let mut book = fresh(600);
    owe(&mut book, key(HOUR_AHEAD_EXPORT), -1);
    let answer = book.apply(open_sides(KEY, (0, 0), (1, 601)), &[], &[]);
    assert_eq!(answer, accepted(601, 600, -1));
}

#[test]
fn a_full_book_takes_no_open_of_sides() {
    let mut book = wide();
    for number in 0..256 {
        open_example(&mut book, zone_no(number));
    }
    assert_eq!(book.held(), 256 * 600);
    assert!(book.is_sound());
    let one_more = open_sides(zone_no(256), (0, 0), (0, 0));
    let refusal = turn_away(&mut book, one_more, &[], &[]);
    assert_eq!(refusal, Refusal::BookFull);
    let twice = open_sides(zone_no(255), (0, 0), (0, 0));
    let refusal = turn_away(&mut book, twice, &[], &[]);
    assert_eq!(refusal, Refusal::KeyAlreadyOpen);
    let refusal = turn_away(&mut book, open(key(WHEEL), 0, false), MWH, PRICES);
    assert_eq!(refusal, Refusal::BookFull);
    // A full book still takes other messages, and freed places are used again.
    send(&mut book, revise_sides(zone_no(255), (1, 1), (1, 1)));
    send(&mut book, post_sides(zone_no(17), 10, 20));
    send(&mut book, bill(zone_no(17), 0));
    send(&mut book, pay(zone_no(17)));
    send(&mut book, one_more);
    assert_eq!(book.records[17].key, zone_no(256));
    assert_eq!(book.records[17].supply, Supply::NONE);
}

#[test]
fn the_largest_book_of_virtual_bids() {
    let (mut book, most) = (wide(), (10_000, 1_000_000));
    for number in 0..256 {
        send(&mut book, open_sides(zone_no(number), most, most));
    }
    assert_eq!(book.held(), 2_560_000_000_000);
    for number in 0..256 {
        send(&mut book, post_sides(zone_no(number), 0, 10_000));
    }
    assert_eq!(book.held(), 2_560_000_000_000);
    for number in 0..256 {
        send(&mut book, bill(zone_no(number), 1_000_000_000_000));
    }
    let all = 256_000_000_000_000;
    assert_eq!(book.apply(support(1), &[], &[]), accepted(0, all, all));
    assert!(book.is_sound());
}
