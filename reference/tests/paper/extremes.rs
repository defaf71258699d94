//! The ends of the types, and the largest amounts within the ranges.

use crate::helpers::*;
use reference::book::Supply;
use reference::{Book, Key, Message, Record, Refusal};

const UNSIGNED: [u64; 6] = [0, 1, 4, i64::MAX as u64, i64::MAX as u64 + 1, u64::MAX];
const SIGNED: [i64; 5] = [i64::MIN, -1, 0, 1, i64::MAX];

fn keys() -> Vec<Key> {
    let mut keys = Vec::new();
    for kind in UNSIGNED {
        for path in UNSIGNED {
            for hour in UNSIGNED {
                keys.push(Key { kind, path, hour });
            }
        }
    }
    keys
}

/// Every message made of the ends of the types.
fn messages() -> Vec<Message> {
    let mut messages = Vec::new();
    for key in keys() {
        messages.push(withdraw(key));
        messages.push(pay(key));
        for number in UNSIGNED {
            messages.push(open(key, number, true));
            messages.push(revise(key, number, false));
            for first in SIGNED {
                for second in SIGNED {
                    messages.push(post(key, number, first, second));
                    messages.push(finish(key, number, first, second));
                }
            }
        }
        messages.extend(SIGNED.map(|amount| bill(key, amount)));
    }
    messages.extend(SIGNED.map(support));
    messages.extend(messages_with_sides());
    messages
}

/// The same of the messages with two sides.
fn messages_with_sides() -> Vec<Message> {
    let mut messages = Vec::new();
    for key in keys().into_iter().filter(|key| key.kind == 0) {
        for first in UNSIGNED {
            for second in UNSIGNED {
                messages.push(open_sides(key, (first, second), (second, first)));
                messages.push(open_sides(key, (first, 1), (1, second)));
                messages.push(revise_sides(key, (first, second), (1, 1)));
                messages.push(revise_sides(key, (1, 1), (first, second)));
                messages.push(post_sides(key, first, second));
            }
        }
    }
    messages
}

/// Sends a message and checks what holds of any book and any answer.
fn try_on(book: &Book, message: Message, mwh: &[u64], prices: &[i64]) {
    let mut next = book.clone();
    let answer = next.apply(message, mwh, prices);
    if answer.refusal.is_some() {
        assert_eq!(next, *book);
        assert_eq!(answer.requirement, 0);
    }
    assert_eq!(next.is_sound(), book.is_sound());
    assert_eq!(answer.number() == 1, !book.is_sound());
}

#[test]
fn a_sound_book_answers_messages_of_extreme_values() {
    let open_key = Key {
        kind: WHEEL,
        path: 1,
        hour: 1,
    };
    let book = with(Record {
        key: open_key,
        ..staged(WHEEL, 1)
    });
    for message in messages() {
        try_on(&book, message, &[u64::MAX; 2], &[i64::MIN; 2]);
        try_on(&book, message, &[1], &[i64::MAX]);
        try_on(&book, message, &[1], &[1]);
    }
}

#[test]
fn a_book_with_a_virtual_bid_answers_messages_of_extreme_values() {
    let open_key = Key {
        kind: VIRTUAL,
        path: 1,
        hour: 1,
    };
    for stage in [1, 2, 4] {
        let book = with(Record {
            key: open_key,
            ..staged(VIRTUAL, stage)
        });
        for message in messages_with_sides() {
            try_on(&book, message, &[u64::MAX; 2], &[i64::MIN; 3]);
        }
    }
}

#[test]
fn an_unsound_book_of_extreme_values_answers_1() {
    for number in [1, u64::MAX] {
        for amount in [i64::MIN, i64::MAX] {
            let record = Record {
                key: Key {
                    kind: number,
                    path: number,
                    hour: number,
                },
                stage: 4,
                bid_mwh: number,
                differential: number,
                exempt: true,
                schedule: number,
                day_ahead_price: amount,
                requirement: amount,
                intervals: [number; 4],
                supply: Supply {
                    mwh: number,
                    differential: number,
                    schedule: number,
                },
            };
            let mut book = wide();
            book.records = [record; 256];
            book.support = amount;
            book.held = amount;
            book.net_owed = amount;
            assert_eq!(book.held(), amount);
            assert_eq!(book.net_owed(), amount);
            assert_eq!(book.is_suspended(), amount > 0);
            for message in one_of_each(record.key) {
                let refusal = turn_away(&mut book, message, &[number], &[amount]);
                assert_eq!(refusal, Refusal::BookNotSound);
            }
        }
    }
}

#[test]
fn the_largest_bids() {
    let (mwh, prices) = ([10_000; 64], [1_000_000; 64]);
    let answer = wide().apply(open(key(IMPORT), 1_000_000, false), &mwh, &prices);
    assert_eq!(answer.requirement, 10_000_000_000);
    let answer = wide().apply(open(key(EXPORT), 1_000_000, false), &mwh, &prices);
    assert_eq!(answer.requirement, 640_000_000_000);
    let answer = wide().apply(open(key(HOUR_AHEAD_EXPORT), 0, false), &mwh, &prices);
    assert_eq!(answer.requirement, 640_000_000_000);
    let answer = wide().apply(open(key(WHEEL), 0, false), &mwh, &[-1_000_000; 64]);
    assert_eq!(answer.requirement, 10_000_000_000);
    let side = (10_000, 1_000_000);
    for (load, supply) in [(side, side), (side, (0, 0)), ((0, 0), side)] {
        let answer = wide().apply(open_sides(key(VIRTUAL), load, supply), &[], &[]);
        assert_eq!(answer.requirement, 10_000_000_000);
    }
}

/// The finished amount and whether the book is sound with it.
fn finished(record: Record, actual: u64, first: i64, second: i64) -> i64 {
    let mut book = with(record);
    assert!(book.is_sound());
    let requirement = send(&mut book, finish(record.key, actual, first, second));
    assert!(book.is_sound());
    requirement
}

#[test]
fn the_largest_finished_amounts_stay_sound() {
    let wheel = Record {
        bid_mwh: 10_000,
        requirement: 20_000_000_000,
        ..staged(WHEEL, 2)
    };
    let most = finished(wheel, 640_000, 1_000_000, -1_000_000);
    assert_eq!(most, 1_300_000_000_000);
    let wheel = Record {
        schedule: 10_000,
        requirement: 0,
        ..wheel
    };
    let least = finished(wheel, 0, 1_000_000, -1_000_000);
    assert_eq!(least, -20_000_000_000);
    let export = Record {
        bid_mwh: 640_000,
        requirement: 640_000_000_000,
        ..staged(EXPORT, 2)
    };
    let most = finished(export, 640_000, 1_000_000, 0);
    assert_eq!(most, 1_280_000_000_000);
    let export = Record {
        schedule: 640_000,
        requirement: 0,
        ..export
    };
    assert_eq!(finished(export, 0, 1_000_000, 0), -640_000_000_000);
    assert_eq!(finished(export, 0, -1_000_000, 0), 640_000_000_000);
    let import = Record {
        bid_mwh: 10_000,
        schedule: 10_000,
        day_ahead_price: -1_000_000,
        ..staged(IMPORT, 2)
    };
    let most = finished(import, 640_000, -1_000_000, 0);
    assert_eq!(most, 640_000_000_000);
    // The least balancing payment, -630,000,000,000, less -10,000,000,000.
    let least = finished(import, 640_000, 1_000_000, 0);
    assert_eq!(least, 0);
}

#[test]
fn a_book_of_256_largest_records() {
    let mut book = wide();
    for (number, record) in book.records.iter_mut().enumerate() {
        *record = Record {
            key: key_no(WHEEL, number as u64),
            requirement: 1_300_000_000_000,
            ..staged(WHEEL, 3)
        };
    }
    total(&mut book);
    let answer = book.apply(support(0), &[], &[]);
    assert_eq!(answer, accepted(0, 332_800_000_000_000, 0));
    for number in 0..256 {
        send(&mut book, bill(key_no(WHEEL, number), 1_000_000_000_000));
    }
    let answer = book.apply(support(MOST_SUPPORT), &[], &[]);
    assert_eq!(
        answer,
        accepted(0, 256_000_000_000_000, 256_000_000_000_000)
    );
    assert!(!book.is_suspended());
}
