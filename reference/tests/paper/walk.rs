//! A long walk of mixed messages: what holds after every one of them.

use crate::helpers::*;
use reference::{Answer, Book, Key, Message, Record};

/// A small generator of repeatable numbers.
struct Numbers(u64);

impl Numbers {
    fn below(&mut self, end: u64) -> u64 {
        self.0 = self
            .0
            .wrapping_mul(6_364_136_223_846_793_005)
            .wrapping_add(1_442_695_040_888_963_407);
        (self.0 >> 33) % end
    }

    fn price(&mut self) -> i64 {
        self.below(4001) as i64 - 2000
    }

    fn second_price(&mut self, kind: u64) -> i64 {
        if kind == WHEEL || self.below(20) == 0 {
            self.price()
        } else {
            0
        }
    }

    fn key(&mut self) -> Key {
        Key {
            kind: 1 + self.below(4),
            path: 1 + self.below(4),
            hour: self.below(25),
        }
    }

    fn message(&mut self) -> Message {
        let key = self.key();
        let differential = if key.kind <= EXPORT {
            self.below(3000)
        } else {
            self.below(12) / 11
        };
        let exempt = self.below(4) == 0;
        match self.below(20) {
            0..=8 => open(key, differential, exempt),
            9 => revise(key, differential, exempt),
            10 => withdraw(key),
            11..=12 => post(
                key,
                self.below(40),
                self.price(),
                self.second_price(key.kind),
            ),
            13..=15 => finish(
                key,
                self.below(60),
                self.price(),
                self.second_price(key.kind),
            ),
            16 => bill(key, self.below(40_000) as i64 - 18_000),
            17..=18 => pay(key),
            _ => support(self.below(6_000_000) as i64),
        }
    }

    fn curve(&mut self) -> (Vec<u64>, Vec<i64>) {
        let count = 1 + self.below(5);
        (0..count).map(|_| (self.below(40), self.price())).unzip()
    }
}

/// What must hold between a book, the answer and the next book.
fn check_step(before: &Book, message: Message, after: &Book, number: u64) {
    assert!(after.is_sound(), "{message:?}");
    if number != 0 {
        assert_eq!(before, after, "{message:?}");
        return;
    }
    let changed = (0..256).filter(|&place| before.records[place] != after.records[place]);
    match message {
        Message::Support(_) => assert_eq!(changed.count(), 0),
        _ => {
            assert!(changed.count() <= 1);
            assert_eq!(before.support, after.support);
        }
    }
    if let Message::Open(_) = message {
        assert!(after.held() <= after.support);
        assert!(!before.is_suspended());
    }
}

#[test]
fn every_step_keeps_the_book_sound() {
    let mut numbers = Numbers(1);
    let mut met = [0_u32; 19];
    for _ in 0..20 {
        let mut book = fresh(5_000_000);
        for _ in 0..3000 {
            let message = numbers.message();
            let (mwh, prices) = numbers.curve();
            let before = book.clone();
            let answer = book.apply(message, &mwh, &prices);
            check_step(&before, message, &book, answer.number());
            assert_eq!(answer.held, sum(&book, |_| true));
            assert_eq!(answer.net_owed, sum(&book, |record| record.stage == 4));
            assert_eq!(
                (book.held(), book.net_owed()),
                (answer.held, answer.net_owed)
            );
            assert_eq!(Book::rebuilt(book.support, book.records), book);
            met[answer.number() as usize] += 1;
        }
    }
    for number in [0, 7, 8, 10, 11, 12, 13, 14, 16] {
        assert!(met[number] > 0, "refusal {number} was never met: {met:?}");
    }
}

impl Numbers {
    /// A message of order 3, with its two lists; closes mostly list what is
    /// pending.
    fn of_order_3(&mut self, book: &Book) -> (Message, Vec<u64>, Vec<i64>) {
        let key = Key {
            kind: QUARTER_HOUR_EXPORT,
            hour: self.below(6),
            ..self.key()
        };
        let counts = [0; 4].map(|_| self.below(4));
        let points = counts.iter().sum::<u64>() as usize;
        let message = match self.below(12) {
            0..=4 => open_curves(key, counts),
            5 => revise_curves(key, counts),
            6 => withdraw(key),
            7 => finish(key, self.below(60), self.price(), 0),
            8 => bill(key, self.below(40_000) as i64 - 18_000),
            9 => pay(key),
            10 => support(self.below(40_000) as i64),
            _ => return self.close_of(book, key.hour),
        };
        let mwh = (0..points).map(|_| self.below(40)).collect();
        let prices = (0..points).map(|_| self.price()).collect();
        (message, mwh, prices)
    }

    fn close_of(&mut self, book: &Book, hour: u64) -> (Message, Vec<u64>, Vec<i64>) {
        let mut paths: Vec<u64> = pending(book, hour).map(|record| record.key.path).collect();
        match self.below(8) {
            0 => drop(paths.pop()),
            1 => paths.push(1 + self.below(4)),
            2 => paths.reverse(),
            _ => {}
        }
        let prices = paths.iter().flat_map(|_| [0; 4]).map(|_| self.price());
        let prices = prices.collect();
        (close(hour), paths, prices)
    }
}

fn pending(book: &Book, hour: u64) -> impl Iterator<Item = &Record> {
    book.records.iter().filter(move |record| {
        (record.key.kind, record.key.hour, record.stage) == (QUARTER_HOUR_EXPORT, hour, 1)
    })
}

/// What a close that is accepted leaves: no pending bid of its hour, and every
/// other record as it was.
fn check_close(before: &Book, hour: u64, after: &Book, answer: &Answer) {
    assert_eq!(pending(after, hour).count(), 0);
    for (old, new) in before.records.iter().zip(&after.records) {
        let batched = pending(before, hour).any(|record| record == old);
        match (batched, answer.removed) {
            (false, _) => assert_eq!(old, new),
            (true, true) => assert!(new.is_free()),
            (true, false) => {
                let closed = Record {
                    stage: 2,
                    requirement: new.requirement,
                    ..*old
                };
                assert_eq!(*new, closed);
            }
        }
    }
    if answer.removed {
        assert_eq!(after.held(), before.held());
    } else {
        assert_eq!(after.held(), before.held() + answer.requirement);
        assert!(after.held() <= after.support);
    }
}

#[test]
fn every_step_of_order_3_keeps_the_book_sound() {
    let mut numbers = Numbers(3);
    let (mut kept, mut removed, mut met) = (0, 0, [0_u32; 19]);
    for _ in 0..20 {
        let mut book = fresh(50_000);
        for _ in 0..3000 {
            let (message, listed, prices) = numbers.of_order_3(&book);
            let before = book.clone();
            let answer = book.apply(message, &listed, &prices);
            assert!(book.is_sound(), "{message:?}");
            assert_eq!(answer.held, sum(&book, |_| true));
            assert_eq!(answer.net_owed, sum(&book, |record| record.stage == 4));
            met[answer.number() as usize] += 1;
            match (message, answer.number()) {
                (Message::Close(closing), 0) => {
                    check_close(&before, closing.hour, &book, &answer);
                    removed += u32::from(answer.removed);
                    kept += u32::from(!answer.removed);
                }
                (_, 0) => assert!(!answer.removed),
                _ => assert_eq!(before, book, "{message:?}"),
            }
        }
    }
    assert!(
        kept > 100 && removed > 100,
        "{kept} kept, {removed} removed"
    );
    for number in [0, 5, 10, 11, 12, 14] {
        assert!(met[number] > 0, "refusal {number} was never met: {met:?}");
    }
    assert_eq!(met[16], 0);
}

impl Numbers {
    /// A message of order 6: few keys, so that each is met often.
    fn of_order_6(&mut self) -> Message {
        let key = Key {
            kind: VIRTUAL,
            path: 1 + self.below(12),
            hour: self.below(3),
        };
        let mut side = || (self.below(40), self.below(50));
        let (load, supply) = (side(), side());
        match self.below(16) {
            0..=4 => open_sides(key, load, supply),
            5..=6 => revise_sides(key, load, supply),
            7 => withdraw(key),
            8..=10 => post_sides(key, load.0 / 2, supply.0 / 2),
            11 => finish(key, load.0, self.price(), 0),
            12 => post(key, load.0, self.price(), 0),
            13 => bill(key, self.below(4_000) as i64 - 1_800),
            14 => pay(key),
            _ => support(self.below(30_000) as i64),
        }
    }
}

/// What the record of an accepted message is: of open and revise its sides, of
/// post and bill those that were bid.
fn check_sides(before: &Book, message: Message, after: &Book) {
    let of = |book: &Book, zone, hour| {
        let key = Key {
            kind: VIRTUAL,
            path: zone,
            hour,
        };
        record(book, key)
    };
    match message {
        Message::OpenSides(sides) | Message::ReviseSides(sides) => {
            let new = of(after, sides.zone, sides.hour);
            assert_eq!(new.bid_mwh, sides.load.mwh);
            assert_eq!(new.supply.mwh, sides.supply.mwh);
            assert_eq!((new.stage, new.schedule, new.supply.schedule), (1, 0, 0));
        }
        Message::PostSides(posting) => {
            let (zone, hour) = (posting.zone, posting.hour);
            let old = of(before, zone, hour);
            let mut expected = Record {
                stage: 2,
                schedule: posting.load,
                requirement: of(after, zone, hour).requirement,
                ..old
            };
            expected.supply.schedule = posting.supply;
            assert_eq!(of(after, zone, hour), expected);
            assert!(expected.requirement <= old.requirement);
        }
        Message::Bill(bill) => {
            let expected = Record {
                stage: 4,
                requirement: bill.amount,
                ..record(before, bill.key)
            };
            assert_eq!(record(after, bill.key), expected);
        }
        _ => {}
    }
}

#[test]
fn every_step_of_order_6_keeps_the_book_sound() {
    let mut numbers = Numbers(6);
    let mut met = [0_u32; 19];
    for _ in 0..10 {
        let mut book = fresh(20_000);
        for _ in 0..3000 {
            let message = numbers.of_order_6();
            let before = book.clone();
            let answer = book.apply(message, &[], &[]);
            check_step(&before, message, &book, answer.number());
            assert_eq!(answer.held, sum(&book, |_| true));
            assert_eq!(answer.net_owed, sum(&book, |record| record.stage == 4));
            assert_eq!(Book::rebuilt(book.support, book.records), book);
            if answer.number() == 0 {
                check_sides(&before, message, &book);
            }
            met[answer.number() as usize] += 1;
        }
    }
    for number in [0, 3, 10, 11, 12, 13, 14, 16] {
        assert!(met[number] > 0, "refusal {number} was never met: {met:?}");
    }
}
