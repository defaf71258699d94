//! "Checked in this order; the first that applies is given": a message to
//! which every refusal of its kind applies, put right one by one.

use crate::helpers::*;
use reference::{Book, Key, Message, Record};

/// A book that is full, suspended, above its support and unsound.
fn worst_book() -> Book {
    let mut book = wide();
    for (number, record) in book.records.iter_mut().enumerate() {
        *record = Record {
            key: key_no(EXPORT, number as u64),
            stage: 1,
            bid_mwh: 10,
            requirement: 1,
            ..Record::FREE
        };
    }
    book.records[0].stage = 4;
    book.records[0].requirement = 100;
    book.support = -1;
    total(&mut book);
    book
}

/// A message in the making, wrong in every way at first.
#[derive(Clone)]
struct Draft {
    key: Key,
    mwh: Vec<u64>,
    prices: Vec<i64>,
    differential: u64,
    quantity: u64,
    first_price: i64,
    second_price: i64,
    amount: i64,
}

impl Draft {
    fn worst() -> Draft {
        Draft {
            key: Key {
                kind: 7,
                path: 0,
                hour: 1_000_000,
            },
            mwh: vec![1, 10_001],
            prices: vec![1_000_001],
            differential: 1_000_001,
            quantity: 640_001,
            first_price: 0,
            second_price: 1,
            amount: i64::MAX,
        }
    }

    fn open(&self) -> Message {
        open(self.key, self.differential, false)
    }

    fn revise(&self) -> Message {
        revise(self.key, self.differential, false)
    }

    fn post(&self) -> Message {
        post(self.key, self.quantity, self.first_price, self.second_price)
    }

    fn finish(&self) -> Message {
        finish(self.key, self.quantity, self.first_price, self.second_price)
    }

    fn bill(&self) -> Message {
        bill(self.key, self.amount)
    }

    fn withdraw(&self) -> Message {
        withdraw(self.key)
    }

    fn pay(&self) -> Message {
        pay(self.key)
    }

    fn support(&self) -> Message {
        support(self.amount)
    }
}

/// One wrong put right: the refusal met before it, and how to mend it.
type Step = (u64, fn(&mut Book, &mut Draft));

const SOUND: Step = (1, |book, _| book.support = 100);
const KIND: Step = (2, |_, draft| draft.key.kind = EXPORT);
const PATH: Step = (3, |_, draft| draft.key.path = 8);
const HOUR: Step = (4, |_, draft| draft.key.hour = 1);
const POINTS: Step = (5, |_, draft| draft.prices.push(-1_000_001));
const POINT_MWH: Step = (6, |_, draft| draft.mwh[1] = 10_000);
const QUANTITY: Step = (6, |_, draft| draft.quantity = 11);
const POINT_PRICES: Step = (7, |_, draft| draft.prices = vec![1_000, 1_000]);
const TWO_PRICES: Step = (7, |_, draft| draft.second_price = 0);
const DIFFERENTIAL: Step = (8, |_, draft| draft.differential = 0);
const AMOUNT: Step = (9, |_, draft| draft.amount = 50);
const ALREADY_OPEN: Step = (10, |_, draft| draft.key.hour = 1000);
const SCHEDULE: Step = (13, |_, draft| draft.quantity = 10);
const UNSUSPEND: Step = (14, |book, _| book.records[0].requirement = 49);
const FULL: Step = (15, |book, _| book.records[200] = Record::FREE);
const ABOVE: Step = (16, |book, _| book.support = MOST_SUPPORT);

/// Lets the key's hour miss every record until refusal 11 is met.
const HOUR_NOT_OPEN: Step = (4, |_, draft| draft.key.hour = 1000);
const NOT_OPEN: Step = (11, |_, draft| draft.key.hour = 1);

/// Moves the wrong stage of the record of hour 1 to the one needed.
const TO_STAGE_1: Step = (12, |book, _| book.records[1].stage = 1);
const TO_STAGE_2: Step = (12, |book, _| book.records[1].stage = 2);
const TO_STAGE_3: Step = (12, |book, _| book.records[1].stage = 3);
const TO_STAGE_4: Step = (12, |book, _| book.records[1].stage = 4);

/// Meets the refusals of the steps one after the other, then acceptance.
fn peel(message: fn(&Draft) -> Message, stage: u64, steps: &[Step]) {
    let (mut book, mut draft) = (worst_book(), Draft::worst());
    book.records[1].stage = stage;
    total(&mut book);
    for &(number, mend) in steps {
        let refusal = turn_away(&mut book, message(&draft), &draft.mwh, &draft.prices);
        assert_eq!(refusal.number(), number);
        mend(&mut book, &mut draft);
        total(&mut book);
    }
    take(&mut book, message(&draft), &draft.mwh, &draft.prices);
}

#[test]
fn open_in_order() {
    peel(
        Draft::open,
        1,
        &[
            SOUND,
            KIND,
            PATH,
            HOUR,
            POINTS,
            POINT_MWH,
            POINT_PRICES,
            DIFFERENTIAL,
            ALREADY_OPEN,
            UNSUSPEND,
            FULL,
            ABOVE,
        ],
    );
}

#[test]
fn revise_in_order() {
    peel(
        Draft::revise,
        2,
        &[
            SOUND,
            KIND,
            PATH,
            HOUR_NOT_OPEN,
            POINTS,
            POINT_MWH,
            POINT_PRICES,
            DIFFERENTIAL,
            NOT_OPEN,
            TO_STAGE_1,
            UNSUSPEND,
            ABOVE,
        ],
    );
}

#[test]
fn withdraw_in_order() {
    let steps = [SOUND, KIND, PATH, HOUR_NOT_OPEN, NOT_OPEN, TO_STAGE_1];
    peel(Draft::withdraw, 3, &steps);
}

#[test]
fn post_in_order() {
    let steps = [
        SOUND,
        KIND,
        PATH,
        HOUR_NOT_OPEN,
        QUANTITY,
        TWO_PRICES,
        NOT_OPEN,
        TO_STAGE_1,
        SCHEDULE,
    ];
    peel(Draft::post, 2, &steps);
}

#[test]
fn finish_in_order() {
    let steps = [
        SOUND,
        KIND,
        PATH,
        HOUR_NOT_OPEN,
        QUANTITY,
        TWO_PRICES,
        NOT_OPEN,
        TO_STAGE_2,
    ];
    peel(Draft::finish, 1, &steps);
}

#[test]
fn bill_in_order() {
    let steps = [
        SOUND,
        KIND,
        PATH,
        HOUR_NOT_OPEN,
        AMOUNT,
        NOT_OPEN,
        TO_STAGE_3,
    ];
    peel(Draft::bill, 1, &steps);
}

#[test]
fn pay_in_order() {
    let steps = [SOUND, KIND, PATH, HOUR_NOT_OPEN, NOT_OPEN, TO_STAGE_4];
    peel(Draft::pay, 1, &steps);
}

#[test]
fn support_in_order() {
    peel(Draft::support, 1, &[SOUND, AMOUNT]);
}

#[test]
fn a_point_with_both_values_wrong_is_6_whatever_the_order_of_points() {
    let mut book = wide();
    for (mwh, prices) in [
        (vec![1, 10_001], vec![1_000_001, 1]),
        (vec![10_001, 1], vec![1, 1_000_001]),
        (vec![10_001], vec![1_000_001]),
    ] {
        let refusal = turn_away(&mut book, open(key(IMPORT), 0, false), &mwh, &prices);
        assert_eq!(refusal.number(), 6);
    }
}

#[test]
fn a_wrong_second_price_of_kind_3_is_7_before_12_and_11() {
    let message = post(key(HOUR_AHEAD_EXPORT), 0, 0, 1);
    let mut book = wide();
    assert_eq!(turn_away(&mut book, message, &[], &[]).number(), 7);
    let mut book = with(staged(HOUR_AHEAD_EXPORT, 1));
    assert_eq!(turn_away(&mut book, message, &[], &[]).number(), 7);
}

#[test]
fn posting_kind_3_is_11_while_its_key_is_not_open() {
    let message = post(key(HOUR_AHEAD_EXPORT), 0, 0, 0);
    assert_eq!(turn_away(&mut wide(), message, &[], &[]).number(), 11);
}
