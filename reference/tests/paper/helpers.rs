//! Short ways to say a message and to expect an answer.

use reference::book::{
    Bill, Closing, Curves, Finish, Opening, Payment, Posting, Revision, Side, Sides, SidesPosting,
    Supply, Support, Withdrawal,
};
use reference::{Answer, Book, Key, Message, Record, Refusal};

pub const IMPORT: u64 = 1;
pub const EXPORT: u64 = 2;
pub const HOUR_AHEAD_EXPORT: u64 = 3;
pub const WHEEL: u64 = 4;
pub const QUARTER_HOUR_EXPORT: u64 = 5;
pub const VIRTUAL: u64 = 6;

pub const MOST_SUPPORT: i64 = 1_000_000_000_000_000;

/// One point of 10 MWh at 1,000 cents.
pub const MWH: &[u64] = &[10];
pub const PRICES: &[i64] = &[1000];

/// Every refusal in the order of the table.
pub const ALL: [Refusal; 18] = [
    Refusal::BookNotSound,
    Refusal::Kind,
    Refusal::Path,
    Refusal::Hour,
    Refusal::Points,
    Refusal::Quantity,
    Refusal::Price,
    Refusal::Differential,
    Refusal::Amount,
    Refusal::KeyAlreadyOpen,
    Refusal::KeyNotOpen,
    Refusal::WrongStage,
    Refusal::ScheduleAboveBid,
    Refusal::Suspended,
    Refusal::BookFull,
    Refusal::AboveSupport,
    Refusal::WindowsContradict,
    Refusal::Lookup,
];

pub fn fresh(support: i64) -> Book {
    let (book, answer) = Book::fresh(support);
    assert_eq!(answer, accepted(0, 0, 0));
    book
}

/// A fresh book of the largest support.
pub fn wide() -> Book {
    fresh(MOST_SUPPORT)
}

pub fn key(kind: u64) -> Key {
    Key {
        kind,
        path: 7,
        hour: 100,
    }
}

/// Another key for each number.
pub fn key_no(kind: u64, number: u64) -> Key {
    Key {
        kind,
        path: 8,
        hour: number,
    }
}

pub fn open(key: Key, differential: u64, exempt: bool) -> Message {
    Message::Open(Opening {
        key,
        differential,
        exempt,
    })
}

pub fn revise(key: Key, differential: u64, exempt: bool) -> Message {
    Message::Revise(Revision {
        key,
        differential,
        exempt,
    })
}

pub fn withdraw(key: Key) -> Message {
    Message::Withdraw(Withdrawal { key })
}

pub fn post(key: Key, schedule: u64, first_price: i64, second_price: i64) -> Message {
    Message::Post(Posting {
        key,
        schedule,
        first_price,
        second_price,
    })
}

pub fn finish(key: Key, actual: u64, first_price: i64, second_price: i64) -> Message {
    Message::Finish(Finish {
        key,
        actual,
        first_price,
        second_price,
    })
}

pub fn bill(key: Key, amount: i64) -> Message {
    Message::Bill(Bill { key, amount })
}

pub fn pay(key: Key) -> Message {
    Message::Pay(Payment { key })
}

pub fn support(amount: i64) -> Message {
    Message::Support(Support { amount })
}

pub fn open_curves(key: Key, counts: [u64; 4]) -> Message {
    Message::OpenCurves(Curves { key, counts })
}

pub fn revise_curves(key: Key, counts: [u64; 4]) -> Message {
    Message::ReviseCurves(Curves { key, counts })
}

pub fn close(hour: u64) -> Message {
    Message::Close(Closing { hour })
}

/// MWh and differential.
type Numbers = (u64, u64);

/// The zone and the hour are the key's; its kind is not sent.
fn sides(key: Key, load: Numbers, supply: Numbers) -> Sides {
    let side = |(mwh, differential)| Side { mwh, differential };
    Sides {
        zone: key.path,
        hour: key.hour,
        load: side(load),
        supply: side(supply),
    }
}

pub fn open_sides(key: Key, load: Numbers, supply: Numbers) -> Message {
    Message::OpenSides(sides(key, load, supply))
}

pub fn revise_sides(key: Key, load: Numbers, supply: Numbers) -> Message {
    Message::ReviseSides(sides(key, load, supply))
}

pub fn post_sides(key: Key, load: u64, supply: u64) -> Message {
    Message::PostSides(SidesPosting {
        zone: key.path,
        hour: key.hour,
        load,
        supply,
    })
}

/// Each of the fourteen messages about a key, in range and without a second
/// price; those of document 01 first. The last three are about the zone and
/// the hour of the key, whatever its kind.
pub fn one_of_each(key: Key) -> [Message; 14] {
    [
        open(key, 0, false),
        revise(key, 0, false),
        withdraw(key),
        post(key, 0, 0, 0),
        finish(key, 0, 0, 0),
        bill(key, 0),
        pay(key),
        support(5),
        open_curves(key, [1, 0, 0, 0]),
        revise_curves(key, [1, 0, 0, 0]),
        close(key.hour),
        open_sides(key, (0, 0), (0, 0)),
        revise_sides(key, (0, 0), (0, 0)),
        post_sides(key, 0, 0),
    ]
}

pub fn accepted(requirement: i64, held: i64, net_owed: i64) -> Answer {
    Answer {
        refusal: None,
        removed: false,
        requirement,
        held,
        net_owed,
    }
}

/// A close whose batch is removed.
pub fn removed(held: i64, net_owed: i64) -> Answer {
    Answer {
        removed: true,
        ..accepted(0, held, net_owed)
    }
}

pub fn refused(refusal: Refusal, held: i64, net_owed: i64) -> Answer {
    Answer {
        refusal: Some(refusal),
        removed: false,
        requirement: 0,
        held,
        net_owed,
    }
}

/// Sends a message that must be accepted and gives the requirement back.
pub fn take(book: &mut Book, message: Message, mwh: &[u64], prices: &[i64]) -> i64 {
    let answer = book.apply(message, mwh, prices);
    assert_eq!(answer.refusal, None, "{message:?}");
    assert!(!answer.removed, "{message:?}");
    answer.requirement
}

/// The same for a message without points.
pub fn send(book: &mut Book, message: Message) -> i64 {
    take(book, message, &[], &[])
}

/// Sends a message that must be refused and leave the book as it is.
pub fn turn_away(book: &mut Book, message: Message, mwh: &[u64], prices: &[i64]) -> Refusal {
    let before = book.clone();
    let answer = book.apply(message, mwh, prices);
    assert_eq!(*book, before, "{message:?}");
    let refusal = answer.refusal.expect("a refusal");
    let expected = if refusal == Refusal::BookNotSound {
        refused(refusal, 0, 0)
    } else {
        refused(refusal, sum(book, |_| true), sum(book, |r| r.stage == 4))
    };
    assert_eq!(answer, expected, "{message:?}");
    refusal
}

/// The sum of the requirements of the chosen records.
pub fn sum(book: &Book, chosen: impl Fn(&Record) -> bool) -> i64 {
    exact_sum(book, chosen).try_into().expect("a sum that fits")
}

fn exact_sum(book: &Book, chosen: impl Fn(&Record) -> bool) -> i128 {
    book.records
        .iter()
        .filter(|record| chosen(record))
        .map(|record| i128::from(record.requirement))
        .sum()
}

/// The record of an open key.
pub fn record(book: &Book, key: Key) -> Record {
    *book
        .records
        .iter()
        .find(|record| record.key == key)
        .expect("an open key")
}

pub fn is_open(book: &Book, key: Key) -> bool {
    book.records.iter().any(|record| record.key == key)
}

/// Brings an Hour-Ahead export from nothing to a bill.
pub fn owe(book: &mut Book, key: Key, amount: i64) {
    take(book, open(key, 0, false), &[1], &[0]);
    send(book, finish(key, 0, 0, 0));
    send(book, bill(key, amount));
}

/// A record at each stage of its kind, put together without messages. Kind 5
/// has no bid MWh, and the sums of four intervals; kind 6 has a supply side.
pub fn staged(kind: u64, stage: u64) -> Record {
    let four = kind == QUARTER_HOUR_EXPORT;
    let supply = if kind == VIRTUAL { 20 } else { 0 };
    Record {
        key: key(kind),
        stage,
        bid_mwh: if four { 0 } else { 10 },
        intervals: if four { [10, 20, 0, 40] } else { [0; 4] },
        supply: Supply {
            mwh: supply,
            ..Supply::NONE
        },
        ..Record::FREE
    }
}

/// An empty book of the largest support with one record in it.
pub fn with(record: Record) -> Book {
    let mut book = wide();
    book.records[0] = record;
    total(&mut book);
    book
}

/// Makes the kept totals those of the records, in range or not; a sum that
/// does not fit is brought to the nearest that does.
pub fn total(book: &mut Book) {
    let fitted = |sum: i128| sum.clamp(i64::MIN.into(), i64::MAX.into()) as i64;
    book.held = fitted(exact_sum(book, |_| true));
    book.net_owed = fitted(exact_sum(book, |record| record.stage == 4));
}
