//! "At the edges" and the sentences about suspension and support.

use crate::helpers::*;
use reference::history::{import_test, Window};
use reference::{chart, Book, Refusal};

#[test]
fn held_plus_requirement_equal_to_support_is_accepted() {
    let mut book = fresh(30_000);
    take(&mut book, open(key_no(EXPORT, 1), 0, false), &[10], &[1000]);
    let answer = book.apply(open(key_no(EXPORT, 2), 0, false), &[20], &[1000]);
    assert_eq!(answer, accepted(20_000, 30_000, 0));
}

#[test]
fn one_cent_more_is_16() {
    let mut book = fresh(30_000);
    take(&mut book, open(key_no(EXPORT, 1), 0, false), &[10], &[1000]);
    // 1 x 20,001.
    let answer = book.apply(open(key_no(EXPORT, 2), 0, false), &[1], &[20_001]);
    assert_eq!(answer, refused(Refusal::AboveSupport, 10_000, 0));
    assert_eq!(answer.number(), 16);
}

/// Whether a book of this support and net owed is suspended, asked of the
/// book and by opening a transaction that requires nothing.
fn suspended(support_cents: i64, owed: i64) -> bool {
    let mut book = fresh(MOST_SUPPORT);
    owe(&mut book, key(HOUR_AHEAD_EXPORT), owed);
    send(&mut book, support(support_cents));
    let answer = book.apply(open(key(WHEEL), 0, false), &[1], &[0]);
    assert_eq!(book.is_suspended(), answer.number() == 14);
    assert!(answer.refusal.is_none() || answer.number() == 14);
    book.is_suspended()
}

#[test]
fn support_100_000_with_50_000_owed_is_suspended_with_49_999_not() {
    assert!(suspended(100_000, 50_000));
    assert!(!suspended(100_000, 49_999));
}

#[test]
fn support_99_999_with_50_000_owed_is_suspended_with_49_999_not() {
    assert!(suspended(99_999, 50_000));
    assert!(!suspended(99_999, 49_999));
}

#[test]
fn loss_24_of_100_mwh_over_50_bids_is_exempt_25_is_not() {
    let window = |loss| Window {
        bids: 50,
        mwh: 100,
        loss,
    };
    assert_eq!(import_test(window(24), window(24)), Ok(true));
    assert_eq!(import_test(window(25), window(25)), Ok(false));
}

#[test]
fn hour_22_on_a_weekday_is_group_4_in_july_hour_23_group_6() {
    for table in [chart::Table::Import, chart::Table::Export] {
        for bus in 1..=10 {
            let group = |hour| {
                let entry = chart::lookup(chart::OLDER, table, bus, 7, 0, hour);
                entry.unwrap().group
            };
            assert_eq!(group(22), 4);
            assert_eq!(group(23), 6);
        }
    }
}

#[test]
fn an_empty_book_of_support_0_is_suspended() {
    let mut book = fresh(0);
    assert!(book.is_suspended());
    let refusal = turn_away(&mut book, open(key(IMPORT), 0, true), MWH, PRICES);
    assert_eq!(refusal, Refusal::Suspended);
}

#[test]
fn a_book_owed_to_is_not_suspended_at_support_0() {
    let mut book = wide();
    owe(&mut book, key(HOUR_AHEAD_EXPORT), -1);
    send(&mut book, support(0));
    assert!(!book.is_suspended());
    // Held is -1, so a requirement of 1 is just accepted.
    let answer = book.apply(open(key(EXPORT), 0, false), &[1], &[1]);
    assert_eq!(answer, accepted(1, 0, -1));
}

#[test]
fn a_fresh_book_is_empty_with_the_support_given() {
    for cents in [0, 1, MOST_SUPPORT] {
        let (book, answer) = Book::fresh(cents);
        assert_eq!(answer, accepted(0, 0, 0));
        assert_eq!(book.support, cents);
        assert!(book.records.iter().all(|record| record.is_free()));
        assert!(book.is_sound());
    }
}

#[test]
fn an_out_of_range_support_answers_9_and_an_empty_book_of_support_0() {
    for cents in [-1, MOST_SUPPORT + 1, i64::MIN, i64::MAX] {
        let (book, answer) = Book::fresh(cents);
        assert_eq!(answer, refused(Refusal::Amount, 0, 0));
        assert_eq!(book, fresh(0));
    }
}

#[test]
fn revise_at_the_edge_of_support() {
    let exports = |first: i64| {
        let mut book = fresh(30_000);
        take(&mut book, open(key_no(EXPORT, 1), 0, false), &[1], &[first]);
        take(&mut book, open(key_no(EXPORT, 2), 0, false), &[1], &[5000]);
        book
    };
    // Held afterwards equal to support is accepted.
    let mut book = exports(10_000);
    let answer = book.apply(revise(key_no(EXPORT, 1), 0, false), &[1], &[25_000]);
    assert_eq!(answer, accepted(25_000, 30_000, 0));
    // One cent more is 16.
    let mut book = exports(10_000);
    let message = revise(key_no(EXPORT, 1), 0, false);
    let answer = book.apply(message, &[1], &[25_001]);
    assert_eq!(answer, refused(Refusal::AboveSupport, 15_000, 0));
}

#[test]
fn a_revise_that_does_not_raise_the_requirement_is_never_16() {
    let mut book = wide();
    take(&mut book, open(key(EXPORT), 0, false), &[1], &[20_000]);
    send(&mut book, support(1));
    let revised = |book: &mut Book, price: i64| {
        let message = revise(key(EXPORT), 0, false);
        book.apply(message, &[1], &[price])
    };
    assert_eq!(revised(&mut book, 20_000), accepted(20_000, 20_000, 0));
    assert_eq!(revised(&mut book, 19_999), accepted(19_999, 19_999, 0));
    let answer = revised(&mut book, 20_000);
    assert_eq!(answer, refused(Refusal::AboveSupport, 19_999, 0));
}

#[test]
fn an_open_that_requires_nothing_is_16_while_held_is_above_support() {
    let mut book = wide();
    take(&mut book, open(key(EXPORT), 0, false), &[1], &[20_000]);
    send(&mut book, support(19_999));
    let answer = book.apply(open(key(IMPORT), 6000, true), MWH, PRICES);
    assert_eq!(answer, refused(Refusal::AboveSupport, 20_000, 0));
    send(&mut book, support(20_000));
    let answer = book.apply(open(key(IMPORT), 6000, true), MWH, PRICES);
    assert_eq!(answer, accepted(0, 20_000, 0));
}

#[test]
fn support_may_be_set_below_held() {
    let mut book = wide();
    take(&mut book, open(key(EXPORT), 0, false), &[1], &[20_000]);
    let answer = book.apply(support(0), &[], &[]);
    assert_eq!(answer, accepted(0, 20_000, 0));
    assert_eq!(book.support, 0);
    assert!(book.is_sound());
}
