//! Document 02, order 1: "Keep both totals in the book and answer from them,
//! reading no record."

use crate::helpers::*;
use reference::{Book, Message, Record, Refusal};

/// A book at every stage, with held 1,690 and net owed 700.
fn mixed() -> Book {
    let mut book = wide();
    take(&mut book, open(key_no(EXPORT, 1), 0, false), &[10], &[99]);
    owe(&mut book, key_no(HOUR_AHEAD_EXPORT, 2), 800);
    owe(&mut book, key_no(HOUR_AHEAD_EXPORT, 3), -100);
    assert_eq!((book.held(), book.net_owed()), (1_690, 700));
    book
}

fn walked(book: &Book) -> (i64, i64) {
    (sum(book, |_| true), sum(book, |record| record.stage == 4))
}

fn kept(book: &Book) -> (i64, i64) {
    (book.held(), book.net_owed())
}

/// The book with other totals.
fn keeping(book: &Book, held: i64, net_owed: i64) -> Book {
    Book {
        held,
        net_owed,
        ..book.clone()
    }
}

/// Every way in which the totals of a book can be wrong by one, by two that
/// level out, or by standing in each other's place.
fn wrong_totals(book: &Book) -> Vec<Book> {
    let (held, owed) = kept(book);
    let pairs = [
        (held + 1, owed),
        (held - 1, owed),
        (held, owed + 1),
        (held, owed - 1),
        (held + 1, owed + 1),
        (held - 1, owed - 1),
        (held + 1, owed - 1),
        (held - 1, owed + 1),
        (owed, held),
        (-held, -owed),
        (0, 0),
        (held, held),
        (owed, owed),
        (i64::MAX, i64::MIN),
        (i64::MIN, i64::MAX),
    ];
    let wrong = pairs.iter().filter(|&&pair| pair != (held, owed));
    wrong.map(|&(h, o)| keeping(book, h, o)).collect()
}

#[test]
fn a_fresh_book_keeps_0_and_0() {
    for support in [-1, 0, 1, MOST_SUPPORT, MOST_SUPPORT + 1, i64::MIN, i64::MAX] {
        let (book, _) = Book::fresh(support);
        assert_eq!(kept(&book), (0, 0));
        assert!(book.is_sound());
    }
}

/// Sends a message that must be accepted; the totals are then as written, and
/// those of the walk.
#[track_caller]
fn leaves(book: &mut Book, message: Message, held: i64, net_owed: i64) {
    let answer = book.apply(message, &[10, 20], &[7, -1]);
    assert_eq!(answer.number(), 0, "{message:?}");
    assert_eq!((answer.held, answer.net_owed), (held, net_owed));
    assert_eq!(kept(book), (held, net_owed));
    assert_eq!(walked(book), (held, net_owed));
    assert!(book.is_sound());
}

#[test]
fn after_each_message_the_kept_totals_are_the_full_walk() {
    let mut book = wide();
    let (import, export) = (key_no(IMPORT, 1), key_no(EXPORT, 2));
    let (hour_ahead, wheel) = (key_no(HOUR_AHEAD_EXPORT, 3), key_no(WHEEL, 4));
    leaves(&mut book, open(import, 60, false), 1_200, 0);
    leaves(&mut book, open(export, 5, false), 1_350, 0);
    leaves(&mut book, open(hour_ahead, 0, false), 1_420, 0);
    leaves(&mut book, open(wheel, 0, false), 1_440, 0);
    leaves(&mut book, revise(import, 50, false), 1_240, 0);
    leaves(&mut book, post(import, 20, -40, 0), 1_240, 0);
    leaves(&mut book, post(export, 30, 6, 0), 1_270, 0);
    leaves(&mut book, post(wheel, 20, 5, 2), 1_310, 0);
    leaves(&mut book, finish(import, 20, 3, 0), 1_110, 0);
    leaves(&mut book, finish(export, 0, 100, 0), -1_890, 0);
    leaves(&mut book, finish(hour_ahead, 9, 9, 0), -1_879, 0);
    leaves(&mut book, finish(wheel, 10, 9, 2), -1_949, 0);
    leaves(&mut book, bill(export, -500), 371, -500);
    leaves(&mut book, bill(import, 4_000), 3_571, 3_500);
    leaves(&mut book, support(5), 3_571, 3_500);
    leaves(&mut book, bill(hour_ahead, 0), 3_490, 3_500);
    leaves(&mut book, pay(export), 3_990, 4_000);
    leaves(&mut book, pay(hour_ahead), 3_990, 4_000);
    leaves(&mut book, pay(import), -10, 0);
    leaves(&mut book, bill(wheel, 6), 6, 6);
    leaves(&mut book, pay(wheel), 0, 0);
    leaves(&mut book, support(MOST_SUPPORT), 0, 0);
    leaves(&mut book, open(wheel, 0, false), 20, 0);
    leaves(&mut book, withdraw(wheel), 0, 0);
}

#[test]
fn after_each_message_of_a_virtual_bid_the_kept_totals_are_the_full_walk() {
    let mut book = wide();
    let (first, second) = (key_no(VIRTUAL, 5), key_no(VIRTUAL, 6));
    leaves(&mut book, open(key_no(EXPORT, 2), 5, false), 150, 0);
    leaves(&mut book, open_sides(first, (10, 40), (30, 20)), 750, 0);
    leaves(&mut book, open_sides(second, (7, 1), (0, 9)), 757, 0);
    leaves(&mut book, revise_sides(first, (20, 40), (30, 20)), 957, 0);
    leaves(&mut book, post_sides(first, 5, 7), 197, 0);
    leaves(&mut book, bill(first, -1_000), -843, -1_000);
    leaves(&mut book, withdraw(second), -850, -1_000);
    leaves(&mut book, pay(first), 150, 0);
}

#[test]
fn a_refusal_keeps_the_totals_and_answers_them() {
    let mut book = mixed();
    for message in one_of_each(key(WHEEL)) {
        let expected = match message {
            Message::Open(_) | Message::Support(_) | Message::OpenSides(_) => continue,
            Message::OpenCurves(_) | Message::ReviseCurves(_) | Message::Close(_) => {
                Refusal::Points
            }
            _ => Refusal::KeyNotOpen,
        };
        let refusal = turn_away(&mut book, message, MWH, PRICES);
        assert_eq!(refusal, expected);
        assert_eq!(kept(&book), (1_690, 700));
    }
}

#[test]
fn a_book_whose_kept_totals_differ_from_its_records_is_not_sound() {
    for book in [mixed(), wide(), fresh(0)] {
        assert!(book.is_sound());
        for wrong in wrong_totals(&book) {
            assert!(!wrong.is_sound(), "{:?}", kept(&wrong));
        }
    }
}

#[test]
fn a_message_refused_with_1_still_answers_0_for_both() {
    for book in wrong_totals(&mixed()) {
        for number in [1, 2, 9] {
            for message in one_of_each(key_no(EXPORT, number)) {
                let mut next = book.clone();
                let answer = next.apply(message, MWH, PRICES);
                assert_eq!(answer, refused(Refusal::BookNotSound, 0, 0));
                assert_eq!(next, book);
            }
        }
    }
}

#[test]
fn a_screen_is_told_the_totals_as_kept() {
    let pairs = [(1, 2), (-7, 7), (0, 0), (i64::MIN, i64::MAX)];
    for (held, net_owed) in pairs {
        let book = keeping(&mixed(), held, net_owed);
        assert_eq!(kept(&book), (held, net_owed));
        assert_eq!(walked(&book), (1_690, 700));
    }
}

#[test]
fn totals_stand_or_fall_with_the_records() {
    let mut book = mixed();
    book.records[0].requirement += 1;
    assert!(!book.is_sound());
    book.held += 1;
    assert!(book.is_sound());
    // A bill that is taken for a finished amount: held is the same, and net
    // owed is not.
    book.records[1].stage = 3;
    assert!(!book.is_sound());
    book.net_owed -= 800;
    assert!(book.is_sound());
    book.records.swap(0, 200);
    assert!(book.is_sound());
    book.records[200] = Record::FREE;
    assert!(!book.is_sound());
    assert_eq!(kept(&book), (1_691, -100));
}

#[test]
fn right_totals_do_not_make_an_unsound_book_sound() {
    let mut twice = mixed();
    twice.records[9] = twice.records[0];
    total(&mut twice);
    assert!(!twice.is_sound());
    let mut poor = mixed();
    poor.support = -1;
    assert!(!poor.is_sound());
    let mut broken = mixed();
    broken.records[9].requirement = 1;
    total(&mut broken);
    assert!(!broken.is_sound());
}

#[test]
fn a_sound_book_rebuilt_is_given_back() {
    for book in [mixed(), wide(), fresh(0)] {
        assert_eq!(Book::rebuilt(book.support, book.records), book);
    }
}

#[test]
fn a_book_of_the_older_form_is_rebuilt_first() {
    let book = mixed();
    for wrong in wrong_totals(&book) {
        let mut rebuilt = Book::rebuilt(wrong.support, wrong.records);
        assert_eq!(rebuilt, book);
        let answer = rebuilt.apply(support(2_000), &[], &[]);
        assert_eq!(answer, accepted(0, 1_690, 700));
    }
}

/// The totals of a book rebuilt that is not sound, and refuses with 1.
#[track_caller]
fn rebuilt_unsound(support: i64, records: [Record; 256]) -> (i64, i64) {
    let mut book = Book::rebuilt(support, records);
    assert_eq!(book.support, support);
    assert_eq!(book.records, records);
    assert!(!book.is_sound());
    let refusal = turn_away(&mut book, withdraw(key(IMPORT)), &[], &[]);
    assert_eq!(refusal, Refusal::BookNotSound);
    kept(&book)
}

#[test]
fn a_book_rebuilt_of_places_in_range_keeps_their_sums() {
    let book = mixed();
    for support in [-1, MOST_SUPPORT + 1, i64::MIN, i64::MAX] {
        assert_eq!(rebuilt_unsound(support, book.records), (1_690, 700));
    }
    let mut records = book.records;
    records[255] = records[1];
    assert_eq!(rebuilt_unsound(0, records), (2_490, 1_500));
    let billed = Record {
        requirement: 1_000_000_000_000,
        ..staged(WHEEL, 4)
    };
    let most = 256_000_000_000_000;
    assert_eq!(rebuilt_unsound(i64::MIN, [billed; 256]), (most, most));
    let finished = Record {
        requirement: -1_300_000_000_000,
        ..staged(WHEEL, 3)
    };
    assert_eq!(
        rebuilt_unsound(7, [finished; 256]),
        (-332_800_000_000_000, 0)
    );
}

#[test]
fn a_book_rebuilt_with_a_place_out_of_range_keeps_0_and_0() {
    let changes: [fn(&mut Record); 9] = [
        |record| record.key.kind = 5,
        |record| record.key.path = 1_000,
        |record| record.stage = 5,
        |record| record.bid_mwh = 640_001,
        |record| record.schedule = 1,
        |record| record.requirement = -1,
        |record| record.requirement = i64::MAX,
        |record| record.requirement = i64::MIN,
        |record| {
            *record = Record {
                stage: 4,
                ..Record::FREE
            }
        },
    ];
    for change in changes {
        for support in [0, MOST_SUPPORT, i64::MIN] {
            let mut records = mixed().records;
            change(&mut records[0]);
            assert_eq!(rebuilt_unsound(support, records), (0, 0));
        }
    }
    let mut records = [Record::FREE; 256];
    records[100].requirement = 1;
    assert_eq!(rebuilt_unsound(5, records), (0, 0));
    for requirement in [i64::MIN, i64::MAX] {
        let record = Record {
            requirement,
            ..staged(WHEEL, 4)
        };
        assert_eq!(rebuilt_unsound(5, [record; 256]), (0, 0));
    }
}

#[test]
fn suspension_is_told_of_net_owed_as_kept() {
    let told = |support: i64, net_owed: i64| {
        let book = Book {
            support,
            ..keeping(&mixed(), 3, net_owed)
        };
        assert!(!book.is_sound());
        book.is_suspended()
    };
    // At least half the support, and one less than that.
    for (support, net_owed) in [(10, 5), (9, 5), (-9, -4), (-10, -5), (0, 0)] {
        assert!(told(support, net_owed));
        assert!(!told(support, net_owed - 1));
    }
    // Twice what is kept lies past the ends of the type.
    let half = i64::MAX / 2;
    for (support, net_owed, suspended) in [
        (i64::MAX, i64::MAX, true),
        (i64::MAX, half, false),
        (i64::MAX, half + 1, true),
        (i64::MAX, i64::MIN, false),
        (i64::MIN, i64::MIN, false),
        (i64::MIN, i64::MIN / 2, true),
        (i64::MIN, i64::MIN / 2 - 1, false),
        (i64::MIN, i64::MAX, true),
        (0, i64::MIN, false),
        (0, i64::MAX, true),
    ] {
        assert_eq!(told(support, net_owed), suspended, "{support} {net_owed}");
    }
}
