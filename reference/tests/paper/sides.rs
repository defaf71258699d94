//! Document 02, order 6, first half: "Open and revise carry MWh and
//! differential per side, post MWh per side, no points or prices."

use crate::helpers::*;
use reference::book::Supply;
use reference::{Book, Key, Message, Record, Refusal};

const KEY: Key = Key {
    kind: VIRTUAL,
    path: 7,
    hour: 100,
};

/// MWh and differential.
type Side = (u64, u64);

/// Both messages that carry MWh and differential per side.
const BOTH: [fn(Key, Side, Side) -> Message; 2] = [open_sides, revise_sides];

/// A book in which the message is accepted: for a revise or a post the key is
/// open, with 10 MWh of load and 20 of supply.
fn ready(message: Message) -> Book {
    match message {
        Message::OpenSides(_) => wide(),
        _ => with(staged(VIRTUAL, 1)),
    }
}

/// The number that such a book answers.
fn number(message: Message) -> u64 {
    ready(message).apply(message, &[], &[]).number()
}

/// The record of a bid of these sides.
fn bid(load: Side, supply: Side, requirement: i64) -> Record {
    Record {
        key: KEY,
        stage: 1,
        bid_mwh: load.0,
        differential: load.1,
        requirement,
        supply: Supply {
            mwh: supply.0,
            differential: supply.1,
            schedule: 0,
        },
        ..Record::FREE
    }
}

#[test]
fn while_bid_the_requirement_is_the_greater_side() {
    let bids = [
        ((100, 6_000), (90, 6_000), 600_000),
        ((90, 6_000), (100, 6_000), 600_000),
        ((100, 40), (1, 4_001), 4_001),
        ((1, 4_001), (100, 40), 4_001),
        // Not their sum, and not their difference.
        ((7, 30), (30, 7), 210),
        ((7, 30), (7, 30), 210),
        // One side alone; MWh without a differential, and the other way round.
        ((7, 30), (0, 0), 210),
        ((0, 0), (7, 30), 210),
        ((7, 0), (0, 30), 0),
        ((10_000, 1_000_000), (9_999, 1_000_000), 10_000_000_000),
    ];
    for (load, supply, cents) in bids {
        for message in BOTH {
            let message = message(KEY, load, supply);
            let mut book = ready(message);
            let answer = book.apply(message, &[], &[]);
            assert_eq!(answer, accepted(cents, cents, 0));
            assert_eq!(book, with(bid(load, supply, cents)));
            assert!(book.is_sound());
        }
    }
}

#[test]
fn both_sides_0_is_a_bid() {
    let mut book = wide();
    let answer = book.apply(open_sides(KEY, (0, 0), (0, 0)), &[], &[]);
    assert_eq!(answer, accepted(0, 0, 0));
    assert!(is_open(&book, KEY));
    assert_eq!(send(&mut book, post_sides(KEY, 0, 0)), 0);
    assert_eq!(record(&book, KEY).stage, 2);
    assert!(book.is_sound());
}

#[test]
fn once_posted_the_requirement_is_that_of_the_net_side() {
    let (load, supply) = ((50, 70), (40, 900));
    let posts = [
        (50, 40, 10 * 70),
        (50, 0, 50 * 70),
        (0, 40, 40 * 900),
        (41, 40, 70),
        (39, 40, 900),
        (40, 40, 0),
        (1, 1, 0),
        (0, 0, 0),
        (3, 5, 2 * 900),
        (5, 3, 2 * 70),
    ];
    for (posted_load, posted_supply, cents) in posts {
        let mut book = wide();
        assert_eq!(send(&mut book, open_sides(KEY, load, supply)), 36_000);
        let answer = book.apply(post_sides(KEY, posted_load, posted_supply), &[], &[]);
        assert_eq!(answer, accepted(cents, cents, 0));
        let mut expected = bid(load, supply, cents);
        expected.stage = 2;
        expected.schedule = posted_load;
        expected.supply.schedule = posted_supply;
        assert_eq!(book, with(expected));
        assert!(book.is_sound());
    }
}

#[test]
fn the_net_side_needs_nothing_without_a_differential() {
    for (load, supply) in [((50, 0), (50, 9)), ((50, 9), (50, 0))] {
        let mut book = wide();
        send(&mut book, open_sides(KEY, load, supply));
        let posted = |mwh, other| {
            let side = |(_, differential)| if differential == 0 { mwh } else { other };
            post_sides(KEY, side(load), side(supply))
        };
        assert_eq!(send(&mut book.clone(), posted(50, 20)), 0);
        assert_eq!(send(&mut book, posted(20, 50)), 270);
    }
}

#[test]
fn posting_the_whole_bid_never_asks_for_more() {
    for load in [(0, 0), (1, 5), (5, 1), (4, 4)] {
        for supply in [(0, 0), (1, 5), (5, 1), (4, 4)] {
            let mut book = wide();
            let asked = send(&mut book, open_sides(KEY, load, supply));
            for posted_load in 0..=load.0 {
                for posted_supply in 0..=supply.0 {
                    let message = post_sides(KEY, posted_load, posted_supply);
                    assert!(send(&mut book.clone(), message) <= asked);
                }
            }
        }
    }
}

#[test]
fn revise_replaces_both_sides() {
    let mut book = wide();
    take(&mut book, open(key(EXPORT), 0, false), &[1], &[9]);
    send(&mut book, open_sides(KEY, (10, 5), (20, 6)));
    let answer = book.apply(revise_sides(KEY, (3, 100), (0, 7)), &[], &[]);
    assert_eq!(answer, accepted(300, 309, 0));
    assert_eq!(book.records[1], bid((3, 100), (0, 7), 300));
    // Post goes by the new sides.
    let refusal = turn_away(&mut book, post_sides(KEY, 3, 1), &[], &[]);
    assert_eq!(refusal, Refusal::ScheduleAboveBid);
    assert_eq!(send(&mut book, post_sides(KEY, 2, 0)), 200);
}

#[test]
fn zones_are_1_to_11() {
    let at = |path| Key { path, ..KEY };
    for zone in 1..=11 {
        let mut book = wide();
        send(&mut book, open_sides(at(zone), (1, 1), (1, 1)));
        send(&mut book, revise_sides(at(zone), (2, 1), (1, 1)));
        send(&mut book, post_sides(at(zone), 2, 0));
        assert_eq!(record(&book, at(zone)).requirement, 2);
    }
    for zone in [0, 12, 13, 999, 1_000, u64::MAX] {
        for message in BOTH {
            assert_eq!(number(message(at(zone), (1, 1), (1, 1))), 3);
        }
        assert_eq!(number(post_sides(at(zone), 0, 0)), 3);
    }
}

#[test]
fn hours_are_0_to_999_999() {
    let at = |hour| Key { hour, ..KEY };
    for hour in [0, 999_999] {
        assert_eq!(number(open_sides(at(hour), (1, 1), (1, 1))), 0);
        assert_eq!(number(revise_sides(at(hour), (1, 1), (1, 1))), 11);
        assert_eq!(number(post_sides(at(hour), 0, 0)), 11);
    }
    for hour in [1_000_000, u64::MAX] {
        for message in BOTH {
            assert_eq!(number(message(at(hour), (1, 1), (1, 1))), 4);
        }
        assert_eq!(number(post_sides(at(hour), 0, 0)), 4);
    }
}

#[test]
fn each_sides_mwh_is_at_most_10_000() {
    for message in BOTH {
        for (mwh, expected) in [(9_999, 0), (10_000, 0), (10_001, 6), (u64::MAX, 6)] {
            assert_eq!(number(message(KEY, (mwh, 1), (0, 0))), expected);
            assert_eq!(number(message(KEY, (0, 0), (mwh, 1))), expected);
            assert_eq!(number(message(KEY, (mwh, 1), (mwh, 1))), expected);
        }
    }
}

#[test]
fn each_sides_differential_is_at_most_1_000_000() {
    for message in BOTH {
        for (differential, expected) in [(999_999, 0), (1_000_000, 0), (1_000_001, 8)] {
            for mwh in [0, 1, 10_000] {
                let side = (mwh, differential);
                assert_eq!(number(message(KEY, side, (1, 1))), expected);
                assert_eq!(number(message(KEY, (1, 1), side)), expected);
                assert_eq!(number(message(KEY, side, side)), expected);
            }
        }
        assert_eq!(number(message(KEY, (0, u64::MAX), (0, 0))), 8);
        assert_eq!(number(message(KEY, (0, 0), (0, u64::MAX))), 8);
    }
}

#[test]
fn the_mwh_of_both_sides_are_checked_before_either_differential() {
    let (mwh, differential) = ((10_001, 0), (0, 1_000_001));
    for message in BOTH {
        assert_eq!(number(message(KEY, mwh, differential)), 6);
        assert_eq!(number(message(KEY, differential, mwh)), 6);
    }
}

#[test]
fn a_posted_side_above_10_000_is_6_and_above_its_bid_side_13() {
    // 10 MWh of load and 20 of supply are bid.
    let posts = [
        (10, 20, 0),
        (0, 20, 0),
        (10, 0, 0),
        (11, 20, 13),
        (10, 21, 13),
        (11, 0, 13),
        (0, 21, 13),
        (11, 21, 13),
        // The other side's MWh are no measure.
        (20, 10, 13),
        (20, 0, 13),
        (10_000, 0, 13),
        (0, 10_000, 13),
        (10_001, 0, 6),
        (0, 10_001, 6),
        (10_001, 21, 6),
        (11, 10_001, 6),
        (u64::MAX, 0, 6),
        (0, u64::MAX, 6),
    ];
    for (load, supply, expected) in posts {
        assert_eq!(number(post_sides(KEY, load, supply)), expected);
    }
    let most = (10_000, 1_000_000);
    let mut book = wide();
    send(&mut book, open_sides(KEY, most, most));
    let posted = send(&mut book, post_sides(KEY, 10_000, 0));
    assert_eq!(posted, 10_000_000_000);
}

#[test]
fn lists_beside_the_message_are_passed_over() {
    let (mwh, prices) = ([u64::MAX; 70], [i64::MIN; 3]);
    let (mut book, mut same) = (wide(), wide());
    for message in [
        open_sides(KEY, (10, 5), (20, 6)),
        revise_sides(KEY, (11, 5), (20, 6)),
        post_sides(KEY, 11, 19),
    ] {
        let with_lists = book.apply(message, &mwh, &prices);
        assert_eq!(with_lists, same.apply(message, &[], &[]));
        assert_eq!(with_lists.number(), 0);
        assert_eq!(book, same);
    }
}

/// A full, suspended book that is above its support and not sound, with KEY at
/// a stage in its second place.
fn worst_book(stage: u64) -> Book {
    let mut book = wide();
    for (number, record) in book.records.iter_mut().enumerate() {
        *record = Record {
            key: key_no(EXPORT, number as u64),
            stage: 1,
            bid_mwh: 10,
            requirement: 1,
            ..Record::FREE
        };
    }
    book.records[0].stage = 4;
    book.records[0].requirement = 100;
    book.records[1] = staged(VIRTUAL, stage);
    book.support = -1;
    total(&mut book);
    book
}

/// A message in the making, wrong in every way at first.
struct Draft {
    key: Key,
    load: Side,
    supply: Side,
}

impl Draft {
    fn open(&self) -> Message {
        open_sides(self.key, self.load, self.supply)
    }

    fn revise(&self) -> Message {
        revise_sides(self.key, self.load, self.supply)
    }

    fn post(&self) -> Message {
        post_sides(self.key, self.load.0, self.supply.0)
    }
}

/// One wrong put right: the refusal met before it, and how to mend it.
type Step = (u64, fn(&mut Book, &mut Draft));

const SOUND: Step = (1, |book, _| book.support = 100);
const ZONE: Step = (3, |_, draft| draft.key.path = 7);
const HOUR: Step = (4, |_, draft| draft.key.hour = 100);
/// Lets the hour miss every record until refusal 11 is met.
const HOUR_NOT_OPEN: Step = (4, |_, draft| draft.key.hour = 1_000);
const LOAD_MWH: Step = (6, |_, draft| draft.load.0 = 11);
const SUPPLY_MWH: Step = (6, |_, draft| draft.supply.0 = 21);
const LOAD_DIFFERENTIAL: Step = (8, |_, draft| draft.load.1 = 0);
const SUPPLY_DIFFERENTIAL: Step = (8, |_, draft| draft.supply.1 = 1);
const ALREADY_OPEN: Step = (10, |_, draft| draft.key.hour = 1_000);
const NOT_OPEN: Step = (11, |_, draft| draft.key.hour = 100);
const STAGE: Step = (12, |book, _| book.records[1].stage = 1);
const POSTED_SUPPLY: Step = (13, |_, draft| draft.supply.0 = 20);
const POSTED_LOAD: Step = (13, |_, draft| draft.load.0 = 10);
const UNSUSPEND: Step = (14, |book, _| book.records[0].requirement = 49);
const FULL: Step = (15, |book, _| book.records[200] = Record::FREE);
const ABOVE: Step = (16, |book, _| book.support = MOST_SUPPORT);

/// Meets the refusals of the steps one after the other, then acceptance.
fn peel(message: fn(&Draft) -> Message, stage: u64, steps: &[Step]) {
    let mut book = worst_book(stage);
    let mut draft = Draft {
        key: Key {
            path: 12,
            hour: 1_000_000,
            ..KEY
        },
        load: (10_001, 1_000_001),
        supply: (10_001, 1_000_001),
    };
    for &(number, mend) in steps {
        let refusal = turn_away(&mut book, message(&draft), &[], &[]);
        assert_eq!(refusal.number(), number);
        mend(&mut book, &mut draft);
        total(&mut book);
    }
    send(&mut book, message(&draft));
}

#[test]
fn open_in_order() {
    for stage in [1, 2, 4] {
        peel(
            Draft::open,
            stage,
            &[
                SOUND,
                ZONE,
                HOUR,
                LOAD_MWH,
                SUPPLY_MWH,
                LOAD_DIFFERENTIAL,
                SUPPLY_DIFFERENTIAL,
                ALREADY_OPEN,
                UNSUSPEND,
                FULL,
                ABOVE,
            ],
        );
    }
}

#[test]
fn revise_in_order() {
    for stage in [2, 4] {
        peel(
            Draft::revise,
            stage,
            &[
                SOUND,
                ZONE,
                HOUR_NOT_OPEN,
                SUPPLY_MWH,
                LOAD_MWH,
                SUPPLY_DIFFERENTIAL,
                LOAD_DIFFERENTIAL,
                NOT_OPEN,
                STAGE,
                UNSUSPEND,
                ABOVE,
            ],
        );
    }
}

#[test]
fn post_in_order() {
    let steps = [
        SOUND,
        ZONE,
        HOUR_NOT_OPEN,
        LOAD_MWH,
        SUPPLY_MWH,
        NOT_OPEN,
        STAGE,
    ];
    for (stage, last) in [
        (2, [POSTED_LOAD, POSTED_SUPPLY]),
        (4, [POSTED_SUPPLY, POSTED_LOAD]),
    ] {
        // The book is suspended and above its support, and is so still.
        peel(Draft::post, stage, &[&steps[..], &last].concat());
    }
}

#[test]
fn held_plus_requirement_equal_to_support_is_accepted_and_one_cent_more_is_16() {
    for (load, supply) in [((1, 2_000), (1, 7)), ((1, 7), (1, 2_000))] {
        for (cents, expected) in [(12_000, 0), (11_999, 16)] {
            let mut book = fresh(cents);
            take(&mut book, open(key(EXPORT), 0, false), MWH, PRICES);
            let answer = book.apply(open_sides(KEY, load, supply), &[], &[]);
            assert_eq!(answer.number(), expected);
            assert_eq!(is_open(&book, KEY), expected == 0);
        }
    }
}

#[test]
fn revise_at_the_edge_of_support() {
    let opened = || {
        let mut book = fresh(30_000);
        take(&mut book, open(key(EXPORT), 0, false), &[1], &[5_000]);
        send(&mut book, open_sides(KEY, (1, 10_000), (1, 9_000)));
        book
    };
    let answer = opened().apply(revise_sides(KEY, (0, 0), (1, 25_000)), &[], &[]);
    assert_eq!(answer, accepted(25_000, 30_000, 0));
    let answer = opened().apply(revise_sides(KEY, (0, 0), (1, 25_001)), &[], &[]);
    assert_eq!(answer, refused(Refusal::AboveSupport, 15_000, 0));
}

#[test]
fn a_revise_that_does_not_raise_the_requirement_is_never_16() {
    let mut book = wide();
    send(&mut book, open_sides(KEY, (1, 20_000), (1, 1)));
    send(&mut book, support(1));
    let revised = |book: &mut Book, load, supply| {
        let message = revise_sides(KEY, load, supply);
        book.apply(message, &[], &[])
    };
    // The greater side may be another, and the lesser may grow.
    let answer = revised(&mut book, (1, 1), (2, 10_000));
    assert_eq!(answer, accepted(20_000, 20_000, 0));
    let answer = revised(&mut book, (1, 19_999), (2, 9_999));
    assert_eq!(answer, accepted(19_999, 19_999, 0));
    let answer = revised(&mut book, (1, 20_000), (0, 0));
    assert_eq!(answer, refused(Refusal::AboveSupport, 19_999, 0));
}

#[test]
fn a_bid_that_needs_nothing_is_16_while_held_is_above_support() {
    let mut book = wide();
    take(&mut book, open(key(EXPORT), 0, false), MWH, PRICES);
    send(&mut book, support(9_999));
    let message = open_sides(KEY, (0, 0), (0, 0));
    let refusal = turn_away(&mut book, message, &[], &[]);
    assert_eq!(refusal, Refusal::AboveSupport);
    send(&mut book, support(10_000));
    assert_eq!(send(&mut book, message), 0);
}
