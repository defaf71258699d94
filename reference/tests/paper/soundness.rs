//! "A book is sound when": each clause broken in turn.

use crate::helpers::*;
use reference::book::Supply;
use reference::{Book, Record, Refusal};

/// Kind 5 at stage 1, which has no requirement (02, order 3).
const PENDING: (u64, u64) = (QUARTER_HOUR_EXPORT, 1);

/// A sound record of a kind at a stage, with a value in every field that may
/// hold one.
fn full(kind: u64, stage: u64) -> Record {
    let from_2 = stage >= 2 && kind != HOUR_AHEAD_EXPORT && kind != QUARTER_HOUR_EXPORT;
    let two_sides = Supply {
        mwh: 20,
        differential: 70,
        schedule: if from_2 { 5 } else { 0 },
    };
    Record {
        differential: if has_differential(kind) { 60 } else { 0 },
        exempt: kind == IMPORT,
        schedule: if from_2 { 4 } else { 0 },
        day_ahead_price: if from_2 && kind == IMPORT { -3 } else { 0 },
        requirement: if (kind, stage) == PENDING { 0 } else { 9 },
        supply: if kind == VIRTUAL {
            two_sides
        } else {
            Supply::NONE
        },
        ..staged(kind, stage)
    }
}

/// Kinds 1 and 2, and the sides of kind 6 (02, order 6).
fn has_differential(kind: u64) -> bool {
    [IMPORT, EXPORT, VIRTUAL].contains(&kind)
}

/// The stages that a kind has.
fn stages(kind: u64) -> &'static [u64] {
    match kind {
        HOUR_AHEAD_EXPORT => &[1, 3, 4],
        VIRTUAL => &[1, 2, 4],
        _ => &[1, 2, 3, 4],
    }
}

fn kinds_and_stages() -> Vec<(u64, u64)> {
    let of = |kind| stages(kind).iter().map(move |&stage| (kind, stage));
    (1..=6).flat_map(of).collect()
}

/// An unsound book answers refusal 1 to every message and stays as it is.
#[track_caller]
fn assert_unsound(book: Book) {
    assert!(!book.is_sound());
    let keys = [
        key(IMPORT),
        key(HOUR_AHEAD_EXPORT),
        key(QUARTER_HOUR_EXPORT),
        key(VIRTUAL),
        key(0),
    ];
    for message in keys.into_iter().flat_map(one_of_each) {
        let mut next = book.clone();
        let answer = next.apply(message, MWH, PRICES);
        assert_eq!(answer, refused(Refusal::BookNotSound, 0, 0));
        assert_eq!(answer.number(), 1);
        assert_eq!(next, book);
    }
}

/// Whether a book of this one record is sound; an unsound one must refuse.
#[track_caller]
fn sound(record: Record) -> bool {
    let book = with(record);
    if !book.is_sound() {
        assert_unsound(book.clone());
    }
    book.is_sound()
}

/// A sound record and the same with a change: sound, then not.
#[track_caller]
fn breaks(kind: u64, stage: u64, change: impl Fn(&mut Record)) {
    let mut record = full(kind, stage);
    assert!(sound(record), "{record:?}");
    change(&mut record);
    assert!(!sound(record), "{record:?}");
}

/// A sound record and the same with a change: sound, and still so.
#[track_caller]
fn keeps(kind: u64, stage: u64, change: impl Fn(&mut Record)) {
    let mut record = full(kind, stage);
    assert!(sound(record), "{record:?}");
    change(&mut record);
    assert!(sound(record), "{record:?}");
}

#[test]
fn every_kind_and_stage_can_be_sound() {
    for (kind, stage) in kinds_and_stages() {
        assert!(sound(full(kind, stage)));
    }
}

#[test]
fn support_is_in_range() {
    for cents in [0, 1, MOST_SUPPORT] {
        let mut book = wide();
        book.support = cents;
        assert!(book.is_sound());
    }
    for cents in [-1, i64::MIN, MOST_SUPPORT + 1, i64::MAX] {
        let mut book = wide();
        book.support = cents;
        assert_unsound(book);
    }
}

#[test]
fn keys_are_distinct() {
    for places in [(0, 1), (0, 255), (100, 200)] {
        let mut book = wide();
        book.records[places.0] = full(IMPORT, 1);
        book.records[places.1] = full(IMPORT, 3);
        total(&mut book);
        assert_unsound(book.clone());
        book.records[places.1].key.hour += 1;
        assert!(book.is_sound());
        book.records[places.1] = full(EXPORT, 1);
        assert!(book.is_sound());
    }
}

#[test]
fn free_places_are_zero() {
    let changes: [fn(&mut Record); 17] = [
        |record| record.key.path = 1,
        |record| record.key.hour = 1,
        |record| record.stage = 1,
        |record| record.bid_mwh = 1,
        |record| record.differential = 1,
        |record| record.exempt = true,
        |record| record.schedule = 1,
        |record| record.day_ahead_price = 1,
        |record| record.requirement = 1,
        |record| record.requirement = -1,
        |record| record.intervals[0] = 1,
        |record| record.intervals[1] = 1,
        |record| record.intervals[2] = 1,
        |record| record.intervals[3] = 1,
        |record| record.supply.mwh = 1,
        |record| record.supply.differential = 1,
        |record| record.supply.schedule = 1,
    ];
    for change in changes {
        for place in [0, 128, 255] {
            let mut book = wide();
            change(&mut book.records[place]);
            total(&mut book);
            assert_unsound(book);
        }
    }
}

#[test]
fn free_places_may_lie_between_records() {
    let mut book = wide();
    book.records[3] = full(IMPORT, 2);
    book.records[255] = full(WHEEL, 4);
    total(&mut book);
    assert!(book.is_sound());
}

#[test]
fn kinds_are_1_to_6() {
    for number in [0, 7, u64::MAX] {
        for (kind, stage) in kinds_and_stages() {
            breaks(kind, stage, |record| record.key.kind = number);
        }
    }
}

#[test]
fn paths_are_1_to_999_and_1_to_11_for_kind_6() {
    for (kind, stage) in kinds_and_stages() {
        let most = if kind == VIRTUAL { 11 } else { 999 };
        for path in [0, most + 1, 1000, u64::MAX] {
            breaks(kind, stage, |record| record.key.path = path);
        }
        for path in [1, 11, most] {
            keeps(kind, stage, |record| record.key.path = path);
        }
    }
}

#[test]
fn hours_are_0_to_999_999() {
    for (kind, stage) in kinds_and_stages() {
        for hour in [1_000_000, u64::MAX] {
            breaks(kind, stage, |record| record.key.hour = hour);
        }
        for hour in [0, 999_999] {
            keeps(kind, stage, |record| record.key.hour = hour);
        }
    }
}

#[test]
fn stages_are_1_to_4() {
    for (kind, stage) in kinds_and_stages() {
        for number in [0, 5, u64::MAX] {
            breaks(kind, stage, |record| record.stage = number);
        }
    }
}

#[test]
fn stages_are_never_2_for_kind_3() {
    for stage in [1, 3, 4] {
        breaks(HOUR_AHEAD_EXPORT, stage, |record| record.stage = 2);
    }
}

#[test]
fn stages_are_never_3_for_kind_6() {
    for stage in [1, 2, 4] {
        breaks(VIRTUAL, stage, |record| record.stage = 3);
    }
    // "Bill goes from 2 to 4", and what was posted stays.
    for stage in [2, 4] {
        keeps(VIRTUAL, 2, |record| record.stage = stage);
    }
}

#[test]
fn bid_mwh_is_at_most_10_000_for_kinds_1_4_and_6_0_for_5_and_640_000_otherwise() {
    for (kind, stage) in kinds_and_stages() {
        let most = match kind {
            IMPORT | WHEEL | VIRTUAL => 10_000,
            QUARTER_HOUR_EXPORT => 0,
            _ => 640_000,
        };
        keeps(kind, stage, |record| record.bid_mwh = most);
        for bid_mwh in [most + 1, u64::MAX] {
            breaks(kind, stage, |record| record.bid_mwh = bid_mwh);
        }
    }
}

#[test]
fn differentials_are_in_range_and_0_for_kinds_3_to_5() {
    for (kind, stage) in kinds_and_stages() {
        let most = if has_differential(kind) { 1_000_000 } else { 0 };
        for differential in [0, most] {
            keeps(kind, stage, |record| record.differential = differential);
        }
        for differential in [most + 1, u64::MAX] {
            breaks(kind, stage, |record| record.differential = differential);
        }
    }
}

#[test]
fn schedule_is_at_most_bid_mwh() {
    for kind in [IMPORT, EXPORT, WHEEL, VIRTUAL] {
        for &stage in &stages(kind)[1..] {
            keeps(kind, stage, |record| record.schedule = 10);
            keeps(kind, stage, |record| record.schedule = 0);
            for schedule in [11, 20, u64::MAX] {
                breaks(kind, stage, |record| record.schedule = schedule);
            }
        }
    }
}

#[test]
fn schedule_is_0_at_stage_1_and_for_kinds_3_and_5() {
    for kind in 1..=6 {
        breaks(kind, 1, |record| record.schedule = 1);
    }
    for stage in 1..=4 {
        breaks(QUARTER_HOUR_EXPORT, stage, |record| record.schedule = 1);
    }
    for stage in [1, 3, 4] {
        breaks(HOUR_AHEAD_EXPORT, stage, |record| record.schedule = 1);
    }
}

#[test]
fn the_day_ahead_price_is_0_except_for_kind_1_from_stage_2() {
    for (kind, stage) in kinds_and_stages() {
        let may_stand = kind == IMPORT && stage >= 2;
        for price in [1, -1, 1_000_000, -1_000_000] {
            if may_stand {
                keeps(kind, stage, |record| record.day_ahead_price = price);
            } else {
                breaks(kind, stage, |record| record.day_ahead_price = price);
            }
        }
        for price in [1_000_001, -1_000_001, i64::MIN, i64::MAX] {
            breaks(kind, stage, |record| record.day_ahead_price = price);
        }
    }
}

#[test]
fn the_exempt_mark_stands_only_on_kind_1() {
    for (kind, stage) in kinds_and_stages() {
        if kind == IMPORT {
            keeps(kind, stage, |record| record.exempt = false);
        } else {
            breaks(kind, stage, |record| record.exempt = true);
        }
    }
}

#[test]
fn the_requirement_is_bounded_at_each_stage() {
    for (kind, stage) in kinds_and_stages() {
        let (least, most) = match (stage, kind) {
            (1, QUARTER_HOUR_EXPORT) => (0, 0),
            (1 | 2, WHEEL) => (0, 20_000_000_000),
            (1 | 2, _) => (0, 640_000_000_000),
            (3, _) => (-1_300_000_000_000, 1_300_000_000_000),
            _ => (-1_000_000_000_000, 1_000_000_000_000),
        };
        for requirement in [least, 0, most] {
            keeps(kind, stage, |record| record.requirement = requirement);
        }
        for requirement in [least - 1, most + 1, i64::MIN, i64::MAX] {
            breaks(kind, stage, |record| record.requirement = requirement);
        }
    }
}

#[test]
fn interval_sums_are_at_most_640_000_and_0_for_every_kind_but_5() {
    for (kind, stage) in kinds_and_stages() {
        for interval in 0..4 {
            let set = |mwh| move |record: &mut Record| record.intervals[interval] = mwh;
            for mwh in [0, 1, 639_999, 640_000] {
                if kind == QUARTER_HOUR_EXPORT || mwh == 0 {
                    keeps(kind, stage, set(mwh));
                } else {
                    breaks(kind, stage, set(mwh));
                }
            }
            for mwh in [640_001, u64::MAX] {
                breaks(kind, stage, set(mwh));
            }
        }
    }
    // All four may be 0: a point of 0 MWh is a point.
    for stage in 1..=4 {
        keeps(QUARTER_HOUR_EXPORT, stage, |record| {
            record.intervals = [0; 4]
        });
    }
}

#[test]
fn a_kind_5_record_is_no_record_of_another_kind() {
    for (kind, stage) in kinds_and_stages() {
        for other in (1..=5).filter(|&other| other != kind) {
            if [kind, other].contains(&QUARTER_HOUR_EXPORT) {
                breaks(kind, stage, |record| record.key.kind = other);
            }
        }
    }
}

#[test]
fn supply_mwh_are_at_most_10_000_and_the_differential_at_most_1_000_000() {
    for stage in [1, 2, 4] {
        for mwh in [5, 10_000] {
            keeps(VIRTUAL, stage, |record| record.supply.mwh = mwh);
        }
        for mwh in [10_001, 640_000, u64::MAX] {
            breaks(VIRTUAL, stage, |record| record.supply.mwh = mwh);
        }
        for differential in [0, 1_000_000] {
            let set = move |record: &mut Record| record.supply.differential = differential;
            keeps(VIRTUAL, stage, set);
        }
        for differential in [1_000_001, u64::MAX] {
            let set = move |record: &mut Record| record.supply.differential = differential;
            breaks(VIRTUAL, stage, set);
        }
    }
}

#[test]
fn posted_supply_is_at_most_bid_supply_and_0_at_stage_1() {
    for stage in [2, 4] {
        for schedule in [0, 11, 20] {
            keeps(VIRTUAL, stage, |record| record.supply.schedule = schedule);
        }
        for schedule in [21, u64::MAX] {
            breaks(VIRTUAL, stage, |record| record.supply.schedule = schedule);
        }
        breaks(VIRTUAL, stage, |record| record.supply.mwh = 4);
    }
    for schedule in [1, 20, 21] {
        breaks(VIRTUAL, 1, |record| record.supply.schedule = schedule);
    }
}

#[test]
fn either_side_or_both_may_be_0() {
    for stage in [1, 2, 4] {
        keeps(VIRTUAL, stage, |record| record.supply = Supply::NONE);
        keeps(VIRTUAL, stage, |record| {
            record.bid_mwh = 0;
            record.differential = 0;
            record.schedule = 0;
        });
        keeps(VIRTUAL, stage, |record| {
            *record = Record {
                key: record.key,
                stage,
                ..Record::FREE
            }
        });
    }
}

#[test]
fn the_supply_side_is_0_for_every_kind_but_6() {
    let changes: [fn(&mut Record); 3] = [
        |record| record.supply.mwh = 1,
        |record| record.supply.differential = 1,
        |record| record.supply.schedule = 1,
    ];
    for (kind, stage) in kinds_and_stages() {
        if kind != VIRTUAL {
            for change in changes {
                breaks(kind, stage, change);
            }
        }
    }
    for stage in [1, 2, 4] {
        for other in 1..=5 {
            breaks(VIRTUAL, stage, |record| record.key.kind = other);
        }
    }
}

#[test]
fn a_requirement_need_not_be_the_one_of_the_formula() {
    // A sound book is bounded, no more is asked: an exempt import at stage 1
    // may hold an amount, and a virtual bid more than its sides can need.
    for kind in [IMPORT, VIRTUAL] {
        keeps(kind, 1, |record| record.requirement = 640_000_000_000);
    }
}

#[test]
fn a_broken_place_anywhere_is_found() {
    for place in 0..256 {
        let mut book = wide();
        book.records[place] = full(IMPORT, 1);
        total(&mut book);
        assert!(book.is_sound());
        book.records[place].bid_mwh = 10_001;
        assert!(!book.is_sound());
    }
}
