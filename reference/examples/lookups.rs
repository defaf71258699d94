//! The chart and the import test at document 01's edges, and the newer chart
//! of document 02, order 5, whole. What it prints is what the program
//! `lookups` must write.

use reference::chart::{self, Entry, Table, NEWER, OLDER};
use reference::history::{self, Window};
use reference::refusal::Refusal;

const ORDINARY: u64 = 0;
const HOLIDAY: u64 = 1;
/// The most that a number of the import test may be.
const MOST: u64 = 1_000_000_000;

fn main() {
    periods();
    seasons();
    ends_of_the_tables();
    past_the_limits();
    newer_chart();
    newer_seasons();
    past_the_limits_of_the_newer();
    editions();
    shares();
    windows();
    most();
    contradictions();
}

/// Both ends of each period of a July weekday and of a July weekend, then a
/// holiday in each other season.
fn periods() {
    for hour in [0, 6, 7, 10, 11, 14, 15, 18, 19, 22, 23] {
        look(OLDER, Table::Import, 1, 7, ORDINARY, hour);
    }
    for hour in [6, 7, 22, 23] {
        look(OLDER, Table::Import, 1, 7, HOLIDAY, hour);
    }
    for month in [1, 10] {
        look(OLDER, Table::Import, 1, month, HOLIDAY, 12);
    }
}

/// The months in which a season begins or ends, and those beside them.
fn seasons() {
    for month in [4, 5, 8, 9, 11, 12, 1, 2, 3] {
        look(OLDER, Table::Export, 2, month, ORDINARY, 7);
    }
}

/// The least and the largest differential, then the first and the last of
/// each table.
fn ends_of_the_tables() {
    look(OLDER, Table::Import, 4, 1, ORDINARY, 11);
    look(OLDER, Table::Import, 9, 7, ORDINARY, 15);
    for table in [Table::Import, Table::Export] {
        look(OLDER, table, 1, 5, ORDINARY, 7);
        look(OLDER, table, 10, 11, ORDINARY, 23);
    }
}

/// Each number that is looked up by, at its limits and past them.
fn past_the_limits() {
    for bus in [0, 1, 10, 11, u64::MAX] {
        look(OLDER, Table::Import, bus, 7, ORDINARY, 7);
    }
    for month in [0, 1, 12, 13, u64::MAX] {
        look(OLDER, Table::Import, 1, month, ORDINARY, 7);
    }
    for day_type in [ORDINARY, HOLIDAY, 2, u64::MAX] {
        look(OLDER, Table::Export, 1, 7, day_type, 7);
    }
    for hour in [0, 23, 24, u64::MAX] {
        look(OLDER, Table::Export, 1, 7, ORDINARY, hour);
    }
}

/// The whole newer chart: a month of each season, each type of day, each hour.
fn newer_chart() {
    for month in [7, 1, 10] {
        for day_type in [ORDINARY, HOLIDAY] {
            for hour in 0..24 {
                look(NEWER, Table::Import, 1, month, day_type, hour);
            }
        }
    }
}

/// The months in which a season begins or ends, and those beside them.
fn newer_seasons() {
    for month in [4, 5, 8, 9, 11, 12, 1, 2, 3] {
        look(NEWER, Table::Import, 2, month, ORDINARY, 7);
    }
}

/// Each number that the newer chart is looked up by, at its limits and past
/// them.
fn past_the_limits_of_the_newer() {
    for bus in [0, 1, 10, 11, u64::MAX] {
        look(NEWER, Table::Import, bus, 7, ORDINARY, 18);
    }
    for month in [0, 12, 13, u64::MAX] {
        look(NEWER, Table::Import, 1, month, ORDINARY, 18);
    }
    for day_type in [HOLIDAY, 2, u64::MAX] {
        look(NEWER, Table::Import, 1, 7, day_type, 18);
    }
    for hour in [0, 23, 24, u64::MAX] {
        look(NEWER, Table::Import, 1, 7, ORDINARY, hour);
    }
}

/// An export in each edition, then editions that are none.
fn editions() {
    for edition in [OLDER, NEWER] {
        look(edition, Table::Export, 1, 7, ORDINARY, 18);
    }
    for edition in [0, OLDER, NEWER, 3, u64::MAX] {
        look(edition, Table::Import, 1, 7, ORDINARY, 18);
    }
    for edition in [0, 3] {
        look(edition, Table::Export, 1, 7, ORDINARY, 18);
    }
}

/// The share lost, on both sides of a quarter, and of nothing.
fn shares() {
    for window in [
        (50, 100, 24),
        (50, 100, 25),
        (50, 101, 25),
        (50, 1, 0),
        (50, 0, 0),
        (0, 0, 0),
    ] {
        test(window, window);
    }
}

/// 49 and 50 bids, then three months and six that disagree.
fn windows() {
    test((49, 100, 0), (49, 100, 0));
    test((49, 100, 0), (50, 100, 0));
    test((50, 100, 0), (50, 100, 0));
    test((50, 100, 24), (60, 200, 100));
    test((50, 100, 25), (60, 1_000, 25));
    test((49, 100, 25), (60, 1_000, 25));
    test((49, 100, 24), (60, 200, 100));
}

/// Each number at its most and past it, in three months and in six.
fn most() {
    let usual = (50, 100, 24);
    let far = (u64::MAX, u64::MAX, u64::MAX);
    for bids in [MOST, MOST + 1] {
        test((bids, 100, 24), (MOST, 100, 24));
    }
    for mwh in [MOST, MOST + 1] {
        test((50, mwh, 24), (50, MOST, 24));
    }
    for loss in [MOST, MOST + 1] {
        test((50, MOST, loss), (50, MOST, MOST));
    }
    test(far, usual);
    for bids in [MOST, MOST + 1] {
        test(usual, (bids, 100, 24));
    }
    for mwh in [MOST, MOST + 1] {
        test(usual, (50, mwh, 24));
    }
    for both in [MOST, MOST + 1] {
        test(usual, (50, both, both));
    }
    test(usual, far);
    test(far, far);
}

/// A loss equal to its MWh and above it, in each window; then a six-month
/// number below its three-month one.
fn contradictions() {
    for loss in [100, 101] {
        test((50, 100, loss), (50, 200, loss));
    }
    for six in [
        (50, 100, 100),
        (50, 100, 101),
        (49, 100, 24),
        (50, 99, 24),
        (50, 100, 23),
    ] {
        test((50, 100, 24), six);
    }
}

/// Where the answer is the group only, no cents are printed.
fn look(edition: u64, table: Table, bus: u64, month: u64, day_type: u64, hour: u64) {
    let name = match table {
        Table::Import => "import",
        Table::Export => "export",
    };
    let answer = chart::lookup(edition, table, bus, month, day_type, hour);
    let number = number(answer.err());
    let nothing = Entry {
        group: 0,
        differential: Some(0),
    };
    let entry = answer.unwrap_or(nothing);
    print!("edition {edition} {name} bus {bus} month {month}");
    print!(" day type {day_type} hour {hour}: {number} {}", entry.group);
    match entry.differential {
        Some(cents) => println!(" {cents}"),
        None => println!(),
    }
}

/// The bids, the MWh and the loss of three months, then those of six.
fn test(three: (u64, u64, u64), six: (u64, u64, u64)) {
    let (three, six) = (window(three), window(six));
    let answer = history::import_test(three, six);
    let number = number(answer.err());
    let exempt = u64::from(answer.unwrap_or(false));
    print!("three months {}, six months {}", shown(three), shown(six));
    println!(": {number} {exempt}");
}

fn window((bids, mwh, loss): (u64, u64, u64)) -> Window {
    Window { bids, mwh, loss }
}

fn shown(window: Window) -> String {
    let Window { bids, mwh, loss } = window;
    format!("bids {bids} MWh {mwh} loss {loss}")
}

/// The refusal's number, and 0 for an answer; 17 and 18 "answer 0 besides".
fn number(refusal: Option<Refusal>) -> u64 {
    refusal.map_or(0, Refusal::number)
}
