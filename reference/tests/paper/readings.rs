//! "Readings that look right", each shown not to be what the code computes.

use crate::helpers::*;
use reference::formulas;

#[test]
fn each_finished_import_has_its_own_floor() {
    let mut book = wide();
    let (gain, loss) = (key_no(IMPORT, 1), key_no(IMPORT, 2));
    for key in [gain, loss] {
        take(&mut book, open(key, 6000, false), &[50], &[0]);
        send(&mut book, post(key, 50, 4000, 0));
    }
    // Balancing -60,000 less 200,000, and balancing 240,000 less 200,000.
    assert_eq!(send(&mut book, finish(gain, 60, 6000, 0)), 0);
    assert_eq!(send(&mut book, finish(loss, 10, 6000, 0)), 40_000);
    let without_floors: [i64; 2] = [-260_000, 40_000];
    let one_floor_under_the_sum = without_floors.iter().sum::<i64>().max(0);
    assert_ne!(book.held(), one_floor_under_the_sum);
    assert_eq!(book.held(), 40_000);
}

#[test]
fn an_import_does_not_add_its_points() {
    let mut book = wide();
    let mwh = [27, 61, 100];
    let requirement = take(
        &mut book,
        open(key(IMPORT), 6000, false),
        &mwh,
        &[4600, 5500, 5800],
    );
    let added = 188 * 6000;
    assert_eq!(formulas::sum_of_mwh(&mwh), 188);
    assert_ne!(requirement, added);
    assert_eq!(requirement, 600_000);
    assert_eq!(record(&book, key(IMPORT)).bid_mwh, 100);
}

/// The export of W4.
const POINTS: [(u64, i64); 4] = [(100, 1000), (90, 1500), (80, 3000), (70, 4500)];

fn w4() -> i64 {
    let (mwh, prices): (Vec<u64>, Vec<i64>) = POINTS.into_iter().unzip();
    take(&mut wide(), open(key(EXPORT), 1200, false), &mwh, &prices)
}

#[test]
fn an_export_does_not_price_each_point_by_itself() {
    let each_by_itself: i64 = POINTS.iter().map(|&(mwh, price)| mwh as i64 * price).sum();
    assert_eq!(each_by_itself, 790_000);
    assert_ne!(w4(), each_by_itself);
    assert_eq!(w4(), 450_000);
}

#[test]
fn an_export_does_not_test_only_the_highest_price() {
    let highest_alone = 70 * 4500;
    let by_differential = 340 * 1200;
    assert_eq!(highest_alone, 315_000);
    assert_eq!(highest_alone.max(by_differential), 408_000);
    assert_ne!(w4(), 408_000);
    assert_eq!(w4(), 450_000);
}

#[test]
fn the_support_is_not_halved() {
    let mut book = wide();
    owe(&mut book, key(HOUR_AHEAD_EXPORT), 49_999);
    send(&mut book, support(99_999));
    let halved_and_cut = 99_999 / 2;
    assert!(book.net_owed() >= halved_and_cut);
    assert!(!book.is_suspended());
    let answer = book.apply(open(key(WHEEL), 0, false), &[1], &[0]);
    assert_eq!(answer, accepted(0, 49_999, 49_999));
}
