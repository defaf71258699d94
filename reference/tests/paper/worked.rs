//! "Examples that a program prints": W1 to W14, through the book. "W14
//! becomes 140000" (02, order 2).

use crate::helpers::*;

const EXPORT_MWH: &[u64] = &[100, 90, 80, 70];
const EXPORT_PRICES: &[i64] = &[1000, 1500, 3000, 4500];

fn w1_to_w3() -> [i64; 3] {
    let (mut book, key) = (wide(), key(IMPORT));
    [
        take(
            &mut book,
            open(key, 6000, false),
            &[27, 61, 100],
            &[4600, 5500, 5800],
        ),
        send(&mut book, post(key, 50, 4000, 0)),
        send(&mut book, finish(key, 10, 6000, 0)),
    ]
}

fn export_bid(differential: u64) -> i64 {
    take(
        &mut wide(),
        open(key(EXPORT), differential, false),
        EXPORT_MWH,
        EXPORT_PRICES,
    )
}

/// The posted amount, then the finished one.
fn export_operating(actual: u64) -> (i64, i64) {
    let (mut book, key) = (wide(), key(EXPORT));
    take(&mut book, open(key, 4000, false), EXPORT_MWH, EXPORT_PRICES);
    (
        send(&mut book, post(key, 100, 5000, 0)),
        send(&mut book, finish(key, actual, 4000, 0)),
    )
}

fn wheel_bid(mwh: &[u64], prices: &[i64]) -> i64 {
    take(&mut wide(), open(key(WHEEL), 0, false), mwh, prices)
}

/// The posted amount, then the finished one.
fn wheel_operating(actual: u64) -> (i64, i64) {
    let (mut book, key) = (wide(), key(WHEEL));
    take(&mut book, open(key, 0, false), &[50], &[-500]);
    (
        send(&mut book, post(key, 50, 300, -100)),
        send(&mut book, finish(key, actual, 300, -200)),
    )
}

fn w14() -> i64 {
    let (mut book, key) = (wide(), key(IMPORT));
    take(&mut book, open(key, 6000, false), &[50], &[0]);
    send(&mut book, post(key, 50, -4000, 0));
    send(&mut book, finish(key, 60, 6000, 0))
}

#[test]
fn w1_to_w14() {
    let [w1, w2, w3] = w1_to_w3();
    let (w6, w7) = export_operating(90);
    let (w6_again, w8) = export_operating(120);
    let (w10, w11) = wheel_operating(40);
    let (w10_again, w12) = wheel_operating(70);
    assert_eq!((w6, w10), (w6_again, w10_again));
    let printed = [
        w1,
        w2,
        w3,
        export_bid(1200),
        export_bid(1400),
        w6,
        w7,
        w8,
        wheel_bid(&[30, 40, 50], &[-500, -400, 200]),
        w10,
        w11,
        w12,
        wheel_bid(&[50], &[200]),
        w14(),
    ];
    assert_eq!(
        printed,
        [
            600_000, 300_000, 40_000, 450_000, 476_000, 500_000, 460_000, 580_000, 16_000, 20_000,
            15_000, 30_000, 0, 140_000
        ]
    );
}
