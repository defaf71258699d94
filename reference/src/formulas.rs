//! "Requirement at each stage", formula by formula.
//!
//! MWh, prices, differentials and amounts come as `i128`, so that no product
//! of values in their ranges comes near the end of the type. A curve's two
//! lists are of equal length here. The two sides of a virtual bid come as
//! they are written, and are turned away when out of range.

use std::cmp::{max, Ordering};

use crate::limits;
use crate::refusal::{require, Refusal};

/// A curve's points, one by one, as MWh and price.
fn points<'a>(mwh: &'a [u64], prices: &'a [i64]) -> impl Iterator<Item = (i128, i128)> + 'a {
    let mwh = mwh.iter().map(|&mwh| i128::from(mwh));
    let prices = prices.iter().map(|&price| i128::from(price));
    mwh.zip(prices)
}

/// Imports and wheels: "bid MWh is the largest MWh of any point."
pub fn largest_mwh(mwh: &[u64]) -> i128 {
    mwh.iter().map(|&mwh| i128::from(mwh)).max().unwrap_or(0)
}

/// Exports: "Points add up: bid MWh is their sum."
pub fn sum_of_mwh(mwh: &[u64]) -> i128 {
    mwh.iter().map(|&mwh| i128::from(mwh)).sum()
}

/// Import, bid: "bid MWh x differential"; 0 when exempt.
pub fn import_bid(bid_mwh: i128, differential: i128, exempt: bool) -> i128 {
    unless_exempt(exempt, bid_mwh * differential)
}

/// Import, posted: "schedule x differential"; 0 when exempt.
pub fn import_posted(schedule: i128, differential: i128, exempt: bool) -> i128 {
    unless_exempt(exempt, schedule * differential)
}

/// Import, finished, as filed (02, order 2; 001, section 26.4.2.2.1 (3)): "no
/// floor in the balancing payment: it is (schedule - actual) x real-time
/// price, and only the difference with the Day-Ahead payment is held at
/// zero"; 0 when exempt.
///
/// The older paper 000, and 01 after it, had "Max((schedule - actual) x
/// real-time price, 0)" for the balancing payment. The two differ where both
/// payments are below 0.
pub fn import_finished(
    schedule: i128,
    actual: i128,
    day_ahead_price: i128,
    real_time_price: i128,
    exempt: bool,
) -> i128 {
    let balancing_payment = (schedule - actual) * real_time_price;
    let day_ahead_payment = schedule * day_ahead_price;
    unless_exempt(exempt, max(balancing_payment - day_ahead_payment, 0))
}

/// "An exempt import has 0 at these three stages."
fn unless_exempt(exempt: bool, requirement: i128) -> i128 {
    if exempt {
        0
    } else {
        requirement
    }
}

/// "Price exposure is the largest, over every price p from 0 up, of
/// p x (MWh of all points priced at p or above); it is 0 when no point is
/// priced above 0."
///
/// Between two neighbouring bid prices the MWh stay the same and the product
/// grows with p; above the highest bid price there are no MWh. So the largest
/// is found at a bid price, or is the 0 of price 0.
pub fn price_exposure(mwh: &[u64], prices: &[i64]) -> i128 {
    prices
        .iter()
        .map(|&price| i128::from(price))
        .filter(|&price| price >= 0)
        .map(|price| exposure_at(price, mwh, prices))
        .fold(0, max)
}

/// "p x (MWh of all points priced at p or above)."
fn exposure_at(p: i128, mwh: &[u64], prices: &[i64]) -> i128 {
    let mwh_at_p_or_above: i128 = points(mwh, prices)
        .filter(|&(_, price)| price >= p)
        .map(|(mwh, _)| mwh)
        .sum();
    p * mwh_at_p_or_above
}

/// Export, bid, kind 2: "Max(price exposure, bid MWh x differential)."
pub fn export_bid(mwh: &[u64], prices: &[i64], differential: i128) -> i128 {
    max(price_exposure(mwh, prices), sum_of_mwh(mwh) * differential)
}

/// Export, bid, kind 3: "price exposure."
pub fn hour_ahead_export_bid(mwh: &[u64], prices: &[i64]) -> i128 {
    price_exposure(mwh, prices)
}

/// Export, posted, kind 2: "schedule x Max(Day-Ahead price, differential)."
pub fn export_posted(schedule: i128, day_ahead_price: i128, differential: i128) -> i128 {
    schedule * max(day_ahead_price, differential)
}

/// Export, finished, kind 2: "the posted amount
/// - Max((schedule - actual) x real-time price, 0)
/// + Max((actual - schedule) x real-time price, 0)."
///
/// "A finished kind 2 may be below zero; no floor is named."
pub fn export_finished(posted: i128, schedule: i128, actual: i128, real_time_price: i128) -> i128 {
    posted - max((schedule - actual) * real_time_price, 0)
        + max((actual - schedule) * real_time_price, 0)
}

/// Export, finished, kind 3: "Max(actual x real-time price, 0)."
pub fn hour_ahead_export_finished(actual: i128, real_time_price: i128) -> i128 {
    max(actual * real_time_price, 0)
}

/// Hour-Ahead export with four interval curves, kind 5, closed (02, order 3):
/// "the sum over intervals of price x MWh x a quarter hour, not below 0,
/// rounded up to a cent once."
///
/// Floor and rounding are the bid's: an interval below 0 takes from the
/// others, and quarters of a cent are added before they are rounded.
pub fn quarter_hour_export_closed(mwh: &[u64], prices: &[i64]) -> i128 {
    let quarters: i128 = points(mwh, prices).map(|(mwh, price)| price * mwh).sum();
    quarters_rounded_up(max(quarters, 0))
}

/// Whole cents that cover so many quarters of a cent.
fn quarters_rounded_up(quarters: i128) -> i128 {
    (quarters + 3) / 4
}

/// The same, finished (02, order 3): "Max(actual x real-time price, 0)."
pub fn quarter_hour_export_finished(actual: i128, real_time_price: i128) -> i128 {
    max(actual * real_time_price, 0)
}

/// Wheel, bid: "the largest of -(MWh x price) over the points, not below 0."
pub fn wheel_bid(mwh: &[u64], prices: &[i64]) -> i128 {
    points(mwh, prices)
        .map(|(mwh, price)| -(mwh * price))
        .fold(0, max)
}

/// "Prices are at withdrawal, then at injection; their difference is
/// withdrawal less injection."
pub fn difference(withdrawal: i128, injection: i128) -> i128 {
    withdrawal - injection
}

/// Wheel, posted: "Max(schedule x difference, 0)."
pub fn wheel_posted(schedule: i128, difference: i128) -> i128 {
    max(schedule * difference, 0)
}

/// Wheel, finished: "posted - Max(schedule - actual, 0) x difference
/// + Max(Max(actual - schedule, 0) x difference, 0)."
pub fn wheel_finished(posted: i128, schedule: i128, actual: i128, difference: i128) -> i128 {
    posted - max(schedule - actual, 0) * difference + max(max(actual - schedule, 0) * difference, 0)
}

/// One side of a virtual bid, load or supply: "MWh and differential per side"
/// (02, order 6).
#[derive(Clone, Copy, Debug, Default, PartialEq, Eq)]
pub struct Side {
    /// MWh, bid or posted: 0 to 10,000.
    pub mwh: u64,
    /// Cents per MWh: 0 to 1,000,000.
    pub differential: u64,
}

impl Side {
    /// MWh x differential.
    fn amount(self) -> i128 {
        i128::from(self.mwh) * i128::from(self.differential)
    }

    /// What this side has above the other, which has no more MWh.
    fn net_of(self, other: Side) -> Side {
        Side {
            mwh: self.mwh - other.mwh,
            ..self
        }
    }
}

/// Virtual bid, kind 6, bid (02, order 6; 001, section 26.4.2.6): "while bid,
/// the requirement is the greater of load MWh x load differential and supply
/// MWh x supply differential." Refusals 6 and 8.
pub fn virtual_bid(load: Side, supply: Side) -> Result<i128, Refusal> {
    check_sides(load, supply)?;
    Ok(max(load.amount(), supply.amount()))
}

/// The same, posted (02, order 6): "the net MWh times the differential of the
/// net side, 0 when they cancel." The MWh are those posted. Refusals 6 and 8.
///
/// 001: "only the credit requirement for the net position of the accepted Bids
/// (in MWhs of Virtual Load or Virtual Supply) will be included".
pub fn virtual_posted(load: Side, supply: Side) -> Result<i128, Refusal> {
    check_sides(load, supply)?;
    Ok(match load.mwh.cmp(&supply.mwh) {
        Ordering::Greater => load.net_of(supply).amount(),
        Ordering::Less => supply.net_of(load).amount(),
        Ordering::Equal => 0,
    })
}

/// Refusals 6 and 8 of two sides, in this order.
fn check_sides(load: Side, supply: Side) -> Result<(), Refusal> {
    check_side_mwh(load.mwh, supply.mwh)?;
    let fits = |side: Side| limits::DIFFERENTIAL.contains(&side.differential);
    require(fits(load) && fits(supply), Refusal::Differential)
}

/// Refusal 6 of two sides: "Each side's MWh is at most 10,000" (02, order 6).
pub(crate) fn check_side_mwh(load: u64, supply: u64) -> Result<(), Refusal> {
    let fits = |mwh: u64| limits::SIDE_MWH.contains(&mwh);
    require(fits(load) && fits(supply), Refusal::Quantity)
}

#[cfg(test)]
mod tests {
    use super::*;

    const EXPORT_MWH: [u64; 4] = [100, 90, 80, 70];
    const EXPORT_PRICES: [i64; 4] = [1000, 1500, 3000, 4500];
    const WHEEL_MWH: [u64; 3] = [30, 40, 50];
    const WHEEL_PRICES: [i64; 3] = [-500, -400, 200];

    #[test]
    fn worked_imports() {
        let bid_mwh = largest_mwh(&[27, 61, 100]);
        assert_eq!(import_bid(bid_mwh, 6000, false), 600_000); // W1
        assert_eq!(import_posted(50, 6000, false), 300_000); // W2
        assert_eq!(import_finished(50, 10, 4000, 6000, false), 40_000); // W3
        assert_eq!(import_finished(50, 60, -4000, 6000, false), 140_000); // W14, 02, order 2
    }

    #[test]
    fn worked_exports() {
        assert_eq!(export_bid(&EXPORT_MWH, &EXPORT_PRICES, 1200), 450_000); // W4
        assert_eq!(export_bid(&EXPORT_MWH, &EXPORT_PRICES, 1400), 476_000); // W5
        assert_eq!(export_posted(100, 5000, 4000), 500_000); // W6
        assert_eq!(export_finished(500_000, 100, 90, 4000), 460_000); // W7
        assert_eq!(export_finished(500_000, 100, 120, 4000), 580_000); // W8
    }

    #[test]
    fn worked_wheels() {
        assert_eq!(wheel_bid(&WHEEL_MWH, &WHEEL_PRICES), 16_000); // W9
        assert_eq!(wheel_posted(50, 400), 20_000); // W10
        assert_eq!(wheel_finished(20_000, 50, 40, 500), 15_000); // W11
        assert_eq!(wheel_finished(20_000, 50, 70, 500), 30_000); // W12
        assert_eq!(wheel_bid(&[50], &[200]), 0); // W13
    }

    #[test]
    fn an_exempt_import_has_0_at_three_stages() {
        assert_eq!(import_bid(100, 6000, true), 0);
        assert_eq!(import_posted(50, 6000, true), 0);
        assert_eq!(import_finished(50, 10, 4000, 6000, true), 0);
        assert_eq!(import_finished(50, 60, -4000, 6000, true), 0);
    }

    #[test]
    fn import_balancing_has_no_floor_of_its_own() {
        // (50 - 60) x 6000 takes 60,000 from 200,000; 000 left 200,000.
        assert_eq!(import_finished(50, 60, -4000, 6000, false), 140_000);
        // So does (50 - 40) x -6000.
        assert_eq!(import_finished(50, 40, -4000, -6000, false), 140_000);
        // A negative real-time price turns the signs round.
        assert_eq!(import_finished(50, 60, 1000, -6000, false), 10_000);
        assert_eq!(import_finished(50, 40, 1000, -6000, false), 0);
    }

    #[test]
    fn an_import_finishes_not_below_0() {
        // 50 x 4000 against 1 MWh above the schedule, a cent either way.
        assert_eq!(import_finished(50, 51, -4000, 199_999, false), 1);
        assert_eq!(import_finished(50, 51, -4000, 200_000, false), 0);
        assert_eq!(import_finished(50, 51, -4000, 200_001, false), 0);
    }

    #[test]
    fn a_finished_export_may_be_below_zero() {
        assert_eq!(export_finished(0, 10, 0, 500), -5000);
        assert_eq!(export_finished(1000, 10, 20, -500), -4000);
        assert_eq!(export_finished(1000, 10, 0, -500), 6000);
    }

    #[test]
    fn an_hour_ahead_export_finishes_not_below_0() {
        assert_eq!(hour_ahead_export_finished(7, 300), 2100);
        assert_eq!(hour_ahead_export_finished(7, -300), 0);
        assert_eq!(hour_ahead_export_finished(0, 300), 0);
        assert_eq!(quarter_hour_export_finished(7, 300), 2100);
        assert_eq!(quarter_hour_export_finished(7, -300), 0);
    }

    #[test]
    fn the_example_of_002_needs_4125_dollars() {
        let mwh = [30 + 40 + 100, 60 + 100, 0, 100];
        let prices = [3_000, 4_000, 5_000, 5_000];
        assert_eq!(quarter_hour_export_closed(&mwh, &prices), 412_500);
    }

    #[test]
    fn quarters_of_a_cent_are_rounded_up_once() {
        for (mwh, cents) in [
            (0, 0),
            (1, 1),
            (2, 1),
            (3, 1),
            (4, 1),
            (5, 2),
            (8, 2),
            (9, 3),
        ] {
            assert_eq!(quarter_hour_export_closed(&[mwh, 0, 0, 0], &[1; 4]), cents);
        }
        // A quarter in each interval is a cent, and not four.
        assert_eq!(quarter_hour_export_closed(&[1; 4], &[1; 4]), 1);
        assert_eq!(quarter_hour_export_closed(&[1; 4], &[1, 1, 1, 2]), 2);
        assert_eq!(quarter_hour_export_closed(&[3; 4], &[1; 4]), 3);
    }

    #[test]
    fn the_floor_is_under_the_sum_and_not_under_an_interval() {
        assert_eq!(quarter_hour_export_closed(&[4; 4], &[5, -2, -2, 0]), 1);
        assert_eq!(quarter_hour_export_closed(&[4; 4], &[5, -2, -3, 0]), 0);
        assert_eq!(quarter_hour_export_closed(&[4; 4], &[5, -2, -4, 0]), 0);
        assert_eq!(quarter_hour_export_closed(&[1; 4], &[1, -1, 1, -1]), 0);
        assert_eq!(quarter_hour_export_closed(&[1; 4], &[2, -1, 0, 0]), 1);
    }

    #[test]
    fn a_closed_bid_reaches_the_limit_of_stage_2() {
        let closed = |price| quarter_hour_export_closed(&[640_000; 4], &[price; 4]);
        assert_eq!(closed(1_000_000), 640_000_000_000);
        assert_eq!(closed(-1_000_000), 0);
    }

    fn side(mwh: u64, differential: u64) -> Side {
        Side { mwh, differential }
    }

    #[test]
    fn a_virtual_bid_takes_the_greater_side() {
        let nothing = side(0, 0);
        for (load, supply, cents) in [
            (nothing, nothing, 0),
            (side(100, 0), side(0, 6_000), 0),
            (side(100, 6_000), nothing, 600_000),
            (nothing, side(100, 6_000), 600_000),
            (side(100, 6_000), side(90, 6_000), 600_000),
            (side(90, 6_000), side(100, 6_000), 600_000),
            // The fewer MWh may be the greater product.
            (side(100, 40), side(1, 4_001), 4_001),
            (side(1, 4_001), side(100, 40), 4_001),
            // Equal products, of equal sides and of others.
            (side(7, 30), side(7, 30), 210),
            (side(7, 30), side(30, 7), 210),
            (
                side(10_000, 1_000_000),
                side(10_000, 999_999),
                10_000_000_000,
            ),
            (
                side(9_999, 1_000_000),
                side(10_000, 1_000_000),
                10_000_000_000,
            ),
        ] {
            assert_eq!(virtual_bid(load, supply), Ok(cents), "{load:?}, {supply:?}");
        }
    }

    #[test]
    fn a_posted_virtual_bid_takes_the_net_side() {
        let nothing = side(0, 0);
        for (load, supply, cents) in [
            (nothing, nothing, 0),
            (side(50, 6_000), nothing, 300_000),
            (nothing, side(50, 6_000), 300_000),
            // 20 MWh of load, 20 of supply: each with its own differential.
            (side(50, 6_000), side(30, 1), 120_000),
            (side(50, 1), side(30, 6_000), 20),
            (side(30, 6_000), side(50, 1), 20),
            (side(30, 1), side(50, 6_000), 120_000),
            // A net side without a differential needs nothing.
            (side(50, 0), side(30, 6_000), 0),
            (side(30, 6_000), side(50, 0), 0),
            // They cancel, whatever the differentials.
            (side(50, 6_000), side(50, 1), 0),
            (side(50, 1), side(50, 6_000), 0),
            (side(10_000, 1_000_000), side(10_000, 1_000_000), 0),
            // One MWh either way, and the most.
            (side(51, 70), side(50, 90), 70),
            (side(50, 70), side(51, 90), 90),
            (side(10_000, 1_000_000), side(0, 1_000_000), 10_000_000_000),
            (side(0, 1_000_000), side(10_000, 1_000_000), 10_000_000_000),
        ] {
            let posted = virtual_posted(load, supply);
            assert_eq!(posted, Ok(cents), "{load:?}, {supply:?}");
        }
    }

    #[test]
    fn two_sides_out_of_range_are_6_and_then_8() {
        let (most, edge) = (side(10_000, 1_000_000), side(u64::MAX, u64::MAX));
        for formula in [virtual_bid, virtual_posted] {
            let refused = |load, supply| formula(load, supply).unwrap_err().number();
            assert!(formula(most, most).is_ok());
            for mwh in [10_001, 640_000, u64::MAX] {
                let long = side(mwh, 0);
                assert_eq!(refused(long, side(0, 0)), 6);
                assert_eq!(refused(side(0, 0), long), 6);
                assert_eq!(refused(long, edge), 6);
                // The differential of one side is read after the MWh of both.
                assert_eq!(refused(side(0, u64::MAX), long), 6);
                assert_eq!(refused(long, side(0, u64::MAX)), 6);
            }
            for differential in [1_000_001, u64::MAX] {
                let dear = side(0, differential);
                assert_eq!(refused(dear, most), 8);
                assert_eq!(refused(most, dear), 8);
                assert_eq!(refused(dear, dear), 8);
            }
        }
    }

    #[test]
    fn posting_all_or_less_of_a_virtual_bid_never_asks_for_more() {
        let few = [0, 1, 2, 5];
        for (bid_load, bid_supply) in [(0, 5), (3, 5), (5, 5), (5, 2)] {
            for (load, supply) in [(1, 3), (3, 1), (2, 2), (0, 4)] {
                let of = |l, s| (side(l, load), side(s, supply));
                let (l, s) = of(bid_load, bid_supply);
                let bid = virtual_bid(l, s).unwrap();
                for l in few.iter().filter(|&&mwh| mwh <= bid_load) {
                    for s in few.iter().filter(|&&mwh| mwh <= bid_supply) {
                        let (l, s) = of(*l, *s);
                        assert!(virtual_posted(l, s).unwrap() <= bid);
                    }
                }
            }
        }
    }

    #[test]
    fn a_posted_export_takes_the_larger_of_price_and_differential() {
        assert_eq!(export_posted(100, 3999, 4000), 400_000);
        assert_eq!(export_posted(100, 4001, 4000), 400_100);
        assert_eq!(export_posted(100, -5000, 0), 0);
    }

    #[test]
    fn a_wheel_reads_withdrawal_less_injection() {
        assert_eq!(difference(300, -100), 400);
        assert_eq!(difference(-100, 300), -400);
        assert_eq!(wheel_posted(50, difference(-100, 300)), 0);
    }

    #[test]
    fn a_wheel_short_of_schedule_has_no_floor_under_its_reduction() {
        // 10 MWh short at a difference of -500 adds 5,000.
        assert_eq!(wheel_finished(20_000, 50, 40, -500), 25_000);
        // 50 MWh short at 500 takes 25,000 of 20,000.
        assert_eq!(wheel_finished(20_000, 50, 0, 500), -5_000);
        // 20 MWh over at a difference of -500 adds nothing.
        assert_eq!(wheel_finished(20_000, 50, 70, -500), 20_000);
        assert_eq!(wheel_finished(20_000, 50, 50, 500), 20_000);
    }

    #[test]
    fn exposure_is_0_when_no_point_is_priced_above_0() {
        assert_eq!(price_exposure(&[10_000, 5, 7], &[0, -1, -1_000_000]), 0);
        assert_eq!(price_exposure(&[10_000], &[1]), 10_000);
        assert_eq!(price_exposure(&[0], &[1_000_000]), 0);
        assert_eq!(hour_ahead_export_bid(&EXPORT_MWH, &EXPORT_PRICES), 450_000);
    }

    /// The definition itself, price by price.
    fn exposure_over_every_price(mwh: &[u64], prices: &[i64]) -> i128 {
        let end = prices.iter().copied().fold(0, max) + 3;
        (0..=end)
            .map(|p| exposure_at(i128::from(p), mwh, prices))
            .fold(0, max)
    }

    #[test]
    fn exposure_is_the_largest_over_every_price() {
        let mut seed = 20_120_630_u64;
        let mut next = |below: u64| {
            seed = seed
                .wrapping_mul(6_364_136_223_846_793_005)
                .wrapping_add(1_442_695_040_888_963_407);
            (seed >> 33) % below
        };
        for _ in 0..4000 {
            let count = 1 + next(9);
            let mwh: Vec<u64> = (0..count).map(|_| next(25)).collect();
            let prices: Vec<i64> = (0..count).map(|_| next(90) as i64 - 20).collect();
            assert_eq!(
                price_exposure(&mwh, &prices),
                exposure_over_every_price(&mwh, &prices),
                "{mwh:?} at {prices:?}"
            );
        }
        assert_eq!(
            exposure_over_every_price(&EXPORT_MWH, &EXPORT_PRICES),
            450_000
        );
    }

    #[test]
    fn exposure_does_not_hang_on_the_order_of_points() {
        let mwh = [70, 100, 80, 90];
        let prices = [4500, 1000, 3000, 1500];
        assert_eq!(price_exposure(&mwh, &prices), 450_000);
    }
}
