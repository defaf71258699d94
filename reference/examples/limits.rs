//! The formulas at the limits of document 01's numbers and past them. What it
//! prints is what the program `limits` must write.

use reference::formulas::{self, Side};
use reference::limits;
use reference::refusal::Refusal;

fn main() {
    points();
    point_values();
    differentials();
    kinds();
    first_refusals();
    largest_bids();
    schedules();
    second_prices();
    largest_posts();
    actuals();
    posted_amounts();
    largest_finishes();
    deliveries();
    bills();
    closes();
    virtual_kind();
    virtual_sides();
}

/// The count of points, and lists of unequal length.
fn points() {
    bid(1, 0, 0, 0, 0, 0);
    bid(1, 1, 0, 0, 0, 0);
    bid(1, 0, 0, 1, 0, 0);
    bid(1, 64, 1, 63, 1, 1);
    bid(1, 63, 1, 64, 1, 1);
    bid(1, 64, 1, 64, 1, 1);
    bid(1, 65, 1, 65, 1, 1);
    exposure(0, 0, 0, 0);
    exposure(64, 1, 64, 1);
    exposure(65, 1, 65, 1);
    exposure(2, 1, 1, 1);
}

/// The MWh and the price of a point.
fn point_values() {
    bid(1, 1, 10_000, 1, 0, 1);
    bid(1, 1, 10_001, 1, 0, 1);
    bid(2, 1, u64::MAX, 1, 0, 0);
    bid(3, 1, 1, 1, 1_000_000, 0);
    bid(3, 1, 1, 1, 1_000_001, 0);
    bid(4, 1, 1, 1, -1_000_000, 0);
    bid(4, 1, 1, 1, -1_000_001, 0);
    bid(2, 1, 1, 1, i64::MIN, 0);
    bid(2, 1, 1, 1, i64::MAX, 0);
    exposure(1, 10_000, 1, 1_000_000);
    exposure(1, 10_001, 1, 0);
    exposure(1, 0, 1, 1_000_001);
    exposure(1, u64::MAX, 1, i64::MIN);
}

/// The differential, of a bid and of a post.
fn differentials() {
    bid(1, 1, 1, 1, 0, 1_000_000);
    bid(1, 1, 1, 1, 0, 1_000_001);
    bid(2, 1, 1, 1, 0, 1_000_000);
    bid(2, 1, 1, 1, 0, 1_000_001);
    bid(1, 1, 1, 1, 0, u64::MAX);
    bid(3, 1, 1, 1, 0, 1);
    bid(4, 1, 1, 1, 0, 1);
    posted(1, 1_000_000, 1, 0, 0);
    posted(1, 1_000_001, 1, 0, 0);
    posted(2, 1_000_001, 1, 0, 0);
    posted(4, 1, 1, 0, 0);
}

/// The kind, of which 7 is the first that is none; a bid of kind 5 has four
/// curves, and posting is not for kinds 3 and 5.
fn kinds() {
    bid(0, 1, 1, 1, 1, 0);
    bid(5, 1, 1, 1, 1, 0);
    bid(7, 1, 1, 1, 1, 0);
    bid(u64::MAX, 1, 1, 1, 1, 0);
    posted(0, 0, 1, 1, 0);
    posted(5, 0, 1, 1, 0);
    posted(7, 0, 1, 1, 0);
    finished(0, 1, 1, 1, 1, 1, 0);
    finished(5, 1, 1, 1, 1, 1, 0);
    finished(7, 1, 1, 1, 1, 1, 0);
    posted(3, 0, 0, 0, 0);
    posted(3, 0, 1, 1, 0);
}

/// Where several apply, the first.
fn first_refusals() {
    bid(7, 0, u64::MAX, 65, i64::MIN, u64::MAX);
    bid(5, 1, u64::MAX, 1, i64::MIN, u64::MAX);
    bid(3, 1, u64::MAX, 65, i64::MIN, u64::MAX);
    bid(3, 1, u64::MAX, 1, i64::MIN, u64::MAX);
    bid(3, 1, 1, 1, i64::MIN, u64::MAX);
    bid(3, 1, 1, 1, 1, u64::MAX);
    posted(7, u64::MAX, u64::MAX, i64::MIN, 1);
    posted(3, u64::MAX, u64::MAX, i64::MIN, 1);
    posted(3, u64::MAX, 1, 1, 1);
    posted(3, 1, 1, 1, 0);
    posted(5, u64::MAX, u64::MAX, i64::MIN, 1);
    posted(5, u64::MAX, 1, 1, 1);
    posted(5, 1, 1, 1, 0);
    finished(7, u64::MAX, i64::MIN, -1, u64::MAX, i64::MIN, 1);
    finished(5, 0, 0, -1, u64::MAX, i64::MIN, 1);
    finished(5, 0, 0, -1, 1, 1, 1);
    finished(3, 1, i64::MIN, -1, u64::MAX, i64::MIN, 1);
    finished(3, 1, i64::MIN, -1, 1, 1, 0);
    finished(3, 1, 1, -1, 1, 1, 0);
}

/// The largest bid of each kind.
fn largest_bids() {
    bid(1, 64, 10_000, 64, 0, 1_000_000);
    bid(2, 64, 10_000, 64, 1_000_000, 0);
    bid(2, 64, 10_000, 64, -1, 1_000_000);
    bid(3, 64, 10_000, 64, 1_000_000, 0);
    bid(4, 64, 10_000, 64, -1_000_000, 0);
    exposure(64, 10_000, 64, 1_000_000);
}

/// The schedule and the prices of a post.
fn schedules() {
    posted(1, 1, 640_000, 0, 0);
    posted(1, 1, 640_001, 0, 0);
    posted(1, 1, u64::MAX, 0, 0);
    posted(2, 0, 1, 1_000_000, 0);
    posted(2, 0, 1, 1_000_001, 0);
    posted(2, 0, 1, -1_000_000, 0);
    posted(2, 0, 1, -1_000_001, 0);
    posted(2, 0, 1, i64::MIN, 0);
    posted(2, 0, 1, i64::MAX, 0);
}

/// The second price, 0 but for a wheel.
fn second_prices() {
    posted(1, 0, 1, 1, 1);
    posted(2, 0, 1, 1, -1);
    posted(3, 0, 1, 1, 1);
    posted(4, 0, 1, 0, -1_000_000);
    posted(4, 0, 1, 0, -1_000_001);
    posted(4, 0, 1, 0, 1_000_000);
    posted(4, 0, 1, 0, 1_000_001);
    posted(4, 0, 1, 0, i64::MIN);
    finished(1, 1, 0, 0, 0, 1, 1);
    finished(2, 1, 0, 0, 0, 1, -1);
    finished(3, 1, 0, 0, 1, 1, 1);
    finished(4, 1, 0, 0, 0, 0, 1_000_000);
    finished(4, 1, 0, 0, 0, 0, 1_000_001);
}

/// The largest posted amount of each kind.
fn largest_posts() {
    posted(1, 1_000_000, 640_000, 0, 0);
    posted(2, 0, 640_000, 1_000_000, 0);
    posted(4, 0, 640_000, 1_000_000, -1_000_000);
    posted(4, 0, 640_000, -1_000_000, 1_000_000);
}

/// The quantities and the prices of a finish.
fn actuals() {
    finished(2, 640_000, 0, 0, 640_000, 1, 0);
    finished(2, 640_001, 0, 0, 0, 1, 0);
    finished(2, 0, 0, 0, 640_001, 1, 0);
    finished(2, u64::MAX, 0, 0, 0, 1, 0);
    finished(2, 0, 0, 0, u64::MAX, 1, 0);
    finished(1, 1, 1_000_000, 0, 1, 0, 0);
    finished(1, 1, 1_000_001, 0, 1, 0, 0);
    finished(1, 1, -1_000_000, 0, 1, 0, 0);
    finished(1, 1, -1_000_001, 0, 1, 0, 0);
    finished(3, 0, 0, 0, 1, 1_000_000, 0);
    finished(3, 0, 0, 0, 1, 1_000_001, 0);
    finished(3, 0, 0, 0, 1, -1_000_001, 0);
    finished(3, 0, 0, 0, 1, i64::MIN, 0);
}

/// The posted amount that a finish starts from.
fn posted_amounts() {
    finished(2, 0, 0, -1, 0, 0, 0);
    finished(2, 0, 0, 640_000_000_000, 0, 0, 0);
    finished(2, 0, 0, 640_000_000_001, 0, 0, 0);
    finished(2, 0, 0, i64::MIN, 0, 0, 0);
    finished(2, 0, 0, i64::MAX, 0, 0, 0);
    finished(4, 0, 0, -1, 0, 0, 0);
    finished(4, 0, 0, 20_000_000_000, 0, 0, 0);
    finished(4, 0, 0, 20_000_000_001, 0, 0, 0);
    finished(5, 0, 0, -1, 0, 0, 0);
    finished(5, 0, 0, 640_000_000_000, 0, 0, 0);
    finished(5, 0, 0, 640_000_000_001, 0, 0, 0);
}

/// The largest finish of each kind, and the least.
fn largest_finishes() {
    finished(1, 640_000, -1_000_000, 0, 0, 1_000_000, 0);
    finished(1, 640_000, 1_000_000, 0, 640_000, 0, 0);
    finished(2, 0, 0, 640_000_000_000, 640_000, 1_000_000, 0);
    finished(2, 640_000, 0, 0, 0, 1_000_000, 0);
    finished(3, 0, 0, 0, 640_000, 1_000_000, 0);
    finished(3, 0, 0, 0, 640_000, -1_000_000, 0);
    finished(5, 0, 0, 640_000_000_000, 640_000, 1_000_000, 0);
    finished(5, 0, 0, 640_000_000_000, 640_000, -1_000_000, 0);
    finished(4, 0, 0, 20_000_000_000, 640_000, 1_000_000, -1_000_000);
    finished(4, 640_000, 0, 20_000_000_000, 0, -1_000_000, 1_000_000);
    finished(4, 640_000, 0, 0, 0, 1_000_000, -1_000_000);
}

/// Refusals 6 and 7 by themselves.
fn deliveries() {
    delivery(5, 640_000, 1_000_000, 0);
    delivery(5, 0, 0, 1);
    delivery(1, 640_000, 1_000_000, 0);
    delivery(1, 640_001, 1_000_001, 0);
    delivery(1, 640_000, 1_000_001, 0);
    delivery(3, 0, 0, 1);
    delivery(4, 0, 0, 1);
    delivery(4, u64::MAX, i64::MIN, i64::MAX);
}

/// The bill.
fn bills() {
    billed(1_000_000_000_000);
    billed(1_000_000_000_001);
    billed(-1_000_000_000_000);
    billed(-1_000_000_000_001);
    billed(0);
    billed(i64::MIN);
    billed(i64::MAX);
}

/// What a bid of kind 5 requires once its hour is closed.
fn closes() {
    closed(0, 0, 0, 0);
    closed(640_000, 640_000, 1_000_000, 1_000_000);
    closed(640_000, 640_000, -1_000_000, -1_000_000);
    closed(640_000, 640_000, 1_000_000, -1_000_000);
    closed(640_000, 640_000, -1_000_000, 1_000_000);
    closed(1, 0, 1, 0);
    closed(1, 1, 1, 1);
    closed(2, 1, 1, 1);
    closed(1, 1, 2, -1);
    closed(1, 1, 3, -1);
    closed(1, 1, 4, -1);
    closed(640_001, 0, 0, 0);
    closed(0, 640_001, 0, 0);
    closed(u64::MAX, u64::MAX, i64::MIN, i64::MAX);
    closed(0, 0, 1_000_001, 0);
    closed(0, 0, 0, -1_000_001);
    closed(640_000, 640_000, i64::MIN, 0);
    closed(640_000, 640_000, 0, i64::MAX);
}

/// Kind 6 where it is asked as the others are.
fn virtual_kind() {
    bid(6, 1, 1, 1, 1, 0);
    posted(6, 0, 1, 1, 0);
    posted(6, 1_000_000, 640_000, 1, 0);
    posted(6, 1_000_001, 1, 1, 0);
    finished(6, 1, 1, 1, 1, 1, 0);
    finished(
        6,
        640_000,
        1_000_000,
        640_000_000_000,
        640_000,
        -1_000_000,
        0,
    );
    finished(6, 1, 1, 1, 1, 1, 1);
}

/// The two sides of kind 6, bid and posted.
fn virtual_sides() {
    sides(0, 0, 0, 0);
    sides(1, 2, 2, 1);
    sides(2, 1, 1, 2);
    sides(10_000, 1_000_000, 10_000, 1_000_000);
    sides(10_000, 1_000_000, 0, 0);
    sides(0, 0, 10_000, 1_000_000);
    sides(10_000, 1_000_000, 9_999, 1_000_000);
    sides(9_999, 1_000_000, 10_000, 1_000_000);
    sides(10_000, 0, 1, 1_000_000);
    sides(1, 1_000_000, 10_000, 0);
    sides(10_001, 0, 0, 0);
    sides(0, 0, 10_001, 0);
    sides(0, 1_000_001, 0, 0);
    sides(0, 0, 0, 1_000_001);
    sides(10_001, 1_000_001, 0, 0);
    sides(u64::MAX, u64::MAX, u64::MAX, u64::MAX);
    sides(10_000, u64::MAX, 0, 0);
    sides(0, 0, 10_000, u64::MAX);
}

fn bid(kind: u64, quantities: usize, mwh: u64, priced: usize, price: i64, differential: u64) {
    let (list, prices) = (vec![mwh; quantities], vec![price; priced]);
    print!("bid kind {kind} with {quantities} times {mwh} MWh and {priced} times price {price}");
    print!(" differential {differential}");
    answered(bid_amount(kind, &list, &prices, differential));
}

fn exposure(quantities: usize, mwh: u64, priced: usize, price: i64) {
    let (list, prices) = (vec![mwh; quantities], vec![price; priced]);
    print!("price exposure with {quantities} times {mwh} MWh and {priced} times price {price}");
    let refusal = check_points(&list, &prices);
    answered(refusal.map(|()| formulas::price_exposure(&list, &prices)));
}

fn posted(kind: u64, differential: u64, schedule: u64, price: i64, second: i64) {
    print!("posted kind {kind} differential {differential} schedule {schedule}");
    print!(" prices {price} and {second}");
    answered(posted_amount(kind, differential, schedule, price, second));
}

fn finished(
    kind: u64,
    schedule: u64,
    day_ahead: i64,
    posted: i64,
    actual: u64,
    price: i64,
    second: i64,
) {
    print!("finished kind {kind} schedule {schedule} Day-Ahead {day_ahead} posted {posted}");
    print!(" actual {actual} prices {price} and {second}");
    let record = (schedule, day_ahead, posted);
    answered(finished_amount(kind, record, actual, price, second));
}

fn delivery(kind: u64, mwh: u64, price: i64, second: i64) {
    print!("delivery kind {kind} MWh {mwh} prices {price} and {second}");
    let quantity = require(limits::MWH.contains(&mwh), Refusal::Quantity);
    let refusal = quantity.and_then(|()| check_prices(kind, price, second));
    answered(refusal.map(|()| 0));
}

fn billed(amount: i64) {
    print!("billed {amount}");
    let refusal = require(limits::BILL.contains(&amount), Refusal::Amount);
    answered(refusal.map(|()| i128::from(amount)));
}

/// An interval's sum and price first, then those of the other three, which are
/// alike.
fn closed(mwh: u64, others: u64, price: i64, other_prices: i64) {
    print!("closed MWh {mwh} and three times {others}");
    print!(" prices {price} and three times {other_prices}");
    let sums = [mwh, others, others, others];
    let prices = [price, other_prices, other_prices, other_prices];
    answered(closed_amount(sums, prices));
}

/// MWh and differential of load, then of supply: the bid, and then as much
/// posted.
fn sides(load_mwh: u64, load_differential: u64, supply_mwh: u64, supply_differential: u64) {
    let load = Side {
        mwh: load_mwh,
        differential: load_differential,
    };
    let supply = Side {
        mwh: supply_mwh,
        differential: supply_differential,
    };
    let line = format!(
        "load {load_mwh} at {load_differential} supply {supply_mwh} at {supply_differential}"
    );
    print!("sides bid {line}");
    answered(formulas::virtual_bid(load, supply));
    print!("sides posted {line}");
    answered(formulas::virtual_posted(load, supply));
}

fn answered(amount: Result<i128, Refusal>) {
    let number = amount.err().map_or(0, Refusal::number);
    println!(": {number} {}", amount.unwrap_or(0));
}

/// Refusals 2 and 5 to 8, then the bid.
fn bid_amount(kind: u64, mwh: &[u64], prices: &[i64], differential: u64) -> Result<i128, Refusal> {
    check_kind(kind)?;
    check_one_curve(kind)?;
    check_points(mwh, prices)?;
    check_differential(kind, differential)?;
    let differential = i128::from(differential);
    Ok(match kind {
        1 => formulas::import_bid(formulas::largest_mwh(mwh), differential, false),
        2 => formulas::export_bid(mwh, prices, differential),
        3 => formulas::hour_ahead_export_bid(mwh, prices),
        _ => formulas::wheel_bid(mwh, prices),
    })
}

/// Refusals 2, 6, 7, 8 and 12, then the posted amount.
fn posted_amount(
    kind: u64,
    differential: u64,
    schedule: u64,
    price: i64,
    second: i64,
) -> Result<i128, Refusal> {
    check_kind(kind)?;
    require(limits::MWH.contains(&schedule), Refusal::Quantity)?;
    check_prices(kind, price, second)?;
    check_differential(kind, differential)?;
    check_posting(kind)?;
    let (schedule, differential) = (i128::from(schedule), i128::from(differential));
    let (price, second) = (i128::from(price), i128::from(second));
    Ok(match kind {
        1 => formulas::import_posted(schedule, differential, false),
        2 => formulas::export_posted(schedule, price, differential),
        _ => formulas::wheel_posted(schedule, formulas::difference(price, second)),
    })
}

/// Refusals 2, 6, 7 and 9, then the finished amount. The record's schedule,
/// Day-Ahead price and posted amount come together.
fn finished_amount(
    kind: u64,
    (schedule, day_ahead, posted): (u64, i64, i64),
    actual: u64,
    price: i64,
    second: i64,
) -> Result<i128, Refusal> {
    check_kind(kind)?;
    require(limits::MWH.contains(&schedule), Refusal::Quantity)?;
    require(limits::MWH.contains(&actual), Refusal::Quantity)?;
    require(limits::PRICE.contains(&day_ahead), Refusal::Price)?;
    check_prices(kind, price, second)?;
    let posted_range = match kind {
        4 => limits::EARLY_WHEEL_REQUIREMENT,
        _ => limits::EARLY_REQUIREMENT,
    };
    require(posted_range.contains(&posted), Refusal::Amount)?;
    let (schedule, actual) = (i128::from(schedule), i128::from(actual));
    let (day_ahead, posted) = (i128::from(day_ahead), i128::from(posted));
    let (price, second) = (i128::from(price), i128::from(second));
    let difference = formulas::difference(price, second);
    Ok(match kind {
        1 => formulas::import_finished(schedule, actual, day_ahead, price, false),
        2 => formulas::export_finished(posted, schedule, actual, price),
        3 => formulas::hour_ahead_export_finished(actual, price),
        5 => formulas::quarter_hour_export_finished(actual, price),
        // "There is no finish" (02, order 6).
        6 => 0,
        _ => formulas::wheel_finished(posted, schedule, actual, difference),
    })
}

/// Refusals 6 and 7, then "the sum over intervals of price x MWh x a quarter
/// hour, not below 0, rounded up to a cent once" (02, order 3).
fn closed_amount(
    mwh: [u64; limits::INTERVALS],
    prices: [i64; limits::INTERVALS],
) -> Result<i128, Refusal> {
    let sums_fit = mwh.iter().all(|mwh| limits::INTERVAL_MWH.contains(mwh));
    require(sums_fit, Refusal::Quantity)?;
    check_price_list(&prices)?;
    Ok(formulas::quarter_hour_export_closed(&mwh, &prices))
}

fn require(holds: bool, refusal: Refusal) -> Result<(), Refusal> {
    if holds {
        Ok(())
    } else {
        Err(refusal)
    }
}

/// "Kinds run to 6" (02, order 6).
fn check_kind(kind: u64) -> Result<(), Refusal> {
    require((1..=6).contains(&kind), Refusal::Kind)
}

/// "A kind 5: Hour-Ahead export bids with four interval curves" (02, order 3).
/// One curve is not a count of points that it can have. Kind 6 has none: "no
/// points or prices" (02, order 6).
fn check_one_curve(kind: u64) -> Result<(), Refusal> {
    require(kind != 5 && kind != 6, Refusal::Points)
}

/// Post "is not for kind 3 (refusal 12)"; "12 for posting kind 5" (02,
/// order 3). Kind 6 is posted with two sides (02, order 6).
fn check_posting(kind: u64) -> Result<(), Refusal> {
    require(!matches!(kind, 3 | 5 | 6), Refusal::WrongStage)
}

fn check_points(mwh: &[u64], prices: &[i64]) -> Result<(), Refusal> {
    let counted = limits::POINTS.contains(&mwh.len()) && mwh.len() == prices.len();
    require(counted, Refusal::Points)?;
    let quantities_fit = mwh.iter().all(|mwh| limits::POINT_MWH.contains(mwh));
    require(quantities_fit, Refusal::Quantity)?;
    check_price_list(prices)
}

fn check_price_list(prices: &[i64]) -> Result<(), Refusal> {
    let prices_fit = prices.iter().all(|price| limits::PRICE.contains(price));
    require(prices_fit, Refusal::Price)
}

/// "Kinds 1 to 3 use one price in post and finish, and their second must be 0."
/// So do kinds 5 and 6.
fn check_prices(kind: u64, price: i64, second: i64) -> Result<(), Refusal> {
    let in_range = limits::PRICE.contains(&price) && limits::PRICE.contains(&second);
    require(in_range && (kind == 4 || second == 0), Refusal::Price)
}

/// "Differential: 0 to 1,000,000; 0 for kinds 3 and 4." Kind 5 "carries no
/// differential or exempt mark" (02, order 3). Kind 6 has one per side (02,
/// order 6).
fn check_differential(kind: u64, differential: u64) -> Result<(), Refusal> {
    let range = match kind {
        1 | 2 | 6 => limits::DIFFERENTIAL,
        _ => limits::NO_DIFFERENTIAL,
    };
    require(range.contains(&differential), Refusal::Differential)
}
