//! Document 02, order 7: "Laws the planners lean on." Each law is tried over
//! drawn books, and what is no law has its figure.
//!
//! "Planners try a bid and take it back, or revise it over and over." A law
//! says that two ways from one book come to the same, so each test goes both
//! ways. It also counts how often the law's premises were met.

use std::cmp::{max, min};
use std::collections::HashSet;
use std::fmt::Debug;
use std::ops::RangeInclusive;
use std::slice::from_ref;

use reference::book::{Curves, Opening, Revision, Side, Sides, Supply, Support, Withdrawal};
use reference::{formulas, Answer, Book, Key, Message, Record, Refusal};

const IMPORT: u64 = 1;
const EXPORT: u64 = 2;
const HOUR_AHEAD_EXPORT: u64 = 3;
const WHEEL: u64 = 4;
const QUARTER_HOUR_EXPORT: u64 = 5;
const VIRTUAL: u64 = 6;

const MOST_POINTS: u64 = 64;
const MOST_MWH: u64 = 10_000;
const MOST_PRICE: i64 = 1_000_000;
const MOST_DIFFERENTIAL: u64 = 1_000_000;
const MOST_SUPPORT: i64 = 1_000_000_000_000_000;

// What is sent, and what comes of it.

/// What open and revise carry, "the same, replacing the group".
#[derive(Clone, Debug)]
struct Bid {
    key: Key,
    form: Form,
    mwh: Vec<u64>,
    prices: Vec<i64>,
}

/// Kinds 1 to 4, kind 5 and kind 6.
#[derive(Clone, Copy, Debug)]
enum Form {
    OneCurve { differential: u64, exempt: bool },
    FourCurves { counts: [u64; 4] },
    TwoSides { load: Side, supply: Side },
}

impl Bid {
    /// The message that opens it.
    fn open(&self) -> Message {
        let key = self.key;
        match self.form {
            Form::OneCurve {
                differential,
                exempt,
            } => Message::Open(Opening {
                key,
                differential,
                exempt,
            }),
            Form::FourCurves { counts } => Message::OpenCurves(Curves { key, counts }),
            Form::TwoSides { load, supply } => Message::OpenSides(self.sides(load, supply)),
        }
    }

    /// The message that puts it in the place of the group on record.
    fn revise(&self) -> Message {
        let key = self.key;
        match self.form {
            Form::OneCurve {
                differential,
                exempt,
            } => Message::Revise(Revision {
                key,
                differential,
                exempt,
            }),
            Form::FourCurves { counts } => Message::ReviseCurves(Curves { key, counts }),
            Form::TwoSides { load, supply } => Message::ReviseSides(self.sides(load, supply)),
        }
    }

    fn sides(&self, load: Side, supply: Side) -> Sides {
        Sides {
            zone: self.key.path,
            hour: self.key.hour,
            load,
            supply,
        }
    }

    /// The bid MWh of one curve, by the formulas.
    fn bid_mwh(&self) -> i128 {
        match self.key.kind {
            IMPORT | WHEEL => formulas::largest_mwh(&self.mwh),
            _ => formulas::sum_of_mwh(&self.mwh),
        }
    }

    /// The bid requirement of one curve, by the formulas.
    fn bid_requirement(&self) -> i128 {
        let (differential, exempt) = match self.form {
            Form::OneCurve {
                differential,
                exempt,
            } => (i128::from(differential), exempt),
            _ => panic!("not one curve: {self:?}"),
        };
        match self.key.kind {
            IMPORT => formulas::import_bid(self.bid_mwh(), differential, exempt),
            EXPORT => formulas::export_bid(&self.mwh, &self.prices, differential),
            HOUR_AHEAD_EXPORT => formulas::hour_ahead_export_bid(&self.mwh, &self.prices),
            _ => formulas::wheel_bid(&self.mwh, &self.prices),
        }
    }

    /// "Multiplying every MWh by a whole number."
    fn times(&self, number: u64) -> Bid {
        Bid {
            mwh: self.mwh.iter().map(|mwh| mwh * number).collect(),
            ..self.clone()
        }
    }

    /// What it needs while bid, and 0 if it is no bid.
    fn needs(&self) -> i64 {
        opened(&fresh(MOST_SUPPORT), self).1.requirement
    }
}

/// A group of one curve under a key of this kind.
fn one_curve(kind: u64, points: &[(u64, i64)], differential: u64) -> Bid {
    let (mwh, prices) = points.iter().copied().unzip();
    Bid {
        key: Key {
            kind,
            path: 7,
            hour: 100,
        },
        form: Form::OneCurve {
            differential,
            exempt: false,
        },
        mwh,
        prices,
    }
}

fn fresh(support: i64) -> Book {
    Book::fresh(support).0
}

/// The next book and the answer.
type Next = (Book, Answer);

fn next(book: &Book, message: Message, mwh: &[u64], prices: &[i64]) -> Next {
    let mut book = book.clone();
    let answer = book.apply(message, mwh, prices);
    (book, answer)
}

fn opened(book: &Book, bid: &Bid) -> Next {
    next(book, bid.open(), &bid.mwh, &bid.prices)
}

fn revised(book: &Book, bid: &Bid) -> Next {
    next(book, bid.revise(), &bid.mwh, &bid.prices)
}

fn withdrawn(book: &Book, key: Key) -> Next {
    next(book, Message::Withdraw(Withdrawal { key }), &[], &[])
}

fn supported(book: &Book, amount: i64) -> Next {
    next(book, Message::Support(Support { amount }), &[], &[])
}

fn accepted(requirement: i64, held: i64, net_owed: i64) -> Answer {
    Answer {
        refusal: None,
        removed: false,
        requirement,
        held,
        net_owed,
    }
}

fn refused(refusal: Refusal, held: i64, net_owed: i64) -> Answer {
    Answer {
        refusal: Some(refusal),
        ..accepted(0, held, net_owed)
    }
}

/// The record of a key, if there is one.
fn record(book: &Book, key: Key) -> Option<&Record> {
    book.records.iter().find(|record| record.key == key)
}

fn record_count(book: &Book) -> usize {
    book.records.iter().filter(|r| !r.is_free()).count()
}

/// "Exactly": every place, both totals and the support.
fn assert_exactly(found: &Book, expected: &Book, case: &dyn Debug) {
    if found != expected {
        let places = found.records.iter().zip(&expected.records);
        for (place, (found, expected)) in places.enumerate() {
            assert_eq!(found, expected, "place {place}, {case:?}");
        }
        let rest = |book: &Book| (book.support, book.held, book.net_owed);
        assert_eq!(rest(found), rest(expected), "{case:?}");
        panic!("the books differ, {case:?}");
    }
}

/// The same next book and the same answer.
fn assert_same(found: &Next, expected: &Next, case: &dyn Debug) {
    assert_eq!(found.1, expected.1, "{case:?}");
    assert_exactly(&found.0, &expected.0, case);
}

/// How often each kind was accepted, and each number answered.
#[derive(Default)]
struct Tally {
    accepted: [u32; 7],
    numbers: [u32; 19],
}

impl Tally {
    fn count(&mut self, kind: u64, answer: &Answer) {
        self.numbers[answer.number() as usize] += 1;
        if answer.number() == 0 {
            self.accepted[kind as usize] += 1;
        }
    }

    /// Each of these kinds was accepted a hundred times and more, each of these
    /// numbers was answered, and no drawn book was unsound.
    fn assert_often(&self, kinds: RangeInclusive<u64>, numbers: &[usize]) {
        println!("accepted by kind {:?}", &self.accepted[1..]);
        println!("answered by number {:?}", self.numbers);
        for kind in kinds {
            let times = self.accepted[kind as usize];
            assert!(times >= 100, "kind {kind}: {times}");
        }
        for &number in numbers {
            let times = self.numbers[number];
            assert!(times >= 10, "number {number}: {times}");
        }
        assert_eq!(self.numbers[1], 0);
    }
}

/// Prints a count and has it at least this.
fn assert_at_least(least: u32, count: u32, what: &str) {
    println!("{what}: {count}");
    assert!(count >= least, "{what}: {count}");
}

// Drawn bids and books.

/// A small generator of repeatable numbers.
struct Numbers(u64);

impl Numbers {
    fn below(&mut self, end: u64) -> u64 {
        self.0 = self
            .0
            .wrapping_mul(6_364_136_223_846_793_005)
            .wrapping_add(1_442_695_040_888_963_407);
        (self.0 >> 33) % end
    }

    /// The same for an end that may lie above 31 bits.
    fn far_below(&mut self, end: u64) -> u64 {
        ((self.below(1 << 31) << 31) | self.below(1 << 31)) % end
    }

    fn one_in(&mut self, times: u64) -> bool {
        self.below(times) == 0
    }

    fn one_of<T: Copy>(&mut self, values: &[T]) -> T {
        values[self.below(values.len() as u64) as usize]
    }

    /// An end of the range, or anywhere in it, or mostly near 0.
    fn within(&mut self, range: RangeInclusive<i64>, near: i64) -> i64 {
        let (start, end) = (*range.start(), *range.end());
        match self.below(12) {
            0 => start,
            1 => end,
            2 => start + self.far_below((end - start) as u64 + 1) as i64,
            _ => self.near_0(range, near),
        }
    }

    /// In a range, and so near to 0.
    fn near_0(&mut self, range: RangeInclusive<i64>, near: i64) -> i64 {
        let start = max(*range.start(), -near);
        let end = min(*range.end(), near);
        start + self.below((end - start) as u64 + 1) as i64
    }

    /// A cent less, nothing, or a cent more.
    fn cent(&mut self) -> i64 {
        self.below(3) as i64 - 1
    }

    fn mwh(&mut self) -> u64 {
        self.within(0..=MOST_MWH as i64, 40) as u64
    }

    fn price(&mut self) -> i64 {
        self.within(-MOST_PRICE..=MOST_PRICE, 2_000)
    }

    fn differential(&mut self) -> u64 {
        self.within(0..=MOST_DIFFERENTIAL as i64, 2_000) as u64
    }

    fn key(&mut self, kind: u64) -> Key {
        let zones = kind == VIRTUAL;
        Key {
            kind,
            path: self.one_of(if zones {
                &[1, 2, 6, 10, 11]
            } else {
                &[1, 2, 11, 12, 999]
            }),
            hour: match self.below(61) {
                60 => 999_999,
                hour => hour,
            },
        }
    }

    /// One point, few points, or as many as there may be.
    fn point_count(&mut self, most: u64) -> u64 {
        match self.below(10) {
            0 => 1,
            1 => most,
            _ => 1 + self.below(6),
        }
    }

    /// Points at few prices, so that some share one.
    fn points(&mut self, count: u64) -> (Vec<u64>, Vec<i64>) {
        let few = [self.price(), self.price(), self.price()];
        (0..count)
            .map(|_| {
                let price = match self.below(3) {
                    0 => self.price(),
                    _ => self.one_of(&few),
                };
                (self.mwh(), price)
            })
            .unzip()
    }

    /// A bid of kinds 1 to 4, everything in range.
    fn curve_bid(&mut self, kind: u64, count: u64) -> Bid {
        let (mwh, prices) = self.points(count);
        let differential = match kind {
            IMPORT | EXPORT => self.differential(),
            _ => 0,
        };
        Bid {
            key: self.key(kind),
            form: Form::OneCurve {
                differential,
                exempt: self.one_in(5),
            },
            mwh,
            prices,
        }
    }

    /// A bid of kind 5, everything in range.
    fn four_curve_bid(&mut self) -> Bid {
        let mut counts = [0; 4].map(|_| self.below(4));
        let place = self.below(4) as usize;
        counts[place] = self.point_count(MOST_POINTS);
        let (mwh, prices) = self.points(counts.iter().sum());
        Bid {
            key: self.key(QUARTER_HOUR_EXPORT),
            form: Form::FourCurves { counts },
            mwh,
            prices,
        }
    }

    fn side(&mut self) -> Side {
        Side {
            mwh: self.mwh(),
            differential: self.differential(),
        }
    }

    /// A bid of kind 6, everything in range.
    fn two_side_bid(&mut self) -> Bid {
        Bid {
            key: self.key(VIRTUAL),
            form: Form::TwoSides {
                load: self.side(),
                supply: self.side(),
            },
            mwh: Vec::new(),
            prices: Vec::new(),
        }
    }

    /// A bid of any kind, everything in range.
    fn bid(&mut self, kind: u64) -> Bid {
        match kind {
            QUARTER_HOUR_EXPORT => self.four_curve_bid(),
            VIRTUAL => self.two_side_bid(),
            _ => {
                let count = self.point_count(MOST_POINTS);
                self.curve_bid(kind, count)
            }
        }
    }

    /// Another bid of a key, and at times no bid: something is out of range.
    fn another(&mut self, key: Key) -> Bid {
        let mut bid = self.bid(key.kind);
        bid.key = key;
        if self.one_in(12) {
            self.spoil(&mut bid);
        }
        bid
    }

    /// Puts one thing out of its range, and leaves the key.
    fn spoil(&mut self, bid: &mut Bid) {
        match (&mut bid.form, self.below(4)) {
            (Form::TwoSides { load, .. }, 0..=1) => load.mwh = MOST_MWH + 1,
            (Form::TwoSides { supply, .. }, _) => supply.differential = MOST_DIFFERENTIAL + 1,
            (Form::OneCurve { differential, .. }, 0) => *differential = MOST_DIFFERENTIAL + 1,
            (Form::FourCurves { counts }, 0) => counts[3] += 1,
            (_, 1) => bid.mwh[0] = MOST_MWH + 1,
            (_, 2) => bid.prices[0] = -MOST_PRICE - 1,
            (_, _) => drop(bid.prices.pop()),
        }
    }

    /// A stage that a kind may have: "never 2 for kind 3", and of kind 6
    /// "there is no finish".
    fn stage(&mut self, kind: u64) -> u64 {
        self.one_of(match kind {
            HOUR_AHEAD_EXPORT => &[1, 3, 4],
            VIRTUAL => &[1, 2, 4],
            _ => &[1, 2, 3, 4],
        })
    }

    /// A record that a sound book may hold, its amount near 0 or, in a large
    /// book, anywhere in its range.
    fn record(&mut self, key: Key, stage: u64, large: bool) -> Record {
        let kind = key.kind;
        let most_mwh = match kind {
            EXPORT | HOUR_AHEAD_EXPORT => MOST_POINTS * MOST_MWH,
            QUARTER_HOUR_EXPORT => 0,
            _ => MOST_MWH,
        };
        let bid_mwh = self.below(most_mwh + 1);
        let mut record = Record {
            key,
            stage,
            bid_mwh,
            requirement: self.requirement(kind, stage, large),
            ..Record::FREE
        };
        if [IMPORT, EXPORT, VIRTUAL].contains(&kind) {
            record.differential = self.differential();
        }
        if stage > 1 && kind != HOUR_AHEAD_EXPORT {
            record.schedule = self.below(bid_mwh + 1);
        }
        if kind == IMPORT {
            record.exempt = self.one_in(5);
            record.day_ahead_price = if stage > 1 { self.price() } else { 0 };
        }
        if kind == QUARTER_HOUR_EXPORT {
            record.intervals = [0; 4].map(|_| self.below(MOST_POINTS * MOST_MWH + 1));
        }
        if kind == VIRTUAL {
            let Side { mwh, differential } = self.side();
            record.supply = Supply {
                mwh,
                differential,
                schedule: if stage > 1 { self.below(mwh + 1) } else { 0 },
            };
        }
        record
    }

    /// "Stages 1 and 2, 0 to 640,000,000,000 (kind 4: to 20,000,000,000);
    /// stage 3, within 1,300,000,000,000 of zero; stage 4, a bill's range";
    /// kind 5 "pending (stage 1), requirement 0".
    fn requirement(&mut self, kind: u64, stage: u64, large: bool) -> i64 {
        let range = match (stage, kind) {
            (1, QUARTER_HOUR_EXPORT) => 0..=0,
            (1 | 2, WHEEL) => 0..=20_000_000_000,
            (1 | 2, _) => 0..=640_000_000_000,
            (3, _) => -1_300_000_000_000..=1_300_000_000_000,
            (_, _) => -1_000_000_000_000..=1_000_000_000_000,
        };
        if large {
            self.within(range, 20_000)
        } else {
            self.near_0(range, 20_000)
        }
    }

    /// None, few, any number, 255 or 256.
    fn record_count(&mut self) -> usize {
        match self.below(12) {
            0 => 0,
            1 => 255,
            2 => 256,
            3 => self.below(257) as usize,
            _ => 1 + self.below(9) as usize,
        }
    }

    /// So many of the 256 places, the lowest or any.
    fn places(&mut self, count: usize) -> Vec<usize> {
        let mut places: Vec<usize> = (0..256).collect();
        if self.one_in(2) {
            for taken in 0..count {
                let other = taken + self.below(256 - taken as u64) as usize;
                places.swap(taken, other);
            }
        }
        places.truncate(count);
        places
    }

    /// A book of the largest support, with this record of a key or without the
    /// key, and other records at every stage.
    fn book(&mut self, key: Key, own: Option<Record>) -> Book {
        let large = self.one_in(4);
        let count = max(self.record_count(), own.iter().count());
        let mut places = self.places(count);
        let mut records = [Record::FREE; 256];
        if let Some(own) = own {
            let chosen = self.below(places.len() as u64) as usize;
            records[places.swap_remove(chosen)] = own;
        }
        let mut keys = HashSet::from([key]);
        for place in places {
            let key = self.key_beside(&mut keys);
            let stage = self.stage(key.kind);
            records[place] = self.record(key, stage, large);
        }
        Book::rebuilt(MOST_SUPPORT, records)
    }

    /// A key that is not among these, and is from now on.
    fn key_beside(&mut self, keys: &mut HashSet<Key>) -> Key {
        loop {
            let kind = 1 + self.below(6);
            let key = self.key(kind);
            if keys.insert(key) {
                return key;
            }
        }
    }

    /// The most, any, or within a cent of an amount at which answers change:
    /// one of these, or twice what is owed.
    fn support(&mut self, net_owed: i64, amounts: &[i64]) -> i64 {
        let amount = match self.below(8) {
            0 => MOST_SUPPORT,
            1 => self.far_below(MOST_SUPPORT as u64 + 1) as i64,
            2 => 2 * net_owed,
            _ => self.one_of(amounts),
        };
        (amount + self.cent()).clamp(0, MOST_SUPPORT)
    }

    /// A book in which to open a bid, mostly without its key.
    fn book_to_open(&mut self, bid: &Bid) -> Book {
        let key = bid.key;
        let own = if self.one_in(15) && key.path != 0 {
            let stage = self.stage(key.kind);
            Some(self.record(key, stage, false))
        } else {
            None
        };
        let mut book = self.book(key, own);
        let amounts = [book.held, book.held + bid.needs()];
        book.support = self.support(book.net_owed, &amounts);
        book
    }

    /// A book in which to revise a key, mostly with the key at stage 1, and
    /// then at times within a cent of what one of the bids needs.
    fn book_to_revise(&mut self, key: Key, bids: &[Bid]) -> Book {
        let needs: Vec<i64> = bids.iter().map(Bid::needs).collect();
        let stage = match self.below(16) {
            0 => 0,
            1 => self.stage(key.kind),
            _ => 1,
        };
        let mut own = self.record(key, stage, false);
        if stage == 1 && key.kind != QUARTER_HOUR_EXPORT {
            let drawn = match self.below(3) {
                0 => own.requirement,
                1 => self.one_of(&needs) + self.cent(),
                _ => needs.iter().copied().fold(0, max) + self.cent() + 1,
            };
            own.requirement = drawn.clamp(0, 640_000_000_000);
        }
        let own = if stage == 0 { None } else { Some(own) };
        let mut book = self.book(key, own);
        let others = book.held - own.map_or(0, |own| own.requirement);
        let mut amounts: Vec<i64> = needs.iter().map(|needs| others + needs).collect();
        amounts.push(book.held);
        book.support = self.support(book.net_owed, &amounts);
        book
    }

    /// A kind 2 or 3 group with two points at one price, wherever they stand,
    /// and the group with a single point of their summed MWh, wherever it
    /// stands. At times something else is out of range.
    fn two_points_and_one(&mut self, kind: u64) -> (Bid, Bid) {
        let count = self.point_count(MOST_POINTS - 1);
        let mut one = self.curve_bid(kind, count);
        let place = self.below(count) as usize;
        if self.one_in(8) {
            self.spoil_beside(&mut one, place);
        }
        let mut two = one.clone();
        let (sum, price) = (two.mwh.remove(place), two.prices.remove(place));
        assert!(sum <= MOST_MWH);
        let part = self.below(sum + 1);
        for mwh in [part, sum - part] {
            let place = self.below(two.mwh.len() as u64 + 1) as usize;
            two.mwh.insert(place, mwh);
            two.prices.insert(place, price);
        }
        (two, one)
    }

    /// Puts something out of its range, but not the MWh of this point.
    fn spoil_beside(&mut self, bid: &mut Bid, place: usize) {
        let other = (place + 1) % bid.mwh.len();
        match (&mut bid.form, self.below(5)) {
            (Form::OneCurve { differential, .. }, 0) => *differential = MOST_DIFFERENTIAL + 1,
            (_, 1) => bid.prices[place] = MOST_PRICE + 1,
            (_, 2) => bid.prices[other] = -MOST_PRICE - 1,
            (_, 3) if other != place => bid.mwh[other] = MOST_MWH + 1,
            (_, _) => bid.key.path = 0,
        }
    }

    /// 0, or the most that the limit of a point allows, or one between.
    fn multiplier(&mut self, bid: &Bid) -> u64 {
        let largest = bid.mwh.iter().copied().fold(1, max);
        let most = MOST_MWH / largest;
        match self.below(6) {
            0 => 0,
            1 => most,
            _ => self.below(most + 1),
        }
    }
}

#[test]
fn the_drawn_books_are_sound_and_of_every_sort() {
    let mut numbers = Numbers(70);
    let (mut suspended, mut above, mut gaps) = (0, 0, 0);
    let mut counts = [0; 257];
    let mut stages = [[0_u32; 5]; 7];
    for case in 0..3_000 {
        let bid = numbers.bid(1 + case % 6);
        let book = if case < 1_500 {
            numbers.book_to_open(&bid)
        } else {
            numbers.book_to_revise(bid.key, from_ref(&bid))
        };
        assert!(book.is_sound(), "case {case}");
        let count = record_count(&book);
        counts[count] += 1;
        suspended += u32::from(book.is_suspended());
        above += u32::from(book.held > book.support);
        gaps += u32::from(book.records[..count].iter().any(Record::is_free));
        for record in book.records.iter().filter(|r| !r.is_free()) {
            stages[record.key.kind as usize][record.stage as usize] += 1;
        }
    }
    assert_at_least(100, suspended, "suspended");
    assert_at_least(100, above, "held above support");
    assert_at_least(100, gaps, "free places between");
    for count in [0, 1, 2, 255, 256] {
        assert_at_least(50, counts[count], &format!("{count} records"));
    }
    for (kind, stages) in stages.iter().enumerate().skip(1) {
        let met = stages.iter().filter(|&&times| times >= 100).count();
        // Kinds 3 and 6 pass a stage over.
        let all = if kind == 3 || kind == 6 { 3 } else { 4 };
        assert_eq!(met, all, "kind {kind}: {stages:?}");
    }
}

// "An accepted open followed at once by its withdraw gives the starting book
// exactly."

/// The withdraw is accepted too: its answer is that of an acceptance, with 0
/// and the totals that stood before.
#[test]
fn an_accepted_open_and_its_withdraw_give_the_starting_book() {
    let mut numbers = Numbers(71);
    let mut tally = Tally::default();
    let (mut last_place, mut last_cent, mut between) = (0, 0, 0);
    for case in 0..6_000 {
        let bid = numbers.bid(1 + case % 6);
        let start = numbers.book_to_open(&bid);
        let (tried, answer) = opened(&start, &bid);
        tally.count(bid.key.kind, &answer);
        if answer.refusal.is_some() {
            assert_exactly(&tried, &start, &bid);
            continue;
        }
        assert_ne!(tried, start);
        let back = withdrawn(&tried, bid.key);
        assert_same(
            &back,
            &(start.clone(), accepted(0, start.held, start.net_owed)),
            &bid,
        );
        let count = record_count(&start);
        last_place += u32::from(count == 255);
        last_cent += u32::from(answer.requirement > 0 && tried.held == tried.support);
        let above = &tried.records[count + 1..];
        between += u32::from(above.iter().any(|record| !record.is_free()));
    }
    tally.assert_often(1..=6, &[0, 10, 14, 15, 16]);
    assert_at_least(100, last_place, "into the last place");
    assert_at_least(100, last_cent, "to the last cent");
    assert_at_least(100, between, "with records above a free place");
}

/// An open that is refused is no open to be taken back: after refusal 10 the
/// withdraw takes the bid that stood before.
#[test]
fn the_withdraw_after_a_refused_open_is_another_matter() {
    let bid = one_curve(IMPORT, &[(10, 4_600)], 6_000);
    let (start, answer) = opened(&fresh(MOST_SUPPORT), &bid);
    assert_eq!(answer, accepted(60_000, 60_000, 0));
    let (again, answer) = opened(&start, &bid);
    assert_eq!(answer, refused(Refusal::KeyAlreadyOpen, 60_000, 0));
    assert_exactly(&again, &start, &bid);
    let (back, answer) = withdrawn(&again, bid.key);
    assert_eq!(answer, accepted(0, 0, 0));
    assert_exactly(&back, &fresh(MOST_SUPPORT), &bid);
}

// "Two accepted revisions of one key, back to back, equal the second alone,
// which would also have been accepted."

#[test]
fn two_accepted_revisions_equal_the_second_alone() {
    let mut numbers = Numbers(72);
    let mut tally = Tally::default();
    let (mut up, mut down, mut above, mut full) = (0, 0, 0, 0);
    for case in 0..6_000 {
        let key = numbers.key(1 + case % 6);
        let bids = [numbers.another(key), numbers.another(key)];
        let start = numbers.book_to_revise(key, &bids);
        let (middle, answer) = revised(&start, &bids[0]);
        if answer.refusal.is_some() {
            assert_exactly(&middle, &start, &bids);
            continue;
        }
        let both = revised(&middle, &bids[1]);
        tally.count(key.kind, &both.1);
        if both.1.refusal.is_some() {
            continue;
        }
        let alone = revised(&start, &bids[1]);
        assert_same(&alone, &both, &bids);
        let old = record(&start, key).map_or(0, |own| own.requirement);
        let (first, second) = (answer.requirement, both.1.requirement);
        up += u32::from(old < first && first < second);
        down += u32::from(old > first && first > second);
        above += u32::from(first > 0 && second > 0 && both.0.held > both.0.support);
        full += u32::from(record_count(&start) == 256);
    }
    tally.assert_often(1..=6, &[0, 5, 6, 7, 8, 16]);
    assert_at_least(100, up, "up and up");
    assert_at_least(100, down, "down and down");
    assert_at_least(50, above, "held above support still");
    assert_at_least(100, full, "in a full book");
}

/// "Or revise it over and over": any number of revisions, accepted or refused,
/// and then an accepted one, equal that one alone.
#[test]
fn any_number_of_revisions_and_an_accepted_one_equal_that_one_alone() {
    let mut numbers = Numbers(73);
    let mut tally = Tally::default();
    let (mut after_refusals, mut long) = (0, 0);
    for case in 0..3_000 {
        let key = numbers.key(1 + case % 6);
        let count = 2 + numbers.below(7);
        let bids: Vec<Bid> = (0..count).map(|_| numbers.another(key)).collect();
        let start = numbers.book_to_revise(key, &bids);
        let mut book = start.clone();
        let (mut taken, mut turned_away) = (0, 0);
        for bid in &bids {
            let now = revised(&book, bid);
            tally.count(key.kind, &now.1);
            if now.1.refusal.is_some() {
                assert_exactly(&now.0, &book, &bids);
                turned_away += 1;
            } else {
                let alone = revised(&start, bid);
                assert_same(&alone, &now, &bids);
                taken += 1;
                after_refusals += u32::from(taken > 1 && turned_away > 0);
                long += u32::from(taken >= 5);
            }
            book = now.0;
        }
    }
    tally.assert_often(1..=6, &[0, 5, 6, 7, 8, 11, 12, 14, 16]);
    assert_at_least(100, after_refusals, "after acceptances and refusals");
    assert_at_least(100, long, "after four acceptances and more");
}

/// No law: that a revision which is refused after another would have been
/// refused alone. 250 is above 100 and above the support, but not above 300.
#[test]
fn a_revision_refused_after_another_could_have_been_accepted_alone() {
    let of = |differential| one_curve(IMPORT, &[(10, 4_600)], differential);
    let (book, answer) = opened(&fresh(1_000), &of(30));
    assert_eq!(answer, accepted(300, 300, 0));
    let (start, answer) = supported(&book, 200);
    assert_eq!(answer, accepted(0, 300, 0));

    let (middle, answer) = revised(&start, &of(10));
    assert_eq!(answer, accepted(100, 100, 0));
    let (after, answer) = revised(&middle, &of(25));
    assert_eq!(answer, refused(Refusal::AboveSupport, 100, 0));
    assert_exactly(&after, &middle, &of(25));

    let (alone, answer) = revised(&start, &of(25));
    assert_eq!(answer, accepted(250, 250, 0));
    assert_ne!(alone, after);
}

/// So it is in drawn books too, and with no other refusal than 16.
#[test]
fn only_16_may_turn_on_the_revision_before() {
    let mut numbers = Numbers(74);
    let (mut turned, mut same) = (0, 0);
    for case in 0..6_000 {
        let key = numbers.key(1 + case % 6);
        let bids = [numbers.another(key), numbers.another(key)];
        let start = numbers.book_to_revise(key, &bids);
        let (middle, first) = revised(&start, &bids[0]);
        let (_, second) = revised(&middle, &bids[1]);
        if first.refusal.is_some() || second.refusal.is_none() {
            continue;
        }
        let (_, alone) = revised(&start, &bids[1]);
        if alone.refusal.is_none() {
            assert_eq!(second.refusal, Some(Refusal::AboveSupport), "{bids:?}");
            turned += 1;
        } else {
            assert_eq!(second.refusal, alone.refusal, "{bids:?}");
            same += 1;
        }
    }
    assert_at_least(100, turned, "refused, and accepted alone");
    assert_at_least(100, same, "refused, and refused alone");
}

// "Two points of a kind 2 or 3 group at one price equal a single point of their
// summed MWh, provided the sum is within a point's limit."

/// Both ways in the formulas: the bid MWh and the requirement.
#[test]
fn two_points_at_one_price_have_the_mwh_and_requirement_of_one() {
    let mut numbers = Numbers(75);
    let (mut parted, mut at_limit, mut longest) = (0, 0, 0);
    for case in 0..20_000 {
        let (two, one) = numbers.two_points_and_one(2 + case % 2);
        assert_eq!(two.mwh.len(), one.mwh.len() + 1);
        assert_eq!(two.bid_mwh(), one.bid_mwh(), "{two:?} {one:?}");
        assert_eq!(
            two.bid_requirement(),
            one.bid_requirement(),
            "{two:?} {one:?}"
        );
        parted += u32::from(one.bid_requirement() > 0 && !two.mwh.contains(&0));
        at_limit += u32::from(one.mwh.contains(&MOST_MWH) && !two.mwh.contains(&MOST_MWH));
        longest += u32::from(two.mwh.len() == 64);
    }
    assert_at_least(1_000, parted, "neither point without MWh");
    assert_at_least(100, at_limit, "the sum at a point's limit");
    assert_at_least(1_000, longest, "64 points");
}

/// The same answer and next book of an open, refusals among them.
#[test]
fn two_points_at_one_price_open_as_one() {
    let mut numbers = Numbers(76);
    let mut tally = Tally::default();
    for case in 0..5_000 {
        let (two, one) = numbers.two_points_and_one(2 + case % 2);
        let start = numbers.book_to_open(&one);
        let next = opened(&start, &two);
        assert_same(&next, &opened(&start, &one), &(&two, &one));
        tally.count(one.key.kind, &next.1);
        if next.1.refusal.is_none() {
            let own = record(&next.0, one.key).expect("an open key");
            assert_eq!(i128::from(own.bid_mwh), one.bid_mwh());
            assert_eq!(i128::from(own.requirement), one.bid_requirement());
        }
    }
    tally.assert_often(2..=3, &[0, 3, 6, 7, 8, 10, 14, 15, 16]);
}

/// The same answer and next book of a revise, refusals among them.
#[test]
fn two_points_at_one_price_revise_as_one() {
    let mut numbers = Numbers(77);
    let mut tally = Tally::default();
    for case in 0..5_000 {
        let (two, one) = numbers.two_points_and_one(2 + case % 2);
        let key = match one.key.path {
            0 => numbers.key(one.key.kind),
            _ => one.key,
        };
        let start = numbers.book_to_revise(key, from_ref(&one));
        let next = revised(&start, &two);
        assert_same(&next, &revised(&start, &one), &(&two, &one));
        tally.count(one.key.kind, &next.1);
    }
    tally.assert_often(2..=3, &[0, 3, 6, 7, 8, 11, 12, 14, 16]);
}

/// Merges points at one price while two are left whose sum is within a point's
/// limit.
fn merged(bid: &Bid) -> Bid {
    let mut points: Vec<(u64, i64)> = Vec::new();
    for (&mwh, &price) in bid.mwh.iter().zip(&bid.prices) {
        let fits = |point: &&mut (u64, i64)| point.1 == price && point.0 + mwh <= MOST_MWH;
        match points.iter_mut().find(fits) {
            Some(point) => point.0 += mwh,
            None => points.push((mwh, price)),
        }
    }
    let (mwh, prices) = points.into_iter().unzip();
    Bid {
        mwh,
        prices,
        ..bid.clone()
    }
}

/// So does a group whose points are merged over and over.
#[test]
fn points_merge_over_and_over() {
    let mut numbers = Numbers(78);
    let (mut shorter, mut by_ten) = (0, 0);
    for case in 0..3_000 {
        let bid = numbers.bid(2 + case % 2);
        let fewer = merged(&bid);
        let start = numbers.book_to_open(&bid);
        assert_same(&opened(&start, &bid), &opened(&start, &fewer), &bid);
        let left_out = bid.mwh.len() - fewer.mwh.len();
        shorter += u32::from(left_out > 0);
        by_ten += u32::from(left_out >= 10);
    }
    assert_at_least(100, shorter, "shorter");
    assert_at_least(100, by_ten, "shorter by ten points and more");
}

/// "Provided the sum is within a point's limit": 5,000 and 5,000 are, 5,000 and
/// 5,001 are not. And 65 points are no curve, whatever they would come to.
#[test]
fn the_limits_of_a_merge() {
    let book = fresh(MOST_SUPPORT);
    for kind in [EXPORT, HOUR_AHEAD_EXPORT] {
        let answer = |points: &[(u64, i64)]| opened(&book, &one_curve(kind, points, 0)).1;
        let within = accepted(10_000_000, 10_000_000, 0);
        assert_eq!(answer(&[(5_000, 1_000), (5_000, 1_000)]), within);
        assert_eq!(answer(&[(10_000, 1_000)]), within);
        let past = accepted(10_001_000, 10_001_000, 0);
        assert_eq!(answer(&[(5_000, 1_000), (5_001, 1_000)]), past);
        assert_eq!(answer(&[(10_001, 1_000)]), refused(Refusal::Quantity, 0, 0));
        assert_eq!(answer(&[(1, 1_000); 65]), refused(Refusal::Points, 0, 0));
        assert_eq!(answer(&[(1, 1_000); 64]), accepted(64_000, 64_000, 0));
        assert_eq!(answer(&[(64, 1_000)]), accepted(64_000, 64_000, 0));
    }
}

/// No law for imports, whose curves are cumulative: "only exports add".
#[test]
fn the_points_of_an_import_do_not_merge() {
    let needs = |points| one_curve(IMPORT, points, 6_000).needs();
    assert_eq!(needs(&[(5, 4_600), (5, 4_600)]), 30_000);
    assert_eq!(needs(&[(10, 4_600)]), 60_000);
}

/// No law for two prices: 10 MWh at 1,000 and 10 at 3,000 need 30,000, and
/// 20 MWh at either price don't.
#[test]
fn points_at_two_prices_do_not_merge() {
    for (kind, differential) in [(EXPORT, 900), (HOUR_AHEAD_EXPORT, 0)] {
        let needs = |points| one_curve(kind, points, differential).needs();
        assert_eq!(needs(&[(10, 1_000), (10, 3_000)]), 30_000);
        assert_eq!(needs(&[(20, 1_000)]), 20_000);
        assert_eq!(needs(&[(20, 3_000)]), 60_000);
        // A cent apart is apart.
        assert_eq!(needs(&[(10, 1_000), (10, 1_001)]), 20_000);
        assert_eq!(needs(&[(20, 1_001)]), 20_020);
    }
}

/// No law for wheels, of which the largest counts: at two prices and at one.
#[test]
fn two_wheels_in_one_group_do_not_add() {
    let needs = |points| one_curve(WHEEL, points, 0).needs();
    assert_eq!(needs(&[(30, -500)]), 15_000);
    assert_eq!(needs(&[(40, -400)]), 16_000);
    assert_eq!(needs(&[(30, -500), (40, -400)]), 16_000);
    assert_eq!(needs(&[(5, -600), (5, -600)]), 3_000);
    assert_eq!(needs(&[(10, -600)]), 6_000);
}

// "For kinds 1 to 4, multiplying every MWh by a whole number multiplies the bid
// requirement, where limits allow."

/// Both ways in the formulas.
#[test]
fn multiplying_every_mwh_multiplies_the_formula() {
    let mut numbers = Numbers(79);
    let (mut by_0, mut by_more) = ([0; 5], [0; 5]);
    for case in 0..20_000 {
        let kind = 1 + case % 4;
        let bid = numbers.bid(kind);
        let number = numbers.multiplier(&bid);
        let more = bid.times(number);
        let times = i128::from(number);
        assert_eq!(more.bid_mwh(), times * bid.bid_mwh(), "{number} x {bid:?}");
        let requirement = bid.bid_requirement();
        assert_eq!(
            more.bid_requirement(),
            times * requirement,
            "{number} x {bid:?}"
        );
        by_0[kind as usize] += u32::from(number == 0 && requirement > 0);
        by_more[kind as usize] += u32::from(number > 1 && requirement > 0);
    }
    for kind in 1..=4 {
        assert_at_least(100, by_0[kind], &format!("kind {kind} by 0"));
        assert_at_least(500, by_more[kind], &format!("kind {kind} by 2 and more"));
    }
}

/// And through a book that takes both bids, opened or revised.
#[test]
fn multiplying_every_mwh_multiplies_the_answer() {
    let mut numbers = Numbers(80);
    let mut tally = Tally::default();
    let mut by_more = 0;
    for case in 0..4_000 {
        let bid = numbers.bid(1 + case % 4);
        let number = numbers.multiplier(&bid);
        let more = bid.times(number);
        let (book, send): (Book, fn(&Book, &Bid) -> Next) = if numbers.one_in(2) {
            (numbers.book_to_open(&bid), opened)
        } else {
            (numbers.book_to_revise(bid.key, from_ref(&bid)), revised)
        };
        let (book, _) = supported(&book, MOST_SUPPORT);
        let (once, many) = (send(&book, &bid).1, send(&book, &more).1);
        tally.count(bid.key.kind, &once);
        assert_eq!(once.refusal, many.refusal, "{number} x {bid:?}");
        let times = number as i64;
        assert_eq!(
            many.requirement,
            times * once.requirement,
            "{number} x {bid:?}"
        );
        by_more += u32::from(number > 1 && once.requirement > 0);
    }
    tally.assert_often(1..=4, &[0, 10, 11, 12, 15]);
    assert_at_least(100, by_more, "by 2 and more");
}

/// "Where limits allow": twice 5,000 MWh is within a point's limit, twice 5,001
/// is not; and the support may allow the bid and not its double.
#[test]
fn the_limits_of_a_multiple() {
    let book = fresh(MOST_SUPPORT);
    for kind in 1..=4 {
        let price = if kind == WHEEL { -1_000 } else { 1_000 };
        let differential = if kind == IMPORT { 1_000 } else { 0 };
        let bid = |mwh| one_curve(kind, &[(mwh, price)], differential);
        assert_eq!(opened(&book, &bid(5_000)).1.requirement, 5_000_000);
        assert_eq!(
            opened(&book, &bid(5_000).times(2)).1.requirement,
            10_000_000
        );
        assert_eq!(opened(&book, &bid(5_001)).1.requirement, 5_001_000);
        let past = opened(&book, &bid(5_001).times(2)).1;
        assert_eq!(past, refused(Refusal::Quantity, 0, 0));
        let tight = fresh(9_999_999);
        assert_eq!(opened(&tight, &bid(5_000)).1.number(), 0);
        let double = opened(&tight, &bid(5_000).times(2)).1;
        assert_eq!(double, refused(Refusal::AboveSupport, 0, 0));
    }
}

/// No law of kind 5 once closed, where a quarter of a cent is rounded up.
#[test]
fn a_closed_bid_of_four_curves_does_not_multiply() {
    let closed = |mwh| formulas::quarter_hour_export_closed(&[mwh, 0, 0, 0], &[1; 4]);
    assert_eq!(closed(1), 1);
    assert_eq!(closed(2), 1);
    assert_eq!(closed(5), 2);
}
