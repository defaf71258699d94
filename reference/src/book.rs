//! The book: its records, its fourteen messages and refusals 1 to 16.
//!
//! Kind 5, bids with four interval curves, and the close of an hour are of
//! document 02, order 3; kind 6, virtual bids with two sides, is of order 6.

use std::collections::{BTreeMap, BTreeSet, HashMap};
// In the prelude of edition 2021; named so that the default edition builds.
use std::convert::TryFrom;
use std::ops::RangeInclusive;

use crate::formulas;
pub use crate::formulas::Side;
use crate::limits::{self, INTERVALS};
use crate::refusal::{require, Refusal};

/// "Open makes stage 1."
pub const BID: u64 = 1;
/// "Post goes from 1 to 2." For kind 5 a close goes there: "It moves them to
/// stage 2" (02, order 3).
pub const POSTED: u64 = 2;
/// "Finish goes from 2 to 3, for kind 3 from 1 to 3."
pub const FINISHED: u64 = 3;
/// "Bill goes from 3 to 4", for kind 6 "from 2 to 4" (02, order 6).
pub const BILLED: u64 = 4;

/// The number of kind 6, which the messages with two sides don't carry.
pub const VIRTUAL: u64 = 6;

/// "Four kinds: 1 Day-Ahead import, 2 Day-Ahead export, 3 Hour-Ahead export,
/// 4 Day-Ahead wheel through." And "a kind 5: Hour-Ahead export bids with four
/// interval curves" (02, order 3). And "virtual bids by load zone": "Add kind
/// 6, with path 1 to 11 for zones A to K and both sides in one key" (02,
/// order 6).
#[derive(Clone, Copy, Debug, PartialEq, Eq)]
pub enum Kind {
    /// 1.
    Import,
    /// 2.
    Export,
    /// 3.
    HourAheadExport,
    /// 4.
    Wheel,
    /// 5.
    QuarterHourExport,
    /// 6.
    Virtual,
}

impl Kind {
    /// The kind of a number from 1 to 6, and none otherwise: "kinds run to 6"
    /// (02, order 6).
    pub fn from_number(number: u64) -> Option<Kind> {
        match number {
            1 => Some(Kind::Import),
            2 => Some(Kind::Export),
            3 => Some(Kind::HourAheadExport),
            4 => Some(Kind::Wheel),
            5 => Some(Kind::QuarterHourExport),
            VIRTUAL => Some(Kind::Virtual),
            _ => None,
        }
    }
}

/// "A transaction is known by its key: kind, path (1 to 999, a source and
/// sink pair) and hour (0 to 999,999)."
#[derive(Clone, Copy, Debug, Default, PartialEq, Eq, Hash)]
pub struct Key {
    /// 1 to 6.
    pub kind: u64,
    /// 1 to 999; for kind 6 the zone, 1 to 11.
    pub path: u64,
    /// 0 to 999,999.
    pub hour: u64,
}

/// What a record of kind 6 keeps of its supply side; what it keeps of the load
/// side stands in the fields that every kind has. "Both sides in one key" (02,
/// order 6).
#[derive(Clone, Copy, Debug, Default, PartialEq, Eq)]
pub struct Supply {
    /// Bid MWh.
    pub mwh: u64,
    /// Cents per MWh.
    pub differential: u64,
    /// The posted MWh.
    pub schedule: u64,
}

impl Supply {
    /// That of a free place, and of the other kinds.
    pub const NONE: Supply = Supply {
        mwh: 0,
        differential: 0,
        schedule: 0,
    };
}

/// "A record keeps key, stage, bid MWh, differential, exempt mark, schedule,
/// Day-Ahead price and requirement." And "the record keeps its four MWh sums"
/// (02, order 3). And the supply side of kind 6 (02, order 6).
#[derive(Clone, Copy, Debug, Default, PartialEq, Eq)]
pub struct Record {
    /// What the transaction is known by.
    pub key: Key,
    /// 1 bid, 2 posted (for kind 5 closed), 3 finished, 4 billed.
    pub stage: u64,
    /// The largest MWh of any point, for exports the sum of all; 0 for
    /// kind 5, and for kind 6 the load side's.
    pub bid_mwh: u64,
    /// Cents per MWh; 0 for kinds 3 to 5, and for kind 6 the load side's.
    pub differential: u64,
    /// Whether an import is exempt.
    pub exempt: bool,
    /// The posted schedule, MWh; for kind 6 the load side's.
    pub schedule: u64,
    /// An import's posted price, cents per MWh.
    pub day_ahead_price: i64,
    /// Signed cents.
    pub requirement: i64,
    /// The MWh sum of each interval; 0 for every kind but 5.
    pub intervals: [u64; INTERVALS],
    /// The supply side; 0 throughout for every kind but 6.
    pub supply: Supply,
}

impl Record {
    /// "A free place is zero throughout."
    pub const FREE: Record = Record {
        key: Key {
            kind: 0,
            path: 0,
            hour: 0,
        },
        stage: 0,
        bid_mwh: 0,
        differential: 0,
        exempt: false,
        schedule: 0,
        day_ahead_price: 0,
        requirement: 0,
        intervals: [0; INTERVALS],
        supply: Supply::NONE,
    };

    /// Whether the place holds no record.
    pub fn is_free(&self) -> bool {
        *self == Record::FREE
    }

    /// Whether an occupied place holds what a sound book may hold there.
    fn is_sound(&self) -> bool {
        match Kind::from_number(self.key.kind) {
            Some(kind) => {
                self.key_is_sound(kind)
                    && self.stage_is_sound(kind)
                    && self.bid_mwh_is_sound(kind)
                    && differential_range(kind).contains(&self.differential)
                    && self.exempt_mark_is_sound(kind)
                    && self.schedule_is_sound(kind)
                    && self.day_ahead_price_is_sound(kind)
                    && self.requirement_is_sound(kind)
                    && self.intervals_are_sound(kind)
                    && self.supply_is_sound(kind)
            }
            None => false,
        }
    }

    /// "Every field is in its range": the key's.
    fn key_is_sound(&self, kind: Kind) -> bool {
        path_range(kind).contains(&self.key.path) && limits::HOUR.contains(&self.key.hour)
    }

    /// "Stages are 1 to 4 (never 2 for kind 3)." Kind 6: "there is no finish"
    /// (02, order 6).
    fn stage_is_sound(&self, kind: Kind) -> bool {
        let left_out = match kind {
            Kind::HourAheadExport => self.stage == POSTED,
            Kind::Virtual => self.stage == FINISHED,
            Kind::Import | Kind::Export | Kind::Wheel | Kind::QuarterHourExport => false,
        };
        (BID..=BILLED).contains(&self.stage) && !left_out
    }

    /// "Bid MWh is at most 10,000 for kinds 1 and 4 and 640,000 otherwise."
    /// Kind 5: "these and bid MWh are 0" (02, order 3). Kind 6: "each side's
    /// MWh is at most 10,000" (02, order 6).
    fn bid_mwh_is_sound(&self, kind: Kind) -> bool {
        match kind {
            Kind::Import | Kind::Wheel => limits::LARGEST_BID_MWH.contains(&self.bid_mwh),
            Kind::Export | Kind::HourAheadExport => limits::SUMMED_BID_MWH.contains(&self.bid_mwh),
            Kind::QuarterHourExport => self.bid_mwh == 0,
            Kind::Virtual => limits::SIDE_MWH.contains(&self.bid_mwh),
        }
    }

    /// "The exempt mark stands only on kind 1."
    fn exempt_mark_is_sound(&self, kind: Kind) -> bool {
        !self.exempt || kind == Kind::Import
    }

    /// "Schedule is at most bid MWh and 0 at stage 1 and for kind 3." Kind 5
    /// is never posted, and its bid MWh is 0.
    fn schedule_is_sound(&self, kind: Kind) -> bool {
        let must_be_0 = self.stage == BID || kind == Kind::HourAheadExport;
        limits::MWH.contains(&self.schedule)
            && self.schedule <= self.bid_mwh
            && (self.schedule == 0 || !must_be_0)
    }

    /// "The Day-Ahead price is 0 except for kind 1 from stage 2."
    fn day_ahead_price_is_sound(&self, kind: Kind) -> bool {
        let may_stand = kind == Kind::Import && self.stage >= POSTED;
        limits::PRICE.contains(&self.day_ahead_price) && (self.day_ahead_price == 0 || may_stand)
    }

    /// "The requirement is bounded: stages 1 and 2, 0 to 640,000,000,000
    /// (kind 4: to 20,000,000,000); stage 3, within 1,300,000,000,000 of
    /// zero; stage 4, a bill's range." Kind 5: "on opening a bid is pending
    /// (stage 1), requirement 0" (02, order 3).
    fn requirement_is_sound(&self, kind: Kind) -> bool {
        let range = match (self.stage, kind) {
            (BID, Kind::QuarterHourExport) => limits::PENDING_REQUIREMENT,
            (BID | POSTED, Kind::Wheel) => limits::EARLY_WHEEL_REQUIREMENT,
            (BID | POSTED, _) => limits::EARLY_REQUIREMENT,
            (FINISHED, _) => limits::FINISHED_REQUIREMENT,
            (_, _) => limits::BILL,
        };
        range.contains(&self.requirement)
    }

    /// 64 points of at most 10,000 MWh to an interval (02, order 3); the four
    /// sums are kind 5's alone.
    fn intervals_are_sound(&self, kind: Kind) -> bool {
        if kind == Kind::QuarterHourExport {
            let in_range = |mwh| limits::INTERVAL_MWH.contains(mwh);
            self.intervals.iter().all(in_range)
        } else {
            self.intervals == [0; INTERVALS]
        }
    }

    /// The supply side, which is kind 6's alone: "each side's MWh is at most
    /// 10,000, and posted sides can't exceed bid sides" (02, order 6). Nothing
    /// is posted at stage 1.
    fn supply_is_sound(&self, kind: Kind) -> bool {
        if kind == Kind::Virtual {
            let supply = &self.supply;
            limits::SIDE_MWH.contains(&supply.mwh)
                && limits::DIFFERENTIAL.contains(&supply.differential)
                && supply.schedule <= supply.mwh
                && (supply.schedule == 0 || self.stage != BID)
        } else {
            self.supply == Supply::NONE
        }
    }

    /// Whether it is a kind 5 bid of this hour that is not closed yet.
    fn is_pending_in(&self, hour: u64) -> bool {
        Kind::from_number(self.key.kind) == Some(Kind::QuarterHourExport)
            && self.key.hour == hour
            && self.stage == BID
    }
}

/// "Path (1 to 999, a source and sink pair)"; kind 6 "with path 1 to 11 for
/// zones A to K" (02, order 6).
fn path_range(kind: Kind) -> RangeInclusive<u64> {
    match kind {
        Kind::Virtual => limits::ZONE,
        _ => limits::PATH,
    }
}

/// "Differential: 0 to 1,000,000; 0 for kinds 3 and 4." Kind 5 "carries no
/// differential or exempt mark" (02, order 3). Kind 6 has one per side (02,
/// order 6).
pub(crate) fn differential_range(kind: Kind) -> RangeInclusive<u64> {
    match kind {
        Kind::Import | Kind::Export | Kind::Virtual => limits::DIFFERENTIAL,
        Kind::HourAheadExport | Kind::Wheel | Kind::QuarterHourExport => limits::NO_DIFFERENTIAL,
    }
}

/// "Open (key, points, differential, exempt mark)."
///
/// "Points come as two lent lists of equal length, MWh and prices", beside
/// the message.
#[derive(Clone, Copy, Debug, PartialEq, Eq)]
pub struct Opening {
    /// The transaction to open.
    pub key: Key,
    /// Cents per MWh.
    pub differential: u64,
    /// "The exempt mark is ignored for kinds 2 to 4."
    pub exempt: bool,
}

/// "Revise (the same, replacing the group)."
#[derive(Clone, Copy, Debug, PartialEq, Eq)]
pub struct Revision {
    /// The transaction to revise.
    pub key: Key,
    /// Cents per MWh.
    pub differential: u64,
    /// "The exempt mark is ignored for kinds 2 to 4."
    pub exempt: bool,
}

/// "Withdraw."
#[derive(Clone, Copy, Debug, PartialEq, Eq)]
pub struct Withdrawal {
    /// The transaction to withdraw.
    pub key: Key,
}

/// "Post (schedule, two prices)."
#[derive(Clone, Copy, Debug, PartialEq, Eq)]
pub struct Posting {
    /// The transaction posted.
    pub key: Key,
    /// MWh.
    pub schedule: u64,
    /// The Day-Ahead price, for kind 4 that at withdrawal.
    pub first_price: i64,
    /// For kind 4 the Day-Ahead price at injection, otherwise 0.
    pub second_price: i64,
}

/// "Finish (actual MWh, two prices)."
#[derive(Clone, Copy, Debug, PartialEq, Eq)]
pub struct Finish {
    /// The transaction finished.
    pub key: Key,
    /// MWh.
    pub actual: u64,
    /// The real-time price, for kind 4 that at withdrawal.
    pub first_price: i64,
    /// For kind 4 the real-time price at injection, otherwise 0.
    pub second_price: i64,
}

/// "Bill (amount)."
#[derive(Clone, Copy, Debug, PartialEq, Eq)]
pub struct Bill {
    /// The transaction billed.
    pub key: Key,
    /// Signed cents.
    pub amount: i64,
}

/// "Pay."
#[derive(Clone, Copy, Debug, PartialEq, Eq)]
pub struct Payment {
    /// The transaction paid.
    pub key: Key,
}

/// "Support (amount)."
#[derive(Clone, Copy, Debug, PartialEq, Eq)]
pub struct Support {
    /// Cents.
    pub amount: i64,
}

/// Open or revise "with four interval curves" (02, order 3): "an interval has
/// 0 to 64 points".
///
/// The points stand beside the message in the two lent lists, one interval
/// after another.
#[derive(Clone, Copy, Debug, PartialEq, Eq)]
pub struct Curves {
    /// The transaction to open or to revise.
    pub key: Key,
    /// How many points each interval has.
    pub counts: [u64; INTERVALS],
}

/// "A close message names an hour and lists paths with four interval prices
/// each" (02, order 3).
///
/// The paths stand beside the message in the list of whole numbers, and the
/// prices, four for each path, in the list of prices.
#[derive(Clone, Copy, Debug, PartialEq, Eq)]
pub struct Closing {
    /// The hour whose pending bids are closed.
    pub hour: u64,
}

/// Open or revise of a virtual bid: "Open and revise carry MWh and differential
/// per side" (02, order 6).
///
/// Kind 6 is the message's by its case, and the zone is the key's path. Lists
/// that stand beside the message are passed over: "no points or prices".
#[derive(Clone, Copy, Debug, PartialEq, Eq)]
pub struct Sides {
    /// 1 to 11, for zones A to K.
    pub zone: u64,
    /// The hour to open or to revise.
    pub hour: u64,
    /// Virtual load.
    pub load: Side,
    /// Virtual supply.
    pub supply: Side,
}

/// Post of a virtual bid: "post MWh per side, no points or prices" (02,
/// order 6).
#[derive(Clone, Copy, Debug, PartialEq, Eq)]
pub struct SidesPosting {
    /// 1 to 11, for zones A to K.
    pub zone: u64,
    /// The hour posted.
    pub hour: u64,
    /// MWh of virtual load.
    pub load: u64,
    /// MWh of virtual supply.
    pub supply: u64,
}

/// The key of a zone and an hour: "both sides in one key" (02, order 6).
fn zone_key(zone: u64, hour: u64) -> Key {
    Key {
        kind: VIRTUAL,
        path: zone,
        hour,
    }
}

/// "Each message is one case with its own set of values."
#[derive(Clone, Copy, Debug, PartialEq, Eq)]
pub enum Message {
    /// Opens a transaction.
    Open(Opening),
    /// Replaces the group of an open transaction.
    Revise(Revision),
    /// Takes an open transaction back.
    Withdraw(Withdrawal),
    /// Brings the Day-Ahead schedule and prices.
    Post(Posting),
    /// Brings the actual MWh and the real-time prices.
    Finish(Finish),
    /// Brings the bill.
    Bill(Bill),
    /// Settles the bill.
    Pay(Payment),
    /// Sets the support.
    Support(Support),
    /// Opens a transaction with four interval curves.
    OpenCurves(Curves),
    /// Replaces the four interval curves of an open transaction.
    ReviseCurves(Curves),
    /// Closes an hour: its pending bids, as one batch.
    Close(Closing),
    /// Opens a virtual bid, with both its sides.
    OpenSides(Sides),
    /// Replaces both sides of an open virtual bid.
    ReviseSides(Sides),
    /// Brings the posted MWh of both sides.
    PostSides(SidesPosting),
}

/// What a message is answered.
///
/// "Acceptance answers the key's requirement (0 after withdraw, pay and
/// support), held and net owed of the next book. A refusal answers its
/// number, requirement 0, the held and net owed of the unchanged book (both 0
/// for 1)." "Close answers the batch's summed requirement, 0 if removed"; "if
/// held with the batch exceeds support, every one is removed, and the answer
/// says so" (02, order 3).
#[derive(Clone, Copy, Debug, PartialEq, Eq)]
pub struct Answer {
    /// Why the message is turned away, and none when it is accepted.
    pub refusal: Option<Refusal>,
    /// Whether a close was accepted and its whole batch removed.
    pub removed: bool,
    /// The key's requirement; of a close the batch's.
    pub requirement: i64,
    /// The sum of all requirements.
    pub held: i64,
    /// The sum of the requirements at stage 4.
    pub net_owed: i64,
}

impl Answer {
    /// The refusal's number, and 0 for an acceptance.
    pub fn number(&self) -> u64 {
        self.refusal.map_or(0, Refusal::number)
    }
}

/// How an accepted message ends.
enum Ending {
    /// With this requirement under the key, or of the batch.
    Stands(i64),
    /// With the batch removed.
    Removed,
}

type Outcome = Result<Ending, Refusal>;

/// Accepted, with this requirement.
fn stands(requirement: i64) -> Outcome {
    Ok(Ending::Stands(requirement))
}

/// Where the key of each record stands.
type Directory = HashMap<Key, usize>;

/// "One book serves one customer. It holds up to 256 open transactions."
///
/// "Keep both totals in the book" (02, order 1). All fields are open to
/// anyone, so a book may be unsound; such a book answers refusal 1 to every
/// message.
#[derive(Clone, Debug, PartialEq, Eq)]
pub struct Book {
    /// The places, free ones among them.
    pub records: [Record; limits::PLACES],
    /// Cents.
    pub support: i64,
    /// Held as kept, cents.
    pub held: i64,
    /// Net owed as kept, cents.
    pub net_owed: i64,
}

impl Book {
    /// A book without records.
    fn empty(support: i64) -> Book {
        Book {
            records: [Record::FREE; limits::PLACES],
            support,
            held: 0,
            net_owed: 0,
        }
    }

    /// "A book of the older form is rebuilt first" (02, order 1): a book of
    /// this support and these records, and the totals that a walk over them
    /// finds. Sums of records that are out of range may not fit; such a book
    /// is not sound whatever it keeps, and keeps 0 and 0.
    pub fn rebuilt(support: i64, records: [Record; limits::PLACES]) -> Book {
        let mut book = Book {
            records,
            support,
            held: 0,
            net_owed: 0,
        };
        if book.places_are_sound() {
            book.keep_totals();
        }
        book
    }

    /// "A fresh book is empty, with the support given; an out-of-range
    /// support answers refusal 9 and an empty book of support 0."
    pub fn fresh(support: i64) -> (Book, Answer) {
        let (book, outcome) = match check_support(support) {
            Ok(()) => (Book::empty(support), stands(0)),
            Err(refusal) => (Book::empty(0), Err(refusal)),
        };
        let answer = book.answer(outcome);
        (book, answer)
    }

    /// "Answer from them, reading no record": held as kept. "On every sound
    /// book the answer equals the full walk; on any other it is the totals as
    /// kept" (02, order 1).
    pub fn held(&self) -> i64 {
        self.held
    }

    /// Net owed as kept.
    pub fn net_owed(&self) -> i64 {
        self.net_owed
    }

    /// "The book is suspended exactly when 2 x net owed is at least the
    /// support", of net owed as kept.
    pub fn is_suspended(&self) -> bool {
        2 * i128::from(self.net_owed) >= i128::from(self.support)
    }

    /// "Held is the sum of all requirements": the full walk.
    fn walked_held(&self) -> i128 {
        self.records
            .iter()
            .map(|record| i128::from(record.requirement))
            .sum()
    }

    /// "Net owed is the sum over stage 4": the full walk.
    fn walked_net_owed(&self) -> i128 {
        self.records
            .iter()
            .filter(|record| record.stage == BILLED)
            .map(|record| i128::from(record.requirement))
            .sum()
    }

    /// "A book whose kept totals differ from its records isn't sound."
    fn totals_are_sound(&self) -> bool {
        i128::from(self.held) == self.walked_held()
            && i128::from(self.net_owed) == self.walked_net_owed()
    }

    /// Keeps the totals of the records as they now stand, each place free or
    /// sound.
    fn keep_totals(&mut self) {
        self.held = cents(self.walked_held());
        self.net_owed = cents(self.walked_net_owed());
    }

    /// "A book is sound when support is in range, keys are distinct, free
    /// places are zero, every field is in its range" and so on; and when the
    /// kept totals are those of its records (02, order 1).
    pub fn is_sound(&self) -> bool {
        self.sound_directory().is_some()
    }

    /// The directory of a sound book, and none of an unsound one.
    fn sound_directory(&self) -> Option<Directory> {
        let support_is_sound = limits::SUPPORT.contains(&self.support);
        if support_is_sound && self.places_are_sound() && self.totals_are_sound() {
            self.directory()
        } else {
            None
        }
    }

    /// Every place is free, and so zero throughout, or holds a sound record.
    fn places_are_sound(&self) -> bool {
        self.records
            .iter()
            .all(|record| record.is_free() || record.is_sound())
    }

    /// Where each key stands, and none when two records share a key.
    fn directory(&self) -> Option<Directory> {
        let mut directory = Directory::with_capacity(limits::PLACES);
        for (place, record) in self.records.iter().enumerate() {
            if !record.is_free() && directory.insert(record.key, place).is_some() {
                return None;
            }
        }
        Some(directory)
    }

    /// Answers a message and leaves the next book in place of this one. The
    /// two lists are the points of open and revise, and of a close its paths
    /// and prices; other messages pass over them. "Lent lists are only read."
    pub fn apply(&mut self, message: Message, numbers: &[u64], prices: &[i64]) -> Answer {
        let directory = match self.sound_directory() {
            Some(directory) => directory,
            None => return NOT_SOUND,
        };
        let curve = Curve {
            mwh: numbers,
            prices,
        };
        let outcome = match message {
            Message::Open(opening) => self.open(&directory, opening, curve),
            Message::Revise(revision) => self.revise(&directory, revision, curve),
            Message::Withdraw(withdrawal) => self.withdraw(&directory, withdrawal),
            Message::Post(posting) => self.post(&directory, posting),
            Message::Finish(finish) => self.finish(&directory, finish),
            Message::Bill(bill) => self.bill(&directory, bill),
            Message::Pay(payment) => self.pay(&directory, payment),
            Message::Support(support) => self.set_support(support),
            Message::OpenCurves(curves) => self.open_curves(&directory, curves, curve),
            Message::ReviseCurves(curves) => self.revise_curves(&directory, curves, curve),
            Message::Close(closing) => self.close(closing, numbers, prices),
            Message::OpenSides(sides) => self.open_sides(&directory, sides),
            Message::ReviseSides(sides) => self.revise_sides(&directory, sides),
            Message::PostSides(posting) => self.post_sides(&directory, posting),
        };
        if outcome.is_ok() {
            self.keep_totals();
        }
        self.answer(outcome)
    }

    /// The answer with this book's held and net owed.
    fn answer(&self, outcome: Outcome) -> Answer {
        let (refusal, removed, requirement) = match outcome {
            Ok(Ending::Stands(requirement)) => (None, false, requirement),
            Ok(Ending::Removed) => (None, true, 0),
            Err(refusal) => (Some(refusal), false, 0),
        };
        Answer {
            refusal,
            removed,
            requirement,
            held: self.held,
            net_owed: self.net_owed,
        }
    }

    /// Open: refusals 2 to 8, 10, 14, 15 and 16.
    fn open(&mut self, directory: &Directory, opening: Opening, curve: Curve) -> Outcome {
        let key = opening.key;
        let group = Group::read(key, curve, opening.differential, opening.exempt)?;
        self.enter(directory, group.record(key))
    }

    /// Puts a new record in the book: refusals 10, 14, 15 and 16.
    fn enter(&mut self, directory: &Directory, record: Record) -> Outcome {
        let taken = directory.contains_key(&record.key);
        require(!taken, Refusal::KeyAlreadyOpen)?;
        require(!self.is_suspended(), Refusal::Suspended)?;
        let place = self.lowest_free_place().ok_or(Refusal::BookFull)?;
        let held_afterwards = i128::from(self.held) + i128::from(record.requirement);
        require(
            held_afterwards <= i128::from(self.support),
            Refusal::AboveSupport,
        )?;
        self.records[place] = record;
        stands(record.requirement)
    }

    /// "A new record takes the lowest free place."
    fn lowest_free_place(&self) -> Option<usize> {
        self.records.iter().position(Record::is_free)
    }

    /// Revise: refusals 2 to 8, 11, 12, 14 and 16.
    fn revise(&mut self, directory: &Directory, revision: Revision, curve: Curve) -> Outcome {
        let key = revision.key;
        let group = Group::read(key, curve, revision.differential, revision.exempt)?;
        self.replace(directory, group.record(key))
    }

    /// Puts a record at stage 1 in the place of the one with its key:
    /// refusals 11, 12, 14 and 16.
    fn replace(&mut self, directory: &Directory, record: Record) -> Outcome {
        let place = self.place_at_stage(directory, record.key, BID)?;
        require(!self.is_suspended(), Refusal::Suspended)?;
        let old = self.records[place].requirement;
        let new = record.requirement;
        let held_afterwards = i128::from(self.held) - i128::from(old) + i128::from(new);
        let above_support = held_afterwards > i128::from(self.support);
        require(!(new > old && above_support), Refusal::AboveSupport)?;
        self.records[place] = record;
        stands(new)
    }

    /// Open with two sides: refusals 3, 4, 6, 8, 10, 14, 15 and 16.
    fn open_sides(&mut self, directory: &Directory, sides: Sides) -> Outcome {
        self.enter(directory, sides_record(sides)?)
    }

    /// Revise with two sides: refusals 3, 4, 6, 8, 11, 12, 14 and 16.
    fn revise_sides(&mut self, directory: &Directory, sides: Sides) -> Outcome {
        self.replace(directory, sides_record(sides)?)
    }

    /// Post of two sides: refusals 3, 4, 6, 11, 12 and 13, "13 for either
    /// side": "posted sides can't exceed bid sides" (02, order 6).
    fn post_sides(&mut self, directory: &Directory, posting: SidesPosting) -> Outcome {
        let key = zone_key(posting.zone, posting.hour);
        check_key(key)?;
        formulas::check_side_mwh(posting.load, posting.supply)?;
        let place = self.place_at_stage(directory, key, BID)?;
        let record = &mut self.records[place];
        let within = posting.load <= record.bid_mwh && posting.supply <= record.supply.mwh;
        require(within, Refusal::ScheduleAboveBid)?;
        let requirement = cents(posted_sides_requirement(record, &posting)?);
        record.stage = POSTED;
        record.schedule = posting.load;
        record.supply.schedule = posting.supply;
        record.requirement = requirement;
        stands(requirement)
    }

    /// Open with four curves: refusals 2 to 7, 10, 14 and 15; "16 never for
    /// opening kind 5" (02, order 3), since "credit isn't checked".
    fn open_curves(&mut self, directory: &Directory, curves: Curves, points: Curve) -> Outcome {
        let pending = pending_record(curves, points)?;
        let taken = directory.contains_key(&curves.key);
        require(!taken, Refusal::KeyAlreadyOpen)?;
        require(!self.is_suspended(), Refusal::Suspended)?;
        let place = self.lowest_free_place().ok_or(Refusal::BookFull)?;
        self.records[place] = pending;
        stands(pending.requirement)
    }

    /// Revise with four curves: refusals 2 to 7, 11, 12 and 14. A pending
    /// bid's requirement stays 0, so 16 has nothing to check.
    fn revise_curves(&mut self, directory: &Directory, curves: Curves, points: Curve) -> Outcome {
        let pending = pending_record(curves, points)?;
        let place = self.place_at_stage(directory, curves.key, BID)?;
        require(!self.is_suspended(), Refusal::Suspended)?;
        self.records[place] = pending;
        stands(pending.requirement)
    }

    /// Close: refusals 3, 4, 5, 7 and 11. "All pending bids of that hour are
    /// one batch: if held with the batch exceeds support, every one is
    /// removed" (02, order 3).
    fn close(&mut self, closing: Closing, paths: &[u64], prices: &[i64]) -> Outcome {
        let quotes = check_closing(closing, paths, prices)?;
        let pending = self.pending_places(closing.hour);
        // "11 when the hour has no pending bid or the paths aren't those
        // pending."
        let exactly = !pending.is_empty() && pending.keys().eq(quotes.keys());
        require(exactly, Refusal::KeyNotOpen)?;
        let batch: Vec<(usize, i128)> = pending
            .iter()
            .map(|(path, &place)| (place, self.closed_requirement(place, quotes[path])))
            .collect();
        let sum: i128 = batch.iter().map(|&(_, requirement)| requirement).sum();
        if i128::from(self.held) + sum > i128::from(self.support) {
            for (place, _) in batch {
                self.records[place] = Record::FREE;
            }
            return Ok(Ending::Removed);
        }
        for (place, requirement) in batch {
            self.records[place].stage = POSTED;
            self.records[place].requirement = cents(requirement);
        }
        stands(cents(sum))
    }

    /// Where the pending bids of an hour stand, by path.
    fn pending_places(&self, hour: u64) -> BTreeMap<u64, usize> {
        self.records
            .iter()
            .enumerate()
            .filter(|(_, record)| record.is_pending_in(hour))
            .map(|(place, record)| (record.key.path, place))
            .collect()
    }

    /// What a pending bid needs at these interval prices.
    fn closed_requirement(&self, place: usize, prices: Quote) -> i128 {
        formulas::quarter_hour_export_closed(&self.records[place].intervals, prices)
    }

    /// Withdraw: refusals 2, 3, 4, 11 and 12. "Withdraw frees it too."
    fn withdraw(&mut self, directory: &Directory, withdrawal: Withdrawal) -> Outcome {
        check_key(withdrawal.key)?;
        let place = self.place_at_stage(directory, withdrawal.key, BID)?;
        self.records[place] = Record::FREE;
        stands(0)
    }

    /// Post: refusals 2, 3, 4, 6, 7, 11, 12 and 13. "Post keeps the schedule
    /// and, for kind 1, the first price."
    fn post(&mut self, directory: &Directory, posting: Posting) -> Outcome {
        let kind = check_key(posting.key)?;
        require(limits::MWH.contains(&posting.schedule), Refusal::Quantity)?;
        check_two_prices(kind, posting.first_price, posting.second_price)?;
        let place = self.place_at_stage(directory, posting.key, BID)?;
        let record = &mut self.records[place];
        let requirement = cents(posted_requirement(kind, record, &posting)?);
        require(
            posting.schedule <= record.bid_mwh,
            Refusal::ScheduleAboveBid,
        )?;
        record.stage = POSTED;
        record.schedule = posting.schedule;
        if kind == Kind::Import {
            record.day_ahead_price = posting.first_price;
        }
        record.requirement = requirement;
        stands(requirement)
    }

    /// Finish: refusals 2, 3, 4, 6, 7, 11 and 12. "Actual and real-time
    /// values aren't kept."
    fn finish(&mut self, directory: &Directory, finish: Finish) -> Outcome {
        let kind = check_key(finish.key)?;
        require(limits::MWH.contains(&finish.actual), Refusal::Quantity)?;
        check_two_prices(kind, finish.first_price, finish.second_price)?;
        let place = self.place_of(directory, finish.key)?;
        let record = &mut self.records[place];
        require(
            Some(record.stage) == stage_before_finish(kind),
            Refusal::WrongStage,
        )?;
        record.requirement = cents(finished_requirement(kind, record, &finish));
        record.stage = FINISHED;
        stands(record.requirement)
    }

    /// Bill: refusals 2, 3, 4, 9, 11 and 12. "Billed, every kind: the bill,
    /// signed."
    fn bill(&mut self, directory: &Directory, bill: Bill) -> Outcome {
        let kind = check_key(bill.key)?;
        require(limits::BILL.contains(&bill.amount), Refusal::Amount)?;
        let place = self.place_at_stage(directory, bill.key, stage_before_bill(kind))?;
        let record = &mut self.records[place];
        record.stage = BILLED;
        record.requirement = bill.amount;
        stands(record.requirement)
    }

    /// Pay: refusals 2, 3, 4, 11 and 12. "Pay needs 4 and frees the place."
    fn pay(&mut self, directory: &Directory, payment: Payment) -> Outcome {
        check_key(payment.key)?;
        let place = self.place_at_stage(directory, payment.key, BILLED)?;
        self.records[place] = Record::FREE;
        stands(0)
    }

    /// Support: refusal 9.
    fn set_support(&mut self, support: Support) -> Outcome {
        check_support(support.amount)?;
        self.support = support.amount;
        stands(0)
    }

    /// The place of an open key: refusal 11 when the key is not open.
    fn place_of(&self, directory: &Directory, key: Key) -> Result<usize, Refusal> {
        directory.get(&key).copied().ok_or(Refusal::KeyNotOpen)
    }

    /// The place of an open key at the stage that a message needs: refusal 11
    /// when the key is not open, 12 when the stage is another.
    fn place_at_stage(
        &self,
        directory: &Directory,
        key: Key,
        stage: u64,
    ) -> Result<usize, Refusal> {
        let place = self.place_of(directory, key)?;
        require(self.records[place].stage == stage, Refusal::WrongStage)?;
        Ok(place)
    }
}

/// The answer to any message from a book that is not sound.
const NOT_SOUND: Answer = Answer {
    refusal: Some(Refusal::BookNotSound),
    removed: false,
    requirement: 0,
    held: 0,
    net_owed: 0,
};

/// An amount of a sound book, or a sum over sound places, which lies far
/// within the type.
fn cents(amount: i128) -> i64 {
    i64::try_from(amount).expect("amounts of sound places fit")
}

/// A bid MWh of points in range, which lies far within the type.
fn whole_mwh(mwh: i128) -> u64 {
    u64::try_from(mwh).expect("MWh of points in range fit")
}

/// Refusals 2, 3 and 4, in this order. "3 above zone 11" (02, order 6).
pub(crate) fn check_key(key: Key) -> Result<Kind, Refusal> {
    let kind = Kind::from_number(key.kind).ok_or(Refusal::Kind)?;
    require(path_range(kind).contains(&key.path), Refusal::Path)?;
    require(limits::HOUR.contains(&key.hour), Refusal::Hour)?;
    Ok(kind)
}

/// Refusal 7 of post and finish: "Kinds 1 to 3 use one price in post and
/// finish, and their second must be 0." So do kinds 5 and 6.
pub(crate) fn check_two_prices(kind: Kind, first: i64, second: i64) -> Result<(), Refusal> {
    let in_range = limits::PRICE.contains(&first) && limits::PRICE.contains(&second);
    let second_fits = kind == Kind::Wheel || second == 0;
    require(in_range && second_fits, Refusal::Price)
}

/// Refusal 9 of a support.
pub(crate) fn check_support(amount: i64) -> Result<(), Refusal> {
    require(limits::SUPPORT.contains(&amount), Refusal::Amount)
}

/// "Points come as two lent lists of equal length, MWh and prices."
#[derive(Clone, Copy)]
pub(crate) struct Curve<'a> {
    pub(crate) mwh: &'a [u64],
    pub(crate) prices: &'a [i64],
}

impl Curve<'_> {
    /// Refusals 5, 6 and 7, in this order.
    pub(crate) fn check(&self) -> Result<(), Refusal> {
        let counted = limits::POINTS.contains(&self.mwh.len());
        let equal = self.mwh.len() == self.prices.len();
        require(counted && equal, Refusal::Points)?;
        self.check_values()
    }

    /// Refusals 6 and 7, in this order.
    fn check_values(&self) -> Result<(), Refusal> {
        let mwh_in_range = self.mwh.iter().all(|mwh| limits::POINT_MWH.contains(mwh));
        require(mwh_in_range, Refusal::Quantity)?;
        check_prices(self.prices)
    }
}

/// Refusal 7 of a list of prices.
fn check_prices(prices: &[i64]) -> Result<(), Refusal> {
    let in_range = prices.iter().all(|price| limits::PRICE.contains(price));
    require(in_range, Refusal::Price)
}

/// The four interval prices of a listed path.
type Quote<'a> = &'a [i64];

/// Refusals 3, 4, 5 and 7 of a close, in this order, and then the prices of
/// each path. "Each once": "5 .. a path listed twice" (02, order 3), or prices
/// that are not four a path.
fn check_closing<'a>(
    closing: Closing,
    paths: &[u64],
    prices: &'a [i64],
) -> Result<BTreeMap<u64, Quote<'a>>, Refusal> {
    let paths_in_range = paths.iter().all(|path| limits::PATH.contains(path));
    require(paths_in_range, Refusal::Path)?;
    require(limits::HOUR.contains(&closing.hour), Refusal::Hour)?;
    let each_once = paths.iter().collect::<BTreeSet<_>>().len() == paths.len();
    let four_a_path = prices.len() % INTERVALS == 0 && prices.len() / INTERVALS == paths.len();
    require(each_once && four_a_path, Refusal::Points)?;
    check_prices(prices)?;
    let quotes = prices.chunks_exact(INTERVALS);
    Ok(paths.iter().copied().zip(quotes).collect())
}

/// Refusals 2 to 7 of open and revise with four curves, in this order, and
/// then the record of a pending bid: "On opening a bid is pending (stage 1),
/// requirement 0" (02, order 3).
fn pending_record(curves: Curves, points: Curve) -> Result<Record, Refusal> {
    let kind = check_key(curves.key)?;
    // Four curves are kind 5's, as one curve is the other kinds'.
    let four = kind == Kind::QuarterHourExport;
    require(four && counts_fit(&curves.counts, points), Refusal::Points)?;
    points.check_values()?;
    Ok(Record {
        key: curves.key,
        stage: BID,
        intervals: interval_sums(&curves.counts, points.mwh),
        ..Record::FREE
    })
}

/// "An interval has 0 to 64 points"; "5 an interval too long, all four empty"
/// (02, order 3), or counts that are not those of the two lists.
fn counts_fit(counts: &[u64; INTERVALS], points: Curve) -> bool {
    let short_enough = |count| limits::INTERVAL_POINTS.contains(count);
    let sum: u128 = counts.iter().map(|&count| u128::from(count)).sum();
    counts.iter().all(short_enough)
        && sum > 0
        && sum == points.mwh.len() as u128
        && sum == points.prices.len() as u128
}

/// "Points of one interval adding up" (02, order 3): the MWh sum of each
/// interval, whose points follow those of the interval before.
fn interval_sums(counts: &[u64; INTERVALS], mwh: &[u64]) -> [u64; INTERVALS] {
    let mut left = mwh;
    counts.map(|count| {
        let (interval, rest) = left.split_at(count as usize);
        left = rest;
        whole_mwh(formulas::sum_of_mwh(interval))
    })
}

/// Refusals 3, 4, 6 and 8 of open and revise with two sides, in this order, and
/// then the record of the bid (02, order 6).
fn sides_record(sides: Sides) -> Result<Record, Refusal> {
    let key = zone_key(sides.zone, sides.hour);
    check_key(key)?;
    let requirement = cents(formulas::virtual_bid(sides.load, sides.supply)?);
    Ok(Record {
        key,
        stage: BID,
        bid_mwh: sides.load.mwh,
        differential: sides.load.differential,
        requirement,
        supply: Supply {
            mwh: sides.supply.mwh,
            differential: sides.supply.differential,
            schedule: 0,
        },
        ..Record::FREE
    })
}

/// The requirement of a virtual bid at stage 2: posted MWh, and the
/// differentials on record.
fn posted_sides_requirement(record: &Record, posting: &SidesPosting) -> Result<i128, Refusal> {
    let load = Side {
        mwh: posting.load,
        differential: record.differential,
    };
    let supply = Side {
        mwh: posting.supply,
        differential: record.supply.differential,
    };
    formulas::virtual_posted(load, supply)
}

/// "All bids of one key are one group": what open and revise put on record.
struct Group {
    bid_mwh: u64,
    differential: u64,
    exempt: bool,
    requirement: i64,
}

impl Group {
    /// Refusals 2 to 8, in this order, and then the requirement at stage 1.
    fn read(key: Key, curve: Curve, differential: u64, exempt: bool) -> Result<Group, Refusal> {
        let kind = check_key(key)?;
        require(has_one_curve(kind), Refusal::Points)?;
        curve.check()?;
        require(
            differential_range(kind).contains(&differential),
            Refusal::Differential,
        )?;
        // "The exempt mark is ignored for kinds 2 to 4."
        let exempt = exempt && kind == Kind::Import;
        Ok(Group {
            bid_mwh: whole_mwh(bid_mwh(kind, curve)),
            differential,
            exempt,
            requirement: cents(bid_requirement(kind, curve, differential, exempt)),
        })
    }

    /// The group's record at stage 1.
    fn record(&self, key: Key) -> Record {
        Record {
            key,
            stage: BID,
            bid_mwh: self.bid_mwh,
            differential: self.differential,
            exempt: self.exempt,
            requirement: self.requirement,
            ..Record::FREE
        }
    }
}

/// Kind 5 has four curves, and kind 6 "no points or prices" (02, order 6): one
/// curve is no form of their bids.
fn has_one_curve(kind: Kind) -> bool {
    kind != Kind::QuarterHourExport && kind != Kind::Virtual
}

/// The largest MWh of any point, for exports the sum of all; 0 for kinds 5
/// and 6, which have no group of one curve.
fn bid_mwh(kind: Kind, curve: Curve) -> i128 {
    match kind {
        Kind::Import | Kind::Wheel => formulas::largest_mwh(curve.mwh),
        Kind::Export | Kind::HourAheadExport => formulas::sum_of_mwh(curve.mwh),
        Kind::QuarterHourExport | Kind::Virtual => 0,
    }
}

/// The requirement at stage 1 of a group of one curve.
fn bid_requirement(kind: Kind, curve: Curve, differential: u64, exempt: bool) -> i128 {
    let Curve { mwh, prices } = curve;
    let differential = i128::from(differential);
    match kind {
        Kind::Import => formulas::import_bid(bid_mwh(kind, curve), differential, exempt),
        Kind::Export => formulas::export_bid(mwh, prices, differential),
        Kind::HourAheadExport => formulas::hour_ahead_export_bid(mwh, prices),
        Kind::Wheel => formulas::wheel_bid(mwh, prices),
        Kind::QuarterHourExport | Kind::Virtual => 0,
    }
}

/// The requirement at stage 2. Post "is not for kind 3 (refusal 12)"; and "12
/// for posting kind 5" (02, order 3). Kind 6 is posted per side (02, order 6).
fn posted_requirement(kind: Kind, record: &Record, posting: &Posting) -> Result<i128, Refusal> {
    let schedule = i128::from(posting.schedule);
    let differential = i128::from(record.differential);
    let first = i128::from(posting.first_price);
    let second = i128::from(posting.second_price);
    match kind {
        Kind::Import => Ok(formulas::import_posted(
            schedule,
            differential,
            record.exempt,
        )),
        Kind::Export => Ok(formulas::export_posted(schedule, first, differential)),
        Kind::HourAheadExport | Kind::QuarterHourExport | Kind::Virtual => Err(Refusal::WrongStage),
        Kind::Wheel => {
            let difference = formulas::difference(first, second);
            Ok(formulas::wheel_posted(schedule, difference))
        }
    }
}

/// "Finish goes from 2 to 3, for kind 3 from 1 to 3"; kind 5 "from stage 2"
/// (02, order 3). Kind 6: "there is no finish"; "12 for finish" (02, order 6).
fn stage_before_finish(kind: Kind) -> Option<u64> {
    match kind {
        Kind::HourAheadExport => Some(BID),
        Kind::Import | Kind::Export | Kind::Wheel | Kind::QuarterHourExport => Some(POSTED),
        Kind::Virtual => None,
    }
}

/// "Bill goes from 3 to 4"; for kind 6 "bill goes from 2 to 4" (02, order 6).
fn stage_before_bill(kind: Kind) -> u64 {
    match kind {
        Kind::Virtual => POSTED,
        _ => FINISHED,
    }
}

/// The requirement at stage 3, which kind 6 doesn't have. "The posted amount,
/// here and for wheels, is the requirement that the record holds at stage 2."
fn finished_requirement(kind: Kind, record: &Record, finish: &Finish) -> i128 {
    let posted = i128::from(record.requirement);
    let schedule = i128::from(record.schedule);
    let day_ahead = i128::from(record.day_ahead_price);
    let actual = i128::from(finish.actual);
    let first = i128::from(finish.first_price);
    let second = i128::from(finish.second_price);
    match kind {
        Kind::Import => {
            formulas::import_finished(schedule, actual, day_ahead, first, record.exempt)
        }
        Kind::Export => formulas::export_finished(posted, schedule, actual, first),
        Kind::HourAheadExport => formulas::hour_ahead_export_finished(actual, first),
        Kind::QuarterHourExport => formulas::quarter_hour_export_finished(actual, first),
        Kind::Virtual => 0,
        Kind::Wheel => {
            let difference = formulas::difference(first, second);
            formulas::wheel_finished(posted, schedule, actual, difference)
        }
    }
}
