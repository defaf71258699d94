//! The run that docs/DRILL.md writes down, over the reference; the proved
//! drill must print the same, byte for byte.
//!
//! Standard input has four numbers: how many turns to run, the first turn
//! that has a line, the turn at which such lines end, and the seed.

use std::fmt::Write as _;
use std::io::{Read, Write as _};

use reference::book::{
    Answer, Bill, Book, Closing, Curves, Finish, Key, Message, Opening, Payment, Posting, Record,
    Revision, Support, Withdrawal,
};
use reference::chart::{self, Table};
use reference::history::{self, Window};
use reference::limits;

const MODULUS: u64 = 2_147_483_647;
const MULTIPLIER: u64 = 48_271;
const MOST_SUPPORT: i64 = 1_000_000_000_000_000;
const PLACES: usize = 256;
/// Hour-Ahead exports with four interval curves (02, order 3).
const FOUR_CURVES: u64 = 5;

const OPEN: u64 = 1;
const REVISE: u64 = 2;
const WITHDRAW: u64 = 3;
const POST: u64 = 4;
const FINISH: u64 = 5;
const BILL: u64 = 6;
const PAY: u64 = 7;
const SUPPORT: u64 = 8;
const OPEN_CURVES: u64 = 9;
const REVISE_CURVES: u64 = 10;
const CLOSE: u64 = 11;

/// The rows of the coverage table, by what is met there. Each part starts at
/// a number of its own and has room for more.
mod rows {
    /// How many rows the table has; row 0 is none.
    pub const COUNT: usize = 1_024;

    /// Messages 1 to 15, answers 0 to 31.
    const ANSWERS: u64 = 0;
    const MESSAGES_BELOW: u64 = 16;
    const NUMBERS_BELOW: u64 = 32;
    /// Messages 1 to 15, kinds 1 to 7.
    const KINDS: u64 = 512;
    const KINDS_BELOW: u64 = 8;
    /// Refusals 1 to 31.
    const OVER_LATER: u64 = 640;
    /// To 683; then refusals 1 to 7 of four curves, and of a close.
    const PAIRS: u64 = 672;
    const CURVES_OVER_LATER: u64 = 684;
    const CLOSE_OVER_LATER: u64 = 692;
    const FRESH: u64 = 704;
    const TESTS: u64 = 708;
    const LOOKS: u64 = 712;
    const SUSPENSION: u64 = 716;
    const PLACES: u64 = 720;
    /// To 735.
    const EDGES: u64 = 728;
    /// To 767. A batch that is kept, and next to it the same of one removed.
    const CLOSES: u64 = 736;
    /// To 959: fields 0 to 95.
    const CHANGES: u64 = 768;
    const FIELDS_BELOW: u64 = 96;
    /// To 975.
    const REBUILT: u64 = 960;
    /// To 1,007: kind 5, at stages 0 to 7 where it has one.
    const QUARTERS: u64 = 976;
    const ACCEPTED_AT_STAGE: u64 = 992;
    const WRONG_STAGE: u64 = 1_000;
    const STAGES_BELOW: u64 = 8;
    /// To 1,023: the lookup by its edition.
    const EDITIONS: u64 = 1_008;

    pub const TEN_OVER_FIFTEEN: u64 = PAIRS;
    pub const TWELVE_OVER_THIRTEEN: u64 = PAIRS + 1;
    pub const FOURTEEN_OVER_FIFTEEN: u64 = PAIRS + 2;
    pub const FOURTEEN_OVER_SIXTEEN: u64 = PAIRS + 3;
    pub const FIFTEEN_OVER_SIXTEEN: u64 = PAIRS + 4;
    pub const CURVES_TEN_OVER_FOURTEEN: u64 = PAIRS + 5;
    pub const CURVES_TEN_OVER_FIFTEEN: u64 = PAIRS + 6;
    pub const CURVES_FOURTEEN_OVER_FIFTEEN: u64 = PAIRS + 7;
    pub const CURVES_TWELVE_OVER_FOURTEEN: u64 = PAIRS + 8;
    pub const KIND_5_TWELVE_OVER_THIRTEEN: u64 = PAIRS + 9;
    pub const FRESH_ACCEPTED: u64 = FRESH;
    pub const FRESH_REFUSED: u64 = FRESH + 1;
    pub const EXEMPT: u64 = TESTS;
    pub const NOT_EXEMPT: u64 = TESTS + 1;
    pub const TEST_REFUSED: u64 = TESTS + 2;
    pub const LOOK_ANSWERED: u64 = LOOKS;
    pub const LOOK_REFUSED: u64 = LOOKS + 1;
    pub const SUSPENSION_ON: u64 = SUSPENSION;
    pub const SUSPENSION_OFF: u64 = SUSPENSION + 1;
    pub const SUSPENDED_AS_KEPT: u64 = SUSPENSION + 2;
    pub const NOT_SUSPENDED_AS_KEPT: u64 = SUSPENSION + 3;
    pub const PLACE_USED_AGAIN: u64 = PLACES;
    pub const ALL_FREE: u64 = PLACES + 1;
    pub const ONE_FREE: u64 = PLACES + 2;
    pub const NONE_FREE: u64 = PLACES + 3;
    pub const OPEN_TO_SUPPORT: u64 = EDGES;
    pub const OPEN_ONE_CENT_ABOVE: u64 = EDGES + 1;
    pub const REVISE_TO_SUPPORT: u64 = EDGES + 2;
    pub const REVISE_ONE_CENT_ABOVE: u64 = EDGES + 3;
    pub const SUSPENDED_AT_TWICE_OWED: u64 = EDGES + 4;
    pub const OPEN_ONE_CENT_BELOW_TWICE: u64 = EDGES + 5;
    pub const SOUND_GIVEN_BACK: u64 = REBUILT;
    pub const SOUND_AGAIN_REFUSED: u64 = REBUILT + 1;
    pub const SOUND_AGAIN_ACCEPTED: u64 = REBUILT + 2;
    pub const SUPPORT_STILL_WRONG: u64 = REBUILT + 3;
    pub const KEYS_STILL_WRONG: u64 = REBUILT + 4;
    pub const PLACE_STILL_WRONG: u64 = REBUILT + 5;
    pub const BATCH: u64 = CLOSES;
    pub const BATCH_AT_SUPPORT: u64 = CLOSES + 2;
    pub const BATCH_ADDS_0: u64 = CLOSES + 4;
    pub const BATCH_OF_SEVERAL: u64 = CLOSES + 6;
    pub const BATCH_WHILE_SUSPENDED: u64 = CLOSES + 8;
    pub const OTHER_ORDER: u64 = CLOSES + 10;
    pub const CLOSE_ON_FULL_BOOK: u64 = CLOSES + 11;
    pub const NO_PENDING_BID: u64 = CLOSES + 12;
    pub const NONE_LISTED: u64 = CLOSES + 13;
    pub const ONE_LEFT_OUT: u64 = CLOSES + 14;
    pub const ONE_CLOSED_ALREADY: u64 = CLOSES + 15;
    pub const ONE_NOT_PENDING: u64 = CLOSES + 16;
    pub const PATHS_OF_ANOTHER_HOUR: u64 = CLOSES + 17;
    pub const PATH_TWICE: u64 = CLOSES + 18;
    pub const PRICES_ONE_SHORT: u64 = CLOSES + 19;
    pub const PRICES_ONE_MORE: u64 = CLOSES + 20;
    pub const PRICES_ONE_A_PATH: u64 = CLOSES + 21;
    pub const FIRST_PATH: u64 = CLOSES + 22;
    pub const LAST_PATH: u64 = CLOSES + 23;
    pub const FIRST_PRICE: u64 = CLOSES + 24;
    pub const LAST_PRICE: u64 = CLOSES + 25;
    pub const OPEN_ABOVE_SUPPORT: u64 = QUARTERS;
    pub const REVISE_ABOVE_SUPPORT: u64 = QUARTERS + 1;
    pub const INTERVAL_EMPTY: u64 = QUARTERS + 2;
    pub const INTERVALS_FULL: u64 = QUARTERS + 3;
    /// By the way of fault 5.
    pub const CURVES_FAULTY: u64 = QUARTERS + 4;
    pub const ONE_CURVE_FOR_KIND_5: u64 = QUARTERS + 11;
    pub const FOUR_CURVES_FOR_OTHERS: u64 = QUARTERS + 12;
    pub const PENDING_WITH_REQUIREMENT: u64 = QUARTERS + 13;
    pub const OLDER_IMPORT: u64 = EDITIONS;
    pub const OLDER_EXPORT: u64 = EDITIONS + 1;
    pub const NEWER_ANSWERED: u64 = EDITIONS + 2;
    pub const EDITION_UNKNOWN: u64 = EDITIONS + 3;
    pub const NEWER_EXPORT_REFUSED: u64 = EDITIONS + 4;
    pub const NEWER_IMPORT_REFUSED: u64 = EDITIONS + 5;

    /// A message that was answered so; 0 is acceptance.
    pub fn answer(message: u64, number: u64) -> u64 {
        assert!(message < MESSAGES_BELOW && number < NUMBERS_BELOW);
        ANSWERS + NUMBERS_BELOW * message + number
    }

    /// A message that was accepted for a kind.
    pub fn kind(message: u64, kind: u64) -> u64 {
        assert!(message < MESSAGES_BELOW && kind < KINDS_BELOW);
        KINDS + KINDS_BELOW * message + kind
    }

    /// A refusal given where a later fault was drawn too.
    pub fn over_later(number: u64) -> u64 {
        assert!(number < NUMBERS_BELOW);
        OVER_LATER + number
    }

    /// The same by message, for those of order 3; a close when `close`.
    pub fn order_3_over_later(close: bool, number: u64) -> u64 {
        assert!(number < 8);
        number
            + if close {
                CLOSE_OVER_LATER
            } else {
                CURVES_OVER_LATER
            }
    }

    /// A message to a record of kind 5 at a stage, accepted, or refused 12.
    pub fn at_stage(stage: u64, accepted: bool) -> u64 {
        assert!(stage < STAGES_BELOW);
        stage
            + if accepted {
                ACCEPTED_AT_STAGE
            } else {
                WRONG_STAGE
            }
    }

    /// A changed field, where the book is still sound, or no longer.
    pub fn change(field: u64, sound: bool) -> u64 {
        assert!(field < FIELDS_BELOW);
        CHANGES + 2 * field + u64::from(!sound)
    }
}

fn next(x: u64) -> u64 {
    x * MULTIPLIER % MODULUS
}

/// The seed of the first turn. From 0 every draw would be 0, so 1 stands for
/// it, and for a seed that is not given.
fn first_seed(given: u64) -> u64 {
    (given % MODULUS).max(1)
}

/// The running digest.
struct Digest(u64);

impl Digest {
    fn mix(&mut self, value: u64) {
        self.0 = (self.0 * MULTIPLIER + value % MODULUS) % MODULUS;
    }

    fn mix_cents(&mut self, cents: i64) {
        self.mix(u64::from(cents < 0));
        self.mix(cents.unsigned_abs());
    }

    fn mix_answer(&mut self, answer: &Answer) {
        self.mix(answer.number());
        self.mix_cents(answer.requirement);
        self.mix_cents(answer.held);
        self.mix_cents(answer.net_owed);
        self.mix(u64::from(answer.removed));
    }

    /// What a book keeps beside its records.
    fn mix_account(&mut self, book: &Book) {
        self.mix_cents(book.support);
        self.mix_cents(book.held);
        self.mix_cents(book.net_owed);
    }

    /// What a screen asks of a book.
    fn mix_screen(&mut self, book: &Book) {
        self.mix_cents(book.held());
        self.mix_cents(book.net_owed());
        self.mix(u64::from(book.is_suspended()));
    }

    /// What it keeps, then each place that is not free, as one value.
    fn mix_book(&mut self, book: &Book) {
        self.mix_account(book);
        for (place, record) in (1..).zip(&book.records) {
            if *record != Record::FREE {
                self.mix(weighed(place, record));
            }
        }
    }
}

/// The sum of a number's halves.
fn folded(value: u64) -> u64 {
    (value >> 32) + (value & 0xffff_ffff)
}

fn folded_cents(cents: i64) -> u64 {
    2 * folded(cents.unsigned_abs()) + u64::from(cents < 0)
}

/// The number of a place and all that its record has, each folded and with a
/// multiplier of its own.
fn weighed(place: u64, record: &Record) -> u64 {
    let [first, second, third, fourth] = record.intervals;
    let values = [
        folded(place),
        folded(record.key.kind),
        folded(record.key.path),
        folded(record.key.hour),
        folded(record.stage),
        folded(record.bid_mwh),
        folded(record.differential),
        u64::from(record.exempt),
        folded(record.schedule),
        folded_cents(record.day_ahead_price),
        folded_cents(record.requirement),
        folded(first),
        folded(second),
        folded(third),
        folded(fourth),
    ];
    let mut power = 1;
    let mut sum = 0;
    for value in values {
        power = next(power);
        sum += value * (power % (1 << 25));
    }
    sum
}

/// The 23 draws of a turn, in their order.
struct Draws {
    message: u64,
    place: u64,
    source: u64,
    kind: u64,
    path: u64,
    hour: u64,
    faults: [u64; 2],
    quantity: u64,
    price: u64,
    second_price: u64,
    differential: u64,
    exempt: u64,
    amount: u64,
    count: u64,
    points: u64,
    tight: u64,
    bids: u64,
    mwh: u64,
    loss: u64,
    look: u64,
    day: u64,
    last: u64,
}

impl Draws {
    fn of(seed: u64) -> Draws {
        let mut x = seed;
        let mut draw = || {
            x = next(x);
            x
        };
        Draws {
            message: draw(),
            place: draw(),
            source: draw(),
            kind: draw(),
            path: draw(),
            hour: draw(),
            faults: [draw(), draw()],
            quantity: draw(),
            price: draw(),
            second_price: draw(),
            differential: draw(),
            exempt: draw(),
            amount: draw(),
            count: draw(),
            points: draw(),
            tight: draw(),
            bids: draw(),
            mwh: draw(),
            loss: draw(),
            look: draw(),
            day: draw(),
            last: draw(),
        }
    }

    fn has(&self, fault: u64) -> bool {
        self.faults.iter().any(|draw| draw % 32 == fault)
    }

    fn key_is_from_place(&self, message: u64) -> bool {
        opens(message) == (self.source % 8 == 0)
    }

    /// Fault 5 gives a bid the other form: one curve for four, or four for
    /// one.
    fn has_other_form(&self) -> bool {
        self.has(5) && self.count % 8 == 7
    }

    /// Whether a fault in a list stands at its start.
    fn faulty_first(&self) -> bool {
        self.count / 256 % 2 == 0
    }
}

fn opens(message: u64) -> bool {
    message == OPEN || message == OPEN_CURVES
}

fn has_curves(message: u64) -> bool {
    message == OPEN_CURVES || message == REVISE_CURVES
}

/// An open or a revise, of either form.
fn bids(message: u64) -> bool {
    message == OPEN || message == REVISE || has_curves(message)
}

/// An open or a revise in the form of its kind; of the kinds that are none,
/// every other has four curves.
fn formed(draws: &Draws, message: u64, kind: u64) -> u64 {
    let four = kind >= FOUR_CURVES && kind % 2 == 1;
    match (message, four != draws.has_other_form()) {
        (OPEN, true) => OPEN_CURVES,
        (REVISE, true) => REVISE_CURVES,
        _ => message,
    }
}

/// One of eight, by a draw.
fn one_of<T: Copy>(row: &[T; 8], w: u64) -> T {
    row[(w % 8) as usize]
}

const PATHS: [u64; 8] = [1, 2, 3, 4, 500, 997, 998, 999];
const POINT_MWH: [u64; 8] = [0, 1, 27, 61, 100, 500, 9_999, 10_000];
const DIFFERENTIALS: [u64; 8] = [0, 1, 1_200, 1_400, 4_000, 6_000, 999_999, 1_000_000];
const TEST_BIDS: [u64; 8] = [0, 1, 49, 50, 51, 100, 1_000_000_000, 1_000_000_001];
const TEST_MWH: [u64; 8] = [0, 1, 99, 100, 101, 400, 1_000_000_000, 1_000_000_001];
const TEST_LOSS: [u64; 8] = [0, 1, 24, 25, 26, 100, 1_000_000_000, 1_000_000_001];
const EDITIONS: [u64; 8] = [1, 2, 1, 2, 1, 2, 0, 3];
const KINDS_OUT: [u64; 8] = [0, 7, 8, 9, 10, 11, 12, u64::MAX];
const PATHS_OUT: [u64; 8] = [0, 1_000, 1_001, 1_002, 2_000, 3_000, 4_000, u64::MAX];
const HOURS_OUT: [u64; 8] = [
    1_000_000, 1_000_001, 1_000_002, 2_000_000, 3_000_000, 4_000_000, 5_000_000, u64::MAX,
];
const POINT_MWH_OUT: [u64; 8] = [
    10_001, 10_002, 10_003, 20_000, 30_000, 640_000, 640_001, u64::MAX,
];
const QUANTITIES_OUT: [u64; 8] = [
    640_001, 640_002, 640_003, 700_000, 800_000, 900_000, 1_000_000, u64::MAX,
];
const DIFFERENTIALS_OUT: [u64; 8] = [
    1_000_001, 1_000_002, 1_000_003, 2_000_000, 3_000_000, 4_000_000, 5_000_000, u64::MAX,
];
const PRICES: [i64; 8] = [0, 1, -1, 4_000, 6_000, 999_999, 1_000_000, -1_000_000];
const PRICES_OUT: [i64; 8] = [
    1_000_001, -1_000_001, 1_000_002, -1_000_002, 2_000_000, -2_000_000, i64::MAX, i64::MIN,
];
const TRILLION: i64 = 1_000_000_000_000;
const BILLS: [i64; 8] = [0, 1, -1, 49_999, 50_000, 100_000, TRILLION, -TRILLION];
const BILLS_OUT: [i64; 8] = [
    TRILLION + 1, -TRILLION - 1, TRILLION + 2, -TRILLION - 2, 2 * TRILLION, -2 * TRILLION,
    i64::MAX, i64::MIN,
];
const SUPPORTS: [i64; 8] = [
    0, 1, 99_999, 100_000, TRILLION, 500 * TRILLION, MOST_SUPPORT - 1, MOST_SUPPORT,
];
const SUPPORTS_OUT: [i64; 8] = [
    -1, -2, -100_000, MOST_SUPPORT + 1, MOST_SUPPORT + 2, 2 * MOST_SUPPORT, i64::MAX, i64::MIN,
];

fn hour(w: u64) -> u64 {
    w % 8 + if w / 8 % 2 == 0 { 0 } else { 999_992 }
}

fn point_mwh(w: u64) -> u64 {
    if w % 2 == 0 {
        w / 2 % 10_001
    } else {
        one_of(&POINT_MWH, w / 2)
    }
}

/// Any price, or one of the row.
fn price_or(row: &[i64; 8], w: u64) -> i64 {
    if w % 2 == 0 {
        (w / 2 % 2_000_001) as i64 - 1_000_000
    } else {
        one_of(row, w / 2)
    }
}

/// One less than this many cents, as many, or one more; never below 0.
fn near(cents: u64, w: u64) -> i64 {
    let sum = (cents % 2_000_000_000_000_001 + w % 3) as i64;
    (sum - 1).max(0)
}

fn doubled(cents: i64) -> u64 {
    cents.unsigned_abs() % 1_000_000_000_000_001 * 2
}

/// What a turn asks: every value that its message could be made of.
#[derive(Clone, Copy)]
struct Ask {
    message: u64,
    key: Key,
    differential: u64,
    exempt: bool,
    quantity: u64,
    first_price: i64,
    second_price: i64,
    cents: i64,
    /// The points of each interval, for messages that have four curves.
    counts: [u64; 4],
    /// How many pending bids the hour of a close has.
    pending: usize,
}

impl Ask {
    fn message(&self) -> Message {
        let Ask { key, .. } = *self;
        match self.message {
            OPEN => Message::Open(Opening {
                key,
                differential: self.differential,
                exempt: self.exempt,
            }),
            REVISE => Message::Revise(Revision {
                key,
                differential: self.differential,
                exempt: self.exempt,
            }),
            WITHDRAW => Message::Withdraw(Withdrawal { key }),
            POST => Message::Post(Posting {
                key,
                schedule: self.quantity,
                first_price: self.first_price,
                second_price: self.second_price,
            }),
            FINISH => Message::Finish(Finish {
                key,
                actual: self.quantity,
                first_price: self.first_price,
                second_price: self.second_price,
            }),
            BILL => Message::Bill(Bill {
                key,
                amount: self.cents,
            }),
            PAY => Message::Pay(Payment { key }),
            OPEN_CURVES => Message::OpenCurves(Curves {
                key,
                counts: self.counts,
            }),
            REVISE_CURVES => Message::ReviseCurves(Curves {
                key,
                counts: self.counts,
            }),
            CLOSE => Message::Close(Closing { hour: key.hour }),
            _ => Message::Support(Support { amount: self.cents }),
        }
    }
}

/// A turn's draws, its message, and the lists beside it: points, or the paths
/// and prices of a close.
struct Turn {
    draws: Draws,
    ask: Ask,
    numbers: Vec<u64>,
    prices: Vec<i64>,
}

/// The message that takes a record to its next stage; of a free place, open.
fn onward(record: &Record) -> u64 {
    match record.stage {
        0 => OPEN,
        1 if record.key.kind == 3 => FINISH,
        1 if record.key.kind == FOUR_CURVES => CLOSE,
        1 => POST,
        2 => FINISH,
        3 => BILL,
        _ => PAY,
    }
}

/// How far the run has come.
struct Run {
    book: Book,
    seed: u64,
    digest: Digest,
    turn: u64,
    messages: u64,
    open: u64,
    most_open: u64,
    again: bool,
    suspended: bool,
    held: i64,
    net_owed: i64,
    rows: [u64; rows::COUNT],
}

impl Run {
    /// 0 fills the book, 1 takes its records on, 2 empties it to a few.
    fn season(&self) -> u64 {
        match self.turn / 1_024 % 16 {
            0..=3 => 0,
            8..=13 => 2,
            _ => 1,
        }
    }

    fn count(&mut self, applies: bool, row: u64) {
        if applies {
            self.rows[row as usize] += 1;
        }
    }

    /// A place of the book: one of the first so many, or any.
    fn place_of(&self, draws: &Draws) -> usize {
        let w = draws.place / 2;
        let place = if draws.place % 2 == 0 {
            w % (self.open + 1)
        } else {
            w
        };
        (place % PLACES as u64) as usize
    }

    fn message_of(&self, draws: &Draws, record: &Record) -> u64 {
        let any = match draws.message / 2 % 9 + 1 {
            9 => CLOSE,
            any => any,
        };
        let season = self.season();
        let many = season == 2 && self.open >= 3;
        let passed_over = many && any == OPEN || season == 0 && any == CLOSE;
        if draws.message % 2 == 0 && !passed_over {
            return any;
        }
        match (season, record.stage) {
            (0, _) => OPEN,
            (2, 0) if many => SUPPORT,
            (2, 1) => WITHDRAW,
            _ => onward(record),
        }
    }

    fn key_of(&self, draws: &Draws, record: &Record, message: u64) -> Key {
        let mut key = if draws.key_is_from_place(message) {
            record.key
        } else {
            Key {
                kind: draws.kind % 5 + 1,
                path: one_of(&PATHS, draws.path),
                hour: hour(draws.hour),
            }
        };
        if draws.has(2) {
            key.kind = one_of(&KINDS_OUT, draws.kind);
        }
        if draws.has(3) {
            key.path = one_of(&PATHS_OUT, draws.path);
        }
        if draws.has(4) {
            key.hour = one_of(&HOURS_OUT, draws.hour);
        }
        key
    }

    fn ask_of(&self, draws: &Draws, record: &Record) -> Ask {
        let message = self.message_of(draws, record);
        let key = self.key_of(draws, record, message);
        Ask {
            message: formed(draws, message, key.kind),
            key,
            differential: differential_of(draws, key.kind),
            exempt: draws.exempt % 4 == 0,
            quantity: quantity_of(draws, record),
            first_price: first_price_of(draws, key.kind),
            second_price: second_price_of(draws, key.kind),
            cents: self.cents_of(draws, message),
            counts: [0; 4],
            pending: 0,
        }
    }

    /// The paths of the pending bids of an hour, by place, or in another
    /// order: each place is passed once, from any one on, by any odd step.
    fn pending_paths(&self, draws: &Draws, hour: u64) -> Vec<u64> {
        let w = draws.quantity / 16;
        let (start, step) = if w % 2 == 0 {
            (0, 1)
        } else {
            (w / 2 % 256, w / 512 % 128 * 2 + 1)
        };
        (0..PLACES as u64)
            .map(|i| &self.book.records[((start + i * step) % PLACES as u64) as usize])
            .filter(|record| record.stage == 1 && record.key.kind == FOUR_CURVES)
            .filter(|record| record.key.hour == hour)
            .map(|record| record.key.path)
            .collect()
    }

    /// A close: which paths it lists, and how many prices.
    fn list_close(&self, draws: &Draws, record: &Record, ask: &mut Ask) -> (Vec<u64>, usize) {
        let mut paths = self.pending_paths(draws, ask.key.hour);
        ask.pending = paths.len();
        match listing_way(draws) {
            LEAVES_OUT => drop(paths.pop()),
            ADDS_ONE | ADDS_ONE_TOO => paths.push(one_more_path(draws, record)),
            NAMES_ANOTHER_HOUR => ask.key.hour = other_hour(ask.key.hour),
            LISTS_NONE => paths.clear(),
            _ => {}
        }
        if draws.has(3) {
            let out = one_of(&PATHS_OUT, draws.path);
            match paths.len() {
                0 => paths.push(out),
                n => paths[if draws.faulty_first() { 0 } else { n - 1 }] = out,
            }
        }
        let way = if draws.has(5) { draws.count % 4 } else { 4 };
        if way == 0 {
            if paths.is_empty() {
                paths.push(one_of(&PATHS, draws.path));
            }
            paths.push(paths[0]);
        }
        let n = paths.len();
        let prices = match way {
            1 if n == 0 => 1,
            1 => 4 * n - 1,
            2 => 4 * n + 1,
            3 => n.max(1),
            _ => 4 * n,
        };
        (paths, prices)
    }

    /// The lists beside the message.
    fn lists_of(&self, draws: &Draws, record: &Record, ask: &mut Ask) -> (Vec<u64>, Vec<i64>) {
        if ask.message == CLOSE {
            let (paths, prices) = self.list_close(draws, record, ask);
            return (paths, price_points(draws, prices));
        }
        let (mwh, prices) = if has_curves(ask.message) {
            let (counts, mwh, prices) = four_counts_of(draws);
            ask.counts = counts;
            (mwh, prices)
        } else {
            counts_of(draws)
        };
        (mwh_points(draws, mwh), price_points(draws, prices))
    }

    fn cents_of(&self, draws: &Draws, message: u64) -> i64 {
        let w = draws.amount;
        match (message == BILL, draws.has(9)) {
            (true, true) => one_of(&BILLS_OUT, w),
            (true, false) => price_or(&BILLS, w),
            (false, true) => one_of(&SUPPORTS_OUT, w),
            (false, false) => self.support_of(w),
        }
    }

    fn support_of(&self, w: u64) -> i64 {
        let filling = self.season() == 0;
        let around_held = near(self.held.unsigned_abs(), w / 8);
        match w % 8 {
            0 => around_held,
            1 => one_of(&SUPPORTS, w / 8),
            2 if !filling => around_held,
            3 | 4 if !filling => near(doubled(self.net_owed), w / 8),
            _ => MOST_SUPPORT,
        }
    }

    fn is_tight(&self, draws: &Draws, message: u64) -> bool {
        let w = draws.tight;
        let often_enough = w % 8 == 0 && (self.season() != 0 || w / 8 % 8 == 0);
        [OPEN, REVISE, CLOSE].contains(&message) && !self.again && often_enough
    }

    /// What the message would leave held with the largest support.
    fn trial_held(&self, ask: &Ask, numbers: &[u64], prices: &[i64]) -> i64 {
        let mut aside = self.book.clone();
        aside.support = MOST_SUPPORT;
        aside.apply(ask.message(), numbers, prices).held
    }

    /// One more message, answered.
    fn answered(&mut self, answer: &Answer) {
        self.messages += 1;
        self.digest.mix_answer(answer);
    }

    fn begin(&mut self, support: i64) {
        let (book, answer) = Book::fresh(support);
        self.count(answer.number() == 0, rows::FRESH_ACCEPTED);
        self.count(answer.number() == 9, rows::FRESH_REFUSED);
        self.answered(&answer);
        self.digest.mix_account(&book);
        self.book = book;
    }

    fn import_test(&mut self, draws: &Draws) {
        let three = Window {
            bids: one_of(&TEST_BIDS, draws.bids),
            mwh: one_of(&TEST_MWH, draws.mwh),
            loss: one_of(&TEST_LOSS, draws.loss),
        };
        let six = Window {
            bids: longer(three.bids, draws.bids / 8),
            mwh: longer(three.mwh, draws.mwh / 8),
            loss: longer(three.loss, draws.loss / 8),
        };
        let (number, exempt) = match history::import_test(three, six) {
            Ok(exempt) => (0, exempt),
            Err(refusal) => (refusal.number(), false),
        };
        self.count(exempt, rows::EXEMPT);
        self.count(number == 0 && !exempt, rows::NOT_EXEMPT);
        self.count(number == 17, rows::TEST_REFUSED);
        self.digest.mix(number);
        self.digest.mix(u64::from(exempt));
    }

    fn look_up(&mut self, draws: &Draws) {
        let w = draws.look;
        let edition = one_of(&EDITIONS, draws.day / 75);
        let table = if w % 2 == 0 {
            Table::Import
        } else {
            Table::Export
        };
        let (bus, month) = (w / 2 % 12, w / 24 % 14);
        let (day_type, hour) = (draws.day % 3, draws.day / 3 % 25);
        let answer = chart::lookup(edition, table, bus, month, day_type, hour);
        let (number, group, cents) = match answer {
            Ok(entry) => (0, entry.group, entry.differential.unwrap_or(0)),
            Err(refusal) => (refusal.number(), 0, 0),
        };
        self.count(number == 0, rows::LOOK_ANSWERED);
        self.count(number == 18, rows::LOOK_REFUSED);
        let rest_in_range = limits::BUS.contains(&bus)
            && limits::MONTH.contains(&month)
            && limits::DAY_TYPE.contains(&day_type)
            && limits::HOUR_OF_DAY.contains(&hour);
        self.count_edition(edition, table, number, rest_in_range);
        self.digest.mix(number);
        self.digest.mix(group);
        self.digest.mix(cents);
    }

    /// A lookup by its edition and table: answered, or refused 18 for one of
    /// these alone, or for the rest in the newer edition.
    fn count_edition(&mut self, edition: u64, table: Table, number: u64, rest_in_range: bool) {
        let row = match (number, edition, table) {
            (0, chart::OLDER, Table::Import) => rows::OLDER_IMPORT,
            (0, chart::OLDER, Table::Export) => rows::OLDER_EXPORT,
            (0, chart::NEWER, _) => rows::NEWER_ANSWERED,
            (18, chart::NEWER, Table::Import) => rows::NEWER_IMPORT_REFUSED,
            (18, chart::NEWER, Table::Export) if rest_in_range => rows::NEWER_EXPORT_REFUSED,
            (18, 0 | 3.., _) if rest_in_range => rows::EDITION_UNKNOWN,
            _ => return,
        };
        self.count(true, row);
    }

    /// The turn's message to a book set aside, and what a screen asks of it
    /// before. Gives the answer's number, and whether the book was sound.
    fn set_aside(&mut self, turn: &Turn, mut aside: Book) -> (u64, bool) {
        let sound = aside.is_sound();
        self.digest.mix_screen(&aside);
        let answer = aside.apply(turn.ask.message(), &turn.numbers, &turn.prices);
        let number = answer.number();
        if number == 1 {
            self.count_answer(turn, 1);
        }
        self.answered(&answer);
        self.digest.mix_book(&aside);
        self.digest.mix(u64::from(sound));
        (number, sound)
    }

    /// The book with one of the changes that no message makes.
    fn changed(&self, turn: &Turn, change: u64) -> Book {
        changed(&self.book, change, turn.draws.day / 16)
    }

    fn probe_changed(&mut self, turn: &Turn) {
        let change = self.turn / 8 % CHANGES;
        let (number, sound) = self.set_aside(turn, self.changed(turn, change));
        let row = rows::change(field_of(change), sound);
        self.count(sound != (number == 1), row);
        let not_0 = !sound && number == 1 && gives_pending_a_requirement(change);
        self.count(not_0, rows::PENDING_WITH_REQUIREMENT);
    }

    fn probe_tampered(&mut self, turn: &Turn) {
        let how = self.turn / 16 % TAMPERINGS;
        let aside = tampered(&self.book, how);
        let (now, told) = (self.book.is_suspended(), aside.is_suspended());
        self.count(told && !now, rows::SUSPENDED_AS_KEPT);
        self.count(!told && now, rows::NOT_SUSPENDED_AS_KEPT);
        let (number, sound) = self.set_aside(turn, aside);
        let row = rows::change(FIELD_TOTALS + how, sound);
        self.count(sound != (number == 1), row);
    }

    /// The same two, rebuilt from their support and records.
    fn probe_rebuilt(&mut self, turn: &Turn) {
        let which = self.turn / 32;
        let (field, before) = if self.turn / 16 % 2 == 0 {
            let how = which % TAMPERINGS;
            (FIELD_TOTALS + how, tampered(&self.book, how))
        } else {
            let change = which % CHANGES;
            (field_of(change), self.changed(turn, change))
        };
        let was_sound = before.is_sound();
        let aside = Book::rebuilt(before.support, before.records);
        let totals = (aside.held, aside.net_owed);
        let as_before = totals == (before.held, before.net_owed);
        let as_now = totals == (self.book.held, self.book.net_owed);
        let (number, sound) = self.set_aside(turn, aside);
        let row = match (sound, number) {
            (true, 1) => return,
            (true, _) if was_sound && as_before => rows::SOUND_GIVEN_BACK,
            (true, 0) if !was_sound && as_now => rows::SOUND_AGAIN_ACCEPTED,
            (true, _) if !was_sound && as_now => rows::SOUND_AGAIN_REFUSED,
            (false, 1) if totals == (0, 0) && !as_before => rows::PLACE_STILL_WRONG,
            (false, 1) if totals == (0, 0) || !as_before => return,
            (false, 1) if field == FIELD_SUPPORT => rows::SUPPORT_STILL_WRONG,
            (false, 1) => rows::KEYS_STILL_WRONG,
            _ => return,
        };
        self.count(true, row);
    }

    /// All that the book holds, and what a screen asks of it.
    fn show(&mut self) {
        self.digest.mix_book(&self.book);
        self.digest.mix_screen(&self.book);
        self.digest.mix(u64::from(self.book.is_sound()));
    }

    /// The rows of a message's answer, and of a later fault under it.
    fn count_answer(&mut self, turn: &Turn, number: u64) {
        let message = turn.ask.message;
        self.count(true, rows::answer(message, number));
        let faulty = (1..=7).contains(&number);
        if faulty && has_later(turn, number) {
            self.count(true, rows::over_later(number));
            let of_order_3 = has_curves(message) || message == CLOSE;
            let row = rows::order_3_over_later(message == CLOSE, number);
            self.count(of_order_3, row);
        }
    }

    /// Two refusals at once, of those that the book's state brings.
    fn count_two(&mut self, ask: &Ask, number: u64, above: bool) {
        let full = self.open == 256;
        let short = self.book.support < self.held;
        let suspended = self.book.is_suspended();
        let row = match (number, ask.message) {
            (10, OPEN) if full => rows::TEN_OVER_FIFTEEN,
            (10, OPEN_CURVES) if full => rows::CURVES_TEN_OVER_FIFTEEN,
            (10, OPEN_CURVES) if suspended => rows::CURVES_TEN_OVER_FOURTEEN,
            (12, POST) if above && ask.key.kind == FOUR_CURVES => rows::KIND_5_TWELVE_OVER_THIRTEEN,
            (12, POST) if above => rows::TWELVE_OVER_THIRTEEN,
            (12, REVISE_CURVES) if suspended => rows::CURVES_TWELVE_OVER_FOURTEEN,
            (14, OPEN) if full => rows::FOURTEEN_OVER_FIFTEEN,
            (14, OPEN_CURVES) if full => rows::CURVES_FOURTEEN_OVER_FIFTEEN,
            (14, OPEN) if short => rows::FOURTEEN_OVER_SIXTEEN,
            (15, OPEN) if short => rows::FIFTEEN_OVER_SIXTEEN,
            _ => return,
        };
        self.count(true, row);
    }

    /// A batch that was kept, or removed: each row of it.
    fn count_batch(&mut self, turn: &Turn, answer: &Answer) {
        let Turn { draws, ask, .. } = turn;
        let several = turn.numbers.len() >= 2;
        let one_short = self.again && draws.tight / 64 % 3 == 0;
        let at_support = if answer.removed {
            one_short
        } else {
            answer.held == self.book.support
        };
        let adds = self.trial_held(ask, &turn.numbers, &turn.prices) - self.book.held;
        let suspended = self.book.is_suspended();
        let removed = u64::from(answer.removed);
        self.count(true, rows::BATCH + removed);
        self.count(at_support, rows::BATCH_AT_SUPPORT + removed);
        self.count(adds == 0, rows::BATCH_ADDS_0 + removed);
        self.count(several, rows::BATCH_OF_SEVERAL + removed);
        self.count(suspended, rows::BATCH_WHILE_SUSPENDED + removed);
        let other_order = draws.quantity / 16 % 2 == 1;
        self.count(several && other_order, rows::OTHER_ORDER);
        self.count(self.open == 256, rows::CLOSE_ON_FULL_BOOK);
    }

    /// Why a close was refused.
    fn count_close_refused(&mut self, turn: &Turn, record: &Record, number: u64) {
        let Turn { draws, ask, .. } = turn;
        let first = draws.faulty_first();
        let closed = record.key.kind == FOUR_CURVES
            && record.key.hour == ask.key.hour
            && record.stage >= 2;
        let none_pending = ask.pending == 0;
        let row = match number {
            3 if first => rows::FIRST_PATH,
            3 if turn.numbers.len() >= 2 => rows::LAST_PATH,
            5 => match draws.count % 4 {
                1 if draws.has(5) => rows::PRICES_ONE_SHORT,
                2 if draws.has(5) => rows::PRICES_ONE_MORE,
                3 if draws.has(5) => rows::PRICES_ONE_A_PATH,
                _ => rows::PATH_TWICE,
            },
            7 if first => rows::FIRST_PRICE,
            7 => rows::LAST_PRICE,
            11 => match listing_way(draws) {
                ADDS_ONE | ADDS_ONE_TOO if closed => rows::ONE_CLOSED_ALREADY,
                ADDS_ONE | ADDS_ONE_TOO => rows::ONE_NOT_PENDING,
                NAMES_ANOTHER_HOUR if none_pending => return,
                NAMES_ANOTHER_HOUR => rows::PATHS_OF_ANOTHER_HOUR,
                _ if none_pending => rows::NO_PENDING_BID,
                LEAVES_OUT => rows::ONE_LEFT_OUT,
                LISTS_NONE => rows::NONE_LISTED,
                _ => return,
            },
            _ => return,
        };
        self.count(true, row);
    }

    /// Four curves, accepted or refused 5; and one curve for kind 5.
    fn count_curves(&mut self, turn: &Turn, number: u64) {
        let Turn { draws, ask, .. } = turn;
        let other_form = draws.has_other_form();
        let way = if draws.has(5) { draws.count % 8 } else { 0 };
        match (number, ask.message) {
            (0, OPEN_CURVES | REVISE_CURVES) => {
                let short = self.book.support < self.held;
                let opens = ask.message == OPEN_CURVES;
                self.count(short && opens, rows::OPEN_ABOVE_SUPPORT);
                self.count(short && !opens, rows::REVISE_ABOVE_SUPPORT);
                self.count(ask.counts.contains(&0), rows::INTERVAL_EMPTY);
                self.count(ask.counts == [64; 4], rows::INTERVALS_FULL);
            }
            (5, OPEN_CURVES | REVISE_CURVES) if other_form => {
                self.count(true, rows::FOUR_CURVES_FOR_OTHERS);
            }
            (5, OPEN_CURVES | REVISE_CURVES) => self.count(true, rows::CURVES_FAULTY + way),
            (5, OPEN | REVISE) if ask.key.kind == FOUR_CURVES => {
                self.count(true, rows::ONE_CURVE_FOR_KIND_5);
            }
            _ => {}
        }
    }

    /// Kind 5 at each stage, accepted or at the wrong one.
    fn count_stage(&mut self, turn: &Turn, record: &Record, number: u64) {
        let Turn { draws, ask, .. } = turn;
        let keyed = !opens(ask.message) && ask.message != SUPPORT && ask.message != CLOSE;
        let named = keyed && draws.key_is_from_place(ask.message);
        let applies = named && record.key.kind == FOUR_CURVES && (number == 0 || number == 12);
        if applies {
            self.count(true, rows::at_stage(record.stage, number == 0));
        }
    }

    /// The rows of order 3.
    fn count_order_3(&mut self, turn: &Turn, record: &Record, answer: &Answer) {
        let number = answer.number();
        match (turn.ask.message, number) {
            (CLOSE, 0) => self.count_batch(turn, answer),
            (CLOSE, _) => self.count_close_refused(turn, record, number),
            _ => self.count_curves(turn, number),
        }
        self.count_stage(turn, record, number);
    }

    fn count_edges(&mut self, draws: &Draws, message: u64, answer: &Answer) {
        let support = self.book.support;
        let owes = answer.net_owed >= 0;
        let twice = doubled(answer.net_owed) as i64;
        let one_short = self.again && draws.tight / 64 % 3 == 0;
        let row = match (answer.number(), message) {
            (0, OPEN) if owes && twice + 1 == support => rows::OPEN_ONE_CENT_BELOW_TWICE,
            (0, OPEN) if answer.held == support => rows::OPEN_TO_SUPPORT,
            (0, REVISE) if answer.held == support => rows::REVISE_TO_SUPPORT,
            (14, _) if owes && twice == support => rows::SUSPENDED_AT_TWICE_OWED,
            (16, OPEN) if one_short => rows::OPEN_ONE_CENT_ABOVE,
            (16, REVISE) if one_short => rows::REVISE_ONE_CENT_ABOVE,
            _ => return,
        };
        self.count(true, row);
    }

    fn count_suspension(&mut self, message: u64, number: u64) {
        let on = number == 14 && !self.suspended;
        let off = number == 0 && bids(message) && self.suspended;
        self.count(on, rows::SUSPENSION_ON);
        self.count(off, rows::SUSPENSION_OFF);
        self.suspended = (self.suspended || on) && !off;
    }

    fn count_places(&mut self, turn: &Turn, answer: &Answer) {
        let message = turn.ask.message;
        let accepted = answer.number() == 0;
        let opens = opens(message) && accepted;
        let frees = match message {
            WITHDRAW | PAY if accepted => 1,
            _ if answer.removed => turn.numbers.len() as u64,
            _ => 0,
        };
        match self.open {
            0 => self.count(true, rows::ALL_FREE),
            255 => self.count(true, rows::ONE_FREE),
            256 => self.count(true, rows::NONE_FREE),
            open => self.count(opens && open < self.most_open, rows::PLACE_USED_AGAIN),
        }
        self.open = self.open + u64::from(opens) - frees;
        self.most_open = self.most_open.max(self.open);
    }

    /// What a turn draws, before its message is sent.
    fn drawn(&self) -> (Turn, Record, bool) {
        let draws = Draws::of(self.seed);
        let record = self.book.records[self.place_of(&draws)];
        let mut ask = self.ask_of(&draws, &record);
        let (numbers, prices) = self.lists_of(&draws, &record, &mut ask);
        let tight = self.is_tight(&draws, ask.message);
        if tight {
            let held = self.trial_held(&ask, &numbers, &prices);
            ask.message = SUPPORT;
            ask.cents = near(held.unsigned_abs(), draws.tight / 64);
        }
        let turn = Turn {
            draws,
            ask,
            numbers,
            prices,
        };
        (turn, record, tight)
    }

    /// What is asked beside the turn's message.
    fn beside(&mut self, turn: &Turn) {
        self.import_test(&turn.draws);
        self.look_up(&turn.draws);
        match self.turn % 16 {
            7 | 15 => self.probe_changed(turn),
            3 => self.probe_tampered(turn),
            11 => self.probe_rebuilt(turn),
            _ if self.turn % 64 == 0 => self.show(),
            _ => {}
        }
    }

    fn turn(&mut self, window: &std::ops::Range<u64>, out: &mut String) {
        let (turn, record, tight) = self.drawn();
        self.beside(&turn);
        let ask = turn.ask;
        let mut next = self.book.clone();
        let answer = next.apply(ask.message(), &turn.numbers, &turn.prices);
        let above = turn.draws.key_is_from_place(ask.message) && record.bid_mwh < ask.quantity;
        let number = answer.number();
        self.count_answer(&turn, number);
        if number == 0 && ask.message != SUPPORT && ask.message != CLOSE {
            self.count(true, rows::kind(ask.message, ask.key.kind));
        }
        self.count_two(&ask, number, above);
        self.count_edges(&turn.draws, ask.message, &answer);
        self.count_order_3(&turn, &record, &answer);
        self.answered(&answer);
        self.count_suspension(ask.message, number);
        self.count_places(&turn, &answer);
        self.held = answer.held;
        self.net_owed = answer.net_owed;
        self.book = next;
        if window.contains(&self.turn) || self.turn % 4_096 == 4_095 {
            self.print_turn(out, &turn, &answer);
        }
        self.again = tight;
        if !tight {
            self.seed = turn.draws.last;
        }
        self.turn += 1;
    }

    fn print_turn(&self, out: &mut String, turn: &Turn, answer: &Answer) {
        let ask = &turn.ask;
        let [first, second, third, fourth] = ask.counts;
        let _ = writeln!(
            out,
            "turn {} {} {} {} {} {} {} {} {} {} {} {} {} {first} {second} {third} {fourth} : {} {} {} {} {} {}",
            self.turn,
            ask.message,
            ask.key.kind,
            ask.key.path,
            ask.key.hour,
            ask.differential,
            u64::from(ask.exempt),
            ask.quantity,
            ask.first_price,
            ask.second_price,
            ask.cents,
            turn.numbers.len(),
            turn.prices.len(),
            answer.number(),
            answer.requirement,
            answer.held,
            answer.net_owed,
            u64::from(answer.removed),
            self.digest.0,
        );
    }
}

fn differential_of(draws: &Draws, kind: u64) -> u64 {
    let w = draws.differential;
    match (kind <= 2, draws.has(8)) {
        (true, true) => one_of(&DIFFERENTIALS_OUT, w),
        (true, false) => one_of(&DIFFERENTIALS, w),
        (false, fault) => u64::from(fault),
    }
}

fn quantity_of(draws: &Draws, record: &Record) -> u64 {
    let w = draws.quantity;
    let bid_mwh = if record.key.kind == FOUR_CURVES {
        record.intervals[0]
    } else {
        record.bid_mwh
    };
    match w % 8 {
        _ if draws.has(6) => one_of(&QUANTITIES_OUT, w),
        0 => 0,
        1..=3 => bid_mwh,
        4 => bid_mwh % 640_000 + 1,
        5 => 640_000,
        6 => record.schedule,
        _ => w / 8 % 10_001,
    }
}

fn first_price_of(draws: &Draws, kind: u64) -> i64 {
    let which = draws.second_price % 3;
    if draws.has(7) && (which == 0 || which == 2 && kind == 4) {
        one_of(&PRICES_OUT, draws.price)
    } else {
        price_or(&PRICES, draws.price)
    }
}

fn second_price_of(draws: &Draws, kind: u64) -> i64 {
    let w = draws.second_price;
    if draws.has(7) && w % 3 == 1 {
        one_of(&PRICES_OUT, w)
    } else if kind == 4 {
        price_or(&PRICES, w)
    } else {
        i64::from(draws.has(7) && w % 3 == 2)
    }
}

fn usual_count(w: u64) -> usize {
    match w % 16 {
        0 => 64,
        1 => 63,
        _ => (w / 16 % 6 + 1) as usize,
    }
}

/// The lengths of the two lists of one curve.
fn counts_of(draws: &Draws) -> (usize, usize) {
    let w = draws.count;
    let n = usual_count(w);
    match w % 4 {
        _ if !draws.has(5) || draws.has_other_form() => (n, n),
        0 => (0, 0),
        1 => (65, 65),
        2 => (n, n + 1),
        _ => (n, n / 2),
    }
}

fn usual_four_counts(w: u64) -> [u64; 4] {
    let v = w / 16;
    match w % 16 {
        0 => [64; 4],
        1 => [63, 0, 64, 1],
        _ => [v % 4, v / 4 % 4, v / 16 % 4, v / 64 % 4],
    }
}

/// The counts of four curves, and the lengths of the two lists.
fn four_counts_of(draws: &Draws) -> ([u64; 4], usize, usize) {
    let w = draws.count;
    let way = if draws.has(5) { w % 8 } else { 7 };
    let mut counts = usual_four_counts(w);
    match way {
        0 => counts = [0; 4],
        1 => counts[(w / 16 % 4) as usize] = 65,
        _ => {}
    }
    let sum = counts.iter().sum::<u64>();
    let n = sum as usize;
    match way {
        2 => return (counts, n, n + 1),
        3 => return (counts, n / 2, n),
        4 => counts[0] += 1,
        5 => counts[3] = u64::MAX,
        6 => counts = [u64::MAX, sum + 1, 0, 0],
        _ => {}
    }
    (counts, n, n)
}

/// How a close lists its paths; else they are those that are pending.
const LEAVES_OUT: u64 = 11;
const ADDS_ONE: u64 = 12;
const ADDS_ONE_TOO: u64 = 13;
const NAMES_ANOTHER_HOUR: u64 = 14;
const LISTS_NONE: u64 = 15;

fn listing_way(draws: &Draws) -> u64 {
    draws.quantity % 16
}

/// The path of the record at the place drawn, or any.
fn one_more_path(draws: &Draws, record: &Record) -> u64 {
    if record.stage == 0 {
        one_of(&PATHS, draws.path)
    } else {
        record.key.path
    }
}

/// The hour beside this one, where it is an hour.
fn other_hour(hour: u64) -> u64 {
    match hour {
        1_000_000.. => hour,
        _ if hour % 2 == 0 => hour + 1,
        _ => hour - 1,
    }
}

/// The index of the faulty point of a list, at its start or at its end.
fn faulty_point(draws: &Draws, n: usize) -> usize {
    if draws.faulty_first() {
        0
    } else {
        n - 1
    }
}

fn mwh_points(draws: &Draws, n: usize) -> Vec<u64> {
    let mut x = draws.points;
    let mut list: Vec<u64> = (0..n)
        .map(|_| {
            x = next(x);
            point_mwh(x)
        })
        .collect();
    if draws.has(6) && n > 0 {
        list[faulty_point(draws, n)] = one_of(&POINT_MWH_OUT, draws.count / 512);
    }
    list
}

fn price_points(draws: &Draws, n: usize) -> Vec<i64> {
    let mut digest = Digest(draws.points);
    digest.mix(7);
    let mut x = digest.0;
    let mut list: Vec<i64> = (0..n)
        .map(|_| {
            x = next(x);
            price_or(&PRICES, x)
        })
        .collect();
    if draws.has(7) && n > 0 {
        list[faulty_point(draws, n)] = one_of(&PRICES_OUT, draws.count / 512);
    }
    list
}

/// Whether a fault that concerns the message comes after this refusal.
fn has_later(turn: &Turn, number: u64) -> bool {
    let concern: &[u64] = match turn.ask.message {
        OPEN | REVISE => &[2, 3, 4, 5, 8],
        WITHDRAW | PAY => &[2, 3, 4],
        POST | FINISH => &[2, 3, 4, 6, 7],
        BILL => &[2, 3, 4, 9],
        OPEN_CURVES | REVISE_CURVES if turn.numbers.is_empty() => &[2, 3, 4, 5],
        OPEN_CURVES | REVISE_CURVES => &[2, 3, 4, 5, 6, 7],
        CLOSE if turn.prices.is_empty() => &[3, 4, 5],
        CLOSE => &[3, 4, 5, 7],
        _ => &[],
    };
    concern
        .iter()
        .any(|&fault| fault > number && turn.draws.has(fault))
}

/// A six-month number beside its three-month one.
fn longer(three: u64, w: u64) -> u64 {
    match w % 8 {
        0 => three / 2,
        1 => three + 1,
        2 => three + 50,
        3 => 1_000_000_001,
        _ => three,
    }
}

/// Eighteen fields, eight values, six stages, five kinds.
const CHANGES: u64 = 18 * 8 * 6 * 5;
const FIELD_SUPPORT: u64 = 11;
const FIELD_TWICE: u64 = 12;
/// The four interval sums, and the requirement again.
const FIELD_INTERVALS: u64 = 29;
const FIELD_REQUIREMENT: u64 = 33;

const INTERVAL_VALUES: [i64; 8] = [
    0,
    1,
    10_000,
    10_001,
    639_999,
    640_000,
    640_001,
    i64::MAX,
];

/// What each field is set to; a key that stands twice has none.
const FIELD_VALUES: [[i64; 8]; 18] = [
    [0, 1, 2, 3, 4, 5, 6, i64::MAX],
    [0, 1, 2, 500, 998, 999, 1_000, i64::MAX],
    [0, 1, 77, 999_998, 999_999, 1_000_000, 1_000_001, i64::MAX],
    [0, 1, 2, 3, 4, 5, 6, i64::MAX],
    [0, 1, 9_999, 10_000, 10_001, 640_000, 640_001, i64::MAX],
    [0, 1, 2, 999_999, 1_000_000, 1_000_001, 1_000_002, i64::MAX],
    [0, 1, 0, 1, 0, 1, 0, 1],
    [0, 1, 99, 100, 101, 640_000, 640_001, i64::MAX],
    [0, 1, -1, 1_000_000, -1_000_000, 1_000_001, -1_000_001, i64::MIN],
    [
        0,
        -1,
        20_000_000_000,
        20_000_000_001,
        640_000_000_000,
        640_000_000_001,
        TRILLION,
        TRILLION + 1,
    ],
    [
        -TRILLION,
        -TRILLION - 1,
        1_300_000_000_000,
        1_300_000_000_001,
        -1_300_000_000_000,
        -1_300_000_000_001,
        i64::MAX,
        i64::MIN,
    ],
    [
        0,
        1,
        MOST_SUPPORT,
        -1,
        MOST_SUPPORT + 1,
        2 * MOST_SUPPORT,
        i64::MAX,
        i64::MIN,
    ],
    [0; 8],
    INTERVAL_VALUES,
    INTERVAL_VALUES,
    INTERVAL_VALUES,
    INTERVAL_VALUES,
    [
        1,
        2,
        -2,
        19_999_999_999,
        639_999_999_999,
        999_999_999_999,
        1_299_999_999_999,
        -999_999_999_999,
    ],
];

/// The field by its row: those of the kept totals stand between.
fn field_of(change: u64) -> u64 {
    match change / 240 {
        field if field <= FIELD_TWICE => field,
        field => field - 13 + FIELD_INTERVALS,
    }
}

fn value_of(change: u64) -> i64 {
    FIELD_VALUES[(change / 240) as usize][(change / 30 % 8) as usize]
}

/// Kind 5 at stage 1 with a requirement.
fn gives_pending_a_requirement(change: u64) -> bool {
    let requirement = [9, 10, FIELD_REQUIREMENT].contains(&field_of(change));
    requirement && base_kind(change) == FOUR_CURVES && base_stage(change) == 1
}

fn base_kind(change: u64) -> u64 {
    change % 5 + 1
}

fn base_stage(change: u64) -> u64 {
    change / 5 % 6
}

/// A record that the change is made to; at stage 0 a free place.
fn base_record(change: u64) -> Record {
    let kind = base_kind(change);
    let four = kind == FOUR_CURVES;
    match base_stage(change) {
        0 => Record::FREE,
        stage => Record {
            key: Key {
                kind,
                path: 900,
                hour: 77,
            },
            stage,
            bid_mwh: if four { 0 } else { 100 },
            intervals: if four { [100, 0, 1, 640_000] } else { [0; 4] },
            ..Record::FREE
        },
    }
}

/// A requirement as the kept totals count it; one of the machine's ends, with
/// which a sum may not fit, is left out.
fn counted(record: &Record) -> i64 {
    if record.requirement.unsigned_abs() <= 2 * TRILLION.unsigned_abs() {
        record.requirement
    } else {
        0
    }
}

fn counted_as_owed(record: &Record) -> i64 {
    if record.stage == 4 {
        counted(record)
    } else {
        0
    }
}

/// Sets a place, and the kept totals with it.
fn put(book: &mut Book, place: usize, record: Record) {
    let old = std::mem::replace(&mut book.records[place], record);
    book.held += counted(&record) - counted(&old);
    book.net_owed += counted_as_owed(&record) - counted_as_owed(&old);
}

fn changed(book: &Book, change: u64, w: u64) -> Book {
    let mut next = book.clone();
    let place = (w % PLACES as u64) as usize;
    let field = field_of(change);
    let cents = value_of(change);
    if field == FIELD_SUPPORT {
        next.support = cents;
        return next;
    }
    let mut record = base_record(change);
    let whole = cents.unsigned_abs();
    match field {
        0 => record.key.kind = whole,
        1 => record.key.path = whole,
        2 => record.key.hour = whole,
        3 => record.stage = whole,
        4 => record.bid_mwh = whole,
        5 => record.differential = whole,
        6 => record.exempt = whole == 1,
        7 => record.schedule = whole,
        8 => record.day_ahead_price = cents,
        9 | 10 | FIELD_REQUIREMENT => record.requirement = cents,
        29..=32 => record.intervals[(field - FIELD_INTERVALS) as usize] = whole,
        _ => {}
    }
    put(&mut next, place, record);
    if field == FIELD_TWICE {
        put(&mut next, PLACES - 1 - place, record);
    }
    next
}

/// The ways to tamper with the kept totals, each a field of its own.
const TAMPERINGS: u64 = 16;
const FIELD_TOTALS: u64 = 13;

fn tampered(book: &Book, how: u64) -> Book {
    let mut next = book.clone();
    let half = book.support / 2;
    let (held, owed) = (book.held, book.net_owed);
    let (held, owed) = match how {
        0 => (held, owed),
        1 => (held + 1, owed),
        2 => (held - 1, owed),
        3 => (held, owed + 1),
        4 => (held, owed - 1),
        5 => (owed, held),
        6 => (held + 1, owed + 1),
        7 => (held + 1, owed - 1),
        8 => (held - 1, owed + 1),
        9 => (0, 0),
        10 => (i64::MAX, owed),
        11 => (i64::MIN, owed),
        12 => (held, i64::MAX),
        13 => (held, i64::MIN),
        14 => (held, half),
        _ => (held, half + 1),
    };
    next.held = held;
    next.net_owed = owed;
    next
}

fn main() {
    let mut input = String::new();
    std::io::stdin()
        .read_to_string(&mut input)
        .expect("standard input is text");
    let mut numbers = input.split_whitespace().map(|word| {
        word.parse::<u64>()
            .expect("standard input has four numbers")
    });
    let mut number = || numbers.next().unwrap_or(0);
    let (turns, from, to, seed) = (number(), number(), number(), number());

    let (book, _) = Book::fresh(0);
    let mut run = Run {
        book,
        seed: first_seed(seed),
        digest: Digest(0),
        turn: 0,
        messages: 0,
        open: 0,
        most_open: 0,
        again: false,
        suspended: false,
        held: 0,
        net_owed: 0,
        rows: [0; rows::COUNT],
    };
    for support in [-1, 0, MOST_SUPPORT + 1, MOST_SUPPORT] {
        run.begin(support);
    }
    let mut out = String::new();
    for _ in 0..turns {
        run.turn(&(from..to), &mut out);
    }
    for (row, &met) in run.rows.iter().enumerate() {
        if met > 0 {
            let _ = writeln!(out, "row {row} {met}");
        }
    }
    let _ = writeln!(out, "messages {} {}", run.messages, run.digest.0);
    std::io::stdout()
        .write_all(out.as_bytes())
        .expect("standard output takes the report");
}
