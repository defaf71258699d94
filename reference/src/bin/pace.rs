//! The run of `crates/pace` over the reference: the same messages to a book
//! with as many open records, and the same line.
//!
//! The last two numbers on standard input: how many groups to open, 0 to 256,
//! and how many messages to send then. Two may stand before them: the hours
//! and the paths between the keys of two groups; without them, or both 0, the
//! keys are spread. Before those may stand how often a screen asks for the
//! totals before the messages. And first of all three: a price, and how many
//! closes at that price and how many opens are sent to a full book of pending
//! bids, each to the book as it was.

use std::io::Read;

use reference::book::{
    Answer, Bill, Book, Closing, Curves, Finish, Key, Message, Opening, Payment, Posting, Revision,
    Support,
};

const PLACES: u64 = 256;
const MODULUS: u64 = 2_147_483_647;
const MULTIPLIER: u64 = 48_271;

/// The groups that are open, and how many hours and paths lie between the keys
/// of two of them; none of both where the keys are spread.
struct Groups {
    hours: u64,
    paths: u64,
    open: u64,
}

impl Groups {
    /// Spread: the kinds in turn; an hour is given once. Else all are of
    /// kind 1.
    fn key(&self, group: u64) -> Key {
        if (self.hours, self.paths) == (0, 0) {
            return Key {
                kind: group % 4 + 1,
                path: group % 7 * 100 + 7,
                hour: group + 4_000,
            };
        }
        Key {
            kind: 1,
            path: group * (self.paths % 1_000_000) % 999 + 1,
            hour: group * (self.hours % 1_000_000) % 1_000_000,
        }
    }

    fn opening(&self, group: u64, turn: u64) -> Message {
        let key = self.key(group);
        Message::Open(Opening {
            differential: differential(&key, turn),
            key,
            exempt: false,
        })
    }

    fn revision(&self, group: u64, turn: u64) -> Message {
        let key = self.key(group);
        Message::Revise(Revision {
            differential: differential(&key, turn),
            key,
            exempt: false,
        })
    }

    /// An empty book has support 0, so that none is opened there.
    fn support(&self, turn: u64) -> i64 {
        if self.open == 0 {
            0
        } else {
            varied(turn, 999_999_999_000_000)
        }
    }

    /// Each group in turn goes through its life, and is open again at its end.
    fn message(&self, turn: u64) -> Message {
        let group = if self.open == 0 {
            0
        } else {
            turn / 8 % self.open
        };
        let key = self.key(group);
        let price = varied(turn, 4_000);
        match turn % 8 {
            0 | 6 => self.revision(group, turn),
            1 => Message::Post(Posting {
                key,
                schedule: 50,
                first_price: price,
                second_price: 0,
            }),
            2 => Message::Finish(Finish {
                key,
                actual: 40,
                first_price: price,
                second_price: 0,
            }),
            3 => Message::Bill(Bill { key, amount: price }),
            4 => Message::Pay(Payment { key }),
            5 => self.opening(group, turn),
            _ => Message::Support(Support {
                amount: self.support(turn),
            }),
        }
    }
}

/// Kinds 3 and 4 have no differential.
fn differential(key: &Key, turn: u64) -> u64 {
    if key.kind < 3 {
        turn % 1_000 + 1_000
    } else {
        0
    }
}

/// A number from `least` on, which changes with the turn.
fn varied(turn: u64, least: i64) -> i64 {
    least + (turn % 1_000) as i64
}

fn send(book: &mut Book, message: Message, turn: u64) -> Answer {
    let mwh = [turn % 50 + 100, 90, 80, 70];
    let prices = [1_000, 1_500, varied(turn, 2_500), 4_500];
    book.apply(message, &mwh, &prices)
}

/// The hour whose bids are pending, and the support of their book.
const HOUR: u64 = 4_000;
const ROOM: i64 = 1_000_000_000;

/// A full book of pending bids of one hour, on paths 1 to 256.
fn pending() -> Book {
    let (mut book, _) = Book::fresh(ROOM);
    for path in 1..=PLACES {
        let key = Key {
            kind: 5,
            path,
            hour: HOUR,
        };
        let counts = [1; 4];
        send(&mut book, Message::OpenCurves(Curves { key, counts }), path);
    }
    book
}

/// Closes that hour so many times, each time of the same book, at a price that
/// is a little less from turn to turn.
fn mix_closes(mut digest: u64, book: &Book, closes: u64, price: i64) -> u64 {
    let paths: Vec<u64> = (1..=PLACES).collect();
    for turn in 0..closes {
        let prices = [(price - (turn % 1_000) as i64).max(0); 1_024];
        let message = Message::Close(Closing { hour: HOUR });
        let answer = book.clone().apply(message, &paths, &prices);
        digest = mix(mix_answer(digest, &answer), answer.removed as u64);
    }
    digest
}

/// Opens one bid more so many times, each time of the same book, which is
/// full.
fn mix_opens(mut digest: u64, book: &Book, opens: u64) -> u64 {
    for turn in 0..opens {
        let message = Message::Open(Opening {
            key: Key {
                kind: 1,
                path: 999,
                hour: turn % 1_000,
            },
            differential: 1_000,
            exempt: false,
        });
        digest = mix_answer(digest, &send(&mut book.clone(), message, turn));
    }
    digest
}

fn mix(digest: u64, value: u64) -> u64 {
    (digest * MULTIPLIER + value % MODULUS) % MODULUS
}

/// The refusal's number, or 0, and the amounts.
fn mix_answer(digest: u64, answer: &Answer) -> u64 {
    let first = mix(
        mix(digest, answer.number()),
        answer.requirement.unsigned_abs(),
    );
    mix(
        mix(first, answer.held.unsigned_abs()),
        answer.net_owed.unsigned_abs(),
    )
}

/// What a screen reads: held, net owed, and whether the book is suspended.
fn mix_shown(digest: u64, book: &Book) -> u64 {
    let totals = mix(
        mix(digest, book.held().unsigned_abs()),
        book.net_owed().unsigned_abs(),
    );
    mix(totals, book.is_suspended() as u64)
}

fn numbers() -> Vec<u64> {
    let mut text = String::new();
    std::io::stdin()
        .read_to_string(&mut text)
        .expect("standard input is text");
    text.split_whitespace()
        .map(|word| word.parse().expect("a number"))
        .collect()
}

fn main() {
    let mut numbers = numbers();
    let messages = numbers.pop().expect("a count of messages");
    let open = numbers.pop().expect("a count of groups").min(PLACES);
    let mut step = || numbers.pop().unwrap_or(0);
    let (paths, hours, questions) = (step(), step(), step());
    let (opens, closes, price) = (step(), step(), step());
    let groups = Groups { hours, paths, open };
    let (mut book, _) = Book::fresh(groups.support(0));
    for group in 0..open {
        send(&mut book, groups.opening(group, group), group);
    }
    let pending = pending();
    let mut digest = mix_closes(0, &pending, closes, (price % 1_000_001) as i64);
    digest = mix_opens(digest, &pending, opens);
    for _ in 0..questions {
        digest = mix_shown(digest, &book);
    }
    for turn in 0..messages {
        digest = mix_answer(digest, &send(&mut book, groups.message(turn), turn));
    }
    println!("open {open} messages {messages} digest {digest}");
}
