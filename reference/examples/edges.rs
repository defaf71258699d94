//! Tells the script of the program `edges` to this crate's book. What it
//! prints is what that program must write.

use reference::book::{
    Bill, Closing, Curves, Finish, Opening, Payment, Posting, Revision, Side, Sides, SidesPosting,
    Supply, Support, Withdrawal,
};
use reference::{Answer, Book, Key, Message, Record};

const SCRIPT: &str = include_str!("../../crates/edges/stdin");

fn main() {
    let (mut book, _) = Book::fresh(0);
    for line in SCRIPT.lines() {
        println!("{line}{}", answered(&mut book, line));
    }
}

/// What the book answers to a line, by its first word: "a" fresh book, a
/// look at the book, a change that no message makes, or a message.
fn answered(book: &mut Book, line: &str) -> String {
    let mut words = line.split(' ');
    let word = words.next().unwrap_or_default();
    let numbers = Numbers::of(line);
    match word {
        "a" => {
            let (fresh, answer) = Book::fresh(numbers.signed(0));
            let before = std::mem::replace(book, fresh);
            shown(&before, book, answer)
        }
        "write" => {
            book.records[numbers.place()] = numbers.record();
            String::new()
        }
        "endow" => {
            book.support = numbers.signed(0);
            String::new()
        }
        "make" => {
            book.held = numbers.signed(0);
            book.net_owed = numbers.signed(1);
            String::new()
        }
        "rebuild" => {
            let rebuilt = Book::rebuilt(book.support, book.records);
            let before = std::mem::replace(book, rebuilt);
            format!(":{}", compared(&before, book))
        }
        "look" => fields(&book.records[numbers.place()]),
        "sums" => sums(book),
        _ => {
            let message = match word {
                "zone" => zone_message(words.next().unwrap_or_default(), &numbers),
                _ => message(word, &numbers),
            };
            match message {
                Some(message) => {
                    let (listed, prices) = numbers.lists(word);
                    let before = book.clone();
                    let answer = book.apply(message, &listed, &prices);
                    shown(&before, book, answer)
                }
                None => String::new(),
            }
        }
    }
}

/// The message of a word and its numbers, in the order of document 01. Those
/// of order 3: `curves` and `rows` open four curves, `recurves` revises them,
/// `hour` and `span` close an hour.
fn message(word: &str, numbers: &Numbers) -> Option<Message> {
    let key = numbers.key(0);
    let message = match word {
        "open" => Message::Open(Opening {
            key,
            differential: numbers.whole(3),
            exempt: numbers.whole(4) == 1,
        }),
        "revise" => Message::Revise(Revision {
            key,
            differential: numbers.whole(3),
            exempt: numbers.whole(4) == 1,
        }),
        "withdraw" => Message::Withdraw(Withdrawal { key }),
        "post" => Message::Post(Posting {
            key,
            schedule: numbers.whole(3),
            first_price: numbers.signed(4),
            second_price: numbers.signed(5),
        }),
        "finish" => Message::Finish(Finish {
            key,
            actual: numbers.whole(3),
            first_price: numbers.signed(4),
            second_price: numbers.signed(5),
        }),
        "bill" => Message::Bill(Bill {
            key,
            amount: numbers.signed(3),
        }),
        "pay" => Message::Pay(Payment { key }),
        "support" => Message::Support(Support {
            amount: numbers.signed(0),
        }),
        "curves" | "rows" => Message::OpenCurves(numbers.curves()),
        "recurves" => Message::ReviseCurves(numbers.curves()),
        "hour" => Message::Close(Closing {
            hour: numbers.whole(0),
        }),
        "span" => Message::Close(Closing {
            hour: numbers.whole(2),
        }),
        _ => return None,
    };
    Some(message)
}

/// The message of two sides, order 6, by the second word of its line: zone,
/// hour, and MWh and differential of load and then of supply; of a post zone,
/// hour and the MWh of each.
fn zone_message(word: &str, numbers: &Numbers) -> Option<Message> {
    let message = match word {
        "open" => Message::OpenSides(numbers.sides()),
        "revise" => Message::ReviseSides(numbers.sides()),
        "post" => Message::PostSides(SidesPosting {
            zone: numbers.whole(0),
            hour: numbers.whole(1),
            load: numbers.whole(2),
            supply: numbers.whole(3),
        }),
        _ => return None,
    };
    Some(message)
}

fn shown(before: &Book, after: &Book, answer: Answer) -> String {
    format!(
        ": {} {} {} {}{}{}",
        answer.number(),
        answer.requirement,
        answer.held,
        answer.net_owed,
        if answer.removed { " removed" } else { "" },
        compared(before, after)
    )
}

fn compared(before: &Book, after: &Book) -> &'static str {
    if before == after {
        " same"
    } else {
        " changed"
    }
}

fn fields(record: &Record) -> String {
    let Key { kind, path, hour } = record.key;
    let [first, second, third, fourth] = record.intervals;
    let Supply {
        mwh,
        differential,
        schedule,
    } = record.supply;
    format!(
        ": {kind} {path} {hour} {} {} {} {} {} {} {} {first} {second} {third} {fourth} \
         {mwh} {differential} {schedule}",
        record.stage,
        record.bid_mwh,
        record.differential,
        u64::from(record.exempt),
        record.schedule,
        record.day_ahead_price,
        record.requirement
    )
}

fn sums(book: &Book) -> String {
    format!(
        ": {} {} {}{}",
        book.support,
        book.held(),
        book.net_owed(),
        if book.is_suspended() {
            " suspended"
        } else {
            ""
        }
    )
}

/// The numbers of a line; those that it lacks are 0.
struct Numbers(Vec<i64>);

impl Numbers {
    fn of(line: &str) -> Numbers {
        let in_number = |c: char| c.is_ascii_digit() || c == '-';
        let words = line.split(|c| !in_number(c));
        Numbers(words.filter_map(|word| word.parse().ok()).collect())
    }

    fn signed(&self, at: usize) -> i64 {
        self.0.get(at).copied().unwrap_or(0)
    }

    fn whole(&self, at: usize) -> u64 {
        self.signed(at).unsigned_abs()
    }

    fn place(&self) -> usize {
        self.whole(0) as usize
    }

    fn key(&self, at: usize) -> Key {
        Key {
            kind: self.whole(at),
            path: self.whole(at + 1),
            hour: self.whole(at + 2),
        }
    }

    /// The record that is written after its place.
    fn record(&self) -> Record {
        Record {
            key: self.key(1),
            stage: self.whole(4),
            bid_mwh: self.whole(5),
            differential: self.whole(6),
            exempt: self.whole(7) == 1,
            schedule: self.whole(8),
            day_ahead_price: self.signed(9),
            requirement: self.signed(10),
            intervals: self.four(11),
            supply: Supply {
                mwh: self.whole(15),
                differential: self.whole(16),
                schedule: self.whole(17),
            },
        }
    }

    fn four(&self, at: usize) -> [u64; 4] {
        [0, 1, 2, 3].map(|i| self.whole(at + i))
    }

    /// A key, and how many points each interval has.
    fn curves(&self) -> Curves {
        Curves {
            key: self.key(0),
            counts: self.four(3),
        }
    }

    /// A zone, an hour and two sides.
    fn sides(&self) -> Sides {
        Sides {
            zone: self.whole(0),
            hour: self.whole(1),
            load: self.side(2),
            supply: self.side(4),
        }
    }

    fn side(&self, at: usize) -> Side {
        Side {
            mwh: self.whole(at),
            differential: self.whole(at + 1),
        }
    }

    /// What stands beside the message.
    fn lists(&self, word: &str) -> (Vec<u64>, Vec<i64>) {
        match word {
            "curves" | "recurves" => self.points(7),
            // So many of each, all alike.
            "rows" => {
                let (mwh, prices) = (self.whole(7) as usize, self.whole(8) as usize);
                (vec![self.whole(9); mwh], vec![self.signed(10); prices])
            }
            // The hour, how many paths, these, and then the prices.
            "hour" => {
                let listed = self.0.get(2..).unwrap_or_default();
                let (paths, prices) = listed.split_at(self.whole(1) as usize);
                let paths = paths.iter().map(|path| path.unsigned_abs());
                (paths.collect(), prices.to_vec())
            }
            // So many paths, from one on and after 999 from 1; the hour; so
            // many prices, all alike.
            "span" => {
                let path = |i| (self.whole(1) + 998 + i) % 999 + 1;
                let prices = vec![self.signed(4); self.whole(3) as usize];
                ((0..self.whole(0)).map(path).collect(), prices)
            }
            "zone" => (Vec::new(), Vec::new()),
            _ => self.points(5),
        }
    }

    /// From a number on: MWh and price, by turns.
    fn points(&self, first: usize) -> (Vec<u64>, Vec<i64>) {
        let points = self.0.get(first..).unwrap_or_default();
        let mwh = points.iter().step_by(2).map(|mwh| mwh.unsigned_abs());
        let prices = points.iter().skip(1).step_by(2).copied();
        (mwh.collect(), prices.collect())
    }
}
