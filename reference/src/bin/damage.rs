//! The run over damaged tapes (02, order 8), over the reference; the proved
//! program must print the same, byte for byte.
//!
//! Tapes that are cut, flipped, damaged or random go through the reader, and
//! messages with faults through the writer. There is no input.

use std::collections::BTreeMap;

use reference::book::{
    Bill, Closing, Finish, Key, Message, Opening, Payment, Posting, Revision, Support, Withdrawal,
};
use reference::tape;

const MODULUS: u64 = 2_147_483_647;
const MULTIPLIER: u64 = 48_271;

/// The bytes of the longest tape form, and of every buffer.
const BUFFER: usize = 288;
/// The entries of every list.
const LIST: usize = 66;

const CUT_AND_FLIPPED: u64 = 1_000;
const DAMAGED_OR_RANDOM: u64 = 2_000_000;
const WRITTEN_WITH_FAULTS: u64 = 100_000;

fn mix(digest: u64, value: u64) -> u64 {
    (MULTIPLIER * (digest % MODULUS) + value % MODULUS) % MODULUS
}

/// A square, so that the draws of one seed are no equal steps apart.
fn draw(seed: u64, number: u64) -> u64 {
    let mixed = mix(mix(seed, number), 1);
    mix(mixed * mixed, number)
}

/// A drawn number below a count, for a place or a length.
fn draw_below(seed: u64, number: u64, count: u64) -> usize {
    (draw(seed, number) % count) as usize
}

fn draw_byte(seed: u64, number: u64) -> u8 {
    (draw(seed, number) % 256) as u8
}

/// A price from -1,000,000 to 1,000,000.
fn draw_price(seed: u64, number: u64) -> i64 {
    (draw(seed, number) % 2_000_001) as i64 - 1_000_000
}

/// The values of a drawn message, whichever message it is.
struct Drawn {
    /// 0 open to 7 support, and 8 a close.
    number: u64,
    key: Key,
    differential: u64,
    exempt: bool,
    /// Schedule or actual.
    quantity: u64,
    first_price: i64,
    second_price: i64,
    bill: i64,
    support: i64,
    /// How many MWh and how many prices are lent.
    lent_mwh: usize,
    lent_prices: usize,
    mwh: [u64; LIST],
    prices: [i64; LIST],
}

impl Drawn {
    fn new(seed: u64, number: u64) -> Drawn {
        let kind = 1 + draw(seed, 1) % 4;
        let points = 1 + draw_below(seed, 10, 64);
        Drawn {
            number,
            key: Key {
                kind,
                path: 1 + draw(seed, 2) % 999,
                hour: draw(seed, 3) % 1_000_000,
            },
            differential: if kind <= 2 {
                draw(seed, 4) % 1_000_001
            } else {
                0
            },
            exempt: draw(seed, 5) % 2 == 1,
            quantity: draw(seed, 6) % 640_001,
            first_price: draw_price(seed, 7),
            second_price: if kind == 4 { draw_price(seed, 8) } else { 0 },
            bill: (draw(seed, 9) % 1_000_003 * 1_999_993 % 2_000_000_000_001) as i64
                - 1_000_000_000_000,
            support: (draw(seed, 9) % 1_000_003 * 999_999_937 % 1_000_000_000_000_001) as i64,
            lent_mwh: points,
            lent_prices: points,
            mwh: std::array::from_fn(|i| draw(seed, 20 + i as u64) % 10_001),
            prices: std::array::from_fn(|i| draw_price(seed, 100 + i as u64)),
        }
    }

    fn message(&self) -> Message {
        let key = self.key;
        match self.number {
            0 => Message::Open(Opening {
                key,
                differential: self.differential,
                exempt: self.exempt,
            }),
            1 => Message::Revise(Revision {
                key,
                differential: self.differential,
                exempt: self.exempt,
            }),
            2 => Message::Withdraw(Withdrawal { key }),
            3 => Message::Post(Posting {
                key,
                schedule: self.quantity,
                first_price: self.first_price,
                second_price: self.second_price,
            }),
            4 => Message::Finish(Finish {
                key,
                actual: self.quantity,
                first_price: self.first_price,
                second_price: self.second_price,
            }),
            5 => Message::Bill(Bill {
                key,
                amount: self.bill,
            }),
            6 => Message::Pay(Payment { key }),
            7 => Message::Support(Support {
                amount: self.support,
            }),
            _ => Message::Close(Closing { hour: key.hour }),
        }
    }

    /// Writes the message, and gives the refusal's number or 0, and how many
    /// bytes were written.
    fn write(&self, buffer: &mut [u8]) -> (u64, usize) {
        let mwh = &self.mwh[..self.lent_mwh];
        let prices = &self.prices[..self.lent_prices];
        match tape::write(self.message(), mwh, prices, buffer) {
            Ok(bytes) => (0, bytes),
            Err(refusal) => (refusal.number(), 0),
        }
    }

    /// One fault, or none. That of the buffer is not the message's.
    fn change(&mut self, seed: u64, fault: u64, how: u64) {
        match fault {
            1 => self.key.kind = how % 9,
            2 => self.key.path = if how % 2 == 0 { 0 } else { 1_000 },
            3 => self.key.hour = 1_000_000,
            4 => {
                self.lent_mwh = (how % 66) as usize;
                self.lent_prices = draw_below(seed, 18, 66);
            }
            5 => {
                self.mwh[self.lent_mwh - 1] = 10_001;
                self.quantity = 640_001;
            }
            6 => {
                self.prices[self.lent_prices - 1] = -1_000_001;
                self.first_price = 1_000_001;
            }
            7 => self.second_price = 1_000_001,
            8 => self.differential = 1_000_001,
            9 => {
                self.bill = 1_000_000_000_001;
                self.support = -1;
            }
            10 => {
                self.second_price = 1;
                self.differential = 1;
            }
            _ => {}
        }
    }
}

struct Run {
    digest: u64,
    /// How often the reader gave each number.
    answers: BTreeMap<u64, u64>,
}

impl Run {
    fn take(&mut self, value: u64) {
        self.digest = mix(self.digest, value);
    }

    /// "1 if below 0, else 0; then its magnitude."
    fn take_amount(&mut self, amount: i64) {
        self.take(u64::from(amount < 0));
        self.take(amount.unsigned_abs());
    }

    fn take_key(&mut self, key: Key) {
        self.take(key.kind);
        self.take(key.path);
        self.take(key.hour);
    }

    fn take_bid(&mut self, number: u64, key: Key, differential: u64, exempt: bool) {
        self.take(number);
        self.take_key(key);
        self.take(differential);
        self.take(u64::from(exempt));
    }

    fn take_prices(&mut self, number: u64, key: Key, mwh: u64, first: i64, second: i64) {
        self.take(number);
        self.take_key(key);
        self.take(mwh);
        self.take_amount(first);
        self.take_amount(second);
    }

    fn take_keyed(&mut self, number: u64, key: Key) {
        self.take(number);
        self.take_key(key);
    }

    fn take_message(&mut self, message: Message) {
        match message {
            Message::Open(m) => self.take_bid(0, m.key, m.differential, m.exempt),
            Message::Revise(m) => self.take_bid(1, m.key, m.differential, m.exempt),
            Message::Withdraw(m) => self.take_keyed(2, m.key),
            Message::Post(m) => {
                self.take_prices(3, m.key, m.schedule, m.first_price, m.second_price)
            }
            Message::Finish(m) => {
                self.take_prices(4, m.key, m.actual, m.first_price, m.second_price)
            }
            Message::Bill(m) => {
                self.take_keyed(5, m.key);
                self.take_amount(m.amount);
            }
            Message::Pay(m) => self.take_keyed(6, m.key),
            Message::Support(m) => {
                self.take(7);
                self.take_amount(m.amount);
            }
            _ => unreachable!("the reader gives the eight messages of a tape"),
        }
    }

    /// Reads a tape into the first entries of two lists.
    fn read(&mut self, tape: &[u8], lent_mwh: usize, lent_prices: usize) {
        let mut mwh = [77; LIST];
        let mut prices = [-77; LIST];
        let reading = tape::read(tape, &mut mwh[..lent_mwh], &mut prices[..lent_prices]);
        for (mwh, price) in mwh.into_iter().zip(prices) {
            self.take(mwh);
            self.take_amount(price);
        }
        if let Ok(message) = reading.message {
            self.take_message(message);
        }
        self.take(reading.number());
        self.take(reading.part.len() as u64);
        *self.answers.entry(reading.number()).or_insert(0) += 1;
    }

    /// 1: a tape cut at every byte, and with each bit alone flipped.
    fn cut_and_flip(&mut self, t: u64) {
        let mut buffer = [0; BUFFER];
        let (_, written) = Drawn::new(draw(t, 0), t % 8).write(&mut buffer);
        for length in 0..=written {
            self.read(&buffer[..length], LIST, LIST);
        }
        for bit in 0..written * 8 {
            let mask = 0x80 >> (bit % 8);
            buffer[bit / 8] ^= mask;
            self.read(&buffer[..written], LIST, LIST);
            buffer[bit / 8] ^= mask;
        }
    }

    /// 2, where the turn is even.
    fn read_random(&mut self, seed: u64) {
        let length = draw_below(seed, 15, 40) as u64;
        let tape: Vec<u8> = (0..length).map(|i| draw_byte(seed, 200 + i)).collect();
        self.read(&tape, LIST, LIST);
    }

    /// 2, where the turn is odd.
    fn read_damaged(&mut self, seed: u64, number: u64) {
        let mut buffer = [0; BUFFER];
        let (_, written) = Drawn::new(seed, number).write(&mut buffer);
        buffer[draw_below(seed, 11, 288)] = draw_byte(seed, 12);
        let length = (written + draw_below(seed, 16, 4)).min(BUFFER);
        self.read(
            &buffer[..length],
            draw_below(seed, 13, 67),
            draw_below(seed, 14, 67),
        );
    }

    /// 3: a message with a fault through the writer.
    fn write_with_fault(&mut self, t: u64) {
        let seed = draw(t, 2);
        let (fault, how) = (draw(seed, 16) % 16, draw(seed, 17));
        let mut drawn = Drawn::new(seed, t % 9);
        drawn.change(seed, fault, how);
        let room = if fault == 11 {
            (how % 289) as usize
        } else {
            BUFFER
        };
        let mut buffer = [165; BUFFER];
        let (number, written) = drawn.write(&mut buffer[..room]);
        self.take(number);
        self.take(written as u64);
        for byte in buffer {
            self.take(u64::from(byte));
        }
    }
}

fn main() {
    let mut run = Run {
        digest: 1,
        answers: BTreeMap::new(),
    };
    for t in 0..CUT_AND_FLIPPED {
        run.cut_and_flip(t);
    }
    for t in 0..DAMAGED_OR_RANDOM {
        let seed = draw(t, 1);
        if t % 2 == 0 {
            run.read_random(seed);
        } else {
            run.read_damaged(seed, t / 2 % 8);
        }
    }
    for t in 0..WRITTEN_WITH_FAULTS {
        run.write_with_fault(t);
    }
    for (number, count) in &run.answers {
        println!("answer {number} {count}");
    }
    println!("digest {}", run.digest);
}
