//! The desk tape (02, order 8): "Two of our offices pass messages on paper
//! forms."
//!
//! "Add a tape for document 01's eight messages and kinds 1 to 4 only:
//! bit-packed fields, most significant first, message number, key, then the
//! order of 01's message lists". A field stands on the tape wherever its
//! message carries it, so the differential and the second price do where they
//! must be 0 as well, and the exempt mark is kept where a book ignores it.

use std::ops::RangeInclusive;

use crate::book::{
    check_key, check_support, check_two_prices, differential_range, Bill, Curve, Finish, Key, Kind,
    Message, Opening, Payment, Posting, Revision, Support, Withdrawal,
};
use crate::limits;
use crate::refusal::{require, Refusal};

/// The bits of each field.
mod width {
    /// "Message 3 bits."
    pub const MESSAGE: u32 = 3;
    /// "Kind 3."
    pub const KIND: u32 = 3;
    /// "Path 10."
    pub const PATH: u32 = 10;
    /// "Hour 20."
    pub const HOUR: u32 = 20;
    /// "Points count 7."
    pub const COUNT: u32 = 7;
    /// "Each point's MWh 14."
    pub const POINT_MWH: u32 = 14;
    /// "And price 21, other prices 21."
    pub const PRICE: u32 = 21;
    /// "Differential 20."
    pub const DIFFERENTIAL: u32 = 20;
    /// "Exempt 1."
    pub const EXEMPT: u32 = 1;
    /// "Schedule and actual 20."
    pub const MWH: u32 = 20;
    /// "Amounts 51."
    pub const AMOUNT: u32 = 51;
}

/// "0 open to 7 support", in the order of 01's list of messages.
const OPEN: u64 = 0;
const REVISE: u64 = 1;
const WITHDRAW: u64 = 2;
const POST: u64 = 3;
const FINISH: u64 = 4;
const BILL: u64 = 5;
const PAY: u64 = 6;
const SUPPORT: u64 = 7;

/// "Kinds 1 to 4 only."
const KINDS: RangeInclusive<u64> = 1..=4;

const BYTE: usize = 8;

/// What the reader gives back.
#[derive(Clone, Copy, Debug, PartialEq, Eq)]
pub struct Reading<'a> {
    /// The first message on the tape, or why there is none.
    pub message: Result<Message, Refusal>,
    /// How many points it brought to the two lent lists.
    pub points: usize,
    /// "The part of the tape that holds the first message"; "a refusal .. gives
    /// back an empty part".
    pub part: &'a [u8],
}

impl Reading<'_> {
    /// The refusal's number, and 0 for a message.
    pub fn number(&self) -> u64 {
        self.message.map_or_else(Refusal::number, |_| 0)
    }
}

/// "The reader gives back the part of the tape that holds the first message.
/// Points go to two lent lists."
///
/// Refusals 19 and 20, then 2 to 9, then 24, and a refusal writes nothing to
/// the lists. Their entries past the points stay as they are. They may be of
/// different lengths where both are long enough.
pub fn read<'a>(tape: &'a [u8], mwh: &mut [u64], prices: &mut [i64]) -> Reading<'a> {
    match read_first(tape) {
        Ok(first) => first.lay_out(tape, mwh, prices),
        Err(refusal) => refused(tape, refusal),
    }
}

/// "A refusal writes nothing and gives back an empty part."
fn refused(tape: &[u8], refusal: Refusal) -> Reading<'_> {
    Reading {
        message: Err(refusal),
        points: 0,
        part: &tape[..0],
    }
}

/// The first message of a tape, with its points and the bytes that hold it.
struct First {
    message: Message,
    points: Points,
    bytes: usize,
}

impl First {
    /// Refusal 24, "a lent list .. too short", and otherwise the points in the
    /// lists.
    fn lay_out<'a>(self, tape: &'a [u8], mwh: &mut [u64], prices: &mut [i64]) -> Reading<'a> {
        let points = self.points.mwh.len();
        if mwh.len() < points || prices.len() < points {
            return refused(tape, Refusal::LentTooShort);
        }
        mwh[..points].copy_from_slice(&self.points.mwh);
        prices[..points].copy_from_slice(&self.points.prices);
        Reading {
            message: Ok(self.message),
            points,
            part: &tape[..self.bytes],
        }
    }
}

/// Points as they are read. Those of a message without points are none.
#[derive(Default)]
struct Points {
    mwh: Vec<u64>,
    prices: Vec<i64>,
}

impl Points {
    fn curve(&self) -> Curve<'_> {
        Curve {
            mwh: &self.mwh,
            prices: &self.prices,
        }
    }
}

/// Refusals 19, 20 and 2 to 9, in this order: the first message of a tape is
/// read to its end before any of its values is looked at.
fn read_first(tape: &[u8]) -> Result<First, Refusal> {
    let mut fields = Fields { tape, at: 0 };
    let mut points = Points::default();
    let message = read_message(&mut fields, &mut points)?;
    require(fields.filler_is_zero(), Refusal::Filler)?;
    check(message, points.curve())?;
    Ok(First {
        message,
        points,
        bytes: fields.bytes(),
    })
}

/// The fields of a tape, one after another.
struct Fields<'a> {
    tape: &'a [u8],
    /// How many bits are read.
    at: usize,
}

impl Fields<'_> {
    /// The next bit: "most significant first". Refusal 19 at the tape's end.
    fn bit(&mut self) -> Result<u64, Refusal> {
        let byte = self.tape.get(self.at / BYTE).ok_or(Refusal::CutShort)?;
        let bit = (byte >> (BYTE - 1 - self.at % BYTE)) & 1;
        self.at += 1;
        Ok(u64::from(bit))
    }

    /// The next field, of a number that is never below 0.
    fn whole(&mut self, width: u32) -> Result<u64, Refusal> {
        let mut value = 0;
        for _ in 0..width {
            value = 2 * value + self.bit()?;
        }
        Ok(value)
    }

    /// The next field: "Prices and amounts are two's complement."
    fn signed(&mut self, width: u32) -> Result<i64, Refusal> {
        let value = self.whole(width)? as i64;
        let half = 1 << (width - 1);
        Ok(if value < half {
            value
        } else {
            value - 2 * half
        })
    }

    /// How many bytes hold the bits that are read.
    fn bytes(&self) -> usize {
        bytes_of(self.at)
    }

    /// "Zero bits fill the last byte."
    fn filler_is_zero(&self) -> bool {
        let mut filler = Fields { ..*self };
        (self.at..self.bytes() * BYTE).all(|_| filler.bit() == Ok(0))
    }
}

/// The bytes that so many bits take.
fn bytes_of(bits: usize) -> usize {
    (bits + BYTE - 1) / BYTE
}

/// The message at the start of a tape, with whatever values stand there:
/// refusal 19 alone. Its length follows the count as read, 64 or not.
fn read_message(fields: &mut Fields, points: &mut Points) -> Result<Message, Refusal> {
    Ok(match fields.whole(width::MESSAGE)? {
        OPEN => {
            let (key, differential, exempt) = read_bid(fields, points)?;
            Message::Open(Opening {
                key,
                differential,
                exempt,
            })
        }
        REVISE => {
            let (key, differential, exempt) = read_bid(fields, points)?;
            Message::Revise(Revision {
                key,
                differential,
                exempt,
            })
        }
        WITHDRAW => Message::Withdraw(Withdrawal {
            key: read_key(fields)?,
        }),
        POST => Message::Post(Posting {
            key: read_key(fields)?,
            schedule: fields.whole(width::MWH)?,
            first_price: fields.signed(width::PRICE)?,
            second_price: fields.signed(width::PRICE)?,
        }),
        FINISH => Message::Finish(Finish {
            key: read_key(fields)?,
            actual: fields.whole(width::MWH)?,
            first_price: fields.signed(width::PRICE)?,
            second_price: fields.signed(width::PRICE)?,
        }),
        BILL => Message::Bill(Bill {
            key: read_key(fields)?,
            amount: fields.signed(width::AMOUNT)?,
        }),
        PAY => Message::Pay(Payment {
            key: read_key(fields)?,
        }),
        // 7, the last number of 3 bits. It has no key.
        _ => Message::Support(Support {
            amount: fields.signed(width::AMOUNT)?,
        }),
    })
}

/// "Kind, path .. and hour."
fn read_key(fields: &mut Fields) -> Result<Key, Refusal> {
    Ok(Key {
        kind: fields.whole(width::KIND)?,
        path: fields.whole(width::PATH)?,
        hour: fields.whole(width::HOUR)?,
    })
}

/// "Open (key, points, differential, exempt mark), revise (the same)": the
/// points go to their lists, point by point, and the others are given.
fn read_bid(fields: &mut Fields, points: &mut Points) -> Result<(Key, u64, bool), Refusal> {
    let key = read_key(fields)?;
    for _ in 0..fields.whole(width::COUNT)? {
        points.mwh.push(fields.whole(width::POINT_MWH)?);
        points.prices.push(fields.signed(width::PRICE)?);
    }
    let differential = fields.whole(width::DIFFERENTIAL)?;
    let exempt = fields.whole(width::EXEMPT)? == 1;
    Ok((key, differential, exempt))
}

/// Writes a message with its points at the start of a buffer, and gives the
/// bytes that it took.
///
/// Refusals 2 to 9, then 24, and a refusal writes nothing. Bytes past the
/// message stay as they are. Lists beside a message without points are passed
/// over.
pub fn write(
    message: Message,
    mwh: &[u64],
    prices: &[i64],
    buffer: &mut [u8],
) -> Result<usize, Refusal> {
    let points = Curve { mwh, prices };
    check(message, points)?;
    let form = Form::of(message, points).bytes;
    let room = buffer.get_mut(..form.len()).ok_or(Refusal::LentTooShort)?;
    room.copy_from_slice(&form);
    Ok(form.len())
}

/// A tape in the making: "Each message within 01's ranges has one tape form".
#[derive(Default)]
struct Form {
    /// The last byte filled with zero bits.
    bytes: Vec<u8>,
    /// How many bits are written.
    at: usize,
}

impl Form {
    /// The form of a message whose values are in their ranges.
    fn of(message: Message, points: Curve) -> Form {
        let mut form = Form::default();
        match message {
            Message::Open(opening) => {
                form.keyed(OPEN, opening.key);
                form.bid(points, opening.differential, opening.exempt);
            }
            Message::Revise(revision) => {
                form.keyed(REVISE, revision.key);
                form.bid(points, revision.differential, revision.exempt);
            }
            Message::Withdraw(withdrawal) => form.keyed(WITHDRAW, withdrawal.key),
            Message::Post(posting) => {
                form.keyed(POST, posting.key);
                form.whole(width::MWH, posting.schedule);
                form.signed(width::PRICE, posting.first_price);
                form.signed(width::PRICE, posting.second_price);
            }
            Message::Finish(finish) => {
                form.keyed(FINISH, finish.key);
                form.whole(width::MWH, finish.actual);
                form.signed(width::PRICE, finish.first_price);
                form.signed(width::PRICE, finish.second_price);
            }
            Message::Bill(bill) => {
                form.keyed(BILL, bill.key);
                form.signed(width::AMOUNT, bill.amount);
            }
            Message::Pay(payment) => form.keyed(PAY, payment.key),
            Message::Support(support) => {
                form.whole(width::MESSAGE, SUPPORT);
                form.signed(width::AMOUNT, support.amount);
            }
            // No message of document 01, and so refused with 2 before.
            Message::OpenCurves(_)
            | Message::ReviseCurves(_)
            | Message::Close(_)
            | Message::OpenSides(_)
            | Message::ReviseSides(_)
            | Message::PostSides(_) => {}
        }
        form
    }

    /// "Message number, key."
    fn keyed(&mut self, number: u64, key: Key) {
        self.whole(width::MESSAGE, number);
        self.whole(width::KIND, key.kind);
        self.whole(width::PATH, key.path);
        self.whole(width::HOUR, key.hour);
    }

    /// "Points, differential, exempt mark."
    fn bid(&mut self, points: Curve, differential: u64, exempt: bool) {
        self.whole(width::COUNT, points.mwh.len() as u64);
        for (&mwh, &price) in points.mwh.iter().zip(points.prices) {
            self.whole(width::POINT_MWH, mwh);
            self.signed(width::PRICE, price);
        }
        self.whole(width::DIFFERENTIAL, differential);
        self.whole(width::EXEMPT, u64::from(exempt));
    }

    /// The lowest bits of a value, "most significant first".
    fn whole(&mut self, width: u32, value: u64) {
        for place in (0..width).rev() {
            self.bit((value >> place) & 1 == 1);
        }
    }

    /// "Prices and amounts are two's complement", which a value of `i64` is
    /// already.
    fn signed(&mut self, width: u32, value: i64) {
        self.whole(width, value as u64);
    }

    fn bit(&mut self, one: bool) {
        let (byte, place) = (self.at / BYTE, BYTE - 1 - self.at % BYTE);
        if byte == self.bytes.len() {
            self.bytes.push(0);
        }
        self.bytes[byte] |= u8::from(one) << place;
        self.at += 1;
    }
}

/// "01's 2 to 9", as they concern the message by its own values, in their
/// order. A case that is none of document 01's eight messages is refused with
/// 2: its kind is none of the tape's, or it has none.
fn check(message: Message, points: Curve) -> Result<(), Refusal> {
    match message {
        Message::Open(opening) => check_bid(opening.key, points, opening.differential),
        Message::Revise(revision) => check_bid(revision.key, points, revision.differential),
        Message::Withdraw(withdrawal) => check_kind_and_key(withdrawal.key).map(drop),
        Message::Post(posting) => check_mwh_and_prices(
            posting.key,
            posting.schedule,
            posting.first_price,
            posting.second_price,
        ),
        Message::Finish(finish) => check_mwh_and_prices(
            finish.key,
            finish.actual,
            finish.first_price,
            finish.second_price,
        ),
        Message::Bill(bill) => {
            check_kind_and_key(bill.key)?;
            require(limits::BILL.contains(&bill.amount), Refusal::Amount)
        }
        Message::Pay(payment) => check_kind_and_key(payment.key).map(drop),
        Message::Support(support) => check_support(support.amount),
        Message::OpenCurves(_)
        | Message::ReviseCurves(_)
        | Message::Close(_)
        | Message::OpenSides(_)
        | Message::ReviseSides(_)
        | Message::PostSides(_) => Err(Refusal::Kind),
    }
}

/// Refusals 2, 3 and 4, in this order: "kinds 1 to 4 only".
fn check_kind_and_key(key: Key) -> Result<Kind, Refusal> {
    require(KINDS.contains(&key.kind), Refusal::Kind)?;
    check_key(key)
}

/// Refusals 2 to 8 of open and revise, in this order.
fn check_bid(key: Key, points: Curve, differential: u64) -> Result<(), Refusal> {
    let kind = check_kind_and_key(key)?;
    points.check()?;
    require(
        differential_range(kind).contains(&differential),
        Refusal::Differential,
    )
}

/// Refusals 2, 3, 4, 6 and 7 of post and finish, in this order.
fn check_mwh_and_prices(key: Key, mwh: u64, first: i64, second: i64) -> Result<(), Refusal> {
    let kind = check_kind_and_key(key)?;
    require(limits::MWH.contains(&mwh), Refusal::Quantity)?;
    check_two_prices(kind, first, second)
}

#[cfg(test)]
mod tests {
    use super::*;

    #[test]
    fn fields_one_after_another() {
        let mut form = Form::default();
        form.whole(3, 0b101);
        form.whole(10, 0b11_0000_0001);
        form.whole(1, 0);
        form.signed(4, -2);
        assert_eq!((&form.bytes[..], form.at), (&[0xb8, 0x0b, 0x80][..], 18));
        let mut fields = Fields {
            tape: &form.bytes,
            at: 0,
        };
        assert_eq!(fields.whole(3), Ok(0b101));
        assert_eq!(fields.whole(10), Ok(0b11_0000_0001));
        assert_eq!(fields.whole(1), Ok(0));
        assert_eq!(fields.signed(4), Ok(-2));
        assert_eq!(fields.bytes(), 3);
        assert!(fields.filler_is_zero());
        assert_eq!(fields.whole(7), Err(Refusal::CutShort));
    }

    #[test]
    fn twos_complement_of_21_and_51_bits() {
        for width in [width::PRICE, width::AMOUNT] {
            let half = 1 << (width - 1);
            for value in [-half, 1 - half, -2, -1, 0, 1, 2, half - 2, half - 1] {
                let mut form = Form::default();
                form.signed(width, value);
                let (tape, at) = (&form.bytes[..], 0);
                assert_eq!(Fields { tape, at }.signed(width), Ok(value));
            }
        }
    }

    #[test]
    fn the_three_numbers() {
        assert_eq!(Refusal::CutShort.number(), 19);
        assert_eq!(Refusal::Filler.number(), 20);
        assert_eq!(Refusal::LentTooShort.number(), 24);
    }
}
