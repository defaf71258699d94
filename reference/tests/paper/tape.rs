//! 02, order 8: the desk tape, through its reader and its writer.

use crate::helpers::*;
use reference::tape::{read, write};
use reference::{Key, Message, Refusal};

const BUFFER: usize = 288;
const LIST: usize = 66;

/// What stands in lent lists and buffers before.
const MWH_BEFORE: u64 = 77;
const PRICE_BEFORE: i64 = -77;
const BYTE_BEFORE: u8 = 165;

const MWH: [u64; 2] = [1, 2];
const PRICES: [i64; 2] = [3, -4];

fn keyed(kind: u64, path: u64, hour: u64) -> Key {
    Key { kind, path, hour }
}

/// Each of the eight, in range.
fn eight(key: Key) -> Vec<Message> {
    one_of_each(key)[..8].to_vec()
}

/// A tape from its bits in writing: spaces are passed over, and zero bits fill
/// the last byte.
fn tape_of(bits: &str) -> Vec<u8> {
    let mut bits = bits.replace(' ', "");
    while bits.len() % 8 != 0 {
        bits.push('0');
    }
    (0..bits.len() / 8)
        .map(|i| u8::from_str_radix(&bits[8 * i..8 * i + 8], 2).expect("bits"))
        .collect()
}

/// A field's bits and its value, in range or not.
type Field = (usize, i64);

/// A tape of these fields.
fn laid(fields: &[Field]) -> Vec<u8> {
    let bits: Vec<String> = fields
        .iter()
        .map(|&(width, value)| format!("{value:064b}")[64 - width..].to_string())
        .collect();
    tape_of(&bits.concat())
}

/// A message's number and key.
fn head(number: i64, kind: i64, path: i64, hour: i64) -> Vec<Field> {
    vec![(3, number), (3, kind), (10, path), (20, hour)]
}

/// The message of this number with this key, and values in range.
fn with_key(number: i64, kind: i64, path: i64, hour: i64) -> Vec<u8> {
    let mut fields = head(number, kind, path, hour);
    match number {
        0 | 1 => fields.extend([(7, 1), (14, 0), (21, 0), (20, 0), (1, 0)]),
        3 | 4 => fields.extend([(20, 0), (21, 0), (21, 0)]),
        5 => fields.push((51, 0)),
        _ => {}
    }
    laid(&fields)
}

/// An open or a revise with one point.
fn one_point(number: i64, kind: i64, mwh: i64, price: i64, differential: i64) -> Vec<u8> {
    let mut fields = head(number, kind, 1, 0);
    fields.extend([(7, 1), (14, mwh), (21, price), (20, differential), (1, 0)]);
    laid(&fields)
}

/// A post or a finish.
fn two_prices(number: i64, kind: i64, mwh: i64, first: i64, second: i64) -> Vec<u8> {
    let mut fields = head(number, kind, 1, 0);
    fields.extend([(20, mwh), (21, first), (21, second)]);
    laid(&fields)
}

/// What the writer gives, with all the room there may be. What is past the
/// message, and on a refusal all, is as before.
fn written(message: Message, mwh: &[u64], prices: &[i64]) -> Result<Vec<u8>, Refusal> {
    let mut buffer = [BYTE_BEFORE; BUFFER];
    let answer = write(message, mwh, prices, &mut buffer);
    let bytes = answer.unwrap_or(0);
    assert!(buffer[bytes..].iter().all(|&byte| byte == BYTE_BEFORE));
    answer.map(|bytes| buffer[..bytes].to_vec())
}

/// The number that the writer gives.
fn writer(message: Message, mwh: &[u64], prices: &[i64]) -> u64 {
    written(message, mwh, prices).map_or_else(Refusal::number, |_| 0)
}

/// What the reader gives, into lists of so many entries: the number, and with
/// 0 the message, its points and its part. What is past the points, and on a
/// refusal all, is as before.
fn reader_into(tape: &[u8], lent_mwh: usize, lent_prices: usize) -> (u64, Option<Laid>) {
    let mut mwh = vec![MWH_BEFORE; lent_mwh];
    let mut prices = vec![PRICE_BEFORE; lent_prices];
    let reading = read(tape, &mut mwh, &mut prices);
    let points = reading.points;
    assert!(mwh[points..].iter().all(|&mwh| mwh == MWH_BEFORE));
    assert!(prices[points..].iter().all(|&price| price == PRICE_BEFORE));
    // The part is the tape's own bytes, from its start.
    assert_eq!(reading.part.as_ptr(), tape.as_ptr());
    if reading.message.is_err() {
        assert_eq!((points, reading.part.len()), (0, 0));
    }
    let laid = reading.message.ok().map(|message| Laid {
        message,
        mwh: mwh[..points].to_vec(),
        prices: prices[..points].to_vec(),
        part: reading.part.to_vec(),
    });
    (reading.number(), laid)
}

/// What stands on a tape.
#[derive(Debug, PartialEq, Eq)]
struct Laid {
    message: Message,
    mwh: Vec<u64>,
    prices: Vec<i64>,
    part: Vec<u8>,
}

/// The number that the reader gives, into lists that are long enough.
fn reader(tape: &[u8]) -> u64 {
    reader_into(tape, 127, 127).0
}

/// "Reading what was written returns it; bytes and list entries past it stay."
/// The tape may go on past the message, and the lists past the points.
fn round_trip(message: Message, mwh: &[u64], prices: &[i64]) -> Vec<u8> {
    let tape = written(message, mwh, prices).expect("within 01's ranges");
    let points = match message {
        Message::Open(_) | Message::Revise(_) => mwh.len(),
        _ => 0,
    };
    for (past, lent_mwh, lent_prices) in [
        (0, points, points),
        (1, LIST, points),
        (7, points, LIST),
        (40, LIST, LIST),
    ] {
        let mut longer = tape.clone();
        longer.extend(vec![BYTE_BEFORE; past]);
        let expected = Laid {
            message,
            mwh: mwh[..points].to_vec(),
            prices: prices[..points].to_vec(),
            part: tape.clone(),
        };
        let given = reader_into(&longer, lent_mwh, lent_prices);
        assert_eq!(given, (0, Some(expected)));
    }
    tape
}

#[test]
fn the_lengths() {
    let key = keyed(1, 1, 0);
    let (mwh, prices) = ([1; 64], [1; 64]);
    for points in 1..=64 {
        let bytes = (64 + 35 * points + 7) / 8;
        for message in [open(key, 1, false), revise(key, 1, false)] {
            let tape = round_trip(message, &mwh[..points], &prices[..points]);
            assert_eq!(tape.len(), bytes);
        }
    }
    let of_each = |points: usize| -> Vec<usize> {
        eight(key)
            .into_iter()
            .map(|message| round_trip(message, &mwh[..points], &prices[..points]).len())
            .collect()
    };
    assert_eq!(of_each(1), [13, 13, 5, 13, 13, 11, 5, 7]);
    assert_eq!(of_each(64), [288, 288, 5, 13, 13, 11, 5, 7]);
}

#[test]
fn tapes_in_writing() {
    let key = keyed(2, 999, 999_999);
    let keyed_tape = |number: &str, rest: &str| {
        tape_of(&format!(
            "{number} 010 1111100111 11110100001000111111 {rest}"
        ))
    };
    let points = "0000010 \
        00000000000001 000000000000000000011 \
        10011100010000 100001011110111000000 \
        11110100001001000000 1";
    let two_prices = "10011100010000000000 011110100001001000000 000000000000000000000";
    let bill_of_minus_1 = "1".repeat(51);
    let support_of_5 = format!("111 {:051b}", 5);
    let (mwh, prices) = ([1, 10_000], [3, -1_000_000]);
    for (message, tape) in [
        (open(key, 1_000_000, true), keyed_tape("000", points)),
        (revise(key, 1_000_000, true), keyed_tape("001", points)),
        (withdraw(key), keyed_tape("010", "")),
        (
            post(key, 640_000, 1_000_000, 0),
            keyed_tape("011", two_prices),
        ),
        (
            finish(key, 640_000, 1_000_000, 0),
            keyed_tape("100", two_prices),
        ),
        (bill(key, -1), keyed_tape("101", &bill_of_minus_1)),
        (pay(key), keyed_tape("110", "")),
        (support(5), tape_of(&support_of_5)),
    ] {
        assert_eq!(round_trip(message, &mwh, &prices), tape, "{message:?}");
    }
    let tape = round_trip(withdraw(keyed(1, 1, 0)), &[], &[]);
    assert_eq!(tape, [0b0100_0100, 1, 0, 0, 0]);
    let tape = round_trip(pay(keyed(4, 2, 15)), &[], &[]);
    assert_eq!(tape, [0b1101_0000, 2, 0, 0, 0b1111_0000]);
}

#[test]
fn keys_at_their_limits() {
    for kind in IMPORT..=WHEEL {
        for path in [1, 2, 511, 512, 998, 999] {
            for hour in [0, 1, 524_287, 524_288, 999_998, 999_999] {
                for message in eight(keyed(kind, path, hour)) {
                    round_trip(message, &MWH, &PRICES);
                }
            }
        }
    }
}

const EDGE_PRICES: [i64; 7] = [-1_000_000, -999_999, -1, 0, 1, 999_999, 1_000_000];

#[test]
fn posts_and_finishes_at_their_limits() {
    for kind in IMPORT..=WHEEL {
        for first in EDGE_PRICES {
            for second in EDGE_PRICES {
                let second = if kind == WHEEL { second } else { 0 };
                for mwh in [0, 1, 524_287, 524_288, 639_999, 640_000] {
                    round_trip(post(key(kind), mwh, first, second), &[], &[]);
                    round_trip(finish(key(kind), mwh, first, second), &[], &[]);
                }
            }
        }
    }
}

#[test]
fn bids_at_their_limits() {
    for kind in IMPORT..=WHEEL {
        for differential in [0, 1, 524_288, 999_999, 1_000_000] {
            let differential = if kind <= EXPORT { differential } else { 0 };
            for mwh in [0, 1, 8_191, 8_192, 9_999, 10_000] {
                for price in EDGE_PRICES {
                    let (mwh, prices) = ([mwh, 5, mwh], [price, -5, price]);
                    for exempt in [false, true] {
                        round_trip(open(key(kind), differential, exempt), &mwh, &prices);
                        round_trip(revise(key(kind), differential, exempt), &mwh, &prices);
                    }
                }
            }
        }
    }
}

#[test]
fn amounts_at_their_limits() {
    for amount in [0, 1, 999_999_999_999, 1_000_000_000_000] {
        for kind in IMPORT..=WHEEL {
            round_trip(bill(key(kind), amount), &[], &[]);
            round_trip(bill(key(kind), -amount), &[], &[]);
        }
    }
    for amount in [0, 1, MOST_SUPPORT - 1, MOST_SUPPORT] {
        round_trip(support(amount), &[], &[]);
    }
}

#[test]
fn points_stand_in_their_order() {
    let mwh: Vec<u64> = (0..64).map(|i| i * 158).collect();
    let prices: Vec<i64> = (0..64).map(|i| (i - 32) * 31_250).collect();
    for points in 1..=64 {
        let message = revise(key(HOUR_AHEAD_EXPORT), 0, true);
        round_trip(message, &mwh[..points], &prices[..points]);
    }
}

/// A book ignores the mark for kinds 2 to 4; the tape keeps it.
#[test]
fn the_exempt_mark_is_kept_as_it_is() {
    for kind in IMPORT..=WHEEL {
        let marked = round_trip(open(key(kind), 0, true), &MWH, &PRICES);
        let unmarked = round_trip(open(key(kind), 0, false), &MWH, &PRICES);
        assert_ne!(marked, unmarked);
    }
}

#[test]
fn lists_beside_messages_without_points_are_passed_over() {
    for message in eight(key(IMPORT)).into_iter().skip(2) {
        let tape = written(message, &[], &[]).expect("in range");
        assert_eq!(written(message, &[99_999; 70], &[]), Ok(tape.clone()));
        assert_eq!(written(message, &[], &[i64::MIN]), Ok(tape.clone()));
        assert_eq!(reader_into(&tape, 0, 0).0, 0);
    }
}

#[test]
fn nineteen_at_every_byte() {
    for message in eight(key(IMPORT)) {
        let tape = round_trip(message, &MWH, &PRICES);
        for length in 0..tape.len() {
            assert_eq!(reader(&tape[..length]), 19);
        }
    }
    // Whatever stands there: no message takes fewer than 5 bytes.
    for byte in 0..=255 {
        for length in 0..5 {
            assert_eq!(reader(&vec![byte; length]), 19);
        }
    }
}

#[test]
fn the_length_follows_the_count_as_read() {
    for count in 0..=127 {
        for number in [0, 1] {
            let mut fields = head(number, 1, 1, 0);
            fields.push((7, count));
            fields.extend([(14, 0), (21, 0)].repeat(count as usize));
            fields.extend([(20, 0), (1, 0)]);
            let tape = laid(&fields);
            assert_eq!(tape.len(), (64 + 35 * count as usize + 7) / 8);
            let counted = (1..=64).contains(&count);
            assert_eq!(reader(&tape), if counted { 0 } else { 5 });
            assert_eq!(reader(&tape[..tape.len() - 1]), 19);
            // 5 stands before 24.
            let without_lists = reader_into(&tape, 0, 0).0;
            assert_eq!(without_lists, if counted { 24 } else { 5 });
        }
    }
}

#[test]
fn twenty_for_each_bit_of_the_filler() {
    // Two points to an open and a revise.
    let fillers = [2, 2, 4, 6, 6, 1, 4, 2];
    for (message, filler) in eight(key(IMPORT)).into_iter().zip(fillers) {
        let tape = round_trip(message, &MWH, &PRICES);
        let last = tape.len() - 1;
        let flipped = |bit: usize| {
            let mut tape = tape.clone();
            tape[last] ^= 1 << bit;
            tape
        };
        for bit in 0..filler {
            let mut tape = flipped(bit);
            assert_eq!(reader(&tape), 20, "{message:?}");
            // Bytes past the message are none of its filler.
            tape.push(0);
            assert_eq!(reader(&tape), 20, "{message:?}");
        }
        // The bit above is a value's.
        assert_ne!(reader(&flipped(filler)), 20, "{message:?}");
    }
    // 8 points have no filler: the last bit is the exempt mark.
    let tape = round_trip(open(key(IMPORT), 0, true), &[0; 8], &[0; 8]);
    assert_eq!((tape.len(), tape[42]), (43, 1));
}

#[test]
fn two_to_four_of_a_tape() {
    for number in 0..7 {
        for kind in 0..8 {
            let known = (1..=4).contains(&kind);
            let right = with_key(number, kind, 1, 0);
            assert_eq!(reader(&right), if known { 0 } else { 2 });
            let worse = with_key(number, kind, 0, 1_000_000);
            assert_eq!(reader(&worse), if known { 3 } else { 2 });
        }
        for path in [0, 1, 999, 1_000, 1_023] {
            let known = (1..=999).contains(&path);
            let right = with_key(number, 4, path, 0);
            assert_eq!(reader(&right), if known { 0 } else { 3 });
            let worse = with_key(number, 4, path, 1_000_000);
            assert_eq!(reader(&worse), if known { 4 } else { 3 });
        }
        for (hour, expected) in [(0, 0), (999_999, 0), (1_000_000, 4), (1_048_575, 4)] {
            assert_eq!(reader(&with_key(number, 1, 1, hour)), expected);
        }
    }
}

/// Prices at the limits and at those of 21 bits, and their number.
const TAPED_PRICES: [(i64, u64); 7] = [
    (-1_048_576, 7),
    (-1_000_001, 7),
    (-1_000_000, 0),
    (1, 0),
    (1_000_000, 0),
    (1_000_001, 7),
    (1_048_575, 7),
];

#[test]
fn six_to_eight_of_a_taped_bid() {
    for number in [0, 1] {
        for (mwh, expected) in [(0, 0), (10_000, 0), (10_001, 6), (16_383, 6)] {
            assert_eq!(reader(&one_point(number, 1, mwh, 0, 0)), expected);
        }
        for (price, expected) in TAPED_PRICES {
            assert_eq!(reader(&one_point(number, 1, 0, price, 0)), expected);
        }
        for (differential, expected) in [
            (0, [0, 0, 0, 0]),
            (1, [0, 0, 8, 8]),
            (1_000_000, [0, 0, 8, 8]),
            (1_000_001, [8; 4]),
            (1_048_575, [8; 4]),
        ] {
            for (kind, expected) in (1..=4).zip(expected) {
                let tape = one_point(number, kind, 0, 0, differential);
                assert_eq!(reader(&tape), expected);
            }
        }
    }
}

#[test]
fn six_and_seven_of_a_taped_post_and_finish() {
    for number in [3, 4] {
        for (mwh, expected) in [(0, 0), (640_000, 0), (640_001, 6), (1_048_575, 6)] {
            assert_eq!(reader(&two_prices(number, 1, mwh, 0, 0)), expected);
        }
        // 6 stands before 7.
        assert_eq!(reader(&two_prices(number, 1, 640_001, 0, 1)), 6);
        for (price, expected) in TAPED_PRICES {
            for kind in 1..=4 {
                let first = two_prices(number, kind, 0, price, 0);
                assert_eq!(reader(&first), expected);
                // "Their second must be 0 (refusal 7)."
                let second = two_prices(number, kind, 0, 5, price);
                assert_eq!(reader(&second), if kind == 4 { expected } else { 7 });
            }
        }
    }
}

#[test]
fn nine_of_a_taped_amount() {
    let half = 1 << 50;
    let most = 1_000_000_000_000;
    for (amount, expected) in [
        (-half, 9),
        (-most - 1, 9),
        (-most, 0),
        (most, 0),
        (most + 1, 9),
        (half - 1, 9),
    ] {
        let mut fields = head(5, 3, 1, 0);
        fields.push((51, amount));
        assert_eq!(reader(&laid(&fields)), expected);
        // 3 stands before 9.
        fields[2].1 = 0;
        assert_eq!(reader(&laid(&fields)), 3);
    }
    for (amount, expected) in [
        (-half, 9),
        (-1, 9),
        (0, 0),
        (MOST_SUPPORT, 0),
        (MOST_SUPPORT + 1, 9),
        (half - 1, 9),
    ] {
        assert_eq!(reader(&laid(&[(3, 7), (51, amount)])), expected);
    }
}

/// A revise wrong in every way, put right one by one, into lists that have no
/// entry.
#[test]
fn the_order_of_the_reader() {
    let tape = |kind, path, hour, count: usize, mwh, price, differential| {
        let mut fields = head(1, kind, path, hour);
        fields.push((7, count as i64));
        fields.extend([(14, mwh), (21, price)].repeat(count));
        fields.extend([(20, differential), (1, 1)]);
        laid(&fields)
    };
    let (far, mwh, price) = (1_000_000, 10_001, 1_000_001);
    for (tape, expected) in [
        (tape(0, 0, far, 65, mwh, price, 1), 2),
        (tape(5, 0, far, 65, mwh, price, 1), 2),
        (tape(6, 0, far, 65, mwh, price, 1), 2),
        (tape(3, 0, far, 65, mwh, price, 1), 3),
        (tape(3, 1, far, 65, mwh, price, 1), 4),
        (tape(3, 1, 0, 65, mwh, price, 1), 5),
        (tape(3, 1, 0, 5, mwh, price, 1), 6),
        (tape(3, 1, 0, 5, 10_000, price, 1), 7),
        (tape(3, 1, 0, 5, 10_000, 1_000_000, 1), 8),
        (tape(3, 1, 0, 5, 10_000, 1_000_000, 0), 24),
    ] {
        let mut spoiled = tape.clone();
        *spoiled.last_mut().expect("a last byte") |= 1;
        let cut = &spoiled[..spoiled.len() - 1];
        assert_eq!(reader_into(cut, 0, 0).0, 19);
        assert_eq!(reader_into(&spoiled, 0, 0).0, 20);
        assert_eq!(reader_into(&tape, 0, 0).0, expected);
    }
}

#[test]
fn twenty_four_of_either_list() {
    let tape = round_trip(open(key(IMPORT), 0, true), &[1; 5], &[1; 5]);
    for lent_mwh in 0..8 {
        for lent_prices in 0..8 {
            let long_enough = lent_mwh >= 5 && lent_prices >= 5;
            let number = reader_into(&tape, lent_mwh, lent_prices).0;
            assert_eq!(number, if long_enough { 0 } else { 24 });
        }
    }
}

#[test]
fn twenty_four_of_the_buffer() {
    for message in eight(key(EXPORT)) {
        let tape = round_trip(message, &MWH, &PRICES);
        for room in 0..BUFFER {
            let mut buffer = vec![BYTE_BEFORE; room];
            let answer = write(message, &MWH, &PRICES, &mut buffer);
            let mut expected = vec![BYTE_BEFORE; room];
            if room < tape.len() {
                assert_eq!(answer.map_err(Refusal::number), Err(24));
            } else {
                assert_eq!(answer, Ok(tape.len()));
                expected[..tape.len()].copy_from_slice(&tape);
            }
            assert_eq!(buffer, expected);
        }
    }
}

/// Keys wrong in kind, path and hour, then put right one by one; the last is
/// of kind 3.
fn keys_put_right() -> [Key; 4] {
    [
        keyed(5, 0, 1_000_000),
        keyed(3, 0, 1_000_000),
        keyed(3, 9, 1_000_000),
        keyed(3, 9, 999_999),
    ]
}

#[test]
fn the_order_of_the_writer_for_bids() {
    let [kind, path, hour, right] = keys_put_right();
    let (far_mwh, far_prices) = ([10_001; 65], [1_000_001; 65]);
    let (mwh, prices) = ([1; 64], [1; 64]);
    for bid in [open, revise] {
        for (message, mwh, prices, expected) in [
            (bid(kind, 1, true), &far_mwh[..], &far_prices[..], 2),
            (bid(path, 1, true), &far_mwh[..], &far_prices[..], 3),
            (bid(hour, 1, true), &far_mwh[..], &far_prices[..], 4),
            (bid(right, 1, true), &far_mwh[..], &far_prices[..], 5),
            (bid(right, 1, true), &far_mwh[..64], &far_prices[..], 5),
            (bid(right, 1, true), &far_mwh[..], &far_prices[..64], 5),
            (bid(right, 1, true), &far_mwh[..2], &far_prices[..1], 5),
            (bid(right, 1, true), &far_mwh[..0], &far_prices[..0], 5),
            (bid(right, 1, true), &far_mwh[..64], &far_prices[..64], 6),
            (bid(right, 1, true), &mwh[..], &far_prices[..64], 7),
            (bid(right, 1, true), &mwh[..], &prices[..], 8),
            (bid(right, 0, true), &mwh[..], &prices[..], 0),
        ] {
            assert_eq!(writer(message, mwh, prices), expected);
            // 24 stands after all of them.
            let refused = write(message, mwh, prices, &mut [0; BUFFER - 1]);
            let number = refused.map_or_else(Refusal::number, |_| 0);
            assert_eq!(number, if expected == 0 { 24 } else { expected });
        }
    }
}

#[test]
fn the_order_of_the_writer_for_other_messages() {
    let [kind, path, hour, right] = keys_put_right();
    for post in [post, finish] {
        for (message, expected) in [
            (post(kind, 640_001, 1_000_001, 1), 2),
            (post(path, 640_001, 1_000_001, 1), 3),
            (post(hour, 640_001, 1_000_001, 1), 4),
            (post(right, 640_001, 1_000_001, 1), 6),
            (post(right, 640_000, 1_000_001, 0), 7),
            (post(right, 640_000, 1_000_000, 1), 7),
            (post(right, 640_000, 1_000_000, 0), 0),
        ] {
            assert_eq!(writer(message, &[], &[]), expected);
        }
    }
    for (message, expected) in [
        (bill(kind, i64::MIN), 2),
        (bill(path, i64::MIN), 3),
        (bill(hour, i64::MIN), 4),
        (bill(right, i64::MIN), 9),
        (bill(right, 1_000_000_000_001), 9),
        (withdraw(kind), 2),
        (withdraw(path), 3),
        (withdraw(hour), 4),
        (pay(kind), 2),
        (pay(path), 3),
        (pay(hour), 4),
        (support(-1), 9),
        (support(MOST_SUPPORT + 1), 9),
    ] {
        assert_eq!(writer(message, &[], &[]), expected);
        let refused = write(message, &[], &[], &mut []);
        assert_eq!(refused.map_err(Refusal::number), Err(expected));
    }
}

/// No value is cut to its field: 2^width more than one in range is refused.
#[test]
fn values_past_their_fields() {
    let wheel = key(WHEEL);
    for (message, expected) in [
        (pay(keyed(1 + 8, 1, 0)), 2),
        (pay(keyed(1, 1 + (1 << 10), 0)), 3),
        (pay(keyed(1, 1, 1 << 20)), 4),
        (post(wheel, 1 << 20, 0, 0), 6),
        (post(wheel, 0, 1 << 21, 0), 7),
        (finish(wheel, 0, 0, -1 << 21), 7),
        (bill(wheel, 1 << 51), 9),
        (support(1 << 51), 9),
        (open(key(IMPORT), 1 << 20, false), 8),
    ] {
        assert_eq!(writer(message, &MWH, &PRICES), expected);
    }
    let message = open(wheel, 0, false);
    assert_eq!(writer(message, &[1 << 14], &[0]), 6);
    assert_eq!(writer(message, &[1], &[1 << 21]), 7);
    assert_eq!(writer(message, &[0; 129], &[0; 129]), 5);
}

/// "Document 01's eight messages and kinds 1 to 4 only."
#[test]
fn other_messages_and_kinds_are_refused_with_2() {
    for kind in [0, QUARTER_HOUR_EXPORT, VIRTUAL, 7, 8, u64::MAX] {
        for message in &eight(key(kind))[..7] {
            assert_eq!(writer(*message, &MWH, &PRICES), 2);
        }
    }
    for kind in IMPORT..=VIRTUAL {
        for message in &one_of_each(key(kind))[8..] {
            assert_eq!(writer(*message, &MWH, &PRICES), 2);
            let refused = write(*message, &[], &[], &mut []);
            assert_eq!(refused, Err(Refusal::Kind));
        }
    }
}

/// "Each message within 01's ranges has one tape form": what is read of any
/// tape is written as the part that held it.
#[test]
fn one_form() {
    let mut read_again = 0;
    for kind in IMPORT..=WHEEL {
        for message in eight(keyed(kind, 700, 654_321)) {
            let tape = round_trip(message, &MWH, &PRICES);
            for bit in 0..tape.len() * 8 {
                let mut flipped = tape.clone();
                flipped[bit / 8] ^= 0x80 >> (bit % 8);
                flipped.extend([0; BUFFER]);
                if let (_, Some(other)) = reader_into(&flipped, LIST, LIST) {
                    let again = written(other.message, &other.mwh, &other.prices);
                    assert_eq!(again, Ok(other.part));
                    read_again += 1;
                }
            }
        }
    }
    assert!(read_again > 1_000);
}
