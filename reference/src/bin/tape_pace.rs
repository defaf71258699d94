//! The run of `crates/tape_pace` over the reference: an open of 64 points
//! written to a tape and read from it, a million times, and the same line.

use reference::book::{Key, Message, Opening};
use reference::tape;

const TURNS: u64 = 1_000_000;
const MODULUS: u64 = 2_147_483_647;
const MULTIPLIER: u64 = 48_271;

fn mix(digest: u64, value: u64) -> u64 {
    (digest % MODULUS * MULTIPLIER + value % MODULUS) % MODULUS
}

fn message(turn: u64) -> Message {
    Message::Open(Opening {
        key: Key {
            kind: 2,
            path: 7,
            hour: turn % 1_000_000,
        },
        differential: 6_000,
        exempt: false,
    })
}

/// The refusal's number or 0, the part's length, and the MWh of one point.
fn taken(digest: u64, turn: u64) -> u64 {
    let mwh = [turn % 10_001; 64];
    let prices = [-7_i64; 64];
    let mut bytes = [0_u8; 288];
    let _ = tape::write(message(turn), &mwh, &prices, &mut bytes);
    let mut quantities = [0_u64; 64];
    let mut others = [0_i64; 64];
    let reading = tape::read(&bytes, &mut quantities, &mut others);
    let one = quantities[(turn % 64) as usize];
    mix(mix(mix(digest, reading.number()), reading.part.len() as u64), one)
}

fn main() {
    let digest = (0..TURNS).fold(1, taken);
    println!("digest {digest}");
}
