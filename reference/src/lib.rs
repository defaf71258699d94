//! One customer's book and its rules, read from document 01 with orders 1
//! to 6 and 8 of document 02.
//!
//! Quantities are whole MWh, prices and differentials whole cents per MWh,
//! amounts signed whole cents. All are exact: every sum and product is taken
//! in `i128`.

#![crate_name = "reference"]
#![crate_type = "lib"]
#![forbid(unsafe_code)]
#![warn(missing_docs)]

pub mod book;
pub mod chart;
pub mod formulas;
pub mod history;
pub mod limits;
pub mod refusal;
pub mod tape;

pub use book::{Answer, Book, Key, Message, Record};
pub use refusal::Refusal;
