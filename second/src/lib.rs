//! A model of one MC88200: registers, BATC, PATC, table search, data cache,
//! commands, snoops and saved images.
//!
//! The state is a [`Unit`]; cache data, RAM and ROM are lent to every call.
//! A call is refused with a number, and then changes nothing, or it is done
//! and answers. Every state, every slice and every address has an answer.

#![deny(unsafe_code)]

pub mod answer;
pub mod bits;
pub mod bus;
pub mod cache;
pub mod check;
mod command;
mod image;
pub mod order;
pub mod refusal;
mod registers;
pub mod translate;
pub mod unit;

pub use answer::{Answer, Fault, Outcome, Snooped, Traffic, Transaction};
pub use command::Probe;
pub use image::IMAGE;
pub use unit::{Access, Snoop, Unit};
