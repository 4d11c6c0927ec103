//! The rules of the ticket station in plain Rust.
//!
//! A stream is read byte by byte ([`reader`]); its commands move a printer's [`settings`] and open
//! [`row`] and order [`action`]s ([`printer`], [`interpreter`]); a [`station`] carries these to a
//! [`mechanism`]: a [`plate`], a [`page`] or a [`writer`]. [`normalise()`](normalise::normalise)
//! writes a stream's normal text.
//!
//! This is an implementation of its own: it shares nothing with the station's code, so that the two
//! can be compared on many streams, and it is written to be fast, so that it can serve as a measure
//! for the station's speed. [`streams`] makes the streams for both; `product` calls the station.

#![cfg_attr(not(feature = "station"), forbid(unsafe_code))]

pub mod action;
pub mod bars;
pub mod hex;
pub mod interpreter;
pub mod mechanism;
pub mod normalise;
pub mod page;
pub mod plate;
pub mod printer;
#[cfg(feature = "station")]
pub mod product;
pub mod random;
pub mod reader;
pub mod row;
pub mod settings;
pub mod station;
pub mod streams;
pub mod text;
pub mod writer;
