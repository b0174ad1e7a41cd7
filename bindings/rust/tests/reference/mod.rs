//! A second, plain implementation of the product's paper: the reader, the writer, both rulings, asking for an octet field
//! and the listing. It is written for being read beside the paper, and shares nothing with the library.
#![allow(dead_code)]

pub mod der;
pub mod enrol;
pub mod image;
pub mod listing;
pub mod model;
pub mod read;
pub mod rule;
pub mod table;
pub mod write;

pub use model::{Fields, Part, Record, Refusal, Root, Value};
