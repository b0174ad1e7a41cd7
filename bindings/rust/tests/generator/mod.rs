//! Inputs made from a seed: records, extensions and their faults, requests, and images that no reader would answer.
#![allow(dead_code)]

pub mod extensions;
pub mod images;
pub mod random;
pub mod records;
pub mod requests;
pub mod tree;

pub use random::Random;
