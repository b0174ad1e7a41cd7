//! Reads, writes and rules on Android key attestation extensions (OID 1.3.6.1.4.1.11129.2.1.17), by the proved library
//! libsculldrip.a.
//!
//! Any bytes can be read: they are accepted with all that they say, or refused with a number and a place. What was read can
//! be listed, written again, and ruled on. What is left to a caller is that the thread has [`sys::STACK_BYTES`] of stack left.
//!
//! ```
//! use sculldrip::{Clock, Digest, Extension, Padding, Purpose, Request};
//!
//! let extension = Extension::read(&sculldrip::SAMPLE)?;
//! print!("{extension}");
//! let request = Request::new(Clock { now: 1609459200000, floor: 1600000000000 })
//!     .purpose(Purpose::SIGN)
//!     .digest(Digest::SHA_2_256)
//!     .padding(Padding::NONE);
//! let permit = extension.rule(&request)?;
//! assert_eq!(permit.hardware.bits, 32783);
//! # Ok::<(), sculldrip::Refusal>(())
//! ```
#![warn(missing_docs)]

mod calls;
mod extension;
mod field;
mod image;
mod list;
mod record;
mod refusal;
#[rustfmt::skip] // it is written by a script
mod refusals;
mod request;
pub mod sys;

pub use extension::Extension;
pub use field::{FlagField, NumberField, OctetField, SetField};
pub use list::{BootState, Fields, List, RootOfTrust, Value};
pub use record::{Level, Record};
pub use refusal::Refusal;
pub use request::{Clock, Digest, Mark, Operation, Padding, Permit, Purpose, Request, Rule, Token};

/// Lists any bytes: what they say where they are an extension, else one line with their refusal.
///
/// ```
/// assert_eq!(sculldrip::listing(&[]), "refused 2 at 0\n");
/// assert!(sculldrip::listing(&sculldrip::SAMPLE).starts_with("version 3 level 1\nkeymint 4 level 1\n"));
/// ```
pub fn listing(bytes: &[u8]) -> String {
    calls::list(bytes)
}

/// The interface that the linked library was built for. It must be [`sys::VERSION`], the one that this crate is for.
///
/// ```
/// assert_eq!(sculldrip::interface_version(), sculldrip::sys::VERSION);
/// ```
pub fn interface_version() -> u64 {
    calls::version()
}

/// A small extension of version 3, to try things with: a key that may sign from the start of 2021.
///
/// ```
/// assert_eq!(sculldrip::Extension::read(&sculldrip::SAMPLE)?.elements(), 26);
/// # Ok::<(), sculldrip::Refusal>(())
/// ```
pub const SAMPLE: [u8; 76] = [
    0x30, 0x4A, 0x02, 0x01, 0x03, 0x0A, 0x01, 0x01, 0x02, 0x01, 0x04, 0x0A, 0x01, 0x01, 0x04, 0x03, 0x01, 0x02, 0x03, 0x04,
    0x00, 0x30, 0x0C, 0xBF, 0x83, 0x10, 0x08, 0x02, 0x06, 0x01, 0x76, 0xBB, 0x3E, 0x70, 0x00, 0x30, 0x27, 0xA1, 0x05, 0x31,
    0x03, 0x02, 0x01, 0x02, 0xA2, 0x03, 0x02, 0x01, 0x03, 0xA5, 0x05, 0x31, 0x03, 0x02, 0x01, 0x04, 0xA6, 0x05, 0x31, 0x03,
    0x02, 0x01, 0x01, 0xBF, 0x83, 0x77, 0x02, 0x05, 0x00, 0xBF, 0x85, 0x3E, 0x03, 0x02, 0x01, 0x00,
];
