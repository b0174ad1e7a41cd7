//! Refusals, and their sentences.

use std::error::Error;
use std::fmt;

use crate::refusals::ROWS;

/// Why a call was refused: the number of docs/REFUSALS.md and the byte place that it is given for.
///
/// ```
/// use sculldrip::{Extension, Refusal};
///
/// let refusal = Extension::read(&[0x05, 0x00, 0x00]).unwrap_err();
/// assert_eq!(refusal, Refusal { number: Refusal::SPARE_BYTES, place: 2 });
/// assert_eq!(refusal.to_string(), "refusal 7 at 2: The outermost element is whole, and bytes follow it.");
/// ```
#[derive(Clone, Copy, Debug, PartialEq, Eq, Hash)]
pub struct Refusal {
    /// 1 to 14 of a read, 20 to 22 of a record, 30 to 46 of a use, 50 to 55 of an enrolment; each has a name below.
    pub number: u8,
    /// A byte of the extension, counted from 0; 0 where the refusal is of no byte.
    pub place: u64,
}

impl Refusal {
    /// The value beside an answer's low byte, or the refusal.
    pub(crate) fn check(answer: u64) -> Result<u64, Refusal> {
        let number = (answer & 0xff) as u8;
        let rest = answer >> 8;
        match number {
            0 => Ok(rest),
            _ => Err(Refusal { number, place: rest }),
        }
    }

    /// Its name, in two or three words.
    ///
    /// ```
    /// let refusal = sculldrip::Extension::read(&[]).unwrap_err();
    /// assert_eq!(refusal.name(), "runs out");
    /// ```
    pub fn name(&self) -> &'static str {
        self.row().1
    }

    /// What was found, in plain words.
    ///
    /// ```
    /// let refusal = sculldrip::Extension::read(&[]).unwrap_err();
    /// assert!(refusal.sentence().starts_with("No element at all"));
    /// ```
    pub fn sentence(&self) -> &'static str {
        self.row().2
    }

    /// Who can mend it, and how.
    ///
    /// ```
    /// let refusal = sculldrip::Extension::read(&[]).unwrap_err();
    /// assert!(refusal.advice().starts_with("At place 0 the file is cut or empty: fetch it again."));
    /// ```
    pub fn advice(&self) -> &'static str {
        self.row().3
    }

    fn row(&self) -> (u8, &'static str, &'static str, &'static str) {
        let unknown = (self.number, "no refusal", "No refusal of the library has this number.", "");
        ROWS.iter().find(|row| row.0 == self.number).copied().unwrap_or(unknown)
    }
}

impl fmt::Display for Refusal {
    fn fmt(&self, formatter: &mut fmt::Formatter<'_>) -> fmt::Result {
        write!(formatter, "refusal {} at {}: {}", self.number, self.place, self.sentence())
    }
}

impl Error for Refusal {}
