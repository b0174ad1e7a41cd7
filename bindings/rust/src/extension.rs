//! An extension that was read.

use std::fmt;

use crate::calls;
use crate::image::Image;
use crate::list::{Fields, List};
use crate::record::{Level, Record};
use crate::refusal::Refusal;
use crate::request::{Permit, Request};

/// An extension that the library accepted, with its bytes.
///
/// ```
/// use sculldrip::{Extension, List};
///
/// let extension = Extension::read(&[
///     0x30, 0x4A, 0x02, 0x01, 0x03, 0x0A, 0x01, 0x01, 0x02, 0x01, 0x04, 0x0A, 0x01, 0x01, 0x04, 0x03, 0x01, 0x02, 0x03,
///     0x04, 0x00, 0x30, 0x0C, 0xBF, 0x83, 0x10, 0x08, 0x02, 0x06, 0x01, 0x76, 0xBB, 0x3E, 0x70, 0x00, 0x30, 0x27, 0xA1,
///     0x05, 0x31, 0x03, 0x02, 0x01, 0x02, 0xA2, 0x03, 0x02, 0x01, 0x03, 0xA5, 0x05, 0x31, 0x03, 0x02, 0x01, 0x04, 0xA6,
///     0x05, 0x31, 0x03, 0x02, 0x01, 0x01, 0xBF, 0x83, 0x77, 0x02, 0x05, 0x00, 0xBF, 0x85, 0x3E, 0x03, 0x02, 0x01, 0x00,
/// ])?;
/// assert_eq!(extension.version(), 3);
/// assert_eq!(extension.challenge(), [1, 2, 3]);
/// assert_eq!(extension.list(List::Hardware).purposes(), Some(vec![2]));
/// assert!(extension.to_string().ends_with("hardware 503 yes\nhardware 702 0\nelements 26\n"));
/// # Ok::<(), sculldrip::Refusal>(())
/// ```
#[derive(Clone, PartialEq, Eq)]
pub struct Extension {
    /// Its octets lie in the bytes that were read.
    record: Record,
    elements: u64,
}

impl Extension {
    /// Reads any bytes. Refusals 1 to 14.
    ///
    /// ```
    /// assert_eq!(sculldrip::Extension::read(&[0x30, 0x80]).unwrap_err().number, sculldrip::Refusal::BAD_LENGTH);
    /// ```
    pub fn read(bytes: &[u8]) -> Result<Extension, Refusal> {
        let mut image = Image::new();
        let elements = calls::read(bytes, &mut image)?;
        Ok(Extension { record: Record::of(image, bytes.to_vec()), elements })
    }

    /// The bytes that were read.
    ///
    /// ```
    /// # let extension = sculldrip::Extension::read(&sculldrip::SAMPLE)?;
    /// assert_eq!(extension.bytes(), sculldrip::SAMPLE);
    /// # Ok::<(), sculldrip::Refusal>(())
    /// ```
    pub fn bytes(&self) -> &[u8] {
        &self.record.buffer
    }

    /// How many elements the bytes have.
    ///
    /// ```
    /// # let extension = sculldrip::Extension::read(&sculldrip::SAMPLE)?;
    /// assert_eq!(extension.elements(), 26);
    /// # Ok::<(), sculldrip::Refusal>(())
    /// ```
    pub fn elements(&self) -> u64 {
        self.elements
    }

    /// The attestation version.
    ///
    /// ```
    /// # let extension = sculldrip::Extension::read(&sculldrip::SAMPLE)?;
    /// assert_eq!(extension.version(), 3);
    /// # Ok::<(), sculldrip::Refusal>(())
    /// ```
    pub fn version(&self) -> u32 {
        self.record.version()
    }

    /// The security level of the attestation.
    ///
    /// ```
    /// # let extension = sculldrip::Extension::read(&sculldrip::SAMPLE)?;
    /// assert!(extension.level() > sculldrip::Level::Software);
    /// # Ok::<(), sculldrip::Refusal>(())
    /// ```
    pub fn level(&self) -> Level {
        self.record.level()
    }

    /// The version of KeyMint, or of Keymaster before version 100.
    ///
    /// ```
    /// # let extension = sculldrip::Extension::read(&sculldrip::SAMPLE)?;
    /// assert_eq!(extension.keymint_version(), 4);
    /// # Ok::<(), sculldrip::Refusal>(())
    /// ```
    pub fn keymint_version(&self) -> u32 {
        self.record.keymint_version()
    }

    /// The security level of KeyMint.
    ///
    /// ```
    /// # let extension = sculldrip::Extension::read(&sculldrip::SAMPLE)?;
    /// assert_eq!(extension.keymint_level(), sculldrip::Level::TrustedEnvironment);
    /// # Ok::<(), sculldrip::Refusal>(())
    /// ```
    pub fn keymint_level(&self) -> Level {
        self.record.keymint_level()
    }

    /// The challenge.
    ///
    /// ```
    /// # let extension = sculldrip::Extension::read(&sculldrip::SAMPLE)?;
    /// assert_eq!(extension.challenge(), [1, 2, 3]);
    /// # Ok::<(), sculldrip::Refusal>(())
    /// ```
    pub fn challenge(&self) -> &[u8] {
        self.record.challenge()
    }

    /// The uniqueId; mostly empty.
    ///
    /// ```
    /// # let extension = sculldrip::Extension::read(&sculldrip::SAMPLE)?;
    /// assert!(extension.unique_id().is_empty());
    /// # Ok::<(), sculldrip::Refusal>(())
    /// ```
    pub fn unique_id(&self) -> &[u8] {
        self.record.unique_id()
    }

    /// One of the two lists.
    ///
    /// ```
    /// # use sculldrip::List;
    /// # let extension = sculldrip::Extension::read(&sculldrip::SAMPLE)?;
    /// assert_eq!(extension.list(List::Hardware).algorithm(), Some(3));
    /// # Ok::<(), sculldrip::Refusal>(())
    /// ```
    pub fn list(&self, list: List) -> Fields<'_> {
        self.record.list(list)
    }

    /// Asks for an octet field by any number: none where it is absent or no octet field.
    ///
    /// ```
    /// # use sculldrip::List;
    /// # let extension = sculldrip::Extension::read(&sculldrip::SAMPLE)?;
    /// assert_eq!(extension.octets(List::Hardware, 709), None);
    /// # Ok::<(), sculldrip::Refusal>(())
    /// ```
    pub fn octets(&self, list: List, number: u64) -> Option<&[u8]> {
        let part = calls::octets(&self.record.image, list, number, self.bytes().len());
        part.expect("the parts of an accepted extension lie in its bytes").map(|part| part.of(self.bytes()))
    }

    /// Rules on a use. Refusals 30 to 46.
    ///
    /// ```
    /// # use sculldrip::{Clock, Digest, Extension, Padding, Purpose, Request};
    /// # let extension = Extension::read(&sculldrip::SAMPLE)?;
    /// let request = Request::new(Clock { now: 1609459200000, floor: 1600000000000 })
    ///     .purpose(Purpose::SIGN)
    ///     .digest(Digest::SHA_2_256)
    ///     .padding(Padding::NONE);
    /// let permit = extension.rule(&request)?;
    /// assert_eq!((permit.hardware.bits, permit.hardware.count, permit.software.bits), (32783, 5, 32));
    ///
    /// let dead_battery = request.clock(Clock { now: 0, floor: 1600000000000 });
    /// assert_eq!(extension.rule(&dead_battery).unwrap_err().number, sculldrip::Refusal::CLOCK_BELOW_FLOOR);
    /// # Ok::<(), sculldrip::Refusal>(())
    /// ```
    pub fn rule(&self, request: &Request) -> Result<Permit, Refusal> {
        self.record.rule(request)
    }

    /// Rules on taking on the key, where `expected` is the challenge that was asked for. Refusals 50 to 55.
    ///
    /// ```
    /// # let extension = sculldrip::Extension::read(&sculldrip::SAMPLE)?;
    /// assert_eq!(extension.enrol(&[1, 2, 4]).unwrap_err().number, sculldrip::Refusal::CHALLENGE_DIFFERS);
    /// assert_eq!(extension.enrol(&[1, 2, 3]).unwrap_err().number, sculldrip::Refusal::NO_ROOT_OF_TRUST);
    /// # Ok::<(), sculldrip::Refusal>(())
    /// ```
    pub fn enrol(&self, expected: &[u8]) -> Result<(), Refusal> {
        self.record.enrol(expected)
    }

    /// The one encoding of what was read, which is the bytes that were read.
    ///
    /// ```
    /// # let extension = sculldrip::Extension::read(&sculldrip::SAMPLE)?;
    /// assert_eq!(extension.write()?, sculldrip::SAMPLE);
    /// # Ok::<(), sculldrip::Refusal>(())
    /// ```
    pub fn write(&self) -> Result<Vec<u8>, Refusal> {
        self.record.write()
    }

    /// A record that says the same, to be changed and written.
    ///
    /// ```
    /// # let extension = sculldrip::Extension::read(&sculldrip::SAMPLE)?;
    /// let other = extension.to_record().with_challenge(&[9, 9, 9]).write()?;
    /// assert_eq!(sculldrip::Extension::read(&other)?.challenge(), [9, 9, 9]);
    /// # Ok::<(), sculldrip::Refusal>(())
    /// ```
    pub fn to_record(&self) -> Record {
        self.record.clone()
    }
}

/// The listing: a line for each thing that the extension says.
impl fmt::Display for Extension {
    fn fmt(&self, formatter: &mut fmt::Formatter<'_>) -> fmt::Result {
        formatter.write_str(&calls::list(self.bytes()))
    }
}

impl fmt::Debug for Extension {
    fn fmt(&self, formatter: &mut fmt::Formatter<'_>) -> fmt::Result {
        write!(formatter, "Extension(\n{self})")
    }
}
