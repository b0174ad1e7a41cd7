//! A record that a caller sets up.

use std::fmt;

use crate::calls;
use crate::field::{FlagField, NumberField, OctetField, SetField};
use crate::image::{self, Image, Part, RootWords};
use crate::list::{Fields, List, RootOfTrust};
use crate::refusal::Refusal;
use crate::request::{Permit, Request};

/// A security level.
///
/// ```
/// # let extension = sculldrip::Extension::read(&sculldrip::SAMPLE)?;
/// assert_eq!(extension.level(), sculldrip::Level::TrustedEnvironment);
/// # Ok::<(), sculldrip::Refusal>(())
/// ```
#[derive(Clone, Copy, Debug, PartialEq, Eq, PartialOrd, Ord, Hash)]
pub enum Level {
    /// 0: no secure hardware.
    Software,
    /// 1: a trusted execution environment.
    TrustedEnvironment,
    /// 2: a StrongBox, known from version 3.
    StrongBox,
}

impl Level {
    fn of(word: u64) -> Level {
        match word {
            0 => Level::Software,
            1 => Level::TrustedEnvironment,
            2 => Level::StrongBox,
            _ => unreachable!("neither a read nor a caller leaves another level"),
        }
    }
}

/// What an extension is to say. Anything can be set; writing and ruling refuse what is not well-shaped with 20.
///
/// ```
/// use sculldrip::{FlagField, Level, List, NumberField, Record, SetField};
///
/// let written = Record::new(3)
///     .with_level(Level::TrustedEnvironment)
///     .with_keymint(4, Level::TrustedEnvironment)
///     .with_challenge(&[1, 2, 3])
///     .with_number(List::Software, NumberField::Active, 1609459200000)
///     .with_set(List::Hardware, SetField::Purpose, &[2])
///     .with_number(List::Hardware, NumberField::Algorithm, 3)
///     .with_set(List::Hardware, SetField::Digest, &[4])
///     .with_set(List::Hardware, SetField::Padding, &[1])
///     .with_flag(List::Hardware, FlagField::NoAuthRequired)
///     .with_number(List::Hardware, NumberField::Origin, 0)
///     .write()?;
/// assert_eq!(written, sculldrip::SAMPLE);
/// # Ok::<(), sculldrip::Refusal>(())
/// ```
///
/// Two records are equal where they say the same, wherever their octets lie.
#[derive(Clone)]
pub struct Record {
    pub(crate) image: Image,
    /// Where the octet parts lie; it only grows.
    pub(crate) buffer: Vec<u8>,
}

impl Record {
    /// A record of a version with Software levels, KeyMint version 0, empty octets and empty lists.
    ///
    /// ```
    /// # use sculldrip::{Record, Refusal};
    /// assert_eq!(Record::new(5).write().unwrap_err().number, Refusal::ILL_SHAPED); // there is no version 5
    /// ```
    pub fn new(version: u32) -> Record {
        let mut image = Image::new();
        image.words[image::VERSION] = u64::from(version);
        Record { image, buffer: Vec::new() }
    }

    pub(crate) fn of(image: Image, buffer: Vec<u8>) -> Record {
        Record { image, buffer }
    }

    /// The attestation version.
    ///
    /// ```
    /// assert_eq!(sculldrip::Record::new(3).version(), 3);
    /// ```
    pub fn version(&self) -> u32 {
        self.narrow(image::VERSION)
    }

    /// The security level of the attestation.
    ///
    /// ```
    /// assert_eq!(sculldrip::Record::new(3).level(), sculldrip::Level::Software);
    /// ```
    pub fn level(&self) -> Level {
        Level::of(self.image.words[image::LEVEL])
    }

    /// The version of KeyMint, or of Keymaster before version 100.
    ///
    /// ```
    /// assert_eq!(sculldrip::Record::new(3).keymint_version(), 0);
    /// ```
    pub fn keymint_version(&self) -> u32 {
        self.narrow(image::KEYMINT_VERSION)
    }

    /// The security level of KeyMint.
    ///
    /// ```
    /// assert_eq!(sculldrip::Record::new(3).keymint_level(), sculldrip::Level::Software);
    /// ```
    pub fn keymint_level(&self) -> Level {
        Level::of(self.image.words[image::KEYMINT_LEVEL])
    }

    /// The challenge.
    ///
    /// ```
    /// assert_eq!(sculldrip::Record::new(3).with_challenge(b"panel").challenge(), b"panel");
    /// ```
    pub fn challenge(&self) -> &[u8] {
        self.image.part(image::CHALLENGE).of(&self.buffer)
    }

    /// The uniqueId; mostly empty.
    ///
    /// ```
    /// assert!(sculldrip::Record::new(3).unique_id().is_empty());
    /// ```
    pub fn unique_id(&self) -> &[u8] {
        self.image.part(image::UNIQUE_ID).of(&self.buffer)
    }

    /// One of the two lists.
    ///
    /// ```
    /// # use sculldrip::{List, NumberField, Record};
    /// let record = Record::new(3).with_number(List::Hardware, NumberField::Algorithm, 3);
    /// assert_eq!(record.list(List::Hardware).algorithm(), Some(3));
    /// ```
    pub fn list(&self, list: List) -> Fields<'_> {
        Fields { image: &self.image, bytes: &self.buffer, list }
    }

    /// Sets the security level of the attestation.
    ///
    /// ```
    /// # use sculldrip::{Extension, Level, Record};
    /// let written = Record::new(3).with_level(Level::StrongBox).write()?;
    /// assert_eq!(Extension::read(&written)?.level(), Level::StrongBox);
    /// # Ok::<(), sculldrip::Refusal>(())
    /// ```
    pub fn with_level(mut self, level: Level) -> Record {
        self.image.words[image::LEVEL] = level as u64;
        self
    }

    /// Sets the version and the security level of KeyMint.
    ///
    /// ```
    /// # use sculldrip::{Extension, Level, Record};
    /// let written = Record::new(100).with_keymint(100, Level::StrongBox).write()?;
    /// assert_eq!(Extension::read(&written)?.keymint_version(), 100);
    /// # Ok::<(), sculldrip::Refusal>(())
    /// ```
    pub fn with_keymint(mut self, version: u32, level: Level) -> Record {
        self.image.words[image::KEYMINT_VERSION] = u64::from(version);
        self.image.words[image::KEYMINT_LEVEL] = level as u64;
        self
    }

    /// Sets the challenge.
    ///
    /// ```
    /// # use sculldrip::{Extension, Record};
    /// let written = Record::new(3).with_challenge(b"panel").write()?;
    /// assert_eq!(Extension::read(&written)?.challenge(), b"panel");
    /// # Ok::<(), sculldrip::Refusal>(())
    /// ```
    pub fn with_challenge(mut self, octets: &[u8]) -> Record {
        let part = self.keep(octets);
        self.image.set_part(image::CHALLENGE, part);
        self
    }

    /// Sets the uniqueId.
    ///
    /// ```
    /// # use sculldrip::{Extension, Record};
    /// let written = Record::new(3).with_unique_id(b"panel").write()?;
    /// assert_eq!(Extension::read(&written)?.unique_id(), b"panel");
    /// # Ok::<(), sculldrip::Refusal>(())
    /// ```
    pub fn with_unique_id(mut self, octets: &[u8]) -> Record {
        let part = self.keep(octets);
        self.image.set_part(image::UNIQUE_ID, part);
        self
    }

    /// Adds a set, or changes it. It is well-shaped with at most 16 members, each above the one before.
    ///
    /// ```
    /// # use sculldrip::{List, Record, SetField};
    /// assert!(Record::new(3).with_set(List::Hardware, SetField::Purpose, &[1, 2]).write().is_ok());
    /// assert!(Record::new(3).with_set(List::Hardware, SetField::Purpose, &[2, 1]).write().is_err());
    /// ```
    pub fn with_set(mut self, list: List, field: SetField, members: &[u32]) -> Record {
        self.image.set_members(list, field, members);
        self
    }

    /// Adds a number, or changes it.
    ///
    /// ```
    /// # use sculldrip::{List, NumberField, Record};
    /// let too_large = Record::new(3).with_number(List::Hardware, NumberField::KeySize, 1 << 32);
    /// assert_eq!(too_large.write().unwrap_err().number, sculldrip::Refusal::ILL_SHAPED);
    /// ```
    pub fn with_number(mut self, list: List, field: NumberField, number: u64) -> Record {
        self.image.set_number(list, field, number);
        self
    }

    /// Adds a field that holds nothing.
    ///
    /// ```
    /// # use sculldrip::{FlagField, List, Record};
    /// let too_early = Record::new(3).with_flag(List::Hardware, FlagField::EarlyBootOnly);
    /// assert_eq!(too_early.write().unwrap_err().number, sculldrip::Refusal::ILL_SHAPED); // from version 4
    /// ```
    pub fn with_flag(mut self, list: List, field: FlagField) -> Record {
        self.image.set_flag(list, field);
        self
    }

    /// Adds octets, or changes them.
    ///
    /// ```
    /// # use sculldrip::{Extension, List, OctetField, Record};
    /// let written = Record::new(3).with_octets(List::Software, OctetField::IdBrand, b"brand").write()?;
    /// assert_eq!(Extension::read(&written)?.list(List::Software).octets(OctetField::IdBrand), Some(&b"brand"[..]));
    /// # Ok::<(), sculldrip::Refusal>(())
    /// ```
    pub fn with_octets(mut self, list: List, field: OctetField, octets: &[u8]) -> Record {
        let part = self.keep(octets);
        self.image.set_octets(list, field, part);
        self
    }

    /// Adds a root of trust, or changes it. It is well-shaped with a hash exactly from version 3.
    ///
    /// ```
    /// # use sculldrip::{BootState, Extension, List, Record, RootOfTrust};
    /// let root = RootOfTrust { key: b"key", locked: true, state: BootState::Verified, hash: Some(b"hash") };
    /// let written = Record::new(3).with_root_of_trust(List::Hardware, root).write()?;
    /// assert_eq!(Extension::read(&written)?.list(List::Hardware).root_of_trust(), Some(root));
    /// # Ok::<(), sculldrip::Refusal>(())
    /// ```
    pub fn with_root_of_trust(mut self, list: List, root: RootOfTrust<'_>) -> Record {
        let RootOfTrust { key, locked, state, hash } = root;
        let key = self.keep(key);
        let hash = hash.map(|octets| self.keep(octets));
        self.image.set_root_of_trust(list, RootWords { key, locked, state: state as u64, hash });
        self
    }

    /// Takes the field with this number out of a list, if it is there.
    ///
    /// ```
    /// # use sculldrip::{Extension, List};
    /// let record = Extension::read(&sculldrip::SAMPLE)?.to_record().without(List::Software, 400);
    /// assert_eq!(record.list(List::Software).active(), None);
    /// # Ok::<(), sculldrip::Refusal>(())
    /// ```
    pub fn without(mut self, list: List, number: u16) -> Record {
        self.image.remove(list, number);
        self
    }

    /// The one encoding. Refusals 20 and 22.
    ///
    /// ```
    /// let challenge = [0; 8192];
    /// let too_long = sculldrip::Record::new(3).with_challenge(&challenge);
    /// assert_eq!(too_long.write().unwrap_err().number, sculldrip::Refusal::ENCODING_TOO_LONG);
    /// ```
    pub fn write(&self) -> Result<Vec<u8>, Refusal> {
        calls::write(&self.image, &self.buffer)
    }

    /// Rules on a use. Refusals 20 and 30 to 46.
    ///
    /// ```
    /// # use sculldrip::{Clock, Purpose, Record, Request};
    /// let request = Request::new(Clock { now: 1609459200000, floor: 1600000000000 }).purpose(Purpose::SIGN);
    /// assert_eq!(Record::new(3).rule(&request).unwrap_err().number, sculldrip::Refusal::PURPOSE_NOT_ALLOWED);
    /// ```
    pub fn rule(&self, request: &Request) -> Result<Permit, Refusal> {
        calls::rule(&self.image, request)
    }

    /// Rules on taking on the key. Refusals 20 and 50 to 55.
    ///
    /// ```
    /// # use sculldrip::Record;
    /// assert_eq!(Record::new(3).with_challenge(&[7]).enrol(&[7]).unwrap_err().number, sculldrip::Refusal::SOFTWARE_LEVEL);
    /// ```
    pub fn enrol(&self, expected: &[u8]) -> Result<(), Refusal> {
        calls::enrol(&self.image, &self.buffer, expected)
    }

    fn narrow(&self, word: usize) -> u32 {
        u32::try_from(self.image.words[word]).expect("a version has 32 bits")
    }

    /// A set with more than 16 members is told apart by their count too.
    fn counts(&self) -> Vec<Option<u64>> {
        let lists = [List::Software, List::Hardware];
        lists.iter().flat_map(|&list| SetField::ALL.iter().map(move |&set| self.image.count(list, set))).collect()
    }

    fn keep(&mut self, octets: &[u8]) -> Part {
        let part = Part { start: self.buffer.len() as u64, length: octets.len() as u64 };
        self.buffer.extend_from_slice(octets);
        part
    }
}

impl PartialEq for Record {
    fn eq(&self, other: &Record) -> bool {
        let fixed = |record: &Record| (record.version(), record.level(), record.keymint_version(), record.keymint_level());
        let same_list = |list: List| self.list(list).all() == other.list(list).all();
        fixed(self) == fixed(other)
            && (self.challenge(), self.unique_id()) == (other.challenge(), other.unique_id())
            && same_list(List::Software)
            && same_list(List::Hardware)
            && self.counts() == other.counts()
    }
}

impl Eq for Record {}

impl fmt::Debug for Record {
    fn fmt(&self, formatter: &mut fmt::Formatter<'_>) -> fmt::Result {
        formatter
            .debug_struct("Record")
            .field("version", &self.version())
            .field("level", &self.level())
            .field("keymint_version", &self.keymint_version())
            .field("keymint_level", &self.keymint_level())
            .field("challenge", &self.challenge())
            .field("unique_id", &self.unique_id())
            .field("software", &self.list(List::Software))
            .field("hardware", &self.list(List::Hardware))
            .finish()
    }
}

#[cfg(test)]
mod tests {
    use super::*;

    #[test]
    fn records_are_equal_where_they_say_the_same() {
        let apart = Record::new(3).with_challenge(b"x").with_unique_id(b"y");
        let other = Record::new(3).with_unique_id(b"y").with_challenge(b"x");
        assert_eq!(apart, other);
        assert_ne!(apart, other.clone().with_challenge(b"z"));
        let dated = other.clone().with_number(List::Software, NumberField::Active, 0);
        assert_ne!(other, dated);
        assert_eq!(other, dated.without(List::Software, 400));
    }

    #[test]
    fn an_empty_set_is_not_an_absent_one_and_too_many_members_are_not_fewer() {
        let with = |members: &[u32]| Record::new(3).with_set(List::Hardware, SetField::Digest, members);
        let members: Vec<u32> = (0..18).collect();
        assert_ne!(with(&[]), Record::new(3));
        assert_ne!(with(&members[..17]), with(&members[..16]));
        assert_ne!(with(&members[..18]), with(&members[..17]));
        assert_eq!(with(&members[..17]).write().unwrap_err().number, Refusal::ILL_SHAPED);
    }

    #[test]
    fn a_record_says_what_it_holds() {
        let record = Record::new(3).with_number(List::Software, NumberField::Active, 7).with_challenge(&[1]);
        let said = format!("{record:?}");
        assert!(said.contains("version: 3") && said.contains("challenge: [1]") && said.contains("400: Number(7)"), "{said}");
    }
}
