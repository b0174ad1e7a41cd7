//! What the two lists say.

use std::fmt;

use crate::field::{FlagField, NumberField, OctetField, SetField, ROOT_OF_TRUST};
use crate::image::{Image, Part, RootWords};

/// Which of the two authorization lists.
///
/// ```
/// # use sculldrip::{Extension, List};
/// # let extension = Extension::read(&sculldrip::SAMPLE)?;
/// assert_eq!(extension.list(List::Software).active(), Some(1609459200000));
/// assert_eq!(extension.list(List::Hardware).active(), None);
/// # Ok::<(), sculldrip::Refusal>(())
/// ```
#[derive(Clone, Copy, Debug, PartialEq, Eq, Hash)]
pub enum List {
    /// What the platform enforces.
    Software,
    /// What the secure hardware enforces.
    Hardware,
}

/// The state of a verified boot.
///
/// ```
/// assert_eq!(sculldrip::BootState::Verified as u64, 0);
/// ```
#[derive(Clone, Copy, Debug, PartialEq, Eq, Hash)]
pub enum BootState {
    /// 0: a chain of trust from the hardware.
    Verified,
    /// 1: a chain of trust from a key of the user.
    SelfSigned,
    /// 2: not verified.
    Unverified,
    /// 3: verification failed.
    Failed,
}

impl BootState {
    fn of(word: u64) -> BootState {
        match word {
            0 => BootState::Verified,
            1 => BootState::SelfSigned,
            2 => BootState::Unverified,
            3 => BootState::Failed,
            _ => unreachable!("neither a read nor a caller leaves another state"),
        }
    }
}

/// What a list says about the boot of the device.
///
/// ```
/// # let extension = sculldrip::Extension::read(&sculldrip::SAMPLE)?;
/// assert_eq!(extension.list(sculldrip::List::Hardware).root_of_trust(), None);
/// # Ok::<(), sculldrip::Refusal>(())
/// ```
#[derive(Clone, Copy, Debug, PartialEq, Eq, Hash)]
pub struct RootOfTrust<'a> {
    /// The verified boot key.
    pub key: &'a [u8],
    /// Whether the device's boot loader is locked.
    pub locked: bool,
    /// The state of the verified boot.
    pub state: BootState,
    /// The verified boot hash, from version 3.
    pub hash: Option<&'a [u8]>,
}

/// What a field holds.
///
/// ```
/// # use sculldrip::{List, Value};
/// # let extension = sculldrip::Extension::read(&sculldrip::SAMPLE)?;
/// assert!(extension.list(List::Hardware).all().contains(&(503, Value::Flag)));
/// # Ok::<(), sculldrip::Refusal>(())
/// ```
#[derive(Clone, Debug, PartialEq, Eq, Hash)]
pub enum Value<'a> {
    /// The members of a set.
    Set(Vec<u32>),
    /// A number.
    Number(u64),
    /// Nothing: that the field is there says all.
    Flag,
    /// Octets.
    Octets(&'a [u8]),
    /// The boot of the device.
    RootOfTrust(RootOfTrust<'a>),
}

/// The fields of one list.
///
/// ```
/// # use sculldrip::{Extension, List};
/// # let extension = Extension::read(&sculldrip::SAMPLE)?;
/// let hardware = extension.list(List::Hardware);
/// assert_eq!((hardware.purposes(), hardware.digests(), hardware.paddings()), (Some(vec![2]), Some(vec![4]), Some(vec![1])));
/// assert!(hardware.no_auth_required());
/// assert_eq!(hardware.origin(), Some(0));
/// # Ok::<(), sculldrip::Refusal>(())
/// ```
#[derive(Clone, Copy)]
pub struct Fields<'a> {
    pub(crate) image: &'a Image,
    /// Where the octets lie: all of them do.
    pub(crate) bytes: &'a [u8],
    pub(crate) list: List,
}

macro_rules! getters {
    ($($(#[$doc:meta])* $method:ident: $kind:ident($field:path) -> $answer:ty,)*) => {
        $($(#[$doc])*
        #[doc = concat!(
            "\n\n```\n# let extension = sculldrip::Extension::read(&sculldrip::SAMPLE)?;\n",
            "let value: ", stringify!($answer), " = extension.list(sculldrip::List::Hardware).", stringify!($method), "();\n",
            "# let _ = value;\n# Ok::<(), sculldrip::Refusal>(())\n```",
        )]
        pub fn $method(self) -> $answer {
            self.$kind($field)
        })*
    };
}

impl<'a> Fields<'a> {
    /// The members of a set, if the list has it; a set without members is not an absent one. Of a set with more than 16, which
    /// is refused wherever it is used, the first 16.
    ///
    /// ```
    /// # use sculldrip::{FlagField, List, NumberField, OctetField, SetField};
    /// # let extension = sculldrip::Extension::read(&sculldrip::SAMPLE)?;
    /// assert_eq!(extension.list(List::Hardware).set(SetField::Padding), Some(vec![1]));
    /// # Ok::<(), sculldrip::Refusal>(())
    /// ```
    pub fn set(self, field: SetField) -> Option<Vec<u32>> {
        let narrow = |&member: &u64| u32::try_from(member).expect("a member has 32 bits");
        let members = self.image.members(self.list, field)?;
        Some(members.iter().map(narrow).collect())
    }

    /// The number of a field, if the list has it.
    ///
    /// ```
    /// # use sculldrip::{FlagField, List, NumberField, OctetField, SetField};
    /// # let extension = sculldrip::Extension::read(&sculldrip::SAMPLE)?;
    /// assert_eq!(extension.list(List::Hardware).number(NumberField::Origin), Some(0));
    /// # Ok::<(), sculldrip::Refusal>(())
    /// ```
    pub fn number(self, field: NumberField) -> Option<u64> {
        self.image.number(self.list, field)
    }

    /// Whether the list has a field that holds nothing.
    ///
    /// ```
    /// # use sculldrip::{FlagField, List, NumberField, OctetField, SetField};
    /// # let extension = sculldrip::Extension::read(&sculldrip::SAMPLE)?;
    /// assert!(!extension.list(List::Hardware).flag(FlagField::EarlyBootOnly));
    /// # Ok::<(), sculldrip::Refusal>(())
    /// ```
    pub fn flag(self, field: FlagField) -> bool {
        self.image.flag(self.list, field)
    }

    /// The octets of a field, if the list has it.
    ///
    /// ```
    /// # use sculldrip::{FlagField, List, NumberField, OctetField, SetField};
    /// # let extension = sculldrip::Extension::read(&sculldrip::SAMPLE)?;
    /// assert_eq!(extension.list(List::Hardware).octets(OctetField::IdImei), None);
    /// # Ok::<(), sculldrip::Refusal>(())
    /// ```
    pub fn octets(self, field: OctetField) -> Option<&'a [u8]> {
        self.image.octets(self.list, field).map(|part| part.of(self.bytes))
    }

    /// The root of trust, if the list has it.
    ///
    /// ```
    /// # use sculldrip::{FlagField, List, NumberField, OctetField, SetField};
    /// # let extension = sculldrip::Extension::read(&sculldrip::SAMPLE)?;
    /// assert!(extension.list(List::Hardware).root_of_trust().is_none());
    /// # Ok::<(), sculldrip::Refusal>(())
    /// ```
    pub fn root_of_trust(self) -> Option<RootOfTrust<'a>> {
        let RootWords { key, locked, state, hash } = self.image.root_of_trust(self.list)?;
        let octets = |part: Part| part.of(self.bytes);
        Some(RootOfTrust { key: octets(key), locked, state: BootState::of(state), hash: hash.map(octets) })
    }

    /// All fields of the list, by ascending number.
    ///
    /// ```
    /// # use sculldrip::{List, Value};
    /// # let extension = sculldrip::Extension::read(&sculldrip::SAMPLE)?;
    /// assert_eq!(extension.list(List::Software).all(), [(400, Value::Number(1609459200000))]);
    /// # Ok::<(), sculldrip::Refusal>(())
    /// ```
    pub fn all(self) -> Vec<(u16, Value<'a>)> {
        let mut all: Vec<(u16, Value<'a>)> = Vec::new();
        let mut add = |number: u16, value: Option<Value<'a>>| all.extend(value.map(|value| (number, value)));
        for &field in SetField::ALL {
            add(field.number(), self.set(field).map(Value::Set));
        }
        for &field in NumberField::ALL {
            add(field.number(), self.number(field).map(Value::Number));
        }
        for &field in FlagField::ALL {
            add(field.number(), self.flag(field).then_some(Value::Flag));
        }
        for &field in OctetField::ALL {
            add(field.number(), self.octets(field).map(Value::Octets));
        }
        add(ROOT_OF_TRUST, self.root_of_trust().map(Value::RootOfTrust));
        all.sort_by_key(|&(number, _)| number);
        all
    }

    getters! {
        /// 1: what the key may be used for.
        purposes: set(SetField::Purpose) -> Option<Vec<u32>>,
        /// 5: the digests that it may be used with.
        digests: set(SetField::Digest) -> Option<Vec<u32>>,
        /// 6: the paddings that it may be used with.
        paddings: set(SetField::Padding) -> Option<Vec<u32>>,
        /// 203: the digests of its mask generation.
        mgf_digests: set(SetField::MgfDigest) -> Option<Vec<u32>>,
        /// 2: its algorithm.
        algorithm: number(NumberField::Algorithm) -> Option<u64>,
        /// 3: its size in bits.
        key_size: number(NumberField::KeySize) -> Option<u64>,
        /// 10: its curve.
        ec_curve: number(NumberField::EcCurve) -> Option<u64>,
        /// 200: its public exponent.
        rsa_public_exponent: number(NumberField::RsaPublicExponent) -> Option<u64>,
        /// 400: when it becomes active, in ms since 1970.
        active: number(NumberField::Active) -> Option<u64>,
        /// 401: until when it may sign, in ms since 1970.
        origination_expiry: number(NumberField::OriginationExpiry) -> Option<u64>,
        /// 402: until when it may decrypt, in ms since 1970.
        usage_expiry: number(NumberField::UsageExpiry) -> Option<u64>,
        /// 405: how often it may be used.
        use_limit: number(NumberField::UseLimit) -> Option<u64>,
        /// 504: the types of authentication, one of which it asks for.
        auth_type: number(NumberField::AuthType) -> Option<u64>,
        /// 505: for how many seconds an authentication counts.
        auth_timeout: number(NumberField::AuthTimeout) -> Option<u64>,
        /// 701: when it was made, in ms since 1970.
        creation: number(NumberField::Creation) -> Option<u64>,
        /// 702: where it was made; 0 is in the secure hardware.
        origin: number(NumberField::Origin) -> Option<u64>,
        /// 705: the version of the system.
        os_version: number(NumberField::OsVersion) -> Option<u64>,
        /// 706: the patch level of the system.
        os_patch_level: number(NumberField::OsPatchLevel) -> Option<u64>,
        /// 718: the patch level of the vendor's part.
        vendor_patch_level: number(NumberField::VendorPatchLevel) -> Option<u64>,
        /// 719: the patch level of the boot.
        boot_patch_level: number(NumberField::BootPatchLevel) -> Option<u64>,
        /// 305: whether it is for early boot alone.
        early_boot_only: flag(FlagField::EarlyBootOnly) -> bool,
        /// 503: whether no authentication is required.
        no_auth_required: flag(FlagField::NoAuthRequired) -> bool,
        /// 507: whether the user must be present.
        presence_required: flag(FlagField::PresenceRequired) -> bool,
        /// 508: whether the user must confirm.
        confirmation_required: flag(FlagField::ConfirmationRequired) -> bool,
        /// 509: whether the device must be unlocked.
        unlocked_device_required: flag(FlagField::UnlockedDeviceRequired) -> bool,
    }
}

impl fmt::Debug for Fields<'_> {
    fn fmt(&self, formatter: &mut fmt::Formatter<'_>) -> fmt::Result {
        formatter.debug_map().entries(self.all()).finish()
    }
}
