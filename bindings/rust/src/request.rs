//! What a use asks for, and what a permit says.

use crate::sys::{PERMIT_WORDS, REQUEST_WORDS};

macro_rules! codes {
    ($(#[$about:meta])* $name:ident { $($(#[$doc:meta])* $code:ident = $number:literal,)* }) => {
        $(#[$about])*
        #[derive(Clone, Copy, Debug, PartialEq, Eq, Hash)]
        pub struct $name(
            /// The number that an extension has for it.
            pub u64,
        );

        impl $name {
            $($(#[$doc])* pub const $code: $name = $name($number);)*
        }
    };
}

/// No purpose, digest or padding has this number, and no limit of uses is above it.
const UNSAID: u64 = u64::MAX;

macro_rules! setters {
    ($($(#[$doc:meta])* $name:ident: $kind:ty = $example:literal,)*) => {
        $($(#[$doc])*
        #[doc = concat!(
            "\n\n```\n# let clock = sculldrip::Clock { now: 1609459200000, floor: 1600000000000 };\n",
            "let request = sculldrip::Request::new(clock).", stringify!($name), "(", $example, ");\n",
            "# let _ = request;\n```",
        )]
        pub fn $name(mut self, $name: $kind) -> Request {
            self.$name = $name;
            self
        })*
    };
}

codes! {
    /// What a key is used for; any number can be asked for.
    ///
    /// ```
    /// assert_eq!(sculldrip::Purpose::SIGN, sculldrip::Purpose(2));
    /// ```
    Purpose {
        /// Decrypting.
        DECRYPT = 1,
        /// Signing.
        SIGN = 2,
        /// Agreeing on a key.
        AGREE_KEY = 6,
        /// Attesting another key.
        ATTEST_KEY = 7,
    }
}

codes! {
    /// A digest; any number can be asked for.
    ///
    /// ```
    /// assert_eq!(sculldrip::Digest::SHA_2_256, sculldrip::Digest(4));
    /// ```
    Digest {
        /// No digest.
        NONE = 0,
        /// MD5.
        MD5 = 1,
        /// SHA-1.
        SHA1 = 2,
        /// SHA-224.
        SHA_2_224 = 3,
        /// SHA-256.
        SHA_2_256 = 4,
        /// SHA-384.
        SHA_2_384 = 5,
        /// SHA-512.
        SHA_2_512 = 6,
    }
}

codes! {
    /// A padding; any number can be asked for.
    ///
    /// ```
    /// assert_eq!(sculldrip::Padding::NONE, sculldrip::Padding(1));
    /// ```
    Padding {
        /// No padding.
        NONE = 1,
        /// RSA OAEP.
        RSA_OAEP = 2,
        /// RSA PSS.
        RSA_PSS = 3,
        /// RSA PKCS#1 v1.5 encryption.
        RSA_PKCS1_ENCRYPT = 4,
        /// RSA PKCS#1 v1.5 signatures.
        RSA_PKCS1_SIGN = 5,
    }
}

/// The time that a use is asked for at, in ms since 1970.
///
/// ```
/// let dead_battery = sculldrip::Clock { now: 0, floor: 1600000000000 };
/// # let _ = dead_battery;
/// ```
#[derive(Clone, Copy, Debug, PartialEq, Eq, Hash)]
pub struct Clock {
    /// What the device's clock says.
    pub now: u64,
    /// A moment that is known to have passed, such as that of the panel's fitting: a clock before it is wrong.
    pub floor: u64,
}

/// What shows that a user was authenticated.
///
/// ```
/// let token = sculldrip::Token { type_bits: 2, uptime: 60_000, challenge: 0 };
/// # let _ = token;
/// ```
#[derive(Clone, Copy, Debug, PartialEq, Eq, Hash)]
pub struct Token {
    /// The types of authentication, as bits.
    pub type_bits: u64,
    /// The uptime of the authentication, in ms.
    pub uptime: u64,
    /// The operation that it is for.
    pub challenge: u64,
}

/// What a token is held against.
///
/// ```
/// let operation = sculldrip::Operation { uptime: 61_000, handle: 7 };
/// # let _ = operation;
/// ```
#[derive(Clone, Copy, Debug, PartialEq, Eq, Hash)]
pub struct Operation {
    /// How long the device is up, in ms.
    pub uptime: u64,
    /// The handle of the operation.
    pub handle: u64,
}

/// A use that is to be ruled on. Every value can be anything.
///
/// It is made with a clock and its floor, and is strict in all else until it is said otherwise: no purpose, digest or padding
/// that there is, no token, the device locked, the user neither present nor confirming, early boot over, and more uses than
/// any limit allows. So what was forgotten is refused and not permitted.
///
/// ```
/// use sculldrip::{Clock, Digest, Extension, Padding, Purpose, Request};
///
/// let extension = Extension::read(&sculldrip::SAMPLE)?;
/// let request = Request::new(Clock { now: 1609459199999, floor: 1600000000000 })
///     .purpose(Purpose::SIGN)
///     .digest(Digest::SHA_2_256)
///     .padding(Padding::NONE);
/// assert_eq!(extension.rule(&request).unwrap_err().number, sculldrip::Refusal::NOT_YET_ACTIVE); // a millisecond too early
/// # Ok::<(), sculldrip::Refusal>(())
/// ```
#[derive(Clone, Copy, Debug, PartialEq, Eq, Hash)]
pub struct Request {
    purpose: Purpose,
    digest: Digest,
    padding: Padding,
    clock: Clock,
    token: Option<(Token, Operation)>,
    device_locked: bool,
    user_present: bool,
    user_confirmed: bool,
    early_boot_over: bool,
    uses_so_far: u64,
}

impl Request {
    /// A request that nothing is said of but its time.
    ///
    /// ```
    /// # use sculldrip::{Clock, Extension, Request};
    /// # let extension = Extension::read(&sculldrip::SAMPLE)?;
    /// let request = Request::new(Clock { now: 1609459200000, floor: 1600000000000 });
    /// assert_eq!(extension.rule(&request).unwrap_err().number, sculldrip::Refusal::PURPOSE_UNKNOWN);
    /// # Ok::<(), sculldrip::Refusal>(())
    /// ```
    pub fn new(clock: Clock) -> Request {
        Request {
            purpose: Purpose(UNSAID),
            digest: Digest(UNSAID),
            padding: Padding(UNSAID),
            clock,
            token: None,
            device_locked: true,
            user_present: false,
            user_confirmed: false,
            early_boot_over: true,
            uses_so_far: UNSAID,
        }
    }

    setters! {
        /// What the key is to be used for.
        purpose: Purpose = "sculldrip::Purpose::SIGN",
        /// The digest, where the purpose takes one.
        digest: Digest = "sculldrip::Digest::SHA_2_256",
        /// The padding, where the purpose takes one.
        padding: Padding = "sculldrip::Padding::NONE",
        /// Whether the device is locked.
        device_locked: bool = "false",
        /// Whether the user is present.
        user_present: bool = "true",
        /// Whether the user has confirmed.
        user_confirmed: bool = "true",
        /// Whether early boot is over.
        early_boot_over: bool = "false",
        /// How often the key has been used.
        uses_so_far: u64 = "0",
    }

    /// The same at another time.
    ///
    /// ```
    /// # use sculldrip::{Clock, Request};
    /// # let request = Request::new(Clock { now: 1609459200000, floor: 1600000000000 });
    /// let dead_battery = request.clock(Clock { now: 0, floor: 1600000000000 });
    /// assert_ne!(dead_battery, request);
    /// ```
    pub fn clock(mut self, clock: Clock) -> Request {
        self.clock = clock;
        self
    }

    /// What shows that a user was authenticated, and the operation that it must be for or recent in.
    ///
    /// ```
    /// # use sculldrip::{Clock, Operation, Request, Token};
    /// # let request = Request::new(Clock { now: 1609459200000, floor: 1600000000000 });
    /// let fingerprint = Token { type_bits: 2, uptime: 60_000, challenge: 0 };
    /// let request = request.token(fingerprint, Operation { uptime: 61_000, handle: 7 });
    /// # let _ = request;
    /// ```
    pub fn token(mut self, token: Token, operation: Operation) -> Request {
        self.token = Some((token, operation));
        self
    }

    pub(crate) fn words(&self) -> [u64; REQUEST_WORDS] {
        // Without a token neither it nor the operation is looked at.
        let nothing = (Token { type_bits: 0, uptime: 0, challenge: 0 }, Operation { uptime: 0, handle: 0 });
        let (token, operation) = self.token.unwrap_or(nothing);
        [
            self.purpose.0,
            self.digest.0,
            self.padding.0,
            self.clock.now,
            self.clock.floor,
            operation.uptime,
            operation.handle,
            u64::from(self.token.is_some()),
            token.type_bits,
            token.uptime,
            token.challenge,
            u64::from(self.device_locked),
            u64::from(self.user_present),
            u64::from(self.user_confirmed),
            u64::from(self.early_boot_over),
            self.uses_so_far,
        ]
    }
}

/// A tag that a ruling looks at; its value is the bit that it has in a mark.
///
/// ```
/// assert_eq!(sculldrip::Rule::NoAuthRequired as u16, 15);
/// ```
#[derive(Clone, Copy, Debug, PartialEq, Eq, Hash)]
#[repr(u16)]
pub enum Rule {
    /// 1, purpose.
    Purpose,
    /// 2, algorithm.
    Algorithm,
    /// 6, padding.
    Padding,
    /// 5, digest.
    Digest,
    /// 3, keySize.
    KeySize,
    /// 400, activeDateTime.
    Active,
    /// 401, originationExpireDateTime.
    OriginationExpiry,
    /// 402, usageExpireDateTime.
    UsageExpiry,
    /// 504, userAuthType.
    AuthType,
    /// 505, authTimeout.
    AuthTimeout,
    /// 509, unlockedDeviceRequired.
    UnlockedDeviceRequired,
    /// 507, trustedUserPresenceRequired.
    PresenceRequired,
    /// 508, trustedConfirmationRequired.
    ConfirmationRequired,
    /// 305, earlyBootOnly.
    EarlyBootOnly,
    /// 405, usageCountLimit.
    UseLimit,
    /// 503, noAuthRequired.
    NoAuthRequired,
}

/// Which tags of one list a ruling has looked at.
///
/// ```
/// # use sculldrip::{Clock, Digest, Extension, Padding, Permit, Purpose, Request, Rule};
/// # let extension = Extension::read(&sculldrip::SAMPLE)?;
/// # let request = Request::new(Clock { now: 1609459200000, floor: 1600000000000 })
/// #     .purpose(Purpose::SIGN).digest(Digest::SHA_2_256).padding(Padding::NONE);
/// let Permit { software, .. } = extension.rule(&request)?;
/// assert!(software.has(Rule::Active));
/// assert_eq!((software.bits, software.count), (32, 1));
/// # Ok::<(), sculldrip::Refusal>(())
/// ```
#[derive(Clone, Copy, Debug, PartialEq, Eq, Hash)]
pub struct Mark {
    /// A bit for each [`Rule`].
    pub bits: u16,
    /// How many of them are set.
    pub count: u16,
}

impl Mark {
    fn of(bits: u64, count: u64) -> Mark {
        // The library's marks have 16 bits.
        Mark { bits: bits as u16, count: count as u16 }
    }

    /// Whether the list holds the rule's tag and it was looked at.
    ///
    /// ```
    /// use sculldrip::{Mark, Rule};
    ///
    /// let mark = Mark { bits: 0b10_0000, count: 1 };
    /// assert!(mark.has(Rule::Active) && !mark.has(Rule::Purpose));
    /// ```
    pub fn has(self, rule: Rule) -> bool {
        self.bits & (1 << rule as u16) != 0
    }
}

/// A use is allowed; the marks say by which tags of which list.
///
/// ```
/// # use sculldrip::{Clock, Digest, Extension, Padding, Purpose, Request, Rule};
/// # let extension = Extension::read(&sculldrip::SAMPLE)?;
/// # let request = Request::new(Clock { now: 1609459200000, floor: 1600000000000 })
/// #     .purpose(Purpose::SIGN).digest(Digest::SHA_2_256).padding(Padding::NONE);
/// let permit = extension.rule(&request)?;
/// assert!(permit.hardware.has(Rule::Purpose) && !permit.software.has(Rule::Purpose));
/// # Ok::<(), sculldrip::Refusal>(())
/// ```
#[derive(Clone, Copy, Debug, PartialEq, Eq, Hash)]
pub struct Permit {
    /// Of the hardware list; empty where a security level is Software.
    pub hardware: Mark,
    /// Of the software list, and of both lists where a security level is Software.
    pub software: Mark,
}

impl Permit {
    pub(crate) fn of(words: [u64; PERMIT_WORDS]) -> Permit {
        let [hardware, hardware_count, software, software_count] = words;
        Permit { hardware: Mark::of(hardware, hardware_count), software: Mark::of(software, software_count) }
    }
}

#[cfg(test)]
mod tests {
    use super::*;
    use crate::{FlagField, List, NumberField, Record, Refusal, SetField};

    /// A key that may sign, and for which one thing more is asked.
    fn key() -> Record {
        Record::new(300)
            .with_set(List::Hardware, SetField::Purpose, &[2])
            .with_number(List::Hardware, NumberField::Algorithm, 3)
            .with_set(List::Hardware, SetField::Digest, &[0, 4])
            .with_set(List::Hardware, SetField::Padding, &[1])
            .with_flag(List::Hardware, FlagField::NoAuthRequired)
    }

    fn refused(key: Record, request: Request) -> u8 {
        key.rule(&request).expect_err("what was not said is not permitted").number
    }

    #[test]
    fn what_was_not_said_is_refused() {
        let unsaid = Request::new(Clock { now: 1609459200000, floor: 1600000000000 });
        let sign = unsaid.purpose(Purpose::SIGN);
        let padded = sign.padding(Padding::NONE);
        let whole = padded.digest(Digest::SHA_2_256);
        assert!(key().rule(&whole).is_ok());
        assert_eq!(refused(key(), unsaid), Refusal::PURPOSE_UNKNOWN);
        assert_eq!(refused(key(), sign), Refusal::PADDING_NOT_ALLOWED);
        assert_eq!(refused(key(), padded), Refusal::DIGEST_NOT_ALLOWED);
        assert_eq!(
            refused(key().with_number(List::Software, NumberField::AuthType, u32::MAX.into()), whole),
            Refusal::TOKEN_UNFIT
        );
        assert_eq!(
            refused(key().with_flag(List::Software, FlagField::UnlockedDeviceRequired), whole),
            Refusal::DEVICE_LOCKED
        );
        assert_eq!(refused(key().with_flag(List::Software, FlagField::PresenceRequired), whole), Refusal::USER_NOT_PRESENT);
        assert_eq!(refused(key().with_flag(List::Software, FlagField::ConfirmationRequired), whole), Refusal::NOT_CONFIRMED);
        assert_eq!(refused(key().with_flag(List::Software, FlagField::EarlyBootOnly), whole), Refusal::EARLY_BOOT_OVER);
        assert_eq!(
            refused(key().with_number(List::Software, NumberField::UseLimit, u32::MAX.into()), whole),
            Refusal::USED_UP
        );
    }
}
