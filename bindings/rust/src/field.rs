//! The fields of an authorization list, by kind.

use crate::image::NUMBERS;

macro_rules! fields {
    ($(#[$about:meta])* $name:ident { $($(#[$doc:meta])* $variant:ident = $number:literal,)* }) => {
        $(#[$about])*
        #[derive(Clone, Copy, Debug, PartialEq, Eq, Hash)]
        #[repr(u16)]
        pub enum $name { $($(#[$doc])* $variant = $number,)* }

        impl $name {
            /// All of this kind, in ascending number.
            pub const ALL: &'static [$name] = &[$($name::$variant),*];

            /// The number of the field's tag.
            ///
            /// ```
            #[doc = concat!("assert!(sculldrip::", stringify!($name), "::ALL.iter().all(|field| field.number() > 0));")]
            /// ```
            pub fn number(self) -> u16 {
                self as u16
            }

            pub(crate) fn row(self) -> usize {
                row_of(self.number())
            }
        }
    };
}

/// The row of a number that is known to be in the table.
pub(crate) fn row_of(number: u16) -> usize {
    NUMBERS.iter().position(|&known| known == number).expect("a field of the table")
}

fields! {
    /// Fields that hold a set of numbers.
    ///
    /// ```
    /// # use sculldrip::{Extension, List, SetField};
    /// # let extension = Extension::read(&sculldrip::SAMPLE)?;
    /// assert_eq!(extension.list(List::Hardware).set(SetField::Digest), Some(vec![4]));
    /// # Ok::<(), sculldrip::Refusal>(())
    /// ```
    SetField {
        /// 1, purpose.
        Purpose = 1,
        /// 5, digest.
        Digest = 5,
        /// 6, padding.
        Padding = 6,
        /// 203, mgfDigest.
        MgfDigest = 203,
    }
}

fields! {
    /// Fields that hold a number.
    ///
    /// ```
    /// # use sculldrip::{Extension, List, NumberField};
    /// # let extension = Extension::read(&sculldrip::SAMPLE)?;
    /// assert_eq!(extension.list(List::Hardware).number(NumberField::Algorithm), Some(3));
    /// # Ok::<(), sculldrip::Refusal>(())
    /// ```
    NumberField {
        /// 2, algorithm.
        Algorithm = 2,
        /// 3, keySize, in bits.
        KeySize = 3,
        /// 10, ecCurve.
        EcCurve = 10,
        /// 200, rsaPublicExponent.
        RsaPublicExponent = 200,
        /// 400, activeDateTime, in ms since 1970.
        Active = 400,
        /// 401, originationExpireDateTime, in ms since 1970.
        OriginationExpiry = 401,
        /// 402, usageExpireDateTime, in ms since 1970.
        UsageExpiry = 402,
        /// 405, usageCountLimit.
        UseLimit = 405,
        /// 504, userAuthType, as bits.
        AuthType = 504,
        /// 505, authTimeout, in seconds.
        AuthTimeout = 505,
        /// 701, creationDateTime, in ms since 1970.
        Creation = 701,
        /// 702, origin.
        Origin = 702,
        /// 705, osVersion.
        OsVersion = 705,
        /// 706, osPatchLevel.
        OsPatchLevel = 706,
        /// 718, vendorPatchLevel.
        VendorPatchLevel = 718,
        /// 719, bootPatchLevel.
        BootPatchLevel = 719,
    }
}

fields! {
    /// Fields that are there or not, and hold nothing.
    ///
    /// ```
    /// # use sculldrip::{Extension, FlagField, List};
    /// # let extension = Extension::read(&sculldrip::SAMPLE)?;
    /// assert!(extension.list(List::Hardware).flag(FlagField::NoAuthRequired));
    /// # Ok::<(), sculldrip::Refusal>(())
    /// ```
    FlagField {
        /// 303, rollbackResistance.
        RollbackResistance = 303,
        /// 305, earlyBootOnly.
        EarlyBootOnly = 305,
        /// 503, noAuthRequired.
        NoAuthRequired = 503,
        /// 506, allowWhileOnBody.
        AllowWhileOnBody = 506,
        /// 507, trustedUserPresenceRequired.
        PresenceRequired = 507,
        /// 508, trustedConfirmationRequired.
        ConfirmationRequired = 508,
        /// 509, unlockedDeviceRequired.
        UnlockedDeviceRequired = 509,
        /// 600, allApplications.
        AllApplications = 600,
        /// 703, rollbackResistant.
        RollbackResistant = 703,
        /// 720, deviceUniqueAttestation.
        DeviceUniqueAttestation = 720,
    }
}

fields! {
    /// Fields that hold octets.
    ///
    /// ```
    /// # use sculldrip::{Extension, List, OctetField};
    /// # let extension = Extension::read(&sculldrip::SAMPLE)?;
    /// assert_eq!(extension.list(List::Software).octets(OctetField::IdBrand), None);
    /// # Ok::<(), sculldrip::Refusal>(())
    /// ```
    OctetField {
        /// 601, applicationId. No version holds it: a record that does is not well-shaped.
        ApplicationId = 601,
        /// 709, attestationApplicationId.
        AttestationApplicationId = 709,
        /// 710, attestationIdBrand.
        IdBrand = 710,
        /// 711, attestationIdDevice.
        IdDevice = 711,
        /// 712, attestationIdProduct.
        IdProduct = 712,
        /// 713, attestationIdSerial.
        IdSerial = 713,
        /// 714, attestationIdImei.
        IdImei = 714,
        /// 715, attestationIdMeid.
        IdMeid = 715,
        /// 716, attestationIdManufacturer.
        IdManufacturer = 716,
        /// 717, attestationIdModel.
        IdModel = 717,
        /// 723, attestationIdSecondImei.
        IdSecondImei = 723,
    }
}

/// The number of rootOfTrust, the one field of its kind.
pub(crate) const ROOT_OF_TRUST: u16 = 704;

#[cfg(test)]
mod tests {
    use super::*;

    #[test]
    fn the_kinds_share_out_the_table() {
        let mut numbers: Vec<u16> = vec![ROOT_OF_TRUST];
        numbers.extend(SetField::ALL.iter().map(|field| field.number()));
        numbers.extend(NumberField::ALL.iter().map(|field| field.number()));
        numbers.extend(FlagField::ALL.iter().map(|field| field.number()));
        numbers.extend(OctetField::ALL.iter().map(|field| field.number()));
        numbers.sort();
        assert_eq!(numbers, NUMBERS);
    }
}
