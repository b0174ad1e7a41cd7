// pyca's asn1: derived structs, which are plain and borrow their octets from the bytes. For the checksum, and outside what
// is timed, they are copied into the record of record.h.
#[path = "../../record.rs"]
mod record;

use asn1::{Asn1Read, Enumerated, Null, ParseError, ParseErrorKind, ParseResult, SetOf, SimpleAsn1Readable, Tag};
use record::{part_of, FieldList, NumberSet, Record, RootOfTrust, Security, Summing};
use std::hint::black_box;

// asn1's own SET OF is an iterator over bytes; here its numbers are kept, which read once cost less than checked by it and
// then read from it.
struct Numbers(NumberSet);

impl<'a> SimpleAsn1Readable<'a> for Numbers {
    const TAG: Tag = <SetOf<'a, u32> as SimpleAsn1Readable<'a>>::TAG;

    fn parse_data(data: &'a [u8]) -> ParseResult<Self> {
        asn1::parse(data, |members| {
            let mut set = NumberSet::default();
            while !members.is_empty() {
                let number = members.read_element::<u32>()?;
                let ascends = set.count == 0 || set.members[set.count - 1] < number;
                if !ascends || set.count == set.members.len() {
                    return Err(ParseError::new(ParseErrorKind::InvalidValue));
                }
                set.members[set.count] = number;
                set.count += 1;
            }
            Ok(Numbers(set))
        })
    }
}

#[derive(Asn1Read)]
struct Root<'a> {
    verified_boot_key: &'a [u8],
    device_locked: bool,
    verified_boot_state: Enumerated,
    verified_boot_hash: Option<&'a [u8]>,
}

// Declares the derived struct of a list, and its copying into record.h's, from one table in ascending number.
macro_rules! list {
    ($($name:ident: $type:ty = [$number:literal] $row:literal $kind:ident;)*) => {
        #[derive(Asn1Read)]
        struct List<'a> {
            $(#[explicit($number)] $name: Option<$type>,)*
        }

        fn tell_list(bytes: &[u8], from: &List, out: &mut FieldList) {
            $(if let Some(it) = &from.$name {
                out.present[$row] = true;
                tell!($kind, bytes, it, out, $row, $name);
            })*
        }
    };
}

macro_rules! tell {
    (set, $bytes:ident, $it:ident, $out:ident, $row:literal, $name:ident) => {
        $out.$name = $it.0
    };
    (number, $bytes:ident, $it:ident, $out:ident, $row:literal, $name:ident) => {
        $out.values[$row] = u64::from(*$it)
    };
    (none, $bytes:ident, $it:ident, $out:ident, $row:literal, $name:ident) => {
        let _: &Null = $it;
    };
    (octets, $bytes:ident, $it:ident, $out:ident, $row:literal, $name:ident) => {
        let part = part_of($bytes, $it);
        $out.values[$row] = part.start as u64;
        $out.sizes[$row] = part.len as u64;
    };
    (root, $bytes:ident, $it:ident, $out:ident, $row:literal, $name:ident) => {
        $out.$name = RootOfTrust {
            key: part_of($bytes, $it.verified_boot_key),
            locked: $it.device_locked,
            state: $it.verified_boot_state.value(),
            hashed: $it.verified_boot_hash.is_some(),
            hash: $it.verified_boot_hash.map_or_else(Default::default, |hash| part_of($bytes, hash)),
        }
    };
}

list! {
    purpose: Numbers = [1] 0 set;
    algorithm: u32 = [2] 1 number;
    key_size: u32 = [3] 2 number;
    digest: Numbers = [5] 3 set;
    padding: Numbers = [6] 4 set;
    ec_curve: u32 = [10] 5 number;
    rsa_public_exponent: u64 = [200] 6 number;
    mgf_digest: Numbers = [203] 7 set;
    rollback_resistance: Null = [303] 8 none;
    early_boot_only: Null = [305] 9 none;
    active_date_time: u64 = [400] 10 number;
    origination_expire_date_time: u64 = [401] 11 number;
    usage_expire_date_time: u64 = [402] 12 number;
    usage_count_limit: u32 = [405] 13 number;
    no_auth_required: Null = [503] 14 none;
    user_auth_type: u32 = [504] 15 number;
    auth_timeout: u32 = [505] 16 number;
    allow_while_on_body: Null = [506] 17 none;
    trusted_user_presence_required: Null = [507] 18 none;
    trusted_confirmation_required: Null = [508] 19 none;
    unlocked_device_required: Null = [509] 20 none;
    all_applications: Null = [600] 21 none;
    application_id: &'a [u8] = [601] 22 octets;
    creation_date_time: u64 = [701] 23 number;
    origin: u32 = [702] 24 number;
    rollback_resistant: Null = [703] 25 none;
    root: Root<'a> = [704] 26 root;
    os_version: u32 = [705] 27 number;
    os_patch_level: u32 = [706] 28 number;
    attestation_application_id: &'a [u8] = [709] 29 octets;
    attestation_id_brand: &'a [u8] = [710] 30 octets;
    attestation_id_device: &'a [u8] = [711] 31 octets;
    attestation_id_product: &'a [u8] = [712] 32 octets;
    attestation_id_serial: &'a [u8] = [713] 33 octets;
    attestation_id_imei: &'a [u8] = [714] 34 octets;
    attestation_id_meid: &'a [u8] = [715] 35 octets;
    attestation_id_manufacturer: &'a [u8] = [716] 36 octets;
    attestation_id_model: &'a [u8] = [717] 37 octets;
    vendor_patch_level: u32 = [718] 38 number;
    boot_patch_level: u32 = [719] 39 number;
    device_unique_attestation: Null = [720] 40 none;
    attestation_id_second_imei: &'a [u8] = [723] 41 octets;
}

#[derive(Asn1Read)]
struct KeyDescription<'a> {
    attestation_version: u32,
    attestation_security_level: Enumerated,
    key_mint_version: u32,
    key_mint_security_level: Enumerated,
    attestation_challenge: &'a [u8],
    unique_id: &'a [u8],
    software_enforced: List<'a>,
    hardware_enforced: List<'a>,
}

/// # Safety
/// There are len bytes to be read.
#[no_mangle]
pub unsafe extern "C" fn peer_read(bytes: *const u8, len: usize, _said: *mut Record) -> bool {
    let bytes = std::slice::from_raw_parts(bytes, len);
    let said = asn1::parse_single::<KeyDescription>(bytes);
    black_box(&said).is_ok()
}

/// # Safety
/// There are len bytes to be read.
#[no_mangle]
pub unsafe extern "C" fn peer_sum(bytes: *const u8, len: usize, sum: Summing) -> u64 {
    let bytes = std::slice::from_raw_parts(bytes, len);
    let said = match asn1::parse_single::<KeyDescription>(bytes) {
        Ok(said) => said,
        Err(_) => return 0,
    };
    let mut out = Record {
        attestation: Security { version: said.attestation_version, level: said.attestation_security_level.value() },
        keymint: Security { version: said.key_mint_version, level: said.key_mint_security_level.value() },
        challenge: part_of(bytes, said.attestation_challenge),
        unique: part_of(bytes, said.unique_id),
        ..Record::default()
    };
    tell_list(bytes, &said.software_enforced, &mut out.software);
    tell_list(bytes, &said.hardware_enforced, &mut out.hardware);
    sum(&out, bytes.as_ptr())
}
