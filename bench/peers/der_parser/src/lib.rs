// der-parser: a defined sequence whose content is read element by element, each field by its own parser, into the record of
// record.h.
#[path = "../../record.rs"]
mod record;

use der_parser::ber::BerClass;
use der_parser::der::*;
use der_parser::error::{BerError, BerResult};
use der_parser::nom::combinator::all_consuming;
use der_parser::nom::Err;
use record::{part_of, FieldList, NumberSet, Part, Record, RootOfTrust, Security, Summing};

fn refused<T>(why: BerError) -> Result<T, Err<BerError>> {
    Err(Err::Error(why))
}

fn octets(i: &[u8]) -> BerResult<'_, &[u8]> {
    parse_der_slice(i, DerTag::OctetString)
}

fn enumerated(i: &[u8]) -> BerResult<'_, u32> {
    let (rest, object) = parse_der_enum(i)?;
    Ok((rest, object.as_u32().map_err(Err::Error)?))
}

fn boolean(i: &[u8]) -> BerResult<'_, bool> {
    let (rest, object) = parse_der_bool(i)?;
    Ok((rest, object.as_bool().map_err(Err::Error)?))
}

fn numbers(i: &[u8]) -> BerResult<'_, NumberSet> {
    parse_der_set_defined_g(|mut i, _| {
        let mut set = NumberSet::default();
        while !i.is_empty() {
            if set.count == set.members.len() {
                return refused(BerError::InvalidLength);
            }
            let (rest, number) = parse_der_u32(i)?;
            set.members[set.count] = number;
            set.count += 1;
            i = rest;
        }
        Ok((i, set))
    })(i)
}

fn root<'a>(bytes: &[u8], i: &'a [u8]) -> BerResult<'a, RootOfTrust> {
    parse_der_sequence_defined_g(|i, _| {
        let (i, key) = octets(i)?;
        let (i, locked) = boolean(i)?;
        let (i, state) = enumerated(i)?;
        let (i, hash) = if i.is_empty() { (i, None) } else { octets(i).map(|(i, hash)| (i, Some(hash)))? };
        if !i.is_empty() {
            return refused(BerError::InvalidLength);
        }
        let key = part_of(bytes, key);
        let hashed = hash.is_some();
        let hash = hash.map_or(Part { start: 0, len: 0 }, |hash| part_of(bytes, hash));
        Ok((i, RootOfTrust { key, locked, state, hashed, hash }))
    })(i)
}

// One field's content into its row; the rest that stands after it is handed back.
fn field<'a>(bytes: &[u8], number: u32, i: &'a [u8], out: &mut FieldList) -> BerResult<'a, usize> {
    macro_rules! narrow {
        ($row:literal) => {{
            let (i, value) = parse_der_u32(i)?;
            out.values[$row] = u64::from(value);
            (i, $row)
        }};
    }
    macro_rules! wide {
        ($row:literal) => {{
            let (i, value) = parse_der_u64(i)?;
            out.values[$row] = value;
            (i, $row)
        }};
    }
    macro_rules! none {
        ($row:literal) => {
            (parse_der_null(i)?.0, $row)
        };
    }
    macro_rules! part {
        ($row:literal) => {{
            let (i, value) = octets(i)?;
            let part = part_of(bytes, value);
            out.values[$row] = part.start as u64;
            out.sizes[$row] = part.len as u64;
            (i, $row)
        }};
    }
    macro_rules! whole {
        ($row:literal, $member:ident, $read:expr) => {{
            let (i, value) = $read?;
            out.$member = value;
            (i, $row)
        }};
    }
    Ok(match number {
        1 => whole!(0, purpose, numbers(i)),
        2 => narrow!(1),
        3 => narrow!(2),
        5 => whole!(3, digest, numbers(i)),
        6 => whole!(4, padding, numbers(i)),
        10 => narrow!(5),
        200 => wide!(6),
        203 => whole!(7, mgf_digest, numbers(i)),
        303 => none!(8),
        305 => none!(9),
        400 => wide!(10),
        401 => wide!(11),
        402 => wide!(12),
        405 => narrow!(13),
        503 => none!(14),
        504 => narrow!(15),
        505 => narrow!(16),
        506 => none!(17),
        507 => none!(18),
        508 => none!(19),
        509 => none!(20),
        600 => none!(21),
        601 => part!(22),
        701 => wide!(23),
        702 => narrow!(24),
        703 => none!(25),
        704 => whole!(26, root, root(bytes, i)),
        705 => narrow!(27),
        706 => narrow!(28),
        709 => part!(29),
        710 => part!(30),
        711 => part!(31),
        712 => part!(32),
        713 => part!(33),
        714 => part!(34),
        715 => part!(35),
        716 => part!(36),
        717 => part!(37),
        718 => narrow!(38),
        719 => narrow!(39),
        720 => none!(40),
        723 => part!(41),
        _ => return refused(BerError::UnknownTag),
    })
}

fn list<'a>(bytes: &[u8], i: &'a [u8], out: &mut FieldList) -> BerResult<'a, ()> {
    parse_der_sequence_defined_g(|mut i, _| {
        let mut last = 0;
        while !i.is_empty() {
            let (rest, number) = parse_der_container(|content, header: DerObjectHeader| {
                if header.class != BerClass::ContextSpecific || !header.is_constructed() || header.tag.0 <= last {
                    return refused(BerError::InvalidTag);
                }
                let (rest, row) = field(bytes, header.tag.0, content, out)?;
                if !rest.is_empty() {
                    return refused(BerError::InvalidLength);
                }
                out.present[row] = true;
                Ok((rest, header.tag.0))
            })(i)?;
            last = number;
            i = rest;
        }
        Ok((i, ()))
    })(i)
}

fn read<'a>(bytes: &'a [u8], out: &mut Record) -> BerResult<'a, ()> {
    out.software.present = [false; 42];
    out.hardware.present = [false; 42];
    all_consuming(parse_der_sequence_defined_g(|i, _| {
        let (i, version) = parse_der_u32(i)?;
        let (i, level) = enumerated(i)?;
        out.attestation = Security { version, level };
        let (i, version) = parse_der_u32(i)?;
        let (i, level) = enumerated(i)?;
        out.keymint = Security { version, level };
        let (i, challenge) = octets(i)?;
        out.challenge = part_of(bytes, challenge);
        let (i, unique) = octets(i)?;
        out.unique = part_of(bytes, unique);
        let (i, ()) = list(bytes, i, &mut out.software)?;
        let (i, ()) = list(bytes, i, &mut out.hardware)?;
        if !i.is_empty() {
            return refused(BerError::InvalidLength);
        }
        Ok((i, ()))
    }))(bytes)
}

/// # Safety
/// There are len bytes to be read, and a record to be written.
#[no_mangle]
pub unsafe extern "C" fn peer_read(bytes: *const u8, len: usize, said: *mut Record) -> bool {
    read(std::slice::from_raw_parts(bytes, len), &mut *said).is_ok()
}

/// # Safety
/// There are len bytes to be read.
#[no_mangle]
pub unsafe extern "C" fn peer_sum(bytes: *const u8, len: usize, sum: Summing) -> u64 {
    let mut said = Record::default();
    match read(std::slice::from_raw_parts(bytes, len), &mut said) {
        Ok(_) => sum(&said, bytes),
        Err(_) => 0,
    }
}
