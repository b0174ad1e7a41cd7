//! The writer: the one encoding of a well-shaped record.

use super::der::MOST_BYTES;
use super::model::{refused, Fields, Part, Record, Refusal, Root, Value};
use super::table::is_well_shaped;

/// The bytes that an output of `room` bytes is to start with.
pub fn write(record: &Record, buffer: &[u8], room: usize) -> Result<Vec<u8>, Refusal> {
    if !is_well_shaped(record) || !record.parts_are_inside(buffer.len()) {
        return refused(20, 0);
    }
    let bytes = encode(record, buffer);
    if bytes.len() > MOST_BYTES {
        return refused(22, 0);
    }
    if bytes.len() > room {
        return refused(21, 0);
    }
    Ok(bytes)
}

/// Of any record whose parts are inside the buffer; well-shaped or not.
pub fn encode(record: &Record, buffer: &[u8]) -> Vec<u8> {
    let content = [
        integer(0x02, record.version),
        integer(0x0a, record.level),
        integer(0x02, record.keymint),
        integer(0x0a, record.keymint_level),
        octet_string(record.challenge, buffer),
        octet_string(record.unique, buffer),
        list(&record.software, buffer),
        list(&record.hardware, buffer),
    ];
    element(&[0x30], &content.concat())
}

fn list(fields: &Fields, buffer: &[u8]) -> Vec<u8> {
    let fields: Vec<Vec<u8>> = fields.iter().map(|(&number, value)| field(number, value, buffer)).collect();
    element(&[0x30], &fields.concat())
}

fn field(number: u64, value: &Value, buffer: &[u8]) -> Vec<u8> {
    let content = match value {
        Value::Set(members) => {
            let members: Vec<Vec<u8>> = members.iter().map(|&member| integer(0x02, member)).collect();
            element(&[0x31], &members.concat())
        }
        Value::Number(number) => integer(0x02, *number),
        Value::Yes => element(&[0x05], &[]),
        Value::Octets(part) => octet_string(*part, buffer),
        Value::Root(root) => root_of_trust(root, buffer),
    };
    element(&context_tag(number), &content)
}

fn root_of_trust(root: &Root, buffer: &[u8]) -> Vec<u8> {
    let locked = if root.locked { 0xff } else { 0x00 };
    let mut content = octet_string(root.key, buffer);
    content.extend(element(&[0x01], &[locked]));
    content.extend(integer(0x0a, root.state));
    content.extend(root.hash.map(|hash| octet_string(hash, buffer)).unwrap_or_default());
    element(&[0x30], &content)
}

fn octet_string(part: Part, buffer: &[u8]) -> Vec<u8> {
    element(&[0x04], part.of(buffer))
}

/// An INTEGER or ENUMERATED, in its shortest form.
pub fn integer(identifier: u8, number: u64) -> Vec<u8> {
    let octets = number.to_be_bytes();
    let zeros = octets.iter().take_while(|&&octet| octet == 0).count().min(7);
    let magnitude = &octets[zeros..];
    let sign: &[u8] = if magnitude[0] >= 0x80 { &[0] } else { &[] };
    element(&[identifier], &[sign, magnitude].concat())
}

/// The identifier octets of an explicit context tag, for numbers to 16,383.
pub fn context_tag(number: u64) -> Vec<u8> {
    match number {
        0..=30 => vec![0xa0 | number as u8],
        31..=127 => vec![0xbf, number as u8],
        _ => vec![0xbf, 0x80 | (number >> 7) as u8, number as u8 & 127],
    }
}

pub fn element(identifier: &[u8], content: &[u8]) -> Vec<u8> {
    [identifier, &length(content.len()), content].concat()
}

/// The shortest length octets, also of what is too long for an extension.
pub fn length(length: usize) -> Vec<u8> {
    if length < 128 {
        return vec![length as u8];
    }
    let octets = length.to_be_bytes();
    let significant: Vec<u8> = octets.into_iter().skip_while(|&octet| octet == 0).collect();
    [vec![0x80 | significant.len() as u8], significant].concat()
}
