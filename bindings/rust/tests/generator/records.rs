//! Well-shaped records, with the bytes that their octets lie in.

use super::Random;
use crate::reference::table::{self, Kind, NUMBERS, TOP_32, TOP_STATE, VERSIONS};
use crate::reference::write::encode;
use crate::reference::{Fields, Part, Record, Root, Value};

/// A record, and its buffer.
#[derive(Clone, Debug)]
pub struct Stored {
    pub record: Record,
    pub buffer: Vec<u8>,
}

/// A well-shaped record of any version with any fields.
pub fn well_shaped(random: &mut Random) -> Stored {
    let version = random.pick(&VERSIONS);
    let size = random.between(0, 400);
    let buffer = random.bytes(size);
    let top = table::top_level(version);
    let record = Record {
        version,
        level: random.word() % (top + 1),
        keymint: random.number(TOP_32),
        keymint_level: random.word() % (top + 1),
        challenge: part(random, buffer.len()),
        unique: part(random, buffer.len()),
        software: fields(random, version, buffer.len()),
        hardware: fields(random, version, buffer.len()),
    };
    Stored { record, buffer }
}

/// A well-shaped record whose encoding has just about 8,192 bytes.
pub fn at_the_limit(random: &mut Random) -> Stored {
    let Stored { mut record, mut buffer } = well_shaped(random);
    let goal = random.between(8190, 8194);
    buffer.resize(9000, 0xa5);
    record.challenge = Part { start: random.below(300) as u64, length: 0 };
    let bare = encode(&record, &buffer).len();
    // Length octets grow with the challenge, so that its length is found by stepping back from the most it can be.
    record.challenge.length = goal.saturating_sub(bare) as u64;
    while record.challenge.length > 0 && encode(&record, &buffer).len() > goal {
        record.challenge.length -= 1;
    }
    Stored { record, buffer }
}

/// Mostly short, sometimes where the length's octets change, and anywhere inside the buffer.
pub fn part(random: &mut Random, buffer_length: usize) -> Part {
    let length = match random.below(6) {
        0 => 0,
        1 => random.pick(&[16, 20, 32]),
        2 if random.once_in(4) => random.pick(&[126, 127, 128, 129, 255, 256, 257]),
        _ => random.between(1, 8),
    };
    let length = length.min(buffer_length);
    let start = random.between(0, buffer_length - length);
    Part { start: start as u64, length: length as u64 }
}

fn fields(random: &mut Random, version: u64, buffer_length: usize) -> Fields {
    // One in `rarity` fields is there: from all of them to nearly none.
    let rarity = random.pick(&[1, 2, 3, 6, 12, 40]);
    let mut fields = Fields::new();
    for number in NUMBERS.into_iter().filter(|&number| table::holds(version, number)) {
        if random.once_in(rarity) {
            fields.insert(number, value(random, version, number, buffer_length));
        }
    }
    fields
}

pub fn value(random: &mut Random, version: u64, number: u64, buffer_length: usize) -> Value {
    match table::kind(number).expect("a number of the table") {
        Kind::Set => Value::Set(members(random)),
        Kind::Number { top } => Value::Number(random.number(top)),
        Kind::Null => Value::Yes,
        Kind::Octets => Value::Octets(part(random, buffer_length)),
        Kind::Root => Value::Root(Root {
            key: part(random, buffer_length),
            locked: random.flip(),
            state: random.word() % (TOP_STATE + 1),
            hash: table::has_boot_hash(version).then(|| part(random, buffer_length)),
        }),
    }
}

/// Strictly ascending, at most 16.
pub fn members(random: &mut Random) -> Vec<u64> {
    let count = if random.once_in(6) { random.between(14, 16) } else { random.between(0, 5) };
    let top = random.pick(&[7, 40, TOP_32]);
    let mut members: Vec<u64> = (0..count).map(|_| random.number(top)).collect();
    members.sort();
    members.dedup();
    members
}
