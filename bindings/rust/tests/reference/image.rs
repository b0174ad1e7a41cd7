//! Images, as the C header lays them out, to and from records.

use super::model::{Fields, Part, Record, Root, Value};
use super::table::{self, Kind, MOST_MEMBERS, NUMBERS, TOP_32};

pub const WORDS: usize = 410;
pub const LISTS: [usize; 2] = [8, 209];
const NUMBER: usize = 42;
const LENGTH: usize = 84;
const ROOT: usize = 194;

fn set_place(number: u64) -> usize {
    match number {
        1 => 126,
        5 => 143,
        6 => 160,
        _ => 177,
    }
}

/// The record of an image; none where a word that is looked at cannot stand in one. Words of absent fields, of an absent boot
/// hash and slots past a count are not looked at.
pub fn record_of(image: &[u64]) -> Option<Record> {
    let narrow = |word: usize| Some(image[word]).filter(|&value| value <= TOP_32);
    Some(Record {
        version: narrow(0)?,
        level: narrow(1)?,
        keymint: narrow(2)?,
        keymint_level: narrow(3)?,
        challenge: part(&image[4..]),
        unique: part(&image[6..]),
        software: fields_of(&image[LISTS[0]..])?,
        hardware: fields_of(&image[LISTS[1]..])?,
    })
}

fn part(words: &[u64]) -> Part {
    Part { start: words[0], length: words[1] }
}

fn flag(word: u64) -> Option<bool> {
    match word {
        0 => Some(false),
        1 => Some(true),
        _ => None,
    }
}

fn fields_of(list: &[u64]) -> Option<Fields> {
    let mut fields = Fields::new();
    for (row, &number) in NUMBERS.iter().enumerate() {
        if flag(list[row])? {
            fields.insert(number, value_of(list, row, number)?);
        }
    }
    Some(fields)
}

fn value_of(list: &[u64], row: usize, number: u64) -> Option<Value> {
    Some(match table::kind(number)? {
        Kind::Set => Value::Set(members_of(&list[set_place(number)..])?),
        Kind::Number { .. } => Value::Number(list[NUMBER + row]),
        Kind::Null => Value::Yes,
        Kind::Octets => Value::Octets(Part { start: list[NUMBER + row], length: list[LENGTH + row] }),
        Kind::Root => Value::Root(root_of(&list[ROOT..])?),
    })
}

/// A count over 16 is that of a record which is not well-shaped: one member more than there are slots stands for it.
fn members_of(set: &[u64]) -> Option<Vec<u64>> {
    let count = usize::try_from(set[MOST_MEMBERS]).unwrap_or(usize::MAX);
    let mut members = set[..count.min(MOST_MEMBERS)].to_vec();
    if members.iter().any(|&member| member > TOP_32) {
        return None;
    }
    if count > MOST_MEMBERS {
        members.push(0);
    }
    Some(members)
}

fn root_of(words: &[u64]) -> Option<Root> {
    let locked = flag(words[2])?;
    let state = Some(words[3]).filter(|&state| state <= TOP_32)?;
    let hash = flag(words[4])?.then(|| part(&words[5..]));
    Some(Root { key: part(words), locked, state, hash })
}

/// The image of a record whose fields are those of the table; spare words are as in `image` before.
pub fn lay_out(record: &Record, image: &mut [u64]) {
    let fixed = [record.version, record.level, record.keymint, record.keymint_level];
    image[..4].copy_from_slice(&fixed);
    lay_part(record.challenge, &mut image[4..]);
    lay_part(record.unique, &mut image[6..]);
    for (fields, at) in record.lists().into_iter().zip(LISTS) {
        lay_fields(fields, &mut image[at..]);
    }
}

fn lay_part(part: Part, words: &mut [u64]) {
    words[0] = part.start;
    words[1] = part.length;
}

fn lay_fields(fields: &Fields, list: &mut [u64]) {
    for (row, number) in NUMBERS.iter().enumerate() {
        list[row] = u64::from(fields.contains_key(number));
        match fields.get(number) {
            Some(Value::Set(members)) => lay_set(members, &mut list[set_place(*number)..]),
            Some(Value::Number(value)) => list[NUMBER + row] = *value,
            Some(Value::Octets(part)) => {
                list[NUMBER + row] = part.start;
                list[LENGTH + row] = part.length;
            }
            Some(Value::Root(root)) => lay_root(root, &mut list[ROOT..]),
            Some(Value::Yes) | None => {}
        }
    }
}

fn lay_set(members: &[u64], set: &mut [u64]) {
    let kept = members.len().min(MOST_MEMBERS);
    set[..kept].copy_from_slice(&members[..kept]);
    set[MOST_MEMBERS] = members.len() as u64;
}

fn lay_root(root: &Root, words: &mut [u64]) {
    lay_part(root.key, words);
    words[2] = u64::from(root.locked);
    words[3] = root.state;
    words[4] = u64::from(root.hash.is_some());
    if let Some(hash) = root.hash {
        lay_part(hash, &mut words[5..]);
    }
}
