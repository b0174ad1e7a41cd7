//! What an extension says. Numbers are as wide as a caller may set them, so that a record need not be well-shaped.

use std::collections::BTreeMap;

/// A number and the byte place that it is given for.
#[derive(Clone, Copy, Debug, PartialEq, Eq)]
pub struct Refusal {
    pub number: u64,
    pub place: u64,
}

pub fn refused<T>(number: u64, place: usize) -> Result<T, Refusal> {
    let place = place as u64;
    Err(Refusal { number, place })
}

/// Octets, as where they lie.
#[derive(Clone, Copy, Debug, Default, PartialEq, Eq)]
pub struct Part {
    pub start: u64,
    pub length: u64,
}

impl Part {
    /// Over true integers: a sum that passes 2^64 is outside every buffer.
    pub fn is_inside(self, buffer_length: usize) -> bool {
        u128::from(self.start) + u128::from(self.length) <= buffer_length as u128
    }

    pub fn of(self, buffer: &[u8]) -> &[u8] {
        let start = self.start as usize;
        &buffer[start..start + self.length as usize]
    }
}

#[derive(Clone, Debug, PartialEq, Eq)]
pub struct Root {
    pub key: Part,
    pub locked: bool,
    pub state: u64,
    pub hash: Option<Part>,
}

#[derive(Clone, Debug, PartialEq, Eq)]
pub enum Value {
    Set(Vec<u64>),
    Number(u64),
    Yes,
    Octets(Part),
    Root(Root),
}

pub type Fields = BTreeMap<u64, Value>;

#[derive(Clone, Debug, Default, PartialEq, Eq)]
pub struct Record {
    pub version: u64,
    pub level: u64,
    pub keymint: u64,
    pub keymint_level: u64,
    pub challenge: Part,
    pub unique: Part,
    pub software: Fields,
    pub hardware: Fields,
}

impl Record {
    pub fn lists(&self) -> [&Fields; 2] {
        [&self.software, &self.hardware]
    }

    pub fn list(&self, hardware: bool) -> &Fields {
        self.lists()[usize::from(hardware)]
    }

    pub fn list_mut(&mut self, hardware: bool) -> &mut Fields {
        if hardware {
            &mut self.hardware
        } else {
            &mut self.software
        }
    }

    pub fn has_software_level(&self) -> bool {
        self.level == 0 || self.keymint_level == 0
    }

    /// The octet parts that are looked at: an absent field's or boot hash's are not.
    pub fn parts(&self) -> Vec<Part> {
        let mut parts = vec![self.challenge, self.unique];
        for value in self.lists().into_iter().flat_map(BTreeMap::values) {
            match value {
                Value::Octets(part) => parts.push(*part),
                Value::Root(root) => parts.extend([Some(root.key), root.hash].into_iter().flatten()),
                _ => {}
            }
        }
        parts
    }

    pub fn parts_are_inside(&self, buffer_length: usize) -> bool {
        self.parts().iter().all(|part| part.is_inside(buffer_length))
    }
}

/// Asks for an octet field: by list, number, kind and presence alone.
pub fn octets(record: &Record, hardware: bool, number: u64, buffer_length: usize) -> Result<Option<Part>, Refusal> {
    match record.list(hardware).get(&number) {
        Some(Value::Octets(part)) if part.is_inside(buffer_length) => Ok(Some(*part)),
        Some(Value::Octets(_)) => refused(20, 0),
        _ => Ok(None),
    }
}
