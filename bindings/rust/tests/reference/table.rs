//! The fields, by kind and version, and what makes a record well-shaped.

use super::model::{Fields, Record, Root, Value};

pub const VERSIONS: [u64; 7] = [1, 2, 3, 4, 100, 200, 300];
pub const TOP_32: u64 = u32::MAX as u64;
pub const MOST_MEMBERS: usize = 16;
pub const TOP_STATE: u64 = 3;

/// The numbers of the paper's table, in ascending order.
pub const NUMBERS: [u64; 42] = [
    1, 2, 3, 5, 6, 10, 200, 203, 303, 305, 400, 401, 402, 405, 503, 504, 505, 506, 507, 508, 509, 600, 601, 701, 702, 703,
    704, 705, 706, 709, 710, 711, 712, 713, 714, 715, 716, 717, 718, 719, 720, 723,
];

#[derive(Clone, Copy, Debug, PartialEq, Eq)]
pub enum Kind {
    Set,
    Number { top: u64 },
    Null,
    Octets,
    Root,
}

pub fn kind(number: u64) -> Option<Kind> {
    Some(match number {
        1 | 5 | 6 | 203 => Kind::Set,
        200 | 400 | 401 | 402 | 701 => Kind::Number { top: u64::MAX },
        2 | 3 | 10 | 405 | 504 | 505 | 702 | 705 | 706 | 718 | 719 => Kind::Number { top: TOP_32 },
        303 | 305 | 503 | 506 | 507 | 508 | 509 | 600 | 703 | 720 => Kind::Null,
        601 | 709..=717 | 723 => Kind::Octets,
        704 => Kind::Root,
        _ => return None,
    })
}

/// The first and the last version whose printed schema has the number. None prints 601.
fn span(number: u64) -> Option<(u64, u64)> {
    kind(number)?;
    match number {
        601 => None,
        600 => Some((1, 4)),
        703 => Some((1, 2)),
        709..=717 => Some((2, 300)),
        303 | 507 | 508 | 509 | 718 | 719 => Some((3, 300)),
        305 | 720 => Some((4, 300)),
        203 | 405 => Some((100, 300)),
        723 => Some((300, 300)),
        _ => Some((1, 300)),
    }
}

pub fn is_version(version: u64) -> bool {
    VERSIONS.contains(&version)
}

pub fn holds(version: u64, number: u64) -> bool {
    span(number).is_some_and(|(first, last)| first <= version && version <= last)
}

/// StrongBox is printed from version 3.
pub fn top_level(version: u64) -> u64 {
    if version >= 3 {
        2
    } else {
        1
    }
}

pub fn has_boot_hash(version: u64) -> bool {
    version >= 3
}

pub fn is_well_shaped(record: &Record) -> bool {
    let top = top_level(record.version);
    is_version(record.version)
        && record.keymint <= TOP_32
        && record.level <= top
        && record.keymint_level <= top
        && record.lists().into_iter().all(|list| fields_are_well_shaped(record.version, list))
}

fn fields_are_well_shaped(version: u64, fields: &Fields) -> bool {
    fields.iter().all(|(&number, value)| holds(version, number) && value_is_well_shaped(version, number, value))
}

fn value_is_well_shaped(version: u64, number: u64, value: &Value) -> bool {
    match (kind(number), value) {
        (Some(Kind::Set), Value::Set(members)) => set_is_well_shaped(members),
        (Some(Kind::Number { top }), Value::Number(value)) => *value <= top,
        (Some(Kind::Root), Value::Root(root)) => root_is_well_shaped(version, root),
        (Some(Kind::Null), Value::Yes) | (Some(Kind::Octets), Value::Octets(_)) => true,
        _ => false,
    }
}

fn set_is_well_shaped(members: &[u64]) -> bool {
    members.len() <= MOST_MEMBERS
        && members.iter().all(|&member| member <= TOP_32)
        && members.windows(2).all(|pair| pair[0] < pair[1])
}

fn root_is_well_shaped(version: u64, root: &Root) -> bool {
    root.state <= TOP_STATE && root.hash.is_some() == has_boot_hash(version)
}
