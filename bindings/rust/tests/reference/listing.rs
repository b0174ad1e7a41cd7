//! The listing's text: each line ends with a newline.

use super::model::{Part, Record, Refusal, Root, Value};
use super::read::read;

/// The room that a listing asks for, though its text may take less: 64 octets for a refusal; for an accepted extension 32,768
/// and 56 for each of its bytes.
pub fn room(bytes: &[u8]) -> usize {
    match read(bytes) {
        Ok(_) => 32_768 + 56 * bytes.len(),
        Err(_) => 64,
    }
}

pub fn listing(bytes: &[u8]) -> String {
    match read(bytes) {
        Ok((record, elements)) => accepted(&record, elements, bytes),
        Err(Refusal { number, place }) => format!("refused {number} at {place}\n"),
    }
}

fn accepted(record: &Record, elements: u64, bytes: &[u8]) -> String {
    let mut text = format!("version {} level {}\n", record.version, record.level);
    text += &format!("keymint {} level {}\n", record.keymint, record.keymint_level);
    text += &format!("challenge {}\n", octets(record.challenge, bytes));
    text += &format!("unique {}\n", octets(record.unique, bytes));
    for (name, list) in [("software", &record.software), ("hardware", &record.hardware)] {
        for (number, value) in list {
            text += &format!("{name} {number} {}\n", content(value, bytes));
        }
    }
    text + &format!("elements {elements}\n")
}

fn content(value: &Value, bytes: &[u8]) -> String {
    match value {
        Value::Set(members) if members.is_empty() => "-".to_string(),
        Value::Set(members) => members.iter().map(u64::to_string).collect::<Vec<_>>().join(" "),
        Value::Number(number) => number.to_string(),
        Value::Yes => "yes".to_string(),
        Value::Octets(part) => octets(*part, bytes),
        Value::Root(root) => root_of_trust(root, bytes),
    }
}

fn root_of_trust(root: &Root, bytes: &[u8]) -> String {
    let mut text = format!("{} {} {}", octets(root.key, bytes), u8::from(root.locked), root.state);
    if let Some(hash) = root.hash {
        text += &format!(" {}", octets(hash, bytes));
    }
    text
}

fn octets(part: Part, bytes: &[u8]) -> String {
    match part.of(bytes) {
        [] => "-".to_string(),
        octets => octets.iter().map(|octet| format!("{octet:02x}")).collect(),
    }
}
