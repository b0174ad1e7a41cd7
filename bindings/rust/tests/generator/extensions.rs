//! Extensions: encodings of records, and what is nearly one.

use super::records::{at_the_limit, well_shaped, Stored};
use super::tree::{self, Node};
use super::Random;
use crate::reference::der::first_pass;
use crate::reference::write::encode;

pub fn extension(random: &mut Random) -> Vec<u8> {
    let Stored { record, buffer } = if random.once_in(60) { at_the_limit(random) } else { well_shaped(random) };
    let mut bytes = encode(&record, &buffer);
    if random.once_in(400) {
        let count = random.below(40);
        return random.bytes(count);
    }
    if random.below(100) < 70 {
        bytes = with_changes_in_the_tree(&bytes, random);
    }
    if random.below(100) < 15 {
        for _ in 0..random.between(1, 2) {
            change_bytes(&mut bytes, random);
        }
    }
    if random.once_in(1000) {
        bytes.resize(random.between(8193, 70_000), 0);
    }
    bytes
}

fn with_changes_in_the_tree(bytes: &[u8], random: &mut Random) -> Vec<u8> {
    let Ok((outermost, _)) = first_pass(bytes) else { return bytes.to_vec() };
    let mut node = Node::of(&outermost, bytes);
    for _ in 0..random.pick(&[1, 1, 1, 1, 2, 2, 3, 5]) {
        tree::change(&mut node, random);
    }
    node.encode()
}

/// A fault that knows nothing of elements.
fn change_bytes(bytes: &mut Vec<u8>, random: &mut Random) {
    if bytes.is_empty() {
        return bytes.push(random.word() as u8);
    }
    let place = random.below(bytes.len());
    match random.below(7) {
        0 | 1 => bytes[place] ^= 1 << random.below(8),
        2 => bytes[place] = random.pick(&[0x00, 0x1f, 0x30, 0x7f, 0x80, 0x81, 0x82, 0x83, 0xbf, 0xff]),
        3 => bytes.insert(place, random.word() as u8),
        4 => {
            bytes.remove(place);
        }
        5 => bytes.truncate(place),
        _ => {
            let count = random.between(1, 3);
            bytes.extend(random.bytes(count));
        }
    }
}
