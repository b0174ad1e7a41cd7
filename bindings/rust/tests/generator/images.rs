//! Images: of records, and of what is none.

use super::records::Stored;
use super::Random;
use crate::reference::image::{lay_out, LISTS, WORDS};
use crate::reference::table::NUMBERS;
use crate::reference::Record;

/// A record's image. What is not looked at holds anything.
pub fn image(record: &Record, random: &mut Random) -> Vec<u64> {
    let spare = random.pick(&[0, 1, 2, u64::MAX]);
    let is_random = random.flip();
    let mut image: Vec<u64> = (0..WORDS).map(|_| if is_random { random.word() } else { spare }).collect();
    lay_out(record, &mut image);
    image
}

/// The record's image with words that a caller should not have put there.
pub fn hostile(stored: &Stored, random: &mut Random) -> Vec<u64> {
    if random.once_in(12) {
        return (0..WORDS).map(|_| random.word()).collect();
    }
    let mut image = image(&stored.record, random);
    for _ in 0..random.pick(&[1, 1, 1, 2, 3]) {
        spoil(&mut image, stored.buffer.len() as u64, random);
    }
    image
}

fn nasty(random: &mut Random) -> u64 {
    let word = random.word();
    random.pick(&[
        0,
        1,
        2,
        3,
        4,
        16,
        17,
        255,
        256,
        (1 << 32) - 1,
        1 << 32,
        (1 << 32) + 1,
        1 << 63,
        u64::MAX - 1,
        u64::MAX,
        word,
    ])
}

fn spoil(image: &mut [u64], buffer_length: u64, random: &mut Random) {
    let list = random.pick(&LISTS);
    let row = random.below(NUMBERS.len());
    match random.below(10) {
        0 => image[random.below(WORDS)] = nasty(random),
        1 => image[random.below(8)] = nasty(random),
        2 => image[list + row] = nasty(random),
        // Any field, also one that the version does not hold, with whatever stands in its words.
        3 => image[list + row] = 1,
        4 => image[list + NUMBERS.len() + row] = nasty(random),
        5 => {
            let part = random.pick(&[4, 6]);
            spoil_part(image, part, part + 1, buffer_length, random);
        }
        6 => spoil_part(image, list + NUMBERS.len() + row, list + 2 * NUMBERS.len() + row, buffer_length, random),
        7 => spoil_set(&mut image[list + random.pick(&[126, 143, 160, 177])..], random),
        8 => image[list + 194 + random.below(7)] = nasty(random),
        _ => {
            let part = list + random.pick(&[194, 199]);
            spoil_part(image, part, part + 1, buffer_length, random);
        }
    }
}

/// Parts that end at the buffer's end, one past it, or that wrap around.
fn spoil_part(image: &mut [u64], start: usize, length: usize, buffer_length: u64, random: &mut Random) {
    let inside = random.word() % (buffer_length + 1);
    let (new_start, new_length) = random.pick(&[
        (buffer_length, 0),
        (buffer_length + 1, 0),
        (inside, buffer_length - inside),
        (inside, buffer_length - inside + 1),
        (u64::MAX, 1),
        (u64::MAX, 0),
        (u64::MAX - 1, 2),
        (1, u64::MAX),
        (inside, 0u64.wrapping_sub(inside)),
        (1 << 63, 1 << 63),
        (0, u64::MAX),
        (1 << 32, 0),
    ]);
    image[start] = new_start;
    image[length] = new_length;
}

fn spoil_set(set: &mut [u64], random: &mut Random) {
    match random.below(4) {
        0 => set[16] = random.pick(&[0, 1, 15, 16, 17, 18, 255, 256, 1 << 32, 1 << 60, u64::MAX]),
        1 => set[random.below(16)] = nasty(random),
        2 => {
            let same = set[0];
            set[1] = same;
        }
        _ => {
            for (place, slot) in set[..16].iter_mut().enumerate() {
                *slot = place as u64;
            }
            set[16] = random.between(14, 18) as u64;
        }
    }
}
