//! The words of an image, by their places in include/sculldrip.h.

use crate::field::{row_of, FlagField, NumberField, OctetField, SetField, ROOT_OF_TRUST as ROOT_OF_TRUST_NUMBER};
use crate::list::List;
use crate::sys::IMAGE_WORDS;

/// SCULLDRIP_FIELD_NUMBERS: row k of a list is that of the k-th number.
pub(crate) const NUMBERS: [u16; 42] = [
    1, 2, 3, 5, 6, 10, 200, 203, 303, 305, 400, 401, 402, 405, 503, 504, 505, 506, 507, 508, 509, 600, 601, 701, 702, 703,
    704, 705, 706, 709, 710, 711, 712, 713, 714, 715, 716, 717, 718, 719, 720, 723,
];

pub(crate) const VERSION: usize = 0;
pub(crate) const LEVEL: usize = 1;
pub(crate) const KEYMINT_VERSION: usize = 2;
pub(crate) const KEYMINT_LEVEL: usize = 3;
pub(crate) const CHALLENGE: usize = 4;
pub(crate) const UNIQUE_ID: usize = 6;

const SOFTWARE: usize = 8;
const HARDWARE: usize = 209;
const NUMBER: usize = NUMBERS.len();
const LENGTH: usize = 2 * NUMBERS.len();
const SLOTS: usize = 16;
const ROOT_OF_TRUST: usize = 194;

/// Octets as where they lie.
#[derive(Clone, Copy, Debug, PartialEq, Eq)]
pub(crate) struct Part {
    pub start: u64,
    pub length: u64,
}

impl Part {
    /// The octets of a part that lies in the bytes, as those of accepted extensions and of records do.
    pub fn of(self, bytes: &[u8]) -> &[u8] {
        &bytes[self.start as usize..][..self.length as usize]
    }
}

/// A root of trust's words.
pub(crate) struct RootWords {
    pub key: Part,
    pub locked: bool,
    pub state: u64,
    pub hash: Option<Part>,
}

#[derive(Clone, PartialEq, Eq)]
pub(crate) struct Image {
    pub words: Box<[u64; IMAGE_WORDS]>,
}

impl Image {
    /// The image of a record of nothing.
    pub fn new() -> Image {
        Image { words: Box::new([0; IMAGE_WORDS]) }
    }

    pub fn part(&self, word: usize) -> Part {
        Part { start: self.words[word], length: self.words[word + 1] }
    }

    pub fn set_part(&mut self, word: usize, part: Part) {
        self.words[word] = part.start;
        self.words[word + 1] = part.length;
    }

    fn has(&self, list: List, row: usize) -> bool {
        self.words[first_word(list) + row] == 1
    }

    fn add(&mut self, list: List, row: usize) {
        self.words[first_word(list) + row] = 1;
    }

    pub fn remove(&mut self, list: List, number: u16) {
        if let Some(row) = NUMBERS.iter().position(|&known| known == number) {
            self.words[first_word(list) + row] = 0;
        }
    }

    /// How many members a present set was given, which may be more than there are slots.
    pub fn count(&self, list: List, field: SetField) -> Option<u64> {
        self.has(list, field.row()).then(|| self.words[first_word(list) + slots_of(field) + SLOTS])
    }

    pub fn members(&self, list: List, field: SetField) -> Option<&[u64]> {
        let slots = first_word(list) + slots_of(field);
        let count = self.words[slots + SLOTS].min(SLOTS as u64);
        self.has(list, field.row()).then(|| &self.words[slots..slots + count as usize])
    }

    /// The count is that of all members, so that too many of them are no set with fewer.
    pub fn set_members(&mut self, list: List, field: SetField, members: &[u32]) {
        let slots = first_word(list) + slots_of(field);
        for (slot, &member) in self.words[slots..slots + SLOTS].iter_mut().zip(members) {
            *slot = u64::from(member);
        }
        self.words[slots + SLOTS] = members.len() as u64;
        self.add(list, field.row());
    }

    pub fn number(&self, list: List, field: NumberField) -> Option<u64> {
        self.has(list, field.row()).then(|| self.words[first_word(list) + NUMBER + field.row()])
    }

    pub fn set_number(&mut self, list: List, field: NumberField, number: u64) {
        self.words[first_word(list) + NUMBER + field.row()] = number;
        self.add(list, field.row());
    }

    pub fn flag(&self, list: List, field: FlagField) -> bool {
        self.has(list, field.row())
    }

    pub fn set_flag(&mut self, list: List, field: FlagField) {
        self.add(list, field.row());
    }

    pub fn octets(&self, list: List, field: OctetField) -> Option<Part> {
        let (start, length) = (first_word(list) + NUMBER + field.row(), first_word(list) + LENGTH + field.row());
        self.has(list, field.row()).then(|| Part { start: self.words[start], length: self.words[length] })
    }

    pub fn set_octets(&mut self, list: List, field: OctetField, part: Part) {
        let start = first_word(list) + NUMBER + field.row();
        let length = first_word(list) + LENGTH + field.row();
        self.words[start] = part.start;
        self.words[length] = part.length;
        self.add(list, field.row());
    }

    pub fn root_of_trust(&self, list: List) -> Option<RootWords> {
        let at = first_word(list) + ROOT_OF_TRUST;
        self.has(list, row_of(ROOT_OF_TRUST_NUMBER)).then(|| RootWords {
            key: self.part(at),
            locked: self.words[at + 2] == 1,
            state: self.words[at + 3],
            hash: (self.words[at + 4] == 1).then(|| self.part(at + 5)),
        })
    }

    pub fn set_root_of_trust(&mut self, list: List, root: RootWords) {
        let at = first_word(list) + ROOT_OF_TRUST;
        self.set_part(at, root.key);
        self.words[at + 2] = u64::from(root.locked);
        self.words[at + 3] = root.state;
        self.words[at + 4] = u64::from(root.hash.is_some());
        self.set_part(at + 5, root.hash.unwrap_or(Part { start: 0, length: 0 }));
        self.add(list, row_of(ROOT_OF_TRUST_NUMBER));
    }
}

fn first_word(list: List) -> usize {
    match list {
        List::Software => SOFTWARE,
        List::Hardware => HARDWARE,
    }
}

fn slots_of(field: SetField) -> usize {
    match field {
        SetField::Purpose => 126,
        SetField::Digest => 143,
        SetField::Padding => 160,
        SetField::MgfDigest => 177,
    }
}
