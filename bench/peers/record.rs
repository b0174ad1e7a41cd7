// The structs of record.h, for the peers in Rust.
#[repr(C)]
#[derive(Clone, Copy, Default)]
pub struct Part {
    pub start: usize,
    pub len: usize,
}

#[repr(C)]
#[derive(Clone, Copy, Default)]
pub struct NumberSet {
    pub members: [u32; 16],
    pub count: usize,
}

#[repr(C)]
#[derive(Default)]
pub struct RootOfTrust {
    pub key: Part,
    pub locked: bool,
    pub state: u32,
    pub hashed: bool,
    pub hash: Part,
}

#[repr(C)]
pub struct FieldList {
    pub present: [bool; 42],
    pub values: [u64; 42],
    pub sizes: [u64; 42],
    pub purpose: NumberSet,
    pub digest: NumberSet,
    pub padding: NumberSet,
    pub mgf_digest: NumberSet,
    pub root: RootOfTrust,
}

impl Default for FieldList {
    fn default() -> Self {
        FieldList {
            present: [false; 42],
            values: [0; 42],
            sizes: [0; 42],
            purpose: NumberSet::default(),
            digest: NumberSet::default(),
            padding: NumberSet::default(),
            mgf_digest: NumberSet::default(),
            root: RootOfTrust::default(),
        }
    }
}

#[repr(C)]
#[derive(Clone, Copy, Default)]
pub struct Security {
    pub version: u32,
    pub level: u32,
}

#[repr(C)]
#[derive(Default)]
pub struct Record {
    pub attestation: Security,
    pub keymint: Security,
    pub challenge: Part,
    pub unique: Part,
    pub software: FieldList,
    pub hardware: FieldList,
}

pub type Summing = extern "C" fn(*const Record, *const u8) -> u64;

// Where a part of the bytes lies in them.
pub fn part_of(bytes: &[u8], octets: &[u8]) -> Part {
    Part {
        start: octets.as_ptr() as usize - bytes.as_ptr() as usize,
        len: octets.len(),
    }
}
