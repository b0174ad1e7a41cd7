//! The enrolment ruling.

use super::model::{refused, Record, Refusal, Root, Value};
use super::table::is_well_shaped;

const ROOT_OF_TRUST: u64 = 704;
const ORIGIN: u64 = 702;
const VERIFIED: u64 = 0;

pub fn enrol(record: &Record, buffer: &[u8], expected: &[u8]) -> Result<(), Refusal> {
    if !is_well_shaped(record) || !record.parts_are_inside(buffer.len()) {
        return refused(20, 0);
    }
    let expected_is_right = (1..=128).contains(&expected.len()) && record.challenge.of(buffer) == expected;
    if !expected_is_right {
        return refused(50, 0);
    }
    if record.has_software_level() {
        return refused(51, 0);
    }
    let Some(Value::Root(Root { locked, state, .. })) = record.hardware.get(&ROOT_OF_TRUST) else {
        return refused(52, 0);
    };
    if !locked {
        return refused(53, 0);
    }
    if *state != VERIFIED {
        return refused(54, 0);
    }
    if record.hardware.get(&ORIGIN) != Some(&Value::Number(0)) {
        return refused(55, 0);
    }
    Ok(())
}
