//! The reference against every case with a given answer. This needs no library: it says how far the reference, which the
//! library is compared with, can be relied on.

mod cases;
mod json;
mod reference;

use cases::{cases, record, request, wanted, wanted_part, wanted_permit};
use json::Json;
use reference::{enrol::enrol, listing::listing, model, rule::rule, write::write};

#[test]
fn reader() {
    for case in cases("reader") {
        let hex = case.member("hex");
        assert_eq!(listing(&hex.hex()), case.member("listing").text(), "of {}", hex.text());
    }
}

#[test]
fn writer() {
    for case in cases("writer") {
        let room = case.member("outlen").number() as usize;
        let answer = write(&record(&case), &case.member("buffer").hex(), room);
        assert_eq!(answer, wanted(&case, |want| want.member("ok").hex()), "of {case:?}");
    }
}

#[test]
fn octets() {
    for case in cases("octets") {
        let is_hardware = case.member("list").text() == "hardware";
        let buffer_length = case.member("buffer_len").number() as usize;
        let answer = model::octets(&record(&case), is_hardware, case.member("number").number(), buffer_length);
        assert_eq!(answer, wanted_part(&case), "of {case:?}");
    }
}

#[test]
fn ruling() {
    for case in cases("ruling") {
        assert_eq!(rule(&record(&case), &request(&case)), wanted_permit(&case), "of {case:?}");
    }
}

#[test]
fn enrolment() {
    for case in cases("enrol") {
        let (buffer, expected) = (case.member("buffer").hex(), case.member("expected").hex());
        let yes = |want: &Json| assert_eq!(want.member("answer").text(), "yes");
        assert_eq!(enrol(&record(&case), &buffer, &expected), wanted(&case, yes), "of {case:?}");
    }
}

/// A well-shaped record survives being laid out as an image, which the comparison with the library relies on.
#[test]
fn images() {
    for case in ["writer", "ruling", "enrol"].into_iter().flat_map(cases) {
        let record = record(&case);
        if reference::table::is_well_shaped(&record) {
            let mut image = vec![1; reference::image::WORDS];
            reference::image::lay_out(&record, &mut image);
            assert_eq!(reference::image::record_of(&image), Some(record));
        }
    }
}
