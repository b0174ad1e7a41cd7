//! The crate's constants against those of include/sculldrip.h, and its version against the library's.

use std::fs;

use sculldrip::sys;

/// The number that the header defines under a name.
fn defined(header: &str, name: &str) -> u64 {
    let start = format!("#define SCULLDRIP_{name} ");
    let number = header.lines().find_map(|line| line.strip_prefix(&start)).expect(name);
    number.parse().expect(name)
}

#[test]
fn crate_header_and_library_are_of_one_version() {
    let path = concat!(env!("CARGO_MANIFEST_DIR"), "/../../include/sculldrip.h");
    let header = fs::read_to_string(path).expect(path);
    assert_eq!(sculldrip::interface_version(), sys::VERSION);
    assert_eq!(defined(&header, "VERSION"), sys::VERSION);
    for (name, number) in [
        ("IMAGE_WORDS", sys::IMAGE_WORDS),
        ("REQUEST_WORDS", sys::REQUEST_WORDS),
        ("PERMIT_WORDS", sys::PERMIT_WORDS),
        ("PART_WORDS", sys::PART_WORDS),
        ("EXTENSION_BYTES", sys::EXTENSION_BYTES),
        ("LISTING_BYTES", sys::LISTING_BYTES),
        ("REFUSED_LISTING_BYTES", sys::REFUSED_LISTING_BYTES),
        ("STACK_BYTES", sys::STACK_BYTES),
    ] {
        assert_eq!(defined(&header, name), number as u64, "{name}");
    }
}
