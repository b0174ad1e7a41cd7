//! The calls of the library, with lengths that fit what is lent. All unsafe code is here.

use crate::image::{Image, Part};
use crate::list::List;
use crate::refusal::Refusal;
use crate::request::{Permit, Request};
use crate::sys;

pub(crate) fn version() -> u64 {
    // SAFETY: nothing is lent.
    unsafe { sys::sculldrip_version() }
}

/// The count of elements.
pub(crate) fn read(bytes: &[u8], image: &mut Image) -> Result<u64, Refusal> {
    let words = image.words.len();
    // SAFETY: each pointer is good for the length beside it.
    Refusal::check(unsafe { sys::sculldrip_read(bytes.as_ptr(), bytes.len(), image.words.as_mut_ptr(), words) })
}

pub(crate) fn write(image: &Image, buffer: &[u8]) -> Result<Vec<u8>, Refusal> {
    // No encoding that is not refused is longer.
    let mut output = vec![0; sys::EXTENSION_BYTES];
    // SAFETY: each pointer is good for the length beside it.
    let answer = unsafe {
        let (words, count) = (image.words.as_ptr(), image.words.len());
        sys::sculldrip_write(words, count, buffer.as_ptr(), buffer.len(), output.as_mut_ptr(), output.len())
    };
    output.truncate(Refusal::check(answer)? as usize);
    Ok(output)
}

pub(crate) fn octets(image: &Image, list: List, number: u64, buffer_length: usize) -> Result<Option<Part>, Refusal> {
    let mut part = [0; sys::PART_WORDS];
    let hardware = u64::from(list == List::Hardware);
    // SAFETY: each pointer is good for the length beside it; the buffer itself is not looked at.
    let answer = unsafe {
        let (words, count) = (image.words.as_ptr(), image.words.len());
        sys::sculldrip_octets(words, count, hardware, number, buffer_length, part.as_mut_ptr(), part.len())
    };
    let is_there = Refusal::check(answer)? == 1;
    let [start, length] = part;
    Ok(is_there.then_some(Part { start, length }))
}

pub(crate) fn rule(image: &Image, request: &Request) -> Result<Permit, Refusal> {
    let request = request.words();
    let mut permit = [0; sys::PERMIT_WORDS];
    // SAFETY: each pointer is good for the length beside it.
    let answer = unsafe {
        let (words, count) = (image.words.as_ptr(), image.words.len());
        sys::sculldrip_rule(words, count, request.as_ptr(), request.len(), permit.as_mut_ptr(), permit.len())
    };
    Refusal::check(answer)?;
    Ok(Permit::of(permit))
}

pub(crate) fn enrol(image: &Image, buffer: &[u8], expected: &[u8]) -> Result<(), Refusal> {
    // SAFETY: each pointer is good for the length beside it.
    let answer = unsafe {
        let (words, count) = (image.words.as_ptr(), image.words.len());
        sys::sculldrip_enrol(words, count, buffer.as_ptr(), buffer.len(), expected.as_ptr(), expected.len())
    };
    Refusal::check(answer).map(|_| ())
}

/// The listing, where the room is enough for it.
fn list_into(bytes: &[u8], room: usize) -> Result<String, Refusal> {
    let mut text = vec![0; room];
    // SAFETY: each pointer is good for the length beside it.
    let answer = unsafe { sys::sculldrip_list(bytes.as_ptr(), bytes.len(), text.as_mut_ptr(), text.len()) };
    text.truncate(Refusal::check(answer)? as usize);
    Ok(String::from_utf8(text).expect("a listing is ASCII"))
}

pub(crate) fn list(bytes: &[u8]) -> String {
    // A refusal fits here: what is refused buys no memory by its length.
    list_into(bytes, sys::REFUSED_LISTING_BYTES)
        .or_else(|_| list_into(bytes, sys::LISTING_BYTES))
        .expect("there is room for any listing")
}
