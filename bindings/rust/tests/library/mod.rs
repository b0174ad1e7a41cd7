//! The library's functions over slices of any length: the pointers are good for the lengths, and nothing else is promised.
#![allow(dead_code)]

use std::ptr::{null, null_mut};

use sculldrip::sys;

/// Nothing is lent as C callers do: no bytes, and no place.
fn place<T>(lent: &[T]) -> *const T {
    if lent.is_empty() {
        null()
    } else {
        lent.as_ptr()
    }
}

fn place_mut<T>(lent: &mut [T]) -> *mut T {
    if lent.is_empty() {
        null_mut()
    } else {
        lent.as_mut_ptr()
    }
}

pub fn read(extension: &[u8], image: &mut [u64]) -> u64 {
    // SAFETY: each pointer is good for the length beside it; so below.
    unsafe { sys::sculldrip_read(place(extension), extension.len(), place_mut(image), image.len()) }
}

pub fn write(image: &[u64], buffer: &[u8], output: &mut [u8]) -> u64 {
    let (words, bytes) = (place(image), place(buffer));
    unsafe { sys::sculldrip_write(words, image.len(), bytes, buffer.len(), place_mut(output), output.len()) }
}

pub fn octets(image: &[u64], hardware: u64, number: u64, buffer_length: usize, part: &mut [u64]) -> u64 {
    let words = place(image);
    unsafe { sys::sculldrip_octets(words, image.len(), hardware, number, buffer_length, place_mut(part), part.len()) }
}

pub fn rule(image: &[u64], request: &[u64], permit: &mut [u64]) -> u64 {
    let (words, asked) = (place(image), place(request));
    unsafe { sys::sculldrip_rule(words, image.len(), asked, request.len(), place_mut(permit), permit.len()) }
}

pub fn enrol(image: &[u64], buffer: &[u8], expected: &[u8]) -> u64 {
    let (words, bytes) = (place(image), place(buffer));
    unsafe { sys::sculldrip_enrol(words, image.len(), bytes, buffer.len(), place(expected), expected.len()) }
}

pub fn list(extension: &[u8], text: &mut [u8]) -> u64 {
    unsafe { sys::sculldrip_list(place(extension), extension.len(), place_mut(text), text.len()) }
}
