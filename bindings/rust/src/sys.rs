//! The C interface as include/sculldrip.h declares it, for callers who keep images themselves.
//!
//! Each function takes anything and answers one number: its low byte is 0 or a refusal's number, the rest a count, a length
//! or a place. The duties of a caller are that each pointer is good for the length beside it (of length 0 it may be null), that
//! what is lent to be written overlaps nothing else, and that the thread has [`STACK_BYTES`] of stack left.
//!
//! ```
//! let (extension, mut image) = ([0x30, 0x80], [0u64; sculldrip::sys::IMAGE_WORDS]);
//! let answer = unsafe { sculldrip::sys::sculldrip_read(extension.as_ptr(), 2, image.as_mut_ptr(), image.len()) };
//! assert_eq!((answer & 0xff, answer >> 8), (4, 0));
//! ```

/// The interface that this crate is for; [`sculldrip_version`] says the library's.
pub const VERSION: u64 = 2;
/// How many words an image has.
pub const IMAGE_WORDS: usize = 410;
/// How many words a request has.
pub const REQUEST_WORDS: usize = 16;
/// How many words a permit has.
pub const PERMIT_WORDS: usize = 4;
/// How many words a part has: its start and its length.
pub const PART_WORDS: usize = 2;
/// The most bytes that an extension has.
pub const EXTENSION_BYTES: usize = 8192;
/// The room that is enough for every listing.
pub const LISTING_BYTES: usize = 491_520;
/// The room that is enough for the listing of a refusal.
pub const REFUSED_LISTING_BYTES: usize = 64;
/// The stack that is enough for every call.
pub const STACK_BYTES: usize = 32_768;

extern "C" {
    /// The interface that the library was built for.
    pub fn sculldrip_version() -> u64;

    /// Reads an extension into an image. The rest is its count of elements.
    pub fn sculldrip_read(extension: *const u8, length: usize, image: *mut u64, words: usize) -> u64;

    /// Writes the one encoding of an image's record at the front of the output. The rest is how many bytes it has.
    pub fn sculldrip_write(
        image: *const u64,
        words: usize,
        buffer: *const u8,
        buffer_length: usize,
        output: *mut u8,
        room: usize,
    ) -> u64;

    /// Asks for an octet field by list (0 software, else hardware) and number. The rest is 1 where it is there.
    pub fn sculldrip_octets(
        image: *const u64,
        words: usize,
        hardware: u64,
        number: u64,
        buffer_length: usize,
        part: *mut u64,
        part_words: usize,
    ) -> u64;

    /// Rules on a use. The rest is 0.
    pub fn sculldrip_rule(
        image: *const u64,
        words: usize,
        request: *const u64,
        request_words: usize,
        permit: *mut u64,
        permit_words: usize,
    ) -> u64;

    /// Rules on taking on a key. The rest is 0.
    pub fn sculldrip_enrol(
        image: *const u64,
        words: usize,
        buffer: *const u8,
        buffer_length: usize,
        expected: *const u8,
        expected_length: usize,
    ) -> u64;

    /// Lists an extension, or its refusal, as text. The rest is the text's length. An accepted extension asks for 32,768 bytes
    /// of room and 56 for each of its bytes, a refusal for [`REFUSED_LISTING_BYTES`].
    pub fn sculldrip_list(extension: *const u8, length: usize, text: *mut u8, room: usize) -> u64;
}
