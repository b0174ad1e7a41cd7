//! The first pass: nested elements, no schema.

use super::model::{refused, Refusal};

pub const MOST_BYTES: usize = 8192;
pub const MOST_ELEMENTS: usize = 512;
pub const MOST_DEPTH: usize = 8;

#[derive(Clone, Debug)]
pub struct Element {
    pub start: usize,
    /// The first identifier octet: class, form and, up to 30, the number.
    pub first: u8,
    pub number: u64,
    pub content: usize,
    pub end: usize,
    pub inner: Vec<Element>,
}

impl Element {
    pub fn octets<'a>(&self, bytes: &'a [u8]) -> &'a [u8] {
        &bytes[self.content..self.end]
    }
}

/// The outermost element and how many elements were met; 1 to 7 else.
pub fn first_pass(bytes: &[u8]) -> Result<(Element, usize), Refusal> {
    if bytes.len() > MOST_BYTES {
        return refused(1, 0);
    }
    if bytes.is_empty() {
        return refused(2, 0);
    }
    let mut walk = Walk { bytes, met: 0 };
    let outermost = walk.element(0, bytes.len(), 1)?;
    if outermost.end < bytes.len() {
        return refused(7, outermost.end);
    }
    Ok((outermost, walk.met))
}

struct Walk<'a> {
    bytes: &'a [u8],
    met: usize,
}

impl Walk<'_> {
    /// The element at `start`, where an octet stands before `end`, the end of its holder.
    fn element(&mut self, start: usize, end: usize, depth: usize) -> Result<Element, Refusal> {
        if depth > MOST_DEPTH {
            return refused(5, start);
        }
        if self.met == MOST_ELEMENTS {
            return refused(6, start);
        }
        self.met += 1;
        let mut octets = Octets { bytes: &self.bytes[..end], start, at: start };
        let (first, number) = octets.identifier()?;
        let length = octets.length()?;
        let content = octets.at;
        if length > end - content {
            return refused(2, start);
        }
        let end = content + length;
        let holds_elements = first & 32 != 0;
        let inner = if holds_elements { self.run(content, end, depth + 1)? } else { Vec::new() };
        Ok(Element { start, first, number, content, end, inner })
    }

    fn run(&mut self, start: usize, end: usize, depth: usize) -> Result<Vec<Element>, Refusal> {
        let mut elements = Vec::new();
        let mut at = start;
        while at < end {
            let element = self.element(at, end, depth)?;
            at = element.end;
            elements.push(element);
        }
        Ok(elements)
    }
}

/// The octets of one element's header, taken one at a time.
struct Octets<'a> {
    bytes: &'a [u8],
    start: usize,
    at: usize,
}

impl Octets<'_> {
    fn next(&mut self) -> Result<u8, Refusal> {
        match self.bytes.get(self.at) {
            None => refused(2, self.start),
            Some(&octet) => {
                self.at += 1;
                Ok(octet)
            }
        }
    }

    fn identifier(&mut self) -> Result<(u8, u64), Refusal> {
        let first = self.next()?;
        if first & 31 < 31 {
            return Ok((first, u64::from(first & 31)));
        }
        let high = self.next()?;
        if high == 0x80 || high < 31 {
            return refused(3, self.start);
        }
        if high < 0x80 {
            return Ok((first, u64::from(high)));
        }
        let low = self.next()?;
        if low >= 0x80 {
            return refused(3, self.start);
        }
        Ok((first, u64::from(high & 127) << 7 | u64::from(low)))
    }

    fn length(&mut self) -> Result<usize, Refusal> {
        match self.next()? {
            short @ 0..=0x7f => Ok(usize::from(short)),
            0x81 => match self.next()? {
                0..=0x7f => refused(4, self.start),
                length => Ok(usize::from(length)),
            },
            0x82 => match self.next()? {
                0 => refused(4, self.start),
                high => Ok(usize::from(high) << 8 | usize::from(self.next()?)),
            },
            _ => refused(4, self.start),
        }
    }
}
