//! The reader: the first pass, then the schema in byte order.

use super::der::{first_pass, Element};
use super::model::{refused, Fields, Part, Record, Refusal, Root, Value};
use super::table::{self, Kind, MOST_MEMBERS, TOP_32, TOP_STATE};

const BOOLEAN: u8 = 0x01;
const INTEGER: u8 = 0x02;
const OCTET_STRING: u8 = 0x04;
const NULL: u8 = 0x05;
const ENUMERATED: u8 = 0x0a;
const SEQUENCE: u8 = 0x30;
const SET: u8 = 0x31;

/// The record and its count of elements.
pub fn read(bytes: &[u8]) -> Result<(Record, u64), Refusal> {
    let (outermost, met) = first_pass(bytes)?;
    let record = Schema { bytes }.key_description(&outermost)?;
    Ok((record, met as u64))
}

/// The elements of one holder, in turn.
struct Run<'a> {
    rest: &'a [Element],
    end: usize,
}

impl<'a> Run<'a> {
    fn of(holder: &'a Element) -> Run<'a> {
        Run { rest: &holder.inner, end: holder.end }
    }

    fn next(&mut self, identifier: u8) -> Result<&'a Element, Refusal> {
        let Some((element, rest)) = self.rest.split_first() else {
            return refused(9, self.end);
        };
        self.rest = rest;
        expect(element, identifier)?;
        Ok(element)
    }

    fn finish(self) -> Result<(), Refusal> {
        match self.rest.first() {
            Some(extra) => refused(9, extra.start),
            None => Ok(()),
        }
    }
}

fn expect(element: &Element, identifier: u8) -> Result<(), Refusal> {
    if element.first == identifier {
        Ok(())
    } else {
        refused(9, element.start)
    }
}

struct Schema<'a> {
    bytes: &'a [u8],
}

impl Schema<'_> {
    fn key_description(&self, outermost: &Element) -> Result<Record, Refusal> {
        expect(outermost, SEQUENCE)?;
        let mut run = Run::of(outermost);
        let version = self.version(run.next(INTEGER)?)?;
        let top_level = table::top_level(version);
        let level = self.number(run.next(ENUMERATED)?, top_level)?;
        let keymint = self.number(run.next(INTEGER)?, TOP_32)?;
        let keymint_level = self.number(run.next(ENUMERATED)?, top_level)?;
        let challenge = part(run.next(OCTET_STRING)?);
        let unique = part(run.next(OCTET_STRING)?);
        let software = self.list(run.next(SEQUENCE)?, version)?;
        let hardware = self.list(run.next(SEQUENCE)?, version)?;
        run.finish()?;
        Ok(Record { version, level, keymint, keymint_level, challenge, unique, software, hardware })
    }

    fn version(&self, element: &Element) -> Result<u64, Refusal> {
        let version = self.number(element, TOP_32)?;
        if table::is_version(version) {
            Ok(version)
        } else {
            refused(8, element.start)
        }
    }

    /// The content of an INTEGER or ENUMERATED: shortest, not negative, within its top.
    fn number(&self, element: &Element, top: u64) -> Result<u64, Refusal> {
        match shortest_number(element.octets(self.bytes)) {
            Some(number) if number <= top => Ok(number),
            _ => refused(10, element.start),
        }
    }

    fn list(&self, list: &Element, version: u64) -> Result<Fields, Refusal> {
        let mut fields = Fields::new();
        let mut before = None;
        for field in &list.inner {
            let value = self.field(field, version, before)?;
            before = Some(field.number);
            fields.insert(field.number, value);
        }
        Ok(fields)
    }

    fn field(&self, field: &Element, version: u64, before: Option<u64>) -> Result<Value, Refusal> {
        let is_explicit_context_tag = field.first & 0xe0 == 0xa0;
        if !is_explicit_context_tag {
            return refused(9, field.start);
        }
        let Some(kind) = table::kind(field.number).filter(|_| table::holds(version, field.number)) else {
            return refused(11, field.start);
        };
        if before.is_some_and(|before| field.number <= before) {
            return refused(12, field.start);
        }
        let mut run = Run::of(field);
        let value = match kind {
            Kind::Set => Value::Set(self.set(run.next(SET)?)?),
            Kind::Number { top } => Value::Number(self.number(run.next(INTEGER)?, top)?),
            Kind::Null => self.null(run.next(NULL)?)?,
            Kind::Octets => Value::Octets(part(run.next(OCTET_STRING)?)),
            Kind::Root => Value::Root(self.root(run.next(SEQUENCE)?, version)?),
        };
        run.finish()?;
        Ok(value)
    }

    fn set(&self, set: &Element) -> Result<Vec<u64>, Refusal> {
        let mut members: Vec<u64> = Vec::new();
        for element in &set.inner {
            if members.len() == MOST_MEMBERS {
                return refused(14, element.start);
            }
            expect(element, INTEGER)?;
            let member = self.number(element, TOP_32)?;
            if members.last().is_some_and(|&before| member <= before) {
                return refused(13, element.start);
            }
            members.push(member);
        }
        Ok(members)
    }

    fn null(&self, element: &Element) -> Result<Value, Refusal> {
        if element.octets(self.bytes).is_empty() {
            Ok(Value::Yes)
        } else {
            refused(10, element.start)
        }
    }

    fn root(&self, sequence: &Element, version: u64) -> Result<Root, Refusal> {
        let mut run = Run::of(sequence);
        let key = part(run.next(OCTET_STRING)?);
        let locked = self.boolean(run.next(BOOLEAN)?)?;
        let state = self.number(run.next(ENUMERATED)?, TOP_STATE)?;
        let hash = match table::has_boot_hash(version) {
            true => Some(part(run.next(OCTET_STRING)?)),
            false => None,
        };
        run.finish()?;
        Ok(Root { key, locked, state, hash })
    }

    fn boolean(&self, element: &Element) -> Result<bool, Refusal> {
        match element.octets(self.bytes) {
            [0x00] => Ok(false),
            [0xff] => Ok(true),
            _ => refused(10, element.start),
        }
    }
}

fn part(element: &Element) -> Part {
    Part { start: element.content as u64, length: (element.end - element.content) as u64 }
}

/// A shortest, non-negative two's complement number to 2^64-1.
fn shortest_number(octets: &[u8]) -> Option<u64> {
    let magnitude = match octets {
        [] | [0x80..=0xff, ..] | [0, 0..=0x7f, ..] => return None,
        [0, rest @ ..] if !rest.is_empty() => rest,
        all => all,
    };
    if magnitude.len() > 8 {
        return None;
    }
    Some(magnitude.iter().fold(0, |number, &octet| number << 8 | u64::from(octet)))
}
