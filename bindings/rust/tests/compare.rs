//! The library against the reference, over inputs made from a seed.
//!
//! SCULLDRIP_INPUTS is how many inputs there are, SCULLDRIP_SEED the first one's seed: input i has seed + i, so that
//! `SCULLDRIP_SEED=<seed> SCULLDRIP_INPUTS=1` makes just the input of a reported difference again.

mod cases;
mod generator;
mod json;
mod library;
mod reference;

use std::io::Write;

use generator::records::Stored;
use generator::{extensions, images, records, requests, Random};
use reference::rule::{rule, Permit, Request};
use reference::{enrol::enrol, image, listing::listing, listing::room, model, read::read, table, write::write};
use reference::{Part, Record, Refusal, Value};
use sculldrip::{sys, Extension, FlagField, List, NumberField, OctetField, SetField};

const DEFAULT_INPUTS: u64 = 200_000;
const DEFAULT_SEED: u64 = 1;
const MOST_DIFFERENCES: usize = 20;
const SHORT: u64 = sculldrip::Refusal::SHORT_IMAGE as u64;
const FILL: u64 = 0xa5a5_a5a5_a5a5_a5a5;

fn setting(name: &str, default: u64) -> u64 {
    match std::env::var(name) {
        Ok(text) => text.parse().unwrap_or_else(|_| panic!("{name} is no number: {text}")),
        Err(_) => default,
    }
}

#[test]
fn library_and_reference_agree() {
    let inputs = setting("SCULLDRIP_INPUTS", DEFAULT_INPUTS);
    let first_seed = setting("SCULLDRIP_SEED", DEFAULT_SEED);
    let mut comparison = Comparison::new();
    for input in 0..inputs {
        comparison.compare_input(first_seed.wrapping_add(input));
        if comparison.differences >= MOST_DIFFERENCES {
            break;
        }
    }
    comparison.print_histogram(inputs, first_seed);
    assert_eq!(comparison.differences, 0, "differences between the library and the reference, printed above");
    if inputs >= DEFAULT_INPUTS {
        comparison.assert_every_answer_occurred();
    }
}

/// The cases with given answers, of the library itself.
#[test]
fn library_passes_the_cases() {
    let mut comparison = Comparison::new();
    for case in cases::cases("reader") {
        comparison.check_list(&case.member("hex").hex(), &mut Random::new(1));
        assert_eq!(sculldrip::listing(&case.member("hex").hex()), case.member("listing").text());
    }
    for case in cases::cases("writer").iter().filter(|case| fits_an_image(&cases::record(case))) {
        let room = case.member("outlen").number() as usize;
        let wanted = cases::wanted(case, |want| want.member("ok").hex());
        comparison.check_write_into(&image_of(case), &case.member("buffer").hex(), room, wanted);
    }
    for case in cases::cases("octets") {
        let hardware = u64::from(case.member("list").text() == "hardware");
        let asked = (hardware, case.member("number").number(), case.member("buffer_len").number() as usize);
        comparison.check_asked_octets(&image_of(&case), asked, sys::PART_WORDS, cases::wanted_part(&case));
    }
    for case in cases::cases("ruling") {
        let asked = requests::words(&cases::request(&case), &mut Random::new(1));
        comparison.check_ruling(&image_of(&case), &asked, sys::PERMIT_WORDS, cases::wanted_permit(&case));
    }
    for case in cases::cases("enrol") {
        let (buffer, expected) = (case.member("buffer").hex(), case.member("expected").hex());
        comparison.check_enrolment(&image_of(&case), &buffer, &expected, cases::wanted(&case, |_| ()));
    }
    assert_eq!(comparison.differences, 0, "cases that the library answers otherwise, printed above");
}

fn image_of(case: &json::Json) -> Vec<u64> {
    images::image(&cases::record(case), &mut Random::new(1))
}

/// An image has a place for the fields of the table alone.
fn fits_an_image(record: &Record) -> bool {
    record.lists().into_iter().all(|list| list.keys().all(|&number| table::kind(number).is_some()))
}

/// What the calls were, and how they were answered.
struct Comparison {
    seed: u64,
    differences: usize,
    /// Calls answered by each number, by the reference's word.
    answered: Vec<u64>,
    /// Calls that were not refused, by the function's name.
    accepted: std::collections::BTreeMap<&'static str, u64>,
}

impl Comparison {
    fn new() -> Comparison {
        Comparison { seed: 0, differences: 0, answered: vec![0; 256], accepted: Default::default() }
    }

    fn compare_input(&mut self, seed: u64) {
        self.seed = seed;
        let mut random = Random::new(seed);
        match random.below(100) {
            0..=54 => self.compare_extension(&mut random),
            55..=74 => self.compare_aimed_use(&mut random),
            75..=81 => self.compare_record(&mut random),
            82..=88 => self.compare_enrolment(&mut random),
            _ => self.compare_hostile_image(&mut random),
        }
    }

    fn compare_extension(&mut self, random: &mut Random) {
        let bytes = extensions::extension(random);
        self.check_list(&bytes, random);
        let Some((image, record)) = self.check_read(&bytes, random) else { return };
        self.check_write(&image, &bytes, random);
        self.check_octets(&image, bytes.len(), random);
        let request = requests::near(&record, random);
        self.check_rule(&image, &request, random);
        let expected = expected_challenge(&record, &bytes, random);
        self.check_enrol(&image, &bytes, &expected, random);
        if random.once_in(8) {
            self.check_crate(&bytes, &record);
            self.check_crate_rulings(&bytes, &record, &request, &expected);
        }
    }

    fn compare_aimed_use(&mut self, random: &mut Random) {
        let (record, request) = requests::aimed(random);
        let image = images::image(&record, random);
        self.check_rule(&image, &request, random);
    }

    fn compare_record(&mut self, random: &mut Random) {
        let Stored { record, buffer } = match random.below(6) {
            0 => records::at_the_limit(random),
            _ => records::well_shaped(random),
        };
        let image = images::image(&record, random);
        self.check_write(&image, &buffer, random);
        self.check_octets(&image, buffer.len(), random);
    }

    fn compare_enrolment(&mut self, random: &mut Random) {
        let Stored { record, buffer } = enrollable(random);
        let expected = expected_challenge(&record, &buffer, random);
        let image = images::image(&record, random);
        self.check_enrol(&image, &buffer, &expected, random);
    }

    fn compare_hostile_image(&mut self, random: &mut Random) {
        let (mut stored, mut request) = (enrollable(random), None);
        if random.flip() {
            let (record, aimed) = requests::aimed(random);
            stored.record.software = record.software;
            stored.record.hardware.extend(record.hardware);
            stored.record.version = record.version;
            request = Some(aimed);
        }
        let image = images::hostile(&stored, random);
        let request = request.unwrap_or_else(|| requests::near(&stored.record, random));
        let expected = expected_challenge(&stored.record, &stored.buffer, random);
        self.check_write(&image, &stored.buffer, random);
        self.check_octets(&image, stored.buffer.len(), random);
        self.check_rule(&image, &request, random);
        self.check_enrol(&image, &stored.buffer, &expected, random);
    }

    fn check_read(&mut self, bytes: &[u8], random: &mut Random) -> Option<(Vec<u64>, Record)> {
        let words = lent_words(sys::IMAGE_WORDS, random);
        let mut image = vec![FILL; words];
        let lent = bytes.to_vec();
        let answer = library::read(&lent, &mut image);
        let wanted = if words < sys::IMAGE_WORDS { refusal(SHORT) } else { read(bytes) };
        let input = || format!("extension {} image words {words}", hex(bytes));
        self.check_answer("read", answer, wanted.clone().map(|(_, elements)| elements), &input);
        self.check("read: the extension is unchanged", lent == bytes, &input);
        let Ok((record, _)) = wanted else {
            self.check("read: a refusal changes no word", image.iter().all(|&word| word == FILL), &input);
            return None;
        };
        let got = image::record_of(&image);
        self.check("read: the record", got.as_ref() == Some(&record), &|| {
            format!("{}\n  library {got:?}\n  reference {record:?}", input())
        });
        let spare = &image[sys::IMAGE_WORDS..];
        self.check("read: spare words", spare.iter().all(|&word| word == FILL), &input);
        image.truncate(sys::IMAGE_WORDS);
        (got.as_ref() == Some(&record)).then_some((image, record))
    }

    fn check_list(&mut self, bytes: &[u8], random: &mut Random) {
        let needed = room(bytes);
        let room = match random.below(40) {
            0 => needed - 1,
            1 => random.below(needed),
            2 => needed + random.below(9),
            _ => needed,
        };
        let mut text = vec![FILL as u8; room];
        let answer = library::list(bytes, &mut text);
        let wanted = listing(bytes);
        let input = || format!("extension {} room {room}", hex(bytes));
        if room < needed {
            self.check_answer("list", answer, refusal(21), &input);
            self.check("list: a refusal changes no byte", is_filled(&text), &input);
            return;
        }
        self.check_answer("list", answer, Ok(wanted.len() as u64), &input);
        self.check("list: the text", text.starts_with(wanted.as_bytes()), &|| {
            let got = String::from_utf8_lossy(&text[..wanted.len()]).into_owned();
            format!("{}\n  library {got:?}\n  reference {wanted:?}", input())
        });
        self.check("list: spare bytes", is_filled(&text[wanted.len()..]), &input);
    }

    fn check_write(&mut self, image: &[u64], buffer: &[u8], random: &mut Random) {
        let words = lent_words(sys::IMAGE_WORDS, random);
        let lent = resized(image, words);
        let record = image::record_of(image);
        let with_room = |room: usize| match (&record, words < sys::IMAGE_WORDS) {
            (_, true) => refusal(SHORT),
            (None, _) => refusal(20),
            (Some(record), _) => write(record, buffer, room),
        };
        let length = with_room(usize::MAX).map_or(0, |bytes| bytes.len());
        for room in [length.saturating_sub(1), length, length + 1 + random.below(20), random.below(8300)] {
            self.check_write_into(&lent, buffer, room, with_room(room));
        }
        self.check("write: the image is unchanged", lent == resized(image, words), &|| words_text(image));
    }

    fn check_write_into(&mut self, image: &[u64], buffer: &[u8], room: usize, wanted: Result<Vec<u8>, Refusal>) {
        let mut output = vec![FILL as u8; room];
        let answer = library::write(image, buffer, &mut output);
        let input = || format!("{} buffer {} room {room}", words_text(image), hex(buffer));
        self.check_answer("write", answer, length_of(&wanted), &input);
        let written = wanted.unwrap_or_default();
        self.check("write: the bytes", output.starts_with(&written), &|| {
            format!("{}\n  library {}\n  reference {}", input(), hex(&output), hex(&written))
        });
        let spare = output.get(written.len()..).unwrap_or_default();
        self.check("write: spare bytes", is_filled(spare), &input);
    }

    fn check_octets(&mut self, image: &[u64], buffer_length: usize, random: &mut Random) {
        let record = image::record_of(image);
        let known = random.pick(&[709, 710, 711, 712, 713, 714, 715, 716, 717, 723, 601]);
        let other = random.pick(&[0, 1, 704, 708, 718, 724, 709 + (1 << 32), 65_536 + 709, u64::MAX]);
        for number in [known, other, random.pick(&table::NUMBERS), random.number(u64::MAX)] {
            let buffer_length = random.pick(&[buffer_length, buffer_length, buffer_length / 2, usize::MAX, 0]);
            let hardware = random.pick(&[0, 0, 1, 1, 2, 1 << 32, u64::MAX]);
            let words = lent_words(sys::IMAGE_WORDS, random);
            let part_words = lent_words(sys::PART_WORDS, random);
            let is_short = words < sys::IMAGE_WORDS || part_words < sys::PART_WORDS;
            let wanted = match (&record, is_short) {
                (_, true) => refusal(SHORT),
                (None, _) => refusal(20),
                (Some(record), _) => model::octets(record, hardware != 0, number, buffer_length),
            };
            self.check_asked_octets(&resized(image, words), (hardware, number, buffer_length), part_words, wanted);
        }
    }

    fn check_asked_octets(
        &mut self,
        image: &[u64],
        asked: (u64, u64, usize),
        part_words: usize,
        wanted: Result<Option<Part>, Refusal>,
    ) {
        let (hardware, number, buffer_length) = asked;
        let mut part = vec![FILL; part_words];
        let answer = library::octets(image, hardware, number, buffer_length, &mut part);
        let input = || {
            let asked = format!("hardware {hardware} number {number} buffer length {buffer_length}");
            format!("{} {asked} part words {part_words}", words_text(image))
        };
        self.check_answer("octets", answer, wanted.map(|part| u64::from(part.is_some())), &input);
        let mut expected = vec![FILL; part_words];
        if let Ok(Some(Part { start, length })) = wanted {
            expected[0] = start;
            expected[1] = length;
        }
        self.check("octets: the part", part == expected, &|| format!("{}\n  library {part:?} {wanted:?}", input()));
    }

    fn check_rule(&mut self, image: &[u64], request: &Request, random: &mut Random) {
        let words = lent_words(sys::IMAGE_WORDS, random);
        let request_words = lent_words(sys::REQUEST_WORDS, random);
        let permit_words = lent_words(sys::PERMIT_WORDS, random);
        let asked = resized(&requests::words(request, random), request_words);
        let is_short = words < sys::IMAGE_WORDS || request_words < sys::REQUEST_WORDS || permit_words < sys::PERMIT_WORDS;
        let wanted = match (image::record_of(image), is_short) {
            (_, true) => refusal(SHORT),
            (None, _) => refusal(20),
            (Some(record), _) => rule(&record, request),
        };
        self.check_ruling(&resized(image, words), &asked, permit_words, wanted);
    }

    fn check_ruling(&mut self, image: &[u64], asked: &[u64], permit_words: usize, wanted: Result<Permit, Refusal>) {
        let mut permit = vec![FILL; permit_words];
        let answer = library::rule(image, asked, &mut permit);
        let input = || format!("{} request {asked:?} permit words {permit_words}", words_text(image));
        self.check_answer("rule", answer, wanted.map(|_| 0), &input);
        let mut expected = vec![FILL; permit_words];
        if let Ok(Permit { hardware, software }) = wanted {
            let counted = |mark: u64| [mark, u64::from(mark.count_ones())];
            expected[..4].copy_from_slice(&[counted(hardware), counted(software)].concat());
        }
        self.check("rule: the permit", permit == expected, &|| {
            format!("{}\n  library {permit:?}\n  reference {expected:?}", input())
        });
    }

    fn check_enrol(&mut self, image: &[u64], buffer: &[u8], expected: &[u8], random: &mut Random) {
        let words = lent_words(sys::IMAGE_WORDS, random);
        let wanted = match (image::record_of(image), words < sys::IMAGE_WORDS) {
            (_, true) => refusal(SHORT),
            (None, _) => refusal(20),
            (Some(record), _) => enrol(&record, buffer, expected),
        };
        self.check_enrolment(&resized(image, words), buffer, expected, wanted);
    }

    fn check_enrolment(&mut self, image: &[u64], buffer: &[u8], expected: &[u8], wanted: Result<(), Refusal>) {
        let answer = library::enrol(image, buffer, expected);
        let input = || format!("{} buffer {} expected {}", words_text(image), hex(buffer), hex(expected));
        self.check_answer("enrol", answer, wanted.map(|()| 0), &input);
    }

    /// The typed crate hands out what the reference read.
    fn check_crate(&mut self, bytes: &[u8], record: &Record) {
        let input = || format!("extension {}", hex(bytes));
        let Ok(extension) = Extension::read(bytes) else {
            return self.check("crate: accepts", false, &input);
        };
        self.check("crate: challenge", extension.challenge() == record.challenge.of(bytes), &input);
        self.check("crate: uniqueId", extension.unique_id() == record.unique.of(bytes), &input);
        let versions = [extension.version(), extension.keymint_version()].map(u64::from);
        let levels = [extension.level() as u64, extension.keymint_level() as u64];
        let [version, keymint] = versions;
        self.check("crate: versions", version == record.version && keymint == record.keymint, &input);
        self.check("crate: levels", levels == [record.level, record.keymint_level], &input);
        self.check("crate: listing", extension.to_string() == listing(bytes), &input);
        self.check("crate: written again", extension.write().as_deref() == Ok(bytes), &input);
        let written = extension.to_record().write();
        self.check("crate: written as a record", written.as_deref() == Ok(bytes), &input);
        self.check("crate: equal to a copy", rebuilt(&extension) == extension.to_record(), &input);
        for (list, is_hardware) in [(List::Software, false), (List::Hardware, true)] {
            let got = fields_of(&extension, list);
            let want: Vec<(u64, String)> =
                record.list(is_hardware).iter().map(|(&number, value)| (number, text_of(value, bytes))).collect();
            self.check("crate: fields", got == want, &|| format!("{}\n  crate {got:?}\n  reference {want:?}", input()));
        }
    }

    fn check_crate_rulings(&mut self, bytes: &[u8], record: &Record, request: &Request, expected: &[u8]) {
        let input = || format!("extension {} request {request:?} expected {}", hex(bytes), hex(expected));
        let Ok(extension) = Extension::read(bytes) else { return };
        let plain = |refusal: sculldrip::Refusal| Refusal { number: u64::from(refusal.number), place: refusal.place };
        let permit = extension
            .rule(&typed(request))
            .map_err(plain)
            .map(|permit| Permit { hardware: u64::from(permit.hardware.bits), software: u64::from(permit.software.bits) });
        self.check("crate: use", permit == rule(record, request), &input);
        let enrolled = extension.enrol(expected).map_err(plain);
        self.check("crate: enrolment", enrolled == enrol(record, bytes, expected), &input);
    }

    /// Counts the reference's answer, and compares the library's with it.
    fn check_answer(
        &mut self,
        function: &'static str,
        answer: u64,
        wanted: Result<u64, Refusal>,
        input: &dyn Fn() -> String,
    ) {
        let (number, rest) = match wanted {
            Ok(rest) => (0, rest),
            Err(Refusal { number, place }) => (number, place),
        };
        self.answered[number as usize] += 1;
        if number == 0 {
            *self.accepted.entry(function).or_default() += 1;
        }
        let got = (answer & 0xff, answer >> 8);
        self.check(function, got == (number, rest), &|| {
            format!("{}\n  library {got:?}\n  reference {:?}", input(), (number, rest))
        });
    }

    fn check(&mut self, what: &str, holds: bool, input: &dyn Fn() -> String) {
        if !holds {
            self.differences += 1;
            say(&format!("DIFFERENCE in {what}, seed {}: {}\n", self.seed, input()));
        }
    }

    /// How far the inputs reached is worth seeing each time.
    fn print_histogram(&self, inputs: u64, first_seed: u64) {
        let mut text = format!("{inputs} inputs from seed {first_seed}, {} differences\n", self.differences);
        for (function, count) in &self.accepted {
            text += &format!("  {function} not refused: {count}\n");
        }
        for (number, count) in self.answered.iter().enumerate().skip(1).filter(|(_, count)| **count > 0) {
            text += &format!("  refusal {number}: {count}\n");
        }
        say(&text);
    }

    fn assert_every_answer_occurred(&self) {
        let numbers = (1..=14).chain(20..=22).chain(30..=46).chain(50..=55).chain([SHORT as usize]);
        let missing: Vec<usize> = numbers.filter(|&number| self.answered[number] == 0).collect();
        assert!(missing.is_empty(), "refusals that no input reached: {missing:?}");
        for function in ["read", "list", "write", "octets", "rule", "enrol"] {
            assert!(self.accepted.contains_key(function), "no input was accepted by {function}");
        }
    }
}

/// Straight to standard error: it is seen of a test that passes, and of one that a fault in the library ends.
fn say(text: &str) {
    std::io::stderr().write_all(text.as_bytes()).expect("standard error takes text");
}

fn length_of(wanted: &Result<Vec<u8>, Refusal>) -> Result<u64, Refusal> {
    wanted.as_ref().map(|bytes| bytes.len() as u64).map_err(|refusal| *refusal)
}

fn refusal<T>(number: u64) -> Result<T, Refusal> {
    Err(Refusal { number, place: 0 })
}

/// Mostly as many words as are needed; at times more, or too few.
fn lent_words(needed: usize, random: &mut Random) -> usize {
    match random.below(150) {
        0 => needed - 1,
        1 => random.below(needed),
        2..=5 => needed + 1 + random.below(5),
        _ => needed,
    }
}

fn resized(words: &[u64], count: usize) -> Vec<u64> {
    let mut words = words.to_vec();
    words.resize(count, FILL);
    words
}

fn is_filled(bytes: &[u8]) -> bool {
    bytes.iter().all(|&byte| byte == FILL as u8)
}

/// A record that is taken on, or is not for one of the reasons that there are.
fn enrollable(random: &mut Random) -> Stored {
    let Stored { mut record, mut buffer } = records::well_shaped(random);
    if random.below(4) > 0 {
        record.level = 1;
        record.keymint_level = 1;
    }
    let length = random.pick(&[1, 2, 16, 32, 127, 128, 128, 129, 130, 0]);
    buffer.resize(buffer.len().max(300), 0x3c);
    record.challenge = Part { start: random.below(150) as u64, length };
    if random.below(8) > 0 {
        let origin = if random.once_in(8) { random.number(table::TOP_32) } else { 0 };
        record.hardware.insert(702, Value::Number(origin));
        let Value::Root(mut root) = records::value(random, record.version, 704, buffer.len()) else { unreachable!() };
        root.locked |= random.below(8) > 0;
        root.state = if random.once_in(8) { root.state } else { 0 };
        record.hardware.insert(704, Value::Root(root));
    }
    if random.once_in(16) {
        record.hardware.remove(&702);
    }
    Stored { record, buffer }
}

/// The record's own challenge, or one that nearly is it.
fn expected_challenge(record: &Record, buffer: &[u8], random: &mut Random) -> Vec<u8> {
    let mut challenge = match record.challenge.is_inside(buffer.len()) {
        true => record.challenge.of(buffer).to_vec(),
        false => random.bytes(16),
    };
    let length = challenge.len();
    match random.below(24) {
        0 if length > 0 => challenge[random.below(length)] ^= 1 << random.below(8),
        1 => challenge.truncate(length.saturating_sub(1)),
        2 => challenge.push(random.word() as u8),
        3 => challenge.clear(),
        4 if length > 0 => challenge[length - 1] ^= 0x80,
        5 => challenge.resize(random.pick(&[127, 128, 129]), 0),
        _ => {}
    }
    challenge
}

/// The request as the crate takes it. A token that is not there has nothing.
fn typed(request: &Request) -> sculldrip::Request {
    let typed = sculldrip::Request::new(sculldrip::Clock { now: request.clock, floor: request.floor })
        .purpose(sculldrip::Purpose(request.purpose))
        .digest(sculldrip::Digest(request.digest))
        .padding(sculldrip::Padding(request.padding))
        .device_locked(request.locked)
        .user_present(request.present)
        .user_confirmed(request.confirmed)
        .early_boot_over(request.early_boot_over)
        .uses_so_far(request.uses);
    let token = request.token;
    if !token.there {
        return typed;
    }
    let operation = sculldrip::Operation { uptime: request.uptime, handle: request.handle };
    typed.token(sculldrip::Token { type_bits: token.kind, uptime: token.time, challenge: token.challenge }, operation)
}

/// The fields that the crate hands out, as numbers and texts.
fn fields_of(extension: &Extension, list: List) -> Vec<(u64, String)> {
    let text = |value: sculldrip::Value<'_>| match value {
        sculldrip::Value::Set(members) => format!("{members:?}"),
        sculldrip::Value::Number(number) => number.to_string(),
        sculldrip::Value::Flag => "yes".to_string(),
        sculldrip::Value::Octets(octets) => hex(octets),
        sculldrip::Value::RootOfTrust(root) => root_text(root.key, root.locked, root.state as u64, root.hash),
    };
    extension.list(list).all().into_iter().map(|(number, value)| (u64::from(number), text(value))).collect()
}

/// The record of an extension, set up anew field by field.
fn rebuilt(extension: &Extension) -> sculldrip::Record {
    let mut record = sculldrip::Record::new(extension.version())
        .with_level(extension.level())
        .with_keymint(extension.keymint_version(), extension.keymint_level())
        .with_unique_id(extension.unique_id())
        .with_challenge(extension.challenge());
    for list in [List::Software, List::Hardware] {
        let fields = extension.list(list);
        for &field in SetField::ALL {
            record = fields.set(field).into_iter().fold(record, |record, members| record.with_set(list, field, &members));
        }
        for &field in NumberField::ALL {
            record = fields.number(field).into_iter().fold(record, |record, number| record.with_number(list, field, number));
        }
        for &field in FlagField::ALL.iter().filter(|&&field| fields.flag(field)) {
            record = record.with_flag(list, field);
        }
        for &field in OctetField::ALL {
            record = fields.octets(field).into_iter().fold(record, |record, octets| record.with_octets(list, field, octets));
        }
        record = fields.root_of_trust().into_iter().fold(record, |record, root| record.with_root_of_trust(list, root));
    }
    record
}

fn text_of(value: &Value, bytes: &[u8]) -> String {
    match value {
        Value::Set(members) => format!("{members:?}"),
        Value::Number(number) => number.to_string(),
        Value::Yes => "yes".to_string(),
        Value::Octets(part) => hex(part.of(bytes)),
        Value::Root(root) => root_text(root.key.of(bytes), root.locked, root.state, root.hash.map(|hash| hash.of(bytes))),
    }
}

fn root_text(key: &[u8], locked: bool, state: u64, hash: Option<&[u8]>) -> String {
    format!("{} {locked} {state} {hash:?}", hex(key))
}

fn hex(bytes: &[u8]) -> String {
    bytes.iter().map(|byte| format!("{byte:02x}")).collect()
}

/// An image's words in hex: all of them, so that the input can be made again without its seed.
fn words_text(image: &[u64]) -> String {
    let words: Vec<String> = image.iter().map(|word| format!("{word:x}")).collect();
    format!("image [{}]", words.join(" "))
}
