//! The cases with given answers, as the reference's records and requests.
#![allow(dead_code)]

use crate::json::Json;
use crate::reference::rule::{Permit, Request, Token};
use crate::reference::{Fields, Part, Record, Refusal, Root, Value};

pub fn cases(name: &str) -> Vec<Json> {
    let path = format!("{}/../../cases/{name}.jsonl", env!("CARGO_MANIFEST_DIR"));
    let text = std::fs::read_to_string(&path).unwrap_or_else(|error| panic!("{path}: {error}"));
    let cases: Vec<Json> = text.lines().map(Json::parse).collect();
    assert!(!cases.is_empty(), "{path} is empty");
    cases
}

fn part(json: &Json) -> Part {
    let [start, length] = json.items() else { panic!("no part: {json:?}") };
    Part { start: start.number(), length: length.number() }
}

fn root(json: &Json) -> Root {
    let hash = match json.member("hash") {
        Json::Null => None,
        hash => Some(part(hash)),
    };
    let (locked, state) = (json.member("locked").bool(), json.member("state").number());
    Root { key: part(json.member("key")), locked, state, hash }
}

fn value(kind: &str, json: &Json) -> Value {
    match kind {
        "set" => Value::Set(json.items().iter().map(Json::number).collect()),
        "u32" | "u64" => Value::Number(json.number()),
        "null" => Value::Yes,
        "oct" => Value::Octets(part(json)),
        "rot" => Value::Root(root(json)),
        other => panic!("no such kind: {other}"),
    }
}

fn fields(json: &Json) -> Fields {
    let field = |field: &Json| match field.items() {
        [number, kind, content] => (number.number(), value(kind.text(), content)),
        other => panic!("no field: {other:?}"),
    };
    json.items().iter().map(field).collect()
}

pub fn record(case: &Json) -> Record {
    let json = case.member("record");
    Record {
        version: json.member("version").number(),
        level: json.member("level").number(),
        keymint: json.member("keymint").number(),
        keymint_level: json.member("kmlevel").number(),
        challenge: part(json.member("challenge")),
        unique: part(json.member("unique")),
        software: fields(json.member("software")),
        hardware: fields(json.member("hardware")),
    }
}

pub fn request(case: &Json) -> Request {
    let json = case.member("request");
    let token = json.member("token");
    let number = |name: &str| json.member(name).number();
    let yes = |name: &str| json.member(name).bool();
    Request {
        purpose: number("purpose"),
        digest: number("digest"),
        padding: number("padding"),
        clock: number("clock"),
        floor: number("floor"),
        uptime: number("uptime"),
        handle: number("handle"),
        token: Token {
            there: token.member("there").bool(),
            kind: token.member("type").number(),
            time: token.member("time").number(),
            challenge: token.member("challenge").number(),
        },
        locked: yes("locked"),
        present: yes("present"),
        confirmed: yes("confirmed"),
        early_boot_over: yes("early_boot_over"),
        uses: number("uses"),
    }
}

/// The refusal that a case asks for, if it does.
fn wanted_refusal(want: &Json) -> Option<Refusal> {
    let number = want.get("refused")?.number();
    Some(Refusal { number, place: want.member("place").number() })
}

/// What a case asks for: its refusal, or what `accepted` makes of its answer.
pub fn wanted<T>(case: &Json, accepted: impl Fn(&Json) -> T) -> Result<T, Refusal> {
    let want = case.member("want");
    wanted_refusal(want).map_or_else(|| Ok(accepted(want)), Err)
}

/// What a case of the octets asks for.
pub fn wanted_part(case: &Json) -> Result<Option<Part>, Refusal> {
    match case.member("want").items() {
        [kind, start, length] if kind.text() == "part" => Ok(Some(Part { start: start.number(), length: length.number() })),
        [kind, number, place] if kind.text() == "refused" => Err(Refusal { number: number.number(), place: place.number() }),
        [kind] if kind.text() == "absent" => Ok(None),
        other => panic!("no answer: {other:?}"),
    }
}

/// What a case of the use ruling asks for.
pub fn wanted_permit(case: &Json) -> Result<Permit, Refusal> {
    wanted(case, |want| {
        let (hardware, software) = (want.member("hw").number(), want.member("sw").number());
        assert_eq!(u64::from(hardware.count_ones()), want.member("hw_bits").number());
        assert_eq!(u64::from(software.count_ones()), want.member("sw_bits").number());
        Permit { hardware, software }
    })
}
