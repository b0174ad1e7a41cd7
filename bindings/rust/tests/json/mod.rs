//! As much of JSON as the cases use: no escapes, and numbers from 0 to 2^64-1.
#![allow(dead_code)]

#[derive(Clone, Debug, PartialEq)]
pub enum Json {
    Null,
    Bool(bool),
    Number(u64),
    Text(String),
    Items(Vec<Json>),
    Members(Vec<(String, Json)>),
}

impl Json {
    /// The value of one line.
    pub fn parse(line: &str) -> Json {
        let mut parser = Parser { bytes: line.as_bytes(), at: 0 };
        let value = parser.value();
        parser.skip_spaces();
        assert_eq!(parser.at, parser.bytes.len(), "spare text after {line}");
        value
    }

    pub fn get(&self, name: &str) -> Option<&Json> {
        match self {
            Json::Members(members) => members.iter().find(|(member, _)| member == name).map(|(_, value)| value),
            _ => None,
        }
    }

    pub fn member(&self, name: &str) -> &Json {
        self.get(name).unwrap_or_else(|| panic!("no {name} in {self:?}"))
    }

    pub fn number(&self) -> u64 {
        match self {
            Json::Number(number) => *number,
            other => panic!("no number: {other:?}"),
        }
    }

    pub fn bool(&self) -> bool {
        match self {
            Json::Bool(value) => *value,
            other => panic!("no truth value: {other:?}"),
        }
    }

    pub fn text(&self) -> &str {
        match self {
            Json::Text(text) => text,
            other => panic!("no text: {other:?}"),
        }
    }

    pub fn items(&self) -> &[Json] {
        match self {
            Json::Items(items) => items,
            other => panic!("no list: {other:?}"),
        }
    }

    pub fn hex(&self) -> Vec<u8> {
        let digits = self.text();
        let octet = |at: usize| u8::from_str_radix(&digits[at..at + 2], 16).expect("hex digits");
        (0..digits.len()).step_by(2).map(octet).collect()
    }
}

struct Parser<'a> {
    bytes: &'a [u8],
    at: usize,
}

impl Parser<'_> {
    fn skip_spaces(&mut self) {
        while self.bytes.get(self.at).is_some_and(u8::is_ascii_whitespace) {
            self.at += 1;
        }
    }

    fn peek(&mut self) -> u8 {
        self.skip_spaces();
        *self.bytes.get(self.at).expect("more text")
    }

    fn take(&mut self, wanted: u8) {
        assert_eq!(self.peek(), wanted, "at {}", self.at);
        self.at += 1;
    }

    fn value(&mut self) -> Json {
        match self.peek() {
            b'{' => Json::Members(self.run(b'{', b'}', |parser| {
                let name = parser.string();
                parser.take(b':');
                (name, parser.value())
            })),
            b'[' => Json::Items(self.run(b'[', b']', Parser::value)),
            b'"' => Json::Text(self.string()),
            b'0'..=b'9' => self.digits(),
            _ => self.word(),
        }
    }

    fn run<T>(&mut self, open: u8, close: u8, mut one: impl FnMut(&mut Self) -> T) -> Vec<T> {
        self.take(open);
        let mut all = Vec::new();
        while self.peek() != close {
            if !all.is_empty() {
                self.take(b',');
            }
            all.push(one(self));
        }
        self.take(close);
        all
    }

    /// The only escape that the cases have is the newline of a listing.
    fn string(&mut self) -> String {
        self.take(b'"');
        let start = self.at;
        while self.bytes[self.at] != b'"' {
            self.at += 1;
        }
        let raw = std::str::from_utf8(&self.bytes[start..self.at]).expect("UTF-8");
        self.at += 1;
        let text = raw.replace("\\n", "\n");
        assert!(!text.contains('\\'), "an escape that is not read here: {raw}");
        text
    }

    fn digits(&mut self) -> Json {
        let start = self.at;
        while self.bytes.get(self.at).is_some_and(u8::is_ascii_digit) {
            self.at += 1;
        }
        let digits = std::str::from_utf8(&self.bytes[start..self.at]).expect("digits");
        Json::Number(digits.parse().expect("a number under 2^64"))
    }

    fn word(&mut self) -> Json {
        for (word, value) in [("null", Json::Null), ("true", Json::Bool(true)), ("false", Json::Bool(false))] {
            if self.bytes[self.at..].starts_with(word.as_bytes()) {
                self.at += word.len();
                return value;
            }
        }
        panic!("no JSON value at {}", self.at)
    }
}
