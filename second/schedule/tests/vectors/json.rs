//! A reader of JSON as far as the vector files go: no escapes in strings, no fractions in numbers.

use std::collections::BTreeMap;
use std::fs;

#[derive(Clone, Debug, PartialEq)]
pub enum Json {
    Null,
    Bool(bool),
    Number(u64),
    Text(String),
    List(Vec<Json>),
    Object(BTreeMap<String, Json>),
}

pub fn vectors(name: &str) -> Json {
    let directory = concat!(env!("CARGO_MANIFEST_DIR"), "/../../vectors/");
    let text = fs::read_to_string(format!("{directory}{name}.json")).expect("vector file");
    let mut reader = Reader(text.as_bytes());
    let value = reader.value();
    reader.skip_space();
    assert!(reader.0.is_empty(), "text behind the value");
    value
}

impl Json {
    pub fn get(&self, key: &str) -> &Json {
        match self {
            Json::Object(members) => members.get(key).unwrap_or(&Json::Null),
            _ => panic!("no object: {self:?}"),
        }
    }

    pub fn items(&self) -> &[Json] {
        match self {
            Json::List(items) => items,
            _ => panic!("no list: {self:?}"),
        }
    }

    pub fn text(&self) -> &str {
        match self {
            Json::Text(text) => text,
            _ => panic!("no text: {self:?}"),
        }
    }

    pub fn number(&self) -> u64 {
        match self {
            Json::Number(number) => *number,
            _ => panic!("no number: {self:?}"),
        }
    }

    /// The bytes of a text of hexadecimal digits.
    pub fn bytes(&self) -> Vec<u8> {
        let digits = self.text();
        assert!(digits.len().is_multiple_of(2), "half a byte");
        (0..digits.len())
            .step_by(2)
            .map(|at| u8::from_str_radix(&digits[at..at + 2], 16).expect("digits"))
            .collect()
    }
}

struct Reader<'a>(&'a [u8]);

impl Reader<'_> {
    fn skip_space(&mut self) {
        self.0 = self.0.trim_ascii_start();
    }

    fn next(&mut self) -> u8 {
        let first = self.0[0];
        self.0 = &self.0[1..];
        first
    }

    /// Takes a sign if it comes next.
    fn took(&mut self, sign: u8) -> bool {
        self.skip_space();
        let found = self.0.first() == Some(&sign);
        if found {
            self.next();
        }
        found
    }

    fn value(&mut self) -> Json {
        self.skip_space();
        match self.0[0] {
            b'{' => self.object(),
            b'[' => self.list(),
            b'"' => Json::Text(self.string()),
            b'0'..=b'9' => self.digits(),
            _ => self.word(),
        }
    }

    fn object(&mut self) -> Json {
        let mut members = BTreeMap::new();
        assert!(self.took(b'{'));
        while !self.took(b'}') {
            self.skip_space();
            let key = self.string();
            assert!(self.took(b':'));
            members.insert(key, self.value());
            self.took(b',');
        }
        Json::Object(members)
    }

    fn list(&mut self) -> Json {
        let mut items = Vec::new();
        assert!(self.took(b'['));
        while !self.took(b']') {
            items.push(self.value());
            self.took(b',');
        }
        Json::List(items)
    }

    fn string(&mut self) -> String {
        assert!(self.took(b'"'));
        let end = self.0.iter().position(|sign| *sign == b'"').expect("end");
        let (text, rest) = self.0.split_at(end);
        assert!(!text.contains(&b'\\'), "escapes aren't read");
        self.0 = &rest[1..];
        String::from_utf8(text.to_vec()).expect("UTF-8")
    }

    fn digits(&mut self) -> Json {
        let mut number = 0;
        while self.0.first().is_some_and(u8::is_ascii_digit) {
            number = 10 * number + u64::from(self.next() - b'0');
        }
        Json::Number(number)
    }

    fn word(&mut self) -> Json {
        for (word, value) in [
            (&b"null"[..], Json::Null),
            (b"true", Json::Bool(true)),
            (b"false", Json::Bool(false)),
        ] {
            if let Some(rest) = self.0.strip_prefix(word) {
                self.0 = rest;
                return value;
            }
        }
        panic!("no value")
    }
}
