//! Reads the files of the repository's folder `vectors`: JSON without escapes, signs or fractions.

use std::ops::Index;

pub enum Json {
    Text(String),
    Number(usize),
    List(Vec<Json>),
    Object(Vec<(String, Json)>),
    /// null, true or false
    Word,
}

/// The vectors of a file.
pub fn read(name: &str) -> Json {
    let path = format!("{}/../../vectors/{name}.json", env!("CARGO_MANIFEST_DIR"));
    let text = std::fs::read_to_string(&path).unwrap_or_else(|error| panic!("{path}: {error}"));
    let mut rest = text.as_str();
    let json = value(&mut rest);
    assert_eq!(rest.trim_start(), "", "{path}");
    json
}

impl Json {
    pub fn text(&self) -> &str {
        match self {
            Json::Text(text) => text,
            _ => panic!("not a text"),
        }
    }

    pub fn number(&self) -> usize {
        match self {
            Json::Number(number) => *number,
            _ => panic!("not a number"),
        }
    }

    pub fn list(&self) -> &[Json] {
        match self {
            Json::List(list) => list,
            _ => panic!("not a list"),
        }
    }

    /// The bytes that a text of hexadecimal digits stands for.
    pub fn bytes(&self) -> Vec<u8> {
        let pairs = self.text().as_bytes().chunks(2);
        pairs
            .map(|pair| {
                let digits = std::str::from_utf8(pair).expect("digits");
                u8::from_str_radix(digits, 16).expect("two hexadecimal digits")
            })
            .collect()
    }
}

/// The value of an object's key.
impl Index<&str> for Json {
    type Output = Json;

    fn index(&self, key: &str) -> &Json {
        let Json::Object(members) = self else {
            panic!("not an object: no {key}")
        };
        let member = members.iter().find(|(name, _)| name == key);
        &member.unwrap_or_else(|| panic!("no {key}")).1
    }
}

/// Takes a value from the front.
fn value(rest: &mut &str) -> Json {
    *rest = rest.trim_start();
    if took(rest, '{') {
        let mut members = Vec::new();
        while !took(rest, '}') {
            let key = value(rest).text().to_string();
            assert!(took(rest, ':'));
            members.push((key, value(rest)));
            took(rest, ',');
        }
        Json::Object(members)
    } else if took(rest, '[') {
        let mut list = Vec::new();
        while !took(rest, ']') {
            list.push(value(rest));
            took(rest, ',');
        }
        Json::List(list)
    } else if took(rest, '"') {
        let (text, behind) = rest.split_once('"').expect("the end of a text");
        assert!(!text.contains('\\'), "escapes are not read");
        *rest = behind;
        Json::Text(text.to_string())
    } else {
        let end = rest.find(|c: char| !c.is_ascii_alphanumeric());
        let (word, behind) = rest.split_at(end.unwrap_or(rest.len()));
        assert!(!word.is_empty(), "a value");
        *rest = behind;
        word.parse().map_or(Json::Word, Json::Number)
    }
}

/// Takes a sign from the front, if it is there behind any space.
fn took(rest: &mut &str, sign: char) -> bool {
    let behind = rest.trim_start().strip_prefix(sign);
    *rest = behind.unwrap_or(rest);
    behind.is_some()
}
