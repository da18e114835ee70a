//! JSON as a reader of it sees it, and a schema held against it: as much of both as the program's answers need.
#![allow(dead_code)]

use std::collections::BTreeMap;

#[derive(Clone, Debug, PartialEq)]
pub enum Json {
    Null,
    Bool(bool),
    Number(f64),
    Text(String),
    List(Vec<Json>),
    Object(BTreeMap<String, Json>),
}

/// All of a text as one value.
pub fn parse(text: &str) -> Json {
    let mut reader = Reader {
        rest: text.chars().collect(),
        at: 0,
    };
    let value = reader.value();
    reader.space();
    assert_eq!(
        reader.at,
        reader.rest.len(),
        "more stands after the value: {text}"
    );
    value
}

struct Reader {
    rest: Vec<char>,
    at: usize,
}

impl Reader {
    fn space(&mut self) {
        while self
            .rest
            .get(self.at)
            .is_some_and(|c| c.is_ascii_whitespace())
        {
            self.at += 1;
        }
    }

    fn next(&mut self) -> char {
        self.space();
        *self.rest.get(self.at).expect("the text ends early")
    }

    fn take(&mut self, wanted: char) {
        assert_eq!(self.next(), wanted, "at letter {}", self.at);
        self.at += 1;
    }

    fn value(&mut self) -> Json {
        match self.next() {
            '{' => self.object(),
            '[' => self.list(),
            '"' => Json::Text(self.text()),
            _ => self.word(),
        }
    }

    fn object(&mut self) -> Json {
        let mut fields = BTreeMap::new();
        self.take('{');
        while self.next() != '}' {
            if !fields.is_empty() {
                self.take(',');
            }
            self.space();
            let name = self.text();
            self.take(':');
            let value = self.value();
            assert!(fields.insert(name.clone(), value).is_none(), "{name} twice");
        }
        self.take('}');
        Json::Object(fields)
    }

    fn list(&mut self) -> Json {
        let mut entries = Vec::new();
        self.take('[');
        while self.next() != ']' {
            if !entries.is_empty() {
                self.take(',');
            }
            entries.push(self.value());
        }
        self.take(']');
        Json::List(entries)
    }

    fn text(&mut self) -> String {
        let mut said = String::new();
        self.take('"');
        loop {
            let letter = self.rest[self.at];
            self.at += 1;
            match letter {
                '"' => return said,
                '\\' => {
                    let escaped = self.rest[self.at];
                    self.at += 1;
                    match escaped {
                        'u' => {
                            let digits: String = self.rest[self.at..self.at + 4].iter().collect();
                            self.at += 4;
                            let code = u32::from_str_radix(&digits, 16).unwrap();
                            said.push(char::from_u32(code).unwrap());
                        }
                        '"' | '\\' => said.push(escaped),
                        other => panic!("\\{other}"),
                    }
                }
                letter => {
                    assert!(letter >= ' ', "a control letter in a string");
                    said.push(letter);
                }
            }
        }
    }

    fn word(&mut self) -> Json {
        let start = self.at;
        let part = |c: &char| c.is_ascii_alphanumeric() || "+-.".contains(*c);
        while self.rest.get(self.at).is_some_and(part) {
            self.at += 1;
        }
        let word: String = self.rest[start..self.at].iter().collect();
        match word.as_str() {
            "null" => Json::Null,
            "true" => Json::Bool(true),
            "false" => Json::Bool(false),
            number => {
                let first = number.trim_start_matches('-').chars().next();
                assert!(first.is_some_and(|c| c.is_ascii_digit()), "'{number}'");
                Json::Number(number.parse().unwrap())
            }
        }
    }
}

impl Json {
    /// A field of an object.
    pub fn get(&self, name: &str) -> &Json {
        self.find(name)
            .unwrap_or_else(|| panic!("{name} is not in {self:?}"))
    }

    pub fn find(&self, name: &str) -> Option<&Json> {
        match self {
            Json::Object(fields) => fields.get(name),
            other => panic!("{other:?} is no object"),
        }
    }

    pub fn list(&self) -> &[Json] {
        match self {
            Json::List(entries) => entries,
            other => panic!("{other:?} is no list"),
        }
    }

    pub fn text(&self) -> &str {
        match self {
            Json::Text(text) => text,
            other => panic!("{other:?} is no text"),
        }
    }

    pub fn number(&self) -> f64 {
        match self {
            Json::Number(number) => *number,
            other => panic!("{other:?} is no number"),
        }
    }

    fn kind(&self) -> &'static str {
        match self {
            Json::Null => "null",
            Json::Bool(_) => "boolean",
            Json::Number(number) if number.fract() == 0.0 => "integer",
            Json::Number(_) => "number",
            Json::Text(_) => "string",
            Json::List(_) => "array",
            Json::Object(_) => "object",
        }
    }
}

/// What is wrong with a value by a schema: one of the keywords that ours has, and no others.
pub fn wrong(schema: &Json, root: &Json, value: &Json) -> Option<String> {
    let Json::Object(keywords) = schema else {
        panic!("a schema is an object");
    };
    keywords
        .iter()
        .find_map(|(keyword, said)| held(keyword, said, schema, root, value))
}

fn held(keyword: &str, said: &Json, schema: &Json, root: &Json, value: &Json) -> Option<String> {
    match keyword {
        "$schema" | "$id" | "title" | "description" | "$defs" => None,
        "$ref" => {
            let name = said.text().strip_prefix("#/$defs/").unwrap();
            wrong(root.get("$defs").get(name), root, value).map(|why| format!("{name}: {why}"))
        }
        "type" => {
            let kinds: Vec<&str> = match said {
                Json::List(kinds) => kinds.iter().map(Json::text).collect(),
                one => vec![one.text()],
            };
            let kind = value.kind();
            let fits = kinds.contains(&kind) || (kind == "integer" && kinds.contains(&"number"));
            (!fits).then(|| format!("{value:?} is no {kinds:?}"))
        }
        "const" => (value != said).then(|| format!("{value:?} is not {said:?}")),
        "enum" => (!said.list().contains(value)).then(|| format!("{value:?} is none of {said:?}")),
        "minimum" => {
            (value.number() < said.number()).then(|| format!("{value:?} is below {said:?}"))
        }
        "pattern" => {
            // The one pattern that there is: a fingerprint.
            assert_eq!(said.text(), "^[0-9a-f]{4}(-[0-9a-f]{4}){3}$");
            let groups: Vec<&str> = value.text().split('-').collect();
            let hex = |group: &&str| {
                let digit = |c: char| c.is_ascii_digit() || ('a'..='f').contains(&c);
                group.len() == 4 && group.chars().all(digit)
            };
            let fits = groups.len() == 4 && groups.iter().all(hex);
            (!fits).then(|| format!("{value:?} is no fingerprint"))
        }
        "items" => {
            let Json::List(entries) = value else {
                return None;
            };
            entries.iter().find_map(|entry| wrong(said, root, entry))
        }
        "minItems" => {
            (value.list().len() < said.number() as usize).then(|| format!("{value:?} is short"))
        }
        "maxItems" => {
            (value.list().len() > said.number() as usize).then(|| format!("{value:?} is long"))
        }
        "required" => said.list().iter().find_map(|name| {
            let name = name.text();
            value
                .find(name)
                .is_none()
                .then(|| format!("{name} is not in {value:?}"))
        }),
        "properties" => {
            let Json::Object(fields) = value else {
                return None;
            };
            fields.iter().find_map(|(name, value)| {
                let own = said.find(name)?;
                wrong(own, root, value).map(|why| format!("{name}: {why}"))
            })
        }
        "additionalProperties" => {
            assert_eq!(said, &Json::Bool(false));
            let Json::Object(fields) = value else {
                return None;
            };
            let known = schema.get("properties");
            fields
                .keys()
                .find(|name| known.find(name).is_none())
                .map(|name| format!("{name} is not known"))
        }
        "oneOf" => {
            let fits = said.list().iter();
            let fits = fits.filter(|one| wrong(one, root, value).is_none()).count();
            (fits != 1).then(|| format!("{fits} of the cases fit {value:?}"))
        }
        other => panic!("the schema has {other}, which this test does not know"),
    }
}
