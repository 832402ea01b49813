//! JSON, and as much of JSON Schema as docs/output.schema.json uses.

use std::collections::BTreeMap;

#[derive(Clone, Debug, PartialEq)]
pub enum Json {
    Null,
    Bool(bool),
    /// A number, as it stands.
    Number(String),
    Text(String),
    List(Vec<Json>),
    Object(BTreeMap<String, Json>),
}

impl Json {
    pub fn parse(text: &str) -> Json {
        let mut rest = text;
        let value = value(&mut rest);
        assert!(rest.trim().is_empty(), "something stands behind {text}");
        value
    }

    /// A member of an object, which it has.
    pub fn get(&self, name: &str) -> &Json {
        match self {
            Json::Object(members) => members.get(name).unwrap_or_else(|| panic!("no {name} in {self:?}")),
            _ => panic!("{self:?} is no object"),
        }
    }

    pub fn text(&self) -> &str {
        match self {
            Json::Text(text) => text,
            _ => panic!("{self:?} is no text"),
        }
    }

    pub fn list(&self) -> &[Json] {
        match self {
            Json::List(list) => list,
            _ => panic!("{self:?} is no list"),
        }
    }

    /// A whole number, which may stand as a string.
    pub fn whole(&self) -> i128 {
        match self {
            Json::Number(number) | Json::Text(number) => number.parse().expect("a whole number"),
            _ => panic!("{self:?} is no number"),
        }
    }

    pub fn is_null(&self) -> bool {
        *self == Json::Null
    }

    fn kind(&self) -> &'static str {
        match self {
            Json::Null => "null",
            Json::Bool(_) => "boolean",
            Json::Number(number) if number.parse::<i128>().is_ok() => "integer",
            Json::Number(_) => "number",
            Json::Text(_) => "string",
            Json::List(_) => "array",
            Json::Object(_) => "object",
        }
    }
}

fn value(rest: &mut &str) -> Json {
    *rest = rest.trim_start();
    match rest.chars().next().expect("a value") {
        '{' => Json::Object(listed(rest, '}', |rest| {
            let name = string(rest);
            take(rest, ':');
            (name, value(rest))
        })),
        '[' => Json::List(listed(rest, ']', value)),
        '"' => Json::Text(string(rest)),
        _ => word(rest),
    }
}

/// What stands between brackets, with commas between.
fn listed<T, L: FromIterator<T>>(rest: &mut &str, close: char, mut one: impl FnMut(&mut &str) -> T) -> L {
    *rest = &rest[1..];
    let mut all = Vec::new();
    while !rest.trim_start().starts_with(close) {
        if !all.is_empty() {
            take(rest, ',');
        }
        all.push(one(rest));
    }
    take(rest, close);
    all.into_iter().collect()
}

fn take(rest: &mut &str, sign: char) {
    *rest = rest.trim_start().strip_prefix(sign).unwrap_or_else(|| panic!("{sign} is missing before {rest}"));
}

fn string(rest: &mut &str) -> String {
    take(rest, '"');
    let mut text = String::new();
    let mut chars = rest.char_indices();
    loop {
        match chars.next().expect("a string ends") {
            (at, '"') => {
                *rest = &rest[at + 1..];
                return text;
            }
            (_, '\\') => match chars.next().expect("an escape ends").1 {
                'u' => {
                    let digits: String = (0..4).map(|_| chars.next().expect("four digits").1).collect();
                    let code = u32::from_str_radix(&digits, 16).expect("four digits");
                    text.push(char::from_u32(code).expect("a character"));
                }
                c @ ('"' | '\\') => text.push(c),
                c => panic!("\\{c} is not used here"),
            },
            (_, c) => {
                assert!(!c.is_control(), "a control character in a string");
                text.push(c);
            }
        }
    }
}

fn word(rest: &mut &str) -> Json {
    let end = rest.find([',', '}', ']', ' ', '\n']).unwrap_or(rest.len());
    let (word, behind) = rest.split_at(end);
    *rest = behind;
    match word {
        "null" => Json::Null,
        "true" => Json::Bool(true),
        "false" => Json::Bool(false),
        number => {
            let plain = number.strip_prefix('-').unwrap_or(number);
            assert!(plain.starts_with(|c: char| c.is_ascii_digit()) && number.parse::<f64>().is_ok(), "{number}");
            Json::Number(number.to_string())
        }
    }
}

/// A schema, with what it refers to.
#[allow(dead_code)]
pub struct Schema(Json);

#[allow(dead_code)]
impl Schema {
    pub fn parse(text: &str) -> Schema {
        Schema(Json::parse(text))
    }

    /// What is wrong with a value, if anything is.
    pub fn fault(&self, value: &Json) -> Option<String> {
        self.fault_by(&self.0, value)
    }

    fn fault_by(&self, schema: &Json, value: &Json) -> Option<String> {
        let Json::Object(keywords) = schema else { panic!("a schema is an object: {schema:?}") };
        keywords.iter().find_map(|(name, rule)| self.broken(name, rule, schema, value))
    }

    fn broken(&self, name: &str, rule: &Json, schema: &Json, value: &Json) -> Option<String> {
        let wrong = |holds: bool| (!holds).then(|| format!("{value:?} breaks {name} {rule:?}"));
        match (name, value) {
            ("$schema" | "$defs" | "title" | "description", _) => None,
            ("$ref", _) => {
                let name = rule.text().strip_prefix("#/$defs/").expect("a definition");
                self.fault_by(self.0.get("$defs").get(name), value)
            }
            ("type", _) => {
                let is =
                    |kind: &Json| kind.text() == value.kind() || (kind.text() == "number" && value.kind() == "integer");
                wrong(match rule {
                    Json::List(kinds) => kinds.iter().any(is),
                    kind => is(kind),
                })
            }
            ("enum", _) => wrong(rule.list().contains(value)),
            ("anyOf", _) => wrong(rule.list().iter().any(|schema| self.fault_by(schema, value).is_none())),
            ("minimum", Json::Number(_)) => wrong(value.whole() >= rule.whole()),
            ("maximum", Json::Number(_)) => wrong(value.whole() <= rule.whole()),
            ("required", Json::Object(members)) => {
                wrong(rule.list().iter().all(|name| members.contains_key(name.text())))
            }
            ("additionalProperties", Json::Object(members)) => {
                assert_eq!(*rule, Json::Bool(false));
                let Json::Object(known) = schema.get("properties") else { panic!("properties are an object") };
                wrong(members.keys().all(|name| known.contains_key(name)))
            }
            ("properties", Json::Object(members)) => {
                let Json::Object(known) = rule else { panic!("properties are an object") };
                known.iter().find_map(|(name, rule)| self.fault_by(rule, members.get(name)?))
            }
            ("items", Json::List(items)) => items.iter().find_map(|item| self.fault_by(rule, item)),
            ("minimum" | "maximum" | "required" | "additionalProperties" | "properties" | "items", _) => None,
            _ => panic!("the schema has {name}, which is not read here"),
        }
    }
}
