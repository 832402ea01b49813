//! Records as `evaluate --format json` prints them, read again.

use std::collections::HashMap;

use chukkanalli::tables::{Fault, Faults, ReadBy};
use chukkanalli::{Game, NashConv, Refusal};

use crate::names::game_word;
use crate::version::{COMMIT, VERSION};

/// A record of a table: of which game and D, and what came of it.
pub struct Record {
    pub file: String,
    pub game: Game,
    pub d: u64,
    pub outcome: Result<Ranked, Faults>,
}

/// The figures of a table that was evaluated.
pub struct Ranked {
    pub read_by: ReadBy,
    pub conv: NashConv,
    /// The worth and best value of each seat.
    pub seats: Vec<(i64, i64)>,
    /// The SHA-256 of its parts.
    pub fingerprint: String,
}

#[derive(Clone, Debug, PartialEq)]
enum Json {
    Null,
    Bool(bool),
    /// As it stands.
    Number(String),
    Text(String),
    List(Vec<Json>),
    Object(HashMap<String, Json>),
}

/// The record of a line, or what is wrong with it.
pub fn record(line: &str) -> Result<Record, String> {
    let mut rest = line;
    let parsed = value(&mut rest, 0).filter(|_| rest.trim().is_empty());
    let Some(Json::Object(members)) = parsed else {
        return Err("this is no record of `chukkanalli evaluate --format json`".to_string());
    };
    let text = |name: &str| members.get(name).and_then(Json::text);
    if text("version") != Some(VERSION) || text("commit") != Some(COMMIT) {
        let told = |name: &str| text(name).unwrap_or("none").escape_debug().to_string();
        let (version, commit) = (told("version"), told("commit"));
        return Err(format!(
            "this record is of version {version} (commit {commit}), and this program is {VERSION} (commit {COMMIT})"
        ));
    }
    read(&members).ok_or_else(|| "this record is not one of `evaluate` or `ladder`, or lacks a member".to_string())
}

fn read(members: &HashMap<String, Json>) -> Option<Record> {
    let get = |name: &str| members.get(name);
    if !["evaluate", "ladder"].contains(&get("command")?.text()?) {
        return None;
    }
    let number = if get("game")?.text()? == game_word(Game::Leduc) { 1 } else { 0 };
    let game = Game::by_number(number, get("seats")?.whole()?).ok()?;
    let file = get("file").and_then(Json::text).filter(|text| prints(text))?.to_string();
    let outcome = match get("units")? {
        Json::Null => Err(faults(members)?),
        _ => Ok(ranked(members)?),
    };
    (game_word(game) == get("game")?.text()?).then_some(Record { file, game, d: get("d")?.whole()?, outcome })
}

fn ranked(members: &HashMap<String, Json>) -> Option<Ranked> {
    let told = members.get("read_by")?.text()?;
    let read_by = [ReadBy::Labels, ReadBy::Position].into_iter().find(|by| by.name() == told)?;
    let conv = NashConv { nash_conv: members.get("nash_conv")?.whole()?, units: members.get("units")?.whole()? };
    let seat = |seat: &Json| match seat {
        Json::Object(own) => Some((own.get("worth")?.whole()?, own.get("best_value")?.whole()?)),
        _ => None,
    };
    let seats: Option<Vec<(i64, i64)>> = members.get("seat_values")?.list()?.iter().map(seat).collect();
    let fingerprint = members.get("parts_sha256")?.text()?.to_string();
    (conv.units > 0).then_some(Ranked { read_by, conv, seats: seats?, fingerprint })
}

fn faults(members: &HashMap<String, Json>) -> Option<Faults> {
    let fault = |fault: &Json| match fault {
        Json::Object(own) => {
            let line = match own.get("line")? {
                Json::Null => None,
                line => Some(line.whole()?),
            };
            let sentence = own.get("sentence").and_then(Json::text).filter(|text| prints(text))?;
            Some(Fault { line, sentence: sentence.to_string() })
        }
        _ => None,
    };
    let told: Option<Vec<Fault>> = members.get("faults")?.list()?.iter().map(fault).collect();
    let refusal = match members.get("refusal")? {
        Json::Null => None,
        number => Some(Refusal::from_number(number.whole()?)?),
    };
    Some(Faults::of_record(told?, members.get("more_faults")?.whole()?, refusal))
}

/// Whether all of a text prints, as in every text of a record.
fn prints(text: &str) -> bool {
    let shown = text.escape_debug().to_string();
    shown.replace(r"\'", "'").replace(r#"\""#, "\"").replace(r"\\", r"\") == text
}

impl Json {
    fn text(&self) -> Option<&str> {
        match self {
            Json::Text(text) => Some(text),
            _ => None,
        }
    }

    fn list(&self) -> Option<&[Json]> {
        match self {
            Json::List(list) => Some(list),
            _ => None,
        }
    }

    /// A whole number; one above 2^53 stands as a string.
    fn whole<T: std::str::FromStr>(&self) -> Option<T> {
        match self {
            Json::Number(number) | Json::Text(number) => number.parse().ok(),
            _ => None,
        }
    }
}

/// The lists in one another at most; a record has three.
const DEEPEST: usize = 8;

fn value(rest: &mut &str, depth: usize) -> Option<Json> {
    if depth > DEEPEST {
        return None;
    }
    match rest.trim_start().chars().next()? {
        '{' => {
            let members = listed(rest, '{', '}', |rest| {
                let name = string(rest)?;
                take(rest, ':')?;
                Some((name, value(rest, depth + 1)?))
            })?;
            Some(Json::Object(members.into_iter().collect()))
        }
        '[' => listed(rest, '[', ']', |rest| value(rest, depth + 1)).map(Json::List),
        '"' => string(rest).map(Json::Text),
        _ => {
            let text = rest.trim_start();
            let end = text.find([',', '}', ']', ' ']).unwrap_or(text.len());
            let (word, behind) = text.split_at(end);
            *rest = behind;
            match word {
                "null" => Some(Json::Null),
                "true" | "false" => Some(Json::Bool(word == "true")),
                _ => word.parse::<f64>().ok().map(|_| Json::Number(word.to_string())),
            }
        }
    }
}

/// What stands between brackets, with commas between.
fn listed<T>(rest: &mut &str, open: char, close: char, mut one: impl FnMut(&mut &str) -> Option<T>) -> Option<Vec<T>> {
    take(rest, open)?;
    let mut all = Vec::new();
    while take(rest, close).is_none() {
        if !all.is_empty() {
            take(rest, ',')?;
        }
        all.push(one(rest)?);
    }
    Some(all)
}

fn take(rest: &mut &str, sign: char) -> Option<()> {
    *rest = rest.trim_start().strip_prefix(sign)?;
    Some(())
}

fn string(rest: &mut &str) -> Option<String> {
    take(rest, '"')?;
    let (mut text, mut chars) = (String::new(), rest.chars());
    loop {
        match chars.next()? {
            '"' => break,
            '\\' => match chars.next()? {
                'u' => {
                    let code: String = chars.by_ref().take(4).collect();
                    text.push(char::from_u32(u32::from_str_radix(&code, 16).ok()?)?);
                }
                sign @ ('"' | '\\' | '/') => text.push(sign),
                _ => return None,
            },
            sign => text.push(sign),
        }
    }
    *rest = chars.as_str();
    Some(text)
}

#[cfg(test)]
mod tests {
    use super::*;

    #[test]
    fn json_is_read_or_refused() {
        let parsed = |text: &str| {
            let mut rest = text;
            value(&mut rest, 0).filter(|_| rest.trim().is_empty())
        };
        assert_eq!(parsed(" [1, \"a\\u0041\\\"\", null,true ] "), {
            let text = Json::Text("aA\"".to_string());
            Some(Json::List(vec![Json::Number("1".to_string()), text, Json::Null, Json::Bool(true)]))
        });
        for odd in ["", "{", "[1,]", "[1 2]", "{\"a\"}", "\"a", "\"\\x\"", "nul", "[1]]", &"[".repeat(1000)] {
            assert_eq!(parsed(odd), None, "{odd}");
        }
    }

    #[test]
    fn texts_of_a_record_print() {
        for text in ["a b", r"a\\b \xff", "it's \"é\"", "e\u{301}"] {
            assert!(prints(text), "{text:?}");
        }
        for text in ["a\u{1b}[2J", "a\nb", "\u{202e}a"] {
            assert!(!prints(text), "{text:?}");
        }
    }

    #[test]
    fn records_of_another_version_are_refused() {
        let error = |line: &str| record(line).err().unwrap();
        assert!(error("{}").starts_with("this record is of version none (commit none), and this program is "));
        assert!(error("{\"version\":\"9\\u001b\",\"commit\":\"x\"}").contains(r"version 9\u{1b} (commit x)"));
        assert_eq!(error("[]"), "this is no record of `chukkanalli evaluate --format json`");
        let own = format!("{{\"version\":\"{VERSION}\",\"commit\":\"{COMMIT}\",\"command\":\"reply\"}}");
        assert_eq!(error(&own), "this record is not one of `evaluate` or `ladder`, or lacks a member");
    }
}
