//! Records as JSON, an object a line.

use super::value::{Members, Value};

/// The whole numbers that every reader of JSON takes exactly, 2^53 and below; others are strings.
const EXACT: u128 = 1 << 53;

/// The members as one line.
pub fn line(members: &Members) -> String {
    let mut text = String::new();
    object(&mut text, members);
    text.push('\n');
    text
}

fn object(text: &mut String, members: &Members) {
    text.push('{');
    for (place, (name, value)) in members.iter().enumerate() {
        if place > 0 {
            text.push(',');
        }
        string(text, name);
        text.push(':');
        write(text, value);
    }
    text.push('}');
}

fn write(text: &mut String, value: &Value) {
    match value {
        Value::None => *text += "null",
        Value::Bool(value) => *text += &value.to_string(),
        Value::Whole(number) if number.unsigned_abs() <= EXACT => *text += &number.to_string(),
        Value::Whole(number) => string(text, &number.to_string()),
        Value::Decimal(number) => *text += number,
        Value::Float(number) if number.is_finite() => *text += &format!("{number:?}"),
        Value::Float(number) => string(text, &number.to_string()),
        Value::Text(words) | Value::Fraction(words) => string(text, words),
        Value::List(objects) => {
            text.push('[');
            for (place, members) in objects.iter().enumerate() {
                if place > 0 {
                    text.push(',');
                }
                object(text, members);
            }
            text.push(']');
        }
    }
}

fn string(text: &mut String, words: &str) {
    text.push('"');
    for c in words.chars() {
        match c {
            '"' => *text += "\\\"",
            '\\' => *text += "\\\\",
            c if c.is_control() || matches!(c, '\u{2028}' | '\u{2029}') => *text += &format!("\\u{:04x}", u32::from(c)),
            c => text.push(c),
        }
    }
    text.push('"');
}

#[cfg(test)]
mod tests {
    use super::*;

    #[test]
    fn a_record_is_one_line() {
        let members = vec![
            ("text", Value::text("a \"b\" \\ \n\u{2028}é")),
            ("whole", Value::whole(-12i64)),
            ("edge", Value::Whole(1 << 53)),
            ("beyond", Value::Whole(-(1 << 53) - 1)),
            ("float", Value::Float(1e-30)),
            ("odd", Value::Float(f64::NEG_INFINITY)),
            ("list", Value::List(vec![vec![("yes", Value::Bool(true))], vec![("none", Value::None)]])),
        ];
        assert_eq!(
            line(&members),
            "{\"text\":\"a \\\"b\\\" \\\\ \\u000a\\u2028é\",\"whole\":-12,\"edge\":9007199254740992,\
             \"beyond\":\"-9007199254740993\",\"float\":1e-30,\"odd\":\"-inf\",\
             \"list\":[{\"yes\":true},{\"none\":null}]}\n"
        );
    }
}
