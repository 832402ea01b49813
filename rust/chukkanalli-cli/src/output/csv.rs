//! Records as CSV, with a first row that names the columns.

use super::value::{Members, Value};

/// The row with the columns' names.
pub fn heading(columns: &[String]) -> String {
    columns.join(",") + "\n"
}

/// The rows of a record: one for each object of the list that is spread out, else one.
pub fn rows(columns: &[String], members: &Members, spread: &str) -> String {
    let flat = flattened(members);
    let objects = members.iter().find_map(|(name, value)| match value {
        Value::List(objects) if *name == spread => Some(objects),
        _ => None,
    });
    match objects {
        Some(objects) => objects.iter().map(|own| row(columns, &flat, own)).collect(),
        None => row(columns, &flat, &Vec::new()),
    }
}

fn row(columns: &[String], flat: &[(String, String)], own: &Members) -> String {
    let cells = columns.iter().map(|column| {
        let own = own.iter().find(|(name, _)| name == column).map(|(_, value)| cell(value));
        let shared = || flat.iter().find(|(name, _)| name == column).map(|(_, cell)| cell.clone());
        own.or_else(shared).unwrap_or_default()
    });
    cells.collect::<Vec<_>>().join(",") + "\n"
}

/// The cells of a record by column: the members of a seat in columns of its own, all faults in one.
fn flattened(members: &Members) -> Vec<(String, String)> {
    let mut flat = Vec::new();
    for (name, value) in members {
        match value {
            Value::List(seats) if *name == "seat_values" => {
                for members in seats {
                    let seat =
                        members.iter().find(|(name, _)| *name == "seat").map_or(String::new(), |(_, seat)| cell(seat));
                    flat.extend(members.iter().map(|(name, value)| (format!("seat_{seat}_{name}"), cell(value))));
                }
            }
            Value::List(faults) => flat.push((name.to_string(), cell(&Value::Text(sentences(faults))))),
            value => flat.push((name.to_string(), cell(value))),
        }
    }
    flat
}

/// Faults as one text.
fn sentences(faults: &[Members]) -> String {
    let told = faults.iter().map(|members| match &members[..] {
        [(_, Value::Whole(line)), (_, Value::Text(sentence))] => format!("line {line}: {sentence}"),
        [_, (_, Value::Text(sentence))] => sentence.clone(),
        _ => String::new(),
    });
    told.collect::<Vec<_>>().join("; ")
}

fn cell(value: &Value) -> String {
    match value {
        Value::None | Value::List(_) => String::new(),
        Value::Bool(value) => value.to_string(),
        Value::Whole(number) => number.to_string(),
        Value::Decimal(number) => number.clone(),
        Value::Float(number) => format!("{number:?}"),
        Value::Text(words) => text_cell(words),
        // No spreadsheet takes it for a date.
        Value::Fraction(fraction) => text_cell(&format!("{fraction} chips")),
    }
}

/// A text that no spreadsheet takes for a formula, in quotes where it needs them.
fn text_cell(words: &str) -> String {
    let harmless = if words.starts_with(['=', '+', '-', '@', '\t', '\r']) { "'" } else { "" };
    if words.contains(['"', ',', ';', '\n', '\r', '\t']) {
        format!("\"{harmless}{}\"", words.replace('"', "\"\""))
    } else {
        format!("{harmless}{words}")
    }
}

#[cfg(test)]
mod tests {
    use super::*;

    #[test]
    fn texts_are_harmless_and_quoted_where_needed() {
        assert_eq!(["=1", "+1", "-1", "@x", "a=b"].map(text_cell), ["'=1", "'+1", "'-1", "'@x", "a=b"]);
        assert_eq!(text_cell("=a,\"b\""), "\"'=a,\"\"b\"\"\"");
        assert_eq!(cell(&Value::Fraction("1/9".to_string())), "1/9 chips");
        assert_eq!(cell(&Value::whole(-9i64)), "-9");
        assert_eq!(cell(&Value::Float(0.1)), "0.1");
    }

    #[test]
    fn a_record_is_a_row_of_the_columns() {
        let columns = ["file", "seat_0_worth", "seat_1_worth", "faults", "set"].map(str::to_string);
        assert_eq!(heading(&columns), "file,seat_0_worth,seat_1_worth,faults,set\n");
        let seat = |seat: u64, worth: i64| vec![("seat", Value::from(seat)), ("worth", Value::whole(worth))];
        let fault = |line: Value, words: &str| vec![("line", line), ("sentence", Value::from(words))];
        let mut members = vec![
            ("file", Value::from("a")),
            ("seat_values", Value::List(vec![seat(0, -3), seat(1, 3)])),
            ("faults", Value::List(vec![fault(Value::from(4u64), "odd"), fault(Value::None, "odder, too")])),
        ];
        assert_eq!(rows(&columns, &members, "reply"), "a,-3,3,\"line 4: odd; odder, too\",\n");
        let reply = ["x", "y"].map(|set| vec![("set", Value::from(set))]).to_vec();
        members.push(("reply", Value::List(reply)));
        members.remove(2);
        assert_eq!(rows(&columns, &members, "reply"), "a,-3,3,,x\na,-3,3,,y\n");
        members[2].1 = Value::None;
        assert_eq!(rows(&columns, &members, "reply"), "a,-3,3,,\n");
    }
}
