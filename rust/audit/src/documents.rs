//! docs/API.md's tables of calls and refusals, and what compare/cases.c calls and asserts.

use std::collections::{BTreeMap, BTreeSet};

use crate::tokens::{tokens, Kind};

pub const API: &str = "docs/API.md";
pub const CASES: &str = "compare/cases.c";
pub const PREFIX: &str = "chukkanalli_";

/// A call as docs/API.md has it: the arguments and the refusals as they are written, and the table that it stands in.
pub struct Described {
    pub arguments: String,
    pub refusals: String,
    pub table: usize,
}

#[derive(Default)]
pub struct Tables {
    /// By the name of the export.
    pub calls: BTreeMap<String, Described>,
    /// Number and sentence, in the order of the table.
    pub refusals: Vec<(String, String)>,
}

fn cells(line: &str) -> Vec<&str> {
    line.trim().trim_matches('|').split('|').map(str::trim).collect()
}

/// The tables whose first column is `call`, and the one whose first column is `number`.
pub fn tables(text: &str) -> Result<Tables, String> {
    let mut tables = Tables::default();
    let mut lines = (1..).zip(text.lines());
    while let Some((number, line)) = lines.next() {
        if !line.starts_with('|') {
            continue;
        }
        let titles = cells(line);
        let rows = lines.by_ref().skip(1).map(|(_, line)| line).take_while(|line| line.starts_with('|'));
        let rows: Vec<Vec<&str>> = rows.map(cells).collect();
        if let Some(row) = rows.iter().find(|row| row.len() != titles.len()) {
            return Err(format!("{API}:{number}: a row of {} columns below {}: {row:?}", row.len(), titles.len()));
        }
        match titles[..] {
            ["call", _, "refusals in order", _] => tables.enter_calls(number, &rows)?,
            ["number", "refused because"] => {
                tables.refusals.extend(rows.iter().map(|row| (row[0].to_string(), row[1].to_string())))
            }
            ["game", ..] => {}
            _ => return Err(format!("{API}:{number}: a table of no known columns: {titles:?}")),
        }
    }
    Ok(tables)
}

impl Tables {
    fn enter_calls(&mut self, table: usize, rows: &[Vec<&str>]) -> Result<(), String> {
        for row in rows {
            let name = format!("{PREFIX}{}", row[0].trim_matches('`'));
            let described = Described { arguments: row[1].to_string(), refusals: row[2].to_string(), table };
            if self.calls.insert(name.clone(), described).is_some() {
                return Err(format!("{API}: {name} stands twice"));
            }
        }
        Ok(())
    }
}

/// What a comment says that a call is refused with: `none`, or what stands behind `Refuses with`.
pub fn refused_with(comment: &str) -> Option<String> {
    if comment.contains("Never refuses") {
        return Some("none".to_string());
    }
    let (_, behind) = comment.split_once("efuses with ")?;
    behind.split(['.', ';']).next().map(str::to_string)
}

/// The names before an opening parenthesis, outside comments and texts.
pub fn called(text: &str) -> Result<BTreeSet<String>, String> {
    let found: Vec<_> = tokens(CASES, text)?.into_iter().filter(|token| token.kind != Kind::Comment).collect();
    let calls = found.windows(2).filter(|pair| pair[0].kind == Kind::Word && pair[1].is("("));
    Ok(calls.map(|pair| pair[0].text.to_string()).collect())
}

/// What is asserted of the header, with a number written out: `CONSTANT(NAME, 1)`, `SIZE(struct, 8)` and `FIELD(struct, field, 0, 8)`, each
/// up to its numbers.
pub fn asserted(text: &str) -> Result<BTreeSet<String>, String> {
    let found: Vec<_> = tokens(CASES, text)?.into_iter().filter(|token| token.kind != Kind::Comment).collect();
    let mut asserted = BTreeSet::new();
    for (place, token) in found.iter().enumerate() {
        let (names, numbers) = match token.text {
            "CONSTANT" | "SIZE" => (1, 1),
            "FIELD" => (2, 2),
            _ => continue,
        };
        let behind: Vec<_> = found[place + 1..].iter().take(2 * (names + numbers) + 1).collect();
        let arguments = || behind.iter().skip(1).step_by(2);
        let marks = behind.iter().step_by(2).map(|token| token.text).collect::<String>();
        let kinds = arguments().map(|token| token.kind);
        let expected = std::iter::repeat_n(Kind::Word, names).chain(std::iter::repeat_n(Kind::Number, numbers));
        if kinds.eq(expected) && marks == format!("({})", ",".repeat(names + numbers - 1)) {
            let names: Vec<&str> = arguments().take(names).map(|token| token.text).collect();
            asserted.insert(format!("{}({}", token.text, names.join(", ")));
        }
    }
    Ok(asserted)
}

#[cfg(test)]
mod tests {
    use super::*;

    #[test]
    fn tables_and_refusals_are_read() {
        let text = "| call | arguments | refusals in order | answers |\n| --- | --- | --- | --- |\n| `f` | x, y | 2, 9 | a |\n\n\
                    | number | refused because |\n| --- | --- |\n| 1 | why |\n";
        let found = tables(text).expect("they can be read");
        assert_eq!((found.calls["chukkanalli_f"].arguments.as_str(), found.refusals[0].1.as_str()), ("x, y", "why"));
        assert!(tables(&text.replace("arguments | refusals", "arguments | numbers")).is_err());
        assert!(tables(&text.replace("| 2, 9 | a |", "| 2, 9 |")).is_err());
        assert_eq!(refused_with("A deal. Refuses with 2, 10 to 14; and so on.").as_deref(), Some("2, 10 to 14"));
        assert_eq!((refused_with("Never refuses.").as_deref(), refused_with("A deal.")), (Some("none"), None));
        assert_eq!(called("/* f( */ \"g(\" h(i) ;").expect("it can be read").len(), 1);
    }

    #[test]
    fn only_numbers_that_are_written_out_are_asserted() {
        let text =
            "#define CONSTANT(name, number) x\nCONSTANT(A, 1); CONSTANT(B, A); /* CONSTANT(C, 1); */ SIZE(s, 8);\n\
                    FIELD(s, a, 0, 8); FIELD(s, b, 8); SIZE(t, sizeof(t));";
        let found = asserted(text).expect("it can be read");
        assert_eq!(found.into_iter().collect::<Vec<_>>(), ["CONSTANT(A", "FIELD(s, a", "SIZE(s"]);
    }
}
