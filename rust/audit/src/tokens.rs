//! The tokens of Rattle, Rust and C.

#[derive(Clone, Copy, Debug, PartialEq, Eq)]
pub enum Kind {
    Word,
    Number,
    Text,
    Mark,
    Comment,
}

#[derive(Clone, Copy, Debug)]
pub struct Token<'a> {
    pub kind: Kind,
    pub text: &'a str,
    /// Where it begins in its file, in bytes.
    pub at: usize,
    pub line: usize,
}

impl Token<'_> {
    pub fn is(&self, text: &str) -> bool {
        self.text == text && !matches!(self.kind, Kind::Comment | Kind::Text)
    }

    /// What a comment says, without its marks and in one line.
    pub fn said(&self) -> String {
        let inside = self.text.trim_start_matches("/*").trim_end_matches("*/");
        let lines = inside.lines().map(|line| line.trim().trim_start_matches(['/', '*', '!']).trim());
        lines.collect::<Vec<_>>().join(" ").trim().to_string()
    }
}

fn begins_word(c: char) -> bool {
    c.is_alphabetic() || c == '_'
}

fn goes_on(c: char) -> bool {
    c.is_alphanumeric() || c == '_'
}

/// How many bytes a comment takes that begins here, if one does.
fn comment(rest: &str) -> Option<Result<usize, &'static str>> {
    if rest.starts_with("//") {
        return Some(Ok(rest.find('\n').unwrap_or(rest.len())));
    }
    rest.starts_with("/*").then(|| rest.find("*/").map(|end| end + 2).ok_or("a comment does not end"))
}

/// How many bytes a quoted text takes that begins here.
fn quoted(rest: &str) -> Result<usize, &'static str> {
    let mut escaped = false;
    for (at, c) in rest.char_indices().skip(1) {
        match c {
            _ if escaped => escaped = false,
            '\\' => escaped = true,
            '"' => return Ok(at + 1),
            _ => {}
        }
    }
    Err("a text does not end")
}

/// How many bytes a character or a lifetime takes that begins here.
fn ticked(rest: &str) -> Result<usize, &'static str> {
    let mut chars = rest.char_indices().skip(1);
    let (_, first) = chars.next().ok_or("a tick at the end of the file")?;
    if first == '\\' {
        let end = rest[3..].find('\'').ok_or("a character does not end")?;
        return Ok(3 + end + 1);
    }
    let (next, second) = chars.next().ok_or("a tick at the end of the file")?;
    if second == '\'' {
        return Ok(next + 1);
    }
    Ok(rest[1..].find(|c| !goes_on(c)).map_or(rest.len(), |end| 1 + end))
}

fn length(rest: &str) -> Result<(Kind, usize), &'static str> {
    let first = rest.chars().next().expect("the rest is not empty");
    if let Some(bytes) = comment(rest) {
        return bytes.map(|bytes| (Kind::Comment, bytes));
    }
    let run = |part: fn(char) -> bool| rest.find(|c| !part(c)).unwrap_or(rest.len());
    match first {
        '"' => quoted(rest).map(|bytes| (Kind::Text, bytes)),
        '\'' => ticked(rest).map(|bytes| (Kind::Text, bytes)),
        _ if begins_word(first) => Ok((Kind::Word, run(goes_on))),
        _ if first.is_ascii_digit() => Ok((Kind::Number, run(goes_on))),
        _ => Ok((Kind::Mark, first.len_utf8())),
    }
}

pub fn tokens<'a>(path: &str, text: &'a str) -> Result<Vec<Token<'a>>, String> {
    let mut tokens = Vec::new();
    let (mut at, mut line) = (0, 1);
    while let Some(first) = text[at..].chars().next() {
        if first.is_whitespace() {
            line += usize::from(first == '\n');
            at += first.len_utf8();
            continue;
        }
        let (kind, bytes) = length(&text[at..]).map_err(|error| format!("{path}:{line}: {error}"))?;
        let token = Token { kind, text: &text[at..at + bytes], at, line };
        line += token.text.matches('\n').count();
        at += bytes;
        tokens.push(token);
    }
    Ok(tokens)
}

#[cfg(test)]
mod tests {
    use super::*;

    #[test]
    fn tokens_are_words_numbers_texts_marks_and_comments() {
        let text = "pub fn f(x: &'a [u8; 1_0]) // why\n{ '\\n'; 'x'; \"a\\\"b\" /* a\n b */ ≡ }";
        let found: Vec<(Kind, &str)> =
            tokens("a", text).expect("it can be read").iter().map(|token| (token.kind, token.text)).collect();
        let words: Vec<&str> = found.iter().filter(|(kind, _)| *kind == Kind::Word).map(|(_, text)| *text).collect();
        assert_eq!(words, ["pub", "fn", "f", "x", "u8"]);
        assert!(found.contains(&(Kind::Text, "'a")) && found.contains(&(Kind::Text, "'\\n'")));
        assert!(found.contains(&(Kind::Text, "'x'")) && found.contains(&(Kind::Text, "\"a\\\"b\"")));
        assert!(found.contains(&(Kind::Number, "1_0")) && found.contains(&(Kind::Mark, "≡")));
        assert_eq!(tokens("a", text).expect("it can be read").last().map(|token| token.line), Some(3));
        assert_eq!(tokens("a", "/* a\n * b */").expect("it can be read")[0].said(), "a b");
        assert!(tokens("a", "x /* y").is_err() && tokens("a", "\"y").is_err());
    }
}
