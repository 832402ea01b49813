//! Bytes as text, and its lines.

use std::io::BufRead;

use super::fault::Faults;

/// The bytes as UTF-8 without control characters but tabs and line ends. A byte order mark at the front is skipped.
pub fn text_of(bytes: &[u8]) -> Result<&str, Faults> {
    if let Some(kind) = foreign(bytes) {
        return Err(Faults::in_line(1, format!("this is {kind}, not text; save it as plain text, UTF-8")));
    }
    let bytes = bytes.strip_prefix(b"\xEF\xBB\xBF").unwrap_or(bytes);
    let text = std::str::from_utf8(bytes).map_err(|error| {
        let at = error.valid_up_to();
        let sentence = format!("this is not text: the byte {} is not UTF-8", bytes[at]);
        Faults::in_line(line_at(&bytes[..at]), sentence)
    })?;
    if !may_have_control(bytes) {
        return Ok(text);
    }
    match text.char_indices().find(|(_, c)| c.is_control() && !matches!(c, '\t' | '\n' | '\r')) {
        None => Ok(text),
        Some((at, c)) => {
            let sentence = format!("this is not text: it has the control character {}", u32::from(c));
            Err(Faults::in_line(line_at(&bytes[..at]), sentence))
        }
    }
}

/// What the bytes are, where their front tells that another program wrote them.
fn foreign(bytes: &[u8]) -> Option<&'static str> {
    let mark = bytes.starts_with(b"\xFF\xFE") || bytes.starts_with(b"\xFE\xFF");
    let nul = |front: &[u8], odd: usize| front.len() == 4 && (0..4).all(|at| (front[at] == 0) == (at % 2 == odd));
    let front = bytes.get(..4).unwrap_or_default();
    if mark || nul(front, 0) || nul(front, 1) {
        Some("UTF-16")
    } else if bytes.starts_with(b"PK\x03\x04") {
        Some("a zip container, as spreadsheets and word processors save")
    } else {
        None
    }
}

/// Whether a byte may be of a control character; bytes alone, so that it takes no time on a text without.
fn may_have_control(bytes: &[u8]) -> bool {
    let low = |byte: u8| (byte < 0x20) & (byte != b'\t') & (byte != b'\n') & (byte != b'\r');
    let odd = |byte: u8| low(byte) | (byte == 0x7F) | (byte == 0xC2);
    bytes.chunks(1024).any(|chunk| chunk.iter().fold(false, |seen, &byte| seen | odd(byte)))
}

/// The lines of a text, without a last one that is empty. A line ends with LF, CRLF or CR.
pub fn lines(text: &str) -> Lines<'_> {
    Lines { rest: text, has_cr: text.contains('\r') }
}

pub struct Lines<'a> {
    rest: &'a str,
    has_cr: bool,
}

impl<'a> Iterator for Lines<'a> {
    type Item = &'a str;

    fn next(&mut self) -> Option<&'a str> {
        if self.rest.is_empty() {
            return None;
        }
        let end = match self.has_cr {
            true => self.rest.bytes().position(|byte| matches!(byte, b'\n' | b'\r')).unwrap_or(self.rest.len()),
            false => line_feed(self.rest.as_bytes()),
        };
        let (line, behind) = self.rest.split_at(end);
        self.rest = behind.strip_prefix("\r\n").or_else(|| behind.get(1..)).unwrap_or_default();
        Some(line)
    }
}

/// The place of the first line feed, by the system's search for a byte, or the end.
fn line_feed(bytes: &[u8]) -> usize {
    let mut rest = bytes;
    let skipped = rest.skip_until(b'\n').unwrap_or(bytes.len());
    if bytes[..skipped].ends_with(b"\n") {
        skipped - 1
    } else {
        skipped
    }
}

/// The line that comes behind these bytes, whose front is text.
fn line_at(before: &[u8]) -> usize {
    let text = std::str::from_utf8(before).unwrap_or_default();
    let ended = text.is_empty() || text.ends_with(['\n', '\r']);
    lines(text).count() + usize::from(ended)
}

#[cfg(test)]
mod tests {
    use super::*;

    fn fault(bytes: &[u8]) -> String {
        text_of(bytes).unwrap_err().to_string()
    }

    #[test]
    fn lines_end_with_lf_crlf_or_cr() {
        let split = |text: &'static str| lines(text).collect::<Vec<_>>();
        assert_eq!(split(""), [""; 0]);
        for text in ["a\n\nb", "a\n\nb\n", "a\r\n\r\nb\r\n", "a\r\rb\r", "a\r\r\nb", "a\n\rb"] {
            assert_eq!(split(text), ["a", "", "b"], "{text:?}");
        }
        for text in ["\n", "\r", "\r\n"] {
            assert_eq!(split(text), [""], "{text:?}");
        }
        assert_eq!(split("a\n\r"), ["a", ""]);
    }

    #[test]
    fn what_is_not_text_is_named_with_its_line() {
        assert_eq!(fault(b"1 0\n\xFF\xFE"), "line 2: this is not text: the byte 255 is not UTF-8");
        assert_eq!(fault(b"1 0 # \xc3"), "line 1: this is not text: the byte 195 is not UTF-8");
        assert_eq!(fault(b"1 0\r\n1\r\n\x00"), "line 3: this is not text: it has the control character 0");
        assert_eq!(fault(b"1 0 # \x1b[2J"), "line 1: this is not text: it has the control character 27");
        assert_eq!(fault("1 0 # \u{9b}".as_bytes()), "line 1: this is not text: it has the control character 155");
        assert_eq!(text_of("1\u{a0}0 # ä".as_bytes()).unwrap(), "1\u{a0}0 # ä");
    }

    #[test]
    fn files_of_other_programs_are_known_by_their_front() {
        let utf16 = "line 1: this is UTF-16, not text; save it as plain text, UTF-8";
        for bytes in [&b"\xFF\xFE1\x00 \x00"[..], b"\xFE\xFF\x001\x00 ", b"1\x00 \x000\x00", b"\x001\x00 \x000"] {
            assert_eq!(fault(bytes), utf16);
        }
        assert!(fault(b"PK\x03\x04\x14\x00").starts_with("line 1: this is a zip container"));
        assert_eq!(fault(b"\0\0\0\0"), "line 1: this is not text: it has the control character 0");
    }
}
