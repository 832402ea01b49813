//! The names of games and files, as they are given and shown.

use std::os::unix::ffi::OsStrExt;
use std::path::Path;

use chukkanalli::Game;

/// A game's name on the command line.
pub fn game_word(game: Game) -> String {
    game.name().to_lowercase()
}

/// A file's name in a sentence: with what does not print written out, in quotes where it is empty. No two names look alike that differ in
/// a byte which is not text.
pub fn file_name(path: &Path) -> String {
    let bytes = path.as_os_str().as_bytes();
    if bytes.is_empty() {
        return "''".to_string();
    }
    let mut name = String::new();
    for chunk in bytes.utf8_chunks() {
        name += &chunk.valid().escape_debug().to_string().replace(r"\'", "'").replace(r#"\""#, "\"");
        name.extend(chunk.invalid().iter().map(|byte| format!(r"\x{byte:02x}")));
    }
    name
}

#[cfg(test)]
mod tests {
    use super::*;
    use std::collections::HashSet;
    use std::ffi::OsStr;

    #[test]
    fn names_are_shown_on_one_line() {
        let named = |name: &str| file_name(Path::new(name));
        assert_eq!(named("a\nb\u{202e}c\u{2028}d\te"), r"a\nb\u{202e}c\u{2028}d\te");
        assert_eq!(named(""), "''");
        for name in ["folder/tä ble.txt", "it's", "\"a\"'b'", "हिन्दी", "e\u{301}", "\u{fffd}"] {
            assert_eq!(named(name), name);
        }
        assert_eq!(named(r"a\'b\n"), r"a\\'b\\n");
    }

    #[test]
    fn names_that_are_not_text_never_look_alike() {
        let names: [&[u8]; 9] =
            [b"a\xff", b"a\xfe", b"a\\xff", b"a\xc3", b"a\xc3\xff", b"a\xff\xc3", b"a\xef\xbf\xbd", b"a", b"\xffa"];
        let shown: HashSet<String> = names.iter().map(|name| file_name(Path::new(OsStr::from_bytes(name)))).collect();
        assert_eq!(shown.len(), names.len());
        assert!(shown.contains(r"a\xff") && shown.contains(r"a\\xff"));
    }
}
