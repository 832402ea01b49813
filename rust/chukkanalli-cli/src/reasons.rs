//! What is wrong with refused tables, a text for each, to be sent back.

use std::collections::HashSet;
use std::fs;
use std::io;
use std::path::Path;

use chukkanalli::tables::Faults;

/// The bytes of a file's name at most, without what is added to it.
const LONGEST: usize = 200;

/// Writes a text for each table to a folder, which is made where it is missing.
pub fn write(folder: &Path, asked: &str, refused: &[(String, Faults)]) -> io::Result<()> {
    fs::create_dir_all(folder)?;
    let mut taken = HashSet::new();
    for (name, faults) in refused {
        fs::write(folder.join(file_name(name, &mut taken)), text(name, asked, faults))?;
    }
    Ok(())
}

/// The table's own name with `.reasons.txt` behind it, and a number before that where two tables have one name.
fn file_name(name: &str, taken: &mut HashSet<String>) -> String {
    let own = name.rsplit('/').find(|part| !part.is_empty()).unwrap_or("table");
    let mut end = own.len().min(LONGEST);
    while !own.is_char_boundary(end) {
        end -= 1;
    }
    let own = own[..end].trim_start_matches(['.', '-']);
    let numbers = (2..).map(|number| format!("{own}.{number}.reasons.txt"));
    let mut names = [format!("{own}.reasons.txt")].into_iter().chain(numbers);
    names.find(|name| taken.insert(name.clone())).unwrap_or_default()
}

fn text(name: &str, asked: &str, faults: &Faults) -> String {
    format!("{name} was not ranked. It was read as a table of {asked}.\n\n{faults}\n")
}

#[cfg(test)]
mod tests {
    use super::*;

    #[test]
    fn each_table_gets_a_file_of_its_own() {
        let mut taken = HashSet::new();
        let mut named = |name: &str| file_name(name, &mut taken);
        assert_eq!(named("a/mine.txt"), "mine.txt.reasons.txt");
        assert_eq!(named("b/mine.txt"), "mine.txt.2.reasons.txt");
        assert_eq!(named("c/mine.txt"), "mine.txt.3.reasons.txt");
        assert_eq!(named("mine.txt.2"), "mine.txt.2.2.reasons.txt");
        assert_eq!(named("..//"), ".reasons.txt");
        assert_eq!(named("/"), "table.reasons.txt");
        assert_eq!(named("-x"), "x.reasons.txt");
        assert_eq!(named("standard input"), "standard input.reasons.txt");
        assert!(named(&"ä".repeat(200)).len() <= LONGEST + 16);
    }
}
