//! Random files with labels, text and CSV, whose outcome is known: whole ones in any order and layout, and ones with a single fault.

use chukkanalli::tables::{Labels, ReadBy, Reader};
use chukkanalli::Game;
use random::Random;

use crate::model::{self, Listed};

/// A table with its sets' labels, as the model writes them.
pub struct Table {
    pub d: u64,
    pub parts: Vec<Vec<u8>>,
}

impl Table {
    pub fn draw(random: &mut Random, listed: &Listed, d: u64) -> Self {
        let parts = listed.actions.iter().map(|&count| {
            let mut left = d;
            let mut parts: Vec<u8> = (1..count).map(|_| take(random, &mut left)).collect();
            parts.push(left as u8);
            parts
        });
        Table { d, parts: parts.collect() }
    }

    pub fn numbers(&self) -> Vec<u8> {
        self.parts.concat()
    }

    /// The lines of a text, in set order.
    fn lines(&self, random: &mut Random, listed: &Listed) -> Vec<String> {
        let odd = random.one_in(3);
        let lines = self.parts.iter().zip(&listed.labels).map(|(parts, label)| {
            let words: Vec<String> = parts.iter().map(u8::to_string).collect();
            let label = if odd { odd_case(random, label) } else { label.clone() };
            let note = if random.one_in(20) { " # seat 9, BET" } else { "" };
            format!("{} #{}{label}{note}", words.join(random.pick(&[" ", "\t", "  "])), random.pick(&["", " ", "\t"]))
        });
        lines.collect()
    }

    /// The rows of a CSV file, in set order, with separators and quotes of some kind.
    fn rows(&self, listed: &Listed, separator: char, quote: bool) -> Vec<String> {
        let columns = columns(listed.game).len();
        let rows = self.parts.iter().enumerate().map(|(set, parts)| {
            let mut cells = vec![String::new(); columns];
            for (&action, part) in listed.legal[set].iter().zip(parts) {
                cells[usize::from(action)] = part.to_string();
            }
            let label = &listed.labels[set];
            let label = if quote { format!("\"{label}\"") } else { label.clone() };
            format!("{label}{separator}{}", cells.join(&separator.to_string()))
        });
        rows.collect()
    }
}

fn take(random: &mut Random, left: &mut u64) -> u8 {
    let part = random.draw() % (*left + 1);
    *left -= part;
    part as u8
}

fn odd_case(random: &mut Random, label: &str) -> String {
    let label = if random.one_in(2) { label.to_lowercase() } else { label.to_uppercase() };
    label.replace(' ', random.pick(&[" ", "  ", "\t"]))
}

fn columns(game: Game) -> &'static [&'static str] {
    match game {
        Game::Kuhn { .. } => &["PASS", "BET"],
        Game::Leduc => &["FOLD", "CALL", "RAISE"],
    }
}

/// A file, and what is to be read from it: the line of its one fault where it has one.
pub struct File {
    pub bytes: Vec<u8>,
    pub faulty: Option<usize>,
    pub headed: bool,
}

/// A file of a table, with one fault in one of two cases.
pub fn file(random: &mut Random, listed: &Listed, table: &Table) -> File {
    let csv = random.one_in(3);
    let (separator, quote) = (random.pick(&[',', ';', '\t']), !random.one_in(3));
    let mut lines = if csv { table.rows(listed, separator, quote) } else { table.lines(random, listed) };
    for place in (1..lines.len()).rev() {
        lines.swap(place, random.below(place + 1));
    }
    let damaged = random.one_in(2).then(|| {
        let place = random.below(lines.len());
        lines[place] =
            if csv { damaged_row(random, &lines[place], separator) } else { damaged_line(random, &lines[place]) };
        place
    });
    let mut front = Vec::new();
    let headed = random.one_in(2);
    if headed {
        let heading = format!("# {}, D {}: mine", listed.words(), table.d);
        front.push(if csv { format!("\"{heading}\"{separator}") } else { heading });
    }
    if csv {
        front.push(format!("set{separator}{}", columns(listed.game).join(&separator.to_string())));
    }
    let faulty = damaged.map(|place| place + front.len() + 1);
    let end = random.pick(&["\n", "\r\n", "\r"]);
    let mark = if random.one_in(4) { "\u{feff}" } else { "" };
    let bytes = format!("{mark}{}", [front, lines].concat().join(end)).into_bytes();
    File { bytes, faulty, headed }
}

/// A line of a text with something wrong in it.
fn damaged_line(random: &mut Random, line: &str) -> String {
    let (parts, label) = line.split_once('#').expect("a line has its label");
    let words: Vec<&str> = parts.split_whitespace().collect();
    let actions: Vec<&str> = label.split(':').next().unwrap_or_default().split_whitespace().collect();
    match random.below(10) {
        0 => format!("{} # {label}", words[1..].join(" ")),
        1 => format!("{parts} 0 # {label}"),
        2 => format!("{} # {label}", words.join(random.pick(&[",", ";"]))),
        3 => format!("{}.5 {} # {label}", words[0], words[1..].join(" ")),
        4 => format!("{} {} # {label}", random.pick(&["256", "-1", "x", "1/3", "50%"]), words[1..].join(" ")),
        5 => parts.to_string(),
        6 => format!("{parts} # a note"),
        7 => format!("{parts} // {label}"),
        8 => format!("{parts} # {}:{}", actions[1..].join(" "), label.split_once(':').map_or("", |(_, words)| words)),
        _ => format!("{parts} # x {label}"),
    }
}

/// A row of a CSV file with something wrong in it.
fn damaged_row(random: &mut Random, row: &str, separator: char) -> String {
    match random.below(4) {
        0 => format!("{row}{separator}1{separator}1"),
        1 => format!("x{row}"),
        2 => row.replacen(|c: char| c.is_ascii_digit(), "x", 1),
        _ => format!("\"{row}"),
    }
}

pub fn try_one(random: &mut Random, games: &[Listed], labels: &[Labels]) {
    let place = random.pick(&[0, 0, 0, 1, 5]);
    let (listed, labels) = (&games[place], &labels[place]);
    let d = 1 + random.draw() % listed.most_parts();
    let table = Table::draw(random, listed, d);
    let file = file(random, listed, &table);
    let shown = || String::from_utf8_lossy(&file.bytes).into_owned();
    let read = Reader::new(labels).with_d(d).labelled().read::<u8>(&file.bytes);
    match (read, file.faulty) {
        (Ok(read), None) => {
            assert_eq!((read.numbers, read.read_by), (table.numbers(), ReadBy::Labels), "{}", shown());
        }
        (Err(faults), Some(line)) => {
            assert!(faults.told().iter().any(|fault| fault.line == Some(line)), "line {line}: {faults}\n{}", shown());
        }
        (Ok(_), Some(line)) => panic!("line {line} is damaged and is read: {}", shown()),
        (Err(faults), None) => panic!("{faults}\n{}", shown()),
    }
    assert_eq!(model::labels_of(listed.game, labels.sets()), listed.labels);
}
