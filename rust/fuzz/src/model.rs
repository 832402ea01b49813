//! What is expected: the reader once more, byte by byte, and the refusals of document 01 by its list.

use chukkanalli::{Evaluator, Game, InfoSet};

/// A game with a tree, and of each of its sets the legal actions, how many they are, and the label.
pub struct Listed {
    pub game: Game,
    pub actions: Vec<usize>,
    pub legal: Vec<Vec<u8>>,
    pub labels: Vec<String>,
}

impl Listed {
    pub fn name(&self) -> &'static str {
        match self.game {
            Game::Kuhn { .. } => "kuhn",
            Game::Leduc => "leduc",
        }
    }

    /// The game in words, as a heading has it.
    pub fn words(&self) -> String {
        let name = if self.name() == "kuhn" { "Kuhn" } else { "Leduc" };
        format!("{name} with {} seats", self.game.seats())
    }

    pub fn most_parts(&self) -> u64 {
        match self.game {
            Game::Kuhn { seats: 5 | 6 } => 16,
            _ => 64,
        }
    }

    pub fn entries(&self) -> usize {
        self.actions.iter().sum()
    }

    /// Whether each set of a profile's bits has no number below 0 and no NaN, and adds up to 1 within 1e-9.
    pub fn adds_up_to_1(&self, bits: &[u64]) -> bool {
        let mut rest = bits.iter().map(|&bits| f64::from_bits(bits));
        self.actions.iter().all(|&count| {
            let own: Vec<f64> = rest.by_ref().take(count).collect();
            let total = own.iter().fold(0.0, |total, number| total + number);
            own.iter().all(|&number| number >= 0.0) && total >= 1.0 - 1e-9 && total <= 1.0 + 1e-9
        })
    }

    /// Document 01's 7 and 8, or 0.
    pub fn table_refusal(&self, d: u64, parts: &[u8]) -> u64 {
        if parts.len() != self.entries() {
            return 7;
        }
        let mut rest = parts;
        for &count in &self.actions {
            let (own, behind) = rest.split_at(count);
            if own.iter().map(|&part| u64::from(part)).sum::<u64>() != d {
                return 8;
            }
            rest = behind;
        }
        0
    }
}

/// Kuhn with 2 to 6 seats, and Leduc.
pub fn games() -> Vec<Listed> {
    let games = (2..=6).map(|seats| Game::Kuhn { seats }).chain([Game::Leduc]);
    let listed = games.map(|game| {
        let sets = Evaluator::new(game).expect("the game has a tree").sets();
        let legal: Vec<Vec<u8>> = sets.iter().map(|set| set.legal.clone()).collect();
        Listed { game, actions: legal.iter().map(Vec::len).collect(), legal, labels: labels_of(game, &sets) }
    });
    listed.collect()
}

/// The labels of sets, as docs/TABLES.md has them.
pub fn labels_of(game: Game, sets: &[InfoSet]) -> Vec<String> {
    let named = |actions: &[u8]| {
        let names = match game {
            Game::Kuhn { .. } => ["PASS", "BET", ""],
            Game::Leduc => ["FOLD", "CALL", "RAISE"],
        };
        actions.iter().map(|&action| names[usize::from(action)]).collect::<Vec<_>>().join(" ")
    };
    let label = |set: &InfoSet| {
        let ranked = |card: u8| format!("card {card} (rank {})", card / 2);
        let first = |actions: &[u8]| match actions {
            [] => "first action of the hand".to_string(),
            actions => format!("after {}", named(actions)),
        };
        let known = match (game, set.public_card) {
            (Game::Kuhn { .. }, _) => format!("card {}, {}", set.card, first(&set.rounds[0])),
            (_, None) => format!("{}, no public card, {}", ranked(set.card), first(&set.rounds[0])),
            (_, Some(public)) => {
                let round2 = match &set.rounds[1][..] {
                    [] => "first action of round 2".to_string(),
                    actions => format!("in round 2 after {}", named(actions)),
                };
                let (own, public) = (ranked(set.card), ranked(public));
                format!("{own}, public {public}, after {}, {round2}", named(&set.rounds[0]))
            }
        };
        format!("{}: seat {}, {known}", named(&set.legal), set.seat)
    };
    sets.iter().map(label).collect()
}

/// Document 01's 1, 2 or 3, or the game.
pub fn game_of<'a>(games: &'a [Listed], name: &str, seats: u128) -> Result<&'a Listed, u64> {
    let name = name.to_ascii_lowercase();
    let range = match &name[..] {
        "kuhn" => 2..=10,
        "leduc" => 2..=2,
        _ => return Err(1),
    };
    if !range.contains(&seats) {
        return Err(2);
    }
    games.iter().find(|listed| listed.name() == name && u128::from(listed.game.seats()) == seats).ok_or(3)
}

/// The numbers of a text with the line of each, or the line of its first fault.
pub type Read<T> = Result<(Vec<T>, Vec<usize>), usize>;

/// Whether the front of a file tells that it is UTF-16 or a zip container: a mark, a NUL in every other of four bytes, or PK.
pub fn is_foreign(bytes: &[u8]) -> bool {
    let utf16 = matches!(bytes, [0, b, 0, d, ..] | [b, 0, d, 0, ..] if *b != 0 && *d != 0);
    utf16 || [&b"\xFF\xFE"[..], b"\xFE\xFF", b"PK\x03\x04"].iter().any(|front| bytes.starts_with(front))
}

/// Reads a text whose words are numbers of some kind.
pub fn read<T>(bytes: &[u8], number: impl Fn(&str) -> Option<T>) -> Read<T> {
    if is_foreign(bytes) {
        return Err(1);
    }
    let bytes = if bytes.starts_with(b"\xEF\xBB\xBF") { &bytes[3..] } else { bytes };
    let lossy = String::from_utf8_lossy(bytes);
    if let Some(line) = first_odd(bytes, &lossy) {
        return Err(line);
    }
    let (mut numbers, mut lines) = (Vec::new(), Vec::new());
    let joined = lossy.replace("\r\n", "\n").replace('\r', "\n");
    for (line, text) in (1..).zip(joined.split('\n')) {
        let words = &text[..text.find('#').unwrap_or(text.len())];
        for word in words.split(char::is_whitespace).filter(|word| !word.is_empty()) {
            numbers.push(number(word).ok_or(line)?);
            lines.push(line);
        }
    }
    Ok((numbers, lines))
}

/// The part that a word is.
pub fn part(word: &str) -> Option<u8> {
    let mut value = 0;
    for c in word.chars() {
        value = (10 * value + c.to_digit(10)?).min(1000);
    }
    u8::try_from(value).ok()
}

/// The bits of the f64 that a word is: a sign or none, then a name in letters of either case, or digits with at most one point among them and at
/// most one exponent behind.
pub fn bits(word: &str) -> Option<u64> {
    let digits = |text: &str| text.bytes().all(|byte| byte.is_ascii_digit());
    let unsigned = |text: &str| text.strip_prefix(['+', '-']).unwrap_or(text).to_string();
    let lower = unsigned(word).to_ascii_lowercase();
    let (mantissa, exponent) = lower.split_once('e').map_or((&lower[..], "0".to_string()), |(m, e)| (m, unsigned(e)));
    let (whole, fraction) = mantissa.split_once('.').unwrap_or((mantissa, ""));
    let has_digits = !(whole.is_empty() && fraction.is_empty() || exponent.is_empty());
    let decimal = has_digits && digits(whole) && digits(fraction) && digits(&exponent);
    let known = decimal || ["inf", "infinity", "nan"].contains(&&lower[..]);
    known.then(|| word.parse::<f64>().expect("a number in Rust's form").to_bits())
}

/// The line of the first byte that is not UTF-8, if there is one, else of the first control character.
fn first_odd(bytes: &[u8], lossy: &str) -> Option<usize> {
    let odd = match std::str::from_utf8(bytes) {
        Err(error) => Some(error.valid_up_to()),
        Ok(_) => lossy.find(|c: char| c.is_control() && !"\t\r\n".contains(c)),
    };
    odd.map(|odd| {
        let before = &bytes[..odd];
        let ends =
            (0..odd).filter(|&at| before[at] == b'\n' || (before[at] == b'\r' && bytes.get(at + 1) != Some(&b'\n')));
        1 + ends.count()
    })
}
