//! Random texts for the reader.

use std::fmt::Debug;

use chukkanalli::tables::{Labels, Number, Reader};
use random::Random;

use crate::model::{self, Listed, Read};

/// What tables and profiles are made of, and what they are spoiled with.
const PIECES: [&[u8]; 60] = [
    b"0",
    b"1",
    b"2",
    b"3",
    b"16",
    b"64",
    b"255",
    b"256",
    b"257",
    b"-1",
    b"-0",
    b"+1",
    b"1.5",
    b"007",
    b"0x1",
    b"1e3",
    b" ",
    b"  ",
    b"\t",
    b"\n",
    b"\r\n",
    b"\r",
    b"\n\n",
    b"#",
    b"# a comment\n",
    b"#\r\n",
    b"##1 2 3\r",
    b"1 0\n",
    b"0 1 # x\n",
    b"18446744073709551616",
    b"99999999999999999999999999999999999999999",
    b"\xEF\xBB\xBF",
    b"\xFF\xFE",
    b"\0",
    b"\x1b[2J",
    b"\xC2\xA0",
    b"\xE2\x80\xA8",
    b"\xD9\xA1",
    b"\x0B",
    b"\xC3",
    b"0.5",
    b".5",
    b"5.",
    b".",
    b"1e-3",
    b"1E+2",
    b"1e",
    b"e5",
    b"1e999",
    b"-1e-999",
    b"inf",
    b"-INF",
    b"Infinity",
    b"infinit",
    b"NaN",
    b"-nan",
    b"0.1.2",
    b"1_0",
    b"0.5f64",
    b"2.2250738585072011e-308",
];

/// A text of pieces and random bytes.
fn soup(random: &mut Random) -> Vec<u8> {
    let mut bytes = Vec::new();
    for _ in 0..random.below(30) {
        if random.one_in(12) {
            bytes.push(random.draw() as u8);
        } else {
            bytes.extend(random.pick(&PIECES));
            bytes.extend(random.pick(&[&b" "[..], b"\n", b""]));
        }
    }
    bytes
}

/// A valid table of a game with some D, in some layout.
pub fn valid(random: &mut Random, listed: &Listed, d: u64) -> Vec<u8> {
    let mut text = String::new();
    let end = random.pick(&["\n", "\r\n", "\r", "  ", " # set\n"]);
    for &count in &listed.actions {
        let mut left = d;
        for action in 0..count {
            let part = if action + 1 == count { left } else { random.draw() % (left + 1) };
            left -= part;
            text += &format!("{part} ");
        }
        text += end;
    }
    if random.one_in(4) {
        text.insert(0, '\u{feff}');
    }
    text.into_bytes()
}

/// A profile of a game, of any numbers.
pub fn valid_profile(random: &mut Random, listed: &Listed) -> Vec<u8> {
    let mut text = String::new();
    let end = random.pick(&["\n", "\r\n", "\r", "  ", " # set\n"]);
    let (of_any_bits, adds_up) = (random.one_in(4), random.one_in(2));
    for &count in &listed.actions {
        let mut left = 12;
        for action in 0..count {
            let twelfths = if action + 1 == count { left } else { random.below(left + 1) };
            left -= twelfths;
            let number = if of_any_bits {
                f64::from_bits(random.draw())
            } else if adds_up {
                twelfths as f64 / 12.0
            } else {
                random.below(13) as f64 / 12.0
            };
            text += &if random.one_in(2) { format!("{number:?} ") } else { format!("{number} ") };
        }
        text += end;
    }
    text.into_bytes()
}

/// A few bytes changed, taken out, put in or moved.
pub fn spoil(random: &mut Random, bytes: &mut Vec<u8>) {
    for _ in 0..1 + random.below(3) {
        let at = random.below(bytes.len() + 1);
        let to = (at + random.below(12)).min(bytes.len());
        match random.below(8) {
            0 if at < bytes.len() => bytes[at] = random.draw() as u8,
            5..=7 => {
                for byte in bytes[at..].iter_mut().filter(|byte| byte.is_ascii_digit()).take(1) {
                    *byte = b'0' + random.below(10) as u8;
                }
            }
            1 => drop(bytes.drain(at..to)),
            2 => drop(bytes.splice(at..at, random.pick(&PIECES).to_vec())),
            3 => {
                let piece = bytes[at..to].to_vec();
                bytes.extend(piece);
            }
            _ => bytes.truncate(at),
        }
    }
}

pub fn try_one(random: &mut Random, games: &[Listed], labels: &[Labels]) {
    let listed = &games[random.below(2)];
    let mut bytes = match random.below(6) {
        0 | 1 => {
            let d = 1 + random.draw() % 64;
            valid(random, listed, d)
        }
        2 => valid_profile(random, listed),
        _ => soup(random),
    };
    if random.one_in(2) {
        spoil(random, &mut bytes);
    }
    hold(&bytes, |bytes| read(bytes, &labels[0], |part: u8| part), model::part);
    hold(&bytes, |bytes| read(bytes, &labels[0], f64::to_bits), model::bits);
}

/// Holds a reader to the model, on a text and on its like with a mark or other line ends.
fn hold<T: Debug + PartialEq>(bytes: &[u8], read: impl Fn(&[u8]) -> Read<T>, number: impl Fn(&str) -> Option<T>) {
    let got = read(bytes);
    assert_eq!(got, model::read(bytes, number), "the reader on {:?}", String::from_utf8_lossy(bytes));
    if model::is_foreign(bytes) {
        return;
    }
    let marked = [&b"\xEF\xBB\xBF"[..], bytes].concat();
    if !bytes.starts_with(b"\xEF\xBB\xBF") {
        assert_eq!(read(&marked), got, "a mark before {:?}", String::from_utf8_lossy(bytes));
    }
    if !bytes.contains(&b'\r') {
        let ends: Vec<u8> = bytes.iter().flat_map(|&b| if b == b'\n' { vec![b'\r', b'\n'] } else { vec![b] }).collect();
        assert_eq!(read(&ends), got, "other line ends in {:?}", String::from_utf8_lossy(bytes));
    }
}

/// The reader's answer in the model's form.
fn read<N: Number, T>(bytes: &[u8], labels: &Labels, form: impl Fn(N) -> T) -> Read<T> {
    match Reader::new(labels).read::<N>(bytes) {
        Ok(entries) => {
            let lines = (0..entries.numbers.len()).map(|entry| entries.line_of(entry)).collect();
            Ok((entries.numbers.into_iter().map(form).collect(), lines))
        }
        Err(faults) => Err(faults.told()[0].line.expect("a fault of a text is in a line")),
    }
}
