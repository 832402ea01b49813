//! The border to C: what crates/ exports, against the header, rust/chukkanalli, docs/API.md and compare/cases.c.
//! A refusal's sentence has its home in crates/refusals/specs/Refusals.antt, in the comment of its number, up to a semicolon.

use std::collections::{BTreeMap, BTreeSet};

use crate::antt::{module, Declaration, Leaf, Node};
use crate::documents::{self, asserted, called, refused_with, tables, Tables};
use crate::files::Files;
use crate::header::{header, Header};
use crate::interface::{differences, different_constants, Interface, Shape};
use crate::rattle::{Sources, ACCEPTED};
use crate::{header, library, rattle};

const SENTENCES: &str = "crates/refusals/specs/Refusals.antt";

/// A refusal by its name in crates/, as a constant has it.
struct Refusal {
    name: String,
    number: u64,
    sentence: String,
}

/// All that differs; empty where each place says what crates/ says.
pub fn complaints(files: &Files) -> Vec<String> {
    match compared(files) {
        Ok(complaints) => complaints,
        Err(complaint) => vec![complaint],
    }
}

fn compared(files: &Files) -> Result<Vec<String>, String> {
    let sources = Sources::of(files);
    let ours = rattle::interface(&sources)?;
    let header = header(files.text(header::PATH)?)?;
    let exports = library::exports(files)?;
    let (archive, above) = library::archive(files)?;
    let tables = tables(files.text(documents::API)?)?;
    let refusals = refusals(files, &sources)?;

    let mut complaints = Vec::new();
    for side in [&ours, &header.interface, &exports, &archive] {
        if side.calls.is_empty() || side.structs.is_empty() {
            complaints.push(format!("{}: no call or no struct was found", side.name));
        }
    }
    for side in [&header.interface, &exports, &archive] {
        complaints.extend(differences(&ours, side));
    }
    complaints.extend(constants(files, &sources, &ours, &header)?);
    complaints.extend(sentences(files, &refusals, &header, &tables)?);
    complaints.extend(described(&header, &above, &tables));
    let made = called(files.text(documents::CASES)?)?;
    let missing = ours.calls.keys().filter(|name| !made.contains(*name));
    complaints.extend(missing.map(|name| format!("{}: {name} is not called", documents::CASES)));
    complaints.extend(not_asserted(files.text(documents::CASES)?, &header)?);
    Ok(complaints)
}

/// The constants, structs and fields of the header of which cases.c asserts no number.
fn not_asserted(cases: &str, header: &Header) -> Result<Vec<String>, String> {
    let made = asserted(cases)?;
    let mut asked: Vec<String> = header.interface.constants.keys().map(|name| format!("CONSTANT({name}")).collect();
    for (name, fields) in &header.interface.structs {
        let name = name.trim_start_matches(documents::PREFIX);
        asked.push(format!("SIZE({name}"));
        asked.extend(fields.iter().map(|(field, _)| format!("FIELD({name}, {field}")));
    }
    let missing = asked.into_iter().filter(|assertion| !made.contains(assertion));
    Ok(missing.map(|assertion| format!("{}: {assertion}, ..) is missing", documents::CASES)).collect())
}

/// A definition of one number: its comment up to a semicolon is the sentence.
fn refusal(found: &Declaration, number: u64) -> Refusal {
    let comment = found.comment.join(" ");
    let sentence = comment.split(';').next().unwrap_or_default().to_string();
    Refusal { name: found.name.to_uppercase().replace('-', "_"), number, sentence }
}

/// The numbers of specs/Refusals.antt, with their sentences, held to the variants of src/.
fn refusals(files: &Files, sources: &Sources) -> Result<Vec<Refusal>, String> {
    let text = files.text(SENTENCES)?;
    let lines: Vec<&str> = text.lines().collect();
    let mut refusals = Vec::new();
    for found in module(SENTENCES, text)?.declarations {
        let [clause] = &found.clauses[..] else { continue };
        if let ([_], [Node::Leaf(Leaf::Number, line)]) = (&clause.left[..], &clause.right[..]) {
            let value = lines[line - 1].rsplit(' ').next().unwrap_or_default();
            refusals.push(refusal(&found, crate::items::number(value)?));
        }
    }
    let said: BTreeMap<String, u64> = refusals.iter().map(|found| (found.name.clone(), found.number)).collect();
    let numbers = rattle::refusal_numbers(sources)?;
    if said != numbers {
        return Err(format!("{SENTENCES}: the numbers are {said:?}, and in src/lib.rt {numbers:?}"));
    }
    let distinct: BTreeSet<u64> = said.values().copied().collect();
    if refusals.len() < 2 || distinct.len() < refusals.len() {
        return Err(format!("{SENTENCES}: no refusal was found, or two have one number"));
    }
    Ok(refusals)
}

/// The header's constants are refusal numbers, constants of crates/ or lengths; those of the library are constants of crates/.
fn constants(files: &Files, sources: &Sources, ours: &Interface, header: &Header) -> Result<Vec<String>, String> {
    let theirs = &header.interface.constants;
    let mut complaints = different_constants(ours, &header.interface);
    let missing = ours.constants.keys().filter(|name| !theirs.contains_key(*name));
    complaints.extend(missing.map(|name| format!("{}: {name} is missing", header::PATH)));
    let known = |name: &String| ours.constants.contains_key(name) || header.lengths.contains(name) || is_count(name);
    let unknown = theirs.keys().filter(|name| !known(name));
    complaints.extend(unknown.map(|name| format!("{}: {name} is no constant of crates/", header::PATH)));
    for (file, path, of, constant) in library::CONSTANTS {
        let (theirs, ours) = (library::constant(files, file, path)?, rattle::constant(sources, of, constant)?);
        if theirs != ours {
            complaints.push(format!("rust/chukkanalli/src/{file}: {path} is {theirs}, and {ours} in crates/{of}"));
        }
    }
    Ok(complaints)
}

/// What a tree has: the library's counts, to which its tests hold the header.
fn is_count(name: &str) -> bool {
    let (game, what) = name.rsplit_once('_').unwrap_or_default();
    let game = game == "LEDUC" || game.strip_prefix("KUHN_").is_some_and(|seats| seats.parse::<u64>().is_ok());
    game && ["NODES", "SETS", "ENTRIES", "WORK"].contains(&what)
}

/// `CARD_COUNT` as an enum has it.
fn variant(name: &str) -> String {
    let word = |word: &str| word[..1].to_string() + &word[1..].to_lowercase();
    name.split('_').map(word).collect()
}

/// The header, refusal.rs and docs/API.md say each refusal in the same words, in the same order.
fn sentences(files: &Files, refusals: &[Refusal], header: &Header, tables: &Tables) -> Result<Vec<String>, String> {
    let mut complaints = Vec::new();
    let refused: Vec<&Refusal> = refusals.iter().filter(|refusal| refusal.name != ACCEPTED).collect();
    for refusal in &refused {
        let said = header.said.get(&refusal.name).map_or("", String::as_str);
        if said != refusal.sentence || said.is_empty() {
            let name = &refusal.name;
            complaints.push(format!("{}: {name} is {said:?}, and {:?} in crates/", header::PATH, refusal.sentence));
        }
    }
    let ours: Vec<(String, u64, String)> =
        refused.iter().map(|refusal| (variant(&refusal.name), refusal.number, refusal.sentence.clone())).collect();
    complaints.extend(rows(library::REFUSAL, &ours, &library::refusals(files)?));
    let ours: Vec<(String, String)> =
        refused.iter().map(|refusal| (refusal.number.to_string(), refusal.sentence.clone())).collect();
    complaints.extend(rows(documents::API, &ours, &tables.refusals));
    Ok(complaints)
}

/// Where two tables differ, row by row.
fn rows<T: PartialEq + std::fmt::Debug>(path: &str, ours: &[T], theirs: &[T]) -> Vec<String> {
    let places = 0..ours.len().max(theirs.len());
    let differ = places.filter(|place| ours.get(*place) != theirs.get(*place));
    differ.map(|place| format!("{path}: {:?}, and {:?} in crates/", theirs.get(place), ours.get(place))).collect()
}

/// docs/API.md has each call with its arguments; it, the header and archive.rs name the same refusals.
fn described(header: &Header, above: &BTreeMap<String, String>, tables: &Tables) -> Vec<String> {
    let mut complaints = Vec::new();
    let mut left_out: BTreeMap<usize, String> = BTreeMap::new();
    for (name, call) in &header.interface.calls {
        let Some(described) = tables.calls.get(name) else {
            complaints.push(format!("{}: {name} is missing", documents::API));
            continue;
        };
        let parameters: Vec<&str> = call.parameters.iter().map(|(name, _)| name.as_str()).collect();
        let parameters = parameters.join(", ");
        match parameters.strip_suffix(&described.arguments) {
            Some(before) => {
                let before = before.trim_end_matches(", ").to_string();
                let first = left_out.entry(described.table).or_insert_with(|| before.clone());
                if *first != before {
                    complaints.push(format!("{}: {name} leaves out {before:?}, its table {first:?}", documents::API));
                }
            }
            None => complaints.push(format!(
                "{}: {name} takes {:?}, and {parameters:?} in the header",
                documents::API,
                described.arguments
            )),
        }
        for (path, comment) in [(header::PATH, &header.above), (library::ARCHIVE, above)] {
            let said = comment.get(name).and_then(|comment| refused_with(comment));
            if said.as_deref() != Some(described.refusals.as_str()) {
                let refusals = &described.refusals;
                complaints
                    .push(format!("{path}: {name} refuses with {said:?}, and {refusals:?} in {}", documents::API));
            }
        }
    }
    for name in tables.calls.keys().filter(|name| !header.interface.calls.contains_key(*name)) {
        complaints.push(format!("{}: {name} is no call of the header", documents::API));
    }
    complaints
}

/// How many calls, structs and constants crates/ has on the border.
pub fn counted(files: &Files) -> Result<(usize, usize, usize), String> {
    let ours = rattle::interface(&Sources::of(files))?;
    let arrays = |fields: &Vec<(String, Shape)>| fields.iter().any(|(_, shape)| matches!(shape, Shape::Array(..)));
    if !ours.structs.values().any(arrays) {
        return Err("no struct has an array".to_string());
    }
    Ok((ours.calls.len(), ours.structs.len(), ours.constants.len()))
}
