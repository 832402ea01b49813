//! A side of the border to C: its calls, structs and constants in one form, and the comparison of two sides.

use std::collections::{BTreeMap, BTreeSet};

/// What a parameter, a field or a result is.
#[derive(Clone, Debug, PartialEq, Eq)]
pub enum Shape {
    Nothing,
    /// A number, by Rust's name of its type.
    Number(String),
    /// How many elements stand behind the pointer before it.
    Length,
    Pointer {
        mutable: bool,
        to: Box<Shape>,
    },
    Array(Box<Shape>, u64),
    /// A struct, by the name that its side has for it.
    Struct(String),
}

pub struct Call {
    pub parameters: Vec<(String, Shape)>,
    pub result: Shape,
}

#[derive(Default)]
pub struct Interface {
    /// What the side is called in complaints.
    pub name: String,
    pub calls: BTreeMap<String, Call>,
    pub structs: BTreeMap<String, Vec<(String, Shape)>>,
    /// By the header's names without `CHUKKANALLI_`.
    pub constants: BTreeMap<String, u64>,
}

/// A slice crosses as a pointer with a length.
pub fn slice(name: &str, mutable: bool, of: Shape) -> [(String, Shape); 2] {
    [(name.to_string(), Shape::Pointer { mutable, to: Box::new(of) }), (format!("{name}_len"), Shape::Length)]
}

/// A field of crates/ whose name is a word of C++, and its name outside.
const FIELDS: [(&str, &str); 1] = [("public", "public_card")];

struct Comparison<'a> {
    ours: &'a Interface,
    theirs: &'a Interface,
    /// Their name of each of our structs that a call holds.
    pairs: BTreeMap<String, String>,
    complaints: Vec<String>,
}

/// How their calls and structs differ from ours.
pub fn differences(ours: &Interface, theirs: &Interface) -> Vec<String> {
    let mut comparison = Comparison { ours, theirs, pairs: BTreeMap::new(), complaints: Vec::new() };
    comparison.calls();
    comparison.names_of_structs();
    comparison.complaints
}

/// How their constants differ from ours, of those that both name.
pub fn different_constants(ours: &Interface, theirs: &Interface) -> Vec<String> {
    let differs = |(name, value): (&String, &u64)| {
        let ours = ours.constants.get(name)?;
        (ours != value).then(|| format!("{}: {name} is {value}, and {ours} in crates/", theirs.name))
    };
    theirs.constants.iter().filter_map(differs).collect()
}

impl Comparison<'_> {
    fn complain(&mut self, complaint: String) {
        self.complaints.push(format!("{}: {complaint}", self.theirs.name));
    }

    fn calls(&mut self) {
        let (ours, theirs) = (self.ours, self.theirs);
        for (name, call) in &ours.calls {
            match theirs.calls.get(name) {
                None => self.complain(format!("{name} is missing")),
                Some(other) => {
                    self.list(name, "parameter", &call.parameters, &other.parameters);
                    self.shape(&format!("the result of {name}"), &call.result, &other.result);
                }
            }
        }
        for name in theirs.calls.keys().filter(|name| !ours.calls.contains_key(*name)) {
            self.complain(format!("{name} is no export of crates/"));
        }
    }

    fn list(&mut self, of: &str, what: &str, ours: &[(String, Shape)], theirs: &[(String, Shape)]) {
        if ours.len() != theirs.len() {
            self.complain(format!("{of} has {} {what}s, and {} in crates/", theirs.len(), ours.len()));
        }
        for (place, ((our_name, our_shape), (their_name, their_shape))) in ours.iter().zip(theirs).enumerate() {
            let outside =
                FIELDS.iter().find(|(inside, _)| inside == our_name).map_or(our_name.as_str(), |field| field.1);
            if outside != their_name {
                self.complain(format!("{what} {place} of {of} is {their_name}, and {our_name} in crates/"));
            }
            self.shape(&format!("{what} {their_name} of {of}"), our_shape, their_shape);
        }
    }

    fn shape(&mut self, of: &str, ours: &Shape, theirs: &Shape) {
        match (ours, theirs) {
            (Shape::Struct(ours), Shape::Struct(theirs)) => self.pair(of, ours, theirs),
            (Shape::Array(our_kind, our_length), Shape::Array(their_kind, their_length))
                if our_length == their_length =>
            {
                self.shape(of, our_kind, their_kind)
            }
            (Shape::Pointer { mutable: ours, to: our_kind }, Shape::Pointer { mutable: theirs, to: their_kind })
                if ours == theirs =>
            {
                self.shape(of, our_kind, their_kind)
            }
            _ if ours == theirs => {}
            _ => self.complain(format!("{of} is {theirs:?}, and {ours:?} in crates/")),
        }
    }

    /// Compares two structs where they first meet; each has one partner throughout.
    fn pair(&mut self, of: &str, ours: &str, theirs: &str) {
        if let Some(partner) = self.pairs.get(ours) {
            if partner != theirs {
                let partner = partner.clone();
                self.complain(format!("{of} is {theirs}, but {ours} of crates/ is {partner} elsewhere"));
            }
            return;
        }
        if self.pairs.values().any(|partner| partner == theirs) {
            self.complain(format!("{of} is {theirs}, which is another struct of crates/ elsewhere, not {ours}"));
        }
        self.pairs.insert(ours.to_string(), theirs.to_string());
        let (our_fields, their_fields) = (&self.ours.structs[ours], &self.theirs.structs[theirs]);
        self.list(theirs, "field", our_fields, their_fields);
    }

    /// Every struct stands in some call.
    fn names_of_structs(&mut self) {
        let known: BTreeSet<&String> = self.pairs.values().collect();
        let left: Vec<String> = self.theirs.structs.keys().filter(|name| !known.contains(name)).cloned().collect();
        for name in left {
            self.complain(format!("{name} stands in no call"));
        }
    }
}
