//! What rust/chukkanalli declares of the archive: exports.rs, the calls of archive.rs around it, their structs, and its constants.

use std::collections::BTreeMap;

use crate::files::Files;
use crate::interface::{slice, Call, Interface, Shape};
use crate::items::{items, joined, number, whole_named_types, whole_type, Form, Function, Item, Type};
use crate::tokens::Kind;

const FOLDER: &str = "rust/chukkanalli/src";
pub const EXPORTS: &str = "rust/chukkanalli/src/exports.rs";
pub const ARCHIVE: &str = "rust/chukkanalli/src/archive.rs";
pub const REFUSAL: &str = "rust/chukkanalli/src/refusal.rs";
const PREFIX: &str = "chukkanalli_";

/// The library's constants that crates/ has too: the file, the constant, the crate, and the constant there.
pub const CONSTANTS: [(&str, &str, &str, &str); 9] = [
    ("kuhn.rs", "KuhnPoker::PASS", "kuhn", "KuhnPoker::PASS"),
    ("kuhn.rs", "KuhnPoker::BET", "kuhn", "KuhnPoker::BET"),
    ("leduc.rs", "LeducPoker::FOLD", "leduc", "LeducPoker::FOLD"),
    ("leduc.rs", "LeducPoker::CALL", "leduc", "LeducPoker::CALL"),
    ("leduc.rs", "LeducPoker::RAISE", "leduc", "LeducPoker::RAISE"),
    ("leduc.rs", "LeducPoker::SEATS", "leduc", "LeducPoker::SEATS"),
    ("leduc.rs", "LeducPoker::NO_CARD", "c_structs", "of_leduc::NONE"),
    ("info_set.rs", "RECORD", "listing_records", "RECORD"),
    ("evaluator.rs", "WORDS", "games", "Game::WORDS"),
];

/// The name and the type parameters of a struct with C's layout, and its fields.
type Layout = (Vec<String>, Vec<(String, Type)>);

/// Every struct of the library that has C's layout.
fn layouts(files: &Files) -> Result<BTreeMap<String, Layout>, String> {
    let mut layouts = BTreeMap::new();
    for (path, text) in files.below(FOLDER, "rs") {
        for item in items(path, text)? {
            let Form::Struct(found) = &item.form else { continue };
            let Some(layout) = item.attributes.iter().find(|attribute| attribute.starts_with("repr")) else { continue };
            if layout != "repr(C)" {
                return Err(format!("{path}:{}: {} has a layout that C does not know", item.line, found.name));
            }
            let layout = (found.generics.clone(), whole_named_types(path, &found.body)?);
            if layouts.insert(found.name.clone(), layout).is_some() {
                return Err(format!("{path}:{}: a second struct {} with C's layout", item.line, found.name));
            }
        }
    }
    Ok(layouts)
}

struct Side {
    path: &'static str,
    layouts: BTreeMap<String, Layout>,
    interface: Interface,
}

fn side(files: &Files, path: &'static str) -> Result<Side, String> {
    let interface = Interface { name: path.to_string(), ..Interface::default() };
    Ok(Side { path, layouts: layouts(files)?, interface })
}

/// The declarations of exports.rs.
pub fn exports(files: &Files) -> Result<Interface, String> {
    let mut side = side(files, EXPORTS)?;
    for item in items(EXPORTS, files.text(EXPORTS)?)? {
        match item.form {
            Form::Use(_) => {}
            Form::Extern(inside) => {
                for item in inside {
                    let Form::Function(function) = &item.form else {
                        return Err(format!("{EXPORTS}:{}: no function", item.line));
                    };
                    side.call(&function.name.clone(), function)?;
                }
            }
            _ => return Err(format!("{EXPORTS}:{}: neither a use nor an extern block", item.line)),
        }
    }
    Ok(side.interface)
}

/// The public functions of archive.rs by the names of the exports, and what the comment above each says.
pub fn archive(files: &Files) -> Result<(Interface, BTreeMap<String, String>), String> {
    let mut side = side(files, ARCHIVE)?;
    let mut above = BTreeMap::new();
    for item in items(ARCHIVE, files.text(ARCHIVE)?)? {
        match &item.form {
            Form::Use(_) | Form::Struct(_) => {}
            Form::Function(_) if !item.public => {}
            Form::Function(function) => {
                let name = format!("{PREFIX}{}", function.name);
                side.call(&name, function)?;
                above.insert(name.clone(), item.comment.join(" "));
                let made = called(function);
                if made != [name.as_str()] {
                    return Err(format!("{ARCHIVE}:{}: {} calls {made:?} of exports.rs", item.line, function.name));
                }
            }
            _ => return Err(format!("{ARCHIVE}:{}: neither a use, a struct nor a function", item.line)),
        }
    }
    Ok((side.interface, above))
}

/// The names behind `exports::` in a function.
fn called<'a>(function: &Function<'a>) -> Vec<&'a str> {
    let tokens: Vec<_> = function.body.iter().filter(|token| token.kind != Kind::Comment).collect();
    let names = tokens.windows(4).filter(|window| {
        window[0].is("exports") && window[1].is(":") && window[2].is(":") && window[3].kind == Kind::Word
    });
    names.map(|window| window[3].text).collect()
}

impl Side {
    fn call(&mut self, name: &str, function: &Function) -> Result<(), String> {
        let mut parameters = Vec::new();
        for (name, kind) in whole_named_types(self.path, &function.parameters)? {
            match kind {
                Type::Slice(mutable, of) => parameters.extend(slice(&name, mutable, self.shape(&of)?)),
                kind => parameters.push((name, self.shape(&kind)?)),
            }
        }
        let result = self.shape(&whole_type(self.path, &function.result)?)?;
        match self.interface.calls.insert(name.to_string(), Call { parameters, result }) {
            None => Ok(()),
            Some(_) => Err(format!("{}: {name} stands twice", self.path)),
        }
    }

    fn shape(&mut self, kind: &Type) -> Result<Shape, String> {
        match kind {
            Type::Unit => Ok(Shape::Nothing),
            Type::Array(of, length) => Ok(Shape::Array(Box::new(self.shape(of)?), number(length)?)),
            Type::Pointer(mutable, to) => Ok(Shape::Pointer { mutable: *mutable, to: Box::new(self.shape(to)?) }),
            Type::Slice(..) => Err(format!("{}: {kind:?} is no part of a call", self.path)),
            Type::Named(name, arguments) => match name.as_str() {
                "u8" | "u64" | "i64" | "f64" => Ok(Shape::Number(name.clone())),
                "usize" => Ok(Shape::Length),
                _ => self.structure(name, arguments),
            },
        }
    }

    /// A struct, with its type parameters in place.
    fn structure(&mut self, name: &str, arguments: &[Type]) -> Result<Shape, String> {
        let (generics, fields) = self
            .layouts
            .get(name)
            .cloned()
            .ok_or_else(|| format!("{}: {name} is no struct with C's layout", self.path))?;
        if generics.len() != arguments.len() {
            return Err(format!("{}: {name} has {} type parameters", self.path, generics.len()));
        }
        let inside: Vec<String> = arguments.iter().map(|argument| format!("{argument:?}")).collect();
        let key = if inside.is_empty() { name.to_string() } else { format!("{name}<{}>", inside.join(", ")) };
        if !self.interface.structs.contains_key(&key) {
            let mut shapes = Vec::new();
            for (field, kind) in fields {
                let place = generics.iter().position(|generic| kind == Type::Named(generic.clone(), Vec::new()));
                shapes.push((field, self.shape(place.map_or(&kind, |place| &arguments[place]))?));
            }
            self.interface.structs.insert(key.clone(), shapes);
        }
        Ok(Shape::Struct(key))
    }
}

/// The value of a constant of the library: a name, or a name in an `impl`.
pub fn constant(files: &Files, file: &str, path: &str) -> Result<u64, String> {
    let file = format!("{FOLDER}/{file}");
    let found = items(&file, files.text(&file)?)?;
    let values = |items: &[Item], name: &str| -> Vec<String> {
        let constants = items.iter().filter_map(|item| match &item.form {
            Form::Const(constant) if constant.name == name => Some(joined(&constant.value)),
            _ => None,
        });
        constants.collect()
    };
    let values = match path.split_once("::") {
        None => values(&found, path),
        Some((owner, name)) => {
            let owned = found.iter().filter_map(|item| match &item.form {
                Form::Impl(found) if found.of == owner => Some(values(&found.items, name)),
                _ => None,
            });
            owned.flatten().collect()
        }
    };
    match &values[..] {
        [value] => number(value).map_err(|error| format!("{file}: {path}: {error}")),
        _ => Err(format!("{file}: there is not one constant {path}")),
    }
}

/// The refusals as refusal.rs declares them: name, number and sentence.
pub fn refusals(files: &Files) -> Result<Vec<(String, u64, String)>, String> {
    let text = files.text(REFUSAL)?;
    let found = items(REFUSAL, text)?;
    let tables: Vec<_> = found
        .iter()
        .filter_map(|item| match &item.form {
            Form::Macro(name, tokens) if name == "refusals" => Some(tokens),
            _ => None,
        })
        .collect();
    let [table] = tables[..] else { return Err(format!("{REFUSAL}: there is not one table of refusals")) };
    let mut reader = crate::items::Reader::over(REFUSAL, text, table);
    let mut refusals = Vec::new();
    while !reader.at_end() {
        let name = reader.word()?;
        reader.expect("=")?;
        let value = number(reader.kind(Kind::Number)?)?;
        reader.expect(",")?;
        let sentence = reader.kind(Kind::Text)?.trim_matches('"').to_string();
        reader.expect(";")?;
        refusals.push((name, value, sentence));
    }
    Ok(refusals)
}
