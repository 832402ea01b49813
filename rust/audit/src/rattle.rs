//! What crates/ exports to C.

use std::cell::RefCell;
use std::collections::BTreeMap;
use std::rc::Rc;

use crate::files::Files;
use crate::interface::{slice, Call, Interface, Shape};
use crate::items::{
    items, joined, number, numbered_variants, whole_named_types, whole_type, Form, Function, Item, Type,
};
use crate::tokens::Token;

/// The crate that holds every export, and the one of the refusal numbers.
pub const EXPORTS: &str = "chukkanalli";
pub const REFUSALS: &str = "refusals";

/// The enum of the refusals, and the name of the accepted call, which has the number 0.
const REFUSAL: &str = "Refusal";
pub const ACCEPTED: &str = "ACCEPTED";

/// The header's constants that are no refusal numbers: the crate, and the constant there.
const CONSTANTS: [(&str, &str, &str); 10] = [
    ("PASS", "kuhn", "KuhnPoker::PASS"),
    ("BET", "kuhn", "KuhnPoker::BET"),
    ("FOLD", "leduc", "LeducPoker::FOLD"),
    ("CALL", "leduc", "LeducPoker::CALL"),
    ("RAISE", "leduc", "LeducPoker::RAISE"),
    ("NO_CARD", "c_structs", "of_leduc::NONE"),
    ("KUHN_POKER", "games", "Game::KUHN"),
    ("LEDUC_POKER", "games", "Game::LEDUC"),
    ("RECORD", "listing_records", "RECORD"),
    ("WORDS", "games", "Game::WORDS"),
];

/// The files of crates/, each read once.
pub struct Sources<'a> {
    files: &'a Files,
    read: RefCell<BTreeMap<&'a str, Rc<Vec<Item<'a>>>>>,
}

impl<'a> Sources<'a> {
    pub fn of(files: &'a Files) -> Sources<'a> {
        Sources { files, read: RefCell::default() }
    }

    fn items(&self, path: &str) -> Result<Rc<Vec<Item<'a>>>, String> {
        if let Some(known) = self.read.borrow().get(path) {
            return Ok(known.clone());
        }
        let (path, text) = self.files.entry(path)?;
        let found = Rc::new(items(path, text)?);
        self.read.borrow_mut().insert(path, found.clone());
        Ok(found)
    }
}

struct Side<'s, 'a> {
    sources: &'s Sources<'a>,
    interface: Interface,
    /// The file of each struct.
    homes: BTreeMap<String, String>,
}

/// The exports with the structs that they hold, the refusal numbers, and the other constants of the header.
pub fn interface(sources: &Sources) -> Result<Interface, String> {
    let interface = Interface { name: "crates/".to_string(), ..Interface::default() };
    let mut side = Side { sources, interface, homes: BTreeMap::new() };
    for (path, _) in sources.files.below(&format!("crates/{EXPORTS}/src"), "rt") {
        for item in sources.items(path)?.iter() {
            side.export(path, item)?;
        }
    }
    let found = &mut side.interface;
    found.constants = refusal_numbers(sources)?;
    for (name, of, constant) in CONSTANTS {
        if found.constants.insert(name.to_string(), self::constant(sources, of, constant)?).is_some() {
            return Err(format!("{name} is also a refusal number"));
        }
    }
    Ok(side.interface)
}

/// The refusals of the crate that numbers them, and the accepted call. They are the variants of one public enum; what else stands there has no numbers.
pub fn refusal_numbers(sources: &Sources) -> Result<BTreeMap<String, u64>, String> {
    let path = format!("crates/{REFUSALS}/src/lib.rt");
    let mut numbers = BTreeMap::from([(ACCEPTED.to_string(), 0)]);
    for item in sources.items(&path)?.iter() {
        match &item.form {
            Form::Enum(found) if item.public && found.name == REFUSAL && numbers.len() == 1 => {
                for (variant, number) in numbered_variants(&path, &found.body)? {
                    if numbers.insert(constant_name(&variant), number).is_some() {
                        return Err(format!("{path}:{}: {variant} stands twice", item.line));
                    }
                }
            }
            Form::Impl(of) if of.items.iter().all(|item| !matches!(item.form, Form::Const(_))) => {}
            Form::GhostUse(_) | Form::Function(_) | Form::Struct(_) => {}
            _ => return Err(format!("{path}:{}: the one public enum {REFUSAL} is expected", item.line)),
        }
    }
    match numbers.len() {
        1 => Err(format!("{path}: there is no enum {REFUSAL} with variants")),
        _ => Ok(numbers),
    }
}

/// `CardCount` as a constant has it.
fn constant_name(variant: &str) -> String {
    let begins = |at: usize, c: char| at > 0 && c.is_uppercase();
    variant
        .char_indices()
        .map(|(at, c)| if begins(at, c) { format!("_{c}") } else { c.to_uppercase().to_string() })
        .collect()
}

/// The file of a module of a crate; none is the crate's root.
fn module_file(of: &str, modules: &[&str]) -> String {
    if modules.is_empty() {
        return format!("crates/{of}/src/lib.rt");
    }
    format!("crates/{of}/src/{}.rt", modules.join("/"))
}

/// The crate that a file belongs to.
fn crate_of(path: &str) -> &str {
    path.split('/').nth(1).expect("the path is that of a file of a crate")
}

/// The value of a constant, by its path in a crate: modules, perhaps a type, and its name.
pub fn constant(sources: &Sources, of: &str, path: &str) -> Result<u64, String> {
    let parts: Vec<&str> = path.split("::").collect();
    let (name, mut before) = parts.split_last().map(|(name, before)| (*name, before)).expect("a path is not empty");
    let mut modules = Vec::new();
    while let [module, rest @ ..] = before {
        modules.push(*module);
        if !sources.files.has(&module_file(of, &modules)) {
            modules.pop();
            break;
        }
        before = rest;
    }
    let file = module_file(of, &modules);
    let found = sources.items(&file)?;
    let inside: Vec<&Item> = match before {
        [] => found.iter().collect(),
        [owner] => {
            let owned = found.iter().filter_map(|item| match &item.form {
                Form::Impl(found) if found.of == *owner => Some(found.items.iter()),
                _ => None,
            });
            owned.flatten().collect()
        }
        _ => return Err(format!("{file}: {path} is no path of a constant")),
    };
    let constants = inside.iter().filter_map(|item| match &item.form {
        Form::Const(constant) if constant.name == name => Some(&constant.value),
        _ => None,
    });
    match constants.collect::<Vec<_>>()[..] {
        [value] => value_of(sources, &file, before.first().copied(), value),
        _ => Err(format!("{file}: there is not one constant {path}")),
    }
}

/// A number, or the constant of a path.
fn value_of(sources: &Sources, file: &str, owner: Option<&str>, tokens: &[Token]) -> Result<u64, String> {
    let text = joined(tokens);
    if let Ok(value) = number(&text) {
        return Ok(value);
    }
    let plain = |c: char| c.is_ascii_alphanumeric() || c == '_' || c == ':';
    if !text.chars().all(plain) {
        return Err(format!("{file}: {text} is neither a number nor a path"));
    }
    match text.split_once("::") {
        Some(("Self", name)) => match owner {
            Some(owner) => constant(sources, crate_of(file), &format!("{owner}::{name}")),
            None => Err(format!("{file}: Self outside a type")),
        },
        Some((first, rest)) if sources.files.has(&module_file(first, &[])) => constant(sources, first, rest),
        Some(_) => constant(sources, crate_of(file), &text),
        None => {
            let home = home_of(sources, file, &text)?;
            let modules = modules_of(&home);
            let path: Vec<&str> = modules.iter().copied().chain([text.as_str()]).collect();
            constant(sources, crate_of(&home), &path.join("::"))
        }
    }
}

/// The modules that lead to a file of a crate.
fn modules_of(file: &str) -> Vec<&str> {
    let inside = file.splitn(4, '/').nth(3).expect("the path is that of a file of a crate");
    let path = inside.strip_suffix(".rt").expect("a file of src/ is Rattle");
    if path == "lib" {
        return Vec::new();
    }
    path.split('/').collect()
}

/// The file that declares a name: this one, or one that its `use` items lead to.
fn home_of(sources: &Sources, file: &str, name: &str) -> Result<String, String> {
    let declares = |item: &Item| match &item.form {
        Form::Struct(found) => found.name == name,
        Form::Const(found) => found.name == name,
        _ => false,
    };
    let found = sources.items(file)?;
    if found.iter().any(declares) {
        return Ok(file.to_string());
    }
    for item in found.iter() {
        let Form::Use(paths) = &item.form else { continue };
        for path in paths {
            let parts: Vec<&str> = path.split("::").collect();
            if let [first, modules @ .., last] = &parts[..] {
                if *last == name {
                    let of = if *first == "crate" { crate_of(file) } else { first };
                    return home_of(sources, &module_file(of, modules), name);
                }
            }
        }
    }
    Err(format!("{file}: {name} is neither declared nor used there"))
}

impl Side<'_, '_> {
    fn export(&mut self, path: &str, item: &Item) -> Result<(), String> {
        let line = item.line;
        let named = item.attributes.iter().any(|attribute| attribute == "unsafe(no_mangle)");
        match &item.form {
            Form::Function(function) => {
                let crosses = function.abi.as_deref() == Some("C");
                if crosses != named || (crosses && !item.public) {
                    return Err(format!("{path}:{line}: {} is an export in part", function.name));
                }
                if !crosses {
                    return Ok(());
                }
                let call = self.call(path, function)?;
                match self.interface.calls.insert(function.name.clone(), call) {
                    None => Ok(()),
                    Some(_) => Err(format!("{path}:{line}: an export stands twice")),
                }
            }
            Form::Use(_) | Form::GhostUse(_) | Form::Mod(_) => Ok(()),
            _ => Err(format!("{path}:{line}: neither a function nor a use")),
        }
    }

    fn call(&mut self, path: &str, function: &Function) -> Result<Call, String> {
        let mut parameters = Vec::new();
        for (name, kind) in whole_named_types(path, &function.parameters)? {
            match kind {
                Type::Slice(mutable, of) => parameters.extend(slice(&name, mutable, self.shape(path, &of)?)),
                kind => parameters.push((name, self.shape(path, &kind)?)),
            }
        }
        let result = self.shape(path, &whole_type(path, &function.result)?)?;
        Ok(Call { parameters, result })
    }

    fn shape(&mut self, path: &str, kind: &Type) -> Result<Shape, String> {
        match kind {
            Type::Unit => Ok(Shape::Nothing),
            Type::Array(of, length) => {
                let tokens = crate::tokens::tokens(path, length)?;
                Ok(Shape::Array(Box::new(self.shape(path, of)?), value_of(self.sources, path, None, &tokens)?))
            }
            Type::Named(name, arguments) if arguments.is_empty() => match name.as_str() {
                "u8" | "u64" | "i64" | "f64" => Ok(Shape::Number(name.clone())),
                // The archive is for x86-64, where it has 64 bits.
                "usize" => Ok(Shape::Number("u64".to_string())),
                _ => self.structure(path, name),
            },
            _ => Err(format!("{path}: {kind:?} does not cross to C")),
        }
    }

    fn structure(&mut self, path: &str, name: &str) -> Result<Shape, String> {
        let home = home_of(self.sources, path, name)?;
        let shape = Shape::Struct(name.to_string());
        if let Some(known) = self.homes.get(name) {
            return match *known == home {
                true => Ok(shape),
                false => Err(format!("{path}: {name} is of {home}, and of {known} elsewhere")),
            };
        }
        self.homes.insert(name.to_string(), home.clone());
        let found = self.sources.items(&home)?;
        let declared = found.iter().find_map(|item| match &item.form {
            Form::Struct(found) if found.name == name => Some((item, found)),
            _ => None,
        });
        let (item, declared) = declared.ok_or_else(|| format!("{home}: {name} is no struct"))?;
        // What is derived of a struct says nothing of its layout.
        let laid_out: Vec<&String> =
            item.attributes.iter().filter(|attribute| !attribute.starts_with("derive(")).collect();
        if laid_out != ["repr(C)"] || !declared.generics.is_empty() {
            return Err(format!("{home}:{}: {name} has no layout that C knows", item.line));
        }
        let mut fields = Vec::new();
        for (field, kind) in whole_named_types(&home, &declared.body)? {
            fields.push((field, self.shape(&home, &kind)?));
        }
        self.interface.structs.insert(name.to_string(), fields);
        Ok(shape)
    }
}

#[cfg(test)]
mod tests {
    use super::*;

    #[test]
    fn a_constant_is_followed_to_its_number() {
        let files = Files::of(&[
            ("crates/a/src/lib.rt", "pub use b::{M, inner::N};\npub struct S { }\nimpl S { pub const X: u8 = b::M; pub const Y: u8 = Self::X; }\npub const K: u8 = N;"),
            ("crates/b/src/lib.rt", "pub mod inner;\npub const M: u8 = 7;"),
            ("crates/b/src/inner.rt", "pub const N: u8 = 8;\npub const P: u8 = 1 + 1;"),
        ]);
        let sources = Sources::of(&files);
        let value = |of, path| constant(&sources, of, path);
        assert_eq!((value("a", "S::Y"), value("a", "K"), value("b", "inner::N")), (Ok(7), Ok(8), Ok(8)));
        for missing in ["S::Z", "T::X", "Q", "S::X::Y"] {
            assert!(value("a", missing).is_err(), "{missing}");
        }
        assert!(value("b", "inner::P").is_err());
    }
}
