//! Follows the names in the contracts of public calls through the definitions of specs/.
//!
//! A definition is reached if a contract names it, or the type or a clause of a definition that is reached does; that a file has a
//! `use` line counts for nothing. Every name must be found: as a binder, in the file, behind a `use` line or in the prelude.

use std::collections::{BTreeMap, BTreeSet, HashMap};

use crate::antt::{module, text_nodes, use_line, Clause, Declaration, Leaf, Module, Node, Sort, Use};
use crate::files::Files;
use crate::items::{field_names, items, parameter_names, Form, Impl, Item};

/// The crate of the exports, and the one of the conversions that they make; the other crates that it names are the interface, as it is itself.
const EXPORTS: &str = "chukkanalli";
const CONVERSIONS: &str = "c_structs";

/// The crate whose definitions are all statements: document 01's cases.
const CASES: &str = "cases";

/// What every file of antt knows, and the lifetimes of a clause with a star.
const PRELUDE: [&str; 12] = ["→", "×", ":", "=", "_", "Type", "Unit", "⊥", "¬", "tt", "absurd", "𝓛"];

/// What an `ensures` knows beside its function's parameters.
const RESULT: &str = "result";

/// Words of the language that no file here uses.
const UNKNOWN: [&str; 10] = ["elim", "do", "open", "using", "unfold", "coe", "hcom", "∀", "if", "with"];

/// A definition, by its file and name.
#[derive(Clone, Debug, PartialEq, Eq, PartialOrd, Ord)]
pub struct Place {
    pub path: String,
    pub name: String,
}

pub struct Definition {
    pub place: Place,
    /// Its lines with its comment, without the blank ones.
    pub lines: usize,
    pub first: usize,
    pub last: usize,
    /// A type, or one with parameters: what can be stated.
    pub stated: Stated,
    pub names: Mentions,
}

/// Whether a definition can be a statement for readers.
#[derive(Clone, Copy, Debug, PartialEq, Eq)]
pub enum Stated {
    /// A type without parameters.
    Closed,
    /// A type with parameters: a statement, if no contract and no definition names it.
    Open,
    /// No type.
    No,
}

/// What a text names.
#[derive(Clone, Debug, Default)]
pub struct Mentions {
    pub definitions: BTreeSet<Place>,
    /// Modules of proofs/.
    pub proofs: BTreeSet<String>,
}

/// A function with its contract.
pub struct Call {
    /// Its crate and its name.
    pub name: String,
    pub path: String,
    pub line: usize,
    /// It is part of the interface.
    pub public: bool,
    pub asks: bool,
    pub ensures: bool,
    pub names: Mentions,
}

pub struct Graph {
    pub definitions: BTreeMap<Place, Definition>,
    pub calls: Vec<Call>,
    /// The crates whose public functions are public calls.
    pub interface: BTreeSet<String>,
    /// The types and functions of other crates that these show as their own, by crate and name.
    pub shown: BTreeSet<(String, String)>,
}

#[derive(Clone, Debug)]
enum Meaning {
    Definition(Place),
    Constructor(Place),
    /// A struct or enum of a crate, or a thing of a library.
    Given,
    Proofs(String),
}

enum Home {
    Specs(String),
    Proofs(String),
    /// A type that a crate declares, or a library.
    Given,
}

/// The file of a module, by its path in antt.
fn home(crates: &BTreeSet<&str>, module: &str) -> Home {
    let Some(rest) = module.strip_prefix("Rattle.") else { return Home::Given };
    let (owner, inside) = rest.split_once('.').unwrap_or((rest, ""));
    let parts: Vec<&str> = inside.split('.').collect();
    match parts[..] {
        _ if !crates.contains(owner) => Home::Given,
        ["specs", "declared", ..] => Home::Given,
        ["specs", ref rest @ ..] if !rest.is_empty() => {
            Home::Specs(format!("crates/{owner}/specs/{}.antt", rest.join("/")))
        }
        _ => Home::Proofs(format!("crates/{owner}/{}", parts.join("/"))),
    }
}

struct Modules<'a> {
    files: &'a Files,
    crates: BTreeSet<&'a str>,
    modules: BTreeMap<String, Module>,
}

/// The names that a file knows beside its binders.
#[derive(Default)]
struct Names {
    meanings: HashMap<String, Meaning>,
    /// The modules by the names they have here.
    modules: HashMap<String, String>,
}

/// The marks of an operator, between its operands; none of another name.
fn marks(name: &str) -> impl Iterator<Item = &str> {
    name.split('◌').filter(move |part| name.contains('◌') && !part.is_empty())
}

impl Names {
    /// Enters a name; each part of an operator's stands for it.
    fn enter(&mut self, name: &str, meaning: &Meaning) {
        for part in marks(name) {
            self.meanings.insert(part.to_string(), meaning.clone());
        }
        self.meanings.insert(name.to_string(), meaning.clone());
    }

    /// What Rust sees by the names of an item, where no `ghost use` gives them another meaning.
    fn see(&mut self, item: &Item) {
        let seen: Vec<&str> = match &item.form {
            Form::Enum(found) => vec![&found.name],
            Form::Struct(found) => vec![&found.name],
            Form::Const(found) => vec![&found.name],
            Form::Use(paths) => paths.iter().filter_map(|path| path.rsplit([':', ' ']).next()).collect(),
            _ => Vec::new(),
        };
        for name in seen {
            if !self.modules.contains_key(name) {
                self.meanings.entry(name.to_string()).or_insert(Meaning::Given);
            }
        }
    }
}

impl Modules<'_> {
    /// What a module's name means to those who use it.
    fn find(&self, module: &str, name: &str) -> Result<Meaning, String> {
        let path = match home(&self.crates, module) {
            Home::Given => return Ok(Meaning::Given),
            Home::Proofs(path) => return Ok(Meaning::Proofs(path)),
            Home::Specs(path) => path,
        };
        let found = self.modules.get(&path).ok_or_else(|| format!("{module} has no file {path}"))?;
        let place = |declaration: &Declaration| Place { path: path.clone(), name: declaration.name.clone() };
        for declaration in &found.declarations {
            if declaration.name == name {
                return Ok(Meaning::Definition(place(declaration)));
            }
            if declaration.sort == Sort::Data
                && declaration.members.iter().any(|(names, _)| names.iter().any(|it| it == name))
            {
                return Ok(Meaning::Constructor(place(declaration)));
            }
        }
        for line in found.uses.iter().filter(|line| line.public) {
            let names = line.names.iter().flatten();
            if let Some((inside, _)) = names.into_iter().find(|(_, alias)| alias == name) {
                return self.find(&line.module, inside);
            }
        }
        Err(format!("{path} has no {name}"))
    }

    fn names(&self, path: &str, uses: &[Use]) -> Result<Names, String> {
        let mut names = Names::default();
        for line in uses {
            match &line.names {
                None => drop(names.modules.insert(line.alias.clone(), line.module.clone())),
                Some(items) => {
                    for (name, alias) in items {
                        let meaning =
                            self.find(&line.module, name).map_err(|error| format!("{path}:{}: {error}", line.line))?;
                        names.enter(alias, &meaning);
                    }
                }
            }
        }
        Ok(names)
    }

    /// Those of a file of specs/, its own among them.
    fn own_names(&self, path: &str, found: &Module) -> Result<Names, String> {
        let mut names = self.names(path, &found.uses)?;
        for declaration in &found.declarations {
            let place = Place { path: path.to_string(), name: declaration.name.clone() };
            names.enter(&declaration.name, &Meaning::Definition(place.clone()));
            if declaration.sort == Sort::Data {
                for name in declaration.members.iter().flat_map(|(names, _)| names) {
                    names.enter(name, &Meaning::Constructor(place.clone()));
                }
            }
        }
        Ok(names)
    }
}

/// Goes through nodes with the binders that are in scope, and collects what is named.
struct Walk<'a> {
    path: &'a str,
    modules: &'a Modules<'a>,
    names: &'a Names,
    scope: Vec<String>,
    mentions: Mentions,
}

impl Walk<'_> {
    fn error<T>(&self, line: usize, complaint: &str) -> Result<T, String> {
        Err(format!("{}:{line}: {complaint}", self.path))
    }

    fn meaning(&self, name: &str, line: usize) -> Result<Meaning, String> {
        if let Some(meaning) = self.names.meanings.get(name) {
            return Ok(meaning.clone());
        }
        if PRELUDE.contains(&name) {
            return Ok(Meaning::Given);
        }
        let Some((first, rest)) = name.split_once('.') else {
            return self.error(line, &format!("{name} is nowhere to be found"));
        };
        // A constructor behind its type or a field of a definition, unless a module has that name too.
        if let (Some(kind), None) = (self.names.meanings.get(first), self.names.modules.get(first)) {
            return Ok(kind.clone());
        }
        let head = self.names.modules.get(first).map_or(first, String::as_str);
        if head == first && !["Rattle", "mathlib", "lib", "Prim"].contains(&first) {
            return self.error(line, &format!("{first} is no module here"));
        }
        let (module, item) = match rest.rsplit_once('.') {
            Some((below, item)) => (format!("{head}.{below}"), item),
            None => (head.to_string(), rest),
        };
        self.modules.find(&module, item).or_else(|error| self.error(line, &error))
    }

    fn mention(&mut self, name: &str, line: usize) -> Result<(), String> {
        // A binder, or a field of one.
        let first = name.split('.').next().unwrap_or(name);
        if self.scope.iter().any(|bound| bound == first) {
            return Ok(());
        }
        if UNKNOWN.contains(&name) {
            return self.error(line, &format!("{name} is not known"));
        }
        match self.meaning(name, line)? {
            Meaning::Definition(place) | Meaning::Constructor(place) => drop(self.mentions.definitions.insert(place)),
            Meaning::Proofs(path) => drop(self.mentions.proofs.insert(path)),
            Meaning::Given => {}
        }
        Ok(())
    }

    /// Goes through nodes whose binders hold up to their end.
    fn nodes(&mut self, nodes: &[Node]) -> Result<(), String> {
        let outside = self.scope.len();
        let mut next = 0;
        while let Some(node) = nodes.get(next) {
            next += 1;
            match node {
                Node::Group(bracket, inside, line) => self.group(*bracket, inside, *line)?,
                Node::Leaf(Leaf::Comma | Leaf::Semicolon, _) => self.scope.truncate(outside),
                Node::Leaf(Leaf::Projection | Leaf::Number | Leaf::Text, _) => {}
                Node::Leaf(Leaf::Dot, line) => return self.error(*line, "a dot that ends no binder"),
                Node::Leaf(Leaf::Name(name), line) => match name.as_str() {
                    "λ" => next = self.lambda(nodes, next, *line)?,
                    "let" => next = self.binding(nodes, next, *line)?,
                    "record" => next = self.record(nodes, next, *line)?,
                    _ => self.mention(name, *line)?,
                },
            }
        }
        self.scope.truncate(outside);
        Ok(())
    }

    /// A bracket: binders with their type, which hold for what follows, an implicit argument, or an expression.
    fn group(&mut self, bracket: char, inside: &[Node], line: usize) -> Result<(), String> {
        if let Some(colon) = inside.iter().position(|node| node.is(":")) {
            let names: Option<Vec<String>> =
                inside[..colon].iter().map(|node| node.name().map(str::to_string)).collect();
            match names {
                Some(names) if !names.is_empty() => {
                    self.nodes(&inside[colon + 1..])?;
                    self.scope.extend(names);
                    return Ok(());
                }
                _ => return self.error(line, "a colon behind no names"),
            }
        }
        if bracket == '{' && inside.get(1).is_some_and(|node| node.is("=")) {
            return self.nodes(&inside[2..]);
        }
        self.nodes(inside)
    }

    fn lambda(&mut self, nodes: &[Node], from: usize, line: usize) -> Result<usize, String> {
        let dot = nodes[from..].iter().position(|node| matches!(node, Node::Leaf(Leaf::Dot, _)));
        let Some(dot) = dot else { return self.error(line, "a λ without its dot") };
        for binder in &nodes[from..from + dot] {
            match binder {
                Node::Leaf(Leaf::Name(name), _) => self.scope.push(name.clone()),
                Node::Group(_, inside, line) if inside.iter().any(|node| node.is(":")) => {
                    self.group('(', inside, *line)?
                }
                Node::Group(_, inside, _) => self.pattern(inside)?,
                Node::Leaf(_, line) => return self.error(*line, "no binder"),
            }
        }
        Ok(from + dot + 1)
    }

    /// `let x : T = e in`, up to which `x` is not in scope.
    fn binding(&mut self, nodes: &[Node], from: usize, line: usize) -> Result<usize, String> {
        let mut open = 1;
        let end = nodes[from..].iter().position(|node| {
            open += usize::from(node.is("let"));
            open -= usize::from(node.is("in"));
            open == 0
        });
        let Some(end) = end.map(|end| from + end) else { return self.error(line, "a let without its in") };
        let inside = &nodes[from..end];
        let Some(equals) = inside.iter().position(|node| node.is("=")) else {
            return self.error(line, "a let without its =");
        };
        let typed = inside[1..equals].first().is_some_and(|node| node.is(":"));
        if typed {
            self.nodes(&inside[2..equals])?;
        }
        if !typed && equals != 1 {
            return self.error(line, "a let of no known form");
        }
        self.nodes(&inside[equals + 1..])?;
        self.pattern(&inside[..1])?;
        Ok(end + 1)
    }

    /// `record { f = a }`, or `record r { f = a }` with the other fields of `r`.
    fn record(&mut self, nodes: &[Node], from: usize, line: usize) -> Result<usize, String> {
        let braces = match nodes.get(from) {
            Some(Node::Group('(', ..) | Node::Leaf(Leaf::Name(_), _)) => from + 1,
            _ => from,
        };
        let Some(Node::Group('{', inside, _)) = nodes.get(braces) else {
            return self.error(line, "a record without its braces");
        };
        self.nodes(&nodes[from..braces])?;
        for field in inside.split(|node| matches!(node, Node::Leaf(Leaf::Semicolon, _))) {
            match field {
                [] => {}
                [name, equals, value @ ..] if name.name().is_some() && equals.is("=") => self.nodes(value)?,
                _ => return self.error(line, "a field of no known form"),
            }
        }
        Ok(braces + 1)
    }

    /// What a pattern binds: every name in it that is no constructor.
    fn pattern(&mut self, nodes: &[Node]) -> Result<(), String> {
        for node in nodes {
            match node {
                Node::Group('{', inside, _) if inside.get(1).is_some_and(|node| node.is("=")) => {
                    self.pattern(&inside[2..])?
                }
                Node::Group(_, inside, _) => self.pattern(inside)?,
                Node::Leaf(Leaf::Number | Leaf::Comma, _) => {}
                Node::Leaf(Leaf::Name(name), line) => match self.names.meanings.get(name) {
                    Some(Meaning::Constructor(_) | Meaning::Given | Meaning::Proofs(_)) => self.mention(name, *line)?,
                    _ if name.contains('.') => self.mention(name, *line)?,
                    _ => self.scope.push(name.clone()),
                },
                Node::Leaf(_, line) => return self.error(*line, "no pattern"),
            }
        }
        Ok(())
    }

    /// Binders in brackets, which hold from here on.
    fn parameters(&mut self, nodes: &[Node]) -> Result<(), String> {
        for node in nodes {
            match node {
                Node::Group(bracket, inside, line) => self.group(*bracket, inside, *line)?,
                Node::Leaf(_, line) => return self.error(*line, "no parameter"),
            }
        }
        Ok(())
    }

    fn declaration(&mut self, found: &Declaration) -> Result<(), String> {
        let outside = self.scope.len();
        self.parameters(&found.parameters)?;
        self.nodes(&found.signature)?;
        self.nodes(&found.unfolding)?;
        for clause in &found.clauses {
            self.clause(&found.name, clause)?;
        }
        for (names, kind) in &found.members {
            self.nodes(kind)?;
            if found.sort == Sort::Record {
                self.scope.extend(names.iter().cloned());
            }
        }
        self.scope.truncate(outside);
        Ok(())
    }

    fn clause(&mut self, name: &str, clause: &Clause) -> Result<(), String> {
        let outside = self.scope.len();
        let own = |node: &&Node| match node.name() {
            Some(part) => part != name && !marks(name).any(|own| own == part),
            None => true,
        };
        let left: Vec<Node> = clause.left.iter().filter(own).cloned().collect();
        self.pattern(&left)?;
        let helpers: Vec<String> = clause.helpers.iter().map(|helper| helper.name.clone()).collect();
        self.scope.extend(helpers);
        for helper in &clause.helpers {
            self.declaration(helper)?;
        }
        self.nodes(&clause.right)?;
        self.scope.truncate(outside);
        Ok(())
    }
}

fn stated(found: &Declaration) -> Stated {
    match &found.signature[..] {
        [word, Node::Leaf(Leaf::Number, _)] if word.is("Type") && found.parameters.is_empty() => Stated::Closed,
        [.., word, Node::Leaf(Leaf::Number, _)] if word.is("Type") => Stated::Open,
        _ => Stated::No,
    }
}

pub fn graph(files: &Files) -> Result<Graph, String> {
    let mut modules = Modules { files, crates: files.crates(), modules: BTreeMap::new() };
    for (path, text) in files.below("crates", "antt").filter(|(path, _)| path.split('/').nth(2) == Some("specs")) {
        modules.modules.insert(path.to_string(), module(path, text)?);
    }
    let interface = interface(files)?;
    let shown = shown(files, &interface)?;
    let mut graph = Graph { definitions: BTreeMap::new(), calls: Vec::new(), interface, shown };
    for (path, found) in &modules.modules {
        let text: Vec<&str> = files.text(path)?.lines().collect();
        let names = modules.own_names(path, found)?;
        for declaration in &found.declarations {
            let mut walk =
                Walk { path, modules: &modules, names: &names, scope: Vec::new(), mentions: Mentions::default() };
            walk.declaration(declaration)?;
            let (first, last) = declaration.lines;
            let lines = text[first - 1..last].iter().filter(|line| !line.trim().is_empty()).count();
            let place = Place { path: path.clone(), name: declaration.name.clone() };
            let stated = stated(declaration);
            let definition = Definition { place: place.clone(), lines, first, last, stated, names: walk.mentions };
            if graph.definitions.insert(place, definition).is_some() {
                return Err(format!("{path}: {} stands twice", declaration.name));
            }
        }
    }
    for of in files.crates() {
        for (path, text) in files.below(&format!("crates/{of}/src"), "rt") {
            calls(&modules, of, path, text, &mut graph)?;
        }
    }
    Ok(graph)
}

/// The crate of the exports, and the crates that its `use` items and its functions name.
fn interface(files: &Files) -> Result<BTreeSet<String>, String> {
    let crates = files.crates();
    let mut interface = BTreeSet::from([EXPORTS.to_string()]);
    for (path, text) in files.below(&format!("crates/{EXPORTS}/src"), "rt") {
        for item in items(path, text)? {
            let mut heads = Vec::new();
            match &item.form {
                Form::Use(paths) => heads.extend(paths.iter().filter_map(|path| path.split("::").next())),
                Form::Function(function) => {
                    let paths = function.body.windows(3).filter(|part| part[1].is(":") && part[2].is(":"));
                    heads.extend(paths.map(|part| part[0].text));
                }
                _ => {}
            }
            interface.extend(heads.into_iter().filter(|head| crates.contains(head)).map(str::to_string));
        }
    }
    interface.remove(CONVERSIONS);
    Ok(interface)
}

/// What the crates of the interface show of others by `pub use`.
fn shown(files: &Files, interface: &BTreeSet<String>) -> Result<BTreeSet<(String, String)>, String> {
    let mut shown = BTreeSet::new();
    for of in interface {
        for (path, text) in files.below(&format!("crates/{of}/src"), "rt") {
            for item in items(path, text)?.iter().filter(|item| item.public) {
                let Form::Use(paths) = &item.form else { continue };
                for path in paths {
                    let own = path.split(' ').next().unwrap_or(path);
                    if let (Some(home), Some(name)) = (own.split("::").next(), own.rsplit("::").next()) {
                        shown.insert((home.to_string(), name.to_string()));
                    }
                }
            }
        }
    }
    Ok(shown)
}

/// The functions of a file. Public are those of the interface that Rust lets another crate call, what it shows of other crates, and the exports.
fn calls(modules: &Modules, of: &str, path: &str, text: &str, graph: &mut Graph) -> Result<(), String> {
    let found = items(path, text)?;
    let inside: Vec<(Option<&Impl>, &Item)> = found
        .iter()
        .flat_map(|item| match &item.form {
            Form::Impl(of) => of.items.iter().map(|item| (Some(of), item)).collect(),
            _ => vec![(None, item)],
        })
        .collect();
    let mut uses = Vec::new();
    for (_, item) in &inside {
        if let Form::GhostUse(text) = &item.form {
            uses.push(use_line(path, &text_nodes(path, text, item.line)?, false)?);
        }
    }
    let mut names = modules.names(path, &uses)?;
    // A clause names what Rust sees by that name: types with their variants and constants.
    for item in &found {
        names.see(item);
    }
    let open = graph.interface.contains(of) && is_open(modules.files, of, path)?;
    for (of_impl, item) in inside {
        let head = of_impl.map(|found| &found.of);
        let generics = of_impl.map_or(Vec::new(), |found| found.generics.clone());
        let is_shown = |name: &str| graph.shown.contains(&(of.to_string(), name.to_string()));
        match &item.form {
            Form::Function(function) => {
                let shown = is_shown(head.unwrap_or(&function.name));
                let public = item.public && (open || shown || function.abi.is_some());
                graph.calls.push(call(
                    modules,
                    &names,
                    &format!("{of}: {}", function.name),
                    path,
                    item,
                    generics,
                    public,
                )?);
            }
            Form::Struct(found) => {
                let public = item.public && (open || is_shown(&found.name));
                for ghost in &found.ghosts {
                    let fields = field_names(&found.body);
                    graph.calls.push(promise(
                        modules,
                        &names,
                        &format!("{of}: {}", found.name),
                        path,
                        ghost,
                        fields,
                        public,
                    )?);
                }
            }
            // The type says what is public of an impl of a trait, and other crates can always call it.
            Form::Member(ghost) => {
                let name = format!("{of}: {}", head.map_or("", String::as_str));
                graph.calls.push(promise(modules, &names, &name, path, ghost, generics, open)?);
            }
            _ => {}
        }
    }
    Ok(())
}

/// Whether other crates can name a file's module.
fn is_open(files: &Files, of: &str, path: &str) -> Result<bool, String> {
    let root = format!("crates/{of}/src/lib.rt");
    if path == root {
        return Ok(true);
    }
    let name = path.rsplit('/').next().and_then(|file| file.strip_suffix(".rt")).unwrap_or_default();
    if path != format!("crates/{of}/src/{name}.rt") {
        return Err(format!("{path}: a module below a module is not known"));
    }
    let found = items(&root, files.text(&root)?)?;
    let line = found.iter().find(|item| matches!(&item.form, Form::Mod(module) if module == name));
    line.map(|item| item.public).ok_or_else(|| format!("{path}: no mod line of {root} names it"))
}

fn call(
    modules: &Modules,
    names: &Names,
    name: &str,
    path: &str,
    item: &Item,
    generics: Vec<String>,
    public: bool,
) -> Result<Call, String> {
    let Form::Function(function) = &item.form else { return Err(format!("{path}: {name} is no function")) };
    let mut scope = parameter_names(path, &function.parameters)?;
    scope.extend(generics);
    scope.extend(function.generics.iter().cloned());
    let mut walk = Walk { path, modules, names, scope, mentions: Mentions::default() };
    let parameters = walk.scope.len();
    for clause in &function.clauses {
        walk.scope.extend((!clause.asks).then(|| RESULT.to_string()));
        walk.nodes(&text_nodes(path, clause.text, clause.line)?)?;
        walk.scope.truncate(parameters);
    }
    Ok(Call {
        name: name.to_string(),
        path: path.to_string(),
        line: item.line,
        public,
        asks: function.clauses.iter().any(|clause| clause.asks),
        ensures: function.clauses.iter().any(|clause| !clause.asks),
        names: walk.mentions,
    })
}

/// What a ghost field or a ghost member says, over these names.
fn promise(
    modules: &Modules,
    names: &Names,
    name: &str,
    path: &str,
    ghost: &crate::items::Clause,
    scope: Vec<String>,
    public: bool,
) -> Result<Call, String> {
    let mut walk = Walk { path, modules, names, scope, mentions: Mentions::default() };
    walk.nodes(&text_nodes(path, ghost.text, ghost.line)?)?;
    let (name, path, line) = (name.to_string(), path.to_string(), ghost.line);
    Ok(Call { name, path, line, public, asks: false, ensures: true, names: walk.mentions })
}

pub struct Reached {
    /// Each definition with the one that it was first met in; none for those that the roots name.
    pub from: BTreeMap<Place, Option<Place>>,
    /// Modules of proofs/, with the definition that names them.
    pub proofs: BTreeMap<String, Option<Place>>,
}

impl Graph {
    /// What a contract or another definition names.
    fn named(&self) -> BTreeSet<&Place> {
        let contracts = self.calls.iter().flat_map(|call| &call.names.definitions);
        let definitions = self.definitions.values().flat_map(|found| {
            let own = &found.place;
            found.names.definitions.iter().filter(move |place| *place != own)
        });
        contracts.chain(definitions).collect()
    }

    /// All that is named from these, directly or not.
    pub fn reached<'a>(&self, roots: impl Iterator<Item = &'a Mentions>) -> Reached {
        let mut reached = Reached { from: BTreeMap::new(), proofs: BTreeMap::new() };
        let mut waiting: Vec<Place> = Vec::new();
        for mentions in roots {
            reached.enter(None, mentions, &mut waiting);
        }
        while let Some(place) = waiting.pop() {
            reached.enter(Some(&place), &self.definitions[&place].names, &mut waiting);
        }
        reached
    }
}

impl Reached {
    fn enter(&mut self, by: Option<&Place>, mentions: &Mentions, waiting: &mut Vec<Place>) {
        for place in &mentions.definitions {
            if !self.from.contains_key(place) {
                self.from.insert(place.clone(), by.cloned());
                waiting.push(place.clone());
            }
        }
        for path in &mentions.proofs {
            self.proofs.entry(path.clone()).or_insert(by.cloned());
        }
    }

    /// The names that lead to a definition, from the first on.
    pub fn way(&self, to: &Place) -> Vec<String> {
        let mut way = vec![to.name.clone()];
        let mut at = to;
        while let Some(Some(by)) = self.from.get(at) {
            way.push(by.name.clone());
            at = by;
        }
        way.reverse();
        way
    }
}

impl Place {
    fn is_internal(&self) -> bool {
        self.path.split('/').nth(3) == Some("internal")
    }

    fn is_of(&self, name: &str) -> bool {
        self.path.split('/').nth(1) == Some(name)
    }
}

#[derive(Clone, Copy, Debug, PartialEq, Eq, PartialOrd, Ord)]
pub enum Class {
    /// A public contract reaches it.
    Contract,
    /// It is a statement for readers, or one reaches it, and no public contract does.
    Statement,
    /// It stands between functions, or is a tool of proofs.
    Internal,
}

/// The definitions that stand outside specs/internal/ and belong there, by file or by file and name.
pub const PENDING: &str = "rust/audit/pending.txt";

pub struct Report {
    pub graph: Graph,
    pub classes: BTreeMap<Place, Class>,
    pub complaints: Vec<String>,
}

fn pending(files: &Files) -> Result<BTreeSet<(String, Option<String>)>, String> {
    let mut pending = BTreeSet::new();
    for line in files.text(PENDING)?.lines().filter(|line| !line.starts_with('#') && !line.is_empty()) {
        let mut words = line.split(' ').map(str::to_string);
        match (words.next(), words.next(), words.next()) {
            (Some(path), name, None) => drop(pending.insert((path, name))),
            _ => return Err(format!("{PENDING}: {line:?} is neither a file nor a file and a name")),
        }
    }
    Ok(pending)
}

/// Sorts the definitions of specs/, and complains where one stands where it should not.
pub fn report(files: &Files) -> Result<Report, String> {
    let graph = graph(files)?;
    let pending = pending(files)?;
    let listed = |place: &Place| {
        let file = (place.path.clone(), None);
        let one = (place.path.clone(), Some(place.name.clone()));
        [file, one].into_iter().find(|entry| pending.contains(entry))
    };
    let contracts = graph.reached(graph.calls.iter().filter(|call| call.public).map(|call| &call.names));
    let named = graph.named();
    let is_statement = |found: &&Definition| {
        let place = &found.place;
        let alone = found.stated == Stated::Open && !named.contains(place);
        let said = found.stated == Stated::Closed || alone || place.is_of(CASES);
        said && !place.is_internal() && listed(place).is_none() && !contracts.from.contains_key(place)
    };
    let statements = graph.definitions.values().filter(is_statement).map(|found| found.place.clone());
    let roots: Vec<Mentions> =
        statements.map(|place| Mentions { definitions: BTreeSet::from([place]), ..Mentions::default() }).collect();
    let statements = graph.reached(roots.iter());
    let class = |place: &Place| match (contracts.from.contains_key(place), statements.from.contains_key(place)) {
        (true, _) => Class::Contract,
        (false, true) => Class::Statement,
        (false, false) => Class::Internal,
    };
    let classes: BTreeMap<Place, Class> = graph.definitions.keys().map(|place| (place.clone(), class(place))).collect();

    let mut complaints = Vec::new();
    for call in graph.calls.iter().filter(|call| call.public) {
        if call.asks || !call.ensures {
            complaints.push(format!(
                "{}:{}: {} is public, and asks something or ensures nothing",
                call.path, call.line, call.name
            ));
        }
    }
    for (reached, of) in [(&contracts, "a public contract"), (&statements, "a statement for readers")] {
        for place in reached.from.keys().filter(|place| place.is_internal()) {
            complaints.push(format!("{}: {of} reaches {}", place.path, reached.way(place).join(" → ")));
        }
        for (path, by) in &reached.proofs {
            let way = by.as_ref().map_or(Vec::new(), |by| reached.way(by));
            complaints.push(format!("{path}: {of} reaches proofs/, by {}", way.join(" → ")));
        }
    }
    let mut used = BTreeSet::new();
    for (place, class) in &classes {
        match (listed(place), class) {
            (Some(entry), Class::Internal) if !place.is_internal() => drop(used.insert(entry)),
            (None, Class::Internal) if !place.is_internal() => complaints.push(format!(
                "{}: no public contract and no statement reaches {}: it belongs into specs/internal/",
                place.path, place.name
            )),
            _ => {}
        }
    }
    for (path, name) in pending.iter().filter(|entry| !used.contains(*entry)) {
        complaints.push(format!("{PENDING}: {path} {} is pending no more", name.as_deref().unwrap_or("")));
    }
    Ok(Report { graph, classes, complaints })
}

/// Definitions, lines and files of a class.
#[derive(Clone, Copy, Debug, Default, PartialEq, Eq)]
pub struct Count {
    pub definitions: usize,
    pub lines: usize,
    pub files: usize,
}

impl Report {
    /// How many definitions and lines of a class each file has.
    pub fn files(&self, class: Class) -> BTreeMap<&str, (usize, usize)> {
        let mut files = BTreeMap::new();
        for found in self.graph.definitions.values().filter(|found| self.classes[&found.place] == class) {
            let (definitions, lines) = files.entry(found.place.path.as_str()).or_default();
            *definitions += 1;
            *lines += found.lines;
        }
        files
    }

    pub fn count(&self, class: Class) -> Count {
        let files = self.files(class);
        let definitions = files.values().map(|(definitions, _)| definitions).sum();
        Count { definitions, lines: files.values().map(|(_, lines)| lines).sum(), files: files.len() }
    }
}
