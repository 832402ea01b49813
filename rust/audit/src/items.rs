//! The items of a Rattle or Rust file: each is recognised or refused, and read further where the border needs it.

use crate::tokens::{tokens, Kind, Token};

pub struct Item<'a> {
    pub line: usize,
    /// The comments that stand right before it, each line without its marks.
    pub comment: Vec<String>,
    /// Without `#[ ]` and blanks.
    pub attributes: Vec<String>,
    /// `pub` without a restriction.
    pub public: bool,
    pub form: Form<'a>,
}

pub enum Form<'a> {
    /// The paths of a `use` item, each name in its braces with what stands before them; `x as y` has both names.
    Use(Vec<String>),
    /// The antt text of a `ghost use` item, from `use` on and without its semicolon.
    GhostUse(&'a str),
    /// A module of another file.
    Mod(String),
    Const(Const<'a>),
    Struct(Struct<'a>),
    Enum(Enum<'a>),
    Function(Function<'a>),
    /// What an `impl` gives for a ghost member.
    Member(Clause<'a>),
    Impl(Impl<'a>),
    /// The items of an `extern "C"` block.
    Extern(Vec<Item<'a>>),
    /// A macro's name, and what stands in its braces.
    Macro(String, Vec<Token<'a>>),
    /// An item that holds nothing of the border: a type, a trait, a module in braces, a macro's declaration.
    Other,
}

pub struct Impl<'a> {
    /// What stands between `impl` and its braces.
    pub of: String,
    pub generics: Vec<String>,
    pub items: Vec<Item<'a>>,
}

pub struct Const<'a> {
    pub name: String,
    pub value: Vec<Token<'a>>,
}

pub struct Struct<'a> {
    pub name: String,
    pub generics: Vec<String>,
    /// What stands in its braces.
    pub body: Vec<Token<'a>>,
    pub ghosts: Vec<Clause<'a>>,
}

pub struct Enum<'a> {
    pub name: String,
    /// What stands in its braces.
    pub body: Vec<Token<'a>>,
}

pub struct Function<'a> {
    pub name: String,
    /// The text behind `extern`.
    pub abi: Option<String>,
    /// Its type and const parameters.
    pub generics: Vec<String>,
    /// What stands between its parentheses.
    pub parameters: Vec<Token<'a>>,
    /// What stands behind `->`.
    pub result: Vec<Token<'a>>,
    pub clauses: Vec<Clause<'a>>,
    pub body: Vec<Token<'a>>,
}

/// A `requires`, an `ensures` or a ghost field; a ghost member of an `impl`.
pub struct Clause<'a> {
    pub asks: bool,
    pub name: Option<String>,
    /// The antt text in its braces.
    pub text: &'a str,
    pub line: usize,
}

#[derive(Clone, Debug, PartialEq, Eq)]
pub enum Type {
    Unit,
    Named(String, Vec<Type>),
    /// The length as it is written.
    Array(Box<Type>, String),
    Slice(bool, Box<Type>),
    Pointer(bool, Box<Type>),
}

pub struct Reader<'a> {
    path: &'a str,
    text: &'a str,
    tokens: Vec<Token<'a>>,
    next: usize,
}

/// The text of tokens, without the blanks between them.
pub fn joined(tokens: &[Token]) -> String {
    tokens.iter().map(|token| token.text).collect()
}

fn closer(opener: &str) -> Option<&'static str> {
    match opener {
        "(" => Some(")"),
        "[" => Some("]"),
        "{" => Some("}"),
        _ => None,
    }
}

pub fn items<'a>(path: &'a str, text: &'a str) -> Result<Vec<Item<'a>>, String> {
    Reader { path, text, tokens: tokens(path, text)?, next: 0 }.items()
}

impl<'a> Reader<'a> {
    /// A reader of tokens that were read before.
    pub fn over(path: &'a str, text: &'a str, tokens: &[Token<'a>]) -> Reader<'a> {
        Reader { path, text, tokens: tokens.to_vec(), next: 0 }
    }

    fn error<T>(&self, complaint: &str) -> Result<T, String> {
        let token = self.tokens.get(self.next).or(self.tokens.last());
        let (line, found) = token.map_or((1, "nothing"), |token| (token.line, token.text));
        Err(format!("{}:{line}: {complaint}, at {found:?}", self.path))
    }

    fn skip_comments(&mut self) {
        while self.tokens.get(self.next).is_some_and(|token| token.kind == Kind::Comment) {
            self.next += 1;
        }
    }

    fn peek(&mut self) -> Option<Token<'a>> {
        self.skip_comments();
        self.tokens.get(self.next).copied()
    }

    pub fn at_end(&mut self) -> bool {
        self.peek().is_none()
    }

    fn is(&mut self, text: &str) -> bool {
        self.peek().is_some_and(|token| token.is(text))
    }

    /// Whether the token behind the next one is this.
    fn second_is(&mut self, text: &str) -> bool {
        self.skip_comments();
        self.tokens.get(self.next + 1).is_some_and(|token| token.is(text))
    }

    pub fn take(&mut self, text: &str) -> bool {
        let is = self.is(text);
        self.next += usize::from(is);
        is
    }

    pub fn expect(&mut self, text: &str) -> Result<(), String> {
        if self.take(text) {
            return Ok(());
        }
        self.error(&format!("{text:?} is expected"))
    }

    pub fn kind(&mut self, kind: Kind) -> Result<&'a str, String> {
        match self.peek() {
            Some(token) if token.kind == kind => {
                self.next += 1;
                Ok(token.text)
            }
            _ => self.error(&format!("a {kind:?} is expected")),
        }
    }

    pub fn word(&mut self) -> Result<String, String> {
        self.kind(Kind::Word).map(str::to_string)
    }

    /// What stands in a bracket that opens here, comments among it.
    fn group(&mut self, opener: &str) -> Result<Vec<Token<'a>>, String> {
        self.expect(opener)?;
        let first = self.next;
        let mut open = vec![closer(opener).expect("it opens a bracket")];
        while let Some(token) = self.tokens.get(self.next).copied() {
            self.next += 1;
            if let (Kind::Mark, Some(closes)) = (token.kind, closer(token.text)) {
                open.push(closes);
            } else if token.kind == Kind::Mark && open.last() == Some(&token.text) {
                open.pop();
                if open.is_empty() {
                    return Ok(self.tokens[first..self.next - 1].to_vec());
                }
            } else if token.kind == Kind::Mark && [")", "]", "}"].contains(&token.text) {
                return self.error("a bracket is closed that is not open");
            }
        }
        self.error("a bracket does not end")
    }

    /// The tokens up to one of these outside brackets, which is not taken.
    fn until(&mut self, ends: &[&str]) -> Result<Vec<Token<'a>>, String> {
        let first = self.next;
        while let Some(token) = self.peek() {
            if ends.iter().any(|end| token.is(end)) {
                return Ok(self.tokens[first..self.next].to_vec());
            }
            match closer(token.text) {
                Some(_) if token.kind == Kind::Mark => drop(self.group(token.text)?),
                _ => self.next += 1,
            }
        }
        self.error(&format!("one of {ends:?} is expected"))
    }

    /// The angles that open here with what stands in them; nothing where none do.
    fn angles(&mut self) -> Result<Vec<Token<'a>>, String> {
        let first = self.next;
        let mut open = 0;
        while self.peek().is_some_and(|token| open > 0 || token.is("<")) {
            let arrow = self.next > 0 && self.tokens[self.next - 1].is("-");
            open += usize::from(self.is("<"));
            open -= usize::from(self.is(">") && !arrow);
            self.next += 1;
            if open == 0 {
                break;
            }
        }
        if open > 0 {
            return self.error("angles do not end");
        }
        Ok(self.tokens[first..self.next].to_vec())
    }

    fn items(&mut self) -> Result<Vec<Item<'a>>, String> {
        let mut items = Vec::new();
        // What `#![ ]` says first is said of all of them.
        while self.is("#") && self.second_is("!") {
            self.next += 2;
            self.group("[")?;
        }
        while !self.at_end() {
            items.push(self.item()?);
        }
        Ok(items)
    }

    /// The comments right before the next token, up to a line without one.
    fn comment(&mut self) -> Vec<String> {
        let mut lines = Vec::new();
        let Some(token) = self.peek() else { return lines };
        let mut below = token.line;
        for token in self.tokens[..self.next].iter().rev() {
            if token.kind != Kind::Comment || token.line + 1 < below {
                break;
            }
            below = token.line;
            lines.push(token.said());
        }
        lines.reverse();
        lines
    }

    fn item(&mut self) -> Result<Item<'a>, String> {
        let comment = self.comment();
        let mut attributes = Vec::new();
        while self.take("#") {
            attributes.push(joined(&self.group("[")?));
        }
        let line = self.peek().map_or(0, |token| token.line);
        let mut public = self.take("pub");
        if public && self.is("(") {
            self.group("(")?;
            public = false;
        }
        let form = self.form()?;
        Ok(Item { line, comment, attributes, public, form })
    }

    fn form(&mut self) -> Result<Form<'a>, String> {
        if self.take("use") {
            let mut paths = Vec::new();
            self.paths("", &mut paths)?;
            self.expect(";")?;
            return Ok(Form::Use(paths));
        }
        if self.take("ghost") {
            if !self.is("use") {
                let member = self.ghost("=")?;
                self.expect(";")?;
                return Ok(Form::Member(member));
            }
            let at = self.peek().map_or(0, |token| token.at);
            self.until(&[";"])?;
            let end = self.tokens[self.next].at;
            self.next += 1;
            return Ok(Form::GhostUse(&self.text[at..end]));
        }
        if self.take("mod") {
            let name = self.word()?;
            if self.take(";") {
                return Ok(Form::Mod(name));
            }
            self.group("{")?;
            return Ok(Form::Other);
        }
        if self.take("struct") {
            return self.structure();
        }
        if self.is("const") && !self.second_is("fn") {
            return self.constant();
        }
        if self.is("fn") || self.is("unsafe") || (self.is("const") && self.second_is("fn")) {
            return self.function(None);
        }
        if self.take("extern") {
            let abi = self.kind(Kind::Text)?.trim_matches('"').to_string();
            if !self.is("{") {
                return self.function(Some(abi));
            }
            if abi != "C" {
                return self.error("an extern block is for C");
            }
            let body = self.group("{")?;
            return Ok(Form::Extern(Reader::over(self.path, self.text, &body).items()?));
        }
        if self.take("impl") {
            let angles = self.angles()?;
            let of = joined(&angles) + &joined(&self.until(&["{"])?);
            let body = self.group("{")?;
            let items = Reader::over(self.path, self.text, &body).items()?;
            return Ok(Form::Impl(Impl { of, generics: generic_names(&angles), items }));
        }
        if self.take("enum") {
            let name = self.word()?;
            self.until(&["{"])?;
            return Ok(Form::Enum(Enum { name, body: self.group("{")? }));
        }
        if self.is("trait") {
            self.until(&["{"])?;
            self.group("{")?;
            return Ok(Form::Other);
        }
        if self.is("type") || self.is("static") {
            self.until(&[";"])?;
            self.next += 1;
            return Ok(Form::Other);
        }
        if self.is("macro_rules") {
            self.until(&["{"])?;
            self.group("{")?;
            return Ok(Form::Other);
        }
        if self.second_is("!") {
            let name = self.word()?;
            self.next += 1;
            return Ok(Form::Macro(name, self.group("{")?));
        }
        self.error("no item that is known")
    }

    /// The paths that begin with these names.
    fn paths(&mut self, before: &str, paths: &mut Vec<String>) -> Result<(), String> {
        if self.is("{") {
            let inside = self.group("{")?;
            let mut reader = Reader::over(self.path, self.text, &inside);
            while !reader.at_end() {
                reader.paths(before, paths)?;
                if !reader.at_end() {
                    reader.expect(",")?;
                }
            }
            return Ok(());
        }
        let path = match self.take("*") {
            true => format!("{before}*"),
            false => format!("{before}{}", self.word()?),
        };
        if self.take(":") {
            self.expect(":")?;
            return self.paths(&format!("{path}::"), paths);
        }
        match self.take("as") {
            true => paths.push(format!("{path} as {}", self.word()?)),
            false => paths.push(path),
        }
        Ok(())
    }

    fn structure(&mut self) -> Result<Form<'a>, String> {
        let name = self.word()?;
        let mut generics = Vec::new();
        if self.take("<") {
            while !self.take(">") {
                let parameter = joined(&self.until(&[",", ">"])?);
                generics.push(parameter);
                self.take(",");
            }
        }
        if self.take(";") {
            return Ok(Form::Struct(Struct { name, generics, body: Vec::new(), ghosts: Vec::new() }));
        }
        if self.is("(") {
            self.group("(")?;
            self.expect(";")?;
            return Ok(Form::Other);
        }
        let body = self.group("{")?;
        let ghosts = Reader::over(self.path, self.text, &body).ghosts()?;
        Ok(Form::Struct(Struct { name, generics, body, ghosts }))
    }

    /// The ghost fields among the fields of a struct.
    fn ghosts(&mut self) -> Result<Vec<Clause<'a>>, String> {
        let mut ghosts = Vec::new();
        while let Some(token) = self.peek() {
            if self.take("ghost") {
                ghosts.push(self.ghost(":")?);
                continue;
            }
            match closer(token.text) {
                Some(_) if token.kind == Kind::Mark => drop(self.group(token.text)?),
                _ => self.next += 1,
            }
        }
        Ok(ghosts)
    }

    /// What stands behind `ghost`: a name, this mark, and antt in braces.
    fn ghost(&mut self, mark: &str) -> Result<Clause<'a>, String> {
        let line = self.peek().map_or(0, |token| token.line);
        let name = Some(self.word()?);
        self.expect(mark)?;
        let text = self.braced()?;
        Ok(Clause { asks: false, name, text, line })
    }

    /// The text in braces.
    fn braced(&mut self) -> Result<&'a str, String> {
        let from = self.peek().map_or(0, |token| token.at + 1);
        self.group("{")?;
        let end = self.tokens[self.next - 1].at;
        Ok(&self.text[from..end])
    }

    fn constant(&mut self) -> Result<Form<'a>, String> {
        self.expect("const")?;
        let name = self.word()?;
        self.expect(":")?;
        self.until(&["="])?;
        self.next += 1;
        let value = self.until(&[";"])?;
        self.next += 1;
        Ok(Form::Const(Const { name, value }))
    }

    fn function(&mut self, abi: Option<String>) -> Result<Form<'a>, String> {
        self.until(&["fn"])?;
        self.next += 1;
        let name = self.word()?;
        let generics = generic_names(&self.angles()?);
        let parameters = self.group("(")?;
        let mut result = Vec::new();
        if self.take("-") {
            self.expect(">")?;
            result = self.until(&["{", ";", "requires", "ensures"])?;
        }
        let mut clauses = Vec::new();
        while self.is("requires") || self.is("ensures") {
            clauses.push(self.clause()?);
        }
        let body = if self.take(";") { Vec::new() } else { self.group("{")? };
        Ok(Form::Function(Function { name, abi, generics, parameters, result, clauses, body }))
    }

    fn clause(&mut self) -> Result<Clause<'a>, String> {
        let line = self.peek().map_or(0, |token| token.line);
        let asks = self.word()? == "requires";
        // `requires*` and `ensures*` are in separation logic, as of a call that answers a part of what it was lent.
        self.take("*");
        let name = if self.is("{") { None } else { Some(self.word()?) };
        Ok(Clause { asks, name, text: self.braced()?, line })
    }

    pub fn type_(&mut self) -> Result<Type, String> {
        if self.take("&") {
            let mutable = self.take("mut");
            self.expect("[")?;
            let of = self.type_()?;
            self.expect("]")?;
            return Ok(Type::Slice(mutable, Box::new(of)));
        }
        if self.take("*") {
            let mutable = self.take("mut");
            if !mutable {
                self.expect("const")?;
            }
            return Ok(Type::Pointer(mutable, Box::new(self.type_()?)));
        }
        if self.take("[") {
            let of = self.type_()?;
            self.expect(";")?;
            let length = joined(&self.until(&["]"])?);
            self.next += 1;
            return Ok(Type::Array(Box::new(of), length));
        }
        if self.take("(") {
            self.expect(")")?;
            return Ok(Type::Unit);
        }
        let name = self.word()?;
        let mut arguments = Vec::new();
        if self.take("<") {
            while !self.take(">") {
                arguments.push(self.type_()?);
                self.take(",");
            }
        }
        Ok(Type::Named(name, arguments))
    }

    /// Names with their types, `pub` or not, with commas between them.
    pub fn named_types(&mut self) -> Result<Vec<(String, Type)>, String> {
        let mut named = Vec::new();
        while !self.at_end() {
            self.take("pub");
            let name = self.word()?;
            self.expect(":")?;
            named.push((name, self.type_()?));
            if !self.at_end() {
                self.expect(",")?;
            }
        }
        Ok(named)
    }
}

/// A type that takes all of these tokens; none is the unit.
pub fn whole_type(path: &str, tokens: &[Token]) -> Result<Type, String> {
    if tokens.is_empty() {
        return Ok(Type::Unit);
    }
    let mut reader = Reader::over(path, "", tokens);
    let found = reader.type_()?;
    if !reader.at_end() {
        return reader.error("the type goes on");
    }
    Ok(found)
}

/// The names and types that take all of these tokens.
pub fn whole_named_types(path: &str, tokens: &[Token]) -> Result<Vec<(String, Type)>, String> {
    Reader::over(path, "", tokens).named_types()
}

/// The names of the type and const parameters in these angles.
fn generic_names(angles: &[Token]) -> Vec<String> {
    let mut names = Vec::new();
    let mut open = 0;
    for (at, token) in angles.iter().enumerate() {
        let behind = |mark: &str| at > 0 && angles[at - 1].is(mark);
        if open == 1 && token.kind == Kind::Word && !token.is("const") && (at == 1 || behind(",") || behind("const")) {
            names.push(token.text.to_string());
        }
        open += usize::from(token.is("<"));
        open -= usize::from(token.is(">") && !behind("-"));
    }
    names
}

/// The names of a struct's fields, those that are no ghosts.
pub fn field_names(tokens: &[Token]) -> Vec<String> {
    let mut names = Vec::new();
    let mut depth = 0;
    for (at, token) in tokens.iter().enumerate() {
        depth += usize::from(token.kind == Kind::Mark && closer(token.text).is_some());
        depth -= usize::from(token.kind == Kind::Mark && [")", "]", "}"].contains(&token.text));
        let next = |ahead: usize| tokens.get(at + ahead).is_some_and(|token| token.is(":"));
        let path = next(2) || at > 0 && tokens[at - 1].is(":");
        let ghost = at > 0 && tokens[at - 1].is("ghost");
        if depth == 0 && token.kind == Kind::Word && next(1) && !path && !ghost {
            names.push(token.text.to_string());
        }
    }
    names
}

/// The variants of an enum without fields, each with its number: one more than that of the variant before it, unless it is written.
pub fn numbered_variants(path: &str, tokens: &[Token]) -> Result<Vec<(String, u64)>, String> {
    let mut reader = Reader::over(path, "", tokens);
    let mut variants: Vec<(String, u64)> = Vec::new();
    while !reader.at_end() {
        let name = reader.word()?;
        let number = match reader.take("=") {
            true => number(reader.kind(Kind::Number)?)?,
            false => match variants.last() {
                Some((_, before)) => before + 1,
                None => return reader.error("the first variant has no number"),
            },
        };
        variants.push((name, number));
        if !reader.at_end() {
            reader.expect(",")?;
        }
    }
    Ok(variants)
}

/// The names of a function's parameters, whatever their types are.
pub fn parameter_names(path: &str, tokens: &[Token]) -> Result<Vec<String>, String> {
    let mut reader = Reader::over(path, "", tokens);
    let mut names = Vec::new();
    while !reader.at_end() {
        // `&self`, `&'a mut self`, `mut x`.
        if reader.take("&") && reader.peek().is_some_and(|token| token.kind == Kind::Text) {
            reader.next += 1;
        }
        reader.take("mut");
        let name = reader.word()?;
        if name != "self" {
            reader.expect(":")?;
        }
        names.push(name);
        let mut angles = 0;
        while !reader.at_end() && (angles > 0 || !reader.is(",")) {
            angles += usize::from(reader.is("<"));
            angles -= usize::from(reader.is(">"));
            match reader.peek().and_then(|token| closer(token.text)) {
                Some(_) => drop(reader.group(reader.tokens[reader.next].text)?),
                None => reader.next += 1,
            }
        }
        reader.take(",");
    }
    Ok(names)
}

/// A whole number as Rattle, Rust and C write it.
pub fn number(text: &str) -> Result<u64, String> {
    text.replace('_', "").parse().map_err(|_| format!("{text:?} is no whole number"))
}

#[cfg(test)]
mod tests {
    use super::*;

    #[test]
    fn items_have_their_comments_attributes_and_clauses() {
        let text = "// The file.\n#![tactic(auto)]\n\n// First.\nghost use a.{◌≡◌};\n\n// One.\n// Two.\n#[unsafe(no_mangle)]\n\
                    pub extern \"C\" fn f(x: u64, out: &mut [u8]) -> u64\n    \
                    ensures answer { result ≡ {x} }\n    requires { x }\n{ g({ x }) }\nconst N: usize = 1_0;";
        let found = items("a.rt", text).expect("it can be read");
        assert!(matches!(found[0].form, Form::GhostUse("use a.{◌≡◌}")));
        assert_eq!((found[0].comment[0].as_str(), found[0].attributes.len()), ("First.", 0));
        assert!(items("a.rt", "// The file.\n#![tactic(auto)]\n").expect("it can be read").is_empty());
        assert_eq!(found[1].comment, ["One.", "Two."]);
        assert_eq!((found[1].attributes[0].as_str(), found[1].public), ("unsafe(no_mangle)", true));
        let Form::Function(function) = &found[1].form else { panic!("a function") };
        assert_eq!((function.name.as_str(), function.abi.as_deref()), ("f", Some("C")));
        assert_eq!(function.clauses[0].text, " result ≡ {x} ");
        assert_eq!((function.clauses[0].asks, function.clauses[1].asks), (false, true));
        let named = whole_named_types("a.rt", &function.parameters).expect("they can be read");
        let found_names = parameter_names("a.rt", &function.parameters).expect("they can be read");
        assert_eq!(found_names, ["x", "out"]);
        let byte = Type::Named("u8".to_string(), Vec::new());
        assert_eq!(named[1], ("out".to_string(), Type::Slice(true, Box::new(byte))));
        let Form::Const(constant) = &found[2].form else { panic!("a constant") };
        assert_eq!(number(&joined(&constant.value)), Ok(10));
    }

    #[test]
    fn ghosts_and_variants_are_read() {
        let text = "pub struct S<'a> {\n    pub x: &'a [u8],\n    y: a::B,\n    ghost small: { length x.now ≤ {y} },\n}\n\
                    impl<'a, A: B<C>, const N: usize> From<S> for T { ghost from_gives = { λ s t. t ≡ {s} }; fn f<F: Fn(u8) -> u8>(&'a mut self, mut x: u64) { } }\n\
                    enum E { A = 1, B, C = 7, D }";
        let found = items("a.rt", text).expect("it can be read");
        let Form::Struct(of) = &found[0].form else { panic!("a struct") };
        assert_eq!(
            (of.ghosts[0].text, field_names(&of.body)),
            (" length x.now ≤ {y} ", vec!["x".to_string(), "y".to_string()])
        );
        let Form::Impl(inside) = &found[1].form else { panic!("an impl") };
        assert_eq!(inside.generics, ["A", "N"]);
        assert!(matches!(&inside.items[0].form, Form::Member(member) if member.text == " λ s t. t ≡ {s} "));
        let Form::Function(function) = &inside.items[1].form else { panic!("a function") };
        assert_eq!(parameter_names("a.rt", &function.parameters), Ok(vec!["self".to_string(), "x".to_string()]));
        assert_eq!(function.generics, ["F"]);
        let Form::Enum(of) = &found[2].form else { panic!("an enum") };
        let numbers =
            numbered_variants("a.rt", &of.body).expect("they can be read").into_iter().map(|(_, number)| number);
        assert_eq!(numbers.collect::<Vec<_>>(), [1, 2, 7, 8]);
        for text in ["A, B", "A = 1, B(u8)", "A = x", "A = 1 B", "A = 1, = 2"] {
            assert!(numbered_variants("a.rt", &tokens("a.rt", text).expect("tokens")).is_err(), "{text}");
        }
    }

    #[test]
    fn a_use_has_a_path_for_each_name() {
        let paths = |text| match &items("a.rt", text).expect("it can be read")[0].form {
            Form::Use(paths) => paths.join(" "),
            _ => panic!("a use"),
        };
        assert_eq!(paths("pub use a::B;"), "a::B");
        assert_eq!(paths("use a::{B, c::{d, e as f},\n    g::*};"), "a::B a::c::d a::c::e as f a::g::*");
        for text in ["use a::{b c};", "use a::{b;", "use a.b;", "use a b;", "use a::;"] {
            assert!(items("a.rt", text).is_err(), "{text}");
        }
    }

    #[test]
    fn what_cannot_be_read_is_refused() {
        for text in [
            "union u { }",
            "fn f(",
            "pub const X = 1;",
            "struct S { a }, ]",
            "extern \"D\" { }",
            "x",
            "#![a",
            "fn f() { }\n#![a]",
            "impl S { ghost x: { y }; }",
            "struct S { ghost x = { y } }",
        ] {
            assert!(items("a.rs", text).is_err(), "{text}");
        }
        let read = |text| whole_named_types("a.rs", &tokens("a.rs", text).expect("tokens")).is_err();
        assert!(read("x: &dyn T") && read("x: *u8") && read("x u8") && read("x: u8 y: u8"));
    }
}
