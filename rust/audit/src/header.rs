//! include/chukkanalli.h, read whole: what is neither known nor expected is refused.

use std::collections::BTreeMap;

use crate::interface::{Call, Interface, Shape};
use crate::items::number;
use crate::tokens::{tokens, Kind, Token};

pub const PATH: &str = "include/chukkanalli.h";
const PREFIX: &str = "CHUKKANALLI_";

pub struct Header {
    pub interface: Interface,
    /// What the comment beside a constant says, by its name without the prefix.
    pub said: BTreeMap<String, String>,
    /// What the comment above a call says.
    pub above: BTreeMap<String, String>,
    /// The constants that are the length of an array.
    pub lengths: Vec<String>,
}

struct Reader<'a> {
    tokens: Vec<Token<'a>>,
    next: usize,
    header: Header,
    /// The comment right above.
    comment: String,
    for_cpp: bool,
    for_gcc: bool,
}

pub fn header(text: &str) -> Result<Header, String> {
    let interface = Interface { name: PATH.to_string(), ..Interface::default() };
    let header = Header { interface, said: BTreeMap::new(), above: BTreeMap::new(), lengths: Vec::new() };
    let mut reader =
        Reader { tokens: tokens(PATH, text)?, next: 0, header, comment: String::new(), for_cpp: false, for_gcc: false };
    while reader.next < reader.tokens.len() {
        reader.declaration()?;
    }
    Ok(reader.header)
}

fn number_type(name: &str) -> Option<&'static str> {
    match name {
        "uint8_t" => Some("u8"),
        "uint64_t" => Some("u64"),
        "int64_t" => Some("i64"),
        "double" => Some("f64"),
        _ => None,
    }
}

impl<'a> Reader<'a> {
    fn error<T>(&self, complaint: &str) -> Result<T, String> {
        let token = self.tokens.get(self.next).or(self.tokens.last());
        let (line, found) = token.map_or((1, "nothing"), |token| (token.line, token.text));
        Err(format!("{PATH}:{line}: {complaint}, at {found:?}"))
    }

    fn peek(&self) -> Option<Token<'a>> {
        self.tokens.get(self.next).copied()
    }

    fn take(&mut self, text: &str) -> bool {
        let is = self.peek().is_some_and(|token| token.is(text));
        self.next += usize::from(is);
        is
    }

    fn expect(&mut self, text: &str) -> Result<(), String> {
        if self.take(text) {
            return Ok(());
        }
        self.error(&format!("{text:?} is expected"))
    }

    fn kind(&mut self, kind: Kind) -> Result<&'a str, String> {
        match self.peek() {
            Some(token) if token.kind == kind => {
                self.next += 1;
                Ok(token.text)
            }
            _ => self.error(&format!("a {kind:?} is expected")),
        }
    }

    fn declaration(&mut self) -> Result<(), String> {
        if let Some(token) = self.peek().filter(|token| token.kind == Kind::Comment) {
            self.comment = token.said();
            self.next += 1;
            return Ok(());
        }
        let comment = std::mem::take(&mut self.comment);
        if self.take("#") {
            return self.directive();
        }
        if self.for_cpp {
            return self.linkage();
        }
        if self.for_gcc {
            return self.access();
        }
        if self.take("enum") {
            return self.constants();
        }
        if self.take("typedef") {
            return self.structure();
        }
        self.call(comment)
    }

    fn directive(&mut self) -> Result<(), String> {
        let line = self.tokens[self.next - 1].line;
        let words: Vec<&str> =
            self.tokens[self.next..].iter().take_while(|token| token.line == line).map(|token| token.text).collect();
        self.next += words.len();
        match words.concat().as_str() {
            "ifndefCHUKKANALLI_H" | "defineCHUKKANALLI_H" | "include<stddef.h>" | "include<stdint.h>" => {}
            "ifdef__cplusplus" => self.for_cpp = true,
            "ifdefined(__GNUC__)&&!defined(__clang__)&&__GNUC__>=11" => self.for_gcc = true,
            "endif" => (self.for_cpp, self.for_gcc) = (false, false),
            _ => return self.error("a directive that is not known"),
        }
        Ok(())
    }

    /// What is for C++ alone says that the names are C's.
    fn linkage(&mut self) -> Result<(), String> {
        if self.take("}") {
            return Ok(());
        }
        self.expect("extern")?;
        if self.kind(Kind::Text)? != "\"C\"" {
            return self.error("the names are C's");
        }
        self.expect("{")
    }

    fn constant_name(&mut self) -> Result<String, String> {
        let name = self.kind(Kind::Word)?;
        match name.strip_prefix(PREFIX) {
            Some(rest) => Ok(rest.to_string()),
            None => self.error("a constant begins with CHUKKANALLI_"),
        }
    }

    fn constants(&mut self) -> Result<(), String> {
        self.expect("{")?;
        loop {
            let name = self.constant_name()?;
            self.expect("=")?;
            let value = self.value()?;
            if self.header.interface.constants.insert(name.clone(), value).is_some() {
                return self.error("a constant stands twice");
            }
            let more = self.take(",");
            if let Some(token) = self.peek().filter(|token| token.kind == Kind::Comment) {
                self.header.said.insert(name, token.said());
                self.next += 1;
            }
            if !more {
                self.expect("}")?;
                return self.expect(";");
            }
        }
    }

    /// A number, or the product of two constants that stand above.
    fn value(&mut self) -> Result<u64, String> {
        if self.peek().is_some_and(|token| token.kind == Kind::Number) {
            return number(self.kind(Kind::Number)?);
        }
        let left = self.known()?;
        self.expect("*")?;
        Ok(left * self.known()?)
    }

    fn known(&mut self) -> Result<u64, String> {
        let name = self.constant_name()?;
        match self.header.interface.constants.get(&name) {
            Some(value) => Ok(*value),
            None => self.error("a constant that stands above is expected"),
        }
    }

    /// What is for gcc alone says again that a call is there, and which of its pointers it does not look behind.
    fn access(&mut self) -> Result<(), String> {
        for text in ["extern", "__typeof__", "("] {
            self.expect(text)?;
        }
        let name = self.kind(Kind::Word)?.to_string();
        for text in [")", name.as_str(), "__attribute__", "(", "(", "access", "(", "none", ","] {
            self.expect(text)?;
        }
        self.kind(Kind::Number)?;
        for text in [")", ")", ")", ";"] {
            self.expect(text)?;
        }
        Ok(())
    }

    fn structure(&mut self) -> Result<(), String> {
        self.expect("struct")?;
        self.expect("{")?;
        let mut fields = Vec::new();
        while !self.take("}") {
            let (name, shape) = self.named()?;
            self.expect(";")?;
            fields.push((name, shape));
        }
        let name = self.kind(Kind::Word)?.to_string();
        self.expect(";")?;
        match self.header.interface.structs.insert(name, fields) {
            None => Ok(()),
            Some(_) => self.error("a struct stands twice"),
        }
    }

    /// A number's type, a struct that stands above, or nothing.
    fn plain(&mut self) -> Result<Shape, String> {
        let name = self.kind(Kind::Word)?;
        if let Some(number) = number_type(name) {
            return Ok(Shape::Number(number.to_string()));
        }
        match name {
            "size_t" => Ok(Shape::Length),
            "void" => Ok(Shape::Nothing),
            _ if self.header.interface.structs.contains_key(name) => Ok(Shape::Struct(name.to_string())),
            _ => self.error(&format!("{name} is no type that is known")),
        }
    }

    /// A parameter or a field.
    fn named(&mut self) -> Result<(String, Shape), String> {
        let constant = self.take("const");
        let of = self.plain()?;
        if self.take("*") {
            let name = self.kind(Kind::Word)?.to_string();
            return Ok((name, Shape::Pointer { mutable: !constant, to: Box::new(of) }));
        }
        if constant {
            return self.error("const stands before a pointer");
        }
        let name = self.kind(Kind::Word)?.to_string();
        if !self.take("[") {
            return Ok((name, of));
        }
        let length = self.length()?;
        self.expect("]")?;
        Ok((name, Shape::Array(Box::new(of), length)))
    }

    fn length(&mut self) -> Result<u64, String> {
        if let Some(token) = self.peek().filter(|token| token.kind == Kind::Number) {
            self.next += 1;
            return number(token.text);
        }
        let name = self.constant_name()?;
        let Some(length) = self.header.interface.constants.get(&name).copied() else {
            return self.error("a length that does not stand above");
        };
        self.header.lengths.push(name);
        Ok(length)
    }

    fn call(&mut self, comment: String) -> Result<(), String> {
        let result = self.plain()?;
        let name = self.kind(Kind::Word)?.to_string();
        self.expect("(")?;
        let mut parameters = Vec::new();
        if !(self.take("void") && self.take(")")) {
            loop {
                parameters.push(self.named()?);
                if self.take(")") {
                    break;
                }
                self.expect(",")?;
            }
        }
        self.expect(";")?;
        self.header.above.insert(name.clone(), comment);
        match self.header.interface.calls.insert(name, Call { parameters, result }) {
            None => Ok(()),
            Some(_) => self.error("a call stands twice"),
        }
    }
}

#[cfg(test)]
mod tests {
    use super::*;

    #[test]
    fn a_header_is_read_whole_or_refused() {
        let text = "#ifndef CHUKKANALLI_H\nenum { CHUKKANALLI_A = 1, /* one */ CHUKKANALLI_B = 2 };\ntypedef struct { uint8_t a[CHUKKANALLI_B]; } s;\n\
                    /* What it does. */\ns f(const double *x, size_t x_len);\nuint64_t g(void);\n#endif\n";
        let found = header(text).expect("it can be read");
        assert_eq!((found.said["A"].as_str(), found.above["f"].as_str()), ("one", "What it does."));
        assert_eq!(found.interface.structs["s"][0].1, Shape::Array(Box::new(Shape::Number("u8".to_string())), 2));
        assert!(found.interface.calls["g"].parameters.is_empty());
        for bad in [
            "#pragma pack(1)",
            "typedef struct { uint8_t a; } __attribute__((packed)) s;",
            "typedef union { uint8_t a; } s;",
            "typedef struct { uint8_t a : 3; } s;",
            "typedef struct { int a; } s;",
            "static inline void f(void);",
            "uint64_t f();",
            "enum { A = 1 };",
            "enum { CHUKKANALLI_A };",
            "#define f g",
            "uint64_t f(void); uint64_t f(void);",
        ] {
            assert!(header(bad).is_err(), "{bad}");
        }
    }
}
