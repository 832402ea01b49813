//! Files of specs/: their `use` lines and their declarations, with names and brackets and no more. What is not known is refused.

#[derive(Clone, Debug, PartialEq, Eq)]
pub enum Leaf {
    /// A name, a word of the language or a path of names.
    Name(String),
    /// `.field` or `.0` behind a bracket; behind a name it is a part of the path.
    Projection,
    Number,
    Text,
    Comma,
    Semicolon,
    /// A dot that ends binders, or that stands before braces.
    Dot,
}

#[derive(Clone, Debug)]
pub enum Node {
    Leaf(Leaf, usize),
    Group(char, Vec<Node>, usize),
}

impl Node {
    pub fn name(&self) -> Option<&str> {
        match self {
            Node::Leaf(Leaf::Name(name), _) => Some(name),
            _ => None,
        }
    }

    pub fn is(&self, name: &str) -> bool {
        self.name() == Some(name)
    }

    pub fn line(&self) -> usize {
        match self {
            Node::Leaf(_, line) | Node::Group(_, _, line) => *line,
        }
    }
}

#[derive(Debug)]
pub struct Use {
    pub public: bool,
    pub module: String,
    /// Each name with the one that it has here; none if the line brings the module.
    pub names: Option<Vec<(String, String)>>,
    /// The name of the module here.
    pub alias: String,
    pub line: usize,
}

#[derive(Clone, Copy, Debug, PartialEq, Eq)]
pub enum Sort {
    Function,
    Data,
    Record,
}

#[derive(Debug)]
pub struct Declaration {
    pub name: String,
    pub sort: Sort,
    /// The comment above it.
    pub comment: Vec<String>,
    /// Its first line, comment included, and its last.
    pub lines: (usize, usize),
    /// The parameters of the sections around it, and its own.
    pub parameters: Vec<Node>,
    pub signature: Vec<Node>,
    pub unfolding: Vec<Node>,
    pub clauses: Vec<Clause>,
    /// Constructors or fields: names and their type.
    pub members: Vec<(Vec<String>, Vec<Node>)>,
}

#[derive(Debug)]
pub struct Clause {
    pub left: Vec<Node>,
    pub right: Vec<Node>,
    /// The declarations of its `where`.
    pub helpers: Vec<Declaration>,
}

#[derive(Debug, Default)]
pub struct Module {
    pub uses: Vec<Use>,
    /// The modules below it, by name.
    pub below: Vec<String>,
    pub declarations: Vec<Declaration>,
}

#[derive(Clone, Debug)]
enum Token {
    Leaf(Leaf),
    Open(char),
    Close(char),
}

/// A line with something on it.
#[derive(Clone, Debug)]
struct Line {
    number: usize,
    indent: usize,
    tokens: Vec<Token>,
}

struct Reader<'a> {
    path: &'a str,
    /// What the lines say that hold a comment alone, by line number.
    comments: Vec<(usize, String)>,
}

fn part_of_name(c: char) -> bool {
    !c.is_whitespace() && !"(){}.;,@\"«»".contains(c)
}

/// A name or an escaped name at the front, and how many bytes it takes.
fn name_at(rest: &str) -> Option<(&str, usize)> {
    if let Some(escaped) = rest.strip_prefix('«') {
        let end = escaped.find('»')?;
        return Some((&escaped[..end], '«'.len_utf8() + end + '»'.len_utf8()));
    }
    let end = rest.find(|c| !part_of_name(c)).unwrap_or(rest.len());
    (end > 0).then_some((&rest[..end], end))
}

/// The tokens of a line up to a comment; what the comment says if the line has nothing else.
fn line_tokens(text: &str) -> Result<(Vec<Token>, Option<String>), String> {
    let mut tokens = Vec::new();
    let mut rest = text;
    let mut blank_before = true;
    while let Some(first) = rest.chars().next() {
        if first.is_whitespace() {
            rest = &rest[first.len_utf8()..];
            blank_before = true;
            continue;
        }
        if let Some(comment) = rest.strip_prefix("--") {
            let alone = tokens.is_empty().then(|| comment.trim().to_string());
            return Ok((tokens, alone));
        }
        let of_a_field = matches!(tokens.last(), Some(Token::Close(_) | Token::Leaf(Leaf::Projection)));
        let (token, bytes) = token_at(rest, of_a_field && !blank_before)?;
        tokens.push(token);
        rest = &rest[bytes..];
        blank_before = false;
    }
    Ok((tokens, None))
}

/// The token at the front, and how many bytes it takes; a field can stand right behind a bracket or another field.
fn token_at(rest: &str, of_a_field: bool) -> Result<(Token, usize), String> {
    let first = rest.chars().next().expect("the rest is not empty");
    let leaf = |leaf| Ok((Token::Leaf(leaf), first.len_utf8()));
    match first {
        '{' if rest.starts_with("{-") => Err("a comment in braces".to_string()),
        '(' | '{' => Ok((Token::Open(first), 1)),
        ')' | '}' => Ok((Token::Close(first), 1)),
        ',' => leaf(Leaf::Comma),
        ';' => leaf(Leaf::Semicolon),
        '@' => Err("@ is not known".to_string()),
        '"' => {
            let end = rest[1..].find('"').ok_or("a text does not end")?;
            if rest[..end + 1].contains('\\') {
                return Err("an escape in a text".to_string());
            }
            Ok((Token::Leaf(Leaf::Text), end + 2))
        }
        '.' => match name_at(&rest[1..]) {
            Some((_, bytes)) if of_a_field => Ok((Token::Leaf(Leaf::Projection), 1 + bytes)),
            Some(_) => Err("a dot before a name, behind neither a name nor a bracket".to_string()),
            None => leaf(Leaf::Dot),
        },
        _ => path_at(rest),
    }
}

/// A number, or names with dots between them.
fn path_at(rest: &str) -> Result<(Token, usize), String> {
    let (name, mut bytes) = name_at(rest).ok_or("a name is expected")?;
    if name.starts_with(|c: char| c.is_ascii_digit()) {
        return Ok((Token::Leaf(Leaf::Number), bytes));
    }
    let mut path = name.to_string();
    while let Some(behind) = rest[bytes..].strip_prefix('.') {
        let Some((name, more)) = name_at(behind) else { break };
        path = format!("{path}.{name}");
        bytes += 1 + more;
    }
    Ok((Token::Leaf(Leaf::Name(path)), bytes))
}

/// The nodes of these lines.
fn nodes(path: &str, lines: &[Line]) -> Result<Vec<Node>, String> {
    let mut open: Vec<(char, Vec<Node>, usize)> = vec![(' ', Vec::new(), 0)];
    for line in lines {
        for token in &line.tokens {
            match token {
                Token::Leaf(leaf) => {
                    open.last_mut().expect("it never empties").1.push(Node::Leaf(leaf.clone(), line.number))
                }
                Token::Open(bracket) => open.push((*bracket, Vec::new(), line.number)),
                Token::Close(bracket) => {
                    let (opener, inside, number) = open.pop().expect("it never empties");
                    if (opener, *bracket) != ('(', ')') && (opener, *bracket) != ('{', '}') {
                        return Err(format!("{path}:{}: {bracket} closes nothing", line.number));
                    }
                    open.last_mut().expect("an opener stands below").1.push(Node::Group(opener, inside, number));
                }
            }
        }
    }
    match open.pop() {
        Some((' ', inside, _)) => Ok(inside),
        Some((bracket, _, number)) => Err(format!("{path}:{number}: {bracket} does not end")),
        None => unreachable!("it never empties"),
    }
}

/// The nodes of a text in one piece, whose first line has this number.
pub fn text_nodes(path: &str, text: &str, first: usize) -> Result<Vec<Node>, String> {
    nodes(path, &lines(path, text, first)?.0)
}

type Comments = Vec<(usize, String)>;

fn lines(path: &str, text: &str, first: usize) -> Result<(Vec<Line>, Comments), String> {
    let (mut lines, mut comments) = (Vec::new(), Vec::new());
    for (number, text) in (first..).zip(text.lines()) {
        let (tokens, comment) = line_tokens(text).map_err(|error| format!("{path}:{number}: {error}"))?;
        comments.extend(comment.map(|comment| (number, comment)));
        if !tokens.is_empty() {
            lines.push(Line { number, indent: text.len() - text.trim_start_matches(' ').len(), tokens });
        }
    }
    Ok((lines, comments))
}

pub fn module(path: &str, text: &str) -> Result<Module, String> {
    let (lines, comments) = lines(path, text, 1)?;
    let mut module = Module::default();
    Reader { path, comments }.block(&lines, &[], &mut module)?;
    Ok(module)
}

/// A `use` line, given its nodes from `use` on.
pub fn use_line(path: &str, nodes: &[Node], public: bool) -> Result<Use, String> {
    let line = nodes.first().map_or(0, Node::line);
    let error = || format!("{path}:{line}: a use line of no known form");
    let module = nodes.get(1).and_then(Node::name).ok_or_else(error)?.to_string();
    let last = module.rsplit('.').next().expect("a split has a part").to_string();
    if last == "*" {
        return Err(error());
    }
    let (names, alias) = match &nodes[2..] {
        [] => (None, last),
        [word, alias] if word.is("as") => (None, alias.name().ok_or_else(error)?.to_string()),
        [Node::Leaf(Leaf::Dot, _), Node::Group('{', inside, _)] => {
            let mut names = Vec::new();
            for item in inside.split(|node| matches!(node, Node::Leaf(Leaf::Comma, _))) {
                match item {
                    [name] => names.push((name, name)),
                    [name, word, alias] if word.is("as") => names.push((name, alias)),
                    _ => return Err(error()),
                }
            }
            let text = |node: &Node| node.name().map(str::to_string).ok_or_else(error);
            let names: Result<Vec<_>, String> =
                names.into_iter().map(|(name, alias)| Ok((text(name)?, text(alias)?))).collect();
            (Some(names?), last)
        }
        _ => return Err(error()),
    };
    Ok(Use { public, module, names, alias, line })
}

/// Where a word stands outside brackets.
fn position(nodes: &[Node], word: &str) -> Option<usize> {
    nodes.iter().position(|node| node.is(word))
}

/// Whether the last token of a line is this word.
fn ends_with(line: &Line, word: &str) -> bool {
    matches!(line.tokens.last(), Some(Token::Leaf(Leaf::Name(name))) if name == word)
}

fn begins_with(line: &Line, word: &str) -> bool {
    matches!(line.tokens.first(), Some(Token::Leaf(Leaf::Name(name))) if name == word)
}

const MARKS: [&str; 3] = ["unfoldable", "abbrev", "pub"];
const UNKNOWN: [&str; 6] = ["axiom", "ruleset", "open", "deriving", "syntax", "where"];

impl Reader<'_> {
    fn error<T>(&self, line: usize, complaint: &str) -> Result<T, String> {
        Err(format!("{}:{line}: {complaint}", self.path))
    }

    /// The comment right above a line, and the line where it begins.
    fn above(&self, line: usize) -> (Vec<String>, usize) {
        let mut first = line;
        let mut said = Vec::new();
        for (number, comment) in self.comments.iter().rev() {
            if number + 1 == first {
                first = *number;
                said.push(comment.clone());
            }
        }
        said.reverse();
        (said, first)
    }

    /// The pieces of a block: each begins at the block's indentation, and what is indented more or in a bracket belongs to it.
    fn pieces<'a>(&self, lines: &'a [Line]) -> Result<Vec<&'a [Line]>, String> {
        let mut pieces = Vec::new();
        let (mut begin, mut open) = (0, 0);
        for (end, line) in lines.iter().enumerate() {
            if end > begin && open == 0 && line.indent <= lines[0].indent {
                pieces.push(&lines[begin..end]);
                begin = end;
            }
            if end == begin && line.indent != lines[0].indent {
                return self.error(line.number, "indented less than its block");
            }
            open += line.tokens.iter().filter(|token| matches!(token, Token::Open(_))).count();
            open = open.saturating_sub(line.tokens.iter().filter(|token| matches!(token, Token::Close(_))).count());
        }
        pieces.extend((!lines.is_empty()).then(|| &lines[begin..]));
        Ok(pieces)
    }

    fn block(&self, lines: &[Line], around: &[Node], module: &mut Module) -> Result<(), String> {
        self.pieces(lines)?.into_iter().try_for_each(|piece| self.item(piece, around, module))
    }

    fn item(&self, lines: &[Line], around: &[Node], module: &mut Module) -> Result<(), String> {
        let number = lines[0].number;
        let marks = lines[0].tokens.iter().take_while(|token| match token {
            Token::Leaf(Leaf::Name(name)) => MARKS.contains(&name.as_str()),
            _ => false,
        });
        let marks = marks.count();
        let Some(Token::Leaf(Leaf::Name(word))) = lines[0].tokens.get(marks) else {
            // A clause whose first pattern stands in brackets.
            return self.clause(lines, module);
        };
        match word.as_str() {
            "use" => {
                let line = nodes(self.path, lines)?;
                module.uses.push(use_line(self.path, &line[marks..], marks > 0)?);
                Ok(())
            }
            "mod" => match &nodes(self.path, lines)?[marks + 1..] {
                [Node::Leaf(Leaf::Name(name), _)] => {
                    module.below.push(name.clone());
                    Ok(())
                }
                _ => self.error(number, "a mod line of no known form"),
            },
            "infix" | "infixl" | "infixr" => match &nodes(self.path, lines)?[1..] {
                [Node::Leaf(Leaf::Number, _), Node::Leaf(Leaf::Name(_), _)] => Ok(()),
                _ => self.error(number, "a fixity of no known form"),
            },
            "module" => self.section(lines, around, module),
            "mutual" if lines[0].tokens.len() == marks + 1 => self.mutual(lines, around, module),
            "data" | "record" => self.structure(lines, around, module),
            "unfolding" => {
                let names = nodes(self.path, lines)?[1..].to_vec();
                match module.declarations.last_mut() {
                    Some(last) if last.clauses.is_empty() => {
                        last.unfolding = names;
                        last.lines.1 = number;
                        Ok(())
                    }
                    _ => self.error(number, "an unfolding line without its declaration"),
                }
            }
            _ if UNKNOWN.contains(&word.as_str()) => self.error(number, &format!("{word} is not known")),
            _ => self.signature_or_clause(lines, around, module, marks),
        }
    }

    /// The line that `where` ends, and the lines behind it.
    fn head<'a>(&self, lines: &'a [Line]) -> Result<(&'a [Line], &'a [Line]), String> {
        match lines.iter().position(|line| ends_with(line, "where")) {
            Some(last) => Ok(lines.split_at(last + 1)),
            None => self.error(lines[0].number, "where is expected at the end of a line"),
        }
    }

    fn section(&self, lines: &[Line], around: &[Node], module: &mut Module) -> Result<(), String> {
        let (head, body) = self.head(lines)?;
        let found = nodes(self.path, head)?;
        let parameters = &found[2..found.len() - 1];
        if !found[1].is("_") || parameters.iter().any(|node| !matches!(node, Node::Group(..))) {
            return self.error(lines[0].number, "a section of no known form");
        }
        let declared = module.declarations.len();
        let inside: Vec<Node> = around.iter().chain(parameters).cloned().collect();
        self.block(body, &inside, module)?;
        self.begins_at(lines[0].number, declared, module)
    }

    fn mutual(&self, lines: &[Line], around: &[Node], module: &mut Module) -> Result<(), String> {
        let declared = module.declarations.len();
        let mut body = &lines[1..];
        let mut unfolding = Vec::new();
        if body.first().is_some_and(|line| begins_with(line, "unfolding")) {
            unfolding = nodes(self.path, &body[..1])?[1..].to_vec();
            body = &body[1..];
        }
        self.block(body, around, module)?;
        for declaration in &mut module.declarations[declared..] {
            declaration.unfolding = unfolding.clone();
        }
        self.begins_at(lines[0].number, declared, module)
    }

    /// The first declaration of a block has the block's own lines, and the comment above it if it has none of its own.
    fn begins_at(&self, number: usize, declared: usize, module: &mut Module) -> Result<(), String> {
        let (comment, first) = self.above(number);
        match module.declarations.get_mut(declared) {
            None => self.error(number, "a block without a declaration"),
            Some(declaration) => {
                declaration.lines.0 = first;
                if declaration.comment.is_empty() {
                    declaration.comment = comment;
                }
                Ok(())
            }
        }
    }

    fn structure(&self, lines: &[Line], around: &[Node], module: &mut Module) -> Result<(), String> {
        let (head, body) = self.head(lines)?;
        let mut found = nodes(self.path, head)?;
        found.pop();
        let word =
            found.iter().position(|node| node.is("data") || node.is("record")).expect("one of them stands there");
        let sort = if found[word].is("data") { Sort::Data } else { Sort::Record };
        let (Some(name), Some(colon)) = (found.get(word + 1).and_then(Node::name), position(&found, ":")) else {
            return self.error(lines[0].number, "a data or record of no known form");
        };
        let own = &found[word + 2..colon];
        if own.iter().any(|node| !matches!(node, Node::Group(..))) {
            return self.error(lines[0].number, "a data or record of no known form");
        }
        let (comment, first) = self.above(lines[0].number);
        let mut declaration = Declaration {
            name: name.to_string(),
            sort,
            comment,
            lines: (first, lines.last().expect("an item has a line").number),
            parameters: around.iter().chain(own).cloned().collect(),
            signature: found[colon + 1..].to_vec(),
            unfolding: Vec::new(),
            clauses: Vec::new(),
            members: Vec::new(),
        };
        for piece in self.pieces(body)? {
            declaration.members.push(self.member(piece)?);
        }
        module.declarations.push(declaration);
        Ok(())
    }

    /// Constructors or fields of one type.
    fn member(&self, lines: &[Line]) -> Result<(Vec<String>, Vec<Node>), String> {
        let found = nodes(self.path, lines)?;
        let unknown = |node: &Node| node.name().is_some_and(|name| UNKNOWN.contains(&name));
        let from = usize::from(found.first().is_some_and(|node| node.is("pub")));
        let names: Option<Vec<String>> = position(&found, ":")
            .filter(|colon| *colon > from && !found[..*colon].iter().any(unknown))
            .and_then(|colon| found[from..colon].iter().map(|node| node.name().map(str::to_string)).collect());
        match (names, position(&found, ":")) {
            (Some(names), Some(colon)) => Ok((names, found[colon + 1..].to_vec())),
            _ => self.error(lines[0].number, "a constructor or field of no known form"),
        }
    }

    fn signature_or_clause(
        &self,
        lines: &[Line],
        around: &[Node],
        module: &mut Module,
        marks: usize,
    ) -> Result<(), String> {
        let found = nodes(self.path, lines)?;
        let (colon, equals) = (position(&found, ":"), position(&found, "="));
        let signature = colon.filter(|colon| equals.is_none_or(|equals| *colon < equals));
        let Some(colon) = signature else {
            if marks > 0 {
                return self.error(lines[0].number, "marks without a signature");
            }
            return self.clause(lines, module);
        };
        let name = match &found[marks..colon] {
            [name] | [name, Node::Group('{', ..)] => name.name().map(str::to_string),
            _ => None,
        };
        let Some(name) = name else { return self.error(lines[0].number, "a signature of no known form") };
        let (comment, first) = self.above(lines[0].number);
        module.declarations.push(Declaration {
            name,
            sort: Sort::Function,
            comment,
            lines: (first, lines.last().expect("an item has a line").number),
            parameters: around.to_vec(),
            signature: found[colon + 1..].to_vec(),
            unfolding: Vec::new(),
            clauses: Vec::new(),
            members: Vec::new(),
        });
        Ok(())
    }

    fn clause(&self, lines: &[Line], module: &mut Module) -> Result<(), String> {
        let number = lines[0].number;
        let split = lines.iter().position(|line| begins_with(line, "where")).unwrap_or(lines.len());
        let found = nodes(self.path, &lines[..split])?;
        let Some(equals) = position(&found, "=") else { return self.error(number, "neither a signature nor a clause") };
        let mut helpers = Module::default();
        if split < lines.len() {
            if lines[split].tokens.len() > 1 {
                return self.error(lines[split].number, "where stands on a line of its own");
            }
            self.block(&lines[split + 1..], &[], &mut helpers)?;
            if !helpers.uses.is_empty() || !helpers.below.is_empty() {
                return self.error(number, "a where of no known form");
            }
        }
        match module.declarations.last_mut() {
            Some(last) if last.sort == Sort::Function => {
                last.lines.1 = lines.last().expect("an item has a line").number;
                last.clauses.push(Clause {
                    left: found[..equals].to_vec(),
                    right: found[equals + 1..].to_vec(),
                    helpers: helpers.declarations,
                });
                Ok(())
            }
            _ => self.error(number, "a clause without its signature"),
        }
    }
}

#[cfg(test)]
mod tests {
    use super::*;

    #[test]
    fn a_file_has_its_uses_and_declarations() {
        let text = "-- What it is.\nuse a.B.{c, ◌≡◌ as d}\nuse a.E as F\npub mod Kid\n\n-- one\n-- more\nabbrev pub one : (x : a) → b\none x = c\n\n\
                    -- both\nunfoldable mutual\n  unfolding one\n  pub f : a\n  f = g\n\n  pub g : a\n  g = let r : a = f in r\n\n\
                    module _ (n : a) where\n  pub record R (m : a) : Type 0 where\n    pub here : m ≡ n\n      → b\n\n\
                    pub data D : Type 0 where\n  zero one : D\n  (x) · y = keep\n";
        let error = module("A.antt", text).expect_err("a constructor has a type");
        assert!(error.starts_with("A.antt:27:"), "{error}");
        let module = module("A.antt", &text.replace("  (x) · y = keep\n", "")).expect("it can be read");
        assert_eq!(module.uses[0].names.as_ref().expect("names")[1], ("◌≡◌".to_string(), "d".to_string()));
        assert_eq!((module.uses[1].alias.as_str(), module.below[0].as_str()), ("F", "Kid"));
        let names: Vec<&str> = module.declarations.iter().map(|found| found.name.as_str()).collect();
        assert_eq!(names, ["one", "f", "g", "R", "D"]);
        let found = &module.declarations;
        assert_eq!((found[0].comment.join(" ").as_str(), found[0].lines), ("one more", (6, 9)));
        assert_eq!((found[1].lines, found[1].unfolding.len(), found[2].unfolding.len()), ((11, 15), 1, 1));
        assert_eq!((found[3].parameters.len(), found[3].members[0].1.len(), found[3].lines), (2, 5, (20, 23)));
        assert_eq!(found[4].members[0].0, ["zero", "one"]);
    }

    #[test]
    fn a_field_stands_right_behind_its_record() {
        let read = |text| text_nodes("A.antt", text, 1).expect("it can be read");
        assert!(matches!(&read("(f x).here")[..], [Node::Group(..), Node::Leaf(Leaf::Projection, _)]));
        assert!(matches!(&read("(f x).0.1")[..], [Node::Group(..), Node::Leaf(Leaf::Projection, _), ..]));
        assert_eq!(read("x.here.0")[0].name(), Some("x.here.0"));
        assert!(matches!(&read("λ x. x")[2], Node::Leaf(Leaf::Dot, _)));
    }

    #[test]
    fn what_cannot_be_read_is_refused() {
        for text in [
            "f : a\nf = (b",
            "f : a\nf = b)",
            "f = b",
            "axiom f : a",
            "data D : a",
            "f : a\n  g : b\nf = c d : = e\nwhere",
            "use a.*",
            "open a",
            "module _ where",
            "pub f",
            "{- a -}",
            "f : a\nf = \"b",
            "x",
            "unfolding f",
            "module M (x : a) where\n  f : a",
            "f : a\nf = (b) .c",
            "f : a\nf = b .c",
            "f : a\nf = (.c)",
        ] {
            assert!(module("A.antt", text).is_err(), "{text}");
        }
    }
}
