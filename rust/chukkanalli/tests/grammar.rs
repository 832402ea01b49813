//! The grammar of docs/TABLES.md, read from the document, and the templates of all games held to it.

use std::collections::{BTreeSet, HashMap};
use std::fs;
use std::path::Path;

use chukkanalli::tables::{template, Form, Labels};
use chukkanalli::{Evaluator, Game};

/// What a rule says.
#[derive(Debug)]
enum Rule {
    Text(String),
    Name(String),
    Sequence(Vec<Rule>),
    Either(Vec<Rule>),
    Repeated(Box<Rule>),
    Optional(Box<Rule>),
}

struct Grammar(HashMap<String, Rule>);

impl Grammar {
    /// The rules of the block under the heading `Grammar`.
    fn of_document() -> Self {
        let path = Path::new(env!("CARGO_MANIFEST_DIR")).join("../../docs/TABLES.md");
        let text = fs::read_to_string(path).expect("the document can be read");
        let block = text.split("## Grammar").nth(1).and_then(|behind| behind.split("```").nth(1)).unwrap();
        let rules = block.lines().filter_map(|line| line.split_once(" = "));
        let rules = rules.map(|(name, rule)| {
            let tokens = tokens(rule);
            let mut tokens = tokens.iter().map(String::as_str).peekable();
            (name.trim().to_string(), either(&mut tokens))
        });
        Grammar(rules.collect())
    }

    /// Where the rule can end that begins at one of these places.
    fn ends(&self, rule: &Rule, text: &str, starts: &BTreeSet<usize>) -> BTreeSet<usize> {
        match rule {
            Rule::Text(literal) => {
                starts.iter().filter(|&&at| text[at..].starts_with(literal)).map(|at| at + literal.len()).collect()
            }
            Rule::Name(name) => self.ends(&self.0[name], text, starts),
            Rule::Sequence(rules) => rules.iter().fold(starts.clone(), |starts, rule| self.ends(rule, text, &starts)),
            Rule::Either(rules) => rules.iter().flat_map(|rule| self.ends(rule, text, starts)).collect(),
            Rule::Optional(rule) => &self.ends(rule, text, starts) | starts,
            Rule::Repeated(rule) => {
                let (mut all, mut last) = (starts.clone(), starts.clone());
                while !last.is_empty() {
                    last = &self.ends(rule, text, &last) - &all;
                    all = &all | &last;
                }
                all
            }
        }
    }

    fn is(&self, name: &str, text: &str) -> bool {
        self.ends(&self.0[name], text, &BTreeSet::from([0])).contains(&text.len())
    }
}

/// Quoted literals, names and signs.
fn tokens(rule: &str) -> Vec<String> {
    let mut tokens = Vec::new();
    let mut rest = rule.trim_start();
    while let Some(first) = rest.chars().next() {
        let end = match first {
            '"' | '\'' => 2 + rest[1..].find(first).expect("a literal ends"),
            _ => rest.find(' ').unwrap_or(rest.len()),
        };
        tokens.push(rest[..end].to_string());
        rest = rest[end..].trim_start();
    }
    tokens
}

fn either<'a>(tokens: &mut std::iter::Peekable<impl Iterator<Item = &'a str>>) -> Rule {
    let mut rules = vec![sequence(tokens)];
    while tokens.next_if_eq(&"|").is_some() {
        rules.push(sequence(tokens));
    }
    Rule::Either(rules)
}

fn sequence<'a>(tokens: &mut std::iter::Peekable<impl Iterator<Item = &'a str>>) -> Rule {
    let mut rules = Vec::new();
    while let Some(token) = tokens.next_if(|token| !["|", ")", "}", "]"].contains(token)) {
        let mut inner = |close: &str| {
            let rule = either(tokens);
            assert_eq!(tokens.next(), Some(close));
            Box::new(rule)
        };
        rules.push(match token {
            "(" => *inner(")"),
            "{" => Rule::Repeated(inner("}")),
            "[" => Rule::Optional(inner("]")),
            literal if literal.starts_with(['"', '\'']) => Rule::Text(literal[1..literal.len() - 1].to_string()),
            name => Rule::Name(name.to_string()),
        });
    }
    Rule::Sequence(rules)
}

#[test]
fn the_templates_of_all_games_are_what_the_document_says() {
    let grammar = Grammar::of_document();
    for game in (2..=6).map(|seats| Game::Kuhn { seats }).chain([Game::Leduc]) {
        let labels = Labels::new(&Evaluator::new(game).unwrap());
        let text = template(&labels, 16, Form::Text);
        let lines: Vec<&str> = text.lines().collect();
        assert!(grammar.is("heading", lines[0]), "{}", lines[0]);
        assert!(lines[1..3].iter().all(|line| line.starts_with("# ")) && lines[3].is_empty());
        assert_eq!(lines.len(), 4 + labels.sets().len());
        for (set, line) in lines[4..].iter().enumerate() {
            assert!(grammar.is("line", line), "{line}");
            assert!(grammar.is("label", labels.label(set)), "{}", labels.label(set));
        }
        let text = template(&labels, 16, Form::Csv);
        let lines: Vec<&str> = text.lines().collect();
        assert!(grammar.is("csv-heading", lines[0]), "{}", lines[0]);
        assert!(grammar.is("csv-columns", lines[1]), "{}", lines[1]);
        assert!(lines[2..].iter().all(|line| grammar.is("csv-row", line)));
        assert_eq!(lines.len(), 2 + labels.sets().len());
    }
}

#[test]
fn the_grammar_takes_nothing_else() {
    let grammar = Grammar::of_document();
    assert!(grammar.is("label", "PASS BET: seat 0, card 0, after PASS BET"));
    for text in [
        "BET PASS: seat 0, card 0, after PASS BET",
        "PASS BET: seat 0, card 0",
        "PASS BET: seat 0, card 0, after PASS CALL",
        "PASS BET: seat , card 0, after PASS BET",
        "FOLD CALL: seat 0, card 0, after PASS BET",
        "PASS BET: seat 0, card 0, after PASS BET ",
    ] {
        assert!(!grammar.is("label", text), "{text}");
    }
    assert!(!grammar.is("heading", "# Kuhn poker with 2 seats, D 1: both seats always PASS."));
    assert!(!grammar.is("line", "0 0 # PASS BET: seat 0, card 0, after"));
}
