//! What public contracts reach: in the repository, and in small ones that show what counts and what is refused.

use audit::files::Files;
use audit::reach::{graph, report, Class, Place};

#[test]
fn public_contracts_reach_no_internal_file_and_no_proofs() {
    let report = report(&Files::of_repository()).expect("specs/ and src/ can be read");
    let calls = report.graph.calls.iter().filter(|call| call.public).count();
    let interface: Vec<&str> = report.graph.interface.iter().map(String::as_str).collect();
    for known in ["kuhn", "leduc", "listing", "worths", "best_reply", "nash_conv_units", "best_response", "chukkanalli"]
    {
        assert!(interface.contains(&known), "{known} is not in {interface:?}");
    }
    let [contracts, statements, internal] =
        [Class::Contract, Class::Statement, Class::Internal].map(|class| report.count(class));
    println!("{calls} public calls of {interface:?}; reached {contracts:?}; statements {statements:?}; between functions {internal:?}");
    assert!(calls > 1 && contracts.definitions > 1 && statements.definitions > 1 && internal.definitions > 1);
    assert_eq!(report.complaints, Vec::<String>::new());
}

#[test]
fn a_file_that_contracts_reach_may_not_be_internal() {
    let (from, to) = ("crates/refusals/specs/Refusals.antt", "crates/refusals/specs/internal/Refusals.antt");
    let files = Files::of_repository().renamed(from, to, "specs.Refusals", "specs.internal.Refusals");
    let complaints = report(&files).expect("it can be read").complaints;
    assert!(complaints
        .iter()
        .any(|complaint| complaint.starts_with(to) && complaint.contains("a public contract reaches")));
}

const PUBLIC: &str = "crates/kuhn/src/lib.rt";
const CALLS: &str = "crates/kuhn/specs/Calls.antt";
const RULES: &str = "crates/rules/specs/Rules.antt";

/// A public call, a private one, what the first answers, and a file of rules below.
fn small() -> Files {
    Files::of(&[
        (
            PUBLIC,
            "ghost use Rattle.std.specs.Prelude.{◌≡◌};\nghost use Rattle.kuhn.specs.Calls.{answer};\nghost use Rattle.rules.specs.Rules as Rules;\n\
             pub fn call(x: u64) -> u64\n    ensures { result ≡ answer x }\n{ x }\n\
             fn private(x: u64) -> u64\n    requires { Rules.Tool x }\n    ensures { result ≡ x }\n{ x }\n",
        ),
        (
            CALLS,
            "use Rattle.std.specs.Prelude.{ℕ, zero, suc, ◌+◌}\nuse Rattle.rules.specs.Rules.{rule, other, Kind, one, two, ◌⊕◌}\n\n\
             abbrev pub answer : ℕ → ℕ\nanswer zero = rule 0\nanswer (suc other) = other + zero\n",
        ),
        (
            RULES,
            "use Rattle.std.specs.Prelude.{◌≡◌, ℕ}\n\npub data Kind : Type 0 where\n  one two : Kind\n\n\
             abbrev pub rule : ℕ → ℕ\nrule x = x\n\nabbrev pub other : ℕ\nother = 1\n\nabbrev pub ◌⊕◌ : Kind → Kind → Kind\none ⊕ y = y\ntwo ⊕ y = two\n\n\
             abbrev pub Tool : ℕ → Type 0\nTool x = x ≡ other\n\nabbrev pub Said : Type 0\nSaid = (x : ℕ) → rule x ≡ x\n",
        ),
        ("crates/chukkanalli/src/lib.rt", "use kuhn::Answer;\n"),
        ("rust/audit/pending.txt", "# none\n"),
    ])
}

fn class(files: &Files, path: &str, name: &str) -> Class {
    let report = report(files).expect("it can be read");
    report.classes[&Place { path: path.to_string(), name: name.to_string() }]
}

#[test]
fn names_are_followed_definition_by_definition() {
    let files = small();
    assert_eq!((class(&files, CALLS, "answer"), class(&files, RULES, "rule")), (Class::Contract, Class::Contract));
    assert_eq!(class(&files, RULES, "Said"), Class::Statement);
    // A use line counts for nothing, and a variable of that name neither.
    for name in ["other", "Tool", "◌⊕◌", "Kind"] {
        let expected = if name == "Kind" { Class::Statement } else { Class::Internal };
        assert_eq!(class(&files, RULES, name), expected, "{name}");
    }
}

#[test]
fn a_type_with_parameters_is_a_statement_where_nothing_names_it() {
    let alone = "abbrev pub Alone : ℕ → Type 0\nAlone x = other ≡ x\n\nabbrev pub Said";
    let files = small().replaced(RULES, "abbrev pub Said", alone);
    assert_eq!(class(&files, RULES, "Alone"), Class::Statement);
    assert_eq!(class(&files, RULES, "other"), Class::Statement);
    assert_eq!(class(&files, RULES, "Tool"), Class::Internal);
    assert_eq!(class(&files.replaced(PUBLIC, "Rules.Tool x", "Rules.Alone x"), RULES, "Alone"), Class::Internal);
}

#[test]
fn every_way_to_name_a_definition_is_followed() {
    let reaches = |old: &str, new: &str, name: &str| {
        assert_eq!(class(&small().replaced(CALLS, old, new), RULES, name), Class::Contract, "{new}");
    };
    reaches("rule 0", "other", "other");
    reaches("rule 0", "(λ (x : Kind). 0) 0", "Kind");
    reaches("rule 0", "let x : Kind = 0 in x", "Kind");
    reaches("rule 0", "let other = other in other", "other");
    reaches("rule 0", "(λ other. 0) other", "other");
    reaches("rule 0", "record { other = other }", "other");
    reaches("rule 0", "record other { rule = 0 }", "other");
    reaches("rule 0", "record (rule 0) { rule = other }", "other");
    reaches("rule 0", "other.rule", "other");
    reaches("rule 0", "(rule other).rule.0", "other");
    reaches("rule 0", "(λ x. x.rule) other", "other");
    reaches("rule 0", "rule two", "Kind");
    reaches("rule 0", "0 ⊕ 1", "◌⊕◌");
    reaches("rule 0", "rule {other = other}", "other");
    reaches("rule 0", "Rattle.rules.specs.Rules.other", "other");
    reaches("answer zero", "answer one", "Kind");
    reaches("ℕ → ℕ\n", "(x : Kind) → ℕ\n", "Kind");
    reaches("ℕ → ℕ\n", "ℕ → ℕ\nunfolding other\n", "other");
    reaches("other + zero\n", "go other\n  where\n    go : Kind → ℕ\n    go x = 0\n", "Kind");
    let section = small().replaced(
        CALLS,
        "abbrev pub answer : ℕ → ℕ\n",
        "module _ (k : Kind) where\n  abbrev pub answer : ℕ → ℕ\n",
    );
    let section =
        section.replaced(CALLS, "answer zero", "  answer zero").replaced(CALLS, "answer (suc", "  answer (suc");
    assert_eq!(class(&section, RULES, "Kind"), Class::Contract);
    let alias = small().replaced(PUBLIC, "answer x", "Rules.other");
    assert_eq!(class(&alias, RULES, "other"), Class::Contract);
    let passed_on = small().replaced(RULES, "\npub data", "pub use Rattle.more.specs.More.{deep}\n\npub data");
    let passed_on = passed_on
        .with("crates/more/specs/More.antt", "use Rattle.std.specs.Prelude.{ℕ}\n\nabbrev pub deep : ℕ\ndeep = 1\n");
    let passed_on = passed_on.replaced(PUBLIC, "answer x", "Rules.deep");
    assert_eq!(class(&passed_on, "crates/more/specs/More.antt", "deep"), Class::Contract);
}

#[test]
fn the_interface_is_what_the_exports_name() {
    let public = |files: &Files| graph(files).expect("it can be read").calls.iter().filter(|call| call.public).count();
    let root = "crates/chukkanalli/src/lib.rt";
    assert_eq!(public(&small()), 1);
    assert_eq!(public(&small().with(root, "use c_structs::Answer;\n")), 0);
    assert_eq!(public(&small().with(root, "fn call() { kuhn::call(1) }\n")), 1);
    let export = "#[unsafe(no_mangle)]\npub extern \"C\" fn export() { kuhn::call(1) }\npub fn more() { }\n";
    assert_eq!(public(&small().with(root, "mod calls;\n").with("crates/chukkanalli/src/calls.rt", export)), 2);
}

#[test]
fn what_the_interface_shows_of_another_crate_is_public() {
    let position = "pub struct Position {}\nimpl Position {\n    pub fn more(self) -> u64\n        requires { self }\n        ensures { result }\n    { 1 }\n}\n";
    let below = small().with("crates/rules/src/lib.rt", position);
    let asks = |files: &Files| {
        let complaints = report(files).expect("it can be read").complaints;
        complaints.iter().any(|complaint| complaint.contains("rules: more is public, and asks something"))
    };
    assert!(!asks(&below));
    let shown = below.replaced(PUBLIC, "pub fn call", "pub use rules::Position;\npub fn call");
    assert!(asks(&shown));
    for more in ["pub use rules::{Kind, Position};", "pub use rules::Position as Place;"] {
        assert!(asks(&shown.replaced(PUBLIC, "pub use rules::Position;", more)), "{more}");
    }
    assert!(!asks(&shown.replaced(PUBLIC, "pub use rules::Position;", "use rules::Position;")));
}

/// A copy that is damaged so has a complaint that says this.
#[track_caller]
fn complains(files: &Files, said: &str) {
    let complaints = report(files).expect("it can be read").complaints;
    assert!(complaints.iter().any(|complaint| complaint.contains(said)), "{said:?} is not in {complaints:#?}");
}

#[test]
fn definitions_in_the_wrong_place_are_found() {
    let files = small();
    complains(&files, "no public contract and no statement reaches Tool: it belongs into specs/internal/");
    let tool = "abbrev pub Tool : ℕ → Type 0\nTool x = x ≡ other\n\n";
    let operator = "abbrev pub ◌⊕◌ : Kind → Kind → Kind\none ⊕ y = y\ntwo ⊕ y = two\n\n";
    let inside = format!("use Rattle.std.specs.Prelude.{{◌≡◌, ℕ}}\nuse Rattle.rules.specs.Rules.{{other, Kind, one, two}}\n\n{tool}{operator}");
    let moved = files.replaced(RULES, tool, "").replaced(RULES, operator, "").replaced(CALLS, ", ◌⊕◌", "");
    let moved = moved.replaced(PUBLIC, "specs.Rules as Rules", "specs.internal.Tools as Rules");
    let moved = moved.with("crates/rules/specs/internal/Tools.antt", &inside).replaced(
        RULES,
        "Said = (x : ℕ)",
        "Said = (x : ℕ) → other ≡ x",
    );
    assert_eq!(report(&moved).expect("it can be read").complaints, Vec::<String>::new());
    assert_eq!(class(&moved, "crates/rules/specs/internal/Tools.antt", "Tool"), Class::Internal);

    complains(
        &moved.replaced(PUBLIC, "result ≡ answer x", "Rules.Tool x"),
        "Tools.antt: a public contract reaches Tool",
    );
    let deeper = moved
        .replaced(CALLS, "\nabbrev", "use Rattle.rules.specs.internal.Tools.{Tool}\n\nabbrev")
        .replaced(CALLS, "rule 0", "Tool 0");
    complains(&deeper, "a public contract reaches answer → Tool");
    let stated = moved.replaced(RULES, "\npub data", "use Rattle.rules.specs.internal.Tools.{Tool}\n\npub data");
    complains(
        &stated.replaced(RULES, "→ other ≡ x →", "→ Tool x → other ≡ x →"),
        "a statement for readers reaches Said → Tool",
    );
    let proofs = moved
        .replaced(CALLS, "\nabbrev", "use Rattle.rules.proofs.Laws.{law}\n\nabbrev")
        .replaced(CALLS, "rule 0", "law 0");
    complains(&proofs, "crates/rules/proofs/Laws: a public contract reaches proofs/, by answer");
    complains(
        &moved.replaced(PUBLIC, "pub fn call(x: u64) -> u64\n", "pub fn call(x: u64) -> u64\n    requires { x }\n"),
        "asks something",
    );
    complains(&moved.with("rust/audit/pending.txt", "crates/kuhn/specs/Calls.antt\n"), "is pending no more");
    complains(&moved.with("rust/audit/pending.txt", "crates/rules/specs/Rules.antt rule\n"), "is pending no more");
    let pending = files.with("rust/audit/pending.txt", "crates/rules/specs/Rules.antt\n");
    assert_eq!(report(&pending).expect("it can be read").complaints, Vec::<String>::new());
}

#[test]
fn what_cannot_be_followed_is_refused() {
    let refused = |path: &str, old: &str, new: &str, said: &str| {
        let error = graph(&small().replaced(path, old, new)).map(|_| ()).expect_err(new);
        assert!(error.contains(said), "{error}");
    };
    refused(CALLS, "rule 0", "unheard 0", "unheard is nowhere to be found");
    refused(CALLS, "rule 0", "Other.rule 0", "Other is no module here");
    refused(CALLS, "rule 0", "Rattle.rules.specs.Rules.unheard", "has no unheard");
    refused(CALLS, "rule 0", "elim 0", "elim is not known");
    refused(CALLS, "rule 0", "λ x", "a λ without its dot");
    refused(CALLS, "rule 0", "let x = 0", "a let without its in");
    refused(CALLS, "rule 0", "record 0", "a record without its braces");
    refused(CALLS, "rule 0", "record other 0", "a record without its braces");
    refused(CALLS, "rule 0", "x.rule", "x is no module here");
    refused(CALLS, "rule 0", "result", "result is nowhere to be found");
    refused(PUBLIC, "Rules.Tool x", "Rules.Tool result", "result is nowhere to be found");
    refused(PUBLIC, "result ≡ answer x", "λ r. ⌜ r ≡ answer x ⌝", "⌜ is nowhere to be found");
    refused(CALLS, "rule, other", "rule, unheard, other", "has no unheard");
    refused(CALLS, "Rattle.rules.specs.Rules", "Rattle.rules.specs.Unheard", "has no file");
    refused(PUBLIC, "answer x", "unheard x", "unheard is nowhere to be found");
    refused(PUBLIC, "pub fn call", "pub union call", "no item that is known");
}
