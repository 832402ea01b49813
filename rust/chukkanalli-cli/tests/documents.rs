//! The documents show what the programs print and answer: each command line, each C block and each Rust block of README.md and docs/API.md,
//! run anew, and the command lines of docs/TABLES.md and docs/TUTORIAL.md.

mod common;

use std::fs;
use std::process::Command;

use chukkanalli::{Evaluator, Game, Refusal};
use common::{folder, root, run_line};

fn document(name: &str) -> String {
    fs::read_to_string(root().join(name)).expect("the document can be read")
}

/// The command lines of a document, each with the lines that follow it in its block.
fn examples(text: &str) -> Vec<(String, String)> {
    let mut examples: Vec<(String, String)> = Vec::new();
    let mut in_block = false;
    let mut in_example = false;
    for line in text.lines() {
        if line.starts_with("```") {
            in_block = !in_block;
            in_example = false;
        } else if let (true, Some(command)) = (in_block, line.strip_prefix("$ chukkanalli ")) {
            examples.push((command.to_string(), String::new()));
            in_example = true;
        } else if in_example {
            let shown = &mut examples.last_mut().expect("an example has begun").1;
            *shown += line;
            shown.push('\n');
        }
    }
    examples
}

fn check(name: &str, at_least: usize) {
    let examples = examples(&document(name));
    assert!(examples.len() >= at_least, "{name} has {} examples", examples.len());
    for (command, shown) in examples {
        let run = run_line(&command);
        let printed = run.err + &run.out;
        assert_eq!(shown.trim_end(), printed.trim_end(), "{name}: chukkanalli {command}");
    }
}

#[test]
fn the_readme_shows_what_is_printed() {
    check("README.md", 2);
}

#[test]
fn the_api_shows_what_is_printed() {
    check("docs/API.md", 8);
}

#[test]
fn the_format_of_tables_shows_what_is_told() {
    check("docs/TABLES.md", 1);
}

#[test]
fn the_tutorial_shows_what_is_printed() {
    check("docs/TUTORIAL.md", 3);
    let text = document("docs/TUTORIAL.md");
    let inline: Vec<&str> =
        text.split('`').skip(1).step_by(2).filter(|code| code.starts_with("chukkanalli ")).collect();
    assert!(inline.len() >= 6, "{inline:?}");
    for command in inline {
        let run = run_line(command.trim_start_matches("chukkanalli "));
        assert!(run.status < 2 && !run.out.is_empty(), "{command}: {}", run.err);
    }
    assert!(text.contains(document("samples/class/anna.txt").trim_end()));
}

/// The blocks of a document in a language.
fn blocks(text: &str, language: &str) -> Vec<String> {
    let open = format!("```{language}\n");
    text.split(&open[..]).skip(1).filter_map(|behind| behind.split("```").next()).map(str::to_string).collect()
}

/// Compiles a C program without a warning, and runs it.
fn run_c(name: &str, body: &str, holds: &[&str]) {
    let own = folder(&format!("c-{name}"));
    let checks: String =
        (1..).zip(holds).map(|(number, holds)| format!("    if (!({holds})) return {number};\n")).collect();
    let program = format!(
        "#include <chukkanalli.h>\n#include <stdlib.h>\n\nint main(void) {{\n{body}\n{checks}    return 0;\n}}\n"
    );
    fs::write(own.join("main.c"), program).unwrap();
    for level in ["-O0", "-O2"] {
        let built = Command::new("cc")
            .current_dir(&own)
            .args(["-std=c11", level, "-Wall", "-Wextra", "-Wno-unused-variable", "-Werror", "-I"])
            .arg(root().join("include"))
            .arg("main.c")
            .arg(archive().join("libchukkanalli.a"))
            .args(["-o", "program"])
            .output()
            .unwrap();
        assert!(built.status.success(), "{name} {level}: {}", String::from_utf8_lossy(&built.stderr));
        let status = Command::new(own.join("program")).status().unwrap();
        assert_eq!(status.code(), Some(0), "{name} {level}: the number says which claim does not hold: {holds:?}");
    }
}

/// The folder of the archive that the library is linked with.
fn archive() -> std::path::PathBuf {
    let given = std::env::var("ARCHIVE").ok().filter(|folder| !folder.is_empty());
    root().join(given.unwrap_or_else(|| "target/staticlib".to_string()))
}

#[test]
fn the_apis_c_answers_what_the_api_says() {
    let blocks = blocks(&document("docs/API.md"), "c");
    assert_eq!(blocks.len(), 4);
    run_c(
        "api-calls",
        &blocks[..2].concat(),
        &[
            "start.refusal == 0 && dealt.refusal == 0 && dealt.position.dealt == 1",
            "sets.refusal == 0 && sets.nodes == 58 && sets.sets == 12",
            "out[24] == 1 && out[25] == 3 && out[26] == 1 && out[27] == 1 && out[28] == 0",
            "held.worths[0] == 0 && held.worths[1] == 0",
            "best.value == 6 && conv.nash_conv == 12 && conv.units == 6",
        ],
    );
    run_c("api-memory", &blocks[2], &["sets.refusal == 0 && sets.nodes == CHUKKANALLI_LEDUC_NODES"]);
    run_c("api-values", &blocks[3], &["conv.refusal == 0 && conv.values[0] == 0.9166666666666666"]);
}

#[test]
fn the_apis_rust_answers_what_the_api_says() -> Result<(), Refusal> {
    // The block's lines, as they stand there.
    let mut evaluator = Evaluator::new(Game::Kuhn { seats: 2 })?;
    let always_pass = [1, 0].repeat(evaluator.counts().sets);
    let conv = evaluator.nash_conv_units(1, &always_pass)?;
    assert_eq!((conv.nash_conv, conv.units), (12, 6));
    assert_eq!(evaluator.nash_conv(&[1.0, 0.0].repeat(12))?, 2.0);

    let blocks = blocks(&document("docs/API.md"), "rust");
    let own = include_str!("documents.rs");
    for line in blocks.concat().lines().filter(|line| !line.is_empty() && !line.starts_with("use ")) {
        assert!(own.contains(&format!("\n    {line}\n")), "{line}");
    }
    assert_eq!(blocks.len(), 1);
    Ok(())
}

#[test]
fn the_apis_proved_program_is_the_sample() {
    let api = document("docs/API.md");
    let printed = document("crates/sample/stdout");
    let hand = printed.split("\nKuhn poker: 2 seats").next().unwrap().trim_end();
    assert!(api.contains(&format!("```\n{hand}\n```")), "{hand}");
    let blocks = blocks(&api, "rattle");
    let source = document("crates/sample/src/reply.rt");
    let words = |text: &str| text.split_whitespace().collect::<String>();
    for call in ["worths::worths(KuhnPoker::NUMBER", "best_reply::best_reply(KuhnPoker::NUMBER"] {
        assert!(blocks.concat().contains(call) && words(&source).contains(&words(call)), "{call}");
    }
}

#[test]
fn the_headers_counts_are_those_of_the_games() {
    let header = document("include/chukkanalli.h");
    let value = |name: &str| {
        let behind = header.split(&format!(" {name} = ")).nth(1).unwrap_or_else(|| panic!("{name} is missing"));
        behind.split([',', '\n', ' ']).next().unwrap().parse::<usize>().unwrap()
    };
    for (name, game) in
        (2..=6).map(|seats| (format!("KUHN_{seats}"), Game::Kuhn { seats })).chain([("LEDUC".to_string(), Game::Leduc)])
    {
        let counts = game.counts().unwrap();
        let told = ["NODES", "SETS", "ENTRIES"].map(|what| value(&format!("CHUKKANALLI_{name}_{what}")));
        assert_eq!(told, [counts.nodes, counts.sets, counts.entries], "{name}");
        let work = format!("CHUKKANALLI_{name}_WORK = CHUKKANALLI_WORDS * CHUKKANALLI_{name}_NODES");
        assert!(header.contains(&work), "{work}");
    }
    assert_eq!(value("CHUKKANALLI_WORDS"), 12);
}
