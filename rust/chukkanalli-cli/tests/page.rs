//! `ladder --html` and `--reasons`: the page of a class, and what is sent back.

mod common;

use std::fs;
use std::path::{Path, PathBuf};
use std::process::Command;

use common::{folder, program, run, run_line, Run};

/// A class's hand-ins: 40 tables of Kuhn 2 with D 3, and 10 that are refused. Some names are odd.
fn class(name: &str) -> PathBuf {
    let hand_ins = folder(name);
    let template = run_line("template kuhn 2 3").out;
    for k in 0..40 {
        let mut set = 0;
        let lines = template.lines().map(|line| {
            if !line.starts_with("0 0 ") {
                return line.to_string();
            }
            set += 1;
            let part = (k * set + set / 3 + k / 7) % 4;
            line.replacen("0 0", &format!("{part} {}", 3 - part), 1)
        });
        let text: Vec<String> = lines.collect();
        let odd = if k == 7 { "<b>it's & \"mine\"</b>".to_string() } else { format!("student-{k:02}") };
        fs::write(hand_ins.join(format!("{}.txt", odd.replace('/', "\u{2215}"))), text.join("\n")).unwrap();
    }
    for k in 0..10 {
        let text = if k % 2 == 0 { template.clone() } else { template.replacen("0 0", "x 0", 1) };
        fs::write(hand_ins.join(format!("refused-{k}.txt")), text).unwrap();
    }
    hand_ins
}

/// Runs the ladder of a class at a fixed time, with more arguments.
fn ladder(hand_ins: &Path, more: &[&str]) -> Run {
    let mut command = program();
    command.env("SOURCE_DATE_EPOCH", "1795132800").args(["ladder", "kuhn", "2", "3"]).arg(hand_ins).args(more);
    command.output().unwrap().into()
}

/// Holds the elements of a page to their nesting, and gives the text of all.
fn nested(html: &str) -> String {
    let mut open: Vec<String> = Vec::new();
    let mut text = String::new();
    for part in html.split('<').skip(1) {
        let (tag, behind) = part.split_once('>').expect("each tag ends");
        let name = tag.trim_start_matches('/').split(' ').next().unwrap();
        if tag.starts_with('/') {
            assert_eq!(open.pop().as_deref(), Some(name), "{tag}");
        } else if !["!DOCTYPE", "meta"].contains(&name) {
            open.push(name.to_string());
        }
        if open.last().is_none_or(|name| name != "style") {
            text += behind;
        }
    }
    assert_eq!(open, Vec::<String>::new());
    text.replace("&lt;", "<").replace("&gt;", ">").replace("&quot;", "\"").replace("&#39;", "'").replace("&amp;", "&")
}

#[test]
fn a_page_shows_the_standing_the_leader_and_what_was_refused() {
    let (hand_ins, out) = (class("page-class"), folder("page-out"));
    let (page, reasons) = (out.join("ladder.html"), out.join("reasons"));
    let plain = ladder(&hand_ins, &[]);
    let options = ["--html", page.to_str().unwrap(), "--reasons", reasons.to_str().unwrap()];
    assert_eq!(ladder(&hand_ins, &options), plain);
    let html = fs::read_to_string(&page).unwrap();
    let text = nested(&html);
    assert_eq!(html.matches("<th scope=\"row\">").count(), 40);
    for line in plain.out.lines().skip(3).take_while(|line| !line.is_empty()) {
        let cells: Vec<&str> = line.split_whitespace().collect();
        assert!(html.contains(&format!(
            "<td class=\"n\">{}</td><td class=\"n\">{}</td><td class=\"n\">{}</td>",
            cells[1], cells[2], cells[3]
        )));
    }
    assert!(text.contains("/<b>it's & \"mine\"<\u{2215}b>.txt") && !html.contains("<b>"));
    assert!(text.contains("40 tables ranked, 10 not ranked.") && text.contains("162 units are one chip per hand."));
    assert!(text.contains(", 2026-11-20 00:00 UTC\n"));

    let leader = plain.out.lines().nth(3).unwrap().split_whitespace().nth(4).unwrap();
    let explained = run(["explain", "kuhn", "2", "3", leader]).out;
    let sentences: Vec<&str> = explained.lines().filter(|line| line.starts_with("With ")).collect();
    assert!(!sentences.is_empty());
    assert!(sentences.iter().all(|sentence| text.contains(sentence)), "{sentences:?}");

    let mut written: Vec<_> = fs::read_dir(&reasons).unwrap().map(|entry| entry.unwrap().path()).collect();
    written.sort();
    assert_eq!(written.len(), 10);
    for (k, path) in written.iter().enumerate() {
        assert!(path.ends_with(format!("refused-{k}.txt.reasons.txt")), "{path:?}");
        let told = fs::read_to_string(path).unwrap();
        let said = if k % 2 == 0 { "line 5: refused with 8: " } else { "line 5: 'x' is not a whole number" };
        assert!(
            told.contains(&format!(
                "refused-{k}.txt was not ranked. It was read as a table of Kuhn with 2 seats, D 3.\n\n{said}"
            )),
            "{told}"
        );
        assert!(told.lines().skip(2).all(|line| text.contains(line)), "{told}");
    }
}

#[test]
fn a_page_that_cannot_be_written_is_told() {
    let line = "ladder kuhn 2 3 samples/equilibrium.txt";
    let plain = run_line(line);
    for option in ["--html nowhere/page.html", "--reasons /dev/null/reasons"] {
        let told = run_line(&format!("{line} {option}"));
        assert_eq!((told.status, &told.out), (1, &plain.out));
        assert!(told.err.contains(": this cannot be written: "), "{}", told.err);
    }
    let out = folder("page-none");
    let page = out.join("page.html").to_str().unwrap().to_string();
    let none = run(["ladder", "kuhn", "2", "3", "nowhere.txt", "--html", &page]);
    assert_eq!(none.status, 1);
    let text = nested(&fs::read_to_string(page).unwrap());
    assert!(text.contains("0 tables ranked, 1 not ranked.") && text.contains("there is no such file"), "{text}");
}

/// The browsers that print what they show.
const BROWSERS: [&str; 4] = ["chromium", "chromium-browser", "google-chrome", "google-chrome-stable"];

#[test]
fn a_browser_shows_the_page() {
    let found = BROWSERS.into_iter().find(|name| Command::new(name).arg("--version").output().is_ok());
    let Some(browser) = found else {
        println!("skipped: the page in a browser (none of {} is installed)", BROWSERS.join(", "));
        return;
    };
    let (hand_ins, out) = (class("browser-class"), folder("browser-out"));
    let page = out.join("ladder.html");
    ladder(&hand_ins, &["--html", page.to_str().unwrap()]);
    let options = ["--headless", "--no-sandbox", "--disable-gpu", "--dump-dom"];
    let shown = Command::new(browser).args(options).arg(format!("file://{}", page.display())).output().unwrap();
    if !shown.status.success() {
        println!("skipped: the page in a browser ({browser} does not start)");
        return;
    }
    let shown = String::from_utf8_lossy(&shown.stdout).into_owned();
    assert_eq!(shown.matches("<th scope=\"row\">").count(), 40, "{shown}");
    assert!(shown.contains("Not ranked") && !shown.contains("<b>"), "{shown}");
}
