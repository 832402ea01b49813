//! Many files: folders, lists, standard input, names that are not text, and tables that are the same.

mod common;

use std::ffi::{OsStr, OsString};
use std::fs;
use std::io::Write;
use std::os::unix::ffi::OsStrExt;
use std::os::unix::fs::symlink;
use std::path::Path;
use std::process::Stdio;

use common::{folder, folder_outside, program, run, run_line, table, Run};

const ALWAYS_PASS: &str = "samples/always-pass.txt";

/// Runs some words with something on standard input.
fn run_with(args: &[&OsStr], input: &[u8]) -> Run {
    let mut child = program();
    child.args(args).stdin(Stdio::piped()).stdout(Stdio::piped()).stderr(Stdio::piped());
    let mut child = child.spawn().unwrap();
    child.stdin.take().unwrap().write_all(input).unwrap();
    child.wait_with_output().unwrap().into()
}

fn words(line: &str) -> Vec<&OsStr> {
    line.split(' ').map(OsStr::new).collect()
}

/// A table of Kuhn with 2 seats and D 12 that differs with k.
fn bare(k: usize) -> String {
    (0..12).map(|set| format!("{} {}\n", (k >> set) % 2, 12 - (k >> set) % 2)).collect()
}

#[test]
fn a_folder_stands_for_the_files_right_in_it() {
    let own = folder("right-in-it");
    for (k, name) in ["b.txt", "a.txt", ".hidden", "c"].iter().enumerate() {
        fs::write(own.join(name), bare(k)).unwrap();
    }
    fs::create_dir(own.join("sub")).unwrap();
    fs::write(own.join("sub/d.txt"), bare(7)).unwrap();
    let own = own.to_str().unwrap();
    let files = ["a.txt", "b.txt", "c"].map(|name| format!("{own}/{name}"));
    for verb in ["evaluate", "ladder"] {
        let by_names = run([&[verb, "kuhn", "2", "12"][..], &files.each_ref().map(String::as_str)].concat());
        assert_eq!((by_names.status, by_names.err.as_str()), (0, ""));
        assert_eq!(run([verb, "kuhn", "2", "12", own]), by_names);
        assert_eq!(
            run([verb, "kuhn", "2", "12", &format!("{own}/")]).out.lines().count(),
            by_names.out.lines().count()
        );
    }
    let empty = folder("nothing-in-it");
    let empty = empty.to_str().unwrap();
    let told = run(["evaluate", "kuhn", "2", "12", empty]);
    assert_eq!((told.status, told.err), (1, format!("chukkanalli: {empty}: this folder has no file in it\n")));
    let help = run_line("ladder --help").out;
    assert!(help.contains("subfolders and hidden files"), "{help}");
}

#[test]
fn a_list_names_files_by_lines_or_nuls() {
    let own = folder("listed");
    let names: Vec<String> = (0..5).map(|k| format!("{}/{k}.txt", own.display())).collect();
    for (k, name) in names.iter().enumerate() {
        fs::write(name, bare(k)).unwrap();
    }
    let expected =
        run([&["ladder", "kuhn", "2", "12"][..], &names.iter().map(String::as_str).collect::<Vec<_>>()].concat());
    assert_eq!(expected.status, 0);
    for (kind, list) in
        [("lf", names.join("\n")), ("crlf", names.join("\r\n") + "\r\n\r\n"), ("nul", names.join("\0") + "\0")]
    {
        let file = table(&format!("list-{kind}"), &list);
        assert_eq!(run(["ladder", "kuhn", "2", "12", "--files-from", &file]), expected, "{kind}");
        assert_eq!(run_with(&words("ladder kuhn 2 12 --files-from -"), list.as_bytes()), expected, "{kind}");
        assert_eq!(run(["ladder", "kuhn", "2", "12", &names[0], &format!("--files-from={file}")]).out, expected.out);
    }
    let none = table("list-none", "\n\n");
    let told = run(["ladder", "kuhn", "2", "12", "--files-from", &none]);
    assert_eq!((told.status, told.err), (1, format!("chukkanalli: {none}: this list names no file\n")));
    let missing = run_line("ladder kuhn 2 12 --files-from nowhere");
    assert_eq!((missing.status, missing.err.as_str()), (1, "chukkanalli: nowhere: there is no such file\n"));
}

#[test]
fn one_ladder_is_one_ladder_however_many_tables_there_are() {
    let own = folder("many");
    for k in 0..3000 {
        fs::write(own.join(format!("{k:05}")), bare(k)).unwrap();
    }
    let list: Vec<String> = (0..3000).map(|k| format!("{}/{k:05}", own.display())).collect();
    let ladder = run_with(&words("ladder kuhn 2 12 --files-from -"), list.join("\n").as_bytes());
    assert_eq!((ladder.status, ladder.err.as_str()), (0, ""));
    assert_eq!(ladder.out.lines().count(), 3 + 3000);
    assert_eq!(run(["ladder", "kuhn", "2", "12", own.to_str().unwrap()]), ladder);
}

#[test]
fn a_dash_is_standard_input_where_a_table_is_expected() {
    let sample = fs::read(common::root().join(ALWAYS_PASS)).unwrap();
    for line in ["evaluate kuhn 2 1", "reply kuhn 2 1", "f64 kuhn 2", "ladder kuhn 2 1"] {
        let behind = if line.starts_with("reply") { " 0" } else { "" };
        let named = run_line(&format!("{line} {ALWAYS_PASS}{behind}"));
        let piped = run_with(&words(&format!("{line} -{behind}")), &sample);
        assert_eq!((piped.status, piped.err.as_str()), (0, ""));
        let piped = piped.out.replace("standard input", ALWAYS_PASS);
        assert_eq!(piped.trim_end(), named.out.trim_end(), "{line}");
    }
    let twice = run_with(&words("evaluate kuhn 2 1 - -"), &sample);
    assert_eq!(
        (twice.status, twice.err.as_str()),
        (0, "chukkanalli: standard input is named twice, and is read once\n")
    );
    assert_eq!(run_line("evaluate kuhn 2 1 ./-").err, "chukkanalli: ./-: there is no such file\n");
    let headed = run_line("template kuhn 2 1").out.replace("\n0 ", "\n1 ");
    assert_eq!(run_with(&words("evaluate -"), headed.as_bytes()).status, 0);
}

#[test]
fn the_same_table_is_marked_and_the_same_file_is_told() {
    let (first, second) = (table("same-1.txt", "1 0\n".repeat(12)), table("same-2.txt", "1 0 ".repeat(12)));
    let evaluated = run(["evaluate", "kuhn", "2", "1", &first, ALWAYS_PASS, &second]);
    assert_eq!((evaluated.status, evaluated.err.as_str()), (0, ""));
    let headings: Vec<&str> = evaluated.out.lines().filter(|line| line.contains(" units, ")).collect();
    assert!(headings[0].ends_with(" units, read by position"), "{}", headings[0]);
    assert!(headings[1].ends_with(&format!("read by labels, same table as {first}")), "{}", headings[1]);
    assert!(headings[2].ends_with(&format!("read by position, same table as {first}")), "{}", headings[2]);
    let ladder = run(["ladder", "kuhn", "2", "1", &first, ALWAYS_PASS]);
    assert!(ladder.out.contains(&format!("same table as {first}\n")), "{}", ladder.out);
    let link = folder_outside("linked").join("link");
    symlink(&first, &link).unwrap();
    let link = link.to_str().unwrap();
    let twice = run(["evaluate", "kuhn", "2", "1", &first, &first, link]);
    let told = |name: &str| format!("chukkanalli: {name}: this file is named twice, and is taken once\n");
    assert_eq!((twice.status, twice.err), (0, told(&first) + &told(link)));
    assert_eq!(twice.out, run(["evaluate", "kuhn", "2", "1", &first]).out);
}

#[test]
fn names_that_are_not_text_never_look_alike() {
    let own = folder("odd-names");
    let names: [&[u8]; 4] = [b"a\xff", b"a\xfe", b"a\\xff", b"a\xef\xbf\xbd"];
    for (k, name) in names.iter().enumerate() {
        fs::write(own.join(OsStr::from_bytes(name)), bare(k)).unwrap();
    }
    let ladder = run(["ladder", "kuhn", "2", "12", own.to_str().unwrap()]);
    assert_eq!(ladder.status, 0);
    for shown in [r"/a\xff ", r"/a\xfe ", r"/a\\xff ", "/a\u{fffd} "] {
        assert_eq!(ladder.out.matches(shown).count(), 1, "{shown} in {}", ladder.out);
    }
}

#[test]
fn files_are_read_as_they_come_in_a_loop_of_links_or_a_list() {
    let own = folder_outside("loop");
    symlink(&own, own.join("again")).unwrap();
    symlink(own.join("round"), own.join("round")).unwrap();
    fs::write(own.join("t"), bare(1)).unwrap();
    let told = run(["evaluate", "kuhn", "2", "12", own.to_str().unwrap()]);
    assert_eq!((told.status, told.err.lines().count()), (1, 1));
    assert!(told.err.contains("/round: this file cannot be read: "), "{}", told.err);
    assert!(told.out.contains("/t: Kuhn"), "{}", told.out);
    let args: Vec<OsString> = ["evaluate", "kuhn", "2", "12", "--files-from"].map(OsString::from).to_vec();
    let list = run([&args[..], &[Path::new("/").as_os_str().to_os_string()]].concat());
    assert_eq!(list.status, 1, "{}", list.err);
}
