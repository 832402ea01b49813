//! What `make run` and `make test` show while crates are proved: scripts/ with an rt that proves nothing and takes no time.

mod common;

use std::fs;
use std::path::{Path, PathBuf};
use std::process::Command;

use common::{folder_outside, root, Run};

/// An rt that proves as the real one does, in the folder of a static library what that depends on and itself, at the top each crate. `rt ci` leaves its
/// libraries without a stamp, and `rt lib` takes those alone that have one. Beside it stands a rattle, which builds an archive over what is there.
const RT: &str = r#"#!/bin/sh
verb=$1; shift
kit=$(dirname "$(dirname "$0")")
prove() { # NAME LIBRARY
    test "$1" = "$REFUSED" && { echo "error: no proof"; echo "logic=not-proved"; exit 1; }
    sleep 0.1; echo "fn $1::f: proved"; echo "logic=proved functions=1"
    mkdir -p "$2"; touch "$2/format"
}
case $verb in
doc) echo "$kit/START-HERE.md" ;;
lib)
    for crate in low middle; do
        test -f "../$crate/out/rlib/stamp" && continue
        prove "$crate" "../$crate/out/rlib/$crate.rlib"; touch "../$crate/out/rlib/stamp"
    done
    prove top out; echo 'by rt lib' >out/libtop.a ;;
ci)
    for crate in $(sed -n 's/^\([a-z]*\)[a-z ]*:.*/\1/p' crates.txt); do
        echo "== $crate"
        if test "$crate" = "$REFUSED"; then echo "error: no proof"; echo "rt: $crate NOT PROVED"; echo "3 passed, 1 failed"; exit 1; fi
        echo "rt: chose --jobs 2 for $crate"; echo "fn $crate::f: proved"; mkdir -p "crates/$crate/out/rlib/$crate.rlib"
        case $crate in low) echo "rt: low is kept: an earlier run" ;; *) echo "rt: $crate proved" ;; esac
        echo "rt: $crate: its tests are proved"
    done
    echo "rt: must-fail low/1.edit: refused, as it must be"
    echo "rt: ok; handles allowed: none; must-fail edits: 1 refused$BAD; every proof was done in this run"
    echo "5 passed, 0 failed" ;;
esac
"#;

/// One that fails where a library is missing.
const RATTLE: &str = r#"#!/bin/sh
test -d ../low/out/rlib/low.rlib && test -d ../middle/out/rlib/middle.rlib || exit 1
for words in '--extern middle=../middle/out/rlib/middle.rlib' '-L dependency=../low/out/rlib' '--crate-type staticlib' '-o out/libtop.a'; do
    case " $* " in *" $words "*) ;; *) exit 1 ;; esac
done
test "$REFUSED" != rattle || exit 1
echo "logic=proved functions=1"; echo 'by rattle' >out/libtop.a
"#;

/// A repository of three crates and one that nothing needs.
fn repository(name: &str) -> PathBuf {
    let own = folder_outside(name);
    fs::write(own.join("crates.txt"), "# Each crate.\nlow:\nother:\nmiddle: low\ntop staticlib: middle\n").unwrap();
    for crate_name in ["low", "other", "middle", "top"] {
        fs::create_dir_all(own.join("crates").join(crate_name).join("src")).unwrap();
        fs::write(own.join("crates").join(crate_name).join("src/lib.rt"), "fn f() {}\n".repeat(20_000)).unwrap();
    }
    fs::create_dir(own.join("bin")).unwrap();
    for (program, text) in [("bin/rt", RT), ("bin/rattle", RATTLE)] {
        fs::write(own.join(program), text).unwrap();
        assert!(Command::new("chmod").arg("+x").arg(own.join(program)).status().unwrap().success());
    }
    own
}

fn run_in(own: &Path, script: &str, refused: &str) -> Run {
    let path = format!("{}:{}", own.join("bin").display(), std::env::var("PATH").unwrap());
    let script = script.replace("SCRIPTS", root().join("scripts").to_str().unwrap());
    let mut command = Command::new("sh");
    command.current_dir(own).env("PATH", path).env("REFUSED", refused).args(["-c", &script]);
    command.output().unwrap().into()
}

const PROVE: &str = "SCRIPTS/prove.sh top build/log";

fn archive(own: &Path) -> String {
    fs::read_to_string(own.join("target/staticlib/libtop.a")).unwrap()
}

#[test]
fn the_archive_is_counted_and_made_again_without_a_proof() {
    let own = repository("proving");
    let first = run_in(&own, PROVE, "");
    let lines: Vec<&str> = first.out.lines().collect();
    assert_eq!(first.status, 0, "{first:?}");
    let minutes = (3_u64 * 12 + 60_000 / 110).div_ceil(60);
    let said =
        format!("proving 3 crates, which takes about {minutes} minutes and is needed once; build/log has what rt says");
    assert_eq!(lines[0], said);
    assert!(lines[lines.len() - 1].starts_with("3 of 3 proved, 0:"), "{lines:?}");
    assert!(archive(&own) == "by rt lib\n" && !own.join("crates/other/out").exists());
    let again = run_in(&own, PROVE, "");
    assert_eq!((again.status, again.out.as_str(), again.err.as_str()), (0, "", ""));
}

#[test]
fn what_depends_on_a_changed_crate_is_counted_too() {
    let own = repository("proving-changed");
    assert_eq!(run_in(&own, PROVE, "").status, 0);
    fs::write(own.join("crates/middle/src/lib.rt"), "fn g() {}\n").unwrap();
    let changed = run_in(&own, &format!("rm crates/middle/out/rlib/stamp; {PROVE}"), "");
    assert!(changed.out.starts_with("proving 2 crates, "), "{changed:?}");
    assert!(changed.out.contains("\n2 of 2 proved, 0:"), "{changed:?}");
}

#[test]
fn a_crate_that_is_not_proved_is_told_with_all_that_rt_says() {
    let own = repository("proving-refused");
    let refused = run_in(&own, PROVE, "middle");
    assert_eq!(refused.status, 1);
    assert!(refused.out.ends_with("error: no proof\nlogic=not-proved\n"), "{refused:?}");
    assert!(!own.join("target/staticlib/libtop.a").exists());
}

#[test]
fn the_gate_counts_likewise() {
    let own = repository("proving-gate");
    let gate = run_in(&own, "SCRIPTS/gate.sh build", "");
    let lines: Vec<&str> = gate.out.lines().map(|line| line.split([',', ';']).next().unwrap()).collect();
    let proved = ["1 of 4 proved", "2 of 4 proved", "3 of 4 proved", "4 of 4 proved"];
    assert_eq!((gate.status, &lines[..4]), (0, &proved[..]), "{gate:?}");
    assert_eq!(lines[4..], ["rt: must-fail low/1.edit: refused", "rt: ok"]);
    assert!(fs::read_to_string(own.join("build/ci.log")).unwrap().ends_with("5 passed, 0 failed\n"));
}

#[test]
fn the_gate_fails_with_rt_and_where_an_edit_is_bad() {
    let own = repository("proving-gate-refused");
    let refused = run_in(&own, "SCRIPTS/gate.sh build", "middle");
    assert!(refused.status != 0 && refused.out.ends_with("rt: middle NOT PROVED\n3 passed, 1 failed\n"), "{refused:?}");
    let bad = run_in(&own, "BAD=', 1 bad' SCRIPTS/gate.sh build", "");
    assert!(bad.status != 0 && bad.err.contains("an edit is bad"), "{bad:?}");
    // An edit that only a limit refuses is refused.
    assert_eq!(run_in(&own, "BAD=', 1 of them only by a limit' SCRIPTS/gate.sh build", "").status, 0);
}

#[test]
fn behind_the_gate_the_archive_is_built_over_its_libraries() {
    let own = repository("proving-behind");
    let built = run_in(&own, &format!("SCRIPTS/gate.sh build >/dev/null; {PROVE}"), "");
    assert_eq!((built.status, built.out.as_str(), archive(&own).as_str()), (0, "", "by rattle\n"), "{built:?}");
    // Where that fails, as the libraries are of another rattle, and where a file has changed since, they are proved.
    let refused = run_in(&own, PROVE, "rattle");
    assert!(refused.out.starts_with("proving 3 crates, ") && archive(&own) == "by rt lib\n", "{refused:?}");
    let own = repository("proving-behind-changed");
    fs::write(own.join("change"), "sleep 0.1; echo 'fn g() {}' >crates/low/src/lib.rt").unwrap();
    let changed = run_in(&own, &format!("SCRIPTS/gate.sh build >/dev/null; sh change; {PROVE}"), "");
    assert!(changed.out.starts_with("proving 3 crates, ") && archive(&own) == "by rt lib\n", "{changed:?}");
    // rt puts the libraries of an earlier run back, so a later gate says nothing of them.
    let later = run_in(&own, &format!("SCRIPTS/gate.sh build >/dev/null; touch crates/low/src/lib.rt; {PROVE}"), "");
    assert_eq!((later.status, archive(&own).as_str()), (0, "by rt lib\n"), "{later:?}");
}
