//! The border to the system: pipes, streams that are closed, interrupts, terminals.

mod common;

use std::ffi::{c_char, c_int, CStr};
use std::fs::{self, File, OpenOptions};
use std::io::Read;
use std::os::fd::{FromRawFd, OwnedFd};
use std::os::unix::process::ExitStatusExt;
use std::process::{Child, Command, Stdio};
use std::thread;
use std::time::{Duration, Instant};

use common::{folder, program, root, run, table, Run};

extern "C" {
    fn mkfifo(path: *const c_char, mode: u32) -> c_int;
    fn posix_openpt(flags: c_int) -> c_int;
    fn grantpt(terminal: c_int) -> c_int;
    fn unlockpt(terminal: c_int) -> c_int;
    fn ptsname(terminal: c_int) -> *const c_char;
    fn kill(process: c_int, signal: c_int) -> c_int;
    fn signal(number: c_int, handler: usize) -> usize;
}

const READ_AND_WRITE: c_int = 2; // O_RDWR
const INTERRUPT: c_int = 2; // SIGINT
const DEFAULT: usize = 0; // SIG_DFL

/// A new pipe with a name.
fn pipe(name: &str) -> String {
    let path = folder("pipes").join(name);
    let path = path.to_str().unwrap().to_string();
    let name = std::ffi::CString::new(path.clone()).unwrap();
    // SAFETY: the name ends with a NUL.
    assert_eq!(unsafe { mkfifo(name.as_ptr(), 0o600) }, 0);
    path
}

/// A terminal: the side that a person sees, and the side that a program writes to.
fn terminal() -> (File, File) {
    // SAFETY: each call is handed the terminal that was opened, and the name is read before the next call.
    unsafe {
        let seen = posix_openpt(READ_AND_WRITE);
        assert!(seen >= 0 && grantpt(seen) == 0 && unlockpt(seen) == 0);
        let name = CStr::from_ptr(ptsname(seen)).to_str().unwrap().to_string();
        let written = OpenOptions::new().read(true).write(true).open(name).unwrap();
        (File::from(OwnedFd::from_raw_fd(seen)), written)
    }
}

/// What a terminal shows until its programs have ended.
fn shown(mut seen: File) -> String {
    let mut bytes = Vec::new();
    let mut buffer = [0; 4096];
    while let Ok(count @ 1..) = seen.read(&mut buffer) {
        bytes.extend(&buffer[..count]);
    }
    String::from_utf8(bytes).unwrap().replace("\r\n", "\n")
}

#[test]
fn a_pipe_without_a_writer_is_told_and_not_waited_for() {
    let path = pipe("unwritten");
    let start = Instant::now();
    for args in [&["evaluate", "kuhn", "2", "1", &path][..], &["f64", "kuhn", "2", &path], &["evaluate", &path]] {
        let told = run(args);
        assert_eq!(
            (told.status, told.err),
            (1, format!("chukkanalli: {path}: this is a pipe that nobody writes to\n"))
        );
    }
    let list = run(["evaluate", "kuhn", "2", "1", "--files-from", &path]);
    assert_eq!((list.status, list.err), (1, format!("chukkanalli: {path}: this list names no file\n")));
    assert!(start.elapsed() < Duration::from_secs(20));
}

#[test]
fn a_pipe_with_a_slow_writer_is_read_to_its_end() {
    let sample = fs::read(root().join("samples/one-in-three.txt")).unwrap();
    let expected = run(["evaluate", "kuhn", "2", "3", "samples/one-in-three.txt"]).out;
    let script = "exec \"$0\" evaluate kuhn 2 3 <(cat \"$1\"; sleep 0.2; cat \"$2\")";
    let (front, back) = sample.split_at(sample.len() / 2);
    let (front, back) = (table("front.txt", front), table("back.txt", back));
    let output =
        Command::new("bash").args(["-c", script, env!("CARGO_BIN_EXE_chukkanalli"), &front, &back]).output().unwrap();
    let run = Run::from(output);
    assert_eq!((run.status, run.err.as_str()), (0, ""));
    let behind = |text: &str| text.split_once(": ").unwrap().1.to_string();
    assert_eq!(behind(&run.out), behind(&expected));
}

#[test]
fn a_closed_standard_output_is_an_error() {
    for line in ["--version", "evaluate kuhn 2 1 samples/always-pass.txt", "template kuhn 2 1 --format csv"] {
        let script = format!("exec \"$0\" {line} >&-");
        let output = Command::new("sh")
            .current_dir(root())
            .args(["-c", &script, env!("CARGO_BIN_EXE_chukkanalli")])
            .output()
            .unwrap();
        let run = Run::from(output);
        assert_eq!(
            (run.status, run.err.as_str()),
            (1, "chukkanalli: the output cannot be written: it is closed\n"),
            "{line}"
        );
    }
    let null = File::options().read(true).write(true).open("/dev/null").unwrap();
    let run = program().args(["--version"]).stdout(null).status().unwrap();
    assert!(run.success());
}

/// Starts a long run whose complaints go to a stream.
fn long_run(err: impl Into<Stdio>) -> Child {
    let text = run(["template", "kuhn", "6", "16"]).out.replace("\n0 ", "\n16 ");
    let own = folder("long");
    for k in 0..8 {
        fs::write(own.join(format!("{k}.txt")), &text).unwrap();
    }
    program().arg("ladder").arg(&own).stdout(Stdio::null()).stderr(err).spawn().unwrap()
}

#[test]
fn an_interrupt_ends_the_line_of_progress_and_the_status_says_so() {
    // SAFETY: nothing in this process handles the signal. In the background of a shell the tests are handed one that is ignored, and hand that on.
    unsafe { signal(INTERRUPT, DEFAULT) };
    let (mut seen, written) = terminal();
    let mut child = long_run(written);
    let mut drawn = String::new();
    while !drawn.contains("of 8 done") {
        let mut buffer = [0; 64];
        let count = seen.read(&mut buffer).unwrap();
        drawn += std::str::from_utf8(&buffer[..count]).unwrap();
    }
    // SAFETY: the child has not been waited for, so that its number is its own.
    assert_eq!(unsafe { kill(child.id() as c_int, INTERRUPT) }, 0);
    let status = child.wait().unwrap();
    assert_eq!(status.signal(), Some(INTERRUPT));
    drawn += &shown(seen);
    assert!(drawn.ends_with(" done\n"), "{drawn:?}");
}

#[test]
fn a_refusal_is_printed_once_on_a_terminal() {
    let refused = "samples/always-pass.txt:5: refused with 8: ";
    let line = ["ladder", "kuhn", "2", "3", "samples/always-pass.txt", "samples/equilibrium.txt"];
    let (seen, written) = terminal();
    let mut child = program().args(line).stdout(written.try_clone().unwrap()).stderr(written).spawn().unwrap();
    let text = thread::spawn(|| shown(seen));
    assert_eq!(child.wait().unwrap().code(), Some(1));
    let text = text.join().unwrap();
    assert_eq!(text.matches(refused).count(), 1, "{text}");
    assert!(text.contains(&format!("not ranked:\n{refused}")), "{text}");
    let piped = run(line);
    assert!(piped.out.contains(refused) && piped.err.contains(refused));
}

#[test]
fn five_descriptors_are_enough() {
    let script = "ulimit -n 5; exec \"$0\" ladder kuhn 2 1 samples/always-pass.txt nowhere.txt --jobs 1";
    let output =
        Command::new("sh").current_dir(root()).args(["-c", script, env!("CARGO_BIN_EXE_chukkanalli")]).output();
    let run = Run::from(output.unwrap());
    assert_eq!(run.err, "chukkanalli: nowhere.txt: there is no such file\n");
    assert!(run.out.contains("   1        12 "), "{}", run.out);
}

#[test]
fn escapes_and_marks_of_direction_are_written_out() {
    let own = folder("escapes");
    let name = own.join("a\u{1b}[2Jb\u{202e}c");
    fs::write(&name, "x").unwrap();
    let told = run([std::ffi::OsStr::new("evaluate"), "kuhn".as_ref(), "2".as_ref(), "1".as_ref(), name.as_os_str()]);
    assert!(told.err.contains(r"a\u{1b}[2Jb\u{202e}c:1: "), "{}", told.err);
    let odd = table("odd-word.txt", "1\u{202e}0");
    assert!(run(["evaluate", "kuhn", "2", "1", &odd]).err.contains(r"'1\u{202e}0' is not a whole number"));
}
