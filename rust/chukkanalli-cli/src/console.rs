//! What is read and printed: results on one stream; complaints, and on a terminal how many files are done, on another.

use std::fmt::Display;
use std::io::{self, Read, Write};

use crate::interrupt;

/// Which streams are terminals.
#[derive(Clone, Copy, Debug, Default, PartialEq, Eq)]
pub struct Terminals {
    pub out: bool,
    pub err: bool,
}

/// Standard input, and the two streams that are printed to.
pub struct Console<'a> {
    input: &'a mut dyn Read,
    out: &'a mut dyn Write,
    err: &'a mut dyn Write,
    terminals: Terminals,
    progress: Option<Progress>,
    complained: bool,
}

struct Progress {
    done: usize,
    total: usize,
    drawn: bool,
}

impl<'a> Console<'a> {
    pub fn new(input: &'a mut dyn Read, out: &'a mut dyn Write, err: &'a mut dyn Write, terminals: Terminals) -> Self {
        Console { input, out, err, terminals, progress: None, complained: false }
    }

    pub fn input(&mut self) -> &mut dyn Read {
        self.input
    }

    /// Prints a result, at once.
    pub fn print(&mut self, text: &str) -> io::Result<()> {
        self.wipe();
        self.out.write_all(text.as_bytes())?;
        self.out.flush()
    }

    /// Prints a complaint. Where even that fails, the status is all that is left to tell.
    pub fn complain(&mut self, sentence: impl Display) {
        self.complained = true;
        self.note(sentence);
    }

    /// Complains of what stands among the results too, unless both are seen on one terminal.
    pub fn complain_beside_results(&mut self, sentence: impl Display) {
        self.complained = true;
        if !(self.terminals.out && self.terminals.err) {
            self.note(sentence);
        }
    }

    /// Tells what is no fault.
    pub fn note(&mut self, sentence: impl Display) {
        self.wipe();
        let _ = writeln!(self.err, "chukkanalli: {sentence}");
        let _ = self.err.flush();
    }

    pub fn has_complained(&self) -> bool {
        self.complained
    }

    /// From here on so many files are to be done.
    pub fn expect(&mut self, total: usize) {
        if self.terminals.err {
            self.progress = Some(Progress { done: 0, total, drawn: false });
            self.draw();
        }
    }

    /// One more is done, evaluated or refused.
    pub fn count(&mut self) {
        if let Some(progress) = &mut self.progress {
            progress.done += 1;
            self.draw();
        }
    }

    /// All are done.
    pub fn end(&mut self) {
        self.wipe();
        self.progress = None;
    }

    /// Shows how far the work is.
    fn draw(&mut self) {
        if let Some(progress) = &mut self.progress {
            progress.drawn = true;
            interrupt::line_is_open(true);
            let _ = write!(self.err, "\r{} of {} done", progress.done, progress.total);
            let _ = self.err.flush();
        }
    }

    /// Takes a line of progress away.
    fn wipe(&mut self) {
        if let Some(progress) = self.progress.as_mut().filter(|progress| progress.drawn) {
            progress.drawn = false;
            let _ = write!(self.err, "\r\x1b[K");
            let _ = self.err.flush();
            interrupt::line_is_open(false);
        }
    }
}

#[cfg(test)]
mod tests {
    use super::*;

    /// What comes on both streams of a run.
    fn run(terminals: Terminals) -> (String, String) {
        let (mut out, mut err) = (Vec::new(), Vec::new());
        let mut input = io::empty();
        let mut console = Console::new(&mut input, &mut out, &mut err, terminals);
        console.expect(3);
        console.print("first\n").unwrap();
        console.count();
        console.complain("second");
        console.count();
        console.count();
        console.end();
        (String::from_utf8(out).unwrap(), String::from_utf8(err).unwrap())
    }

    #[test]
    fn progress_is_shown_on_a_terminal_and_taken_away() {
        let (out, err) = run(Terminals { out: false, err: true });
        assert_eq!(out, "first\n");
        assert_eq!(
            err,
            "\r0 of 3 done\r\x1b[K\r1 of 3 done\r\x1b[Kchukkanalli: second\n\r2 of 3 done\r3 of 3 done\r\x1b[K"
        );
    }

    #[test]
    fn a_pipe_gets_no_progress() {
        assert_eq!(run(Terminals::default()), ("first\n".to_string(), "chukkanalli: second\n".to_string()));
    }

    #[test]
    fn what_stands_among_the_results_is_seen_once_on_a_terminal() {
        for (out, err, seen) in [(false, false, true), (true, false, true), (false, true, true), (true, true, false)] {
            let (mut results, mut complaints, mut input) = (Vec::new(), Vec::new(), io::empty());
            let mut console = Console::new(&mut input, &mut results, &mut complaints, Terminals { out, err });
            console.complain_beside_results("refused");
            assert!(console.has_complained());
            assert_eq!(!complaints.is_empty(), seen);
        }
    }
}
