//! The program `chukkanalli`.

mod closed;

use std::env;
use std::ffi::OsString;
use std::io::{self, BufWriter, IsTerminal, Write};
use std::process::ExitCode;

use chukkanalli_cli::console::{Console, Terminals};
use chukkanalli_cli::interrupt;

fn main() -> ExitCode {
    interrupt::end_lines();
    let args: Vec<OsString> = env::args_os().skip(1).collect();
    let (mut input, mut err) = (io::stdin(), io::stderr());
    let terminals = Terminals { out: io::stdout().is_terminal(), err: err.is_terminal() };
    let mut out: Box<dyn Write> =
        if closed::out_was_closed() { Box::new(Closed) } else { Box::new(BufWriter::new(io::stdout())) };
    ExitCode::from(chukkanalli_cli::run(&args, &mut Console::new(&mut input, &mut out, &mut err, terminals)))
}

/// A standard output that was closed from the start.
struct Closed;

impl Write for Closed {
    fn write(&mut self, _: &[u8]) -> io::Result<usize> {
        Err(io::Error::other("it is closed"))
    }

    fn flush(&mut self) -> io::Result<()> {
        Ok(())
    }
}
