//! The program `cases`: reads cases of calls, one to a line, and prints for each what stands right of its bar.
//!
//! A line is `NAME inputs | outputs`, decimal numbers with one blank between; what follows a bar is ignored. A line that is no case of a
//! call gets `?`. The calls are made through the wrapper, on lists as long as memory holds.

mod calls;
mod inputs;
mod outputs;

use std::env;
use std::io::{self, BufRead, ErrorKind, Write};
use std::process::ExitCode;

fn main() -> ExitCode {
    if env::args_os().len() > 1 {
        eprintln!("cases: it takes no arguments; it reads cases from standard input");
        return ExitCode::from(2);
    }
    match answer_lines(io::stdin().lock(), io::stdout().lock()) {
        // That the reader of its output is gone is no failure.
        Err(error) if error.kind() != ErrorKind::BrokenPipe => {
            eprintln!("cases: {error}");
            ExitCode::FAILURE
        }
        _ => ExitCode::SUCCESS,
    }
}

/// Answers each line; the last one may lack its line feed.
fn answer_lines(input: impl BufRead, mut output: impl Write) -> io::Result<()> {
    for line in input.split(b'\n') {
        let line = line?;
        writeln!(output, "{}", calls::answer(&String::from_utf8_lossy(&line)))?;
    }
    output.flush()
}
