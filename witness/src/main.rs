//! The command line of the witness: make cases, answer them, count them.

use std::io::{stdin, stdout, BufWriter, Error, ErrorKind, Result, Write};
use std::process::ExitCode;

use witness::cases::cases;
use witness::count::Tally;
use witness::stream::answers;

const USAGE: &str = "usage: witness cases SEED COUNT | witness answers < STREAM | witness count < STREAM";

fn main() -> ExitCode {
    match run() {
        Ok(()) => ExitCode::SUCCESS,
        // A reader that has seen enough closes the pipe; that is no fault.
        Err(error) if error.kind() == ErrorKind::BrokenPipe => ExitCode::SUCCESS,
        Err(error) => {
            eprintln!("witness: {error}");
            ExitCode::FAILURE
        }
    }
}

fn run() -> Result<()> {
    let arguments: Vec<String> = std::env::args().skip(1).collect();
    let arguments: Vec<&str> = arguments.iter().map(String::as_str).collect();
    let mut output = BufWriter::new(stdout().lock());
    match arguments.as_slice() {
        ["cases", seed, count] => cases(number(seed)?, number(count)?, &mut output)?,
        ["answers"] => answers(stdin().lock(), &mut output)?,
        ["count"] => Tally::of(stdin().lock())?.print(&mut output)?,
        _ => return Err(Error::new(ErrorKind::InvalidInput, USAGE)),
    }
    output.flush()
}

fn number(text: &str) -> Result<u64> {
    text.parse().map_err(|_| Error::new(ErrorKind::InvalidInput, USAGE))
}
