//! The text program: calls on standard input, answers on standard output.

use std::io::{self, ErrorKind, Read, Write};
use std::process::ExitCode;

use second::desk::Desk;

fn run() -> io::Result<()> {
    let mut input = io::stdin().lock();
    let mut output = io::stdout().lock();
    let mut desk = Desk::new();
    let mut piece = vec![0; 1 << 16];
    let mut answers = Vec::with_capacity(1 << 16);
    loop {
        // Everything answered so far has been written before this read.
        let read = match input.read(&mut piece) {
            Ok(read) => read,
            Err(error) if error.kind() == ErrorKind::Interrupted => continue,
            Err(error) => return Err(error),
        };
        if read == 0 {
            desk.finish(&mut answers);
        } else {
            desk.feed(&piece[..read], &mut answers);
        }
        if !answers.is_empty() {
            output.write_all(&answers)?;
            output.flush()?;
            answers.clear();
        }
        if read == 0 {
            return Ok(());
        }
    }
}

fn main() -> ExitCode {
    match run() {
        Ok(()) => ExitCode::SUCCESS,
        // Whoever read the answers has gone.
        Err(error) if error.kind() == ErrorKind::BrokenPipe => ExitCode::FAILURE,
        Err(error) => {
            eprintln!("desk: {error}");
            ExitCode::FAILURE
        }
    }
}
