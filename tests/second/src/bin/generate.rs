//! Random scripts for the desk.
//!
//!     generate SEED CALLS                    calls of all sorts, refused ones and errors among them
//!     generate --without-desks SEED CALLS    the same without the word desk
//!     generate --speed SEED LINES            exactly LINES well-formed calls, for timing
//!     generate --fuzz SEED CASE              the input of a case of the fuzz of bytes
//!     generate --two-books SEED BOOK         pairs of books, as they are made for the one (BOOK 1)
//!                                            and for the other (2)

use std::io::Write;
use std::process::ExitCode;

use second::fuzz::Fuzz;
use second::runs::PAIRS;
use second::script::{script, speed_script, two_books, Writer};

fn text(arguments: &[&str]) -> Option<Vec<u8>> {
    let number = |word: &str| word.parse::<u64>().ok();
    Some(match *arguments {
        ["--speed", seed, lines] => speed_script(number(seed)?, number(lines)? as usize),
        ["--without-desks", seed, calls] => {
            let writer = Writer::without_desks(number(seed)?, number(calls)? as usize);
            writer.flatten().collect()
        }
        ["--two-books", seed, book @ ("1" | "2")] => {
            two_books(number(seed)?, PAIRS).script(number(book)? as usize - 1)
        }
        ["--fuzz", seed, case] => Fuzz::new(number(seed)?).input(number(case)?),
        [seed, calls] => script(number(seed)?, number(calls)? as usize),
        _ => return None,
    })
}

fn main() -> ExitCode {
    let arguments: Vec<String> = std::env::args().skip(1).collect();
    let arguments: Vec<&str> = arguments.iter().map(String::as_str).collect();
    let Some(text) = text(&arguments) else {
        eprintln!("usage: generate [--without-desks | --speed | --fuzz | --two-books] SEED NUMBER");
        return ExitCode::from(2);
    };
    match std::io::stdout().write_all(&text) {
        Ok(()) => ExitCode::SUCCESS,
        Err(_) => ExitCode::FAILURE,
    }
}
