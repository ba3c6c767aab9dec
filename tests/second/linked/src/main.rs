//! Compares the linked library with the second book, in this process.
//!
//!     linked                 random calls from fixed seeds, and what they must have reached
//!     linked --counts        the same, with all the counts
//!     linked --commit HEX    the same, and a seed of the commit's own
//!     linked SEED..          calls from these seeds
//!
//! Leaves with 1 at a difference, and if the fixed seeds missed something.

use std::process::ExitCode;
use std::time::Instant;

use linked::bars::{missed, BARS};
use linked::runs::{fixed_seeds, random_calls, CALLS, SEEDS};
use linked::Linked;
use second::tally::grouped;

/// A closing line: how many, and of what.
fn tell(count: u64, what: &str) {
    println!("{:>11}  {what}", grouped(count));
}

fn other_seed(seed: u64) -> Result<(), String> {
    random_calls(&mut Linked, seed, CALLS, 0).map(drop)
}

fn tell_other_seed(seed: u64, whose: &str, again: &str) {
    let what = format!("random calls of the library, answered alike, from {whose} {seed}{again}");
    tell(CALLS as u64, &what);
}

/// The run with the fixed seeds, and with the commit's own if there is one.
fn fixed_run(commit: Option<u64>, all_counts: bool) -> Result<(), String> {
    let start = Instant::now();
    let again = |seed: u64| format!("; again: {} {seed}", this_program());
    if let Some(seed) = commit {
        other_seed(seed).map_err(|problem| format!("{problem}{}", again(seed)))?;
    }
    let tally = fixed_seeds(|| Linked)?;
    let counts = tally.counts();
    if all_counts {
        for (what, count) in &counts {
            tell(*count, what);
        }
        println!();
    }
    let sum = |wanted: &dyn Fn(&str) -> bool| -> u64 {
        let met = counts.iter().filter(|(what, _)| wanted(what));
        met.map(|(_, times)| times).sum()
    };
    let what = format!(
        "random calls of the library, answered alike in one process, from {SEEDS} fixed seeds"
    );
    tell(tally.count("calls"), &what);
    tell(
        sum(&|what| what.split(' ').nth(1) == Some("refused") && what.split(' ').count() == 3),
        "of these refused, and the image left word for word",
    );
    tell(
        sum(&|what| {
            ["trial", "benchmark", "maximum", "quote", "rebate"]
                .iter()
                .any(|question| what == format!("{question} ok"))
        }),
        "of these questions that were answered, and the image left likewise",
    );
    tell(
        tally.count("accounts in rebate runs"),
        "accounts in rebate runs, each the same in every part, up to 1,000,000 in one list",
    );
    tell(
        sum(&|what| what.starts_with("roads") || what.starts_with("books built again")),
        "books reached by two roads, with the same image byte for byte",
    );
    tell(
        sum(&|what| what.starts_with("images saved")),
        "images saved and loaded",
    );
    tell(
        tally.count("books checked"),
        "images that slatewhim_check says are books",
    );
    tell(
        sum(&|what| what.starts_with("no book, ")),
        "calls on words that are no book, and nothing written",
    );
    if let Some(seed) = commit {
        tell_other_seed(seed, "this commit's seed", &again(seed));
    }
    let missed = missed(&tally);
    if !missed.is_empty() {
        return Err(missed.join("\n"));
    }
    tell(
        BARS.len() as u64,
        "counts of what was met in all this, each at its bar or above",
    );
    println!("{:>11}  in {:.0} s", "", start.elapsed().as_secs_f64());
    Ok(())
}

fn this_program() -> String {
    std::env::args()
        .next()
        .unwrap_or_else(|| "linked".to_string())
}

fn run(arguments: &[&str]) -> Result<(), String> {
    match arguments {
        [] => fixed_run(None, false),
        ["--counts"] => fixed_run(None, true),
        ["--commit", hex] => {
            let seed = u64::from_str_radix(hex, 16).map_err(|_| format!("{hex} is not hex"))?;
            fixed_run(Some(seed), false)
        }
        seeds => {
            for seed in seeds {
                let seed = seed.parse().map_err(|_| format!("{seed} is not a seed"))?;
                other_seed(seed)?;
                tell_other_seed(seed, "seed", "");
            }
            Ok(())
        }
    }
}

fn main() -> ExitCode {
    let arguments: Vec<String> = std::env::args().skip(1).collect();
    let arguments: Vec<&str> = arguments.iter().map(String::as_str).collect();
    match run(&arguments) {
        Ok(()) => ExitCode::SUCCESS,
        Err(problem) => {
            println!("{problem}");
            ExitCode::FAILURE
        }
    }
}
