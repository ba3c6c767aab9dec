//! Compares another program's answers with this book's.
//!
//!     compare PROGRAM                  conversations, a fuzz of bytes, all periods, all short
//!                                      lists of calls on one code, pairs of books and random
//!                                      calls from fixed seeds, and what they must have reached
//!     compare PROGRAM --counts         the same, with all the counts
//!     compare PROGRAM --commit HEX     the same, and a seed of the commit's own
//!     compare PROGRAM SEED..           conversations, bytes and calls from these seeds
//!     compare PROGRAM --files A B ..   the scripts in these files
//!
//! Leaves with 1 at a difference, and if the fixed seeds missed something.

use std::process::ExitCode;
use std::time::Instant;

use second::bars::{bars, missed};
use second::counts::Counts;
use second::program::Program;
use second::runs::*;
use second::script::{BEGINNINGS, BEGINNINGS_WITH_DESKS, LISTS, LISTS_WITH_DESKS};
use second::side_by_side::{in_parts, side_by_side};
use second::tally::grouped;

/// A closing line: how many, and of what.
fn tell(count: u64, what: &str) {
    println!("{:>11}  {what}", grouped(count));
}

fn tell_other_seed(seed: u64, whose: &str, again: &str) {
    let what = format!("random calls, answered alike, from {whose} {seed},");
    tell(CALLS as u64, &what);
    println!(
        "{:>11}  with {OTHER_CONVERSATIONS} conversations, {OTHER_FUZZ_CASES} fuzz cases and {PAIRS} pairs of books{again}",
        ""
    );
}

/// The run with the fixed seeds, and with the commit's own if there is one.
fn fixed_run(program: &Program, commit: Option<u64>, all_counts: bool) -> Result<(), String> {
    let start = Instant::now();
    let mut tally = conversations(program, 1, CONVERSATIONS)?;
    tally.merge(fuzz_cases(program, FUZZ_SEED, FUZZ_CASES)?);
    let again = |seed: u64| format!("; again: {} {} {seed}", this_program(), program.path());
    if let Some(seed) = commit {
        other_seed(program, seed).map_err(|problem| format!("{problem}{}", again(seed)))?;
    }
    let periods = every_period(program)?;
    let over_periods = periods.count("calls");
    tally.merge(periods);
    let lists = every_list(program)?;
    let in_lists = lists.count("calls");
    tally.merge(lists);
    let lists = every_list_with_desks(program)?;
    let in_lists_with_desks = lists.count("calls");
    tally.merge(lists);
    tally.merge(fixed_pairs(program)?);
    let random = fixed_seeds(program)?;
    let random_calls = random.count("calls");
    tally.merge(random);

    if all_counts {
        for (what, count) in tally.counts() {
            tell(count, what);
        }
        println!();
    }
    let count = |what| tally.count(what);
    tell(
        random_calls,
        &format!("random calls, answered alike, from {SEEDS} fixed seeds"),
    );
    tell(
        over_periods,
        "calls, answered alike, over all 11,808 periods",
    );
    let what = "calls, answered alike, in all lists of up to four on one code:";
    tell(in_lists, what);
    println!(
        "{:>11}  {} lists, each from {} beginnings",
        "",
        grouped(LISTS as u64),
        BEGINNINGS.len()
    );
    let what = "calls, answered alike, in all lists of up to three on one code by several desks:";
    tell(in_lists_with_desks, what);
    println!(
        "{:>11}  {} lists, each from {} beginnings",
        "",
        grouped(LISTS_WITH_DESKS as u64),
        BEGINNINGS_WITH_DESKS.len()
    );
    tell(
        count("sheets submitted"),
        "different sheets submitted in them",
    );
    tell(count("sheets accepted"), "of these accepted");
    tell(count("sheets tried"), "different sheets in trials");
    let counts = tally.counts();
    let same_set = counts
        .iter()
        .filter(|(what, _)| what.starts_with("trial, then the same set: "));
    tell(
        same_set.map(|(_, times)| times).sum(),
        "trials with the same set right after them",
    );
    let split = counts
        .iter()
        .filter(|(what, _)| what.contains("peak share alone: ") && what.ends_with(" fall"));
    tell(
        split.map(|(_, times)| times).sum(),
        "sheets set or tried, new in the peak share alone",
    );
    let by_a_mill = counts
        .iter()
        .filter(|(what, _)| what.starts_with("11: by one mill of the number of "));
    tell(
        by_a_mill.map(|(_, times)| times).sum(),
        "openings refused for one mill of a region's own standing charge",
    );
    tell(
        count("undo ok"),
        "sheets taken back, and the book before them restored",
    );
    tell(
        count("undo refused 15"),
        "undos refused, with nothing to take back",
    );
    tell(count("ask ok"), "drafts asked for, and marked");
    tell(count("confirm ok"), "marked drafts confirmed, and opened");
    tell(
        count("confirm refused 16"),
        "drafts not confirmed, without a mark",
    );
    let sum = |wanted: &dyn Fn(&str) -> bool| -> u64 {
        let met = counts.iter().filter(|(what, _)| wanted(what));
        met.map(|(_, times)| times).sum()
    };
    tell(count("direct ok"), "drafts put under a direction");
    tell(
        count("set: one open under a direction, over the cap, stays open"),
        "tariffs under a direction left open by a sheet that they exceed under",
    );
    tell(count("rebate ok"), "rebate runs accepted");
    tell(
        sum(&|what| what.starts_with("rebates of ") || what == "rebates rounded up"),
        "accounts in them",
    );
    tell(
        sum(&|what| what.starts_with("rebate refused 1") && what.split(' ').count() == 3),
        "rebate runs refused, with the place",
    );
    tell(
        sum(&|what| what.starts_with("desk ")),
        "of all these calls by a desk that is named",
    );
    tell(
        sum(&|what| what.ends_with(" refused 17") && what.split(' ').count() == 3),
        "of these refused, outside the desk",
    );
    tell(
        count("calls with desk 16383 before them"),
        "calls answered alike without a desk and with desk 16383 before them",
    );
    let without = "two books, a desk without the region: ";
    tell(
        sum(&|what| what.starts_with(without)),
        "calls answered alike by two books whose sheets differ outside the desk,",
    );
    println!(
        "{:>11}  {} pairs of them",
        "",
        grouped(count("two books: pairs"))
    );
    tell(
        sum(&|what| what.contains(": another answer to ")),
        "calls answered otherwise by the two, to a desk that has such a region",
    );
    tell(
        count("lines sent one by one, answered before the next"),
        "lines in conversation, each answered before the next was sent",
    );
    tell(
        count("lines sent in two pieces") + count("lines sent in three pieces"),
        "half lines: sent in two or three pieces, answered when whole and not before",
    );
    tell(
        count("silent lines sent one by one") + count("silent lines sent in pieces"),
        "silent lines, nothing answered",
    );
    tell(
        count("last lines without a line feed, answered at the end"),
        "last lines without a line feed, answered at the end of the input",
    );
    tell(
        count("fuzz: cases"),
        "fuzz cases of bytes around 16,384 and 65,536, answered alike",
    );
    if let Some(seed) = commit {
        tell_other_seed(seed, "this commit's seed", &again(seed));
    }
    let missed = missed(&tally);
    if !missed.is_empty() {
        return Err(missed.join("\n"));
    }
    tell(
        bars().count() as u64,
        "counts of what was met in all this, each at its bar or above",
    );
    println!("{:>11}  in {:.0} s", "", start.elapsed().as_secs_f64());
    Ok(())
}

fn this_program() -> String {
    std::env::args()
        .next()
        .unwrap_or_else(|| "compare".to_string())
}

fn files(program: &Program, files: &[String]) -> Result<(), String> {
    for file in files {
        let text = std::fs::read(file).map_err(|error| format!("{file}: {error}"))?;
        side_by_side(program, &mut in_parts(&text), &mut Counts::default())
            .map_err(|difference| format!("{file}, {difference}"))?;
        println!("{file}: the same");
    }
    Ok(())
}

fn run(program: &Program, rest: &[&str]) -> Result<(), String> {
    match rest {
        [] => fixed_run(program, None, false),
        ["--counts"] => fixed_run(program, None, true),
        ["--commit", hex] => {
            let seed = u64::from_str_radix(hex, 16).map_err(|_| format!("{hex} is not hex"))?;
            fixed_run(program, Some(seed), false)
        }
        ["--files", names @ ..] => {
            let names: Vec<String> = names.iter().map(|name| name.to_string()).collect();
            files(program, &names)
        }
        seeds => {
            for seed in seeds {
                let seed = seed.parse().map_err(|_| format!("{seed} is not a seed"))?;
                other_seed(program, seed)?;
                tell_other_seed(seed, "seed", "");
            }
            Ok(())
        }
    }
}

fn main() -> ExitCode {
    let arguments: Vec<String> = std::env::args().skip(1).collect();
    let arguments: Vec<&str> = arguments.iter().map(String::as_str).collect();
    let Some((program, rest)) = arguments.split_first() else {
        eprintln!("usage: compare PROGRAM [--counts | --commit HEX | SEED.. | --files FILE..]");
        return ExitCode::from(2);
    };
    match run(&Program::new(program), rest) {
        Ok(()) => ExitCode::SUCCESS,
        Err(problem) => {
            println!("{problem}");
            ExitCode::FAILURE
        }
    }
}
