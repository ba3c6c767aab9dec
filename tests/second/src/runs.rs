//! The parts of the comparison: conversations, the fuzz of bytes, all periods, all short lists of
//! calls on one code, pairs of books that differ in a network field, and random calls.

use std::sync::atomic::{AtomicBool, AtomicU64, Ordering};
use std::sync::Mutex;

use crate::conversation::converse;
use crate::counts::Counts;
use crate::fuzz::Fuzz;
use crate::program::{text, Program};
use crate::script::{
    all_periods, two_books, Beginning, Said, TwoBooks, Writer, BEGINNINGS, BEGINNINGS_WITH_DESKS,
    LISTS, LISTS_WITH_DESKS,
};
use crate::side_by_side::{in_parts, side_by_side, with_all_fourteen};
use crate::tally::Tally;

/// The fixed seeds of random calls are 1 to this.
pub const SEEDS: u64 = 100;
/// Those that are a multiple of this have no desks, and are run with `desk 16383` before every call
/// too.
pub const WITHOUT_DESKS: u64 = 10;
/// The fixed seeds of pairs of books are 1 to this.
pub const PAIR_SEEDS: u64 = 60;
/// Pairs of books of each seed.
pub const PAIRS: usize = 100;
/// The fixed seeds of conversations are 1 to this.
pub const CONVERSATIONS: u64 = 200;
pub const FUZZ_SEED: u64 = 1;
pub const FUZZ_CASES: u64 = 4_000;

/// Random calls of each seed.
pub const CALLS: usize = 110_000;

/// Of each seed that is not a fixed one.
pub const OTHER_CONVERSATIONS: u64 = 12;
pub const OTHER_FUZZ_CASES: u64 = 200;

/// Does jobs 0 to `jobs` - 1, several at a time, and adds up what they counted. `Err` is that of
/// the first job that failed.
pub fn all_jobs(
    jobs: u64,
    workers: usize,
    job: impl Fn(u64) -> Result<Tally, String> + Sync,
) -> Result<Tally, String> {
    let next = AtomicU64::new(0);
    let failed = AtomicBool::new(false);
    let sum = Mutex::new(Tally::default());
    let mut failures: Vec<(u64, String)> = Vec::new();
    std::thread::scope(|scope| {
        let work = || {
            while !failed.load(Ordering::Relaxed) {
                let number = next.fetch_add(1, Ordering::Relaxed);
                if number >= jobs {
                    break;
                }
                match job(number) {
                    Ok(tally) => sum.lock().expect("the sum").merge(tally),
                    Err(problem) => {
                        failed.store(true, Ordering::Relaxed);
                        return Some((number, problem));
                    }
                }
            }
            None
        };
        let workers: Vec<_> = (0..workers).map(|_| scope.spawn(work)).collect();
        for worker in workers {
            failures.extend(worker.join().expect("a worker"));
        }
    });
    match failures.into_iter().min() {
        Some((_, problem)) => Err(problem),
        None => Ok(sum.into_inner().expect("the sum")),
    }
}

fn cores() -> usize {
    std::thread::available_parallelism().map_or(1, usize::from)
}

/// Random calls from one seed.
pub fn random_calls(program: &Program, seed: u64) -> Result<Tally, String> {
    let mut counts = Counts::default();
    let mut writer = Writer::new(seed, CALLS);
    side_by_side(program, &mut writer, &mut counts)
        .map_err(|difference| format!("seed {seed}, {difference}"))?;
    counts.tally.merge(writer.tally());
    Ok(counts.tally)
}

/// Random calls without desks from one seed, and the same with `desk 16383` before each.
pub fn calls_without_desks(program: &Program, seed: u64, calls: usize) -> Result<Tally, String> {
    let mut counts = Counts::default();
    let mut writer = Writer::without_desks(seed, calls);
    side_by_side(program, &mut writer, &mut counts)
        .map_err(|difference| format!("seed {seed}, without desks, {difference}"))?;
    counts.tally.merge(writer.tally());
    let mut again = Writer::without_desks(seed, calls);
    with_all_fourteen(program, &mut again, &mut counts.tally)
        .map_err(|difference| format!("seed {seed}, each call by desk 16383, {difference}"))?;
    Ok(counts.tally)
}

/// Random calls from all the fixed seeds.
pub fn fixed_seeds(program: &Program) -> Result<Tally, String> {
    all_jobs(SEEDS, cores(), |job| match job + 1 {
        seed if seed.is_multiple_of(WITHOUT_DESKS) => calls_without_desks(program, seed, CALLS),
        seed => random_calls(program, seed),
    })
}

/// Pairs of books from one seed. A desk that has none of the regions in which the sheets differ has
/// to get the same answers from both, whatever they are, and all answers have to be those of this desk.
pub fn pairs_of_books(program: &Program, seed: u64, pairs: usize) -> Result<Tally, String> {
    let both = two_books(seed, pairs);
    let mut theirs = Vec::new();
    for book in 0..2 {
        let answers = answers_of(program, &both, book);
        theirs.push(answers.map_err(|problem| format!("two books from seed {seed}, {problem}"))?);
    }
    let (mut one, mut other) = (theirs[0].iter(), theirs[1].iter());
    let mut tally = Tally::default();
    let mut different = Ok(());
    for (number, line) in (1..).zip(&both.lines) {
        if line.answers[0].is_empty() {
            continue;
        }
        let of_the_two = [one.next(), other.next()].map(|answer| answer.expect("an answer"));
        let tell = |expected: &[u8], answered: &[u8], whose: &str| {
            format!(
                "two books from seed {seed}, line {number}: {}\n  expected{whose}: {}\n  answered: {}\n  \
                 the input for the one book: generate --two-books {seed} 1",
                text(&line.texts[0]),
                text(expected),
                text(answered),
            )
        };
        if line.said == Said::Without && of_the_two[0] != of_the_two[1] {
            let whose = ", as from the other book";
            return Err(tell(of_the_two[0], of_the_two[1], whose));
        }
        // Told if the two books of the program are alike wherever they have to be.
        for (mine, their) in line.answers.iter().zip(of_the_two) {
            if different.is_ok() && mine != their {
                different = Err(tell(mine, their, ""));
            }
        }
        count_line(&mut tally, line.said, &line.texts[0], &line.answers);
        if let Some(field) = line.field {
            tally.different("two books: network fields that differ", field as u64);
            if line.said == Said::With && line.answers[0] != line.answers[1] {
                let what = "two books: network fields that alone made a difference";
                tally.different(what, field as u64);
            }
        }
    }
    different?;
    tally.add("two books: pairs", pairs as u64);
    let what = "two books: pairs with a set to take back in the one alone";
    tally.add(what, both.with_a_step);
    let what = "two books: pairs for a desk that is no set of regions";
    tally.add(what, both.odd_desks);
    Ok(tally)
}

/// The program's answers to one of the two scripts.
fn answers_of(program: &Program, both: &TwoBooks, book: usize) -> Result<Vec<Vec<u8>>, String> {
    let answered = both
        .lines
        .iter()
        .filter(|line| !line.answers[book].is_empty());
    let mut running = program.start()?;
    running.send(both.script(book));
    running.close();
    let answers = running.any_answers(answered.count())?;
    running.end()?;
    Ok(answers)
}

fn count_line(tally: &mut Tally, said: Said, line: &[u8], answers: &[Vec<u8>; 2]) {
    let call = line.split(|&byte| byte == b' ').nth(2).unwrap_or_default();
    let call = String::from_utf8_lossy(call);
    let answer = String::from_utf8_lossy(&answers[0]);
    let mut words = answer.split(' ');
    let answer = match (words.next(), words.next()) {
        (Some("ok"), _) => "ok".to_string(),
        (Some("refused"), Some(number)) => format!("refused {number}"),
        _ => return,
    };
    match said {
        // With this region the desk may have all fourteen, and bring another sheet.
        Said::With if ["set", "undo", "trial"].contains(&&call[..]) => {}
        Said::ToBuild => {}
        Said::Without => {
            let what = format!("two books, a desk without the region: {call} {answer}");
            tally.one(&what);
        }
        Said::With if answers[0] != answers[1] => {
            let what = format!("two books, a desk with the region: another answer to {call}");
            tally.one(&what);
        }
        Said::With => tally.one("two books, a desk with the region: the same answer"),
    }
}

/// Pairs of books from all the fixed seeds.
pub fn fixed_pairs(program: &Program) -> Result<Tally, String> {
    all_jobs(PAIR_SEEDS, cores(), |job| {
        pairs_of_books(program, job + 1, PAIRS)
    })
}

/// Each period tried, set and quoted in.
pub fn every_period(program: &Program) -> Result<Tally, String> {
    let mut counts = Counts::default();
    side_by_side(program, &mut in_parts(&all_periods()), &mut counts)
        .map_err(|difference| format!("all periods, {difference}"))?;
    Ok(counts.tally)
}

/// Each list of up to four calls on one code, from each beginning.
pub fn every_list(program: &Program) -> Result<Tally, String> {
    lists_from(program, &BEGINNINGS, LISTS, "short lists")
}

/// Each list of up to three calls on one code by several desks, from each beginning.
pub fn every_list_with_desks(program: &Program) -> Result<Tally, String> {
    let what = "short lists with desks";
    let mut tally = lists_from(program, &BEGINNINGS_WITH_DESKS, LISTS_WITH_DESKS, what)?;
    // Nothing else is to be reached by them.
    tally.keep(|what| what == "calls" || what.contains("desk") || what.contains("17"));
    Ok(tally)
}

fn lists_from(
    program: &Program,
    beginnings: &[Beginning],
    lists: usize,
    what: &str,
) -> Result<Tally, String> {
    const PART: usize = 100;
    let firsts: Vec<usize> = (0..lists).step_by(PART).collect();
    let jobs = beginnings.len() * firsts.len();
    all_jobs(jobs as u64, cores(), |job| {
        let beginning = &beginnings[job as usize / firsts.len()];
        let first = firsts[job as usize % firsts.len()];
        let name = beginning.name;
        let mut counts = Counts::default();
        for (count, script) in beginning.scripts(first..lists.min(first + PART)) {
            side_by_side(program, &mut in_parts(&script), &mut counts)
                .map_err(|difference| format!("{what} from {name}, {difference}"))?;
            counts.tally.add(&format!("{what} from {name}"), count);
        }
        Ok(counts.tally)
    })
}

/// Conversations from seed `first` on; most of their time is waiting.
pub fn conversations(program: &Program, first: u64, count: u64) -> Result<Tally, String> {
    all_jobs(count, 2 * cores(), |job| {
        let seed = first.wrapping_add(job);
        // One in four is long.
        let calls = if job % 4 == 0 { 240 } else { 4 };
        converse(program, seed, calls)
            .map_err(|problem| format!("conversation from seed {seed}, {problem}"))
    })
}

/// Cases of the fuzz of bytes.
pub fn fuzz_cases(program: &Program, seed: u64, count: u64) -> Result<Tally, String> {
    let fuzz = Fuzz::new(seed);
    all_jobs(count, cores(), |number| {
        let mut tally = Tally::default();
        fuzz.run(program, number, &mut tally)
            .map_err(|problem| format!("seed {seed}, {problem}"))?;
        Ok(tally)
    })
}

/// Everything that there is from a seed that is not a fixed one.
pub fn other_seed(program: &Program, seed: u64) -> Result<(), String> {
    conversations(program, seed, OTHER_CONVERSATIONS)?;
    fuzz_cases(program, seed, OTHER_FUZZ_CASES)?;
    pairs_of_books(program, seed, PAIRS)?;
    calls_without_desks(program, seed, CALLS / 10)?;
    random_calls(program, seed)?;
    Ok(())
}
