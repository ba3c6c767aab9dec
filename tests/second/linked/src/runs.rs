//! The parts of the comparison.

use second::runs::all_jobs;
use second::script::Writer;
use second::tally::Tally;

use crate::compared::Compared;
use crate::library::Library;

/// The fixed seeds are 1 to this.
pub const SEEDS: u64 = 25;
/// Random calls of each seed.
pub const CALLS: usize = 40_000;
/// The fixed seeds up to this one have runs of a million accounts too.
pub const LONG_RUN_SEEDS: u64 = 2;

/// Random calls from one seed. `Err` tells the first difference.
pub fn random_calls(
    library: &mut dyn Library,
    seed: u64,
    calls: usize,
    long_runs: u32,
) -> Result<Tally, String> {
    let from_seed = |problem| format!("seed {seed}, {problem}");
    let mut writer = Writer::new(seed, calls);
    let mut compared = Compared::new(library, seed).map_err(from_seed)?;
    compared.long_runs = long_runs;
    let mut number = 0;
    for part in &mut writer {
        let part = part.strip_suffix(b"\n").unwrap_or(&part);
        for line in part.split(|&byte| byte == b'\n') {
            number += 1;
            compared
                .line(line)
                .map_err(|problem| from_seed(format!("line {number}: {problem}")))?;
        }
    }
    let tally = compared.tally;
    // Some of the longest lines are calls too, and not counted by the writer.
    assert!(
        tally.count("calls") >= writer.calls() as u64,
        "calls unread"
    );
    Ok(tally)
}

/// Random calls from all the fixed seeds, several seeds at a time.
pub fn fixed_seeds<L: Library>(library: impl Fn() -> L + Sync) -> Result<Tally, String> {
    let cores = std::thread::available_parallelism().map_or(1, usize::from);
    all_jobs(SEEDS, cores, |job| {
        let seed = job + 1;
        let long_runs = u32::from(seed <= LONG_RUN_SEEDS);
        random_calls(&mut library(), seed, CALLS, long_runs)
    })
}
