//! Times the proved programs against their Rust twins, in one run.
//!
//!     timing OURS THEIRS
//!
//! OURS is the folder with the proved programs `speed` and `desk`, THEIRS the one with the Rust programs `speed`, `desk` and
//! `generate`. Each pair is run in turn, several times, and the least processor time of each counts: what else the machine does
//! disturbs that less than the time on the clock. From the time of a run with calls the time of one with none is taken off.
//! Our TRIAL is timed against our own SET in the same way, since it judges the same tariffs by the same sheet.
//! It fails on answers that differ and on a ratio above its bar.

use std::fs::File;
use std::path::{Path, PathBuf};
use std::process::{Command, ExitCode, Stdio};

const ROUNDS: usize = 9;
const TEXT_ROUNDS: usize = 40;
const SCRIPT_SEED: u32 = 1;
const SCRIPT_LINES: u32 = 100_000;
const TEXT_BAR: f64 = 1.5;
const TRIAL_BAR: f64 = 1.1;

struct Measurement {
    name: &'static str,
    calls: u64,
    bar: Option<f64>,
}

const SET: usize = 0;
const TRIAL: usize = 5;

/// By the number that the programs know them by.
const MEASUREMENTS: [Measurement; 9] = [
    Measurement {
        name: "SET, 32 open tariffs",
        calls: 150_000,
        bar: Some(1.6),
    },
    Measurement {
        name: "OPEN, 28 cells, 4 tiers, and CLOSE",
        calls: 2_500_000,
        bar: Some(2.0),
    },
    Measurement {
        name: "OPEN, over the cap in the last cell",
        calls: 2_500_000,
        bar: Some(2.0),
    },
    Measurement {
        name: "QUOTE, 12 months",
        calls: 8_000_000,
        bar: Some(2.0),
    },
    Measurement {
        name: "BENCHMARK",
        calls: 80_000_000,
        bar: None,
    },
    Measurement {
        name: "TRIAL, 32 open tariffs",
        calls: 150_000,
        bar: Some(2.0),
    },
    Measurement {
        name: "OPEN and CLOSE, the book handed over and back",
        calls: 2_500_000,
        bar: None,
    },
    Measurement {
        name: "SET and the UNDO that takes it back, 32 open tariffs",
        calls: 150_000,
        bar: Some(2.5),
    },
    Measurement {
        name: "REBATE, an account of 12 months, in runs over 10,000",
        calls: 1_000_000,
        bar: Some(1.5),
    },
];

/// Seconds of processor time that a child took.
#[derive(Clone, Copy)]
struct Time {
    user: f64,
    system: f64,
}

/// The C library's `struct rusage` on 64-bit Linux: two times, and fourteen counts that are not looked at.
#[repr(C)]
#[derive(Default)]
struct Usage {
    user: [i64; 2],
    system: [i64; 2],
    counts: [i64; 14],
}

extern "C" {
    fn getrusage(who: i32, usage: *mut Usage) -> i32;
}

const CHILDREN: i32 = -1;

/// The processor time of all children that have been waited for.
fn of_children() -> Time {
    let mut usage = Usage::default();
    // SAFETY: `usage` is a valid place for the structure that the call fills.
    let failed = unsafe { getrusage(CHILDREN, &mut usage) } != 0;
    assert!(!failed, "getrusage failed");
    let seconds = |t: [i64; 2]| t[0] as f64 + t[1] as f64 / 1e6;
    Time {
        user: seconds(usage.user),
        system: seconds(usage.system),
    }
}

/// Runs a command that must succeed; what it wrote, and the time that it took.
fn run(command: &mut Command) -> Result<(Vec<u8>, Time), String> {
    let before = of_children();
    let output = command
        .stderr(Stdio::inherit())
        .output()
        .map_err(|error| format!("{command:?}: {error}"))?;
    let after = of_children();
    if !output.status.success() {
        return Err(format!("{command:?} ended with {}", output.status));
    }
    let time = Time {
        user: after.user - before.user,
        system: after.system - before.system,
    };
    Ok((output.stdout, time))
}

fn sum_of(program: &Path, measurement: usize, calls: u64) -> Result<(String, f64), String> {
    let (sum, time) =
        run(Command::new(program).args([measurement.to_string(), calls.to_string()]))?;
    Ok((String::from_utf8_lossy(&sum).trim().to_string(), time.user))
}

fn text_of(program: &Path, script: &Path) -> Result<(Vec<u8>, f64), String> {
    let input = File::open(script).map_err(|error| format!("{}: {error}", script.display()))?;
    let (answers, time) = run(Command::new(program).stdin(input))?;
    Ok((answers, time.user + time.system))
}

/// Nanoseconds a call and the checksums of two programs, each in a measurement, that are run in turn.
fn in_turn(pair: [(&Path, usize); 2], calls: u64) -> Result<([f64; 2], [String; 2]), String> {
    let mut least = [f64::INFINITY; 2];
    let mut start = [f64::INFINITY; 2];
    let mut sums = [String::new(), String::new()];
    for _ in 0..ROUNDS {
        for (i, (program, number)) in pair.into_iter().enumerate() {
            start[i] = start[i].min(sum_of(program, number, 0)?.1);
            let (sum, time) = sum_of(program, number, calls)?;
            least[i] = least[i].min(time);
            sums[i] = sum;
        }
    }
    let nanoseconds = [0, 1].map(|i| (least[i] - start[i]) * 1e9 / calls as f64);
    Ok((nanoseconds, sums))
}

/// Nanoseconds a call of both programs; whether they agree and the bar is kept.
fn compare(ours: &Path, theirs: &Path, number: usize) -> Result<bool, String> {
    let Measurement { name, calls, bar } = MEASUREMENTS[number];
    let (nanoseconds, sums) = in_turn([(ours, number), (theirs, number)], calls)?;
    let ratio = nanoseconds[0] / nanoseconds[1];
    let agree = sums[0] == sums[1];
    let kept = bar.is_none_or(|bar| ratio <= bar);
    println!(
        "{name:<36} {calls:>10} {:>9.1} {:>9.1} {ratio:>6.2} {:>5}  {}",
        nanoseconds[0],
        nanoseconds[1],
        bar.map_or("-".to_string(), |bar| format!("{bar:.1}")),
        if agree {
            sums[0].clone()
        } else {
            format!("DIFFER: {} and {}", sums[0], sums[1])
        },
    );
    if !kept {
        println!("  above the bar");
    }
    Ok(agree && kept)
}

/// Our TRIAL beside our SET; whether the bar is kept.
fn compare_trial(ours: &Path) -> Result<bool, String> {
    let (nanoseconds, _) = in_turn([(ours, TRIAL), (ours, SET)], MEASUREMENTS[TRIAL].calls)?;
    let ratio = nanoseconds[0] / nanoseconds[1];
    println!(
        "\nOur TRIAL takes {ratio:.2} times our SET: {:.1} and {:.1} nanoseconds a call, bar {TRIAL_BAR:.1}.",
        nanoseconds[0], nanoseconds[1],
    );
    let kept = ratio <= TRIAL_BAR;
    if !kept {
        println!("  above the bar");
    }
    Ok(kept)
}

/// Calls a second of both text programs; whether they agree and the bar is kept.
fn compare_text(ours: &Path, theirs: &Path, generate: &Path) -> Result<bool, String> {
    let (script, _) = run(Command::new(generate).args([
        "--speed".to_string(),
        SCRIPT_SEED.to_string(),
        SCRIPT_LINES.to_string(),
    ]))?;
    let path = theirs.with_file_name("speed_script.txt");
    std::fs::write(&path, script).map_err(|error| format!("{}: {error}", path.display()))?;
    let programs = [ours, theirs];
    let mut least = [f64::INFINITY; 2];
    let mut answers = [Vec::new(), Vec::new()];
    for _ in 0..TEXT_ROUNDS {
        for (i, program) in programs.iter().enumerate() {
            let (text, time) = text_of(program, &path)?;
            least[i] = least[i].min(time);
            answers[i] = text;
        }
    }
    let lines = answers[1].iter().filter(|&&byte| byte == b'\n').count();
    let agree = answers[0] == answers[1] && lines == SCRIPT_LINES as usize;
    let ratio = least[0] / least[1];
    let kept = ratio <= TEXT_BAR;
    println!("\nThe text programs on a script of {SCRIPT_LINES} lines, user and system time:");
    println!(
        "{:<36} {:>10} {:>9.0} {:>9.0} {ratio:>6.2} {TEXT_BAR:>5.1}  {}",
        "calls a second",
        SCRIPT_LINES,
        f64::from(SCRIPT_LINES) / least[0],
        f64::from(SCRIPT_LINES) / least[1],
        if agree {
            format!("{lines} answers alike")
        } else {
            "ANSWERS DIFFER".to_string()
        },
    );
    if !kept {
        println!("  above the bar");
    }
    Ok(agree && kept)
}

fn timed(ours: &Path, theirs: &Path) -> Result<bool, String> {
    println!(
        "{:<36} {:>10} {:>9} {:>9} {:>6} {:>5}  checksum",
        "nanoseconds a call, user time", "calls", "ours", "theirs", "ratio", "bar"
    );
    let mut well = true;
    for number in 0..MEASUREMENTS.len() {
        well &= compare(&ours.join("speed"), &theirs.join("speed"), number)?;
    }
    well &= compare_trial(&ours.join("speed"))?;
    well &= compare_text(
        &ours.join("desk"),
        &theirs.join("desk"),
        &theirs.join("generate"),
    )?;
    Ok(well)
}

fn main() -> ExitCode {
    let folders: Vec<PathBuf> = std::env::args_os().skip(1).map(PathBuf::from).collect();
    let [ours, theirs] = &folders[..] else {
        eprintln!("usage: timing OURS THEIRS");
        return ExitCode::from(2);
    };
    match timed(ours, theirs) {
        Ok(true) => ExitCode::SUCCESS,
        Ok(false) => ExitCode::FAILURE,
        Err(error) => {
            eprintln!("{error}");
            ExitCode::FAILURE
        }
    }
}
