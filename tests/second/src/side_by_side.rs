//! A script fed to another program and to this book side by side, answer by answer.
//!
//! The script comes in parts. While the program works on one part the next one is made, and no
//! more than two are kept.

use std::ops::Range;

use crate::counts::Counts;
use crate::desk::{Desk, LINE_LIMIT};
use crate::program::{text, Program, Running};
use crate::tally::Tally;

/// What comes before a call to name the desk with all fourteen regions.
const NAMED: &[u8] = b"desk 16383 ";

/// A part of the script, with what is expected of it.
struct Asked {
    part: Vec<u8>,
    /// The lines that have an answer: their numbers, and where they are in the part.
    lines: Vec<(u64, Range<usize>)>,
    answers: Vec<u8>,
}

/// Runs a script, given in parts of whole lines. `Err` tells the first difference.
pub fn side_by_side(
    program: &Program,
    parts: &mut dyn Iterator<Item = Vec<u8>>,
    counts: &mut Counts,
) -> Result<(), String> {
    let mut running = program.start()?;
    let mut desk = Desk::new();
    let mut number = 0;
    let mut before: Option<Asked> = None;
    counts.fresh_book();
    for part in parts {
        running.send(part.clone());
        let asked = ask(&mut desk, part, &mut number, counts);
        if let Some(before) = before.replace(asked) {
            await_answers(&mut running, &before)?;
        }
    }
    // The last line may have no line feed, and is then answered at the end of the input.
    running.close();
    if let Some(last) = before {
        await_answers(&mut running, &last)?;
    }
    running.end()
}

/// Runs a script without desks, given in parts of whole lines, with `desk 16383` before each line that
/// has an answer: this answer is the same as without, but for the number of a word in an error. `Err`
/// tells the first difference.
pub fn with_all_fourteen(
    program: &Program,
    parts: &mut dyn Iterator<Item = Vec<u8>>,
    tally: &mut Tally,
) -> Result<(), String> {
    let mut running = program.start()?;
    let mut desk = Desk::new();
    let mut number = 0;
    let mut before: Option<Asked> = None;
    for part in parts {
        let asked = ask_with_all_fourteen(&mut desk, &part, &mut number, tally);
        running.send(asked.part.clone());
        if let Some(before) = before.replace(asked) {
            await_answers(&mut running, &before)?;
        }
    }
    running.close();
    if let Some(last) = before {
        await_answers(&mut running, &last)?;
    }
    running.end()
}

fn ask_with_all_fourteen(
    desk: &mut Desk,
    part: &[u8],
    number: &mut u64,
    tally: &mut Tally,
) -> Asked {
    let mut asked = Asked {
        part: Vec::new(),
        lines: Vec::new(),
        answers: Vec::new(),
    };
    for line in part.split_inclusive(|&byte| byte == b'\n') {
        *number += 1;
        let feed = line.strip_suffix(b"\n");
        let line = feed.unwrap_or(line);
        let mut answer = Vec::new();
        desk.line(line, &mut answer);
        let start = asked.part.len();
        if !answer.is_empty() && line.len() + NAMED.len() <= LINE_LIMIT {
            asked.part.extend_from_slice(NAMED);
            if answer.starts_with(b"error") {
                tally.one("lines that are no calls, with desk 16383 before them");
                answer = two_words_later(&answer);
            } else {
                tally.one("calls with desk 16383 before them");
            }
        }
        asked.part.extend_from_slice(line);
        if !answer.is_empty() {
            asked.lines.push((*number, start..asked.part.len()));
        }
        asked.answers.extend_from_slice(&answer);
        if feed.is_some() {
            asked.part.push(b'\n');
        }
    }
    asked
}

/// The answer to a line that is no call, if there are two words more before its call.
fn two_words_later(answer: &[u8]) -> Vec<u8> {
    let text = String::from_utf8_lossy(answer);
    let mut words: Vec<String> = text.split(' ').map(str::to_string).collect();
    // error line L: word K is not ..
    if words[3] == "word" {
        let word: u64 = words[4].parse().expect("the number of a word");
        words[4] = (word + 2).to_string();
    }
    words.join(" ").into_bytes()
}

fn ask(desk: &mut Desk, part: Vec<u8>, number: &mut u64, counts: &mut Counts) -> Asked {
    let mut asked = Asked {
        part: Vec::new(),
        lines: Vec::new(),
        answers: Vec::new(),
    };
    let mut start = 0;
    for line in part.split_inclusive(|&byte| byte == b'\n') {
        *number += 1;
        let end = start + line.len();
        let line = line.strip_suffix(b"\n").unwrap_or(line);
        let before = asked.answers.len();
        desk.line(line, &mut asked.answers);
        let answer = &asked.answers[before..];
        if !answer.is_empty() {
            asked.lines.push((*number, start..start + line.len()));
        }
        let answer = answer.strip_suffix(b"\n").unwrap_or(answer);
        counts.line(line, answer, desk.book());
        start = end;
    }
    asked.part = part;
    asked
}

fn await_answers(running: &mut Running, asked: &Asked) -> Result<(), String> {
    running.answers(&asked.answers).map_err(|difference| {
        let (number, place) = asked.lines[difference.after].clone();
        format!(
            "line {number}: {}\n  expected: {}\n  answered: {}",
            text(&asked.part[place]),
            difference.expected,
            difference.answered,
        )
    })
}

/// A text in parts of whole lines.
pub fn in_parts(text: &[u8]) -> impl Iterator<Item = Vec<u8>> + '_ {
    let mut rest = text;
    std::iter::from_fn(move || {
        let least = rest.len().min(1 << 16);
        let feed = rest[least..].iter().position(|&byte| byte == b'\n');
        let (part, after) = rest.split_at(feed.map_or(rest.len(), |feed| least + feed + 1));
        rest = after;
        (!part.is_empty()).then(|| part.to_vec())
    })
}
