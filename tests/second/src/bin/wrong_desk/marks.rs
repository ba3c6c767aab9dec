//! Marks with a fault: in the answers of ASK and CONFIRM, in what takes a mark away or leaves it, and
//! in what UNDO brings back.

use second::{Book, State};

use crate::{answer_of, offered, trial, RECORD};

/// The marks as this desk has them, bit code - 1 for each. They are the right ones up to the first
/// answer that the fault makes wrong.
#[derive(Default)]
pub struct WrongMarks {
    marks: u32,
    /// Those before the last SET.
    kept: u32,
    /// The codes that CONFIRM opened last.
    confirmed: u32,
    /// Of these, the ones that this desk has left open at the last SET, though they fell, and the
    /// ones that it has not opened at the last UNDO, though they came back.
    misjudged: (u32, u32),
}

/// A call and its right answer.
pub struct Made<'a> {
    pub call: &'a str,
    pub numbers: &'a [u32],
    /// 0 if it was accepted.
    pub refusal: u32,
    pub answer: &'a str,
    /// The book before it, and after it.
    pub before: &'a Book,
    pub after: &'a Book,
    /// The records by code, and the numbers of the sheet in force, both before it.
    pub records: &'a [[u32; RECORD]; 33],
    pub in_force: &'a [u32],
}

impl Made<'_> {
    /// The code, if the call has one that is from 1 to 32.
    fn code(&self) -> Option<u32> {
        let with_code = [
            "put", "open", "ask", "confirm", "close", "drop", "quote", "direct",
        ];
        let code = *self.numbers.first()?;
        let has_code = with_code.contains(&self.call) && (1..=32).contains(&code);
        has_code.then_some(code)
    }

    fn bit(&self) -> u32 {
        self.code().map_or(0, |code| 1 << (code - 1))
    }

    fn regions_and_methods(&self) -> (u32, u32) {
        let record = &self.records[self.code().unwrap_or(0) as usize];
        (offered(record).len() as u32, record[4].count_ones())
    }

    fn ok_cells(&self) -> String {
        let (regions, methods) = self.regions_and_methods();
        format!("ok {}\n", regions * methods)
    }
}

pub fn codes(test: impl Fn(u32) -> bool) -> u32 {
    let met = (1..=32).filter(|&code| test(code));
    met.map(|code| 1 << (code - 1)).sum()
}

/// The codes that are open in one book and not in another.
pub fn open_in_the_one(one: &Book, other: &Book) -> u32 {
    let open = |book: &Book| codes(|code| book.state(code) == Some(State::Open));
    open(one) & !open(other)
}

/// Whether the mark of the call's code is still there after it was accepted.
fn survives(fault: &str, made: &Made) -> bool {
    let empty = made.code().and_then(|code| made.before.state(code)) == Some(State::Empty);
    match fault {
        "a mark survives drop and then put" => made.call == "drop" || empty,
        _ => fault == format!("a mark survives {}", made.call),
    }
}

impl WrongMarks {
    /// The answer that the fault, or this desk's marks, make of the right one. `None` if it stays.
    pub fn answer(&self, fault: &str, made: &Made) -> Option<String> {
        let here = self.marks & made.bit() > 0;
        match (made.call, made.refusal) {
            ("confirm", 16) if here => return Some(made.ok_cells()),
            ("confirm", 0) if !here => return Some("refused 16\n".to_string()),
            _ => {}
        }
        let (open, draft) = self.misjudged;
        match made.call {
            "put" | "open" | "ask" | "confirm" | "drop" | "direct" if open & made.bit() > 0 => {
                return Some("refused 7\n".to_string())
            }
            "close" if open & made.bit() > 0 => return Some("ok\n".to_string()),
            "close" if draft & made.bit() > 0 => return Some("refused 12\n".to_string()),
            _ => {}
        }
        let wrong = match (fault, made.call, made.refusal) {
            ("no 16", "confirm", 16)
            | ("no 11", "ask", 11)
            | ("no 10", "ask", 10)
            | ("no 7", "ask", 7) => return Some(made.ok_cells()),
            ("region 0 alone is looked at", "ask", 11)
                if !made.answer.starts_with("refused 11 0 ") =>
            {
                return Some(made.ok_cells())
            }
            ("11 before 16", "confirm", 16) => {
                let answer = answer_of(made.before.clone(), "open", made.numbers)?;
                return answer.starts_with("refused 11").then_some(answer);
            }
            ("it answers the regions", "ask" | "confirm", 0) => {
                return Some(format!("ok {}\n", made.regions_and_methods().0))
            }
            ("a trial tells marked drafts", "trial", 0) => {
                let mut open = made.before.clone();
                for code in (1..=32).filter(|&code| made.before.is_marked(code)) {
                    open.confirm(code).ok()?;
                }
                let told = trial(&open, made.numbers, made.numbers).ok()?;
                return Some(format!("ok {told}\n"));
            }
            ("a trial does not tell what was confirmed", "trial", 0) => {
                let told = trial(made.before, made.numbers, made.numbers).ok()?;
                return Some(format!("ok {}\n", told & !self.confirmed));
            }
            ("10 before 16", "confirm", 16) if made.before.t().is_none() => "refused 10\n",
            ("10 before 9", "ask", 9) if made.before.t().is_none() => "refused 10\n",
            ("10 before 6", "ask", 6) if made.before.t().is_none() => "refused 10\n",
            ("16 before 6", "confirm", 6) => "refused 16\n",
            ("16 before 9", "confirm", 9) => "refused 16\n",
            ("16 before 7", "confirm", 7) => "refused 16\n",
            ("it answers no cells", "ask" | "confirm", 0) => "ok\n",
            ("it answers 28 cells", "ask" | "confirm", 0) => "ok 28\n",
            ("no figures with 11", "ask", 11) => "refused 11\n",
            _ if !here => return None,
            ("a marked draft is not asked for again", "ask", 0) => "refused 7\n",
            ("a marked draft is not opened", "open", 0) => "refused 7\n",
            ("a marked draft is not put over", "put", 0 | 8) => "refused 7\n",
            ("a marked draft is not dropped", "drop", 0) => "refused 7\n",
            ("a marked draft is not quoted", "quote", 0) => "refused 9\n",
            ("a marked draft is closed", "close", 12) => "ok\n",
            _ => return None,
        };
        Some(wrong.to_string())
    }

    /// What the call makes of the marks, and what the fault makes of that.
    pub fn after(&mut self, fault: &str, made: &Made) {
        let Made { call, .. } = *made;
        let bit = made.bit();
        let accepted = made.refusal == 0;
        let outcome = if accepted { "an accepted" } else { "a refused" };
        if fault == format!("{outcome} {call} clears all marks") {
            self.marks = 0;
        }
        if fault == format!("{outcome} {call} clears the mark of its code") {
            self.marks &= !bit;
        }
        if !accepted {
            return;
        }
        match (fault, call) {
            ("what was confirmed stays open at a set", "set") => {
                self.misjudged.0 = open_in_the_one(made.before, made.after) & self.confirmed;
            }
            ("undo does not open what was confirmed", "undo") => {
                self.misjudged.1 = open_in_the_one(made.after, made.before) & self.confirmed;
            }
            (_, "confirm") => self.confirmed |= bit,
            (_, "put" | "drop" | "open" | "close") => self.confirmed &= !bit,
            _ => {}
        }
        match call {
            "set" => {
                let marks = self.marks;
                self.marks &= self.left_by_set(fault, made);
                self.kept = match fault {
                    "undo brings back older marks" => self.kept | marks,
                    _ => marks,
                };
            }
            "undo" => {
                self.marks = match fault {
                    "undo loses the marks" => 0,
                    "undo brings back one mark" => self.kept & self.kept.wrapping_neg(),
                    "undo marks all drafts" => {
                        codes(|code| made.after.state(code) == Some(State::Draft))
                    }
                    _ => self.kept,
                };
                self.kept = 0;
            }
            "ask" => match fault {
                "ask takes a mark away" => self.marks ^= bit,
                "the next code is marked too" => self.marks |= bit | bit.rotate_left(1),
                "the code before is marked too" => self.marks |= bit | bit.rotate_right(1),
                "the next code is marked" => self.marks |= bit.rotate_left(1),
                "one mark is kept at a time" => self.marks = bit,
                _ => self.marks |= bit,
            },
            "put" | "drop" | "open" | "confirm" if !survives(fault, made) => self.marks &= !bit,
            _ => {}
        }
    }

    /// The codes whose marks a SET leaves.
    fn left_by_set(&self, fault: &str, made: &Made) -> u32 {
        let fallen = open_in_the_one(made.before, made.after);
        match fault {
            "a mark survives set" => u32::MAX,
            "a mark survives a set of the sheet in force" if made.in_force == made.numbers => {
                u32::MAX
            }
            "a mark survives a set by which none fall" if fallen == 0 => u32::MAX,
            "a mark survives a set under which the draft is within the cap" => {
                codes(|code| made.after.clone().ask(code).is_ok())
            }
            "set clears the mark of code 1 alone" => !1,
            "set clears all marks but that of code 1" => 1,
            "set clears all marks but that of code 32" => 1 << 31,
            _ => 0,
        }
    }
}
