//! Desks with a fault: in the order of refusal 17, in what is outside a desk, in what one desk's calls
//! are to another's, and in the lines that begin with `desk`.

use second::{Book, State, Tariff};

use crate::{answer_of_line, offered, refusal_of, Named, RECORD};

const ALL: u32 = 16_383;
/// The calls of a desk with all fourteen.
const FOR_ALL: [&str; 4] = ["set", "undo", "trial", "direct"];

/// The refusals of each call, in their order.
fn order(call: &str) -> &'static [u32] {
    match call {
        "set" | "trial" => &[17, 1, 2, 3, 4, 14, 5],
        "undo" => &[17, 15],
        "put" => &[6, 7, 8, 17],
        "open" | "ask" => &[6, 9, 17, 7, 10, 11],
        "confirm" => &[6, 9, 17, 7, 16],
        "close" => &[6, 9, 17, 12],
        "drop" => &[6, 9, 17, 7],
        "direct" => &[17, 6, 9, 7],
        "benchmark" | "maximum" => &[13, 17, 10],
        _ => &[6, 9, 10, 13, 17],
    }
}

/// Whether 17 comes before another refusal of the call.
fn is_before(fault: &str, call: &str, refusal: u32) -> bool {
    let place = |of: u32| order(call).iter().position(|&refusal| refusal == of);
    let of_call = fault
        .strip_prefix(call)
        .and_then(|rest| rest.strip_prefix(", 17 "));
    match of_call {
        Some("first") => true,
        Some("last") => false,
        Some(change) if change == format!("before {refusal}") => true,
        Some(change) if change == format!("after {refusal}") => false,
        _ => place(17) < place(refusal),
    }
}

fn is_set(desk: u32) -> bool {
    (1..=ALL).contains(&desk)
}

/// What this desk has that a right one has not. It is right up to the first answer that the fault
/// makes wrong.
pub struct WrongDesks {
    /// The last desk that was named.
    last: u32,
    /// Whether a SET can be taken back, as this desk has it.
    chance: bool,
    /// By code: who asked.
    asked_by: [u32; 33],
    /// The codes whose marks this desk has lost, and those whose marks it has kept.
    lost: u32,
    kept: u32,
    /// The codes that a part desk opened last, and those of them that this desk left open at the last
    /// SET, though they fell.
    opened: u32,
    left_open: u32,
}

impl Default for WrongDesks {
    fn default() -> WrongDesks {
        WrongDesks {
            last: ALL,
            chance: false,
            asked_by: [ALL; 33],
            lost: 0,
            kept: 0,
            opened: 0,
            left_open: 0,
        }
    }
}

/// A call, the right answer, and the book before it and after it.
pub struct Asked<'a> {
    pub named: &'a Named,
    pub answer: &'a str,
    pub before: &'a Book,
    pub after: &'a Book,
    pub records: &'a [[u32; RECORD]; 33],
}

impl Asked<'_> {
    fn code(&self) -> u32 {
        let first = self.named.numbers.first().copied().unwrap_or(0);
        match &self.named.call[..] {
            "set" | "undo" | "trial" | "benchmark" | "maximum" | "rebate" => 0,
            _ if first > 32 => 0,
            _ => first,
        }
    }

    fn bit(&self) -> u32 {
        match self.code() {
            0 => 0,
            code => 1 << (code - 1),
        }
    }

    /// The regions of the tariff in the place, if there is one.
    fn old_regions(&self) -> Option<u32> {
        match self.before.state(self.code()) {
            Some(State::Draft | State::Open) => Some(self.records[self.code() as usize][3]),
            _ => None,
        }
    }

    /// The regions of the tariff that is put, if it is one.
    fn new_regions(&self) -> Option<u32> {
        let put = self.named.call == "put";
        let tariff = self.named.numbers.get(1..).filter(|_| put)?;
        Some(Tariff::new(tariff)?.regions())
    }

    fn ok_cells(&self) -> String {
        let record = &self.records[self.code() as usize];
        let cells = offered(record).len() as u32 * record[4].count_ones();
        format!("ok {cells}\n")
    }
}

fn answer_to(book: &Book, line: &[u8]) -> String {
    answer_of_line(book.clone(), line).unwrap_or_default()
}

/// The desk that the fault takes for the one of the call.
fn wrong_desk(fault: &str, call: &str, desk: u32, last: u32, named: bool) -> u32 {
    let for_all = FOR_ALL.contains(&call);
    let is_code = !for_all && !["benchmark", "maximum"].contains(&call);
    match fault {
        "the last desk stays" if !named => last,
        "without a desk there is none" if !named => 0,
        "16,383 is not all fourteen" if named && desk == ALL => ALL - 1,
        "0 is all fourteen" if desk == 0 => ALL,
        "0 may use every code" if desk == 0 && is_code => ALL,
        "0 may query" if desk == 0 && !is_code && !for_all => ALL,
        "16,384 is all fourteen" if desk == 16_384 => ALL,
        "32,767 is all fourteen" if desk == 32_767 => ALL,
        "4,294,967,295 is all fourteen" if desk == u32::MAX => ALL,
        "a higher bit is passed over" => desk & ALL,
        "a higher bit is passed over on codes" if is_code => desk & ALL,
        "a higher bit is passed over in questions" if !is_code && !for_all => desk & ALL,
        "a desk of 16 bits" => desk & 0xffff,
        "a desk of 31 bits" => desk & 0x7fff_ffff,
        "part desks are never allowed" if desk < ALL => 0,
        "all but one may use set, trial and undo" if desk.count_ones() == 13 && for_all => ALL,
        "all but one may use set" if desk.count_ones() == 13 && call == "set" => ALL,
        "every part desk may use set, trial and undo" if is_set(desk) && for_all => ALL,
        "the bits are one too high" if is_set(desk) && desk < ALL => desk << 1 & ALL,
        "the bits are one too low" if is_set(desk) && desk < ALL => desk >> 1,
        "the bits are the other way round" if is_set(desk) => desk.reverse_bits() >> 18,
        _ => {
            let region = fault.strip_prefix("region ");
            let region = region.and_then(|rest| rest.strip_suffix(" is not looked at"));
            match region.and_then(|region| region.parse::<u32>().ok()) {
                Some(region) if is_set(desk) && !for_all => desk | 1 << region,
                _ => desk,
            }
        }
    }
}

/// Whether a call is outside the desk, as the fault has it.
fn is_outside(fault: &str, asked: &Asked, desk: u32) -> bool {
    let call = &asked.named.call[..];
    let numbers = &asked.named.numbers;
    let first = numbers.first().copied().unwrap_or(0);
    if fault == format!("{call}, no 17") {
        return false;
    }
    if fault == format!("{call}, 17 to every part desk") && desk != ALL {
        return true;
    }
    if FOR_ALL.contains(&call) {
        return desk != ALL;
    }
    if !is_set(desk) {
        return true;
    }
    if ["benchmark", "maximum"].contains(&call) {
        let bit = match fault {
            "a part desk may query every region" => return false,
            "the region beside it is asked for" => 1u32.checked_shl(first + 1),
            _ => 1u32.checked_shl(first),
        };
        return first < 14 && bit.unwrap_or(0) & desk == 0;
    }
    let of_tariff = |regions: u32| match fault {
        "overlap is enough" => regions & desk == 0,
        "the first region decides" => regions & regions.wrapping_neg() & desk == 0,
        "the last region decides" => desk >> regions.ilog2() & 1 == 0,
        "the desk inside the tariff is enough" => desk & !regions != 0 && regions & !desk != 0,
        "only a tariff in all its regions is inside" => desk != ALL && regions != desk,
        "as many regions as the tariff has are enough" => desk.count_ones() < regions.count_ones(),
        _ => regions & !desk != 0,
    };
    let (old, new) = (asked.old_regions(), asked.new_regions());
    match (call, fault) {
        ("put", "put looks at the new tariff alone") => new.is_some_and(of_tariff),
        ("put", "put looks at the old draft alone") => old.is_some_and(of_tariff),
        ("put", "put looks at the new tariff where there is no old draft") => {
            old.or(new).is_some_and(of_tariff)
        }
        ("put", "put is content with one of the two") => {
            new.is_some_and(of_tariff) && old.is_none_or(of_tariff)
        }
        ("put", "put looks at both as one set that overlaps") => {
            new.is_some() && (old.unwrap_or(0) | new.unwrap_or(0)) & desk == 0
        }
        ("quote", "quote looks at its region alone") => {
            let region = numbers.get(1).copied().unwrap_or(0);
            1u32.checked_shl(region).unwrap_or(0) & desk == 0
        }
        _ => old.is_some_and(of_tariff) || new.is_some_and(of_tariff),
    }
}

impl WrongDesks {
    /// The answer that the fault makes of the right one. `None` if it stays.
    pub fn answer(&self, fault: &str, asked: &Asked) -> Option<String> {
        let Named {
            desk,
            call,
            numbers,
        } = asked.named;
        let own = desk.unwrap_or(ALL);
        let seen = wrong_desk(fault, call, own, self.last, desk.is_some());
        let right = refusal_of(asked.answer);
        match (&call[..], right) {
            ("undo", 15) if self.chance => return Some("ok\n".to_string()),
            ("undo", 0) if !self.chance => return Some("refused 15\n".to_string()),
            ("confirm", 0) if self.lost & asked.bit() > 0 => {
                return Some("refused 16\n".to_string())
            }
            ("confirm", 0)
                if fault == "a mark is there for the desk that asked alone"
                    && self.asked_by[asked.code() as usize] != own =>
            {
                return Some("refused 16\n".to_string())
            }
            ("confirm", 16) if self.kept & asked.bit() > 0 => return Some(asked.ok_cells()),
            ("close", 12) if self.left_open & asked.bit() > 0 => return Some("ok\n".to_string()),
            ("put" | "open" | "ask" | "confirm" | "drop", 0 | 8 | 10 | 11 | 16)
                if self.left_open & asked.bit() > 0 =>
            {
                return Some("refused 7\n".to_string())
            }
            _ => {}
        }
        if let Some(answer) = wrong_answer(fault, asked, own) {
            return Some(answer);
        }
        // What is outside the desk is refused by its accounts.
        if call == "rebate" {
            let line = Named::line(Some(seen), call, numbers);
            return Some(answer_to(asked.before, &line));
        }
        // As the desk with all fourteen is answered, but for 17.
        let line = Named::line(None, call, numbers);
        let to_all = answer_to(asked.before, &line);
        let refusal = refusal_of(&to_all);
        let first = refusal == 0 || is_before(fault, call, refusal);
        if first && is_outside(fault, asked, seen) {
            return Some("refused 17\n".to_string());
        }
        Some(to_all)
    }

    /// What the call makes of all this.
    pub fn after(&mut self, fault: &str, asked: &Asked) {
        let Named { desk, call, .. } = asked.named;
        let own = desk.unwrap_or(ALL);
        let (bit, code) = (asked.bit(), asked.code() as usize);
        self.last = desk.unwrap_or(self.last);
        let right = refusal_of(asked.answer);
        if right == 17 {
            match fault {
                "a call refused 17 ends the chance" => self.chance = false,
                "a call refused 17 clears the mark" => self.lost |= bit,
                "a call refused 17 makes a chance" => self.chance = true,
                _ => {}
            }
        }
        if right != 0 {
            return;
        }
        let part = own != ALL;
        match &call[..] {
            "set" => self.chance = true,
            "undo" => self.chance = false,
            "put" | "open" | "ask" | "confirm" | "close" | "drop" | "direct" => {
                self.chance &= part && fault == "the chance survives a part desk's calls";
            }
            _ => {}
        }
        if part && fault == "the chance ends by a part desk's questions" {
            let question = ["benchmark", "maximum", "quote"].contains(&&call[..]);
            self.chance &= !question;
        }
        match &call[..] {
            "ask" => {
                self.lost &= !bit;
                self.kept &= !bit;
                self.asked_by[code] = own;
                if part && fault == "a part desk marks nothing" {
                    self.lost |= bit;
                }
            }
            "put" => {
                self.kept &= !bit;
                let was_marked = asked.before.is_marked(asked.code());
                if part && was_marked && fault == "a part desk's put keeps the mark" {
                    self.kept |= bit;
                }
            }
            "set" => {
                self.kept = 0;
                let open = |book: &Book, code: u32| book.state(code) == Some(State::Open);
                let fell = |code: &u32| open(asked.before, *code) && !open(asked.after, *code);
                let fallen: u32 = (1..=32).filter(fell).map(|code| 1 << (code - 1)).sum();
                self.left_open = 0;
                if fault == "what a part desk opened stays open at a set" {
                    self.left_open = fallen & self.opened;
                }
            }
            "undo" => self.left_open = 0,
            _ => {}
        }
        match &call[..] {
            "open" | "confirm" if part => self.opened |= bit,
            "open" | "confirm" => self.opened &= !bit,
            _ => {}
        }
        if ["drop", "open", "confirm"].contains(&&call[..]) {
            self.kept &= !bit;
        }
    }
}

/// Answers to good calls that are wrong in another way.
fn wrong_answer(fault: &str, asked: &Asked, own: u32) -> Option<String> {
    let ok = refusal_of(asked.answer) == 0;
    let call = &asked.named.call[..];
    let part = own != ALL;
    match fault {
        "17 where 9 is meant, for a part desk" if part && asked.answer == "refused 9\n" => {
            Some("refused 17\n".to_string())
        }
        "no cells to a part desk" if part && ok && ["open", "ask", "confirm"].contains(&call) => {
            Some("ok\n".to_string())
        }
        "no figures with 11 to a part desk" if part && asked.answer.starts_with("refused 11 ") => {
            Some("refused 11\n".to_string())
        }
        _ => None,
    }
}

/// The answer to a line that begins with `desk`, if the fault makes another of it. `book` is the one
/// before it.
pub fn wrong_line(fault: &str, line: &[u8], right: &str, book: &Book) -> Option<String> {
    let text = String::from_utf8_lossy(line);
    let mut words: Vec<&str> = text.trim_end_matches('\r').split(' ').collect();
    words.retain(|word| !word.is_empty());
    let to = |words: &[&str]| answer_to(book, words.join(" ").as_bytes());
    let (start, what) = match right.split_once(": ") {
        Some((start, what)) if start.starts_with("error") => (start, what),
        _ => ("error line 1", ""),
    };
    let error = |what: &str| format!("{start}: {what}\n");
    let (no_desk, unknown) = (what == NO_DESK, what == UNKNOWN);
    let third = words.get(2).copied().unwrap_or("");
    let no_number = what.ends_with(NO_NUMBER);
    Some(match fault {
        "DESK is desk" if words.first() == Some(&"DESK") => {
            words[0] = "desk";
            to(&words)
        }
        _ if words.first() != Some(&"desk") => return None,
        "the desk's words are passed over" => to(words.get(2..)?),
        "words are counted from the call" if no_number => {
            let word: usize = what.split(' ').nth(1)?.parse().ok()?;
            error(&format!("word {}{}", word - 2, NO_NUMBER.trim_end()))
        }
        "a second desk is taken" if unknown && third == "desk" => to(&words[2..]),
        "a comment behind a desk is passed over" if unknown && third.starts_with('#') => {
            String::new()
        }
        "a desk without a call is passed over" if no_desk && words.len() == 2 => String::new(),
        "a desk without a call is an unknown call" if no_desk && words.len() == 2 => {
            error("unknown call")
        }
        "a desk without a number is an unknown call" if no_desk && words.len() == 1 => {
            error("unknown call")
        }
        "the number of a desk is word 2" if no_desk && words.len() > 2 => {
            error(&format!("word 2{}", NO_NUMBER.trim_end()))
        }
        "an unknown call comes before its desk"
            if no_desk && words.len() > 2 && to(&words[2..]).ends_with(UNKNOWN) =>
        {
            error("unknown call")
        }
        "its numbers come before an unknown call" if unknown => {
            let numbers = words.get(3..)?;
            let bad = |word: &&str| word.parse::<u32>().is_err();
            let place = numbers.iter().position(bad)?;
            error(&format!("word {}{}", place + 4, NO_NUMBER.trim_end()))
        }
        "a count comes before a word that is no number"
            if no_number && third == "open" && words.len() > 4 =>
        {
            error("open takes 1 number")
        }
        "the desk's number is one of the call's"
            if what.ends_with(" takes 1 number\n") && words.len() == 3 =>
        {
            to(&[words[2], words[1]])
        }
        "2^32 is desk 0" if no_desk && words.get(1) == Some(&"4294967296") => {
            words[1] = "0";
            to(&words)
        }
        "zeros before a desk are no number" if what.is_empty() && words[1].len() > 10 => {
            error(NO_DESK.trim_end())
        }
        _ => return None,
    })
}

const NO_DESK: &str = "desk takes a number and a call\n";
const UNKNOWN: &str = "unknown call\n";
const NO_NUMBER: &str = " is not a number from 0 to 4294967295\n";
