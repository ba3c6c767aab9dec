//! The desk with a fault, to show that the comparison finds it.
//!
//!     wrong_desk FAULT
//!
//! The faults are listed in `tests/wrong_desks.rs`, by the part of the comparison that has to
//! find each. Without one of them it is a right desk.

use std::io::{self, Read, Write};
use std::process::ExitCode;
use std::time::Duration;

use desks::WrongDesks;
use directions::WrongDirections;
use marks::{Made, WrongMarks};
use second::desk::{Desk, LINE_LIMIT};
use second::{
    field_value, operating_costs, period_days, Book, NotOpened, Refusal, State, Tariff, FIELDS,
    PEAK_SHARE, RECORD, REGIONAL, REGIONS, SMNCC, STANDING_LIMIT, WHOLE,
};

#[path = "wrong_desk/desks.rs"]
mod desks;
#[path = "wrong_desk/directions.rs"]
mod directions;
#[path = "wrong_desk/marks.rs"]
mod marks;

const BLOCK: usize = 65_536;

/// The desk's lines cut out of its input, with the fault.
struct WrongDesk {
    fault: String,
    desk: Desk,
    begun: Vec<u8>,
    /// The numbers of the sheet in force and its period.
    in_force: Vec<u32>,
    /// The same before the last SET that was accepted.
    before: Vec<u32>,
    /// The last tariff put at each code.
    records: [[u32; RECORD]; 33],
    /// The set of codes that this desk has kept open at the last SET, though they fell, and of
    /// those that it made drafts, though they did not.
    misjudged: (u32, u32),
    undos: WrongUndos,
    marks: WrongMarks,
    desks: WrongDesks,
    directions: WrongDirections,
}

/// A line that is a call: its desk, if one is named, its word and its numbers.
struct Named {
    desk: Option<u32>,
    call: String,
    numbers: Vec<u32>,
}

impl Named {
    fn of(line: &[u8]) -> Named {
        let text = String::from_utf8_lossy(line);
        let mut words = text.split_ascii_whitespace();
        let mut call = words.next().unwrap_or_default();
        let mut desk = None;
        if call == "desk" {
            desk = words.next().and_then(|word| word.parse().ok());
            call = words.next().unwrap_or_default();
        }
        Named {
            desk,
            call: call.to_string(),
            numbers: words.flat_map(str::parse).collect(),
        }
    }

    fn line(desk: Option<u32>, call: &str, numbers: &[u32]) -> Vec<u8> {
        let desk = desk.map_or(String::new(), |desk| format!("desk {desk} "));
        let numbers: Vec<_> = numbers.iter().map(u32::to_string).collect();
        format!("{desk}{call} {}", numbers.join(" ")).into_bytes()
    }
}

/// The number of the refusal that an answer begins with, or 0.
fn refusal_of(answer: &str) -> u32 {
    let rest = answer.strip_prefix("refused ");
    let number = rest.and_then(|rest| rest.split_whitespace().next());
    number.and_then(|number| number.parse().ok()).unwrap_or(0)
}

/// UNDO by copies of the book, with a fault.
#[derive(Default)]
struct WrongUndos {
    /// The books to go back to, the last one first to be gone to.
    kept: Vec<Book>,
    /// A sheet by which questions are answered in place of the one in force.
    by_sheet: Option<Vec<u32>>,
}

impl WrongDesk {
    fn is(&self, fault: &str) -> bool {
        self.fault == fault
    }

    /// The fault, if it is one of this call.
    fn fault_of(&self, call: &str) -> Option<&str> {
        self.fault.strip_prefix(call)?.strip_prefix(": ")
    }

    /// Takes what one read has given.
    fn take(&mut self, bytes: &[u8], out: &mut Vec<u8>) {
        let full = bytes.len() == BLOCK;
        let mut bytes = bytes;
        if full && self.is("the last byte of a full block is lost") {
            bytes = &bytes[..BLOCK - 1];
        }
        for &byte in bytes {
            if byte == b'\n' {
                self.end_line(out);
            } else {
                self.begun.push(byte);
            }
        }
        let ended = bytes.last() == Some(&b'\n');
        if full && !ended && self.is("a line ends with a full block") {
            self.end_line(out);
        }
        if full && ended && self.is("a line more after a full block") {
            self.end_line(out);
        }
        if full
            && bytes.last() == Some(&b'\r')
            && self.is("a return at the end of a full block is lost")
        {
            self.begun.pop();
        }
        if !ended && self.is("half a line is answered") {
            self.end_line(out);
        }
        // Lines that come together with answered ones would shift those.
        if ended && out.is_empty() && self.is("silent lines are answered") {
            out.extend_from_slice(b"ok\n");
        }
    }

    fn end_line(&mut self, out: &mut Vec<u8>) {
        let line = std::mem::take(&mut self.begun);
        self.line(&line, out);
    }

    fn line(&mut self, line: &[u8], out: &mut Vec<u8>) {
        let too_long = [b'x'; LINE_LIMIT + 1];
        let comment = line.iter().find(|&&byte| byte != b' ') == Some(&b'#');
        let line = match &self.fault[..] {
            "16,384 bytes are too long" if line.len() == LINE_LIMIT => &too_long[..],
            "16,385 bytes are not too long" if line.len() == LINE_LIMIT + 1 => &line[..LINE_LIMIT],
            "the return is not counted" => line.strip_suffix(b"\r").unwrap_or(line),
            "a long comment is passed over" if comment => b"#",
            "desks are not known" if line.starts_with(b"desk ") => b"unknown",
            _ => line,
        };
        // Blank lines and comments, of which there may be very many.
        let first = line.iter().find(|&&byte| byte != b' ');
        if matches!(first, None | Some(b'#' | b'\r')) {
            return self.desk.line(line, out);
        }
        if self.fault_of("desks").is_some() {
            return self.line_with_wrong_desks(line, out);
        }
        if self.fault_of("directions").is_some() || self.fault_of("rebates").is_some() {
            return self.line_with_wrong_directions(line, out);
        }
        let start = out.len();
        let Named {
            desk,
            call,
            numbers,
        } = Named::of(line);
        let call = &call[..];
        let mut elsewhere = None;
        let mut other = None;
        if is_call(line) {
            // The other faults are not of what is outside the desk.
            let outside = || {
                let answer = answer_of_line(self.desk.book().clone(), line);
                answer.is_some_and(|answer| answer == "refused 17\n")
            };
            if desk.is_some() && outside() {
                return self.desk.line(line, out);
            }
            if self.fault_of("undo").is_some() {
                return self.line_with_wrong_undo(call, &numbers, line, out);
            }
            if ["marks", "ask", "confirm"]
                .iter()
                .any(|of| self.fault_of(of).is_some())
            {
                return self.line_with_wrong_marks(call, &numbers, line, out);
            }
            let book = self.wrong_book(call, &numbers);
            elsewhere = book.and_then(|book| answer_of(book, call, &numbers));
            let for_all = [None, Some(16_383)].contains(&desk);
            other = self.wrong_numbers(call, &numbers).filter(|_| for_all);
            if call == "set" && self.fault_of(call).is_some() {
                self.misjudge(&numbers);
            }
        }
        match other {
            Some(numbers) => self.desk.line(&Named::line(desk, call, &numbers), out),
            None => self.desk.line(line, out),
        }
        let answer = &out[start..];
        let wrong = match (call, answer) {
            ("trial", [b'o' | b'r', ..]) => self.wrong_trial(&numbers),
            (_, [b'o' | b'r', ..]) => elsewhere
                .or_else(|| self.wrong_state(call, &numbers))
                .or_else(|| self.wrong_figures(call, &numbers, answer)),
            _ => None,
        };
        if let Some(answer) = wrong {
            out.truncate(start);
            out.extend_from_slice(answer.as_bytes());
        } else if let Some(refusal) = self.wrong_refusal(call, &numbers, answer) {
            out.truncate(start);
            out.extend_from_slice(refusal);
        } else if call == "set" && answer == b"ok\n" {
            self.before = std::mem::replace(&mut self.in_force, numbers);
        } else if call == "undo" && answer == b"ok\n" {
            self.in_force = std::mem::take(&mut self.before);
            self.misjudged = (0, 0);
        } else if call == "put" && answer == b"ok\n" {
            let record = numbers[1..].try_into();
            // A fault may have taken another length.
            self.records[numbers[0] as usize] = record.unwrap_or([0; RECORD]);
        }
    }

    /// A line to a desk that has desks with regions wrong.
    fn line_with_wrong_desks(&mut self, line: &[u8], out: &mut Vec<u8>) {
        let start = out.len();
        let fault = self.fault_of("desks").unwrap_or_default().to_string();
        let before = self.desk.book().clone();
        self.desk.line(line, out);
        let answer = String::from_utf8_lossy(&out[start..]).into_owned();
        let mut wrong = desks::wrong_line(&fault, line, &answer, &before);
        if !answer.is_empty() && !answer.starts_with("error") {
            let named = Named::of(line);
            let asked = desks::Asked {
                named: &named,
                answer: &answer,
                before: &before,
                after: self.desk.book(),
                records: &self.records,
            };
            wrong = wrong.or_else(|| self.desks.answer(&fault, &asked));
            self.desks.after(&fault, &asked);
            if named.call == "put" && answer == "ok\n" {
                let record = named.numbers[1..].try_into();
                self.records[named.numbers[0] as usize] = record.expect("a tariff");
            }
        }
        if let Some(wrong) = wrong {
            out.truncate(start);
            out.extend_from_slice(wrong.as_bytes());
        }
    }

    /// A line to a desk that has directions wrong, or rebate runs.
    fn line_with_wrong_directions(&mut self, line: &[u8], out: &mut Vec<u8>) {
        let start = out.len();
        let before = self.desk.book().clone();
        self.desk.line(line, out);
        let answer = String::from_utf8_lossy(&out[start..]).into_owned();
        if answer.is_empty() || answer.starts_with("error") {
            return;
        }
        let named = Named::of(line);
        let called = directions::Called {
            named: &named,
            answer: &answer,
            before: &before,
            after: self.desk.book(),
            records: &self.records,
        };
        let wrong = match self.fault_of("rebates") {
            Some(fault) => directions::wrong_run(fault, &called),
            None => None,
        };
        let fault = self.fault_of("directions").or(self.fault_of("rebates"));
        let fault = fault.unwrap_or_default().to_string();
        let wrong = wrong.or_else(|| self.directions.answer(&fault, &called));
        self.directions.after(&fault, &called);
        if named.call == "put" && answer == "ok\n" {
            let record = named.numbers[1..].try_into();
            self.records[named.numbers[0] as usize] = record.expect("a tariff");
        }
        if let Some(wrong) = wrong {
            out.truncate(start);
            out.extend_from_slice(wrong.as_bytes());
        }
    }

    /// A call to a desk whose marks have the fault, or whose ASK or CONFIRM.
    fn line_with_wrong_marks(
        &mut self,
        call: &str,
        numbers: &[u32],
        line: &[u8],
        out: &mut Vec<u8>,
    ) {
        let start = out.len();
        let before = self.desk.book().clone();
        self.desk.line(line, out);
        if out.len() == start {
            return;
        }
        // One of ASK is none of the other calls.
        let fault = self.fault_of("marks").or(self.fault_of(call));
        let fault = fault.unwrap_or_default().to_string();
        let answer = String::from_utf8_lossy(&out[start..]).into_owned();
        let made = Made {
            call,
            numbers,
            refusal: refusal_of(&answer),
            answer: &answer,
            before: &before,
            after: self.desk.book(),
            records: &self.records,
            in_force: &self.in_force,
        };
        if let Some(wrong) = self.marks.answer(&fault, &made) {
            out.truncate(start);
            out.extend_from_slice(wrong.as_bytes());
        }
        self.marks.after(&fault, &made);
        let accepted = made.refusal == 0;
        match (call, &fault[..]) {
            _ if !accepted => {}
            ("ask", "it opens") => drop(self.desk.book_mut().open(numbers[0])),
            ("confirm", "it leaves a draft") => drop(self.desk.book_mut().close(numbers[0])),
            ("set", _) => self.before = std::mem::replace(&mut self.in_force, numbers.to_vec()),
            ("undo", _) => self.in_force = std::mem::take(&mut self.before),
            ("put", _) => {
                let record = numbers[1..].try_into();
                self.records[numbers[0] as usize] = record.expect("a tariff");
            }
            _ => {}
        }
    }

    /// A call to a desk whose UNDO has the fault. The book there is right but for what the fault
    /// makes of it.
    fn line_with_wrong_undo(
        &mut self,
        call: &str,
        numbers: &[u32],
        line: &[u8],
        out: &mut Vec<u8>,
    ) {
        let start = out.len();
        let before = self.desk.book().clone();
        self.desk.line(line, out);
        if out.len() == start {
            return;
        }
        let accepted = out[start..].starts_with(b"ok");
        let fault = self.fault_of("undo").expect("a fault of undo").to_string();
        if call == "undo" {
            let answer = self.wrong_undo(&fault, before);
            out.truncate(start);
            out.extend_from_slice(answer);
            return;
        }
        if let Some(answer) = self.by_another_sheet(call, numbers) {
            out.truncate(start);
            out.extend_from_slice(answer.as_bytes());
        }
        let kept = &mut self.undos.kept;
        match (call, accepted) {
            ("set", true) => {
                if fault != "two steps are kept" {
                    kept.clear();
                }
                kept.push(before);
                if kept.len() > 2 {
                    kept.remove(0);
                }
                self.before = std::mem::replace(&mut self.in_force, numbers.to_vec());
                self.undos.by_sheet = None;
                return;
            }
            ("put" | "open" | "ask" | "confirm" | "close" | "drop" | "direct", true)
                if fault != format!("the chance survives an accepted {call}") =>
            {
                kept.clear();
            }
            _ => {}
        }
        let outcome = if accepted { "an accepted" } else { "a refused" };
        if fault == format!("the chance ends by {outcome} {call}") {
            kept.clear();
        }
        if kept.is_empty() && fault == format!("{outcome} {call} makes a chance") {
            kept.push(before);
        }
    }

    /// UNDO by the copies, with the fault; `before` is the book before it.
    fn wrong_undo(&mut self, fault: &str, before: Book) -> &'static [u8] {
        let restored = self.undos.kept.pop();
        let Some(restored) = restored.filter(|_| fault != "15 to every undo") else {
            *self.desk.book_mut() = before;
            if fault == "no refusal" {
                return b"ok\n";
            }
            return b"refused 15\n";
        };
        let first = restored.t().is_none();
        let taken_back = std::mem::replace(&mut self.in_force, std::mem::take(&mut self.before));
        let book = self.desk.book_mut();
        *book = restored.clone();
        let open = |book: &Book, code: u32| book.state(code) == Some(State::Open);
        let mut back = (1..=32).filter(|&code| open(&restored, code) && !open(&before, code));
        match fault {
            "a chance is left" => self.undos.kept.push(restored),
            "what fell stays a draft" => back.for_each(|code| book.close(code).expect("open")),
            "of what fell one stays a draft" => {
                if let Some(code) = back.next_back() {
                    book.close(code).expect("open");
                }
            }
            "drafts are opened" => {
                for code in 1..=32 {
                    let _ = book.open(code);
                }
            }
            "the first sheet stays in force" if first => *book = before,
            "the new sheet is kept" if !first => self.undos.by_sheet = Some(taken_back),
            "the new period is kept" if !first => {
                let sheet = [&taken_back[..3], &self.in_force[3..]].concat();
                self.undos.by_sheet = Some(sheet);
            }
            "the new fields are kept" if !first => {
                let sheet = [&self.in_force[..3], &taken_back[3..]].concat();
                self.undos.by_sheet = Some(sheet);
            }
            "the book is emptied" => *book = Book::new(),
            // Without a fault the others are found by what they do wrong, and not by the copies.
            _ => {}
        }
        b"ok\n"
    }

    /// The answer to a question by another sheet than the one in force, if there is one.
    fn by_another_sheet(&self, call: &str, numbers: &[u32]) -> Option<String> {
        let sheet = self.undos.by_sheet.as_ref()?;
        let mut book = self.desk.book().clone();
        let set = book.set(sheet[0], sheet[1], sheet[2], &sheet[3..]);
        set.ok()?;
        let question = ["benchmark", "maximum", "quote"].contains(&call);
        question.then(|| answer_of(book, call, numbers))?
    }

    /// Other numbers than those of the call, for faults in SET, in TRIAL or in PUT alone.
    fn wrong_numbers(&self, call: &str, numbers: &[u32]) -> Option<Vec<u32>> {
        if call == "put" {
            return self.wrong_record(numbers);
        }
        let fields = self.wrong_split(call, numbers);
        let fields = fields.or_else(|| self.wrong_sheet(call, numbers))?;
        Some([&numbers[..3], &fields].concat())
    }

    /// The fields of a sheet with another split, or of another length.
    fn wrong_split(&self, call: &str, numbers: &[u32]) -> Option<Vec<u32>> {
        let fault = self.fault_of(call)?;
        let mut fields = numbers.get(3..)?.to_vec();
        match (fault, fields.len()) {
            ("95 numbers are enough", 95) => {
                fields.push(580);
                return Some(fields);
            }
            ("a 97th number is passed over", 97) => {
                fields.pop();
                return Some(fields);
            }
            (_, FIELDS) => {}
            _ => return None,
        }
        let share = fields[PEAK_SHARE];
        fields[PEAK_SHARE] = match (fault, share) {
            ("Economy 7 at 580", 0..=WHOLE) => 580,
            ("peak and off-peak exchanged", 0..=WHOLE) => WHOLE - share,
            ("the peak share in whole percents", 0..=WHOLE) => share / 10 * 10,
            ("a peak share of 0 is not allowed", 0) => WHOLE + 1,
            ("a peak share of 1,000 is not allowed", 1_000) => WHOLE + 1,
            ("a peak share of 1,001 is allowed", 1_001) => WHOLE,
            ("a peak share of up to 10,000 is allowed", 1_001..=10_000) => WHOLE,
            ("the peak share is not looked at", 1_001..) => WHOLE,
            _ => return None,
        };
        Some(fields)
    }

    /// The numbers of a PUT with another record.
    fn wrong_record(&self, numbers: &[u32]) -> Option<Vec<u32>> {
        let fault = self.fault_of("put")?;
        let mut other = numbers.to_vec();
        match (fault, numbers.len() - 1) {
            ("13 numbers are enough", 13) | ("26 numbers are enough", 26) => {
                other.resize(1 + RECORD, 0);
                return Some(other);
            }
            ("a 28th number is passed over", 28) => {
                other.pop();
                return Some(other);
            }
            _ => {}
        }
        let record: &mut [u32; RECORD] = other.get_mut(1..)?.try_into().ok()?;
        if let Some(by_region) = wrong_numbers_by_region(fault, record) {
            *record = by_region;
            return Some(other);
        }
        if let Some(charge) = wrong_charge(fault) {
            Tariff::new(record)?;
            *record = with_charges(record, charge)?;
            return Some(other);
        }
        let economy_7 = record[0] == 2 && Tariff::new(record).is_some();
        match fault {
            "shares in percent are taken" if record[0] == 3 => {
                for share in &mut record[9..REGIONAL] {
                    *share = share.wrapping_mul(10);
                }
                // Those in tenths too.
                Tariff::new(record)?;
            }
            "a share of 1,001 is taken" if record[0] == 3 => {
                for share in &mut record[9..REGIONAL] {
                    *share = if *share == 1_001 { WHOLE } else { *share };
                }
            }
            "shares of 999 are taken" if record[0] == 3 => {
                record[9] = record[9].wrapping_add(1);
                Tariff::new(record)?;
            }
            "Economy 7 goes by its steps" if economy_7 => record[5..7].fill(0),
            "two registers are Economy 7" if record[..2] == [3, 2] => {
                Tariff::new(record)?;
                record[0] = 2;
                record[9..REGIONAL].fill(0);
            }
            "Economy 7 keeps the split in force" if economy_7 => {
                let share = self.in_force.get(3 + PEAK_SHARE).copied().unwrap_or(580);
                record[0] = 3;
                (record[9], record[10]) = (share, WHOLE - share);
            }
            _ => return None,
        }
        Some(other)
    }

    /// The book by which an OPEN or a QUOTE is answered wrongly.
    fn wrong_book(&self, call: &str, numbers: &[u32]) -> Option<Book> {
        let fault = self.fault_of(call)?;
        if !["open", "quote"].contains(&call) {
            return None;
        }
        let code = *numbers.first()?;
        let mut book = self.desk.book().clone();
        match book.state(code)? {
            State::Draft => {}
            State::Open if call == "quote" => book.close(code).ok()?,
            _ => return None,
        }
        if fault == "Economy 7 at 580" {
            let mut sheet = self.in_force.clone();
            *sheet.get_mut(3 + PEAK_SHARE)? = 580;
            book.set(sheet[0], sheet[1], sheet[2], &sheet[3..]).ok()?;
        } else {
            let charge = wrong_charge(fault)?;
            let record = with_charges(&self.records[code as usize], charge)?;
            let directed = book.is_directed(code);
            book.put(code, &record).ok()?;
            if directed {
                book.direct(code).ok()?;
            }
        }
        Some(book)
    }

    /// SET leaves open or makes a draft what the split of the sheet before says, or what other
    /// standing charges say.
    fn misjudge(&mut self, numbers: &[u32]) {
        let book = self.desk.book();
        let Ok(right) = trial(book, numbers, numbers) else {
            return;
        };
        let wrong = if self.is("set: open ones judged by the split before") {
            let before = self.at_the_split_in_force(numbers);
            before.and_then(|before| trial(book, &before, &before).ok())
        } else {
            self.fallen_by_wrong_charges("set", numbers)
        };
        self.misjudged = wrong.map_or((0, 0), |wrong| (right & !wrong, wrong & !right));
    }

    /// The set of the open codes that are over the cap of a sheet with other standing charges.
    fn fallen_by_wrong_charges(&self, call: &str, numbers: &[u32]) -> Option<u32> {
        let charge = wrong_charge(self.fault_of(call)?)?;
        let mut judge = Book::new();
        let set = judge.set(numbers[0], numbers[1], numbers[2], &numbers[3..]);
        set.ok()?;
        let mut fallen = 0;
        for code in 1..=32 {
            let book = self.desk.book();
            if book.state(code) == Some(State::Open) && !book.is_directed(code) {
                let record = with_charges(&self.records[code as usize], charge)?;
                judge.put(code, &record).ok()?;
                fallen |= u32::from(judge.open(code).is_err()) << (code - 1);
            }
        }
        Some(fallen)
    }

    /// The numbers of a sheet with the peak share of the one in force.
    fn at_the_split_in_force(&self, numbers: &[u32]) -> Option<Vec<u32>> {
        let mut numbers = numbers.to_vec();
        *numbers.get_mut(3 + PEAK_SHARE)? = *self.in_force.get(3 + PEAK_SHARE)?;
        Some(numbers)
    }

    /// The answer to a call with a code that this desk takes for open, or for a draft.
    fn wrong_state(&self, call: &str, numbers: &[u32]) -> Option<String> {
        let code = numbers.first().filter(|code| (1..=32).contains(*code))?;
        let among = |set: u32| set >> (code - 1) & 1 == 1;
        let (open, drafts) = (among(self.misjudged.0), among(self.misjudged.1));
        let answer = match call {
            "open" | "put" | "drop" if open => "refused 7\n",
            "close" if open => "ok\n",
            "close" if drafts => "refused 12\n",
            _ => return None,
        };
        Some(answer.to_string())
    }

    /// The answer with its figures at another scale.
    fn wrong_figures(&self, call: &str, numbers: &[u32], answer: &[u8]) -> Option<String> {
        let fault = self.fault_of(call)?;
        let answer = std::str::from_utf8(answer).ok()?;
        let mut words: Vec<String> = answer.split_whitespace().map(str::to_string).collect();
        let over = answer.starts_with("refused 11 ");
        let ok = answer.starts_with("ok ");
        let kind = |wanted: u32| {
            let record = self.records.get(numbers[0] as usize);
            record.is_some_and(|record| record[0] == wanted)
        };
        let (places, by): (&[usize], fn(u64) -> u64) = match (call, fault) {
            ("open", "an excess over 1,200 x m") if over => (&[4], |value| value / 10),
            ("open", "an excess of kind 1 over 1,200 x m") if over && kind(1) => {
                (&[4], |value| value / 10)
            }
            ("quote", "a charge over 1,200 x m") if ok => (&[1], |value| value / 10),
            ("quote", "a maximum over 1,200 x m") if ok => (&[2], |value| value / 10),
            ("quote", "kind 1 over 1,200 x m") if ok && kind(1) => (&[1, 2], |value| value / 10),
            ("quote", "kind 3 over 1,200 x m") if ok && kind(3) => (&[1, 2], |value| value / 10),
            ("maximum", "over 12,000 x m") if ok => (&[1, 2], |value| 1_000 * value),
            ("maximum", "a number over 12,000 x m") if ok => (&[1], |value| 1_000 * value),
            _ => return None,
        };
        for &place in places {
            words[place] = by(words[place].parse().ok()?).to_string();
        }
        Some(words.join(" ") + "\n")
    }

    /// The fields of another sheet than the one in the call, for faults in SET or in TRIAL alone.
    fn wrong_sheet(&self, call: &str, numbers: &[u32]) -> Option<Vec<u32>> {
        let fault = self.fault_of(call)?;
        let fields: &[u32; FIELDS] = numbers.get(3..)?.try_into().ok()?;
        let smncc = field_value(SMNCC, fields[SMNCC]);
        let other = |smncc: i64| {
            let mut fields = *fields;
            fields[SMNCC] = smncc as u32;
            Some(fields.to_vec())
        };
        match fault {
            "-100,000,001 is allowed" if smncc == -100_000_001 => return other(-100_000_000),
            "-100,000,000 is not allowed" if smncc == -100_000_000 => return other(-100_000_001),
            _ => {}
        }
        let refusal = trial(&Book::new(), numbers, numbers).err();
        if smncc >= 0 || !matches!(refusal, None | Some(Refusal::OcBelowZero)) {
            return None;
        }
        let four = operating_costs(fields.first_chunk()?).ok()?;
        // OC is looked at in these places alone, and is 0 where it is below that in another.
        let looked_at = |places: [bool; 4]| {
            let four = std::array::from_fn(|i| if places[i] { four[i] } else { four[i].max(0) });
            with_operating_costs(fields, four)
        };
        match fault {
            "savings are refused" => other(100_000_001),
            "a saving is taken for a cost" => other(-smncc),
            "a saving in ones' complement" => other(smncc + 1),
            "a saving at m alone" => {
                with_operating_costs(fields, [four[0] - smncc, four[1], four[2] - smncc, four[3]])
            }
            "a saving at nil alone" => {
                with_operating_costs(fields, [four[0], four[1] - smncc, four[2], four[3] - smncc])
            }
            "14 at nil alone" => looked_at([true, false, true, false]),
            "14 at m alone" => looked_at([false, true, false, true]),
            "14 for single-rate alone" => looked_at([true, true, false, false]),
            "14 for Economy 7 alone" => looked_at([false, false, true, true]),
            "no 14" => looked_at([false; 4]),
            "14 for an OC of 0" if refusal.is_none() && four.contains(&0) => {
                let mut fields = other(-1)?;
                fields[12] = 0;
                Some(fields)
            }
            _ => None,
        }
    }

    /// Another answer to a trial than the right one, or a change of the book.
    fn wrong_trial(&mut self, numbers: &[u32]) -> Option<String> {
        let book = self.desk.book();
        let codes = |test: &dyn Fn(u32) -> bool| -> u32 {
            let met = (1..=32).filter(|&code| test(code));
            met.map(|code| 1 << (code - 1)).sum()
        };
        let open = codes(&|code| book.state(code) == Some(State::Open));
        let fallen = match trial(book, numbers, numbers) {
            Ok(fallen) => fallen,
            Err(Refusal::FieldRange) if self.is("trial: 2 and 3 exchanged") => {
                return Some("refused 3\n".to_string())
            }
            Err(Refusal::Period) if self.is("trial: 2 and 3 exchanged") => {
                return Some("refused 2\n".to_string())
            }
            Err(_) => return None,
        };
        let mut after = book.clone();
        after
            .set(numbers[0], numbers[1], numbers[2], &numbers[3..])
            .expect("a sheet that the trial accepts");
        let with_sheet = book.t().is_some();
        let set = match &self.fault[..] {
            "trial: bit code" => u64::from(fallen) << 1,
            "trial: those that stay" => (open & !fallen).into(),
            "trial: drafts over the cap too" => {
                let over = |code| after.clone().open(code).is_err_and(|no| no.number() == 11);
                codes(&over).into()
            }
            "trial: all that are drafts then" => {
                codes(&|code| after.state(code) == Some(State::Draft)).into()
            }
            "trial: judged by the sheet in force" if with_sheet => {
                trial(book, &self.in_force, &self.in_force).ok()?.into()
            }
            "trial: judged by the fields in force" if with_sheet => {
                trial(book, numbers, &self.in_force).ok()?.into()
            }
            "trial: judged by the period in force" if with_sheet => {
                trial(book, &self.in_force, numbers).ok()?.into()
            }
            "trial: judged by the split in force" if with_sheet => {
                let sheet = self.at_the_split_in_force(numbers)?;
                trial(book, &sheet, &sheet).ok()?.into()
            }
            "trial: region 0 alone is looked at" => codes(&|code| {
                let answer = after.clone().open(code);
                let over = matches!(answer, Err(NotOpened::OverCap(breach)) if breach.region == 0);
                over && fallen >> (code - 1) & 1 == 1
            })
            .into(),
            "trial: place 32 left out" => (fallen & !(1 << 31)).into(),
            "trial: 10 without a sheet" if !with_sheet => return Some("refused 10\n".to_string()),
            "trial: it changes the book" => {
                *self.desk.book_mut() = after;
                return None;
            }
            "trial: what would fall is closed" => {
                for code in (1..=32).filter(|code| fallen >> (code - 1) & 1 == 1) {
                    self.desk.book_mut().close(code).expect("an open one");
                }
                return None;
            }
            _ => self.fallen_by_wrong_charges("trial", numbers)?.into(),
        };
        Some(format!("ok {set}\n"))
    }

    /// Another refusal than the one that comes first.
    fn wrong_refusal(&self, call: &str, numbers: &[u32], answer: &[u8]) -> Option<&'static [u8]> {
        let tried = |numbers: &[u32]| trial(&Book::new(), numbers, numbers).err();
        let (applies, refusal): (bool, &[u8]) = match (self.fault_of(call)?, answer) {
            ("8 before 7", b"refused 7\n") => {
                (Tariff::new(&numbers[1..]).is_none(), b"refused 8\n")
            }
            ("3 before 2", b"refused 2\n") => {
                let days = period_days(numbers[0], numbers[1], numbers[2]);
                (days.is_none(), b"refused 3\n")
            }
            ("14 before 4", b"refused 4\n") => {
                let four = operating_costs(numbers[3..].first_chunk()?).ok()?;
                (four.iter().any(|&oc| oc < 0), b"refused 14\n")
            }
            ("14 before the terms of PAAC", b"refused 4\n") => {
                let mut without = numbers.to_vec();
                without[23..25].fill(0);
                (
                    tried(&without) == Some(Refusal::OcBelowZero),
                    b"refused 14\n",
                )
            }
            ("14 after 5", b"refused 14\n") => {
                let fields: &[u32; FIELDS] = numbers[3..].try_into().ok()?;
                let four = operating_costs(fields.first_chunk()?).ok()?;
                let raised = with_operating_costs(fields, four.map(|oc| oc.max(0)))?;
                let raised = [&numbers[..3], &raised].concat();
                (
                    tried(&raised) == Some(Refusal::BenchmarkFalls),
                    b"refused 5\n",
                )
            }
            (fault, b"refused 2\n") if fault.starts_with("2 for the peak share after ") => {
                let mut inside = numbers.to_vec();
                *inside.get_mut(3 + PEAK_SHARE)? = 580;
                let later: (u32, &[u8]) = match tried(&inside)? {
                    Refusal::Period => (3, b"refused 3\n"),
                    Refusal::TermTooHigh => (4, b"refused 4\n"),
                    Refusal::BenchmarkFalls => (5, b"refused 5\n"),
                    Refusal::OcBelowZero => (14, b"refused 14\n"),
                    _ => return None,
                };
                (fault.ends_with(&format!(" {}", later.0)), later.1)
            }
            ("13 before 10", b"refused 10\n") => (numbers[1] > 13, b"refused 13\n"),
            ("10 before 13", b"refused 13\n") => (self.desk.book().t().is_none(), b"refused 10\n"),
            _ => return None,
        };
        applies.then_some(refusal)
    }
}

/// The fields of a sheet with these operating costs in place of its own, of which SMNCC is a
/// part. `None` if one is below zero.
fn with_operating_costs(fields: &[u32; FIELDS], four: [i64; 4]) -> Option<Vec<u32>> {
    if four.iter().any(|&oc| oc < 0) {
        return None;
    }
    let mut other = fields.to_vec();
    // PAAC goes by the same index.
    for paac in &mut other[20..22] {
        let (n, d) = (
            u64::from(*paac) * u64::from(fields[31]),
            u64::from(fields[24]),
        );
        *paac = ((2 * n + d) / (2 * d)) as u32;
    }
    (other[24], other[31], other[SMNCC]) = (1, 1, 0);
    other[12..16].copy_from_slice(&four.map(|oc| oc as u32));
    Some(other)
}

/// The regions that a tariff is offered in.
fn offered(record: &[u32; RECORD]) -> Vec<usize> {
    let regions = record[3];
    let offered = (0..REGIONS).filter(|region| regions >> region & 1 == 1);
    offered.collect()
}

fn number(record: &[u32; RECORD], region: usize) -> u32 {
    record[REGIONAL + region]
}

/// A record with these standing charges, by region, as its numbers. `None` if it is no tariff then.
fn with_charges(
    record: &[u32; RECORD],
    charge: impl Fn(&[u32; RECORD], usize) -> u32,
) -> Option<[u32; RECORD]> {
    let mut other = *record;
    other[2] = 0;
    for region in offered(record) {
        other[REGIONAL + region] = charge(record, region);
    }
    Tariff::new(&other).map(|_| other)
}

/// The standing charge that a fault takes for that of a tariff in a region.
fn wrong_charge(fault: &str) -> Option<fn(&[u32; RECORD], usize) -> u32> {
    fn numbers(record: &[u32; RECORD]) -> impl Iterator<Item = u32> + '_ {
        let offered = offered(record).into_iter();
        offered.map(move |region| number(record, region))
    }
    let charge: fn(&[u32; RECORD], usize) -> u32 = match fault {
        "the charge of region 0 everywhere" => |record, _| record[2] + number(record, 0),
        "the charge of the first region everywhere" => {
            |record, _| record[2] + numbers(record).next().unwrap_or(0)
        }
        "the highest charge everywhere" => {
            |record, _| record[2] + numbers(record).max().unwrap_or(0)
        }
        "the lowest charge everywhere" => {
            |record, _| record[2] + numbers(record).min().unwrap_or(0)
        }
        "the number in place of the sum" => |record, region| number(record, region),
        // No fault: what is found of the others is not their way of answering.
        "the charge of the region" => |record, region| record[2] + number(record, region),
        "field 2 alone" => |record, _| record[2],
        "numbers from field 12 on" => {
            |record, region| (record[2] + record[REGIONAL - 1 + region]).min(STANDING_LIMIT)
        }
        "numbers from field 14 on" => |record, region| {
            let next = record.get(REGIONAL + 1 + region);
            (record[2] + next.unwrap_or(&0)).min(STANDING_LIMIT)
        },
        _ => return None,
    };
    Some(charge)
}

/// What PUT takes for a record that its numbers by region spoil, or for one that they do not.
fn wrong_numbers_by_region(fault: &str, record: &[u32; RECORD]) -> Option<[u32; RECORD]> {
    let mut other = *record;
    let offered = offered(record);
    let field_2 = record[2];
    let room = STANDING_LIMIT.checked_sub(field_2);
    let sum = |region: usize| u64::from(field_2) + u64::from(number(record, region));
    let limit = u64::from(STANDING_LIMIT);
    let is_offered = |region: usize| offered.contains(&region);
    // The sums are not looked at in these regions.
    let unseen = |other: &mut [u32; RECORD], regions: &[usize]| {
        for region in regions {
            other[REGIONAL + region] = other[REGIONAL + region].min(room?);
        }
        Some(())
    };
    match fault {
        "a sum of 1,000,000 is refused" => {
            let at_limit = (0..REGIONS).any(|region| sum(region) == limit);
            other[0] = 0;
            return at_limit.then_some(other);
        }
        "a number is refused" => {
            other[0] = 0;
            return (record[REGIONAL..] != [0; REGIONS]).then_some(other);
        }
        "the record is read from field 12 on" => {
            other.copy_within(REGIONAL - 1..RECORD - 1, REGIONAL);
            return Some(other);
        }
        _ if Tariff::new(record).is_some() => return None,
        "a number in a region not offered is taken" => {
            for region in (0..REGIONS).filter(|&region| !is_offered(region)) {
                other[REGIONAL + region] = 0;
            }
        }
        "a number in a region not offered is taken if the sum is" => {
            let small = (0..REGIONS).filter(|&region| sum(region) <= limit);
            for region in small.filter(|&region| !is_offered(region)) {
                other[REGIONAL + region] = 0;
            }
        }
        "a sum of 1,000,001 is taken" => {
            for region in (0..REGIONS).filter(|&region| sum(region) == limit + 1) {
                other[REGIONAL + region] = room?;
            }
        }
        "the sum in the first region alone" => unseen(&mut other, offered.get(1..)?)?,
        "the sum in all regions but the first" => unseen(&mut other, offered.get(..1)?)?,
        "the sum in all regions but the last" => {
            let last = offered.len().checked_sub(1)?;
            unseen(&mut other, &offered[last..])?;
        }
        "the numbers in place of the sums" => {
            let within = offered.iter().copied();
            let within = within.filter(|&region| number(record, region) <= STANDING_LIMIT);
            let within: Vec<usize> = within.collect();
            unseen(&mut other, &within)?;
        }
        "sums that go round at 2^32" => {
            room?;
            return with_charges(record, |_, region| sum(region) as u32);
        }
        "sums that go round, if field 2 is above its range" if room.is_none() => {
            return with_charges(record, |_, region| sum(region) as u32);
        }
        _ => {
            let region = fault.strip_prefix("a number is taken in region ")?;
            let region = region.parse().ok()?;
            if is_offered(region) {
                return None;
            }
            other[REGIONAL + region] = 0;
        }
    }
    Tariff::new(&other).map(|_| other)
}

/// The answer that a desk with this book gives to a call.
fn answer_of(book: Book, call: &str, numbers: &[u32]) -> Option<String> {
    answer_of_line(book, &Named::line(None, call, numbers))
}

fn answer_of_line(book: Book, line: &[u8]) -> Option<String> {
    let mut desk = Desk::new();
    *desk.book_mut() = book;
    let mut answer = Vec::new();
    desk.line(line, &mut answer);
    String::from_utf8(answer).ok()
}

/// Whether a line is a call, well written.
fn is_call(line: &[u8]) -> bool {
    let mut answer = Vec::new();
    Desk::new().line(line, &mut answer);
    !answer.starts_with(b"error")
}

/// A trial of the period of one call and of the fields of another.
fn trial(book: &Book, period: &[u32], fields: &[u32]) -> Result<u32, Refusal> {
    book.trial(period[0], period[1], period[2], &fields[3..])
}

fn work(fault: &str) -> io::Result<ExitCode> {
    let mut input = io::stdin().lock();
    let mut output = io::stdout().lock();
    let mut wrong = WrongDesk {
        fault: fault.to_string(),
        desk: Desk::new(),
        begun: Vec::new(),
        in_force: Vec::new(),
        before: Vec::new(),
        records: [[0; RECORD]; 33],
        misjudged: (0, 0),
        undos: WrongUndos::default(),
        marks: WrongMarks::default(),
        desks: WrongDesks::default(),
        directions: WrongDirections::default(),
    };
    match fault {
        "it leaves at once" => return Ok(ExitCode::SUCCESS),
        "it reads nothing" => return Ok(linger()),
        "it answers without end" => loop {
            output.write_all(b"ok\nok 1\nok 1 2\n")?;
        },
        _ => {}
    }
    let mut block = vec![0; BLOCK];
    let mut answers = Vec::new();
    loop {
        let read = input.read(&mut block)?;
        let mut kept = 0;
        if read == 0 {
            if !wrong.begun.is_empty() && !wrong.is("the last line is swallowed") {
                wrong.end_line(&mut answers);
            }
        } else {
            wrong.take(&block[..read], &mut answers);
            let last = answers.len().saturating_sub(1);
            let mut feeds = answers
                .iter()
                .take(last)
                .enumerate()
                .filter(|(_, &byte)| byte == b'\n');
            kept = match fault {
                "all answers come at the end" | "it answers nothing" => answers.len(),
                "the last answer comes with the next line" => {
                    feeds.next_back().map_or(answers.len(), |(i, _)| last - i)
                }
                "of several lines only the first is answered at once" => {
                    feeds.next().map_or(0, |(i, _)| last - i)
                }
                _ => 0,
            };
        }
        if fault == "it answers nothing" {
            answers.clear();
            kept = 0;
        }
        let sent = answers.len() - kept;
        output.write_all(&answers[..sent])?;
        output.flush()?;
        answers.drain(..sent);
        if read == 0 {
            return Ok(match fault {
                "it does not leave" => linger(),
                "it leaves with 3" => ExitCode::from(3),
                _ => ExitCode::SUCCESS,
            });
        }
    }
}

/// Stays for longer than anyone waits.
fn linger() -> ExitCode {
    std::thread::sleep(Duration::from_secs(60));
    ExitCode::SUCCESS
}

fn main() -> ExitCode {
    let fault = std::env::args().nth(1).unwrap_or_default();
    work(&fault).unwrap_or(ExitCode::FAILURE)
}
