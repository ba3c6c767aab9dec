//! What ASK and CONFIRM reach: what comes between the one and the other, what takes a mark away, and
//! what brings it back. Which drafts are marked is read from the calls alone.

use super::*;

/// The mark of a place, as the calls so far have it.
#[derive(Clone, Copy, Default)]
pub(super) struct Mark {
    there: bool,
    /// What has come since the ASK, bits of `SINCE`.
    since: u32,
    /// What took the last mark, if nothing else has happened to the place since.
    taken_by: Option<&'static str>,
    /// The desk that asked, if it was named.
    asked_by: Option<u32>,
}

/// What leaves a mark as it is.
const SINCE: [&str; 20] = [
    "ask",
    "direct",
    "a call refused 17",
    "a refused set",
    "a refused put",
    "a refused close",
    "trial",
    "a refused trial",
    "a question",
    "a refused undo",
    "set, undo",
    "a line that is no call",
    "put of another code",
    "open of another code",
    "ask of another code",
    "confirm of another code",
    "close of another code",
    "drop of another code",
    "direct of another code",
    "a refused call of another code",
];

const SET: &str = "set";
const SET_IN_FORCE: &str = "set of the sheet in force";
const SET_AND_ONE_TAKEN_BACK: &str = "set, set, undo";
const PUT: &str = "put";
const DROP: &str = "drop";
const DROP_AND_PUT: &str = "drop, put";
const OPEN: &str = "open, close";
const CONFIRM: &str = "confirm, close";

fn one_or_more(marks: usize) -> &'static str {
    match marks {
        0 => "no mark",
        1 => "one mark",
        PLACES => "all 32 marks",
        _ => "several marks",
    }
}

impl Counts {
    pub(super) fn is_marked(&self, code: u32) -> bool {
        (1..=32).contains(&code) && self.marks[code as usize - 1].there
    }

    fn marked_places(&self) -> Vec<usize> {
        let places = 0..PLACES;
        places.filter(|&place| self.marks[place].there).collect()
    }

    /// Something has come that leaves the marks of these places.
    fn since(&mut self, what: &str, here: impl Fn(usize) -> bool) {
        let marked = self.marks.iter_mut().enumerate();
        for (_, mark) in marked.filter(|(place, mark)| mark.there && here(*place)) {
            let bit = SINCE.iter().position(|since| *since == what);
            mark.since |= 1 << bit.expect("one of those that leave a mark");
        }
    }

    /// A line that is no call.
    pub(super) fn marks_after_no_call(&mut self) {
        self.since("a line that is no call", |_| true);
    }

    /// A SET was accepted, of the sheet in force or of another.
    pub(super) fn marks_cleared(&mut self, in_force: bool) {
        let marked = self.marked_places();
        count!(self, "set clears {}", one_or_more(marked.len()));
        self.marks = [Mark::default(); PLACES];
        for place in marked {
            let what = "codes whose mark a set cleared";
            self.tally.different(what, place as u64 + 1);
            self.marks[place].taken_by = Some(if in_force { SET_IN_FORCE } else { SET });
        }
    }

    /// An UNDO was accepted: the marks before the SET that it takes back.
    pub(super) fn marks_come_back(&mut self, marks: [Mark; PLACES], book: &Book) -> u32 {
        assert!(self.marked_places().is_empty(), "a mark after a SET");
        self.marks = marks;
        self.since("set, undo", |_| true);
        for mark in &mut self.marks {
            if [Some(SET), Some(SET_IN_FORCE)].contains(&mark.taken_by) {
                mark.taken_by = Some(SET_AND_ONE_TAKEN_BACK);
            }
        }
        let marked = self.marked_places();
        for code in 1..=32 {
            assert_eq!(book.is_marked(code), self.is_marked(code), "after undo");
        }
        count!(self, "undo brings back {}", one_or_more(marked.len()));
        for &place in &marked {
            let what = "codes whose mark came back";
            self.tally.different(what, place as u64 + 1);
        }
        marked.iter().map(|place| 1 << place).sum()
    }

    /// A call other than an accepted SET or UNDO: what it meets of marks, and what it makes of them.
    pub(super) fn after_marks(
        &mut self,
        call: &str,
        numbers: &[u32],
        refusal: u64,
        values: &[u64],
        book: &Book,
    ) {
        let everywhere = match (call, refusal) {
            ("set" | "undo", 0) => return,
            ("set", _) => "a refused set",
            ("undo", _) => "a refused undo",
            ("trial", 0) => "trial",
            ("trial", _) => "a refused trial",
            ("benchmark" | "maximum" | "quote" | "rebate", _) => "a question",
            _ => "",
        };
        if call == "trial" && refusal == 0 {
            self.marked_over_the_cap(numbers, book);
        }
        let code = match call {
            "set" | "undo" | "trial" | "benchmark" | "maximum" | "rebate" => 0,
            _ => numbers[0],
        };
        if self.is_marked(code) {
            match (call, refusal) {
                ("confirm", 0) => {}
                (_, 0) => count!(self, "{call} ok of a marked draft"),
                _ => count!(self, "{call} refused {refusal} of a marked draft"),
            }
        }
        if !everywhere.is_empty() {
            return self.since(everywhere, |_| true);
        }
        let place = (code as usize).wrapping_sub(1);
        let elsewhere = match (call, refusal) {
            ("put", 0) => "put of another code",
            ("open", 0) => "open of another code",
            ("ask", 0) => "ask of another code",
            ("confirm", 0) => "confirm of another code",
            ("close", 0) => "close of another code",
            ("drop", 0) => "drop of another code",
            ("direct", 0) => "direct of another code",
            _ => "a refused call of another code",
        };
        self.since(elsewhere, |other| other != place);
        match (call, refusal) {
            ("direct", 0) => self.since("direct", |other| other == place),
            ("ask", 0) => self.asked(code, values),
            ("ask", 11) => self.over_by_ask(place, values),
            ("confirm", 0) => self.confirmed(code, values),
            ("confirm", 16) => self.not_marked(code, book),
            ("put" | "open" | "drop", 0) => self.mark_taken(call, place),
            ("put", 8) => self.since("a refused put", |other| other == place),
            (_, 17) => self.since("a call refused 17", |other| other == place),
            ("close", 12) => self.since("a refused close", |other| other == place),
            _ => {}
        }
    }

    fn asked(&mut self, code: u32, values: &[u64]) {
        let place = code as usize - 1;
        let record = self.records[place];
        self.shape("asked", &record);
        self.tally.different("codes asked", code.into());
        self.tally.different("numbers of cells asked", values[0]);
        if self.marks[place].there {
            return self.since("ask", |other| other == place);
        }
        self.tally.one("ask ok of a draft without a mark");
        self.marks[place] = Mark {
            there: true,
            asked_by: self.desk,
            ..Mark::default()
        };
    }

    fn over_by_ask(&mut self, place: usize, values: &[u64]) {
        let [_, region, method, _, worst, ..] = *values else {
            panic!("an answer 11 has months");
        };
        let record = self.records[place];
        self.shape("ask 11", &record);
        let what = "cells that were the first over the cap of an ask";
        self.tally.different(what, 2 * region + method);
        let t = values.len() as u64 - 4;
        let what = "lengths of the months of 11 in ask";
        self.tally.different(what, t);
        match worst {
            0 => self.tally.one("ask 11 at months of 0"),
            10_000 => self.tally.one("ask 11 at months of 10,000"),
            _ => self.tally.one("ask 11 at months of a step"),
        }
    }

    fn confirmed(&mut self, code: u32, values: &[u64]) {
        let place = code as usize - 1;
        let Mark {
            there,
            since,
            asked_by,
            ..
        } = self.marks[place];
        self.two_desks(asked_by);
        self.opened_by(place);
        assert!(there, "a draft was confirmed without a mark");
        // SET clears the marks and ASK ends the chance, so the two are never there together.
        assert!(self.chance.is_none(), "a mark and a SET to take back");
        self.open[place] = true;
        self.confirmed |= 1 << place;
        let record = self.records[place];
        self.shape("confirmed", &record);
        self.tally.different("codes confirmed", code.into());
        self.tally
            .different("numbers of cells confirmed", values[0]);
        if since == 0 {
            self.tally.one("ask, confirm: ok");
        }
        for (bit, what) in SINCE.iter().enumerate() {
            if since >> bit & 1 == 1 {
                count!(self, "ask, {what}, confirm: ok");
            }
        }
        self.marks[place] = Mark {
            taken_by: Some(CONFIRM),
            ..Mark::default()
        };
    }

    /// One desk has asked, and this one confirms.
    fn two_desks(&mut self, asked_by: Option<u32>) {
        let part = |desk| is_part(desk).then_some(desk).flatten();
        self.tally.one(match (part(asked_by), part(self.desk)) {
            (None, None) => return,
            (None, Some(_)) => "ask by all fourteen, confirm by a part desk: ok",
            (Some(_), None) => "ask by a part desk, confirm by all fourteen: ok",
            (one, other) if one == other => "ask by a part desk, confirm by the same: ok",
            _ => "ask by a part desk, confirm by another: ok",
        });
    }

    fn not_marked(&mut self, code: u32, book: &Book) {
        let Mark {
            there, taken_by, ..
        } = self.marks[code as usize - 1];
        assert!(!there, "a marked draft was not confirmed");
        match taken_by {
            Some(what) => count!(self, "ask, {what}, confirm: refused 16"),
            None => self.tally.one("ask long ago or never, confirm: refused 16"),
        }
        if self.is_marked(code - 1) || self.is_marked(code + 1) {
            self.tally.one("confirm refused 16 beside a marked draft");
        }
        match book.clone().open(code) {
            // Counted there.
            _ if self.is_directed(code) => {}
            Ok(_) => self.tally.one("confirm refused 16 within the cap"),
            Err(why) if why.number() == 11 => self.tally.one("confirm refused 16 over the cap"),
            Err(_) => self
                .tally
                .one("confirm refused 16 without a sheet in force"),
        }
    }

    /// PUT, OPEN or DROP was accepted at a place.
    fn mark_taken(&mut self, call: &str, place: usize) {
        let Mark {
            there, taken_by, ..
        } = self.marks[place];
        let taken_by = match call {
            "put" if taken_by == Some(DROP) => Some(DROP_AND_PUT),
            _ if !there => None,
            "put" => Some(PUT),
            "open" => Some(OPEN),
            _ => Some(DROP),
        };
        self.confirmed &= !(1 << place);
        self.marks[place] = Mark {
            taken_by,
            ..Mark::default()
        };
    }

    /// A trial was accepted whose sheet some marked draft is over the cap of: it is not told.
    fn marked_over_the_cap(&mut self, numbers: &[u32], book: &Book) {
        let marked = self.marked_places();
        if marked.is_empty() {
            return;
        }
        let mut after = book.clone();
        let set = after.set(numbers[0], numbers[1], numbers[2], &numbers[3..]);
        set.expect("a sheet that the trial accepts");
        let mut codes = marked.iter().map(|&place| place as u32 + 1);
        if codes.any(|code| after.open(code).is_err()) {
            let what = "trial with a marked draft over the cap of its sheet";
            self.tally.one(what);
        }
    }
}
