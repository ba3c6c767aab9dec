//! Drafts that are asked for and confirmed: calls of every kind between ASK and CONFIRM, several
//! marks at once, marks beside drafts without one, and marks in all 32 places.

use super::*;

impl Writer {
    /// Opens a draft by OPEN or, now and then, by ASK and CONFIRM.
    pub(super) fn open_by_either_road(&mut self, code: u32) {
        let two_people = self.random.one_in(5);
        self.open_by(two_people, code);
    }

    pub(super) fn open_by(&mut self, two_people: bool, code: u32) {
        if !two_people {
            return self.open(code);
        }
        self.ask(code);
        if self.random.one_in(3) {
            self.call_that_changes_nothing();
        }
        self.confirm(code);
    }

    /// A marked draft's code, most of the time, if there is one.
    pub(super) fn code_to_confirm(&mut self) -> u32 {
        let start = self.random.between(0, 31);
        match self.code_from(start, |book, code| book.is_marked(code)) {
            Some(code) if !self.random.one_in(3) => code,
            _ => self.code_in(State::Draft, 4),
        }
    }

    /// Marks that are given, and confirmed or lost.
    pub(super) fn marks(&mut self) {
        if self.book.t().is_none() {
            return self.asked_without_a_sheet();
        }
        match self.random.below(10) {
            0 => self.several_marks(),
            1 => self.mark_beside(),
            2 => self.ask_before_undo(),
            _ => self.ask_and_confirm(),
        }
    }

    fn asked_without_a_sheet(&mut self) {
        let code = self.code_to_put();
        let record = self.shape();
        self.put(code, &record);
        self.ask(code);
        self.confirm(code);
    }

    /// A draft within the cap, if there is room for one, at a code that it gives.
    fn draft_within(&mut self) -> u32 {
        let code = self.code_to_put();
        if self.used_record(code).is_none() || !self.random.one_in(4) {
            let record = self.record_within();
            self.put(code, &record);
        }
        code
    }

    fn ask_and_confirm(&mut self) {
        let code = self.draft_within();
        self.ask(code);
        for _ in 0..self.random.pick(&[0, 1, 1, 1, 2]) {
            self.between(code);
        }
        self.confirm(code);
        match self.random.below(12) {
            0 => self.confirm(code),
            1 => self.ask(code),
            2 => self.open(code),
            3 => self.drop_code(code),
            4 => self.undo(),
            5..=6 => {
                self.close(code);
                self.confirm(code);
            }
            _ => {}
        }
    }

    /// Something between the ASK of a code and its CONFIRM.
    pub(super) fn between(&mut self, code: u32) {
        let Some(record) = self.used_record(code) else {
            return;
        };
        match self.random.below(22) {
            0 => {
                let dated = self.other_sheet();
                self.set(&dated);
            }
            1 => self.set(&self.sheet.clone()),
            2..=3 => self.refused_set(),
            4 => {
                let record = self.record_within();
                self.put(code, &record);
            }
            5 => self.put(code, &record),
            6 => {
                let record = self.bad_record();
                if self.book.clone().put(code, &record).is_err() {
                    self.put(code, &record);
                }
            }
            7 => {
                self.drop_code(code);
                self.put(code, &record);
            }
            8 => self.close(code),
            9 => self.ask(code),
            10 => {
                self.open(code);
                self.close(code);
            }
            11 => {
                self.confirm(code);
                self.close(code);
            }
            12 => {
                let dated = self.good_or_bad_sheet();
                let _ = self.trial(&dated);
            }
            13 => self.plain_quote(code),
            14 => self.take(Turn::Benchmark),
            15 => self.undo(),
            16..=17 => self.set_and_undo(),
            18 => self.no_call(),
            19 => self.direct(code),
            20 => self.rebate_of(code),
            _ => self.call_elsewhere(code),
        }
    }

    /// A sheet that is taken back, and now and then another one before it that is not.
    pub(super) fn set_and_undo(&mut self) {
        for _ in 0..self.random.pick(&[1, 1, 1, 2]) {
            let dated = self.other_sheet();
            self.set(&dated);
            if self.random.one_in(3) {
                self.call_that_changes_nothing();
            }
        }
        self.undo();
    }

    /// A call on another code, taken if there is one that would be.
    fn call_elsewhere(&mut self, code: u32) {
        let any = self.random.between(1, 32);
        let next = code % 32 + 1;
        let before = (code + 30) % 32 + 1;
        let other = self.random.pick(&[next, before, any]);
        if other == code {
            return;
        }
        match self.book.state(other) {
            Some(State::Open) => self.close(other),
            Some(State::Draft) => match self.random.below(7) {
                0 => self.drop_code(other),
                1 => {
                    let record = self.any_record();
                    self.put(other, &record);
                }
                2 => self.open(other),
                3 => self.ask(other),
                4 => self.direct(other),
                _ => {
                    self.ask(other);
                    self.confirm(other);
                }
            },
            _ => {
                let record = self.record_within();
                self.put(other, &record);
            }
        }
    }

    /// Some drafts that are asked for, something that may clear the marks of all, and CONFIRM of
    /// each.
    fn several_marks(&mut self) {
        let first = self.random.between(1, 32);
        let mut codes: Vec<u32> = Vec::new();
        for i in 0..self.random.between(2, 5) {
            let code = (first + i * self.random.between(1, 3)) % 32 + 1;
            if self.book.state(code) == Some(State::Open) {
                self.close(code);
            }
            let record = self.record_within();
            self.put(code, &record);
            codes.push(code);
        }
        for &code in &codes {
            self.ask(code);
        }
        match self.random.below(8) {
            0..=1 => self.set_and_undo(),
            2 => {
                let dated = self.other_sheet();
                self.set(&dated);
            }
            3 => self.set(&self.sheet.clone()),
            4 => self.between(codes[0]),
            5 => self.call_elsewhere(codes[0]),
            6 => self.refused_set(),
            _ => {}
        }
        if self.random.one_in(2) {
            codes.reverse();
        }
        for code in codes {
            self.confirm(code);
        }
    }

    /// A marked draft, and one beside it that is not: the one is confirmed and the other is not.
    fn mark_beside(&mut self) {
        let code = self.random.between(1, 32);
        let beside = self.random.pick(&[code % 32 + 1, (code + 30) % 32 + 1]);
        for code in [beside, code] {
            if self.book.state(code) == Some(State::Open) {
                self.close(code);
            }
            let record = self.record_within();
            self.put(code, &record);
        }
        self.ask(code);
        self.confirm(beside);
        self.confirm(code);
        if self.random.one_in(2) {
            self.confirm(beside);
        }
    }

    /// A sheet, ASK or CONFIRM with any answer, and UNDO.
    fn ask_before_undo(&mut self) {
        let code = match self.random.below(4) {
            0 => self.code_in(State::Open, 20),
            1 => self.code_in(State::Empty, 4),
            _ => self.draft_within(),
        };
        let mut dated = self.sheet.clone();
        if self.random.one_in(2) {
            dated = self.other_sheet();
        }
        self.set(&dated);
        if self.random.one_in(2) {
            self.ask(code);
        } else {
            self.confirm(code);
        }
        self.undo();
        self.confirm(code);
    }

    /// All 32 places with marked drafts, and a sheet that clears the marks, taken back or not.
    pub(super) fn marks_of_32(&mut self) {
        if self.book.t().is_none() {
            return;
        }
        for code in 1..=32 {
            if self.book.state(code) == Some(State::Open) {
                self.close(code);
            }
            if self.book.clone().ask(code).is_err() {
                let record = self.record_within();
                self.put(code, &record);
            }
            self.ask(code);
        }
        self.note("books with all 32 places used");
        let mut dated = self.sheet.clone();
        if !self.random.one_in(4) {
            dated = self.other_sheet();
        }
        if self.random.one_in(2) {
            let _ = self.trial(&dated);
        }
        self.set(&dated);
        for _ in 0..4 {
            let code = self.random.between(1, 32);
            self.confirm(code);
        }
        if self.random.one_in(2) {
            self.undo();
        }
        for code in 1..=32 {
            self.confirm(code);
        }
    }
}
