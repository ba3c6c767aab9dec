//! Sheets that are set and taken back: the first of a book, two in a row, with open tariffs that
//! fall and come back, and with a call of every kind before UNDO and after it.

use super::edges::nothing;
use super::*;

impl Writer {
    /// A sheet that is set, and an UNDO that takes it back or comes too late.
    pub(super) fn undos(&mut self) {
        if self.book.t().is_none() {
            return self.first_sheet_taken_back();
        }
        match self.random.below(8) {
            0 => self.two_sheets_and_two_undos(),
            1..=3 => self.fall_and_come_back(),
            _ => self.call_before_undo(),
        }
    }

    /// A sheet where there is none, taken back, and calls without a sheet.
    pub(super) fn first_sheet_taken_back(&mut self) {
        let dated = self.good_sheet();
        self.set(&dated);
        if self.random.one_in(2) {
            self.call_that_changes_nothing();
        }
        self.undo();
        for _ in 0..1 + self.random.index(4) {
            self.any_call();
            // In the while without a sheet a second one is not kept either.
            if self.calls < self.bare && self.book.t().is_some() {
                self.undo();
            }
        }
    }

    /// Of two sheets the second is taken back, and the first is not.
    fn two_sheets_and_two_undos(&mut self) {
        let at_once = self.random.one_in(2);
        for _ in 0..2 {
            let dated = self.other_sheet();
            self.set(&dated);
            if !at_once {
                self.call_that_changes_nothing();
            }
        }
        self.undo();
        if !at_once {
            self.any_call();
        }
        self.undo();
        self.take_plain(Turn::Benchmark);
        if self.random.one_in(3) {
            self.undo();
        }
    }

    /// Open tariffs that fall by a sheet and come back when it is taken back: a look at them, and
    /// the same sheet again.
    fn fall_and_come_back(&mut self) {
        if self.random.one_in(2) {
            self.fewer_directions();
        }
        let mut dated = self.other_sheet();
        let mut fallen = 0;
        for _ in 0..4 {
            fallen = self.book.trial_dated(&dated).unwrap_or(0);
            if fallen > 0 {
                break;
            }
            dated = self.sheet.clone();
            match self.random.below(4) {
                0 => self.period(&mut dated),
                1 => dated.fields = nothing(),
                _ => self.squeeze(&mut dated),
            }
        }
        if self.random.one_in(4) {
            let _ = self.trial(&dated);
        }
        self.set(&dated);
        if self.random.one_in(2) {
            self.call_that_changes_nothing();
        }
        self.undo();
        let again = self.random.below(4);
        if again > 0 {
            self.look_around(fallen);
        }
        match again {
            0..=1 => self.same_set(&dated, Ok(fallen)),
            2 => drop(self.trial(&dated)),
            _ => self.undo(),
        }
    }

    /// A sheet, a call or some of any kind, and UNDO.
    fn call_before_undo(&mut self) {
        let dated = self.other_sheet();
        self.set(&dated);
        if self.random.one_in(3) {
            self.call_that_changes_nothing();
        }
        self.any_call();
        self.undo();
        match self.random.below(4) {
            0 => self.undo(),
            1 => self.any_call(),
            2 => self.take_plain(Turn::Benchmark),
            _ => {}
        }
    }

    /// A sheet that SET takes, most of the time, and that is near the one in force.
    pub(super) fn other_sheet(&mut self) -> Dated {
        let mut dated = self.sheet.clone();
        match self.random.below(9) {
            0 => {}
            1 => self.period(&mut dated),
            2 => dated.fields = nothing(),
            3 => self.some_saving(&mut dated),
            4 => self.split(&mut dated),
            5 => self.shift(&mut dated, true),
            6 => dated = self.good_sheet(),
            _ => self.squeeze(&mut dated),
        }
        dated
    }

    /// A code outside 1 to 32, or one whose place is in any state.
    pub(super) fn any_code(&mut self) -> u32 {
        match self.random.below(4) {
            0 => self.bad_code(),
            1 => self.code_in(State::Empty, 1_000),
            2 => self.code_in(State::Draft, 1_000),
            _ => self.code_in(State::Open, 1_000),
        }
    }

    fn good_or_bad_record(&mut self) -> Vec<u32> {
        if self.random.one_in(2) {
            self.bad_record()
        } else {
            self.any_record().to_vec()
        }
    }

    pub(super) fn good_or_bad_sheet(&mut self) -> Dated {
        let mut dated = self.other_sheet();
        if self.random.one_in(2) {
            self.spoil(&mut dated);
        }
        dated
    }

    /// A call of any kind, taken or refused, or a line that is no call.
    pub(super) fn any_call(&mut self) {
        let code = self.any_code();
        match self.random.below(15) {
            0 => {
                let dated = self.good_or_bad_sheet();
                self.set(&dated);
            }
            1 => {
                let dated = self.good_or_bad_sheet();
                let _ = self.trial(&dated);
            }
            2 => {
                let record = self.good_or_bad_record();
                self.put(code, &record);
            }
            3 => self.open(code),
            4 => self.close(code),
            5 => self.drop_code(code),
            6 => self.undo(),
            7 => self.no_call(),
            8 => self.take(Turn::Benchmark),
            9 => self.take(Turn::Maximum),
            10 => self.ask(code),
            11 => self.confirm(code),
            12 => self.direct(code),
            13 => self.take(Turn::Rebate),
            _ => self.take(Turn::Quote),
        }
    }

    /// A line that is no call, or a call that changes nothing: a question, or one that is refused.
    pub(super) fn call_that_changes_nothing(&mut self) {
        let code = self.any_code();
        match self.random.below(14) {
            0 => self.refused_set(),
            1 => {
                let dated = self.good_or_bad_sheet();
                let _ = self.trial(&dated);
            }
            2 => {
                let record = self.good_or_bad_record();
                if self.book.clone().put(code, &record).is_err() {
                    self.put(code, &record);
                }
            }
            3 if self.book.clone().open(code).is_err() => self.open(code),
            4 if self.book.clone().close(code).is_err() => self.close(code),
            5 if self.book.clone().drop_code(code).is_err() => self.drop_code(code),
            6 => self.no_call(),
            7 => self.take(Turn::Benchmark),
            8 => self.take(Turn::Maximum),
            9 if self.book.clone().ask(code).is_err() => self.ask(code),
            10 if self.book.clone().confirm(code).is_err() => self.confirm(code),
            11 if self.book.clone().direct(code).is_err() => self.direct(code),
            12 => self.rebate_of(code),
            _ => self.take(Turn::Quote),
        }
    }

    /// A sheet near the one in force that SET refuses, most of the time.
    pub(super) fn refused_set(&mut self) {
        let mut dated = self.other_sheet();
        self.spoil(&mut dated);
        if Book::new().set_dated(&dated).is_err() {
            self.set(&dated);
        }
    }

    pub(super) fn no_call(&mut self) {
        let line = match self.random.below(if self.desks { 6 } else { 5 }) {
            0 => b"# undo".to_vec(),
            1 => b"undo 1".to_vec(),
            2 => self.unknown_call(),
            3 => self.not_a_number(),
            4 => self.wrong_count(),
            _ => self.no_call_by_a_desk(),
        };
        self.line(&line);
    }
}
