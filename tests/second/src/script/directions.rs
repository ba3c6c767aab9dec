//! Drafts that are put under a direction: opened over the cap and within it, kept open through
//! sheets, and calls of every kind between DIRECT and OPEN.

use super::*;

impl Writer {
    /// Directions that are given, and what comes of them.
    pub(super) fn directions(&mut self) {
        if self.book.t().is_none() {
            return self.directed_without_a_sheet();
        }
        match self.random.below(12) {
            0 if self.random.one_in(12) => self.directions_of_32(),
            0..=2 => self.open_through_sheets(),
            3 => self.directed_after_a_fall(),
            4..=5 => self.direction_ended(),
            6..=7 => self.direction_and_mark(),
            8 => self.direct_before_undo(),
            _ => self.direct_and_open(),
        }
    }

    fn directed_without_a_sheet(&mut self) {
        let code = self.code_to_put();
        let record = self.shape();
        self.put(code, &record);
        self.direct(code);
        match self.random.below(4) {
            0 => self.open(code),
            1 => self.ask(code),
            2 => self.confirm(code),
            _ => self.rebate_of(code),
        }
    }

    /// A tariff over the cap of the sheet in force, if one is found.
    pub(super) fn record_over(&mut self) -> [u32; RECORD] {
        for _ in 0..3 {
            let mut record = self.shape();
            if self.random.one_in(2) {
                if let Some((place, most)) = self.fit(&record) {
                    record[place] = most + 1;
                }
            }
            if self.breach_of(&record).is_some() {
                return record;
            }
        }
        let mut record = self.shape();
        record[2] = STANDING_LIMIT;
        record[REGIONAL..].fill(0);
        record
    }

    /// A draft under a direction, over the cap or within it, at a code that it gives.
    fn directed_draft(&mut self) -> u32 {
        let code = self.code_to_put();
        let record = match self.random.below(4) {
            0 => self.record_within(),
            1 => self.any_record(),
            _ => self.record_over(),
        };
        self.put(code, &record);
        self.direct(code);
        code
    }

    /// The same, opened by either road.
    pub(super) fn directed_open(&mut self) -> u32 {
        let code = self.directed_draft();
        self.open_by_either_road(code);
        code
    }

    /// An open tariff under a direction, if there is one.
    pub(super) fn code_under_a_direction(&mut self) -> Option<u32> {
        let start = self.random.between(0, 31);
        self.code_from(start, |book, code| {
            book.is_directed(code) && book.state(code) == Some(State::Open)
        })
    }

    /// Most of the tariffs under a direction are closed and put again, or dropped: no sheet makes
    /// drafts of them, and the books are not to be full of them.
    pub(super) fn fewer_directions(&mut self) {
        let spared = self.random.below(4);
        for code in (1..=32).filter(|code| u64::from(code % 8) != spared) {
            if !self.book.is_directed(code) {
                continue;
            }
            if self.book.state(code) == Some(State::Open) {
                self.close(code);
            }
            let record = self.record(code);
            if self.random.one_in(2) {
                self.drop_code(code);
            } else {
                self.put(code, &record);
                self.open_by_either_road(code);
            }
        }
    }

    /// Sheets that it is over the cap of, and it stays open.
    fn open_through_sheets(&mut self) {
        let code = self.directed_open();
        for _ in 0..self.random.between(1, 3) {
            let mut dated = self.other_sheet();
            if self.random.one_in(2) {
                dated = self.sheet.clone();
                self.squeeze(&mut dated);
            }
            if self.random.one_in(3) {
                let _ = self.trial(&dated);
            }
            self.set(&dated);
            if self.random.one_in(4) {
                self.undo();
            }
        }
        match self.random.below(6) {
            0 => self.open(code),
            1 => self.direct(code),
            2 => {
                self.close(code);
                self.open_by_either_road(code);
            }
            3 => self.close(code),
            _ => self.rebate_of(code),
        }
    }

    /// An open tariff falls, and is given a direction then.
    fn directed_after_a_fall(&mut self) {
        let code = self.code_to_put();
        let record = self.record_within();
        self.put(code, &record);
        self.open_by_either_road(code);
        let mut dated = self.sheet.clone();
        for _ in 0..4 {
            if self.book.trial_dated(&dated).unwrap_or(0) >> (code - 1) & 1 == 1 {
                break;
            }
            dated = self.sheet.clone();
            match self.random.below(4) {
                0 => self.period(&mut dated),
                1 => dated.fields = super::edges::nothing(),
                _ => self.squeeze(&mut dated),
            }
        }
        self.set(&dated);
        self.direct(code);
        match self.random.below(7) {
            0..=1 => self.close(code),
            2..=3 => self.open_by_either_road(code),
            4 => self.undo(),
            5 => self.rebate_of(code),
            _ => {
                let before = self.before.clone();
                self.set(&before);
                self.close(code);
            }
        }
    }

    /// PUT and DROP end a direction, refused ones do not.
    fn direction_ended(&mut self) {
        let code = self.directed_draft();
        // It may be outside the desk.
        let Some(record) = self.used_record(code) else {
            return;
        };
        match self.random.below(4) {
            0 => {
                self.open_by_either_road(code);
                self.close(code);
            }
            1 => self.ask(code),
            _ => {}
        }
        match self.random.below(8) {
            0..=1 => self.put(code, &record),
            2 => {
                let record = self.any_record();
                self.put(code, &record);
            }
            3..=4 => {
                self.drop_code(code);
                self.put(code, &record);
            }
            5 => {
                let record = self.bad_record();
                self.put(code, &record);
            }
            6 => {
                self.open(code);
                self.drop_code(code);
                self.put(code, &record);
                self.close(code);
            }
            _ if !self.desks => {}
            _ => {
                let region = self.random_bit(record[3]);
                self.by(Whose::One(ALL_REGIONS & !(1 << region)), |writer| {
                    writer.call_on(code);
                });
            }
        }
        self.open_by_either_road(code);
        if self.random.one_in(3) {
            self.rebate_of(code);
        }
    }

    /// A direction before ASK, or between it and CONFIRM, and a sheet that clears the mark.
    fn direction_and_mark(&mut self) {
        let code = self.code_to_put();
        let late = self.random.one_in(2);
        let record = if late {
            self.record_within()
        } else {
            self.record_over()
        };
        self.put(code, &record);
        if late {
            self.ask(code);
        }
        self.direct(code);
        if !late {
            self.ask(code);
        }
        match self.random.below(6) {
            0 => self.set(&self.sheet.clone()),
            1 => self.set_and_undo(),
            2 => self.direct(code),
            3 => self.between(code),
            _ => {}
        }
        self.confirm(code);
        if self.random.one_in(3) {
            self.rebate_of(code);
        }
    }

    /// A sheet, DIRECT with any answer, and UNDO.
    fn direct_before_undo(&mut self) {
        let mut dated = self.sheet.clone();
        if self.random.one_in(2) {
            dated = self.other_sheet();
        }
        let with_a_draft = self.random.one_in(2);
        if with_a_draft {
            self.directed_draft();
        }
        self.set(&dated);
        let code = match self.random.below(4) {
            0..=1 => self.code_in(State::Draft, 30),
            _ => self.any_code(),
        };
        self.direct(code);
        self.undo();
        if self.random.one_in(2) {
            self.open(code);
        }
    }

    /// A direction, calls that keep it, and OPEN.
    fn direct_and_open(&mut self) {
        let code = self.directed_draft();
        for _ in 0..self.random.pick(&[0, 1, 1, 2]) {
            if self.random.one_in(3) {
                self.call_that_changes_nothing();
            } else {
                self.between(code);
            }
        }
        self.open_by_either_road(code);
        match self.random.below(6) {
            0 => {
                self.close(code);
                self.open(code);
            }
            1 => self.direct(code),
            2..=3 => self.rebate_of(code),
            _ => {}
        }
    }

    /// All 32 places open under a direction, a sheet that none of them falls by, and a run over all.
    fn directions_of_32(&mut self) {
        for code in 1..=32 {
            let open = self.book.state(code) == Some(State::Open);
            if open && self.book.is_directed(code) {
                continue;
            }
            if open {
                self.close(code);
            }
            if self.used_record(code).is_none() || self.random.one_in(2) {
                let record = self.record_over();
                self.put(code, &record);
            }
            self.direct(code);
            self.open(code);
        }
        self.note("books with all 32 places used");
        let mut dated = self.sheet.clone();
        match self.random.below(3) {
            0 => dated.fields = super::edges::nothing(),
            1 => self.period(&mut dated),
            _ => self.squeeze(&mut dated),
        }
        let _ = self.trial(&dated);
        self.set(&dated);
        let accounts: Vec<Account> = (1..=32).map(|code| self.account_of(code)).collect();
        self.rebate(&accounts);
    }
}
