//! Calls with two faults: the check that comes first is the answer.

use super::*;

/// The refusals of SET and TRIAL that one sheet can deserve together.
const SHEET_FAULTS: [(u32, u32); 15] = [
    (1, 2),
    (1, 3),
    (1, 4),
    (1, 5),
    (1, 14),
    (2, 3),
    (2, 4),
    (2, 5),
    (2, 14),
    (3, 4),
    (3, 5),
    (3, 14),
    (4, 5),
    (4, 14),
    (14, 5),
];

impl Writer {
    pub(super) fn two_faults(&mut self) {
        match self.random.below(8) {
            0..=1 => self.sheet_with_two_faults("set"),
            2..=3 => self.sheet_with_two_faults("trial"),
            4 => self.put_with_two_faults(),
            5 => self.open_with_two_faults(),
            6 => self.question_with_two_faults(),
            _ => self.quote_with_two_faults(),
        }
    }

    pub(super) fn two_faults_of_a_sheet(&mut self) {
        let call = self.random.pick(&["set", "trial"]);
        self.sheet_with_two_faults(call);
    }

    fn sheet_with_two_faults(&mut self, call: &str) {
        let (first, second) = self.random.pick(&SHEET_FAULTS);
        let mut dated = reference();
        // The later check first: 1 changes the length.
        self.sheet_fault(second, &mut dated);
        self.sheet_fault(first, &mut dated);
        let answer = Book::new().set_dated(&dated);
        if answer.is_err_and(|refusal| refusal.number() == first) {
            self.note(&format!("order: {call} {first} before {second}"));
            if first == 2 && dated.fields[PEAK_SHARE] > WHOLE {
                self.note(&format!(
                    "order: {call} 2 for the peak share before {second}"
                ));
            }
        }
        match call {
            "set" => self.set(&dated),
            _ => drop(self.trial(&dated)),
        }
    }

    /// Gives the reference sheet, or one with another fault, this fault too.
    fn sheet_fault(&mut self, refusal: u32, dated: &mut Dated) {
        match refusal {
            1 if self.random.one_in(2) => drop(dated.fields.pop()),
            1 => dated.fields.push(0),
            2 => {
                let field = self
                    .random
                    .pick(&[16, 19, 21, SMNCC, 92, PEAK_SHARE, PEAK_SHARE]);
                let (lowest, highest) = field_range(field);
                let outside = if field == SMNCC {
                    // OC is below zero too.
                    lowest - 1
                } else {
                    highest + 1
                };
                dated.set_value(field, outside);
            }
            3 => match self.random.below(3) {
                0 => dated.year = self.random.pick(&[2017, 2100]),
                1 => dated.month = self.random.pick(&[0, 13]),
                _ => dated.t = self.random.pick(&[0, 13]),
            },
            4 => {
                // One of the terms alone. If a benchmark falls, not one that raises it at m.
                let falls = Book::new().set_dated(dated) == Err(Refusal::BenchmarkFalls);
                let at_m = |field: usize| field < 16 && field % 2 == 1;
                let terms = (0..16).chain(20..22);
                let terms: Vec<usize> = terms.filter(|&field| !falls || !at_m(field)).collect();
                let field = self.random.pick(&terms);
                dated.fields[field] = MONEY;
                match field {
                    // Indices that have not moved on the reference sheet.
                    4..=7 => dated.fields[30] = 101,
                    8..=11 => dated.fields[24 + field] = 101,
                    _ => {}
                }
            }
            14 => {
                // 5,250,000 at nil.
                let saving = self.random.between(5_250_001, MONEY);
                dated.set_value(SMNCC, -i64::from(saving));
            }
            _ => {
                let nil = 37 + 4 * self.region() as usize;
                dated.fields[nil] = MONEY;
                dated.fields[nil + 1] = 0;
            }
        }
    }

    fn put_with_two_faults(&mut self) {
        let record = self.bad_record();
        let code = if self.random.one_in(2) {
            self.bad_code()
        } else {
            self.code_in(State::Open, 1_000)
        };
        if crate::Tariff::new(&record).is_none() {
            match self.book.state(code) {
                None => self.note("order: put 6 before 8"),
                Some(State::Open) => self.note("order: put 7 before 8"),
                Some(_) => {}
            }
        }
        self.put(code, &record);
    }

    fn open_with_two_faults(&mut self) {
        let code = if self.random.one_in(2) {
            self.bad_code()
        } else {
            self.code_in(State::Empty, 1_000)
        };
        for call in ["open", "ask"] {
            if self.book.t().is_none() {
                match self.book.state(code) {
                    None => self.note(&format!("order: {call} 6 before 10")),
                    Some(State::Empty) => self.note(&format!("order: {call} 9 before 10")),
                    Some(_) => {}
                }
            }
        }
        self.open(code);
        self.ask(code);
    }

    fn question_with_two_faults(&mut self) {
        let bare = self.book.t().is_none();
        if self.random.one_in(2) {
            if bare {
                self.note("order: benchmark 13 before 10");
            }
            self.call("benchmark", &[14, 0, 1, 0]);
        } else {
            if bare {
                self.note("order: maximum 13 before 10");
            }
            self.call("maximum", &[0, 0, 1, 120_001]);
        }
    }

    fn quote_with_two_faults(&mut self) {
        let code = match self.random.below(3) {
            0 => self.bad_code(),
            1 => self.code_in(State::Empty, 1_000),
            _ => self.code_in(State::Draft, 1_000),
        };
        let bare = self.book.t().is_none();
        match self.book.state(code) {
            None if bare => self.note("order: quote 6 before 10 and 13"),
            None => self.note("order: quote 6 before 13"),
            Some(State::Empty) if bare => self.note("order: quote 9 before 10 and 13"),
            Some(State::Empty) => self.note("order: quote 9 before 13"),
            Some(_) if bare => self.note("order: quote 10 before 13"),
            Some(_) => {}
        }
        self.quote(code, 14, 2, &[MONTH_LIMIT + 1]);
    }
}
