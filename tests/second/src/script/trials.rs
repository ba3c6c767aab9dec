//! Trials of a sheet: right before the same SET, on books with all 32 places open, and followed
//! by calls that a book changed by the trial would answer otherwise.

use super::edges::nothing;
use super::*;

impl Writer {
    /// A trial of any sheet, and what comes after it.
    pub(super) fn any_trial(&mut self) {
        if self.random.one_in(3) {
            self.fewer_directions();
        }
        let mut dated = self.sheet.clone();
        match self.random.below(12) {
            0 => {}
            1 => self.period(&mut dated),
            2..=3 => self.squeeze(&mut dated),
            4 => dated.fields = nothing(),
            5 => self.saving(&mut dated),
            6 => self.split(&mut dated),
            _ => dated = self.good_sheet(),
        }
        if self.random.one_in(3) {
            self.spoil(&mut dated);
        }
        let answer = self.trial(&dated);
        match self.random.below(3) {
            0 => self.same_set(&dated, answer),
            1 => self.look_around(answer.unwrap_or(0)),
            _ => {}
        }
    }

    /// The SET of the sheet that was tried, unless it would end the while without a sheet, and
    /// a look at what fell.
    pub(super) fn same_set(&mut self, dated: &Dated, answer: Result<u32, Refusal>) {
        // A trial that is outside the desk does not tell.
        if self.calls < self.bare && self.book.trial_dated(dated).is_ok() {
            return;
        }
        self.set(dated);
        let fallen = answer.unwrap_or(0);
        if fallen > 0 {
            let code = self.random_bit(fallen) + 1;
            if self.random.one_in(2) {
                self.open(code);
            } else {
                self.close(code);
            }
        }
    }

    /// All 32 places open, and trials that make none, some and all of them fall.
    pub(super) fn trials_of_32(&mut self) {
        if self.book.t().is_none() {
            return;
        }
        // A sheet under which a tariff can cost something.
        let mut dated = reference();
        self.shift(&mut dated, true);
        if self.random.one_in(2) {
            self.spread(&mut dated);
        }
        if self.random.one_in(2) {
            self.period(&mut dated);
        }
        if self.random.one_in(3) {
            self.some_saving(&mut dated);
        }
        if self.random.one_in(2) {
            self.split(&mut dated);
        }
        self.set(&dated);
        let mut free = dated.clone();
        free.fields = nothing();
        // Those that are open and cost something.
        let costly = self.book.trial_dated(&free).unwrap_or(0);
        for code in (1..=32).filter(|code| costly >> (code - 1) & 1 == 0) {
            if self.book.state(code) == Some(State::Open) {
                self.close(code);
            }
            let record = self.record_within();
            self.put(code, &record);
            self.open(code);
        }
        self.note("books with all 32 places used");

        for _ in 0..5 {
            let mut dated = self.sheet.clone();
            match self.random.below(8) {
                0 => {}
                1 => dated.fields = nothing(),
                2 => self.period(&mut dated),
                3 => self.shift(&mut dated, true),
                4 => self.some_saving(&mut dated),
                5 => self.split(&mut dated),
                _ => self.squeeze(&mut dated),
            }
            let answer = self.trial(&dated);
            if self.random.one_in(4) {
                self.look_around(answer.unwrap_or(0));
            }
            if self.random.one_in(6) {
                self.set(&dated);
                self.undo();
                self.look_around(answer.unwrap_or(0));
            }
            if self.random.one_in(12) {
                self.same_set(&dated, answer);
            }
        }
    }

    /// A tariff that costs something and that the sheet in force lets open, if there is room.
    pub(super) fn record_within(&mut self) -> [u32; RECORD] {
        let mut record = self.any_record();
        if record[2] == 0 && record[REGIONAL..] == [0; REGIONS] {
            record[2] = 1;
        }
        let dearer = |record: &[u32; RECORD]| {
            record[2] > 1 || record[5..9] != [0; 4] || record[REGIONAL..].iter().any(|&n| n > 1)
        };
        while self.breach_of(&record).is_some() && dearer(&record) {
            record[2] = lower(record[2]);
            for number in &mut record[REGIONAL..] {
                *number = lower(*number);
            }
            for rate in &mut record[5..9] {
                *rate = *rate / 4 * 3;
            }
        }
        record
    }

    /// Lower network costs, by as much at m as at nil, in all regions or in one.
    pub(super) fn squeeze(&mut self, dated: &mut Dated) {
        let only = self.random.one_in(3).then(|| self.region());
        self.squeeze_in(only, dated);
    }

    /// The same in all regions, or in this one.
    pub(super) fn squeeze_in(&mut self, only: Option<u32>, dated: &mut Dated) {
        let most = self.random.pick(&[3, 3_000, 300_000, 2_000_000]);
        let only = only.map(|region| region as usize);
        for region in (0..REGIONS).filter(|&region| only.is_none_or(|only| only == region)) {
            for pair in [37 + 4 * region, 39 + 4 * region] {
                let (nil, m) = (dated.fields[pair], dated.fields[pair + 1]);
                let less = self.random.between(0, most).min(nil).min(m);
                dated.fields[pair] = nil - less;
                dated.fields[pair + 1] = m - less;
            }
        }
    }

    /// Calls that show whether the book is as it was before a trial in which these codes would
    /// have fallen, or before a SET that was taken back.
    pub(super) fn look_around(&mut self, fallen: u32) {
        for _ in 0..1 + self.random.index(3) {
            let code = if fallen == 0 {
                self.code_in(State::Draft, 1_000)
            } else {
                self.random_bit(fallen) + 1
            };
            let used = matches!(self.book.state(code), Some(State::Draft | State::Open));
            match self.random.below(9) {
                0 => self.take_plain(Turn::Benchmark),
                1 => self.take_plain(Turn::Maximum),
                2 => self.drop_code(code),
                3 => {
                    let record = self.any_record();
                    self.put(code, &record);
                }
                4 => self.open(code),
                5..=6 if used => self.plain_quote(code),
                7 if self.random.one_in(2) => self.ask(code),
                7 => self.confirm(code),
                _ => {
                    self.close(code);
                    self.open(code);
                }
            }
        }
    }
}

/// A quarter less of a charge, and not 0 if it was none.
fn lower(charge: u32) -> u32 {
    (charge / 4 * 3).max(charge.min(1))
}
