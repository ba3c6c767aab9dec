//! What trials reach: how many of the open ones would fall, what is tried, and the calls that come
//! after a trial.

use super::*;

/// A trial and its answer.
#[derive(Clone, Copy)]
pub(super) struct Tried {
    key: u64,
    accepted: bool,
    /// The set of codes that would fall.
    fallen: u32,
    /// No call has come after it yet.
    last: bool,
    /// The call after it was SET with the same sheet.
    set: bool,
}

impl Counts {
    pub(super) fn trial(&mut self, numbers: &[u32], refusal: u64, values: &[u64], book: &Book) {
        let tried = Tried {
            key: key(numbers),
            accepted: refusal == 0,
            fallen: if refusal == 0 { values[0] as u32 } else { 0 },
            last: true,
            set: false,
        };
        self.tried = Some(tried);
        self.tally.different("sheets tried", tried.key);
        let sheet = if self.period.is_none() {
            "without"
        } else {
            "with"
        };
        if refusal > 0 {
            count!(self, "trial refused {sheet} a sheet in force");
            self.refused_sheet("trial", numbers, refusal);
        } else {
            count!(self, "trial ok {sheet} a sheet in force");
            self.accepted_trial(numbers, tried, book);
        }
    }

    fn accepted_trial(&mut self, numbers: &[u32], tried: Tried, book: &Book) {
        let &[year, month, t, ref fields @ ..] = numbers else {
            panic!("trial takes at least 3 numbers");
        };
        let period = [year, month, t];
        self.tally.different("periods tried", key(&period));
        self.ends_of_fields(
            fields,
            "fields tried and accepted at their lowest",
            "fields tried and accepted at their highest",
        );

        let was = self.open.iter().filter(|&&open| open).count() as u32;
        let fell = tried.fallen.count_ones();
        let which = match fell {
            0 => "none",
            _ if fell < was => "some",
            _ => "all",
        };
        if was > 0 && is_saving(fields) {
            count!(self, "trial of a saving: {which} would fall");
        }
        if self.period.is_some() && tried.key == self.in_force {
            self.tally.one("trial of the sheet in force");
        } else if was > 0 && *fields == self.fields[..] {
            count!(self, "trial of another period alone: {which} would fall");
        } else if was > 0 && Some(period) == self.period {
            count!(self, "trial of other fields alone: {which} would fall");
        }
        if self.peak_share_alone(numbers) {
            self.another_peak_share("trial", numbers, tried.fallen);
        }
        if was > 0 {
            count!(self, "trial: {which} of the open ones would fall");
        }
        if was == PLACES as u32 {
            count!(self, "trial: {which} of 32 open ones would fall");
        }
        if tried.fallen & self.confirmed > 0 {
            self.tally.one("trial: one that was confirmed would fall");
        }
        if tried.fallen & self.opened_by_part > 0 {
            let what = "trial: one that a part desk opened would fall";
            self.tally.one(what);
        }
        let mut after = book.clone();
        let set = after.set(year, month, t, fields);
        set.expect("a sheet that the trial accepts");
        let open = self.open;
        for place in (0..PLACES).filter(|&place| open[place]) {
            let code = place as u64 + 1;
            let record = self.records[place];
            if tried.fallen >> place & 1 == 1 {
                self.shape("would fall", &record);
                self.tally.different("codes that would fall", code);
                if fell == 1 {
                    self.tally.different("codes that alone would fall", code);
                }
                if let Err(NotOpened::OverCap(breach)) = after.open(code as u32) {
                    let cell = u64::from(2 * breach.region + breach.method);
                    let what = "cells that were the first over the cap of a trial";
                    self.tally.different(what, cell);
                }
            } else {
                self.shape("would stay", &record);
                if fell > 0 && fell + 1 == was {
                    self.tally.different("codes that alone would stay", code);
                }
            }
        }

        self.fall_by_number("trial", tried.fallen, &mut after);

        let mut drafts = (1..=32).filter(|&code| book.state(code) == Some(State::Draft));
        if drafts.any(|code| after.open(code).is_err()) {
            let what = "trial with a draft over the cap of its sheet";
            self.tally.one(what);
        }
    }

    /// A call that was refused for the desk comes after a trial.
    pub(super) fn trial_is_past(&mut self) {
        if let Some(tried) = &mut self.tried {
            tried.last = false;
        }
    }

    /// A call after a trial, if it shows that the book is as it was, or what the same SET does.
    pub(super) fn after_trial(&mut self, call: &str, numbers: &[u32], refusal: u64) {
        let Some(mut tried) = self.tried.take() else {
            return;
        };
        let at_once = std::mem::take(&mut tried.last);
        if call == "set" && at_once && tried.key == key(numbers) {
            match refusal {
                0 if tried.fallen == 0 => self.tally.one("trial, then the same set: ok, none fell"),
                0 => self.tally.one("trial, then the same set: ok, some fell"),
                _ => count!(self, "trial, then the same set: refused {refusal}"),
            }
            tried.set = true;
            self.tried = Some(tried);
            return;
        }
        let query = ["trial", "benchmark", "maximum", "quote", "rebate"].contains(&call);
        if query || refusal > 0 {
            self.tried = Some(tried);
        }
        if !tried.accepted {
            return;
        }
        let code = numbers.first().copied().unwrap_or(0);
        let fell = (1..=32).contains(&code) && tried.fallen >> (code - 1) & 1 == 1;
        match (call, refusal) {
            ("open" | "ask", 11) | ("close", 12) | ("confirm", 16) if tried.set && fell => {
                count!(self, "trial, the same set, then {call} of one that fell");
            }
            _ if tried.set => {}
            ("close" | "quote", 0)
            | ("open" | "ask" | "confirm" | "put" | "drop" | "direct", 7)
                if fell =>
            {
                count!(self, "trial, then {call} of one that would fall");
            }
            ("benchmark" | "maximum", 0) if tried.key != self.in_force => {
                count!(self, "trial of another sheet, then {call}");
            }
            (_, 10) => count!(
                self,
                "trial without a sheet in force, then {call} refused 10"
            ),
            _ => {}
        }
    }
}
