//! What DIRECT reaches: what a tariff under a direction is asked and answered, what keeps a direction
//! and what ends it. Which tariffs are under a direction is read from the calls alone.

use super::*;

/// The direction of a place, as the calls so far have it.
#[derive(Clone, Copy, Default)]
pub(super) struct Direction {
    there: bool,
    /// What has come since it was given, bits of `SINCE`.
    since: u32,
    /// What ended the last one, if nothing else has happened to the place since.
    ended_by: Option<&'static str>,
    /// It was given when the tariff had fallen by a SET, and not been opened since.
    after_a_fall: bool,
    /// ASK answered cells before it was given, and its mark is there.
    asked_before: bool,
}

/// What keeps a direction.
const SINCE: [&str; 14] = [
    "direct",
    "set",
    "undo",
    "close",
    "ask",
    "open",
    "confirm",
    "a refused put",
    "a refused drop",
    "trial",
    "a question",
    "rebate",
    "put of another code",
    "drop of another code",
];

const PUT: &str = "put";
const DROP: &str = "drop";
const DROP_AND_PUT: &str = "drop, put";

fn over_or_within(over: bool) -> &'static str {
    if over {
        "over the cap"
    } else {
        "within the cap"
    }
}

impl Counts {
    pub(super) fn is_directed(&self, code: u32) -> bool {
        (1..=32).contains(&code) && self.directions[code as usize - 1].there
    }

    /// Whether the tariff of a code is open under a direction.
    pub(super) fn is_open_under_a_direction(&self, code: u32) -> bool {
        self.is_directed(code) && self.open[code as usize - 1]
    }

    /// The places that are open under a direction.
    fn open_under_a_direction(&self) -> Vec<usize> {
        let open = |&place: &usize| self.open[place] && self.directions[place].there;
        (0..PLACES).filter(open).collect()
    }

    /// Something has come that keeps the directions of these places.
    fn kept(&mut self, what: &str, here: impl Fn(usize) -> bool) {
        let bit = SINCE.iter().position(|since| *since == what);
        let bit = bit.expect("one of those that keep a direction");
        let directed = self.directions.iter_mut().enumerate();
        for (_, direction) in directed.filter(|(place, one)| one.there && here(*place)) {
            direction.since |= 1 << bit;
        }
    }

    /// A SET was accepted by which these codes fell.
    pub(super) fn directions_after_set(&mut self, fallen: u32) {
        self.fell = (self.fell | fallen) & !self.open_codes();
        for direction in &mut self.directions {
            direction.asked_before = false;
        }
        self.kept("set", |_| true);
        let mut stays_over = 0;
        for place in self.open_under_a_direction() {
            let record = self.records[place];
            let over = self.over(&record);
            stays_over += u32::from(over);
            count!(
                self,
                "set: one open under a direction, {}, stays open",
                over_or_within(over)
            );
            if over {
                self.shape("stays open over the cap", &record);
                let what = "codes that stay open over the cap";
                self.tally.different(what, place as u64 + 1);
            }
        }
        if stays_over > 0 && fallen > 0 {
            let what = "set: one stays open over the cap, and another falls";
            self.tally.one(what);
        }
        if stays_over == PLACES as u32 {
            self.tally.one("set: 32 stay open over the cap");
        }
    }

    /// An UNDO was accepted.
    pub(super) fn directions_after_undo(&mut self, book: &Book) {
        self.kept("undo", |_| true);
        self.fell &= !self.open_codes();
        for code in 1..=32 {
            let directed = self.is_directed(code);
            assert_eq!(book.is_directed(code), directed, "after undo");
            if directed {
                self.tally.one(if self.open[code as usize - 1] {
                    "undo: one open under a direction stays open"
                } else {
                    "undo: a draft under a direction stays a draft"
                });
            }
        }
    }

    fn open_codes(&self) -> u32 {
        let open = (0..PLACES).filter(|&place| self.open[place]);
        open.map(|place| 1 << place).sum()
    }

    /// A call other than an accepted SET or UNDO: what it meets of directions, and what it makes of
    /// them.
    pub(super) fn after_directions(
        &mut self,
        call: &str,
        numbers: &[u32],
        refusal: u64,
        values: &[u64],
        book: &Book,
    ) {
        match (call, refusal) {
            ("set" | "undo", _) => return,
            ("trial", _) => {
                if refusal == 0 {
                    self.tried_under_a_direction(numbers);
                }
                return self.kept("trial", |_| true);
            }
            ("rebate", _) => return self.kept("rebate", |_| true),
            ("benchmark" | "maximum", _) => return self.kept("a question", |_| true),
            ("quote", _) => self.kept("a question", |_| true),
            _ => {}
        }
        let code = numbers[0];
        let Some(place) = (code as usize)
            .checked_sub(1)
            .filter(|&place| place < PLACES)
        else {
            return;
        };
        let was = self.directions[place];
        match (call, refusal) {
            ("put" | "drop", 0) => self.ended(call, place),
            ("direct", 0) => self.directed(place),
            ("direct", 7) if was.there => {
                self.tally.one("direct refused 7 of one under a direction")
            }
            ("direct", 7) => self
                .tally
                .one("direct refused 7 of one without a direction"),
            ("open" | "ask" | "confirm", _) if was.there => {
                self.opening_under_a_direction(call, place, refusal, values);
            }
            ("open" | "ask" | "confirm", _) => self.opening_without_one(call, place, refusal),
            ("put", _) => self.kept("a refused put", |other| other == place),
            ("drop", _) => self.kept("a refused drop", |other| other == place),
            ("close", 12) if was.there && was.after_a_fall => {
                let what = "set, direct of one that fell, close: refused 12";
                self.tally.one(what);
            }
            ("close", 0) if was.there => {
                self.tally.one("close ok under a direction");
                self.kept("close", |other| other == place);
            }
            ("quote", 0) if was.there => self.tally.one(if self.open[place] {
                "quote ok of one open under a direction"
            } else {
                "quote ok of a draft under a direction"
            }),
            _ => {}
        }
        if refusal == 0 {
            match call {
                "put" => self.kept("put of another code", |other| other != place),
                "drop" => self.kept("drop of another code", |other| other != place),
                "open" | "confirm" => self.fell &= !(1 << place),
                _ => {}
            }
        }
        assert_eq!(
            book.is_directed(code),
            self.is_directed(code),
            "code {code} under a direction after {call}"
        );
    }

    fn directed(&mut self, place: usize) {
        let code = place as u32 + 1;
        self.tally.different("codes directed", code.into());
        let record = self.records[place];
        self.shape("directed", &record);
        let stand = match self.period {
            None => "without a sheet",
            Some(_) => over_or_within(self.over(&record)),
        };
        count!(self, "direct ok, {stand}");
        if self.directions[place].there {
            self.tally.one("direct ok of one under a direction");
            return self.kept("direct", |other| other == place);
        }
        let after_a_fall = self.fell >> place & 1 == 1;
        if after_a_fall {
            self.tally.one("direct ok of one that fell");
        }
        self.directions[place] = Direction {
            there: true,
            after_a_fall,
            asked_before: self.is_marked(code),
            ..Direction::default()
        };
    }

    /// PUT or DROP was accepted at a place.
    fn ended(&mut self, call: &str, place: usize) {
        let Direction {
            there, ended_by, ..
        } = self.directions[place];
        let ended_by = match call {
            "put" if ended_by == Some(DROP) => Some(DROP_AND_PUT),
            _ if !there => None,
            "put" => Some(PUT),
            _ => Some(DROP),
        };
        if there {
            count!(self, "{call} ok of one under a direction");
        }
        self.fell &= !(1 << place);
        self.directions[place] = Direction {
            ended_by,
            ..Direction::default()
        };
    }

    fn opening_under_a_direction(
        &mut self,
        call: &str,
        place: usize,
        refusal: u64,
        values: &[u64],
    ) {
        if refusal > 0 {
            return count!(self, "{call} refused {refusal} under a direction");
        }
        assert_eq!(values[0], 0, "cells under a direction");
        let record = self.records[place];
        let over = self.over(&record);
        count!(self, "{call}: 0 cells, {}", over_or_within(over));
        self.shape("opened or asked under a direction", &record);
        let Direction {
            since,
            after_a_fall,
            asked_before,
            ..
        } = self.directions[place];
        if since == 0 {
            count!(self, "direct, {call}: 0 cells");
        }
        for (bit, what) in SINCE.iter().enumerate() {
            if since >> bit & 1 == 1 {
                count!(self, "direct, {what}, {call}: 0 cells");
            }
        }
        if after_a_fall && call != "ask" {
            count!(self, "set, direct of one that fell, {call}: 0 cells");
            self.directions[place].after_a_fall = false;
        }
        if asked_before && call == "confirm" {
            let what = "ask with cells, direct, confirm: 0 cells";
            self.tally.one(what);
        }
        if call != "ask" {
            self.directions[place].asked_before = false;
        }
        self.kept(call, |other| other == place);
    }

    fn opening_without_one(&mut self, call: &str, place: usize, refusal: u64) {
        let Some(ended_by) = self.directions[place].ended_by else {
            return;
        };
        match refusal {
            0 => count!(self, "direct, {ended_by}, {call}: with cells"),
            11 => count!(self, "direct, {ended_by}, {call}: refused 11"),
            _ => {}
        }
    }

    /// A trial was accepted whose sheet some open tariff under a direction is over the cap of: it is
    /// not told.
    fn tried_under_a_direction(&mut self, numbers: &[u32]) {
        let open = self.open_under_a_direction();
        if open.is_empty() {
            return;
        }
        let mut book = Book::new();
        let set = book.set(numbers[0], numbers[1], numbers[2], &numbers[3..]);
        set.expect("a sheet that the trial accepts");
        for place in open {
            let code = place as u32 + 1;
            book.put(code, &self.records[place]).expect("a tariff");
            count!(
                self,
                "trial: one open under a direction, {}, is not told",
                over_or_within(book.open(code).is_err())
            );
        }
    }
}
