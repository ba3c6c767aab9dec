//! What UNDO reaches: the call before it, what it takes back and what comes back, and the calls
//! after it. Whether there is something to take back, and what, is read from the calls alone.

use super::*;
use crate::sheet::PEAK_SHARE;

/// The line before, if it was a call or no call.
#[derive(Clone, Copy)]
pub(super) enum Last {
    Call(&'static str, u64),
    /// One that was accepted from a desk without all fourteen.
    OfPart(&'static str),
    NoCall,
    PassedOver,
}

/// What was so before a SET.
pub(super) struct Before {
    period: Option<[u32; 3]>,
    in_force: u64,
    fields: Vec<u32>,
    saving: bool,
    open: [bool; PLACES],
    marks: [Mark; PLACES],
}

/// A SET that UNDO took back.
pub(super) struct Undone {
    /// Year, month, t and the fields.
    sheet: Vec<u32>,
    key: u64,
    /// There was no sheet before it.
    first: bool,
    /// The set of codes that came back.
    back: u32,
    /// The set of codes whose marks came back.
    marks: u32,
    /// A call that changed a place was accepted since.
    changed: bool,
}

/// The call's name.
fn static_name(call: &str) -> &'static str {
    match call {
        "set" => "set",
        "undo" => "undo",
        "trial" => "trial",
        "put" => "put",
        "open" => "open",
        "ask" => "ask",
        "confirm" => "confirm",
        "close" => "close",
        "drop" => "drop",
        "benchmark" => "benchmark",
        "maximum" => "maximum",
        "quote" => "quote",
        "direct" => "direct",
        "rebate" => "rebate",
        _ => panic!("{call} is no call"),
    }
}

fn codes(open: &[bool; PLACES]) -> u32 {
    let open = (0..PLACES).filter(|&place| open[place]);
    open.map(|place| 1 << place).sum()
}

fn among(set: u32, code: u32) -> bool {
    (1..=32).contains(&code) && set >> (code - 1) & 1 == 1
}

impl Counts {
    /// A line that is no call comes after whatever there was.
    pub(super) fn no_call(&mut self, last: Last) {
        self.last = Some((last, self.chance.is_some()));
        self.marks_after_no_call();
    }

    /// What stands before a SET, so that UNDO can bring it back.
    pub(super) fn before_set(&self) -> Before {
        Before {
            period: self.period,
            in_force: self.in_force,
            fields: self.fields.clone(),
            saving: self.saving,
            open: self.open,
            marks: self.marks,
        }
    }

    /// A call has been counted: what UNDO would meet now.
    pub(super) fn after_call(&mut self, call: &str, refusal: u64, chance: bool) {
        let call = static_name(call);
        let last = match refusal {
            0 if is_part(self.desk) => Last::OfPart(call),
            _ => Last::Call(call, refusal),
        };
        self.last = Some((last, chance));
        let changes = ["put", "open", "ask", "confirm", "close", "drop", "direct"].contains(&call);
        if changes && refusal == 0 {
            self.chance = None;
        }
        self.in_a_row = match (self.in_a_row, call, refusal) {
            (0, "set", 0) => 1,
            (1..=2, "set", 0) => 2,
            (2, "undo", 0) => 3,
            (3, "undo", 15) => {
                let what = "set, set, undo, undo: ok, ok, ok, refused 15";
                self.tally.one(what);
                0
            }
            _ => 0,
        };
    }

    pub(super) fn undo(&mut self, refusal: u64, book: &Book) {
        let answer = if refusal == 0 { "ok" } else { "refused 15" };
        if let Some((last, chance)) = self.last {
            let chance = if chance { "chance" } else { "no chance" };
            match last {
                Last::Call(call, 0) => count!(self, "{chance}, {call} ok, undo: {answer}"),
                Last::Call(call, number) => {
                    count!(self, "{chance}, {call} refused {number}, undo: {answer}");
                }
                Last::OfPart(call) => {
                    count!(self, "{chance}, {call} ok by a part desk, undo: {answer}");
                }
                Last::NoCall => count!(self, "{chance}, a line that is no call, undo: {answer}"),
                Last::PassedOver => count!(self, "{chance}, a line passed over, undo: {answer}"),
            }
        }
        match (refusal, self.chance.take()) {
            (0, Some(before)) => self.taken_back(before, book),
            (15, None) if self.period.is_none() => {
                self.tally.one("undo refused 15 without a sheet in force");
            }
            (15, None) => self.tally.one("undo refused 15 with a sheet in force"),
            (_, before) => panic!(
                "undo answered {answer}, with something to take back: {}",
                before.is_some()
            ),
        }
    }

    fn taken_back(&mut self, before: Before, book: &Book) {
        let (was, stayed) = (codes(&before.open), codes(&self.open));
        let back = was & !stayed;
        let is_open = |code| book.state(code) == Some(State::Open);
        assert_eq!(
            was,
            codes(&std::array::from_fn(|place| is_open(place as u32 + 1))),
            "the open codes after undo"
        );
        let which = match back {
            0 => "none",
            _ if back == was => "all",
            _ => "some",
        };
        if was > 0 {
            count!(self, "undo: {which} of the open ones come back");
        }
        if was == u32::MAX {
            count!(self, "undo: {which} of 32 open ones come back");
        }
        if back & self.confirmed > 0 {
            self.tally.one("undo: one that was confirmed comes back");
        }
        if back & self.opened_by_part > 0 {
            self.tally
                .one("undo: one that a part desk opened comes back");
        }
        for place in (0..PLACES).filter(|&place| back >> place & 1 == 1) {
            let record = self.records[place];
            self.shape("comes back", &record);
            let code = place as u64 + 1;
            self.tally.different("codes that came back", code);
            if back.count_ones() == 1 {
                self.tally.different("codes that alone came back", code);
            }
        }
        match before.period {
            None => self.tally.one("undo of the first set"),
            Some(_) if before.in_force == self.in_force => {
                self.tally.one("undo of a set of the sheet in force");
            }
            Some(period) => self.other_sheet_comes_back(period, &before),
        }
        let mut copy = book.clone();
        let mut drafts = (1..=32).filter(|&code| book.state(code) == Some(State::Draft));
        if drafts.any(|code| copy.open(code).is_ok_and(|cells| cells > 0)) {
            let what = "undo with a draft within the cap of the sheet that comes back";
            self.tally.one(what);
        }

        let marks = self.marks_come_back(before.marks, book);
        let period = self.period.expect("a sheet to take back");
        let fields = std::mem::replace(&mut self.fields, before.fields);
        self.undone = Some(Undone {
            sheet: [&period, &fields[..]].concat(),
            key: self.in_force,
            first: before.period.is_none(),
            back,
            marks,
            changed: false,
        });
        self.period = before.period;
        self.in_force = before.in_force;
        self.saving = before.saving;
        self.open = before.open;
        self.at_shares.clear();
        self.fell_by_share = 0;
        self.directions_after_undo(book);
    }

    fn other_sheet_comes_back(&mut self, period: [u32; 3], before: &Before) {
        if self.period.is_some_and(|now| now[2] != period[2]) {
            self.tally.one("undo: another t comes back");
        }
        if self.fields[PEAK_SHARE] != before.fields[PEAK_SHARE] {
            self.tally.one("undo: another peak share comes back");
        }
        match (before.saving, self.saving) {
            (true, false) => self.tally.one("undo: a saving comes back"),
            (false, true) => self.tally.one("undo: a saving is taken back"),
            _ => {}
        }
    }

    /// A call after an UNDO that was accepted, if it shows what came back.
    pub(super) fn after_undo(
        &mut self,
        call: &str,
        numbers: &[u32],
        refusal: u64,
        values: &[u64],
        book: &Book,
    ) {
        let Some(mut undone) = self.undone.take() else {
            return;
        };
        if !undone.changed {
            self.right_after_undo(&undone, call, numbers, refusal, values, book);
        }
        match (call, refusal) {
            ("undo", 0) => return,
            // Counted there.
            ("set", 0) if undone.key == key(numbers) => {}
            ("set", 0) => return,
            ("put" | "open" | "ask" | "confirm" | "close" | "drop" | "direct", 0) => {
                undone.changed = true;
            }
            _ => {}
        }
        self.undone = Some(undone);
    }

    /// The book is as the UNDO left it.
    fn right_after_undo(
        &mut self,
        undone: &Undone,
        call: &str,
        numbers: &[u32],
        refusal: u64,
        values: &[u64],
        book: &Book,
    ) {
        if undone.first {
            match (call, refusal) {
                (_, 0) => count!(self, "undo of the first set, then {call} ok"),
                ("set" | "trial", _) => {
                    count!(self, "undo of the first set, then {call} refused");
                }
                _ => count!(self, "undo of the first set, then {call} refused {refusal}"),
            }
            return;
        }
        let first = numbers.first().copied().unwrap_or(0);
        let came_back = among(undone.back, first);
        match (call, refusal) {
            ("close" | "quote", 0)
            | ("open" | "ask" | "confirm" | "put" | "drop" | "direct", 7)
                if came_back =>
            {
                count!(self, "undo, then {call} of one that came back");
            }
            ("open" | "ask" | "confirm" | "put" | "drop", 0) | ("close", 12)
                if among(undone.marks, first) =>
            {
                count!(self, "undo, then {call} of one whose mark came back");
            }
            ("open" | "ask", 0 | 11) | ("close", 12) | ("confirm", 16) => {
                count!(self, "undo, then {call} of one that is a draft");
            }
            ("trial", 0) if undone.key == key(numbers) => {
                assert_eq!(values[0], u64::from(undone.back), "a trial after undo");
                let which = if undone.back == 0 { "none" } else { "those" };
                count!(
                    self,
                    "undo, then a trial of the same sheet: {which} would fall"
                );
            }
            _ => {}
        }
        let figures = ["benchmark", "maximum", "quote"].contains(&call);
        if figures && refusal == 0 && undone.key != self.in_force {
            let mut other = Book::new();
            let (period, fields) = undone.sheet.split_at(3);
            let set = other.set(period[0], period[1], period[2], fields);
            set.expect("a sheet taken before");
            let same = match call {
                "benchmark" => {
                    let level = numbers[3];
                    let of = |book: &Book| book.benchmark(first, numbers[1], numbers[2], level);
                    of(&other) == of(book)
                }
                "maximum" => {
                    let total = numbers[3];
                    let of = |book: &Book| book.maximum(first, numbers[1], numbers[2], total);
                    of(&other) == of(book)
                }
                _ => {
                    let put = other.put(first, &self.records[first as usize - 1]);
                    put.expect("a tariff");
                    let of = |book: &Book| book.quote(first, numbers[1], numbers[2], &numbers[3..]);
                    of(&other) == of(book)
                }
            };
            if !same {
                count!(self, "undo, then {call}: not as under the sheet taken back");
            }
        }
    }

    /// A SET was accepted by which these codes fell: whether it is the one that was taken back.
    pub(super) fn same_set_after_undo(&mut self, submitted: u64, fallen: u32) {
        let Some(undone) = self.undone.take() else {
            return;
        };
        if undone.key != submitted || undone.first {
            return;
        }
        if undone.changed {
            if undone.back & fallen > 0 {
                let what = "undo, places changed, then the same set: falls again";
                self.tally.one(what);
            }
            return;
        }
        assert_eq!(fallen, undone.back, "the same set after undo");
        let which = if fallen == 0 { "none" } else { "those" };
        count!(self, "undo, then the same set: {which} fall again");
    }
}
