//! What splits of Economy 7 reach: peak shares at their edges, sheets that differ from the one in
//! force in the peak share alone, and tariffs of kind 2 under any split.

use super::*;
use crate::script::{is_share_edge, DRAFTED};
use crate::sheet::PEAK_SHARE;
use crate::tariff::WHOLE;

/// How the two rates of kind 2 stand to each other.
fn rates(record: &[u32; RECORD]) -> &'static str {
    match record[5].cmp(&record[6]) {
        Ordering::Less => "peak rate below off-peak",
        Ordering::Equal => "both rates alike",
        Ordering::Greater => "peak rate above off-peak",
    }
}

impl Counts {
    /// The peak share in a call that takes a sheet, if the call got as far as it.
    pub(super) fn peak_share(&mut self, call: &str, numbers: &[u32], refusal: u64) {
        let fields = &numbers[3..];
        let answer = match refusal {
            0 => "ok",
            1 => return self.one_number_off(call, numbers),
            2 if only_outside(fields) == Some(PEAK_SHARE) => "refused 2",
            _ => return,
        };
        let share = fields[PEAK_SHARE];
        if is_share_edge(share) {
            count!(self, "{call} with a peak share of {share}: {answer}");
        }
        if refusal == 0 {
            let what = name(call, "peak shares set", "peak shares tried");
            self.tally.different(what, share.into());
        }
    }

    /// A number too few or too many, if the sheet is good otherwise.
    fn one_number_off(&mut self, call: &str, numbers: &[u32]) {
        let mut fields = numbers[3..].to_vec();
        let count = fields.len();
        if count.abs_diff(FIELDS) != 1 {
            return;
        }
        fields.resize(FIELDS, DRAFTED);
        let set = Book::new().set(numbers[0], numbers[1], numbers[2], &fields);
        if set.is_ok() {
            count!(self, "{call} refused 1 for {count} numbers alone");
        }
    }

    /// Whether a sheet with its period differs from the one in force in the peak share alone.
    pub(super) fn peak_share_alone(&self, numbers: &[u32]) -> bool {
        let (period, fields) = numbers.split_at(3);
        self.period.is_some_and(|in_force| in_force == period)
            && fields[..PEAK_SHARE] == self.fields[..PEAK_SHARE]
            && fields[PEAK_SHARE] != self.fields[PEAK_SHARE]
    }

    /// Such a sheet was set or tried: which of the open ones fall.
    pub(super) fn another_peak_share(&mut self, call: &str, numbers: &[u32], fallen: u32) {
        let way = if numbers[3 + PEAK_SHARE] > self.fields[PEAK_SHARE] {
            "higher"
        } else {
            "lower"
        };
        let open = self.open;
        if open.contains(&true) {
            let which = if fallen == 0 { "none" } else { "some" };
            count!(self, "{call} of a {way} peak share alone: {which} fall");
        }
        for place in (0..PLACES).filter(|&place| open[place]) {
            let record = self.records[place];
            let outcome = if fallen >> place & 1 == 1 {
                "falls"
            } else {
                "stays"
            };
            match record[0] {
                2 => count!(
                    self,
                    "{call} of a {way} peak share alone: kind 2 {outcome}, {}",
                    rates(&record)
                ),
                kind => count!(
                    self,
                    "{call} of another peak share alone: kind {kind} {outcome}"
                ),
            }
        }
    }

    /// Calls with a code that fell by the peak share alone.
    pub(super) fn after_another_peak_share(&mut self, call: &str, numbers: &[u32], refusal: u64) {
        let fell =
            |code: u32| (1..=32).contains(&code) && self.fell_by_share >> (code - 1) & 1 == 1;
        match (call, refusal) {
            ("open", 11) | ("close", 12) | ("quote", 0) if fell(numbers[0]) => {
                count!(
                    self,
                    "{call} of one that fell by the peak share alone: {}",
                    if refusal == 0 { "ok" } else { "refused" }
                );
            }
            ("put" | "drop", 0) => self.fell_by_share &= !(1 << (numbers[0] - 1)),
            _ => {}
        }
    }

    /// What is asked while the split in force is not the drafted one.
    pub(super) fn under_another_split(&mut self, call: &str, refusal: u64) {
        if self.period.is_none() || self.fields[PEAK_SHARE] == DRAFTED {
            return;
        }
        match (call, refusal) {
            (
                "trial" | "open" | "ask" | "confirm" | "benchmark" | "maximum" | "quote" | "rebate",
                0,
            ) => {
                count!(self, "under another split: {call} ok");
            }
            ("open" | "ask", 11) => count!(self, "under another split: {call} refused 11"),
            _ => {}
        }
    }

    pub(super) fn put_economy_7(&mut self, record: &[u32; RECORD]) {
        count!(self, "put: kind 2, {}", rates(record));
    }

    /// A tariff of kind 2 was opened, or is over the cap.
    pub(super) fn opened_economy_7(&mut self, record: &[u32; RECORD], over: bool) {
        let share = self.fields[PEAK_SHARE];
        let (what, shares) = if over {
            ("11", "peak shares with kind 2 over the cap")
        } else {
            ("opened", "peak shares with kind 2 opened")
        };
        count!(self, "{what}: kind 2, {}", rates(record));
        self.tally.different(shares, share.into());
        for (other, how) in [
            (DRAFTED, "at 580"),
            (WHOLE - share, "with the split exchanged"),
        ] {
            if other != share && self.over_at(other, record) != over {
                count!(self, "{what}: kind 2, not so {how}");
            }
        }
    }

    /// Whether a tariff is over the cap of the sheet in force if the peak share is another.
    pub(super) fn over_at(&mut self, share: u32, record: &[u32; RECORD]) -> bool {
        let known = self.at_shares.iter().position(|&(known, _)| known == share);
        let place = known.unwrap_or_else(|| {
            let [year, month, t] = self.period.expect("a sheet in force");
            let mut fields = self.fields.clone();
            fields[PEAK_SHARE] = share;
            let mut book = Book::new();
            book.set(year, month, t, &fields).expect("as good a sheet");
            self.at_shares.push((share, book));
            self.at_shares.len() - 1
        });
        let book = &mut self.at_shares[place].1;
        book.put(1, record).expect("a draft");
        let over = book.open(1).is_err();
        if !over {
            book.close(1).expect("an open one");
        }
        over
    }

    pub(super) fn quoted_economy_7(&mut self, months: &[u32], values: &[u64]) {
        let share = self.fields[PEAK_SHARE];
        let what = "peak shares with kind 2 quoted";
        self.tally.different(what, share.into());
        if values[0] == values[1] && months.iter().any(|&kwh| kwh > 0) {
            match share {
                0 | DRAFTED | WHOLE => {
                    count!(self, "quoted: kind 2 at the cap, peak share: {share}");
                }
                _ => self
                    .tally
                    .one("quoted: kind 2 at the cap, peak share: another"),
            }
        }
    }
}
