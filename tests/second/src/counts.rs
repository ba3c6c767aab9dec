//! What the lines of a script and their answers reach: each refusal of each call, each error,
//! and the edges.

use std::cmp::Ordering;
use std::fmt::Write;

use crate::book::{Book, NotOpened, Refusal, State, PLACES};
use crate::period_days;
use crate::sheet::{field_range, field_value, FIELDS};
use crate::tally::Tally;
use crate::tariff::{MONTH_LIMIT, RATE_LIMIT, RECORD, REGIONAL, STANDING_LIMIT, WHOLE};
use desks::is_part;
pub use desks::sort as sort_of_desk;
use directions::Direction;
use marks::Mark;
use regions::Quoted;
use savings::is_saving;
use trials::Tried;
use undos::{Before, Last, Undone};

/// What is met in the scripts of one or more books.
pub struct Counts {
    pub tally: Tally,
    /// The period in force, as the calls so far have it.
    period: Option<[u32; 3]>,
    /// The key of the sheet in force and its period.
    in_force: u64,
    /// The fields of the sheet in force.
    fields: Vec<u32>,
    /// The sheet in force has an SMNCC below zero.
    saving: bool,
    /// The last trial, as long as no call has changed the book since.
    tried: Option<Tried>,
    /// The set of codes that fell by the last SET, if the peak share alone was another.
    fell_by_share: u32,
    /// Books with the sheet in force at other peak shares, made as they are needed.
    at_shares: Vec<(u32, Book)>,
    /// The last call, if it was a quote that was answered, and its region.
    quoted: Option<(Quoted, usize)>,
    /// What was before the last SET, as long as that can be taken back.
    chance: Option<Before>,
    /// The SET that was last taken back, until another is accepted.
    undone: Option<Undone>,
    /// The line before, and whether a SET could be taken back before it.
    last: Option<(Last, bool)>,
    /// How far the last calls have come in SET, SET, UNDO, UNDO.
    in_a_row: u32,
    marks: [Mark; PLACES],
    directions: [Direction; PLACES],
    /// The set of codes that fell by a SET and were not opened, put or dropped since.
    fell: u32,
    /// The set of codes that CONFIRM opened last.
    confirmed: u32,
    /// The set of codes that a desk without all fourteen opened last, by either road.
    opened_by_part: u32,
    /// The desk that makes the call, if it is named.
    desk: Option<u32>,
    records: [[u32; RECORD]; PLACES],
    used: [bool; PLACES],
    open: [bool; PLACES],
    /// The numbers of the line.
    numbers: Vec<u32>,
    /// The numbers of the answer.
    values: Vec<u64>,
    name: String,
}

impl Default for Counts {
    fn default() -> Counts {
        Counts {
            tally: Tally::default(),
            period: None,
            in_force: 0,
            fields: Vec::new(),
            saving: false,
            tried: None,
            fell_by_share: 0,
            at_shares: Vec::new(),
            quoted: None,
            chance: None,
            undone: None,
            last: None,
            in_a_row: 0,
            marks: [Mark::default(); PLACES],
            directions: [Direction::default(); PLACES],
            fell: 0,
            confirmed: 0,
            opened_by_part: 0,
            desk: None,
            records: [[0; RECORD]; PLACES],
            used: [false; PLACES],
            open: [false; PLACES],
            numbers: Vec::new(),
            values: Vec::new(),
            name: String::new(),
        }
    }
}

/// Counts a thing whose name is put together.
macro_rules! count {
    ($self:ident, $($name:tt)*) => {{
        $self.name.clear();
        write!($self.name, $($name)*).expect("a name");
        $self.tally.one(&$self.name);
    }};
}

mod desks;
mod directions;
mod marks;
mod rebates;
mod regions;
mod savings;
mod splits;
mod trials;
mod undos;

impl Counts {
    /// A script begins on a fresh book.
    pub fn fresh_book(&mut self) {
        self.period = None;
        self.saving = false;
        self.tried = None;
        self.fell_by_share = 0;
        self.at_shares.clear();
        self.quoted = None;
        self.chance = None;
        self.undone = None;
        self.last = None;
        self.in_a_row = 0;
        self.marks = [Mark::default(); PLACES];
        self.directions = [Direction::default(); PLACES];
        self.fell = 0;
        self.confirmed = 0;
        self.opened_by_part = 0;
        self.desk = None;
        self.used = [false; PLACES];
        self.open = [false; PLACES];
    }

    /// Counts one line and its answer, neither with its line feed; `book` is the book after it.
    pub fn line(&mut self, line: &[u8], answer: &[u8], book: &Book) {
        if answer.is_empty() {
            self.no_call(Last::PassedOver);
            return self.tally.one("lines passed over");
        }
        let answer = std::str::from_utf8(answer).expect("answers are plain text");
        let ended = line.strip_suffix(b"\r");
        let mut words = ended
            .unwrap_or(line)
            .split(|&byte| byte == b' ')
            .filter(|word| !word.is_empty());
        let mut call = words.next().unwrap_or_default();
        if let Some(error) = answer.strip_prefix("error line ") {
            self.no_call(Last::NoCall);
            let kind = error.split_once(": ").map_or(error, |(_, kind)| kind);
            if call == b"desk" {
                let words: Vec<&[u8]> = std::iter::once(call).chain(words).collect();
                self.no_call_by_a_desk(&words, kind);
            } else if kind.ends_with("is not a number from 0 to 4294967295") {
                count!(
                    self,
                    "error: not a number, {}",
                    String::from_utf8_lossy(call)
                );
            } else {
                count!(self, "error: {kind}");
            }
            return;
        }
        self.desk = None;
        if call == b"desk" {
            let desk = words.next().unwrap_or_default();
            self.desk = Some(value(desk) as u32);
            if desk.len() > 10 {
                self.tally.one("desks of more than 10 digits");
            }
            call = words.next().unwrap_or_default();
        }
        self.numbers.clear();
        for word in words {
            let value = value(word);
            self.numbers.push(value as u32);
            if word.len() > 10 {
                self.tally.one("numbers of more than 10 digits");
            }
            if value == u64::from(u32::MAX) {
                self.tally.one("numbers of 4294967295");
            }
        }
        if ended.is_some() {
            self.tally.one("calls ended by a carriage return");
        }
        let mut answers = answer.split(' ');
        let ok = answers.next() == Some("ok");
        self.values.clear();
        self.values.extend(answers.flat_map(str::parse::<u64>));

        self.tally.one("calls");
        let call = std::str::from_utf8(call).expect("a call's word");
        if ok {
            count!(self, "{call} ok");
        } else {
            count!(self, "{call} refused {}", self.values[0]);
        }
        let numbers = std::mem::take(&mut self.numbers);
        let values = std::mem::take(&mut self.values);
        let refusal = if ok { 0 } else { values[0] };
        if let Some(desk) = self.desk {
            self.by_desk(desk, call, &numbers, refusal, book);
        }
        if refusal == 17 {
            assert!(self.desk.is_some(), "{call} without a desk was outside it");
            // Nothing was looked at but the desk.
            self.quoted = None;
            self.trial_is_past();
            let chance = self.chance.is_some();
            self.after_directions(call, &numbers, refusal, &values, book);
            self.after_marks(call, &numbers, refusal, &values, book);
            self.after_call(call, refusal, chance);
        } else {
            self.looked_at(call, &numbers, refusal, &values, book);
        }
        self.numbers = numbers;
        self.values = values;
    }

    /// A call that was not outside the desk, or was refused before that was looked at.
    fn looked_at(
        &mut self,
        call: &str,
        numbers: &[u32],
        refusal: u64,
        values: &[u64],
        book: &Book,
    ) {
        let ok = refusal == 0;
        self.after_trial(call, numbers, refusal);
        self.under_a_saving(call, refusal, values);
        self.under_another_split(call, refusal);
        self.after_another_peak_share(call, numbers, refusal);
        self.after_undo(call, numbers, refusal, values, book);
        let chance = self.chance.is_some();
        if ["set", "trial"].contains(&call) {
            self.smncc(call, &numbers[3..], refusal);
            self.peak_share(call, numbers, refusal);
        }
        if call != "quote" {
            self.quoted = None;
        }
        match call {
            "set" => self.set(numbers, refusal, book),
            "undo" => self.undo(refusal, book),
            "trial" => self.trial(numbers, refusal, values, book),
            "put" if ok => self.put(numbers),
            "put" if refusal == 8 => self.refused_record(&numbers[1..]),
            "open" => self.open(numbers, refusal, values),
            "close" if ok => {
                self.closed_by(numbers[0] as usize - 1);
                self.open[numbers[0] as usize - 1] = false;
                self.tally.different("codes closed", numbers[0].into());
            }
            "drop" if ok => {
                self.used[numbers[0] as usize - 1] = false;
                self.tally.different("codes dropped", numbers[0].into());
            }
            "benchmark" | "maximum" => self.question(call, numbers, refusal, values),
            "quote" => self.quote(numbers, refusal, values),
            "rebate" => self.rebate(numbers, refusal, values, book),
            _ => {}
        }
        self.after_directions(call, numbers, refusal, values, book);
        self.after_marks(call, numbers, refusal, values, book);
        self.after_call(call, refusal, chance);
    }

    fn set(&mut self, numbers: &[u32], refusal: u64, book: &Book) {
        let submitted = key(numbers);
        self.tally.different("sheets submitted", submitted);
        if refusal > 0 {
            return self.refused_sheet("set", numbers, refusal);
        }
        self.tally.different("sheets accepted", submitted);
        let in_force = self.period.is_some() && self.in_force == submitted;
        if in_force {
            self.tally.one("set of the sheet in force");
        }
        let still_open = |place: usize| book.state(place as u32 + 1) == Some(State::Open);
        let fallen = (0..PLACES).filter(|&place| self.open[place] && !still_open(place));
        let fallen: u32 = fallen.map(|place| 1 << place).sum();
        self.fell_by_share = 0;
        if self.peak_share_alone(numbers) {
            self.fell_by_share = fallen;
            self.another_peak_share("set", numbers, fallen);
        }
        if fallen > 0 {
            self.fall_by_number("set", fallen, &mut book.clone());
        }
        if fallen & self.confirmed > 0 {
            self.tally.one("set: one that was confirmed falls");
        }
        if fallen & self.opened_by_part > 0 {
            self.tally.one("set: one that a part desk opened falls");
        }
        self.same_set_after_undo(submitted, fallen);
        self.chance = Some(self.before_set());
        self.marks_cleared(in_force);
        self.in_force = submitted;
        self.fields.clear();
        self.fields.extend(&numbers[3..]);
        self.at_shares.clear();
        self.saving = is_saving(&numbers[3..]);
        self.accepted_sheet([numbers[0], numbers[1], numbers[2]], &numbers[3..], book);
        self.directions_after_set(fallen);
    }

    /// A call that takes a sheet was refused: for what, if that is all that was wrong.
    fn refused_sheet(&mut self, call: &str, numbers: &[u32], refusal: u64) {
        let period = [numbers[0], numbers[1], numbers[2]];
        let fields = &numbers[3..];
        match refusal {
            2 => {
                if let Some(field) = only_outside(fields) {
                    let (lowest, highest) = field_range(field);
                    let value = field_value(field, fields[field]);
                    let (set, trial) = if value == highest + 1 {
                        (
                            "fields alone, one above their range",
                            "fields tried alone, one above their range",
                        )
                    } else if value > highest {
                        (
                            "fields alone, far above their range",
                            "fields tried alone, far above their range",
                        )
                    } else if value == lowest - 1 {
                        (
                            "fields alone, one below their range",
                            "fields tried alone, one below their range",
                        )
                    } else {
                        (
                            "fields alone, far below their range",
                            "fields tried alone, far below their range",
                        )
                    };
                    let what = name(call, set, trial);
                    self.tally.different(what, field as u64);
                }
            }
            3 => {
                let [year, month, t] = period;
                if period_days(2018, month, t).is_some() && [2017, 2100].contains(&year) {
                    count!(self, "{call} refused 3 for the year {year} alone");
                }
                if period_days(year, 1, t).is_some() && [0, 13].contains(&month) {
                    count!(self, "{call} refused 3 for the month {month} alone");
                }
                if period_days(year, month, 1).is_some() && [0, 13].contains(&t) {
                    count!(self, "{call} refused 3 for a t of {t} alone");
                }
            }
            4 => {
                if let Some(field) = only_too_high(fields) {
                    let what = name(
                        call,
                        "terms that alone were above 100,000,000",
                        "terms tried that alone were above 100,000,000",
                    );
                    self.tally.different(what, field as u64);
                }
            }
            _ => {}
        }
    }

    fn accepted_sheet(&mut self, period: [u32; 3], fields: &[u32], book: &Book) {
        let after: [bool; PLACES] =
            std::array::from_fn(|i| book.state(i as u32 + 1) == Some(State::Open));
        let was = self.open.iter().filter(|&&open| open).count();
        let is = after.iter().filter(|&&open| open).count();
        self.open = after;
        if was > 0 && self.saving {
            self.tally.one(if is < was {
                "set with a saving, demoting some or all"
            } else {
                "set with a saving, keeping all the open ones"
            });
        }
        if is > 0 && is < was {
            self.tally.one("set demoting some and keeping some");
        } else if is < was {
            self.tally.one("set demoting all the open ones");
        } else if is > 0 {
            self.tally.one("set keeping all the open ones");
        }
        self.period = Some(period);
        let [year, month, t] = period;
        match (year, month) {
            (2018, 1) => self.tally.one("periods from January 2018"),
            (2099, 12) => self.tally.one("periods from December 2099"),
            _ => {}
        }
        if [1, 12].contains(&t) {
            count!(self, "periods with a t of {t}");
        }
        self.ends_of_fields(
            fields,
            "fields accepted at their lowest",
            "fields accepted at their highest",
        );
    }

    /// Counts the fields that are at an end of their range.
    fn ends_of_fields(
        &mut self,
        fields: &[u32],
        at_lowest: &'static str,
        at_highest: &'static str,
    ) {
        for (field, &word) in fields.iter().enumerate() {
            let (lowest, highest) = field_range(field);
            let value = field_value(field, word);
            if value == lowest {
                self.tally.different(at_lowest, field as u64);
            } else if value == highest {
                self.tally.different(at_highest, field as u64);
            }
        }
    }

    fn put(&mut self, numbers: &[u32]) {
        let record: [u32; RECORD] = numbers[1..].try_into().expect("an accepted record");
        let place = numbers[0] as usize - 1;
        self.records[place] = record;
        self.tally.one(if self.used[place] {
            "put over a draft"
        } else {
            "put in an empty place"
        });
        self.used[place] = true;
        self.tally.different("codes put", numbers[0].into());
        self.shape("put", &record);
        self.put_by_region(&record);
        let n = record[1] as usize;
        let steps = &record[9..REGIONAL];
        match record[0] {
            1 => {
                let steps = &steps[..n - 1];
                if steps.first() == Some(&1) {
                    self.tally.one("put: first step at 1 kWh");
                }
                if steps.last() == Some(&9_999) {
                    self.tally.one("put: last step at 9,999 kWh");
                }
                if steps.windows(2).any(|two| two[0] + 1 == two[1]) {
                    self.tally.one("put: steps side by side");
                }
            }
            2 => self.put_economy_7(&record),
            _ => {
                if steps[..n].contains(&0) {
                    self.tally.one("put: kind 3 with a share of 0");
                }
                if steps[..n].iter().any(|share| share % 10 > 0) {
                    self.tally.one("put: kind 3 with tenths of a percent");
                }
                if let Some(place) = steps[..n].iter().position(|&share| share == WHOLE) {
                    count!(
                        self,
                        "put: kind 3 with a share of 1,000 in place {place} of {n}"
                    );
                }
            }
        }
        match record[2] {
            0 => self.tally.one("put: field 2 of 0"),
            STANDING_LIMIT => self.tally.one("put: field 2 of 1,000,000"),
            _ => {}
        }
        for rate in [0, RATE_LIMIT] {
            if record[5..5 + n].contains(&rate) {
                count!(self, "put: a rate of {rate}");
            }
        }
    }

    fn shape(&mut self, what: &str, record: &[u32; RECORD]) {
        count!(self, "{what}: kind {}, n {}", record[0], record[1]);
    }

    fn open(&mut self, numbers: &[u32], refusal: u64, values: &[u64]) {
        let place = (numbers[0] as usize).wrapping_sub(1);
        match refusal {
            0 => {
                let record = self.records[place];
                self.open[place] = true;
                self.opened_by(place);
                self.tally.different("codes opened", numbers[0].into());
                self.tally.different("numbers of cells opened", values[0]);
                if values[0] == 0 {
                    return;
                }
                self.shape("opened", &record);
                self.opened_by_region(&record);
                if record[0] == 2 {
                    self.opened_economy_7(&record, false);
                }
                if [1, 28].contains(&values[0]) {
                    count!(self, "opened with cells: {}", values[0]);
                }
            }
            11 => {
                let record = self.records[place];
                let [_, region, method, excess, worst, ..] = *values else {
                    panic!("an answer 11 has months");
                };
                self.shape("11", &record);
                self.over_in_region(&record, region as usize, method);
                if record[0] == 2 {
                    self.opened_economy_7(&record, true);
                }
                let cell = 2 * region + method;
                self.tally
                    .different("cells that were the first over the cap", cell);
                let t = values.len() as u64 - 4;
                self.tally.different("lengths of the months of 11", t);
                match worst {
                    0 => self.tally.one("11 at months of 0"),
                    10_000 => self.tally.one("11 at months of 10,000"),
                    _ => self.tally.one("11 at months of a step"),
                }
                match worst {
                    1 => self.tally.one("11 at months of a step at 1"),
                    9_999 => self.tally.one("11 at months of a step at 9,999"),
                    _ => {}
                }
                if excess > 1 << 53 {
                    self.tally.one("11 with an excess above 2^53");
                }
                if excess > 1 << 62 {
                    self.tally.one("11 with an excess above 2^62");
                }
            }
            _ => {}
        }
    }

    /// BENCHMARK and MAXIMUM.
    fn question(&mut self, call: &str, numbers: &[u32], refusal: u64, values: &[u64]) {
        let &[region, arrangement, method, last] = numbers else {
            panic!("{call} takes 4 numbers");
        };
        let benchmark = call == "benchmark";
        match refusal {
            0 => {
                let cell = u64::from(4 * region + 2 * arrangement + method);
                if benchmark {
                    let cell = 2 * cell + u64::from(last);
                    self.tally
                        .different("benchmarks by their four arguments", cell);
                    if values[0] > 1 << 31 {
                        self.tally.one("benchmarks above 2^31");
                    }
                } else {
                    let what = "maximums by region, arrangement and method";
                    self.tally.different(what, cell);
                    if [0, 120_000].contains(&last) {
                        count!(self, "maximum for a total of {last}");
                    }
                }
            }
            13 => {
                let limits = [13, 1, 1, if benchmark { 1 } else { 120_000 }];
                let mut past = (0..4).filter(|&i| numbers[i] > limits[i]);
                if let (Some(i), None) = (past.next(), past.next()) {
                    let argument = ["region", "arrangement", "method", "last argument"][i];
                    if numbers[i] == limits[i] + 1 {
                        count!(self, "{call} refused 13: {argument} alone, by one");
                    }
                }
            }
            _ => {}
        }
    }

    fn quote(&mut self, numbers: &[u32], refusal: u64, values: &[u64]) {
        let [code, region, method, ref months @ ..] = *numbers else {
            panic!("quote takes at least 3 numbers");
        };
        let place = (code as usize).wrapping_sub(1);
        let Some(period) = self.period else {
            return;
        };
        match refusal {
            0 => {
                let record = self.records[place];
                self.shape("quoted", &record);
                self.quoted_by_region(numbers, &record, values[0] == values[1]);
                if record[0] == 2 {
                    self.quoted_economy_7(months, values);
                }
                self.tally.different("periods quoted in", key(&period));
                let cell = 2 * region + method;
                let cell = if record[0] == 1 { cell } else { 28 + cell };
                let what = "cells quoted, by arrangement";
                self.tally.different(what, cell.into());
                self.tally.one(match values[0].cmp(&values[1]) {
                    Ordering::Less => "quote below the cap",
                    Ordering::Equal => "quote exactly at the cap",
                    Ordering::Greater => "quote above the cap",
                });
                for end in [0, MONTH_LIMIT] {
                    if months.iter().all(|&kwh| kwh == end) {
                        count!(self, "quoted: {end} kWh in every month");
                    }
                }
                if values[0] > 1 << 53 {
                    self.tally.one("quoted charges above 2^53");
                }
                if values[0] > 1 << 62 {
                    self.tally.one("quoted charges above 2^62");
                }
                if values[1] > 1 << 53 {
                    self.tally.one("quoted maximums above 2^53");
                }
                if values[1] > 1 << 61 {
                    self.tally.one("quoted maximums above 2^61");
                }
            }
            13 => {
                let record = self.records[place];
                let t = period[2] as usize;
                let faults = [
                    (region > 13, "region past 13"),
                    (
                        region <= 13 && record[3] >> region & 1 == 0,
                        "region not offered",
                    ),
                    (method > 1, "method past 1"),
                    (
                        method <= 1 && record[4] >> method & 1 == 0,
                        "method not offered",
                    ),
                    (months.len() < t, "a month too few"),
                    (months.len() > t, "a month too many"),
                    (
                        months.iter().any(|&kwh| kwh > MONTH_LIMIT),
                        "a month above 10,000",
                    ),
                ];
                let mut met = faults.iter().filter(|(met, _)| *met);
                if let (Some((_, fault)), None) = (met.next(), met.next()) {
                    count!(self, "quote refused 13: {fault} alone");
                    if t > 1 && months.first() == Some(&(MONTH_LIMIT + 1)) {
                        self.tally.one("quote refused 13: first month 10,001");
                    }
                    if t > 1 && months.last() == Some(&(MONTH_LIMIT + 1)) {
                        self.tally.one("quote refused 13: last month 10,001");
                    }
                }
            }
            _ => {}
        }
    }
}

/// The value of a word that is a number.
fn value(word: &[u8]) -> u64 {
    word.iter()
        .fold(0, |value, digit| 10 * value + u64::from(digit - b'0'))
}

/// The name of a count for SET, and of the same one for TRIAL.
fn name(call: &str, set: &'static str, trial: &'static str) -> &'static str {
    match call {
        "set" => set,
        _ => trial,
    }
}

/// The only field of a sheet that is outside its range, if there is just one.
fn only_outside(fields: &[u32]) -> Option<usize> {
    only(FIELDS, |field| {
        let (lowest, highest) = field_range(field);
        !(lowest..=highest).contains(&field_value(field, fields[field]))
    })
}

/// The only field of a sheet whose indexed term is above 100,000,000, if there is just one.
fn only_too_high(fields: &[u32]) -> Option<usize> {
    only(FIELDS, |field| {
        let index = match field {
            0..=3 => 0,
            4..=7 => 1,
            8..=11 => field - 5,
            12..=15 | 20..=21 => 2,
            _ => return false,
        };
        let indexed = u64::from(fields[field]) * u64::from(fields[29 + index]);
        // Half a mill above the limit rounds up.
        2 * indexed >= 200_000_001 * u64::from(fields[22 + index])
    })
}

/// The only number below `count` for which the test holds, if there is just one.
fn only(count: usize, test: impl Fn(usize) -> bool) -> Option<usize> {
    let mut met = (0..count).filter(|&number| test(number));
    met.next().filter(|_| met.next().is_none())
}

/// A key that tells lists of numbers apart (FNV-1a, word by word, with a last stir).
fn key(numbers: &[u32]) -> u64 {
    let key = numbers
        .iter()
        .fold(0xcbf2_9ce4_8422_2325, |key: u64, &number| {
            (key ^ u64::from(number)).wrapping_mul(0x0000_0100_0000_01b3)
        });
    key ^ key >> 32
}
