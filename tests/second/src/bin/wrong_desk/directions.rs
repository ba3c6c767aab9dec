//! Directions with a fault: in the answers of DIRECT, in what a tariff under a direction is answered,
//! and in what keeps a direction or ends it. And rebate runs with a fault.

use second::{Book, DeskRegions, Quote, State};

use crate::marks::{codes, open_in_the_one};
use crate::{answer_of, answer_of_line, offered, refusal_of, trial, Named, RECORD};

const ALL: u32 = 16_383;
const ACCOUNT: usize = 16;

/// What this desk has that a right one has not, bit code - 1 for each. It is right up to the first
/// answer that the fault makes wrong.
#[derive(Default)]
pub struct WrongDirections {
    /// Directions that are there and that it has not, and that it has and are not there.
    ended: u32,
    kept: u32,
    /// Tariffs that are open and that it has as drafts, and the other way round.
    drafts: u32,
    open: u32,
    /// Marks that are there and that it has not, and the other way round.
    lost: u32,
    marked: u32,
    /// The codes that fell and were not opened since, and those that were asked for without a
    /// direction.
    fell: u32,
    asked: u32,
    /// Whether a SET can be taken back, as this desk has it.
    chance: bool,
}

/// A call, the right answer, and the book before it and after it.
pub struct Called<'a> {
    pub named: &'a Named,
    pub answer: &'a str,
    pub before: &'a Book,
    pub after: &'a Book,
    pub records: &'a [[u32; RECORD]; 33],
}

impl Called<'_> {
    fn code(&self) -> u32 {
        let first = self.named.numbers.first().copied().unwrap_or(0);
        match &self.named.call[..] {
            "set" | "undo" | "trial" | "benchmark" | "maximum" | "rebate" => 0,
            _ if first > 32 => 0,
            _ => first,
        }
    }

    fn bit(&self) -> u32 {
        match self.code() {
            0 => 0,
            code => 1 << (code - 1),
        }
    }

    fn cells(&self) -> u32 {
        let record = &self.records[self.code() as usize];
        offered(record).len() as u32 * record[4].count_ones()
    }

    /// The book before the call, with the tariff of its code as a draft without a direction.
    fn without_a_direction(&self) -> Option<Book> {
        let mut book = self.before.clone();
        book.put(self.code(), &self.records[self.code() as usize])
            .ok()?;
        Some(book)
    }

    /// The codes of the tariffs that are open under a direction and over the cap of a sheet.
    fn open_and_over(&self, numbers: &[u32]) -> u32 {
        let mut judge = Book::new();
        let set = judge.set(numbers[0], numbers[1], numbers[2], &numbers[3..]);
        if set.is_err() {
            return 0;
        }
        codes(|code| {
            is_open_under_a_direction(self.before, code) && {
                let mut judge = judge.clone();
                let put = judge.put(code, &self.records[code as usize]);
                put.expect("a tariff");
                judge.open(code).is_err()
            }
        })
    }
}

fn is_open_under_a_direction(book: &Book, code: u32) -> bool {
    book.is_directed(code) && book.state(code) == Some(State::Open)
}

fn directed(book: &Book) -> u32 {
    codes(|code| book.is_directed(code))
}

impl WrongDirections {
    /// The answer that the fault makes of the right one. `None` if it stays.
    pub fn answer(&self, fault: &str, called: &Called) -> Option<String> {
        let call = &called.named.call[..];
        let numbers = &called.named.numbers;
        let right = refusal_of(called.answer);
        let (bit, code) = (called.bit(), called.code());
        let is_directed = called.before.is_directed(code);
        let desk = called.named.desk.unwrap_or(ALL);
        let cells = || format!("ok {}\n", called.cells());
        let ok = || Some("ok\n".to_string());
        let refused = |number: u32| Some(format!("refused {number}\n"));
        let within = || {
            let mut book = called.without_a_direction()?;
            book.open(code).ok()
        };

        match (call, right) {
            ("undo", 15) if self.chance => return ok(),
            ("undo", 0) if !self.chance => return refused(15),
            ("open" | "ask", 0) if self.ended & bit > 0 => {
                return answer_of(called.without_a_direction()?, call, numbers);
            }
            ("confirm", 0) if self.ended & bit > 0 => return Some(cells()),
            ("open" | "ask", 0 | 11) if self.kept & bit > 0 => return Some("ok 0\n".to_string()),
            ("confirm", 0) if self.lost & bit > 0 => return refused(16),
            ("confirm", 16) if self.marked & bit > 0 => return Some("ok 0\n".to_string()),
            ("close", 0) if self.drafts & bit > 0 => return refused(12),
            ("put" | "open" | "ask" | "drop" | "direct", 7) if self.drafts & bit > 0 => {
                return ok();
            }
            ("close", 12) if self.open & bit > 0 => return ok(),
            ("put" | "open" | "ask" | "drop" | "direct", 0 | 8 | 10 | 11)
                if self.open & bit > 0 =>
            {
                return refused(7);
            }
            ("rebate", 0) => {
                let not_open =
                    |account: &[u32]| (self.ended | self.drafts) >> (account[0] - 1) & 1 == 1;
                let place = numbers.chunks(ACCOUNT).position(not_open);
                return place.map(|place| format!("refused 18 {place}\n"));
            }
            _ => {}
        }
        match (fault, call, right) {
            ("a desk of one region may give one", "direct", 17) if desk.count_ones() == 1 => {
                answer_of(called.before.clone(), call, numbers)
            }
            ("every desk may give one", "direct", 17) => {
                answer_of(called.before.clone(), call, numbers)
            }
            ("a desk that may use the code may give one", "direct", 17) => {
                // As CLOSE has it.
                let line = Named::line(called.named.desk, "drop", numbers);
                let outside = answer_of_line(called.before.clone(), &line)? == "refused 17\n";
                (!outside).then(|| answer_of(called.before.clone(), call, numbers))?
            }
            ("no 6", "direct", 6) | ("no 9", "direct", 9) | ("no 7", "direct", 7) => ok(),
            ("9 before 6", "direct", 6) => refused(9),
            ("10 without a sheet", "direct", 0) if called.before.t().is_none() => refused(10),
            ("not given twice", "direct", 0) if is_directed => refused(7),
            ("not to a marked draft", "direct", 0) if called.before.is_marked(code) => refused(7),
            ("not within the cap", "direct", 0) if within().is_some() => refused(11),
            ("open without 10", "open", 10) | ("ask without 10", "ask", 10) if is_directed => {
                Some("ok 0\n".to_string())
            }
            ("confirm without 16", "confirm", 16) if is_directed => Some("ok 0\n".to_string()),
            ("28 cells", "open" | "ask" | "confirm", 0) if is_directed => {
                Some("ok 28\n".to_string())
            }
            ("no cells", "open" | "ask" | "confirm", 0) if is_directed => ok(),
            ("open answers cells", "open", 0)
            | ("ask answers cells", "ask", 0)
            | ("confirm answers cells", "confirm", 0)
                if is_directed =>
            {
                Some(cells())
            }
            ("cells within the cap", "open" | "ask" | "confirm", 0) if is_directed => {
                within().map(|cells| format!("ok {cells}\n"))
            }
            ("confirm answers what ask did", "confirm", 0)
                if is_directed && self.asked & bit > 0 =>
            {
                Some(cells())
            }
            ("11 all the same", "open" | "ask", 0) if is_directed => {
                let answer = answer_of(called.without_a_direction()?, call, numbers)?;
                answer.starts_with("refused 11").then_some(answer)
            }
            ("a trial tells them", "trial", 0) => {
                let told = trial(called.before, numbers, numbers).ok()?;
                Some(format!("ok {}\n", told | called.open_and_over(numbers)))
            }
            ("close is refused", "close", 0) if is_directed => refused(12),
            ("quote is refused", "quote", 0) if is_directed => refused(13),
            _ => None,
        }
    }

    /// What the call makes of all this.
    pub fn after(&mut self, fault: &str, called: &Called) {
        let call = &called.named.call[..];
        let bit = called.bit();
        let right = refusal_of(called.answer);
        let before = called.before;
        let was_directed = before.is_directed(called.code());
        if right != 0 {
            if fault == format!("a refused {call} ends it") && was_directed {
                self.ended |= bit;
            }
            if fault == "a refused one ends the chance" && call == "direct" {
                self.chance = false;
            }
            return;
        }
        match call {
            "set" => self.chance = true,
            "undo" => self.chance = false,
            "direct" => self.chance &= fault == "the chance survives it",
            "put" | "open" | "ask" | "confirm" | "close" | "drop" => self.chance = false,
            "rebate" => self.chance &= fault != "the run ends the chance",
            _ => {}
        }
        let fallen = open_in_the_one(before, called.after);
        match (call, fault) {
            ("set", "set makes drafts of them") => {
                self.drafts = called.open_and_over(&called.named.numbers);
            }
            ("set", "set ends them") | ("undo", "undo ends them") => self.ended |= directed(before),
            ("undo", _) => self.drafts = 0,
            ("direct", "it clears the mark") if before.is_marked(called.code()) => {
                self.lost |= bit;
            }
            ("direct", "it marks the draft") if !before.is_marked(called.code()) => {
                self.marked |= bit;
            }
            ("direct", "what fell is open again") => self.open |= bit & self.fell,
            ("direct", "the next code has it") => self.kept |= bit.rotate_left(1),
            ("direct", "code 32 never has it") => self.ended |= bit & 1 << 31,
            ("put", "it survives put") if was_directed => self.kept |= bit,
            ("drop", "it survives drop") if was_directed => self.kept |= bit,
            ("put", "it survives drop") => {}
            ("put" | "drop", _) => self.kept &= !bit,
            _ => {}
        }
        match call {
            "set" => self.fell = (self.fell | fallen) & !open_in_the_one(called.after, before),
            "undo" => self.fell &= !open_in_the_one(called.after, before),
            "open" | "confirm" | "put" | "drop" => self.fell &= !bit,
            _ => {}
        }
        if ["put", "drop", "open", "confirm"].contains(&call) {
            self.open &= !bit;
            self.lost &= !bit;
            self.marked &= !bit;
        }
        if ["put", "drop"].contains(&call) {
            self.ended &= !bit;
        }
        match call {
            "ask" if !was_directed => self.asked |= bit,
            "put" | "drop" | "open" | "confirm" => self.asked &= !bit,
            "ask" | "close" if was_directed && fault == format!("{call} ends it") => {
                self.ended |= bit;
            }
            "set" => (self.asked, self.marked, self.lost) = (0, 0, 0),
            _ => {}
        }
        if ["open", "confirm"].contains(&call) && was_directed && fault == format!("{call} ends it")
        {
            self.ended |= bit;
        }
    }
}

/// The accounts of a run, as it is answered.
struct Run<'a> {
    desk: u32,
    book: &'a Book,
    records: &'a [[u32; RECORD]; 33],
    accounts: Vec<&'a [u32]>,
}

impl Run<'_> {
    fn quote_of(&self, desk: u32, account: &[u32], months: &[u32]) -> Option<Quote> {
        let desk = DeskRegions::new(desk);
        let quote = self
            .book
            .quote_by(desk, account[0], account[1], account[2], months);
        quote.ok()
    }

    fn quote(&self, account: &[u32]) -> Option<Quote> {
        let months = account[4..].get(..account[3] as usize)?;
        self.quote_of(self.desk, account, months)
    }

    /// 12,000 x m for the tariff of an account.
    fn scale(&self, account: &[u32]) -> u64 {
        let kind = self.records[account[0] as usize][0];
        let maximum = self.book.maximum(0, u32::from(kind != 1), 0, 0);
        1_000 * u64::from(maximum.expect("a sheet").denominator)
    }

    fn is_open(&self, account: &[u32]) -> bool {
        is_open_under_a_direction(self.book, account[0])
    }

    /// The rebate by a quote.
    fn due(&self, account: &[u32], quote: Quote) -> u64 {
        let over = quote.charge.saturating_sub(quote.maximum);
        over.div_ceil(self.scale(account))
    }

    /// The answer with these rebates.
    fn ok(&self, rebate: impl Fn(&[u32], Quote) -> Option<u64>) -> Option<String> {
        let mut rebates = Vec::new();
        for account in &self.accounts {
            rebates.push(rebate(account, self.quote(account)?)?);
        }
        Some(ok_of(rebates.iter().sum(), &rebates))
    }

    /// The same where the quotes are others.
    fn ok_by(&self, quote: impl Fn(&[u32]) -> Option<Quote>) -> Option<String> {
        let rebates: Option<Vec<u64>> = self
            .accounts
            .iter()
            .map(|account| Some(self.due(account, quote(account)?)))
            .collect();
        let rebates = rebates?;
        Some(ok_of(rebates.iter().sum(), &rebates))
    }

    /// The answer if the places for which the tests hold are refused 18 and 19.
    fn tested(
        &self,
        is_18: impl Fn(&[u32]) -> bool,
        is_19: impl Fn(&[u32]) -> bool,
        quote: impl Fn(&[u32]) -> Option<Quote>,
    ) -> Option<String> {
        let place = |test: &dyn Fn(&[u32]) -> bool| {
            let mut accounts = self.accounts.iter();
            accounts.position(|account| test(account))
        };
        if let Some(place) = place(&is_19) {
            return Some(format!("refused 19 {place}\n"));
        }
        if let Some(place) = place(&is_18) {
            return Some(format!("refused 18 {place}\n"));
        }
        self.ok_by(quote)
    }
}

fn ok_of(total: u64, rebates: &[u64]) -> String {
    let rebates: Vec<String> = rebates.iter().map(u64::to_string).collect();
    let answer = format!("ok {total} {}", rebates.join(" "));
    answer.trim_end().to_string() + "\n"
}

/// The answer to a run that the fault makes of the right one. `None` if it stays.
pub fn wrong_run(fault: &str, called: &Called) -> Option<String> {
    if called.named.call != "rebate" {
        return None;
    }
    let right = refusal_of(called.answer);
    let run = Run {
        desk: called.named.desk.unwrap_or(ALL),
        book: called.before,
        records: called.records,
        accounts: called.named.numbers.chunks(ACCOUNT).collect(),
    };
    let values: Vec<u64> = called
        .answer
        .split(' ')
        .flat_map(|word| word.trim().parse())
        .collect();
    let is_19 = |account: &[u32]| run.quote(account).is_none();
    let not_open = |account: &[u32]| !run.is_open(account);
    let last = |test: &dyn Fn(&[u32]) -> bool| {
        let mut accounts = run.accounts.iter();
        accounts.rposition(|account| test(account))
    };
    let count = run.accounts.len();
    let answer = match (fault, right) {
        // Rebates.
        ("rounded down", 0) => run.ok(|account, quote| {
            let over = quote.charge.saturating_sub(quote.maximum);
            Some(over / run.scale(account))
        })?,
        ("rounded to the nearest", 0) => run.ok(|account, quote| {
            let scale = run.scale(account);
            let over = quote.charge.saturating_sub(quote.maximum);
            Some((over + scale / 2) / scale)
        })?,
        ("a mill more where nothing is to be rounded", 0) => run.ok(|account, quote| {
            let scale = run.scale(account);
            let over = quote.charge.saturating_sub(quote.maximum);
            Some(if over == 0 { 0 } else { over / scale + 1 })
        })?,
        ("a mill at the cap", 0) => run.ok(|account, quote| {
            let due = run.due(account, quote);
            Some(due.max(u64::from(quote.charge == quote.maximum)))
        })?,
        ("below the cap it is owed too", 0) => run.ok(|account, quote| {
            let apart = quote.charge.abs_diff(quote.maximum);
            Some(apart.div_ceil(run.scale(account)))
        })?,
        ("the maximum of the other method", 0) => run.ok(|account, quote| {
            let kind = run.records[account[0] as usize][0];
            let total = account[4..][..account[3] as usize].iter().sum();
            let arrangement = u32::from(kind != 1);
            let of_other = run
                .book
                .maximum(account[1], arrangement, 1 - account[2], total);
            let maximum = 1_000 * of_other.ok()?.number;
            Some(run.due(account, Quote { maximum, ..quote }))
        })?,
        ("the maximum of region 0", 0) => run.ok(|account, quote| {
            let kind = run.records[account[0] as usize][0];
            let total = account[4..][..account[3] as usize].iter().sum();
            let of_region_0 = run.book.maximum(0, u32::from(kind != 1), account[2], total);
            let maximum = 1_000 * of_region_0.ok()?.number;
            Some(run.due(account, Quote { maximum, ..quote }))
        })?,
        ("the charge alone", 0) => {
            run.ok(|account, quote| Some(quote.charge.div_ceil(run.scale(account))))?
        }
        ("rebates of 32 bits", 0) => {
            run.ok(|account, quote| Some(u64::from(run.due(account, quote) as u32)))?
        }
        ("an account twice is owed once", 0) => {
            let mut rebates = values[1..].to_vec();
            for (place, account) in run.accounts.iter().enumerate() {
                if run.accounts[..place].contains(account) {
                    rebates[place] = 0;
                }
            }
            ok_of(rebates.iter().sum(), &rebates)
        }
        // Totals.
        ("the total of the first account alone", 0) => {
            ok_of(values.get(1).copied().unwrap_or(0), &values[1..])
        }
        ("the total without the last account", 0) => {
            let owed = values[1..].split_last();
            ok_of(
                owed.map_or(0, |(_, others)| others.iter().sum()),
                &values[1..],
            )
        }
        ("a total of 32 bits", 0) => ok_of(u64::from(values[0] as u32), &values[1..]),
        ("the total at the end", 0) => {
            let rotated: Vec<u64> = values[1..].iter().chain(&values[..1]).copied().collect();
            ok_of(rotated[0], &rotated[1..])
        }
        ("no rebates", 0) => ok_of(values[0], &[]),
        // Months.
        ("a month past the count is tested", 0 | 18) => {
            let past = |account: &[u32]| {
                let past = account[4..].get(account[3] as usize..).unwrap_or(&[]);
                past.iter().any(|&kwh| kwh > 10_000)
            };
            run.tested(
                not_open,
                |account| is_19(account) || past(account),
                |account| run.quote(account),
            )?
        }
        ("a month past the count is read", 0) => run.ok_by(|account| {
            let count = account[3] as usize;
            let mut months = account[4..][..count].to_vec();
            let next = account.get(4 + count).copied().unwrap_or(0);
            let last = months.last_mut()?;
            *last = (*last + next.min(10_000)).min(10_000);
            run.quote_of(run.desk, account, &months)
        })?,
        ("the last month is not read", 0) => run.ok_by(|account| {
            let mut months = account[4..][..account[3] as usize].to_vec();
            *months.last_mut()? = 0;
            run.quote_of(run.desk, account, &months)
        })?,
        ("the count is not looked at", 19) => {
            let t = run.book.t()? as usize;
            let quote = |account: &[u32]| run.quote_of(run.desk, account, &account[4..4 + t]);
            run.tested(not_open, |account| quote(account).is_none(), quote)?
        }
        ("a count of 13 and more is twelve", 19) => {
            let quote = |account: &[u32]| {
                let count = account[3].min(12) as usize;
                run.quote_of(run.desk, account, &account[4..4 + count])
            };
            run.tested(not_open, |account| quote(account).is_none(), quote)?
        }
        ("a count in 8 bits", 19) => {
            let quote = |account: &[u32]| {
                let months = account[4..].get(..(account[3] & 0xff) as usize)?;
                run.quote_of(run.desk, account, months)
            };
            run.tested(not_open, |account| quote(account).is_none(), quote)?
        }
        ("a month of 10,001 is taken", 19) => {
            let quote = |account: &[u32]| {
                let months = account[4..].get(..account[3] as usize)?;
                let months: Vec<u32> = months
                    .iter()
                    .map(|&kwh| if kwh == 10_001 { 10_000 } else { kwh })
                    .collect();
                run.quote_of(run.desk, account, &months)
            };
            run.tested(not_open, |account| quote(account).is_none(), quote)?
        }
        // Refusals.
        ("18 before 19", 19) => {
            let place = run.accounts.iter().position(|account| not_open(account))?;
            format!("refused 18 {place}\n")
        }
        ("18 where it comes first in the list", 19) => {
            let place = run.accounts.iter().position(|account| not_open(account))?;
            let first = (place as u64) < values[1];
            first.then(|| format!("refused 18 {place}\n"))?
        }
        ("19 where 18 is meant", 18) => format!("refused 19 {}\n", values[1]),
        ("19 at the last refused place", 19) => format!("refused 19 {}\n", last(&is_19)?),
        ("18 at the last refused place", 18) => format!("refused 18 {}\n", last(&not_open)?),
        ("places from 1", 18 | 19) => format!("refused {right} {}\n", values[1] + 1),
        ("places in numbers", 18 | 19) => {
            format!("refused {right} {}\n", values[1] * ACCOUNT as u64)
        }
        ("no place", 18 | 19) => format!("refused {right}\n"),
        ("the refusal of quote", 19) => {
            let account = run.accounts[values[1] as usize];
            let months = account[4..].get(..account[3] as usize).unwrap_or(&[0; 13]);
            let desk = DeskRegions::new(run.desk);
            let quote = run
                .book
                .quote_by(desk, account[0], account[1], account[2], months);
            format!("refused {}\n", quote.err()?.number())
        }
        ("no 19 for 17", 19) => {
            let quote = |account: &[u32]| {
                let months = account[4..].get(..account[3] as usize)?;
                run.quote_of(ALL, account, months)
            };
            run.tested(not_open, |account| quote(account).is_none(), quote)?
        }
        ("17 to every part desk", _) if run.desk != ALL => "refused 17\n".to_string(),
        ("17 for the list of no account", 0) if run.desk != ALL && count == 0 => {
            "refused 17\n".to_string()
        }
        ("19 for the list of no account", 0) if count == 0 => "refused 19 0\n".to_string(),
        ("a draft under a direction is enough", 18) => run.tested(
            |account| !run.book.is_directed(account[0]),
            is_19,
            |account| run.quote(account),
        )?,
        ("an open tariff is enough", 18) => run.tested(
            |account| run.book.state(account[0]) != Some(State::Open),
            is_19,
            |account| run.quote(account),
        )?,
        ("no 18", 18) => run.ok_by(|account| run.quote(account))?,
        ("the first account alone is tested", 18) if values[1] > 0 => {
            run.ok_by(|account| run.quote(account))?
        }
        // Lists.
        ("at most 510 accounts", _) if count > 510 => "refused 19 510\n".to_string(),
        ("at most 499 accounts", _) if count > 499 => "refused 19 499\n".to_string(),
        ("at most 255 accounts", _) if count > 255 => "refused 19 255\n".to_string(),
        _ => return None,
    };
    Some(answer)
}
