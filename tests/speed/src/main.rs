//! The twin of the Rattle program `speed`: the same calls, from the same generator, on the second book.
//!
//!     speed MEASUREMENT CALLS
//!
//! makes that many calls of one kind and prints the checksum of their answers; with a measurement above 8, of all nine in turn.
//! It also sees to it that the calls are what the measurement's name says, outside of what is timed.

use second::{Account, Book, NotOpened, NotRun, Refusal, State, RECORD, REGIONAL};

const SHEET: [u32; 96] = sheet();

/// The reference sheet, with network costs lower by 1,000,000 in the last region.
const fn sheet() -> [u32; 96] {
    let mut s = [0; 96];
    let mut f = 0;
    while f < 4 {
        let level = f % 2;
        s[f] = [0, 30_000_000, 0, 36_000_000][f];
        s[4 + f] = [0, 1_000_000][level];
        s[8 + f] = [1_000_000, 8_000_000][level];
        s[12 + f] = [5_000_000, 9_000_000][level];
        s[25 + f] = 100;
        s[32 + f] = 100;
        f += 1;
    }
    s[16] = 10_000;
    s[17] = 10_000;
    s[18] = 20_000;
    s[20] = 400_000;
    s[22] = 1_000;
    s[23] = 100;
    s[24] = 100;
    s[29] = 1_100;
    s[30] = 100;
    s[31] = 105;
    s[36] = 500_000;
    let mut k = 0;
    while k < 56 {
        s[37 + k] = [2_000_000, 12_000_000][k % 2] - if k < 52 { 0 } else { 1_000_000 };
        k += 1;
    }
    s[93] = 3_000;
    s[94] = 4_000;
    s[95] = 580;
    s
}

/// The generator: a state of 32 bits, of which the upper 16 are drawn from.
struct Generator(u64);

impl Generator {
    fn next(&mut self) {
        self.0 = (self.0 * 1_664_525 + 1_013_904_223) % (1 << 32);
    }

    fn below(&self, n: u64) -> u32 {
        (self.0 / 65_536 % n) as u32
    }
}

/// The checksum of the answers.
struct Sum(u64);

impl Sum {
    fn fold(&mut self, x: u64) {
        self.0 = self.0.rotate_left(7).wrapping_add(x);
    }

    fn fold_done(&mut self, answer: Result<(), Refusal>) {
        match answer {
            Ok(()) => self.fold(0),
            Err(refusal) => self.fold(refusal.number().into()),
        }
    }

    fn fold_opened(&mut self, answer: Result<u32, NotOpened>) {
        match answer {
            Ok(cells) => self.fold(100 + u64::from(cells)),
            Err(NotOpened::Refused(refusal)) => self.fold(refusal.number().into()),
            Err(NotOpened::OverCap(breach)) => {
                self.fold(breach.region.into());
                self.fold(breach.method.into());
                self.fold(breach.months().len() as u64);
                self.fold(breach.excess);
                self.fold(breach.months()[0].into());
                self.fold(breach.months()[11].into());
            }
        }
    }

    fn fold_trial(&mut self, answer: Result<u32, Refusal>) {
        match answer {
            Ok(codes) => self.fold(100 + u64::from(codes)),
            Err(refusal) => self.fold(refusal.number().into()),
        }
    }

    fn fold_run(&mut self, answer: Result<u64, NotRun>) {
        match answer {
            Ok(total) => self.fold(total),
            Err(NotRun::NotQuoted(place)) => {
                self.fold(19);
                self.fold(place as u64);
            }
            Err(NotRun::NotDirected(place)) => {
                self.fold(18);
                self.fold(place as u64);
            }
        }
    }

    fn fold_benchmark(&mut self, answer: Result<u32, Refusal>) {
        match answer {
            Ok(charge) => self.fold(charge.into()),
            Err(refusal) => self.fold(refusal.number().into()),
        }
    }
}

/// The record that begins with these numbers and has 0 for each region.
fn record(first: [u32; REGIONAL]) -> [u32; RECORD] {
    let mut record = [0; RECORD];
    record[..REGIONAL].copy_from_slice(&first);
    record
}

/// A tariff with four tiers, offered everywhere, its rates more by some. With no more and a standing charge of 10,000 it is within
/// the cap in all 28 cells, and with 22,000 in all but the last.
fn tiered(k: u32, standing: u32, more: u32) -> [u32; RECORD] {
    record([
        1,
        4,
        standing + k,
        16_383,
        3,
        18_600 + k + more,
        18_000 + k + more,
        18_500 + k + more,
        17_000 + k + more,
        100 + k,
        500 + k,
        2_000 + k,
        0,
    ])
}

/// Tariffs of all three kinds, their rates more by some. With no more they are within the cap everywhere.
fn mixed(k: u32, more: u32) -> [u32; RECORD] {
    match k % 4 {
        0 => tiered(k, 10_000, more),
        1 => record([
            1,
            2,
            10_000 + k,
            16_383,
            3,
            18_600 + k + more,
            18_000 + k + more,
            0,
            0,
            100 + k,
            0,
            0,
            0,
        ]),
        2 => record([
            2,
            2,
            10_000 + k,
            16_383,
            3,
            17_000 + k + more,
            12_000 + k + more,
            0,
            0,
            0,
            0,
            0,
            0,
        ]),
        _ => record([
            3,
            3,
            10_000 + k,
            16_383,
            3,
            17_000 + k + more,
            11_000 + k + more,
            14_000 + k + more,
            0,
            500,
            300,
            200,
            0,
        ]),
    }
}

/// A book with the sheet, for twelve months.
fn with_sheet() -> Book {
    let mut book = Book::new();
    let _ = book.set(2023, 10, 12, &SHEET);
    book
}

/// A book with the sheet and 32 drafts of four tiers.
fn with_drafts(standing: u32) -> Book {
    let mut book = with_sheet();
    for k in 0..32 {
        let _ = book.put(k + 1, &tiered(k, standing, 0));
    }
    book
}

/// A book with the sheet and 32 open tariffs of all kinds.
fn with_open() -> Book {
    let mut book = with_sheet();
    for k in 0..32 {
        let _ = book.put(k + 1, &mixed(k, 0));
        let _ = book.open(k + 1);
    }
    assert_eq!(open_in(&book), 32);
    book
}

/// The same with each of them under a direction, half of them above the cap.
fn with_directed() -> Book {
    let mut book = with_sheet();
    for k in 0..32 {
        let _ = book.put(k + 1, &mixed(k, k / 4 % 2 * 2_000));
        let _ = book.direct(k + 1);
        assert_eq!(book.open(k + 1), Ok(0));
    }
    assert_eq!(open_in(&book), 32);
    book
}

/// How many places are open.
fn open_in(book: &Book) -> usize {
    (1..=32)
        .filter(|&code| book.state(code) == Some(State::Open))
        .count()
}

/// Draws one of the sheet's network costs anew, and its current DFI; the year and the month of the sheet's period.
fn redraw(sheet: &mut [u32; 96], x: &mut Generator) -> (u32, u32) {
    x.next();
    let at = 37 + x.below(56) as usize;
    x.next();
    let more = x.below(65_536);
    sheet[at] = SHEET[at] + more;
    sheet[29] = 1_100 + more % 16;
    (2018 + more % 80, 1 + more % 12)
}

fn sets(n: u64) -> u64 {
    let mut book = with_open();
    let mut sheet = SHEET;
    let mut x = Generator(1);
    let mut sum = Sum(0);
    for _ in 0..n {
        let (year, month) = redraw(&mut sheet, &mut x);
        sum.fold_done(book.set(year, month, 12, &sheet));
    }
    fold_closed(&mut book, &mut sum);
    sum.0
}

/// Closes all 32 tariffs and asks for as many benchmarks.
fn fold_closed(book: &mut Book, sum: &mut Sum) {
    assert_eq!(open_in(book), 32);
    for k in 0..32 {
        sum.fold_done(book.close(k + 1));
        sum.fold_benchmark(book.benchmark(k % 14, k % 2, k / 2 % 2, k / 4 % 2));
    }
}

/// The sheets of `sets`, each of them taken back.
fn undos(n: u64) -> u64 {
    let mut book = with_open();
    let mut sheet = SHEET;
    let mut x = Generator(1);
    let mut sum = Sum(0);
    for _ in 0..n {
        let (year, month) = redraw(&mut sheet, &mut x);
        sum.fold_done(book.set(year, month, 12, &sheet));
        sum.fold_done(book.undo());
    }
    fold_closed(&mut book, &mut sum);
    sum.0
}

fn opens(n: u64) -> u64 {
    let mut book = with_drafts(10_000);
    for code in 1..=32 {
        assert_eq!(book.open(code), Ok(28));
        assert_eq!(book.close(code), Ok(()));
    }
    let mut x = Generator(1);
    let mut sum = Sum(0);
    for _ in 0..n {
        x.next();
        let code = 1 + x.below(32);
        sum.fold_opened(book.open(code));
        sum.fold_done(book.close(code));
    }
    sum.0
}

fn overs(n: u64) -> u64 {
    let mut book = with_drafts(22_000);
    for code in 1..=32 {
        assert!(
            matches!(book.open(code), Err(NotOpened::OverCap(breach)) if (breach.region, breach.method) == (13, 1))
        );
    }
    let mut x = Generator(1);
    let mut sum = Sum(0);
    for _ in 0..n {
        x.next();
        sum.fold_opened(book.open(1 + x.below(32)));
    }
    sum.0
}

fn quotes(n: u64) -> u64 {
    let book = with_open();
    let mut months = [1_000; 12];
    let mut x = Generator(1);
    let mut sum = Sum(0);
    for _ in 0..n {
        x.next();
        let at = x.below(12) as usize;
        let code = 1 + x.below(32);
        let region = x.below(14);
        x.next();
        months[at] = x.below(10_001);
        match book.quote(code, region, x.below(2), &months) {
            Ok(quote) => {
                sum.fold(quote.charge);
                sum.fold(quote.maximum);
            }
            Err(refusal) => sum.fold(refusal.number().into()),
        }
    }
    sum.0
}

fn benchmarks(n: u64) -> u64 {
    let book = with_open();
    let mut x = Generator(1);
    let mut sum = Sum(0);
    for _ in 0..n {
        x.next();
        let v = x.below(112);
        sum.fold_benchmark(book.benchmark(v / 8, v / 4 % 2, v / 2 % 2, v % 2));
    }
    sum.0
}

fn trials(n: u64) -> u64 {
    let book = with_open();
    let mut sheet = SHEET;
    let mut x = Generator(1);
    // That no later sheet sends a tariff back either, `sets` sees: it goes by the same sheets.
    for _ in 0..1_000 {
        let (year, month) = redraw(&mut sheet, &mut x);
        assert_eq!(book.trial(year, month, 12, &sheet), Ok(0));
    }
    let mut sheet = SHEET;
    let mut x = Generator(1);
    let mut sum = Sum(0);
    for _ in 0..n {
        let (year, month) = redraw(&mut sheet, &mut x);
        sum.fold_trial(book.trial(year, month, 12, &sheet));
    }
    sum.0
}

const ACCOUNTS: usize = 10_000;

/// Accounts of the 32 tariffs, in any cell, with twelve months.
fn drawn_accounts() -> Vec<Account> {
    let mut months = [1_000; 12];
    let mut x = Generator(1);
    (0..ACCOUNTS)
        .map(|_| {
            x.next();
            let at = x.below(12) as usize;
            let code = 1 + x.below(32);
            let region = x.below(14);
            x.next();
            months[at] = x.below(10_001);
            Account {
                code,
                region,
                method: x.below(2),
                count: 12,
                months,
                rebate: 0,
            }
        })
        .collect()
}

/// Runs over 10,000 accounts, of which about half are owed something: the last run may be over more than is left.
fn rebates(n: u64) -> u64 {
    let book = with_directed();
    let mut accounts = drawn_accounts();
    let mut sum = Sum(0);
    let mut left = n;
    while left > 0 {
        sum.fold_run(book.rebate(&mut accounts));
        left = left.saturating_sub(ACCOUNTS as u64);
    }
    if n > 0 {
        let owed = accounts.iter().filter(|account| account.rebate > 0).count();
        assert!((ACCOUNTS / 4..ACCOUNTS * 3 / 4).contains(&owed), "{owed}");
    }
    sum.fold(accounts[ACCOUNTS - 1].rebate);
    sum.0
}

/// The checksum of one measurement.
fn measured(measurement: u64, calls: u64) -> u64 {
    match measurement {
        0 => sets(calls),
        1 => opens(calls),
        2 => overs(calls),
        3 => quotes(calls),
        4 => benchmarks(calls),
        5 => trials(calls),
        // There the book is handed to each call and back; here it stands behind a `&mut` as before.
        6 => opens(calls),
        7 => undos(calls),
        _ => rebates(calls),
    }
}

fn main() {
    let numbers: Vec<u64> = std::env::args()
        .skip(1)
        .filter_map(|word| word.parse().ok())
        .collect();
    let [measurement, calls] = numbers[..] else {
        eprintln!("usage: speed MEASUREMENT CALLS");
        std::process::exit(2);
    };
    if measurement < 9 {
        println!("{}", measured(measurement, calls));
        return;
    }
    for each in 0..9 {
        println!("{}", measured(each, calls));
    }
}
