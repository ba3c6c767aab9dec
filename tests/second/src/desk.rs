//! The desk: one call a line in, one answer a line out.

use std::io::BufRead;

use crate::book::{Account, Book, NotOpened, NotRun, Refusal};
use crate::regions::DeskRegions;

/// The longest line taken, its line feed not counted.
pub const LINE_LIMIT: usize = 16_384;
/// The numbers of an account in a line: code, region, method, count and twelve months.
pub const ACCOUNT: usize = 16;

#[derive(Clone, Copy)]
enum Call {
    Set,
    Undo,
    Trial,
    Put,
    Open,
    Ask,
    Confirm,
    Close,
    Drop,
    Benchmark,
    Maximum,
    Quote,
    Direct,
    Rebate,
}

impl Call {
    fn from_word(word: &[u8]) -> Option<Call> {
        Some(match word {
            b"set" => Call::Set,
            b"undo" => Call::Undo,
            b"trial" => Call::Trial,
            b"put" => Call::Put,
            b"open" => Call::Open,
            b"ask" => Call::Ask,
            b"confirm" => Call::Confirm,
            b"close" => Call::Close,
            b"drop" => Call::Drop,
            b"benchmark" => Call::Benchmark,
            b"maximum" => Call::Maximum,
            b"quote" => Call::Quote,
            b"direct" => Call::Direct,
            b"rebate" => Call::Rebate,
            _ => return None,
        })
    }

    fn takes(self) -> &'static str {
        match self {
            Call::Set => "set takes at least 3 numbers",
            Call::Undo => "undo takes no number",
            Call::Trial => "trial takes at least 3 numbers",
            Call::Put => "put takes at least 1 number",
            Call::Open => "open takes 1 number",
            Call::Ask => "ask takes 1 number",
            Call::Confirm => "confirm takes 1 number",
            Call::Close => "close takes 1 number",
            Call::Drop => "drop takes 1 number",
            Call::Benchmark => "benchmark takes 4 numbers",
            Call::Maximum => "maximum takes 4 numbers",
            Call::Quote => "quote takes at least 3 numbers",
            Call::Direct => "direct takes 1 number",
            Call::Rebate => "rebate takes 16 numbers an account",
        }
    }
}

/// A line that is no call.
enum LineError {
    TooLong,
    Desk,
    UnknownCall,
    NotANumber(usize),
    Count(Call),
}

/// A book behind lines of text.
pub struct Desk {
    book: Book,
    lines: u64,
    numbers: Vec<u32>,
    accounts: Vec<Account>,
    /// The beginning of a line whose end has not come in yet.
    begun: Vec<u8>,
    too_long: bool,
}

impl Default for Desk {
    fn default() -> Desk {
        Desk::new()
    }
}

impl Desk {
    pub fn new() -> Desk {
        Desk {
            book: Book::new(),
            lines: 0,
            numbers: Vec::with_capacity(LINE_LIMIT / 2),
            accounts: Vec::new(),
            begun: Vec::with_capacity(LINE_LIMIT),
            too_long: false,
        }
    }

    pub fn book(&self) -> &Book {
        &self.book
    }

    /// The book, to be changed other than by lines.
    pub fn book_mut(&mut self) -> &mut Book {
        &mut self.book
    }

    /// Takes a piece of the input, which may end inside a line, and answers its whole lines.
    pub fn feed(&mut self, mut input: &[u8], out: &mut Vec<u8>) {
        while !input.is_empty() {
            let piece = input;
            let used = input
                .skip_until(b'\n')
                .expect("reading from memory does not fail");
            let Some(end) = piece[..used].strip_suffix(b"\n") else {
                self.begin(&piece[..used]);
                return;
            };
            if self.begun.is_empty() && !self.too_long {
                self.line(end, out);
            } else {
                self.begin(end);
                self.finish(out);
            }
        }
    }

    /// The end of the input: a line begun and not ended is taken as it stands.
    pub fn finish(&mut self, out: &mut Vec<u8>) {
        if self.too_long {
            self.too_long = false;
            self.lines += 1;
            self.error(LineError::TooLong, out);
        } else if !self.begun.is_empty() {
            let line = std::mem::take(&mut self.begun);
            self.line(&line, out);
            self.begun = line;
        }
        self.begun.clear();
    }

    fn begin(&mut self, piece: &[u8]) {
        if self.too_long || self.begun.len() + piece.len() > LINE_LIMIT {
            self.too_long = true;
            self.begun.clear();
        } else {
            self.begun.extend_from_slice(piece);
        }
    }

    /// One whole line, without its line feed.
    pub fn line(&mut self, line: &[u8], out: &mut Vec<u8>) {
        self.lines += 1;
        if let Err(error) = self.answer(line, out) {
            self.error(error, out);
        }
    }

    fn answer(&mut self, line: &[u8], out: &mut Vec<u8>) -> Result<(), LineError> {
        if line.len() > LINE_LIMIT {
            return Err(LineError::TooLong);
        }
        let line = line.strip_suffix(b"\r").unwrap_or(line);
        let Some(start) = line.iter().position(|&byte| byte != b' ') else {
            return Ok(());
        };
        if line[start] == b'#' {
            return Ok(());
        }
        let line = &line[start..];
        let (mut word, mut rest) = first_word(line);
        let mut desk = DeskRegions::ALL;
        // The words up to the call's own.
        let mut words = 1;
        if word == b"desk" {
            let (set, after) = first_word(rest);
            desk = DeskRegions::new(number(set).ok_or(LineError::Desk)?);
            (word, rest) = first_word(after);
            words = 3;
            if word.is_empty() {
                return Err(LineError::Desk);
            }
        }
        let call = Call::from_word(word).ok_or(LineError::UnknownCall)?;
        read_numbers(rest, words, &mut self.numbers)?;
        self.call(desk, call, out)
    }

    fn call(&mut self, desk: DeskRegions, call: Call, out: &mut Vec<u8>) -> Result<(), LineError> {
        let book = &mut self.book;
        match (call, &self.numbers[..]) {
            (Call::Set, &[year, month, t, ref fields @ ..]) => {
                accepted(book.set_by(desk, year, month, t, fields), out)
            }
            (Call::Undo, &[]) => accepted(book.undo_by(desk), out),
            (Call::Trial, &[year, month, t, ref fields @ ..]) => {
                match book.trial_by(desk, year, month, t, fields) {
                    Ok(fallen) => values(&[u64::from(fallen)], out),
                    Err(refusal) => refused(refusal, out),
                }
            }
            (Call::Put, &[code, ref record @ ..]) => accepted(book.put_by(desk, code, record), out),
            (Call::Open, &[code]) => cells_or_breach(book.open_by(desk, code), out),
            (Call::Ask, &[code]) => cells_or_breach(book.ask_by(desk, code), out),
            (Call::Confirm, &[code]) => match book.confirm_by(desk, code) {
                Ok(cells) => values(&[u64::from(cells)], out),
                Err(refusal) => refused(refusal, out),
            },
            (Call::Close, &[code]) => accepted(book.close_by(desk, code), out),
            (Call::Drop, &[code]) => accepted(book.drop_code_by(desk, code), out),
            (Call::Benchmark, &[region, arrangement, method, level]) => {
                match book.benchmark_by(desk, region, arrangement, method, level) {
                    Ok(charge) => values(&[u64::from(charge)], out),
                    Err(refusal) => refused(refusal, out),
                }
            }
            (Call::Maximum, &[region, arrangement, method, total]) => {
                match book.maximum_by(desk, region, arrangement, method, total) {
                    Ok(maximum) => {
                        values(&[maximum.number, u64::from(maximum.denominator)], out);
                    }
                    Err(refusal) => refused(refusal, out),
                }
            }
            (Call::Quote, &[code, region, method, ref months @ ..]) => {
                match book.quote_by(desk, code, region, method, months) {
                    Ok(quote) => values(&[quote.charge, quote.maximum], out),
                    Err(refusal) => refused(refusal, out),
                }
            }
            (Call::Direct, &[code]) => accepted(book.direct_by(desk, code), out),
            (Call::Rebate, numbers) if numbers.len().is_multiple_of(ACCOUNT) => {
                read_accounts(numbers, &mut self.accounts);
                rebates(
                    book.rebate_by(desk, &mut self.accounts),
                    &self.accounts,
                    out,
                );
            }
            _ => return Err(LineError::Count(call)),
        }
        Ok(())
    }

    fn error(&self, error: LineError, out: &mut Vec<u8>) {
        out.extend_from_slice(b"error line");
        write_number(self.lines, out);
        out.extend_from_slice(b": ");
        match error {
            LineError::TooLong => out.extend_from_slice(b"longer than 16384 bytes"),
            LineError::Desk => out.extend_from_slice(b"desk takes a number and a call"),
            LineError::UnknownCall => out.extend_from_slice(b"unknown call"),
            LineError::NotANumber(word) => {
                out.extend_from_slice(b"word");
                write_number(word as u64, out);
                out.extend_from_slice(b" is not a number from 0 to 4294967295");
            }
            LineError::Count(call) => out.extend_from_slice(call.takes().as_bytes()),
        }
        out.push(b'\n');
    }
}

/// The first word, or an empty one, and what comes after it.
fn first_word(text: &[u8]) -> (&[u8], &[u8]) {
    let start = text.iter().position(|&byte| byte != b' ');
    let text = &text[start.unwrap_or(text.len())..];
    let end = text.iter().position(|&byte| byte == b' ');
    text.split_at(end.unwrap_or(text.len()))
}

/// The value of a word, if it is a number from 0 to 4294967295.
fn number(word: &[u8]) -> Option<u32> {
    if word.is_empty() {
        return None;
    }
    word.iter().try_fold(0u32, |value, byte| {
        let digit = byte.checked_sub(b'0').filter(|digit| *digit < 10)?;
        value.checked_mul(10)?.checked_add(digit.into())
    })
}

/// Reads the words after the call's own into `numbers`; so many words come before them.
fn read_numbers(rest: &[u8], words: usize, numbers: &mut Vec<u32>) -> Result<(), LineError> {
    numbers.clear();
    let mut bytes = rest.iter();
    // The value of the word being read, if one has begun.
    let mut word: Option<u32> = None;
    loop {
        match bytes.next() {
            Some(&byte @ b'0'..=b'9') => {
                let value = u64::from(word.unwrap_or(0)) * 10 + u64::from(byte - b'0');
                match u32::try_from(value) {
                    Ok(value) => word = Some(value),
                    Err(_) => break,
                }
            }
            Some(b' ') => numbers.extend(word.take()),
            None => {
                numbers.extend(word);
                return Ok(());
            }
            Some(_) => break,
        }
    }
    // Counted from 1 over the whole line.
    Err(LineError::NotANumber(words + numbers.len() + 1))
}

/// Reads accounts of 16 numbers each into `accounts`.
fn read_accounts(numbers: &[u32], accounts: &mut Vec<Account>) {
    accounts.clear();
    accounts.extend(numbers.chunks_exact(ACCOUNT).map(|numbers| {
        let (cell, months) = numbers.split_at(4);
        Account {
            code: cell[0],
            region: cell[1],
            method: cell[2],
            count: cell[3],
            months: months.try_into().expect("twelve places"),
            rebate: 0,
        }
    }));
}

fn accepted(answer: Result<(), Refusal>, out: &mut Vec<u8>) {
    match answer {
        Ok(()) => out.extend_from_slice(b"ok\n"),
        Err(refusal) => refused(refusal, out),
    }
}

fn cells_or_breach(answer: Result<u32, NotOpened>, out: &mut Vec<u8>) {
    match answer {
        Ok(cells) => values(&[u64::from(cells)], out),
        Err(NotOpened::Refused(refusal)) => refused(refusal, out),
        Err(NotOpened::OverCap(breach)) => {
            out.extend_from_slice(b"refused 11");
            write_number(u64::from(breach.region), out);
            write_number(u64::from(breach.method), out);
            write_number(breach.excess, out);
            for &kwh in breach.months() {
                write_number(u64::from(kwh), out);
            }
            out.push(b'\n');
        }
    }
}

/// The total and each rebate, or the place of the account that is refused.
fn rebates(answer: Result<u64, NotRun>, accounts: &[Account], out: &mut Vec<u8>) {
    match answer {
        Ok(total) => {
            out.extend_from_slice(b"ok");
            write_number(total, out);
            for account in accounts {
                write_number(account.rebate, out);
            }
        }
        Err(refusal) => {
            out.extend_from_slice(b"refused");
            write_number(u64::from(refusal.number()), out);
            write_number(refusal.place() as u64, out);
        }
    }
    out.push(b'\n');
}

fn refused(refusal: Refusal, out: &mut Vec<u8>) {
    out.extend_from_slice(b"refused");
    write_number(u64::from(refusal.number()), out);
    out.push(b'\n');
}

fn values(values: &[u64], out: &mut Vec<u8>) {
    out.extend_from_slice(b"ok");
    for &value in values {
        write_number(value, out);
    }
    out.push(b'\n');
}

/// A space and the number in decimal.
fn write_number(mut value: u64, out: &mut Vec<u8>) {
    let mut digits = [0; 21];
    let mut start = digits.len();
    loop {
        start -= 1;
        digits[start] = b'0' + (value % 10) as u8;
        value /= 10;
        if value == 0 {
            break;
        }
    }
    start -= 1;
    digits[start] = b' ';
    out.extend_from_slice(&digits[start..]);
}
