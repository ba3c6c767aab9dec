//! A call, read from a line of a script, and its answer, given by the second book.

use second::desk::{ACCOUNT, LINE_LIMIT};
use second::{Book, DeskRegions, NotOpened, Refusal};

use crate::header::*;

#[derive(Clone, Copy, Debug, PartialEq, Eq)]
pub enum Word {
    Set,
    Undo,
    Trial,
    Put,
    Open,
    Ask,
    Confirm,
    Close,
    Drop,
    Benchmark,
    Maximum,
    Quote,
    Direct,
    Rebate,
}

/// The calls by their words, and the least and the most numbers of each.
const CALLS: [(Word, &str, usize, usize); 14] = [
    (Word::Set, "set", 3, usize::MAX),
    (Word::Undo, "undo", 0, 0),
    (Word::Trial, "trial", 3, usize::MAX),
    (Word::Put, "put", 1, usize::MAX),
    (Word::Open, "open", 1, 1),
    (Word::Ask, "ask", 1, 1),
    (Word::Confirm, "confirm", 1, 1),
    (Word::Close, "close", 1, 1),
    (Word::Drop, "drop", 1, 1),
    (Word::Benchmark, "benchmark", 4, 4),
    (Word::Maximum, "maximum", 4, 4),
    (Word::Quote, "quote", 3, usize::MAX),
    (Word::Direct, "direct", 1, 1),
    (Word::Rebate, "rebate", 0, usize::MAX),
];

impl Word {
    pub fn text(self) -> &'static str {
        CALLS[self as usize].1
    }

    /// Whether the call leaves the book as it is even where it is accepted.
    pub fn is_question(self) -> bool {
        use Word::*;
        matches!(self, Trial | Benchmark | Maximum | Quote | Rebate)
    }

    /// Whether the call is on a code, and so ends the chance to UNDO where it is accepted.
    pub fn is_on_a_code(self) -> bool {
        use Word::*;
        matches!(self, Put | Open | Ask | Confirm | Close | Drop | Direct)
    }
}

/// A call with its desk. The numbers are those of its line, in the same order.
#[derive(Clone, Debug, PartialEq, Eq)]
pub struct Call {
    pub desk: u32,
    pub word: Word,
    pub numbers: Vec<u32>,
}

impl Call {
    /// A call of a desk with all fourteen regions.
    pub fn new(word: Word, numbers: &[u32]) -> Call {
        Call {
            desk: ALL_REGIONS,
            word,
            numbers: numbers.to_vec(),
        }
    }

    /// The call of a line without its line feed; `None` where the line is none.
    pub fn read(line: &[u8]) -> Option<Call> {
        if line.len() > LINE_LIMIT {
            return None;
        }
        let line = line.strip_suffix(b"\r").unwrap_or(line);
        let words = line.split(|&byte| byte == b' ');
        let mut words = words.filter(|word| !word.is_empty());
        let mut desk = ALL_REGIONS;
        let mut first = words.next()?;
        if first == b"desk" {
            desk = number(words.next()?)?;
            first = words.next()?;
        }
        let mut calls = CALLS.iter();
        let &(word, _, least, most) = calls.find(|(_, text, ..)| text.as_bytes() == first)?;
        let numbers: Vec<u32> = words.map(number).collect::<Option<_>>()?;
        let whole = word != Word::Rebate || numbers.len().is_multiple_of(ACCOUNT);
        let taken = whole && (least..=most).contains(&numbers.len());
        taken.then_some(Call {
            desk,
            word,
            numbers,
        })
    }

    /// As a line, for a report.
    pub fn line(&self) -> String {
        let mut line = format!("desk {} {}", self.desk, self.word.text());
        for number in &self.numbers {
            line.push_str(&format!(" {number}"));
        }
        line
    }

    /// The accounts of a rebate run, each with something in the place of its rebate.
    pub fn accounts(&self) -> Vec<Account> {
        if self.word != Word::Rebate {
            return Vec::new();
        }
        let accounts = self.numbers.chunks_exact(ACCOUNT).enumerate();
        let accounts = accounts.map(|(place, numbers)| Account {
            code: numbers[0],
            region: numbers[1],
            method: numbers[2],
            count: numbers[3],
            months: numbers[4..].try_into().expect("twelve places"),
            rebate: before_the_run(place),
        });
        accounts.collect()
    }
}

/// What stands in the place of a rebate before the run.
pub fn before_the_run(place: usize) -> u64 {
    (place as u64 + 1).wrapping_mul(0x9e37_79b9_7f4a_7c15)
}

/// The value of a word, if it is a number from 0 to 4294967295.
fn number(word: &[u8]) -> Option<u32> {
    word.iter().try_fold(0u32, |value, byte| {
        let digit = byte.checked_sub(b'0').filter(|digit| *digit < 10)?;
        value.checked_mul(10)?.checked_add(digit.into())
    })
}

/// An answer as the header has it.
#[derive(Clone, Copy, Debug, PartialEq, Eq)]
pub enum Answer {
    /// 0 or the refusal alone.
    Number(u32),
    Opened(Opened),
    Falling(Falling),
    Charge(Charge),
    Fraction(Fraction),
    Quotation(Quotation),
    Run(Run),
}

impl Answer {
    /// 0, or the number of the refusal.
    pub fn refusal(&self) -> u32 {
        match *self {
            Answer::Number(refusal) => refusal,
            Answer::Opened(opened) => opened.refusal,
            Answer::Falling(falling) => falling.refusal,
            Answer::Charge(charge) => charge.refusal,
            Answer::Fraction(fraction) => fraction.refusal,
            Answer::Quotation(quotation) => quotation.refusal,
            Answer::Run(run) => run.refusal,
        }
    }

    /// A call refused by a number alone.
    pub fn refused(word: Word, refusal: u32) -> Answer {
        match word {
            Word::Set | Word::Undo | Word::Put | Word::Close | Word::Drop | Word::Direct => {
                Answer::Number(refusal)
            }
            Word::Open | Word::Ask | Word::Confirm => Answer::Opened(Opened {
                refusal,
                ..Opened::default()
            }),
            Word::Trial => Answer::Falling(Falling { refusal, codes: 0 }),
            Word::Benchmark => Answer::Charge(Charge { refusal, mills: 0 }),
            Word::Maximum => Answer::Fraction(Fraction {
                refusal,
                ..Fraction::default()
            }),
            Word::Quote => Answer::Quotation(Quotation {
                refusal,
                ..Quotation::default()
            }),
            Word::Rebate => Answer::Run(Run {
                refusal,
                ..Run::default()
            }),
        }
    }
}

/// The answer of the second book. A rebate run writes into the accounts.
pub fn by_second(book: &mut Book, call: &Call, accounts: &mut [second::Account]) -> Answer {
    let Call {
        desk,
        word,
        ref numbers,
    } = *call;
    let desk = DeskRegions::new(desk);
    let refused = |refusal: Refusal| Answer::refused(word, refusal.number());
    let accepted = |answer: Result<(), Refusal>| match answer {
        Ok(()) => Answer::Number(0),
        Err(refusal) => refused(refusal),
    };
    let first = numbers.first().copied().unwrap_or(0);
    match word {
        Word::Set => {
            let fields = &numbers[3..];
            accepted(book.set_by(desk, first, numbers[1], numbers[2], fields))
        }
        Word::Undo => accepted(book.undo_by(desk)),
        Word::Trial => {
            let fields = &numbers[3..];
            match book.trial_by(desk, first, numbers[1], numbers[2], fields) {
                Ok(codes) => Answer::Falling(Falling { refusal: 0, codes }),
                Err(refusal) => refused(refusal),
            }
        }
        Word::Put => accepted(book.put_by(desk, first, &numbers[1..])),
        Word::Open => opened(book.open_by(desk, first)),
        Word::Ask => opened(book.ask_by(desk, first)),
        Word::Confirm => opened(book.confirm_by(desk, first).map_err(NotOpened::from)),
        Word::Close => accepted(book.close_by(desk, first)),
        Word::Drop => accepted(book.drop_code_by(desk, first)),
        Word::Direct => accepted(book.direct_by(desk, first)),
        Word::Benchmark => {
            match book.benchmark_by(desk, first, numbers[1], numbers[2], numbers[3]) {
                Ok(mills) => Answer::Charge(Charge { refusal: 0, mills }),
                Err(refusal) => refused(refusal),
            }
        }
        Word::Maximum => match book.maximum_by(desk, first, numbers[1], numbers[2], numbers[3]) {
            Ok(maximum) => Answer::Fraction(Fraction {
                refusal: 0,
                number: maximum.number,
                denominator: maximum.denominator.into(),
            }),
            Err(refusal) => refused(refusal),
        },
        Word::Quote => match book.quote_by(desk, first, numbers[1], numbers[2], &numbers[3..]) {
            Ok(quote) => Answer::Quotation(Quotation {
                refusal: 0,
                charge: quote.charge,
                maximum: quote.maximum,
            }),
            Err(refusal) => refused(refusal),
        },
        Word::Rebate => Answer::Run(run_by_second(book, desk, accounts)),
    }
}

/// A rebate run of the second book.
pub fn run_by_second(book: &Book, desk: DeskRegions, accounts: &mut [second::Account]) -> Run {
    match book.rebate_by(desk, accounts) {
        Ok(total) => Run {
            refusal: 0,
            place: 0,
            total,
        },
        Err(refusal) => Run {
            refusal: refusal.number(),
            place: refusal.place() as u64,
            total: 0,
        },
    }
}

fn opened(answer: Result<u32, NotOpened>) -> Answer {
    let mut opened = Opened::default();
    match answer {
        Ok(cells) => opened.cells = cells,
        Err(NotOpened::Refused(refusal)) => opened.refusal = refusal.number(),
        Err(NotOpened::OverCap(breach)) => {
            let months = breach.months();
            opened.refusal = 11;
            opened.region = breach.region;
            opened.method = breach.method;
            opened.excess = breach.excess;
            opened.t = months.len() as u32;
            opened.months[..months.len()].copy_from_slice(months);
        }
    }
    Answer::Opened(opened)
}

/// An account as the second book has it.
pub fn for_second(account: &Account) -> second::Account {
    second::Account {
        code: account.code,
        region: account.region,
        method: account.method,
        count: account.count,
        months: account.months,
        rebate: account.rebate,
    }
}

#[cfg(test)]
mod tests {
    use super::*;
    use second::desk::Desk;
    use second::script::script;

    #[test]
    fn the_words_are_in_their_order() {
        for (place, (word, ..)) in CALLS.iter().enumerate() {
            assert_eq!(*word as usize, place);
        }
    }

    /// The desk takes the same lines for calls.
    #[test]
    fn lines_are_calls_as_the_desk_has_it() {
        let mut desk = Desk::new();
        let (mut calls, mut others) = (0, 0);
        for line in script(7, 20_000).split(|&byte| byte == b'\n') {
            let mut answer = Vec::new();
            desk.line(line, &mut answer);
            let is_call = !answer.is_empty() && !answer.starts_with(b"error");
            assert_eq!(Call::read(line).is_some(), is_call);
            match is_call {
                true => calls += 1,
                false => others += 1,
            }
        }
        assert!((20_000..20_020).contains(&calls), "{calls}");
        assert!(others > 300);
    }
}
