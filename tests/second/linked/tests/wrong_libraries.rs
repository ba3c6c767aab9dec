//! The comparison finds what is wrong with a library, and finds nothing wrong with the one that is
//! linked. The wrong ones are made of that one.

use linked::header::{ALL_REGIONS, NO_BOOK, WORDS};
use linked::runs::random_calls;
use linked::{Account, Answer, Call, Library, Linked, Word};

/// What is wrong with a book may show in many ways.
const ANYTHING: &str = "";

/// The linked library with a fault in its calls.
struct Wrong<F>(F);

impl<F> Library for Wrong<F>
where
    F: FnMut(&mut [u32], &mut Call, &mut [Account]) -> Answer,
{
    fn fresh(&mut self, book: &mut [u32]) -> u32 {
        Linked.fresh(book)
    }

    fn check(&mut self, book: &mut [u32]) -> u32 {
        Linked.check(book)
    }

    fn call(&mut self, book: &mut [u32], call: &mut Call, accounts: &mut [Account]) -> Answer {
        (self.0)(book, call, accounts)
    }
}

/// What is wrong is found in the calls of the first seed, and the report says this.
fn found(name: &str, says: &str, library: &mut dyn Library) {
    match random_calls(library, 1, 40_000, 1) {
        Ok(_) => panic!("not found: {name}"),
        Err(report) => {
            assert!(report.starts_with("seed 1, "), "{name}: {report}");
            assert!(report.contains(says), "{name}: {report}");
        }
    }
}

/// The same of a fault in the calls.
fn finds(
    name: &str,
    says: &str,
    fault: impl FnMut(&mut [u32], &mut Call, &mut [Account]) -> Answer,
) {
    found(name, says, &mut Wrong(fault));
}

/// The same of a fault that is in the answer alone.
fn finds_answer(name: &str, fault: impl Fn(&Call, &mut Answer)) {
    finds(name, "answered: ", |book, call, accounts| {
        let mut answer = Linked.call(book, call, accounts);
        fault(call, &mut answer);
        answer
    });
}

/// The call of a desk with all fourteen regions.
fn by_all(book: &mut [u32], word: Word, numbers: &[u32]) -> Answer {
    Linked.call(book, &mut Call::new(word, numbers), &mut [])
}

#[test]
fn the_linked_library_passes() {
    random_calls(&mut Linked, 1, 40_000, 1).unwrap();
    let right = |book: &mut [u32], call: &mut Call, accounts: &mut [Account]| {
        Linked.call(book, call, accounts)
    };
    random_calls(&mut Wrong(right), 2, 10_000, 0).unwrap();
}

#[test]
fn wrong_answers() {
    finds_answer("the region of 11", |_, answer| {
        if let Answer::Opened(opened) = answer {
            if opened.refusal == 11 {
                opened.region = (opened.region + 1) % 14;
            }
        }
    });
    finds_answer("the method of 11", |_, answer| {
        if let Answer::Opened(opened) = answer {
            if opened.refusal == 11 {
                opened.method ^= 1;
            }
        }
    });
    finds_answer("the excess is one more", |_, answer| {
        if let Answer::Opened(opened) = answer {
            if opened.refusal == 11 {
                opened.excess += 1;
            }
        }
    });
    finds_answer("the excess in 53 bits", |_, answer| {
        if let Answer::Opened(opened) = answer {
            opened.excess = opened.excess as f64 as u64;
        }
    });
    finds_answer("a month is lost", |_, answer| {
        if let Answer::Opened(opened) = answer {
            if opened.refusal == 11 {
                opened.t -= 1;
            }
        }
    });
    finds_answer("the months past t are not 0", |_, answer| {
        if let Answer::Opened(opened) = answer {
            if opened.refusal == 11 {
                opened.months = [opened.months[0]; 12];
            }
        }
    });
    finds_answer("a cell too many", |call, answer| {
        if let Answer::Opened(opened) = answer {
            if opened.refusal == 0 && call.word == Word::Confirm {
                opened.cells += 1;
            }
        }
    });
    finds_answer("cells under a direction", |_, answer| {
        if let Answer::Opened(opened) = answer {
            if opened.refusal == 0 && opened.cells == 0 {
                opened.cells = 28;
            }
        }
    });
    finds_answer("cells with a refusal", |_, answer| {
        if let Answer::Opened(opened) = answer {
            if opened.refusal == 7 {
                opened.cells = 1;
            }
        }
    });
    finds_answer("codes with a refusal", |_, answer| {
        if let Answer::Falling(falling) = answer {
            if falling.refusal == 5 {
                falling.codes = 1;
            }
        }
    });
    finds_answer("code 32 does not fall", |_, answer| {
        if let Answer::Falling(falling) = answer {
            falling.codes &= u32::MAX >> 1;
        }
    });
    finds_answer("the maximum in lowest terms", |_, answer| {
        if let Answer::Fraction(fraction) = answer {
            if fraction.number % 12 == 0 {
                fraction.number /= 12;
                fraction.denominator /= 12;
            }
        }
    });
    finds_answer("the quoted maximum is one less", |_, answer| {
        if let Answer::Quotation(quotation) = answer {
            quotation.maximum = quotation.maximum.saturating_sub(1);
        }
    });
    finds_answer("18 in the place of 19", |_, answer| {
        if let Answer::Run(run) = answer {
            if run.refusal == 19 {
                run.refusal = 18;
            }
        }
    });
    finds_answer("places counted from 1", |_, answer| {
        if let Answer::Run(run) = answer {
            run.place += u64::from(run.refusal == 18);
        }
    });
    finds_answer("the total in 32 bits", |_, answer| {
        if let Answer::Run(run) = answer {
            run.total = u64::from(run.total as u32);
        }
    });
    finds_answer("14 in the place of 5", |_, answer| {
        if let Answer::Number(refusal @ 5) = answer {
            *refusal = 14;
        }
    });
}

#[test]
fn wrong_desks() {
    finds(
        "the desk is ignored",
        "refusal: 17",
        |book, call, accounts| {
            let mut other = Call {
                desk: ALL_REGIONS,
                ..call.clone()
            };
            Linked.call(book, &mut other, accounts)
        },
    );
    finds(
        "a higher bit is ignored",
        "answered: ",
        |book, call, accounts| {
            let mut other = Call {
                desk: call.desk & ALL_REGIONS,
                ..call.clone()
            };
            Linked.call(book, &mut other, accounts)
        },
    );
    finds(
        "any desk may give a direction",
        "Number(17)",
        |book, call, accounts| {
            let mut other = call.clone();
            if call.word == Word::Direct {
                other.desk = ALL_REGIONS;
            }
            Linked.call(book, &mut other, accounts)
        },
    );
}

#[test]
fn wrong_books() {
    let refused = "a refused call changed the book";
    finds("a refused call writes", refused, |book, call, accounts| {
        let answer = Linked.call(book, call, accounts);
        if answer.refusal() == 16 {
            book[WORDS / 2] ^= 1;
        }
        answer
    });
    finds(
        "a refused SET marks the book",
        refused,
        |book, call, accounts| {
            let answer = Linked.call(book, call, accounts);
            if call.word == Word::Set && answer.refusal() == 5 {
                book[WORDS - 1] ^= 1;
            }
            answer
        },
    );
    let question = "a question changed the book";
    finds("a quote is kept", question, |book, call, accounts| {
        let answer = Linked.call(book, call, accounts);
        if let Answer::Quotation(quotation) = answer {
            if quotation.refusal == 0 {
                book[3] = quotation.charge as u32;
            }
        }
        answer
    });
    finds(
        "TRIAL changes the book",
        question,
        |book, call, accounts| {
            let answer = Linked.call(book, call, accounts);
            if call.word == Word::Trial && answer.refusal() == 0 {
                by_all(book, Word::Set, &call.numbers);
            }
            answer
        },
    );
    finds(
        "CLOSE of code 8 does nothing",
        ANYTHING,
        |book, call, accounts| {
            let before = book.to_vec();
            let answer = Linked.call(book, call, accounts);
            if call.word == Word::Close && call.numbers == [8] && answer.refusal() == 0 {
                book.copy_from_slice(&before);
            }
            answer
        },
    );
    finds("ASK opens code 20", ANYTHING, |book, call, accounts| {
        let mut other = call.clone();
        if call.word == Word::Ask && call.numbers == [20] {
            other.word = Word::Open;
        }
        Linked.call(book, &mut other, accounts)
    });
    // As if the sheet had been set after it.
    let mut sheet: Option<Vec<u32>> = None;
    finds(
        "OPEN keeps the chance to UNDO",
        ANYTHING,
        |book, call, accounts| {
            let answer = Linked.call(book, call, accounts);
            match (call.word, answer.refusal(), &sheet) {
                (Word::Set, 0, _) => sheet = Some(call.numbers.clone()),
                (Word::Open, 0, Some(sheet)) => drop(by_all(book, Word::Set, sheet)),
                _ => {}
            }
            answer
        },
    );
    finds("UNDO forgets marks", ANYTHING, |book, call, accounts| {
        let answer = Linked.call(book, call, accounts);
        if call.word == Word::Undo && answer.refusal() == 0 {
            for code in 1..=32 {
                // A marked draft, opened and closed, has no mark.
                if by_all(book, Word::Confirm, &[code]).refusal() == 0 {
                    by_all(book, Word::Close, &[code]);
                }
            }
        }
        answer
    });
    finds(
        "UNDO opens nothing that fell",
        ANYTHING,
        |book, call, accounts| {
            let is_open = |book: &[u32], code| {
                by_all(&mut book.to_vec(), Word::Close, &[code]).refusal() == 0
            };
            let before = book.to_vec();
            let answer = Linked.call(book, call, accounts);
            if call.word == Word::Undo && answer.refusal() == 0 {
                for code in (1..=32).filter(|&code| !is_open(&before, code)) {
                    by_all(book, Word::Close, &[code]);
                }
            }
            answer
        },
    );
    finds(
        "SET makes no drafts of code 3",
        ANYTHING,
        |book, call, accounts| {
            // It is closed, directed and opened before the sheet is set.
            let answer = Linked.call(&mut book.to_vec(), call, accounts);
            let accepted = call.word == Word::Set && answer.refusal() == 0;
            if accepted && by_all(book, Word::Close, &[3]).refusal() == 0 {
                by_all(book, Word::Direct, &[3]);
                by_all(book, Word::Open, &[3]);
            }
            Linked.call(book, call, accounts)
        },
    );
    finds(
        "the last number is one less",
        ANYTHING,
        |book, call, accounts| {
            let mut other = call.clone();
            if call.word == Word::Put && call.numbers.len() == 28 && call.numbers[27] > 0 {
                other.numbers[27] -= 1;
            }
            Linked.call(book, &mut other, accounts)
        },
    );
}

/// The image tells whether the number of accepted calls is even. All answers are right.
struct Counting;

fn turn(book: &mut [u32]) {
    book.iter_mut().for_each(|word| *word ^= 0x0f0f_1234);
}

impl Library for Counting {
    fn fresh(&mut self, book: &mut [u32]) -> u32 {
        Linked.fresh(book)
    }

    fn check(&mut self, book: &mut [u32]) -> u32 {
        let mut turned = book.to_vec();
        turn(&mut turned);
        Linked.check(book).min(Linked.check(&mut turned))
    }

    fn call(&mut self, book: &mut [u32], call: &mut Call, accounts: &mut [Account]) -> Answer {
        let before = book.to_vec();
        let turned = Linked.check(book) != 0;
        if turned {
            turn(book);
        }
        let answer = Linked.call(book, call, accounts);
        if answer.refusal() != 0 || call.word.is_question() {
            book.copy_from_slice(&before);
        } else if !turned {
            turn(book);
        }
        answer
    }
}

#[test]
fn wrong_images() {
    let says = "has another image";
    found("the image counts calls", says, &mut Counting);
    // UNDO by what the library itself keeps, and not by the image.
    let mut kept: Option<Vec<u32>> = None;
    finds(
        "the book before is kept elsewhere",
        ANYTHING,
        |book, call, accounts| {
            let before = book.to_vec();
            let answer = Linked.call(book, call, accounts);
            match (call.word, answer.refusal(), &kept) {
                (Word::Set, 0, _) => kept = Some(before),
                (Word::Undo, 0, Some(kept)) => book.copy_from_slice(kept),
                _ => {}
            }
            answer
        },
    );
    finds("longer words are taken", "words", |book, call, accounts| {
        let words = book.len().min(WORDS);
        Linked.call(&mut book[..words], call, accounts)
    });
    finds(
        "any words are taken for a fresh book",
        "no book",
        |book, call, accounts| {
            if book.len() == WORDS && Linked.check(book) != 0 {
                Linked.fresh(book);
            }
            Linked.call(book, call, accounts)
        },
    );
    finds(
        "the numbers are written over",
        "wrote into its numbers",
        |book, call, accounts| {
            let answer = Linked.call(book, call, accounts);
            if call.word == Word::Set && answer.refusal() == 0 {
                call.numbers[40] ^= 1;
            }
            answer
        },
    );
}

/// The library with another fresh book or another check.
struct Odd {
    fresh: fn(&mut [u32]) -> u32,
    check: fn(&mut [u32]) -> u32,
}

impl Library for Odd {
    fn fresh(&mut self, book: &mut [u32]) -> u32 {
        (self.fresh)(book)
    }

    fn check(&mut self, book: &mut [u32]) -> u32 {
        (self.check)(book)
    }

    fn call(&mut self, book: &mut [u32], call: &mut Call, accounts: &mut [Account]) -> Answer {
        Linked.call(book, call, accounts)
    }
}

#[test]
fn wrong_fresh_books_and_checks() {
    let fresh = |book: &mut [u32]| Linked.fresh(book);
    let check = |book: &mut [u32]| Linked.check(book);
    let leaves_a_word: fn(&mut [u32]) -> u32 = |book| {
        let last = book.last().copied();
        let answer = Linked.fresh(book);
        if let (Some(word), Some(last), 0) = (book.last_mut(), last, answer) {
            *word = last;
        }
        answer
    };
    let mut odd = Odd {
        fresh: leaves_a_word,
        check,
    };
    found("fresh leaves a word", "two fresh books differ", &mut odd);
    let strict: fn(&mut [u32]) -> u32 = |book| {
        if Linked.check(book) != 0 {
            return NO_BOOK;
        }
        let mut closed = book.to_vec();
        match by_all(&mut closed, Word::Close, &[17]).refusal() {
            0 => NO_BOOK,
            _ => 0,
        }
    };
    let mut odd = Odd {
        fresh,
        check: strict,
    };
    found("an open code 17 is no book", "check", &mut odd);
    let lenient: fn(&mut [u32]) -> u32 = |_| 0;
    let mut odd = Odd {
        fresh,
        check: lenient,
    };
    found("every list of words is a book", "check", &mut odd);
}

#[test]
fn wrong_rebates() {
    finds(
        "an account's code is written over",
        "account ",
        |book, call, accounts| {
            let answer = Linked.call(book, call, accounts);
            if let (Answer::Run(run), Some(last)) = (answer, accounts.last_mut()) {
                if run.refusal == 0 {
                    last.code += 1;
                }
            }
            answer
        },
    );
    finds(
        "unread months are cleared",
        "account ",
        |book, call, accounts| {
            let answer = Linked.call(book, call, accounts);
            if answer.refusal() == 0 {
                for account in accounts {
                    account.months[account.count as usize..].fill(0);
                }
            }
            answer
        },
    );
    finds(
        "a refused run writes",
        "account ",
        |book, call, accounts| {
            let answer = Linked.call(book, call, accounts);
            if let Answer::Run(run) = answer {
                if run.refusal == 18 {
                    for account in &mut accounts[..run.place as usize] {
                        account.rebate = 0;
                    }
                }
            }
            answer
        },
    );
    finds(
        "rebates are rounded down",
        "answered: Run(",
        |book, call, accounts| {
            let mut answer = Linked.call(book, call, accounts);
            if let Answer::Run(run) = &mut answer {
                if run.refusal == 0 {
                    for account in accounts.iter_mut().filter(|account| account.rebate == 1) {
                        account.rebate = 0;
                        run.total -= 1;
                    }
                }
            }
            answer
        },
    );
    finds(
        "a million and one accounts are taken",
        "1,000,001",
        |book, call, accounts| {
            if accounts.len() != 1_000_001 {
                return Linked.call(book, call, accounts);
            }
            let (million, one) = accounts.split_at_mut(1_000_000);
            let first = Linked.call(book, call, million);
            match (first, Linked.call(book, call, one)) {
                (Answer::Run(mut first), Answer::Run(second)) if first.refusal == 0 => {
                    first.total += second.total;
                    Answer::Run(first)
                }
                _ => first,
            }
        },
    );
    finds(
        "a million accounts are refused",
        "1,000,000",
        |book, call, accounts| match accounts.len() {
            1_000_000.. => {
                let mut answer = Answer::refused(Word::Rebate, 19);
                if let Answer::Run(run) = &mut answer {
                    run.place = 999_999;
                }
                answer
            }
            _ => Linked.call(book, call, accounts),
        },
    );
}
