//! The header's calls, safe to make.

use crate::call::{Answer, Call, Word};
use crate::header::*;

/// A library behind the header. What is lent to a call can be changed by a wrong one, const or not.
pub trait Library {
    fn fresh(&mut self, book: &mut [u32]) -> u32;
    fn check(&mut self, book: &mut [u32]) -> u32;
    /// Any other call. The accounts are those of a rebate run.
    fn call(&mut self, book: &mut [u32], call: &mut Call, accounts: &mut [Account]) -> Answer;
}

/// The library that is linked.
#[derive(Clone, Copy, Default)]
pub struct Linked;

impl Library for Linked {
    fn fresh(&mut self, book: &mut [u32]) -> u32 {
        // SAFETY: the words are there, and nobody else has them.
        unsafe { slatewhim_fresh(book.as_mut_ptr(), book.len()) }
    }

    fn check(&mut self, book: &mut [u32]) -> u32 {
        // SAFETY: as above.
        unsafe { slatewhim_check(book.as_mut_ptr(), book.len()) }
    }

    fn call(&mut self, book: &mut [u32], call: &mut Call, accounts: &mut [Account]) -> Answer {
        let (image, words) = (book.as_mut_ptr(), book.len());
        let (desk, word) = (call.desk, call.word);
        let numbers = &mut call.numbers[..];
        let first = numbers.first().copied().unwrap_or(0);
        // SAFETY: the lists are there with the lengths that are handed over, they do not overlap, and
        // nobody else has them. No pointer is null, not even that of an empty list.
        unsafe {
            match word {
                Word::Set | Word::Trial => {
                    let [year, month, t, fields @ ..] = numbers else {
                        panic!("a sheet has a period");
                    };
                    let (list, count) = (fields.as_mut_ptr(), fields.len());
                    if word == Word::Set {
                        let (year, month, t) = (*year, *month, *t);
                        Answer::Number(slatewhim_set(
                            image, words, desk, list, count, year, month, t,
                        ))
                    } else {
                        let (year, month, t) = (*year, *month, *t);
                        Answer::Falling(slatewhim_trial(
                            image, words, desk, list, count, year, month, t,
                        ))
                    }
                }
                Word::Undo => Answer::Number(slatewhim_undo(image, words, desk)),
                Word::Put => {
                    let record = &mut numbers[1..];
                    let (list, count) = (record.as_mut_ptr(), record.len());
                    Answer::Number(slatewhim_put(image, words, desk, first, list, count))
                }
                Word::Open => Answer::Opened(slatewhim_open(image, words, desk, first)),
                Word::Ask => Answer::Opened(slatewhim_ask(image, words, desk, first)),
                Word::Confirm => Answer::Opened(slatewhim_confirm(image, words, desk, first)),
                Word::Close => Answer::Number(slatewhim_close(image, words, desk, first)),
                Word::Drop => Answer::Number(slatewhim_drop(image, words, desk, first)),
                Word::Direct => Answer::Number(slatewhim_direct(image, words, desk, first)),
                Word::Benchmark => Answer::Charge(slatewhim_benchmark(
                    image, words, desk, first, numbers[1], numbers[2], numbers[3],
                )),
                Word::Maximum => Answer::Fraction(slatewhim_maximum(
                    image, words, desk, first, numbers[1], numbers[2], numbers[3],
                )),
                Word::Quote => {
                    let (region, method) = (numbers[1], numbers[2]);
                    let months = &mut numbers[3..];
                    let (list, count) = (months.as_mut_ptr(), months.len());
                    Answer::Quotation(slatewhim_quote(
                        image, words, desk, first, region, method, list, count,
                    ))
                }
                Word::Rebate => {
                    let (list, count) = (accounts.as_mut_ptr(), accounts.len());
                    Answer::Run(slatewhim_rebates(image, words, desk, list, count))
                }
            }
        }
    }
}
