//! Books that two lists of calls come to: the images are the same, word for word.

use second::{State, RECORD};

use crate::call::{Answer, Call, Word};
use crate::compared::{different, same_words, Compared, Image};
use crate::header::ALL_REGIONS;

/// A tariff that costs nothing.
const FREE: [u32; RECORD] = {
    let mut record = [0; RECORD];
    (record[0], record[1], record[3], record[4]) = (1, 1, ALL_REGIONS, 3);
    record
};

/// PUT of the tariff that costs nothing.
fn put_free(code: u32) -> Call {
    Call::new(Word::Put, &[&[code], &FREE[..]].concat())
}

/// Calls that come to the same book as a call on a code that is accepted, and what they are called.
/// There are two ways for each.
fn other_calls(call: &Call, one_way: bool) -> (Vec<Call>, &'static str) {
    let code = call.numbers[0];
    // By the same desk, and by one with all fourteen regions.
    let own = |word| Call {
        desk: call.desk,
        word,
        numbers: vec![code],
    };
    let by_all = |word| Call::new(word, &[code]);
    let (again, once_more) = (call.clone(), call.clone());
    match (call.word, one_way) {
        (Word::Open, true) => (vec![own(Word::Ask), own(Word::Confirm)], "by two people"),
        (Word::Open, false) => (vec![again, own(Word::Close), once_more], "opened twice"),
        (Word::Confirm, true) => (vec![own(Word::Open)], "by one person"),
        (Word::Confirm, false) => {
            let calls = [Word::Open, Word::Close, Word::Ask, Word::Confirm];
            (calls.map(own).to_vec(), "opened twice")
        }
        (Word::Ask, _) => (vec![again, once_more], "asked for twice"),
        (Word::Close, _) => (vec![again, own(Word::Open), once_more], "closed twice"),
        (Word::Direct, _) => (vec![again, once_more], "directed twice"),
        (Word::Put, true) => {
            let calls = vec![again, own(Word::Drop), once_more];
            (calls, "put, dropped and put")
        }
        (Word::Put, false) => {
            let [direct, drop] = [Word::Direct, Word::Drop].map(by_all);
            let calls = vec![put_free(code), direct, drop, again];
            (calls, "another put, directed and dropped before it")
        }
        (Word::Drop, true) => (vec![by_all(Word::Direct), again], "directed before it"),
        (Word::Drop, false) => {
            let calls = vec![put_free(code), by_all(Word::Drop)];
            (calls, "another put before it")
        }
        _ => unreachable!("a call on a code"),
    }
}

impl Compared<'_> {
    /// An accepted call was made on the image: from the words before it, other calls lead to the same
    /// book.
    pub(crate) fn by_another_road(&mut self, call: &Call, answer: &Answer) -> Result<(), String> {
        let (calls, road) = match (call.word, self.random.below(3)) {
            (Word::Undo, _) => return Ok(()),
            (Word::Set, 0) => return self.there_and_back(call),
            (Word::Set, _) | (_, 0) => {
                // What is taken back leaves nothing behind; after this call, not even that there was a chance.
                let Some(sheet) = self.other_sheet.as_ref().or(self.sheet.as_ref()) else {
                    return Ok(());
                };
                let (set, undo) = (Call::new(Word::Set, sheet), Call::new(Word::Undo, &[]));
                let calls = vec![set, undo, call.clone()];
                (calls, "a sheet taken back before it")
            }
            (_, way) => other_calls(call, way == 1),
        };
        let mut image = Image::of(&self.before, &mut self.random);
        let mut last = *answer;
        for step in &calls {
            last = self.ask(&mut image, step, &mut Vec::new())?;
            if last.refusal() != 0 {
                let step = step.line();
                return Err(format!("{road}: refused {} to {step}", last.refusal()));
            }
        }
        if last != *answer {
            return Err(different(road, answer, &last));
        }
        let what = format!("two images of one book differ, one of them {road}");
        same_words(&what, self.image.book(), image.book())?;
        self.tally
            .one(&format!("roads: {}, {road}", call.word.text()));
        if self.random.one_in(8) {
            self.check(&mut image)?;
        }
        Ok(())
    }

    /// SET and then UNDO: the words before, if there was nothing to take back then.
    fn there_and_back(&mut self, call: &Call) -> Result<(), String> {
        if self.chance.is_some() {
            return Ok(());
        }
        let mut image = Image::of(&self.before, &mut self.random);
        for call in [call, &Call::new(Word::Undo, &[])] {
            let answer = self.ask(&mut image, call, &mut Vec::new())?;
            if answer.refusal() != 0 {
                let word = call.word.text();
                return Err(format!("a sheet set and taken back: refused to {word}"));
            }
        }
        let what = "a sheet set and taken back left something";
        same_words(what, &self.before, image.book())?;
        self.tally.one("roads: set, and taken back");
        Ok(())
    }

    /// The book built again from a fresh one, place by place in another order.
    pub(crate) fn built_again(&mut self) -> Result<(), String> {
        let mut image = self.fresh()?;
        // What is to be taken back was done last.
        let (mut sheet, mut book) = (self.sheet.clone(), self.book.clone());
        let last = match &self.chance {
            Some(before) => {
                book = before.book.clone();
                std::mem::replace(&mut sheet, before.sheet.clone())
            }
            None => None,
        };
        let mut calls = Vec::new();
        calls.extend(sheet.map(|sheet| Call::new(Word::Set, &sheet)));
        // A call on a code, so that this sheet is there to stay.
        let put = |code: u32, record: &[u32]| Call::new(Word::Put, &[&[code], record].concat());
        calls.push(put(1, &FREE));
        calls.push(Call::new(Word::Drop, &[1]));
        let (start, step) = (
            self.random.between(0, 31),
            self.random.pick(&[1, 3, 11, 31]),
        );
        for code in (0..32).map(|i| (start + i * step) % 32 + 1) {
            let Some(record) = self.records[code as usize - 1] else {
                continue;
            };
            calls.push(put(code, &record));
            let of_code = |word| Call::new(word, &[code]);
            let (open, marked) = (book.state(code) == Some(State::Open), book.is_marked(code));
            if book.is_directed(code) {
                calls.push(of_code(Word::Direct));
            }
            if open && self.random.one_in(2) {
                calls.extend([of_code(Word::Ask), of_code(Word::Confirm)]);
            } else if open {
                calls.push(of_code(Word::Open));
            } else if marked {
                calls.push(of_code(Word::Ask));
            }
        }
        calls.extend(last.map(|sheet| Call::new(Word::Set, &sheet)));
        for call in &calls {
            let answer = self.ask(&mut image, call, &mut Vec::new())?;
            if answer.refusal() != 0 {
                let (refusal, line) = (answer.refusal(), call.line());
                return Err(format!("the book built again: refused {refusal} to {line}"));
            }
        }
        let what = "the same book built again has another image";
        same_words(what, self.image.book(), image.book())?;
        self.tally.one(if self.chance.is_some() {
            "books built again, with a sheet to take back"
        } else {
            "books built again"
        });
        self.check(&mut image)
    }
}
