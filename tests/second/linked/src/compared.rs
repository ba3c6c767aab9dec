//! A library and the second book side by side.

use second::counts::sort_of_desk;
use second::program::text;
use second::random::Random;
use second::tally::Tally;
use second::{Book, RECORD};

use crate::call::{by_second, for_second, Answer, Call, Word};
use crate::header::{ALL_REGIONS, NO_BOOK, WORDS};
use crate::library::Library;
use crate::Account;

/// Words on each side of an image, at least, that no call may touch.
const MARGIN: usize = 16;

/// Other lengths than that of a book.
const LENGTHS: [usize; 6] = [0, 1, 640, WORDS - 1, WORDS + 1, WORDS + MARGIN];

/// What stands behind the accounts of a run.
const BEHIND: Account = Account {
    code: 1,
    region: 2,
    method: 3,
    count: 4,
    months: [5; 12],
    rebate: 6,
};

/// Once in so many calls, each of these is done.
const CHECKED: u64 = 8;
const NO_BOOKS: u64 = 40;
const BESIDE: u64 = 4;
const OTHER_ROAD: u64 = 3;
const BUILT_AGAIN: u64 = 60;
const MOVED: u64 = 150;
const SAVED: u64 = 400;

/// Calls after which what was saved is loaded, and they are made again.
const MADE_AGAIN: usize = 40;

/// An image, with a margin on each side.
#[derive(Default)]
pub(crate) struct Image {
    words: Vec<u32>,
    /// The place of its first word, so that it may begin at any word of the memory.
    start: usize,
}

fn margin_word(place: usize) -> u32 {
    0x5bd1_e995u32.wrapping_mul(place as u32 + 1)
}

impl Image {
    fn with_margins(random: &mut Random) -> Image {
        let start = MARGIN + random.index(4);
        let words = (0..start + WORDS + MARGIN).map(margin_word);
        let words = words.collect();
        Image { words, start }
    }

    /// Words that are no book yet, whatever they were.
    pub(crate) fn of_anything(random: &mut Random) -> Image {
        let mut image = Image::with_margins(random);
        match random.below(3) {
            0 => image.book().fill(0),
            1 => image.book().fill(u32::MAX),
            _ => image.book().fill_with(|| random.bits() as u32),
        }
        image
    }

    /// A copy of a book, in other memory.
    pub(crate) fn of(book: &[u32], random: &mut Random) -> Image {
        let mut image = Image::with_margins(random);
        image.book().copy_from_slice(book);
        image
    }

    pub(crate) fn book(&mut self) -> &mut [u32] {
        self.with_length(WORDS)
    }

    /// From the first word of the book on.
    fn with_length(&mut self, words: usize) -> &mut [u32] {
        &mut self.words[self.start..self.start + words]
    }

    pub(crate) fn margins_are_untouched(&self) -> bool {
        let mut margins = (0..self.start).chain(self.start + WORDS..self.words.len());
        margins.all(|place| self.words[place] == margin_word(place))
    }
}

/// A sheet with its period, as SET takes it.
pub(crate) type Dated = Vec<u32>;

/// What was before the last SET.
pub(crate) struct Before {
    pub(crate) book: Book,
    pub(crate) sheet: Option<Dated>,
}

/// An image that was saved, and the calls made since with their answers.
struct Saved {
    bytes: Vec<u8>,
    since: Vec<(Call, Answer)>,
}

pub struct Compared<'a> {
    pub(crate) library: &'a mut dyn Library,
    pub(crate) random: Random,
    pub(crate) book: Book,
    pub(crate) image: Image,
    /// The words before the call.
    pub(crate) before: Vec<u32>,
    /// An image of which only what changes the book was asked.
    short_road: Image,
    /// Another book, of which some of the calls are asked.
    beside: (Book, Image),
    /// The sheet in force, as the calls have it.
    pub(crate) sheet: Option<Dated>,
    /// What was before the last SET, as long as that can be taken back.
    pub(crate) chance: Option<Before>,
    /// A sheet that was accepted.
    pub(crate) other_sheet: Option<Dated>,
    pub(crate) records: [Option<[u32; RECORD]>; 32],
    saved: Option<Saved>,
    /// Rebate runs of a million accounts that are still to be made.
    pub long_runs: u32,
    pub tally: Tally,
}

impl<'a> Compared<'a> {
    /// Both begin with a fresh book.
    pub fn new(library: &'a mut dyn Library, seed: u64) -> Result<Compared<'a>, String> {
        let random = Random::new(!seed);
        let mut compared = Compared {
            library,
            image: Image::default(),
            short_road: Image::default(),
            beside: (Book::new(), Image::default()),
            random,
            book: Book::new(),
            before: Vec::new(),
            sheet: None,
            chance: None,
            other_sheet: None,
            records: [None; 32],
            saved: None,
            long_runs: 0,
            tally: Tally::default(),
        };
        let [mut one, mut other, beside] =
            [compared.fresh()?, compared.fresh()?, compared.fresh()?];
        same_words("two fresh books differ", one.book(), other.book())?;
        (compared.image, compared.short_road, compared.beside.1) = (one, other, beside);
        Ok(compared)
    }

    /// A fresh book, made of any words.
    pub(crate) fn fresh(&mut self) -> Result<Image, String> {
        let mut image = Image::of_anything(&mut self.random);
        let answer = self.library.fresh(image.book());
        if answer != 0 || !image.margins_are_untouched() {
            return Err(format!("fresh: answered {answer}, or wrote past the book"));
        }
        self.tally.one("fresh books");
        Ok(image)
    }

    /// One line of a script.
    pub fn line(&mut self, line: &[u8]) -> Result<(), String> {
        match Call::read(line) {
            Some(call) => self
                .call(&call)
                .map_err(|problem| format!("{}\n  {problem}", text(call.line().as_bytes()))),
            None => Ok(()),
        }
    }

    /// One call on both.
    fn call(&mut self, call: &Call) -> Result<(), String> {
        if self.random.one_in(NO_BOOKS) {
            self.no_book(call)?;
        }
        if self.random.one_in(BESIDE) {
            self.of_the_book_beside(call)?;
        }
        let before = call.word == Word::Set && call.desk == ALL_REGIONS;
        let before = before.then(|| self.book.clone());
        let mut accounts = call.accounts();
        let mut expected_accounts: Vec<_> = accounts.iter().map(for_second).collect();
        let expected = by_second(&mut self.book, call, &mut expected_accounts);

        let mut image = std::mem::take(&mut self.image);
        self.before.clear();
        self.before.extend_from_slice(image.book());
        let answer = self.ask(&mut image, call, &mut accounts)?;
        self.image = image;
        if answer != expected {
            return Err(different("", &expected, &answer));
        }
        same_accounts(&expected_accounts, &accounts)?;
        self.count(call, &answer, accounts.len());

        let accepted = answer.refusal() == 0;
        if !accepted || call.word.is_question() {
            let what = if accepted {
                "a question changed the book"
            } else {
                "a refused call changed the book"
            };
            same_words(what, &self.before, self.image.book())?;
            if accepted && call.word == Word::Rebate && self.long_runs > 0 {
                self.million_accounts(call, &accounts)?;
            }
        } else {
            self.by_the_short_road(call, &answer)?;
            if self.random.one_in(OTHER_ROAD) {
                self.by_another_road(call, &answer)?;
            }
            self.note_change(call, before);
            if call.word == Word::Undo {
                self.built_again()?;
            }
        }
        self.save_or_make_again(call, &answer)?;
        self.now_and_then()
    }

    /// A call on an image. What is lent stays as it is, but for the image itself and the rebates, and so
    /// does what stands around it.
    pub(crate) fn ask(
        &mut self,
        image: &mut Image,
        call: &Call,
        accounts: &mut Vec<Account>,
    ) -> Result<Answer, String> {
        let mut lent = call.clone();
        let count = accounts.len();
        if call.word == Word::Rebate {
            accounts.push(BEHIND);
        }
        let list = &mut accounts[..count];
        let answer = self.library.call(image.book(), &mut lent, list);
        if lent != *call {
            return Err("the call wrote into its numbers".to_string());
        }
        if !image.margins_are_untouched() {
            return Err("the call wrote past the book".to_string());
        }
        if call.word == Word::Rebate && accounts.pop() != Some(BEHIND) {
            return Err("the run wrote past its accounts".to_string());
        }
        Ok(answer)
    }

    /// Some of the calls are made on another book too, so that the two are used in turns.
    fn of_the_book_beside(&mut self, call: &Call) -> Result<(), String> {
        let (mut book, mut image) = std::mem::take(&mut self.beside);
        let mut accounts = call.accounts();
        let mut expected_accounts: Vec<_> = accounts.iter().map(for_second).collect();
        let expected = by_second(&mut book, call, &mut expected_accounts);
        let answer = self.ask(&mut image, call, &mut accounts)?;
        if answer != expected {
            return Err(different("of another book beside it", &expected, &answer));
        }
        same_accounts(&expected_accounts, &accounts)?;
        self.tally.one("calls of another book beside it");
        self.beside = (book, image);
        Ok(())
    }

    /// Words of another length and words that were never made a book are none, whatever is asked.
    fn no_book(&mut self, call: &Call) -> Result<(), String> {
        let any_words = self.random.one_in(3);
        let (mut image, length, what) = if any_words {
            let image = Image::of_anything(&mut self.random);
            (image, WORDS, "of words that are no book".to_string())
        } else {
            let length = self.random.pick(&LENGTHS);
            let image = Image::of(self.image.book(), &mut self.random);
            (image, length, format!("of {length} words"))
        };
        let words = image.words.clone();
        let (mut lent, mut accounts) = (call.clone(), call.accounts());
        let book = image.with_length(length);
        let answer = self.library.call(book, &mut lent, &mut accounts);
        let expected = Answer::refused(call.word, NO_BOOK);
        if answer != expected {
            return Err(different(&what, &expected, &answer));
        }
        let mut answers = vec![("check", self.library.check(image.with_length(length)))];
        if !any_words {
            answers.push(("fresh", self.library.fresh(image.with_length(length))));
        }
        for (call, answer) in answers {
            if answer != NO_BOOK {
                return Err(format!("{call} {what}: answered {answer}"));
            }
        }
        if image.words != words || lent != *call || accounts != call.accounts() {
            return Err(format!("the call {what} wrote something"));
        }
        let word = call.word.text();
        self.tally.one(&if any_words {
            format!("no book, any words: {word}")
        } else {
            format!("no book, another length: {word}")
        });
        Ok(())
    }

    /// The same call on the image that has seen no refused call and no question.
    fn by_the_short_road(&mut self, call: &Call, answer: &Answer) -> Result<(), String> {
        let mut short = std::mem::take(&mut self.short_road);
        let again = self.ask(&mut short, call, &mut Vec::new())?;
        if again != *answer {
            let what = "without the refused calls and questions before it";
            return Err(different(what, answer, &again));
        }
        let what = "two images of one book differ, one without the refused calls and questions";
        same_words(what, self.image.book(), short.book())?;
        self.short_road = short;
        self.tally.one("roads without refused calls and questions");
        Ok(())
    }

    /// What an accepted call changed, as the calls have it.
    fn note_change(&mut self, call: &Call, before: Option<Book>) {
        match call.word {
            Word::Set => {
                let sheet = self.sheet.replace(call.numbers.clone());
                if sheet.is_some() {
                    self.other_sheet.clone_from(&sheet);
                }
                let book = before.expect("the book before");
                self.chance = Some(Before { book, sheet });
                return;
            }
            Word::Undo => {
                let chance = self.chance.take().expect("a chance to undo");
                self.other_sheet = std::mem::replace(&mut self.sheet, chance.sheet);
            }
            Word::Put => {
                let record = call.numbers[1..].try_into().expect("a record");
                self.records[call.numbers[0] as usize - 1] = Some(record);
            }
            Word::Drop => self.records[call.numbers[0] as usize - 1] = None,
            _ => {}
        }
        self.chance = None;
    }

    /// Saves the image, or loads what was saved and makes the calls since again.
    fn save_or_make_again(&mut self, call: &Call, answer: &Answer) -> Result<(), String> {
        match &mut self.saved {
            Some(saved) => saved.since.push((call.clone(), *answer)),
            None if self.random.one_in(SAVED) => {
                let words = self.image.book().iter();
                self.saved = Some(Saved {
                    bytes: words.flat_map(|word| word.to_ne_bytes()).collect(),
                    since: Vec::with_capacity(MADE_AGAIN),
                });
            }
            None => {}
        }
        if self
            .saved
            .as_ref()
            .is_none_or(|saved| saved.since.len() < MADE_AGAIN)
        {
            return Ok(());
        }
        let saved = self.saved.take().expect("a saved image");
        let mut loaded = self.loaded(&saved.bytes);
        for (call, before) in &saved.since {
            let answer = self.ask(&mut loaded, call, &mut call.accounts())?;
            if answer != *before {
                let what = "of the image that was saved and loaded";
                return Err(different(what, before, &answer));
            }
        }
        let what = "the image that was saved and loaded differs after the same calls";
        same_words(what, self.image.book(), loaded.book())?;
        self.tally
            .one("images saved, loaded and brought to the same book again");
        Ok(())
    }

    /// An image of the bytes, in other memory.
    fn loaded(&mut self, bytes: &[u8]) -> Image {
        let words = bytes.chunks_exact(4);
        let words: Vec<u32> = words
            .map(|word| u32::from_ne_bytes(word.try_into().expect("four bytes")))
            .collect();
        Image::of(&words, &mut self.random)
    }

    /// What is done from time to time.
    fn now_and_then(&mut self) -> Result<(), String> {
        if self.random.one_in(CHECKED) {
            let mut image = std::mem::take(&mut self.image);
            let checked = self.check(&mut image);
            self.image = image;
            checked?;
        }
        if self.random.one_in(BUILT_AGAIN) {
            self.built_again()?;
        }
        if self.random.one_in(MOVED) {
            let words = self.image.book().iter();
            let bytes: Vec<u8> = words.flat_map(|word| word.to_ne_bytes()).collect();
            self.image.words.fill(0xdead_beef);
            self.image = self.loaded(&bytes);
            self.tally.one("images saved and loaded, and gone on with");
        }
        Ok(())
    }

    /// The library's own check says that the words are a book.
    pub(crate) fn check(&mut self, image: &mut Image) -> Result<(), String> {
        let words = image.words.clone();
        let answer = self.library.check(image.book());
        if answer != 0 {
            return Err(format!("then check, of a book: answered {answer}"));
        }
        if image.words != words {
            return Err("check changed the book".to_string());
        }
        self.tally.one("books checked");
        Ok(())
    }

    fn count(&mut self, call: &Call, answer: &Answer, accounts: usize) {
        let word = call.word.text();
        let desk = sort_of_desk(call.desk);
        self.tally.one("calls");
        self.tally.one(&format!("desk {desk}: {word}"));
        match answer.refusal() {
            0 => {
                self.tally.one(&format!("{word} ok"));
                self.tally.one(&format!("desk {desk}: ok"));
            }
            refusal => {
                self.tally.one(&format!("{word} refused {refusal}"));
                let outside = if refusal == 17 { "17" } else { "otherwise" };
                self.tally.one(&format!("desk {desk}: refused {outside}"));
            }
        }
        match answer {
            Answer::Opened(opened) if opened.refusal == 11 => {
                let cell = 2 * opened.region + opened.method;
                let what = "cells that were the first over the cap";
                self.tally.different(what, cell.into());
                let what = "lengths of the months of 11";
                self.tally.different(what, opened.t.into());
            }
            Answer::Opened(opened) if opened.refusal == 0 => {
                let what = "numbers of cells opened, marked or confirmed";
                self.tally.different(what, opened.cells.into());
            }
            Answer::Falling(falling) if falling.codes != 0 => {
                self.tally.one("trials with codes that would fall");
            }
            Answer::Run(run) => {
                let length = match accounts {
                    0 => "no account",
                    1 => "1 account",
                    2..=20 => "2 to 20 accounts",
                    21..=200 => "21 to 200 accounts",
                    _ => "more than 200 accounts",
                };
                let answer = if run.refusal == 0 { "ok" } else { "refused" };
                self.tally
                    .one(&format!("rebate runs of {length}: {answer}"));
                if run.refusal == 0 {
                    self.tally.add("accounts in rebate runs", accounts as u64);
                }
            }
            _ => {}
        }
    }
}

pub(crate) fn different(what: &str, expected: &Answer, answered: &Answer) -> String {
    let what = if what.is_empty() {
        String::new()
    } else {
        format!("{what}\n  ")
    };
    format!("{what}expected: {expected:?}\n  answered: {answered:?}")
}

/// Two lists of words are the same.
pub(crate) fn same_words(what: &str, expected: &[u32], found: &[u32]) -> Result<(), String> {
    if expected == found {
        return Ok(());
    }
    let mut places = (0..WORDS).filter(|&place| expected[place] != found[place]);
    let first = places.next().expect("a word that differs");
    Err(format!(
        "{what}: word {first} is {} and {}, and {} more differ",
        expected[first],
        found[first],
        places.count()
    ))
}

/// Each account after a run, every part of it.
pub(crate) fn same_accounts(expected: &[second::Account], found: &[Account]) -> Result<(), String> {
    for (place, (expected, found)) in expected.iter().zip(found).enumerate() {
        if for_second(found) != *expected {
            return Err(format!(
                "account {place}\n  expected: {expected:?}\n  answered: {found:?}"
            ));
        }
    }
    Ok(())
}
