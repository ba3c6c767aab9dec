//! Taking back a sheet (M-105), on the reference sheet of document 01, its numbers written out by
//! hand.

mod common;

use common::{number, reference, reference_book, seen, tariff, two_open};
use second::{Book, Refusal, State};

/// The reference sheet for October alone: code 1 of `two_open` falls, and code 2 stays open. (At
/// nil by Other 734,791.67 for a month; 31 days cost 742,760 at 23,960 a day and 713,000 at 23,000.)
fn october(book: &mut Book) -> Result<(), Refusal> {
    book.set(2023, 10, 1, &reference())
}

/// `two_open` after that sheet, and before it.
fn one_fallen() -> (Book, Book) {
    let mut book = two_open();
    let before = book.clone();
    assert_eq!(number(october(&mut book)), 0);
    assert_eq!(book.state(1), Some(State::Draft));
    assert_eq!(book.state(2), Some(State::Open));
    (book, before)
}

#[test]
fn what_fell_is_open_again_under_the_sheet_before() {
    let (mut book, before) = one_fallen();
    assert_eq!(book.t(), Some(1));
    assert_eq!(book.undo(), Ok(()));
    assert_eq!(seen(&book), seen(&before));
    assert_eq!(book.t(), Some(3));
    assert_eq!(book.open(1).unwrap_err().number(), 7);
    assert_eq!(number(book.put(1, &tariff(1, 0, &[0], &[]))), 7);
    assert_eq!(number(book.drop_code(1)), 7);
    assert_eq!(number(book.close(1)), 0);
    assert_eq!(book.open(1), Ok(28));
}

#[test]
fn the_same_sheet_later_makes_it_fall_again() {
    let (mut book, _) = one_fallen();
    book.undo().unwrap();
    assert_eq!(book.trial(2023, 10, 1, &reference()), Ok(1));
    assert_eq!(number(october(&mut book)), 0);
    assert_eq!(book.state(1), Some(State::Draft));
    assert_eq!(book.open(1).unwrap_err().number(), 11);
    // This one can be taken back too.
    assert_eq!(number(book.undo()), 0);
    assert_eq!(book.state(1), Some(State::Open));
}

#[test]
fn the_first_sheet_leaves_none() {
    let mut book = Book::new();
    book.put(1, &tariff(1, 23_960, &[18_000], &[])).unwrap();
    let before = seen(&book);
    assert_eq!(number(book.undo()), 15);
    book.set(2023, 10, 3, &reference()).unwrap();
    assert_eq!(book.benchmark(0, 0, 1, 0), Ok(8_817_500));
    assert_eq!(number(book.undo()), 0);
    assert_eq!(seen(&book), before);
    assert_eq!(book.t(), None);
    assert_eq!(number(book.benchmark(0, 0, 1, 0)), 10);
    assert_eq!(number(book.maximum(0, 0, 1, 300)), 10);
    assert_eq!(number(book.quote(1, 0, 1, &[0, 0, 0])), 10);
    assert_eq!(book.open(1).unwrap_err().number(), 10);
    assert_eq!(book.trial(2023, 10, 3, &reference()), Ok(0));
    assert_eq!(number(book.close(1)), 12);
    assert_eq!(number(book.undo()), 15);
    // A sheet again, and the draft is still there.
    book.set(2023, 10, 3, &reference()).unwrap();
    assert_eq!(book.open(1), Ok(28));
    assert_eq!(number(book.undo()), 15);
    assert_eq!(number(book.close(1)), 0);
    assert_eq!(number(book.drop_code(1)), 0);
}

#[test]
fn two_sheets_and_one_step() {
    let mut book = two_open();
    let mut other = reference();
    other[36] = 520_000;
    assert_eq!(number(book.set(2023, 10, 3, &other)), 0);
    let between = seen(&book);
    assert_eq!(number(october(&mut book)), 0);
    assert_eq!(number(book.undo()), 0);
    assert_eq!(seen(&book), between);
    // At nil by Other 20,200 more than with an SMNCC of 500,000.
    assert_eq!(book.benchmark(0, 0, 1, 0), Ok(8_837_700));
    // The book that came back could itself go back a step. It cannot any more.
    assert_eq!(number(book.undo()), 15);
    assert_eq!(number(book.undo()), 15);
    assert_eq!(seen(&book), between);

    // On a fresh book, with the first of the two left in force.
    let mut book = Book::new();
    let answers = [
        number(book.set(2023, 10, 3, &reference())),
        number(book.set(2023, 10, 1, &reference())),
        number(book.undo()),
        number(book.undo()),
    ];
    assert_eq!(answers, [0, 0, 0, 15]);
    assert_eq!(book.t(), Some(3));
}

/// What fell by the first of two sheets does not come back with the second.
#[test]
fn what_fell_before_the_last_sheet_stays_a_draft() {
    let (mut book, _) = one_fallen();
    let between = seen(&book);
    book.set(2023, 10, 3, &reference()).unwrap();
    assert_eq!(book.state(1), Some(State::Draft));
    assert_eq!(number(book.undo()), 0);
    assert_eq!(seen(&book), between);
    assert_eq!(book.state(1), Some(State::Draft));
}

#[test]
fn an_accepted_call_that_changes_a_place_ends_the_chance() {
    type Change = fn(&mut Book);
    let changes: [Change; 7] = [
        // A draft over the one that fell, the same, and one in an empty place.
        |book| book.put(1, &tariff(1, 0, &[0], &[])).unwrap(),
        |book| book.put(1, &tariff(1, 23_960, &[18_000], &[])).unwrap(),
        |book| book.put(32, &tariff(1, 0, &[0], &[])).unwrap(),
        |book| assert_eq!(book.open(4), Ok(28)),
        |book| book.close(2).unwrap(),
        |book| book.drop_code(1).unwrap(),
        |book| book.drop_code(4).unwrap(),
    ];
    for (i, change) in changes.into_iter().enumerate() {
        let mut book = two_open();
        book.put(4, &tariff(1, 0, &[0], &[])).unwrap();
        october(&mut book).unwrap();
        // Without it the sheet is taken back.
        assert_eq!(book.clone().undo(), Ok(()));
        change(&mut book);
        let before = seen(&book);
        assert_eq!(number(book.undo()), 15, "change {i}");
        assert_eq!(seen(&book), before);
    }
    // Closed and opened again, all is as it was; the chance is gone all the same.
    let (mut book, _) = one_fallen();
    book.close(2).unwrap();
    book.open(2).unwrap();
    assert_eq!(number(book.undo()), 15);
    // A sheet after that can be taken back.
    book.set(2023, 10, 3, &reference()).unwrap();
    assert_eq!(number(book.undo()), 0);
    assert_eq!(book.t(), Some(1));
}

#[test]
fn refused_calls_questions_and_trials_leave_the_chance() {
    let (mut book, before) = one_fallen();
    let after = seen(&book);
    let good = tariff(1, 0, &[0], &[]);
    let mut field = reference();
    field[5] = 100_000_001;
    let mut term = reference();
    (term[22], term[29]) = (1, 1_000_000_000);
    let mut low = reference();
    low[36] = 4_194_967_296;
    let mut falls = reference();
    falls[37] = 100_000_000;

    for (sheet, refusal) in [
        (&field[..95], 1),
        (&field[..], 2),
        (&term[..], 4),
        (&low[..], 14),
        (&falls[..], 5),
    ] {
        assert_eq!(number(book.set(2023, 10, 3, sheet)), refusal);
        assert_eq!(number(book.trial(2023, 10, 3, sheet)), refusal);
    }
    assert_eq!(number(book.set(2023, 13, 3, &reference())), 3);
    assert_eq!(number(book.trial(2023, 13, 3, &reference())), 3);
    assert_eq!(book.trial(2023, 10, 3, &reference()), Ok(0));
    assert_eq!(number(book.put(0, &good)), 6);
    assert_eq!(number(book.put(33, &good)), 6);
    assert_eq!(number(book.put(2, &good)), 7);
    assert_eq!(number(book.put(3, &good[..13])), 8);
    for (code, refusal) in [(0, 6), (33, 6), (3, 9), (2, 7), (1, 11)] {
        assert_eq!(book.open(code).unwrap_err().number(), refusal);
    }
    for (code, refusal) in [(0, 6), (33, 6), (3, 9), (1, 12)] {
        assert_eq!(number(book.close(code)), refusal);
    }
    for (code, refusal) in [(0, 6), (33, 6), (3, 9), (2, 7)] {
        assert_eq!(number(book.drop_code(code)), refusal);
    }
    assert_eq!(book.benchmark(0, 0, 1, 0), Ok(8_817_500));
    assert_eq!(number(book.benchmark(14, 0, 1, 0)), 13);
    assert_eq!(number(book.maximum(0, 0, 1, 300)), 0);
    assert_eq!(number(book.maximum(0, 0, 1, 120_001)), 13);
    assert_eq!(number(book.quote(1, 0, 1, &[0])), 0);
    assert_eq!(number(book.quote(1, 0, 1, &[0, 0])), 13);

    assert_eq!(seen(&book), after);
    assert_eq!(number(book.undo()), 0);
    assert_eq!(seen(&book), seen(&before));
}

#[test]
fn neither_a_refused_sheet_nor_a_trial_makes_a_chance() {
    let mut book = Book::new();
    assert_eq!(number(book.set(2023, 10, 3, &[])), 1);
    assert_eq!(number(book.undo()), 15);
    assert_eq!(book.trial(2023, 10, 3, &reference()), Ok(0));
    assert_eq!(number(book.undo()), 15);
    assert_eq!(number(book.trial(2023, 10, 3, &[])), 1);
    assert_eq!(number(book.undo()), 15);

    let mut book = two_open();
    let before = seen(&book);
    assert_eq!(number(book.set(2023, 13, 3, &reference())), 3);
    assert_eq!(number(book.undo()), 15);
    assert_eq!(book.trial(2023, 10, 1, &reference()), Ok(1));
    assert_eq!(number(book.undo()), 15);
    assert_eq!(seen(&book), before);
}

#[test]
fn a_sheet_that_changes_nothing_is_a_step_too() {
    let mut book = reference_book();
    let before = seen(&book);
    book.set(2023, 10, 3, &reference()).unwrap();
    assert_eq!(number(book.undo()), 0);
    assert_eq!(seen(&book), before);
    assert_eq!(book.t(), Some(3));
    assert_eq!(number(book.undo()), 15);
}

/// Only what the sheet made a draft is opened again.
#[test]
fn a_draft_stays_a_draft() {
    let mut book = two_open();
    book.put(3, &tariff(1, 23_000, &[18_000], &[])).unwrap();
    book.put(4, &tariff(1, 23_960, &[18_000], &[])).unwrap();
    book.open(4).unwrap();
    book.close(4).unwrap();
    october(&mut book).unwrap();
    book.undo().unwrap();
    let states = [1, 2, 3, 4, 5].map(|code| book.state(code).unwrap());
    use State::*;
    assert_eq!(states, [Open, Open, Draft, Draft, Empty]);
}

#[test]
fn each_place_comes_back() {
    for code in 1..=32 {
        let mut book = reference_book();
        for place in 1..=32 {
            let standing = if place == code { 23_960 } else { 23_000 };
            book.put(place, &tariff(1, standing, &[18_000], &[]))
                .unwrap();
            book.open(place).unwrap();
        }
        let before = seen(&book);
        let open = |book: &Book| -> Vec<u32> {
            (1..=32)
                .filter(|&code| book.state(code) == Some(State::Open))
                .collect()
        };
        october(&mut book).unwrap();
        assert_eq!(open(&book).len(), 31);
        assert!(!open(&book).contains(&code));
        book.undo().unwrap();
        assert_eq!(seen(&book), before);
        // All of them, without network costs at nil.
        let mut sheet = reference();
        for nil in (37..93).step_by(2) {
            sheet[nil] = 0;
        }
        book.set(2023, 10, 3, &sheet).unwrap();
        assert_eq!(open(&book), []);
        book.undo().unwrap();
        assert_eq!(seen(&book), before);
        assert_eq!(open(&book).len(), 32);
    }
}

/// Fields, period, split and saving come back with the sheet.
#[test]
fn all_of_the_sheet_comes_back() {
    let mut sheets = vec![(2023, 10, 3, reference()), (2023, 10, 1, reference())];
    for (field, word) in [(36, 4_294_467_296), (95, 579), (93, 2_999), (37, 1_999_999)] {
        let mut sheet = reference();
        sheet[field] = word;
        sheets.push((2024, 2, 12, sheet));
    }
    for (year, month, t, first) in &sheets {
        for (other_year, other_month, other_t, second) in &sheets {
            let mut book = Book::new();
            book.put(1, &tariff(2, 23_000, &[18_000, 12_250], &[]))
                .unwrap();
            book.put(2, &tariff(1, 20_000, &[18_000], &[])).unwrap();
            book.set(*year, *month, *t, first).unwrap();
            let _ = (book.open(1), book.open(2));
            let before = seen(&book);
            let then = (book.clone().open(1), book.quote(1, 0, 1, &[10_000; 12]));
            book.set(*other_year, *other_month, *other_t, second)
                .unwrap();
            book.undo().unwrap();
            assert_eq!(seen(&book), before);
            assert_eq!(
                (book.clone().open(1), book.quote(1, 0, 1, &[10_000; 12])),
                then
            );
        }
    }
}
