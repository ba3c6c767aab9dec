//! Trial of a sheet (M-100), on the reference sheet of document 01, its numbers written out by
//! hand.

mod common;

use common::{number, reference, reference_book, seen, tariff, two_open};
use second::{Book, Quote, Refusal, State};

/// The codes of a set.
fn codes(set: u32) -> Vec<u32> {
    (1..=32).filter(|code| set >> (code - 1) & 1 == 1).collect()
}

/// Bit code - 1 for each open code that is a draft after SET on a copy.
fn fallen_by_set(
    book: &Book,
    year: u32,
    month: u32,
    t: u32,
    fields: &[u32],
) -> Result<u32, Refusal> {
    let mut copy = book.clone();
    copy.set(year, month, t, fields)?;
    let fell = |code: &u32| {
        book.state(*code) == Some(State::Open) && copy.state(*code) != Some(State::Open)
    };
    Ok((1..=32).filter(fell).map(|code| 1 << (code - 1)).sum())
}

#[test]
fn one_of_two_would_fall_in_october_alone() {
    // At nil by Other 8,817,500 a year, so 734,791.67 for a month. October has 31 days: 742,760
    // mills at 23,960 a day and 713,000 at 23,000.
    let mut book = two_open();
    let before = seen(&book);
    assert_eq!(book.trial(2023, 10, 1, &reference()), Ok(1));
    assert_eq!(seen(&book), before);
    // A trial changes nothing, so the same again, and October to December as it was.
    assert_eq!(book.trial(2023, 10, 1, &reference()), Ok(1));
    assert_eq!(book.state(1), Some(State::Open));
    assert_eq!(book.t(), Some(3));
    assert_eq!(number(book.put(1, &tariff(1, 0, &[0], &[]))), 7);
    assert_eq!(number(book.drop_code(1)), 7);
    assert_eq!(
        book.quote(1, 0, 1, &[0, 0, 0]),
        Ok(Quote {
            charge: 36_000_000 * 92 * 23_960,
            maximum: 3_000_000 * 3 * 8_817_500,
        })
    );
    assert_eq!(number(book.close(1)), 0);
    assert_eq!(book.open(1), Ok(28));
    // The SET that was tried.
    assert_eq!(number(book.set(2023, 10, 1, &reference())), 0);
    assert_eq!(book.state(1), Some(State::Draft));
    assert_eq!(book.state(2), Some(State::Open));
    // 36,000,000 x 742,760 - 3,000,000 x 8,817,500.
    let second::NotOpened::OverCap(breach) = book.open(1).unwrap_err() else {
        panic!("not refusal 11");
    };
    assert_eq!((breach.region, breach.method), (0, 1));
    assert_eq!(breach.months(), [0]);
    assert_eq!(breach.excess, 286_860_000_000);
}

#[test]
fn november_and_december_keep_or_drop_by_their_days() {
    // 30 days of November: 718,800 and 690,000 against 734,791.67.
    let book = two_open();
    assert_eq!(book.trial(2023, 11, 1, &reference()), Ok(0));
    assert_eq!(book.trial(2023, 12, 1, &reference()), Ok(1));
    // 28 days of February, 29 of a leap year.
    assert_eq!(book.trial(2023, 2, 1, &reference()), Ok(0));
    assert_eq!(book.trial(2024, 2, 1, &reference()), Ok(0));
    // 365 days against the whole of 8,817,500: 8,745,400. In a leap year 8,769,360.
    assert_eq!(book.trial(2022, 10, 12, &reference()), Ok(0));
    assert_eq!(book.trial(2023, 10, 12, &reference()), Ok(0));
    // July to September has 92 days, as October to December; July and August have 62.
    assert_eq!(book.trial(2023, 7, 3, &reference()), Ok(0));
    assert_eq!(book.trial(2023, 7, 2, &reference()), Ok(1));
}

#[test]
fn the_sheet_in_force_makes_none_fall() {
    let mut book = two_open();
    assert_eq!(book.trial(2023, 10, 3, &reference()), Ok(0));
    book.set(2023, 10, 3, &reference()).unwrap();
    assert_eq!(book.state(1), Some(State::Open));
    assert_eq!(book.state(2), Some(State::Open));
}

#[test]
fn the_new_fields_are_judged() {
    let book = two_open();
    // SMNCC 480,000: at nil 20,200 less by Other, that is 54.9 mills a day.
    let mut sheet = reference();
    sheet[36] = 480_000;
    assert_eq!(book.trial(2023, 10, 3, &sheet), Ok(1));
    // The last region's network cost alone, at nil: 2,079,375 against 2,116,000 at 23,000 a day.
    let mut sheet = reference();
    sheet[89] = 1_500_000;
    assert_eq!(book.trial(2023, 10, 3, &sheet), Ok(3));
    // Kinder: none.
    sheet[89] = 2_500_000;
    assert_eq!(book.trial(2023, 10, 3, &sheet), Ok(0));
}

#[test]
fn drafts_are_never_in_the_set() {
    let mut book = two_open();
    // A draft that is over the cap of any sheet, one that is within, and one that was open.
    book.put(3, &tariff(1, 1_000_000, &[200_000], &[])).unwrap();
    book.put(4, &tariff(1, 0, &[0], &[])).unwrap();
    book.put(5, &tariff(1, 23_960, &[18_000], &[])).unwrap();
    book.open(5).unwrap();
    assert_eq!(book.trial(2023, 10, 1, &reference()), Ok(0b10001));
    book.close(5).unwrap();
    assert_eq!(book.trial(2023, 10, 1, &reference()), Ok(1));
    book.close(1).unwrap();
    book.close(2).unwrap();
    assert_eq!(book.trial(2023, 10, 1, &reference()), Ok(0));
    // A draft within the cap of the sheet tried is not opened, nor named.
    assert_eq!(book.state(4), Some(State::Draft));
}

#[test]
fn without_a_sheet_in_force() {
    let mut book = Book::new();
    assert_eq!(book.trial(2023, 10, 1, &reference()), Ok(0));
    book.put(1, &tariff(1, 1_000_000, &[200_000], &[])).unwrap();
    assert_eq!(book.trial(2023, 10, 1, &reference()), Ok(0));
    // Still none.
    assert_eq!(book.t(), None);
    assert_eq!(number(book.benchmark(0, 0, 0, 0)), 10);
    assert_eq!(number(book.quote(1, 0, 0, &[0])), 10);
    assert_eq!(book.open(1).unwrap_err().number(), 10);
    assert_eq!(number(book.trial(2023, 10, 1, &[])), 1);
    assert_eq!(number(book.trial(2023, 13, 1, &reference())), 3);
}

#[test]
fn the_refusals_of_set_in_their_order() {
    let book = two_open();
    let before = seen(&book);
    let good = reference();
    let mut field = good.clone();
    field[5] = 100_000_001;
    let mut term = good.clone();
    (term[22], term[29]) = (1, 1_000_000_000);
    let mut falls = good.clone();
    falls[37] = 100_000_000;
    let mut both = term.clone();
    both[37] = 100_000_000;
    let long = [&field[..], &[0]].concat();

    for (year, month, t, fields, expected) in [
        (2023, 10, 3, &good[..95], 1),
        (0, 0, 0, &long[..], 1),
        (2023, 10, 3, &[][..], 1),
        (2023, 10, 3, &field[..], 2),
        (2017, 10, 3, &field[..], 2),
        (2017, 10, 3, &good[..], 3),
        (2100, 1, 1, &good[..], 3),
        (2023, 0, 3, &good[..], 3),
        (2023, 13, 3, &good[..], 3),
        (2023, 10, 0, &good[..], 3),
        (2023, 10, 13, &both[..], 3),
        (2023, 10, 3, &term[..], 4),
        (2023, 10, 3, &both[..], 4),
        (2023, 10, 3, &falls[..], 5),
    ] {
        assert_eq!(number(book.trial(year, month, t, fields)), expected);
        assert_eq!(number(book.clone().set(year, month, t, fields)), expected);
        assert_eq!(number(Book::new().trial(year, month, t, fields)), expected);
    }
    assert_eq!(seen(&book), before);
}

#[test]
fn each_place_has_its_bit() {
    for code in 1..=32 {
        let mut book = reference_book();
        for place in 1..=32 {
            let standing = if place == code { 23_960 } else { 23_000 };
            book.put(place, &tariff(1, standing, &[18_000], &[]))
                .unwrap();
            book.open(place).unwrap();
        }
        let set = book.trial(2023, 10, 1, &reference()).unwrap();
        assert_eq!(codes(set), [code]);
        // All of them, without network costs at nil: 1,704,375 for the quarter.
        let mut sheet = reference();
        for nil in (37..93).step_by(2) {
            sheet[nil] = 0;
        }
        assert_eq!(book.trial(2023, 10, 3, &sheet), Ok(4_294_967_295));
        assert_eq!(book.trial(2023, 10, 3, &reference()), Ok(0));
        if code == 32 {
            assert_eq!(set, 2_147_483_648);
        }
    }
}

#[test]
fn the_answer_is_what_set_does() {
    let mut book = reference_book();
    for code in 1..=32 {
        // 22,000 to 23,960 a day, the even codes first.
        let place = if code % 2 == 0 {
            code / 2
        } else {
            16 + code / 2
        };
        let record = tariff(1, 22_000 + 60 * place, &[18_000], &[]);
        book.put(code, &record).unwrap();
        if code % 5 != 0 {
            book.open(code).unwrap();
        }
    }
    let (mut some, mut none) = (0, 0);
    for month in 1..=12 {
        for t in 1..=12 {
            for smncc in [300_000, 480_000, 500_000, 520_000] {
                let mut sheet = reference();
                sheet[36] = smncc;
                let before = seen(&book);
                let answer = book.trial(2023, month, t, &sheet);
                assert_eq!(seen(&book), before);
                assert_eq!(answer, fallen_by_set(&book, 2023, month, t, &sheet));
                match answer.unwrap() {
                    0 => none += 1,
                    _ => some += 1,
                }
            }
        }
    }
    assert!(some > 100 && none > 100, "{some} and {none}");
}
