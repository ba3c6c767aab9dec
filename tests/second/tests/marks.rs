//! Opening by two people (M-106), on the reference sheet of document 01, its numbers written out by
//! hand, and on the books of random scripts.

mod common;

use common::{number, opened, reference, reference_book, seen, tariff, two_open, Verdict};
use second::desk::Desk;
use second::script::script;
use second::{Book, NotOpened, State, RECORD};

/// Within the cap of the reference sheet, in 28 cells.
fn low() -> [u32; RECORD] {
    tariff(1, 23_000, &[18_000], &[])
}

/// A mill over it.
fn high() -> [u32; RECORD] {
    tariff(1, 23_961, &[18_000], &[])
}

/// The reference sheet in force, and at code 1 a draft that is asked for.
fn marked() -> Book {
    let mut book = reference_book();
    book.put(1, &low()).unwrap();
    assert_eq!(book.ask(1), Ok(28));
    book
}

/// A sheet of 95 numbers, refused with 1.
fn refused_set(book: &mut Book) {
    assert_eq!(number(book.set(2023, 10, 3, &reference()[..95])), 1);
}

fn set(book: &mut Book) {
    book.set(2023, 10, 3, &reference()).unwrap();
}

fn asked(book: &mut Book, code: u32) -> u32 {
    book.ask(code).map_or_else(|why| why.number(), |_| 0)
}

// ASK.

#[test]
fn ask_does_the_checks_of_open() {
    let mut book = Book::new();
    book.put(1, &low()).unwrap();
    for (code, refusal) in [(0, 6), (33, 6), (u32::MAX, 6), (2, 9), (1, 10)] {
        assert_eq!(asked(&mut book, code), refusal, "code {code}");
    }
    set(&mut book);
    book.put(2, &high()).unwrap();
    let before = book.clone();
    let Err(NotOpened::OverCap(breach)) = book.ask(2) else {
        panic!("over the cap");
    };
    // 37 mills too much for 92 days, over 12,000 x 3,000.
    assert_eq!((breach.region, breach.method), (0, 1));
    assert_eq!(breach.excess, 1_332_000_000);
    assert_eq!(breach.months(), [0, 0, 0]);
    assert_eq!(book.open(2), Err(NotOpened::OverCap(breach)));
    assert_eq!(asked(&mut book, 3), 9);
    assert_eq!(book, before);
    assert_eq!(book.open(1), Ok(28));
    assert_eq!(asked(&mut book, 1), 7);
}

#[test]
fn ask_marks_the_draft_and_leaves_it_one() {
    let mut book = reference_book();
    book.put(1, &low()).unwrap();
    let before = seen(&book);
    assert!(!book.is_marked(1));
    assert_eq!(book.ask(1), Ok(28));
    assert!(book.is_marked(1));
    assert_eq!(book.state(1), Some(State::Draft));
    assert_eq!(seen(&book), before);
}

#[test]
fn a_refused_ask_marks_nothing() {
    let mut book = Book::new();
    book.put(1, &low()).unwrap();
    assert_eq!(asked(&mut book, 1), 10);
    assert_eq!(number(book.confirm(1)), 16);
    set(&mut book);
    assert_eq!(number(book.confirm(1)), 16);
    book.put(2, &high()).unwrap();
    assert_eq!(asked(&mut book, 2), 11);
    assert_eq!(number(book.confirm(2)), 16);
}

/// D1: no refusal is named for it.
#[test]
fn a_marked_draft_can_be_asked_for_again() {
    let mut book = marked();
    let before = book.clone();
    assert_eq!(book.ask(1), Ok(28));
    assert_eq!(book.ask(1), Ok(28));
    assert_eq!(book, before);
    assert_eq!(book.confirm(1), Ok(28));
}

// CONFIRM.

#[test]
fn confirm_opens_a_marked_draft() {
    let mut book = marked();
    assert_eq!(book.confirm(1), Ok(28));
    assert_eq!(book.state(1), Some(State::Open));
    // As after OPEN.
    let mut by_open = reference_book();
    by_open.put(1, &low()).unwrap();
    assert_eq!(by_open.open(1), Ok(28));
    assert_eq!(book, by_open);
    assert_eq!(asked(&mut book, 1), 7);
    assert_eq!(number(book.confirm(1)), 7);
    assert_eq!(number(book.put(1, &low())), 7);
    assert_eq!(number(book.drop_code(1)), 7);
    assert_eq!(number(book.close(1)), 0);
}

#[test]
fn an_open_tariff_has_no_mark() {
    for confirmed in [true, false] {
        let mut book = marked();
        if confirmed {
            book.confirm(1).unwrap();
        } else {
            book.open(1).unwrap();
        }
        assert!(!book.is_marked(1));
        // D3: it is not there again after CLOSE.
        book.close(1).unwrap();
        assert!(!book.is_marked(1));
        assert_eq!(number(book.confirm(1)), 16);
        // Nor if it falls.
        assert_eq!(book.open(1), Ok(28));
        let mut sheet = reference();
        sheet[37] = 0;
        book.set(2023, 10, 3, &sheet).unwrap();
        assert_eq!(book.state(1), Some(State::Draft));
        assert_eq!(number(book.confirm(1)), 16);
    }
}

/// D3.
#[test]
fn open_opens_a_marked_draft() {
    let mut book = marked();
    assert_eq!(book.open(1), Ok(28));
    assert_eq!(book.state(1), Some(State::Open));
    assert_eq!(book.open(1).unwrap_err().number(), 7);
}

#[test]
fn confirm_is_refused_with_6_9_7_and_then_16() {
    let mut book = two_open();
    book.put(4, &low()).unwrap();
    let before = book.clone();
    for (code, refusal) in [
        (0, 6),
        (33, 6),
        (u32::MAX, 6),
        (3, 9),
        (1, 7),
        (2, 7),
        (4, 16),
    ] {
        assert_eq!(number(book.confirm(code)), refusal, "code {code}");
    }
    assert_eq!(book, before);
}

/// D2: an unmarked draft is 16, with no sheet and over the cap too.
#[test]
fn confirm_tests_neither_10_nor_11() {
    let mut book = Book::new();
    book.put(1, &high()).unwrap();
    assert_eq!(number(book.confirm(1)), 16);
    set(&mut book);
    assert_eq!(number(book.confirm(1)), 16);
    assert_eq!(
        opened(&mut book, 1),
        Verdict::Over(0, 1, 1_332_000_000, vec![0, 0, 0])
    );
}

#[test]
fn both_answer_the_number_of_cells() {
    for (regions, methods, cells) in [(1, 1, 1), (16_383, 3, 28), (16_383, 2, 14), (5, 3, 4)] {
        let mut record = low();
        (record[3], record[4]) = (regions, methods);
        let mut book = reference_book();
        book.put(1, &record).unwrap();
        assert_eq!(book.clone().open(1), Ok(cells));
        assert_eq!(book.ask(1), Ok(cells));
        assert_eq!(book.ask(1), Ok(cells));
        assert_eq!(book.confirm(1), Ok(cells));
    }
}

// What clears a mark.

#[test]
fn an_accepted_set_clears_every_mark() {
    let mut other = reference();
    other[36] = 510_000;
    for (t, sheet) in [(3, reference()), (3, other), (1, reference())] {
        let mut book = reference_book();
        for code in 1..=32 {
            book.put(code, &low()).unwrap();
            book.ask(code).unwrap();
        }
        book.set(2023, 10, t, &sheet).unwrap();
        for code in 1..=32 {
            assert!(!book.is_marked(code));
            assert_eq!(number(book.confirm(code)), 16);
            // It could be opened.
            assert_eq!(opened(&mut book, code), Verdict::Opens(28));
        }
    }
}

#[test]
fn an_accepted_put_or_drop_clears_the_mark_of_its_code() {
    let mut book = marked();
    book.put(1, &low()).unwrap();
    assert_eq!(number(book.confirm(1)), 16);
    assert_eq!(book.ask(1), Ok(28));
    book.put(1, &high()).unwrap();
    assert_eq!(number(book.confirm(1)), 16);
    assert_eq!(book.state(1), Some(State::Draft));

    let mut book = marked();
    book.drop_code(1).unwrap();
    assert_eq!(number(book.confirm(1)), 9);
    book.put(1, &low()).unwrap();
    assert_eq!(number(book.confirm(1)), 16);
}

/// D4, and the calls that find a marked draft to be none of theirs.
#[test]
fn refused_calls_clear_no_mark() {
    type Refused = fn(&mut Book);
    let refused: [Refused; 9] = [
        refused_set,
        |book| assert_eq!(number(book.set(2023, 13, 3, &reference())), 3),
        |book| assert_eq!(number(book.put(1, &low()[..13])), 8),
        |book| assert_eq!(number(book.put(33, &low())), 6),
        |book| assert_eq!(number(book.close(1)), 12),
        |book| assert_eq!(number(book.drop_code(2)), 9),
        |book| assert_eq!(asked(book, 2), 9),
        |book| assert_eq!(number(book.confirm(2)), 9),
        |book| assert_eq!(number(book.undo()), 15),
    ];
    for call in refused {
        let mut book = marked();
        let before = book.clone();
        call(&mut book);
        assert_eq!(book, before);
        assert_eq!(book.confirm(1), Ok(28));
    }
}

#[test]
fn trials_and_questions_clear_no_mark() {
    let mut book = marked();
    let before = book.clone();
    assert_eq!(book.trial(2023, 10, 1, &reference()), Ok(0));
    assert_eq!(number(book.trial(2023, 13, 3, &reference())), 3);
    assert_eq!(book.benchmark(0, 0, 1, 0), Ok(8_817_500));
    assert_eq!(number(book.maximum(0, 0, 1, 300)), 0);
    assert_eq!(number(book.quote(1, 0, 1, &[0, 0, 0])), 0);
    assert_eq!(number(book.quote(1, 0, 1, &[0])), 13);
    assert_eq!(book, before);
    assert_eq!(book.confirm(1), Ok(28));
}

#[test]
fn calls_on_another_code_clear_no_mark() {
    for other in [2, 32] {
        let mut book = marked();
        book.put(other, &low()).unwrap();
        assert!(book.is_marked(1) && !book.is_marked(other));
        assert_eq!(number(book.confirm(other)), 16);
        book.put(other, &low()).unwrap();
        book.open(other).unwrap();
        book.close(other).unwrap();
        book.ask(other).unwrap();
        book.confirm(other).unwrap();
        book.close(other).unwrap();
        book.ask(other).unwrap();
        assert!(book.is_marked(1) && book.is_marked(other));
        book.drop_code(other).unwrap();
        assert!(book.is_marked(1));
        assert_eq!(book.confirm(1), Ok(28));
    }
}

/// A marked draft is a draft in all else.
#[test]
fn a_marked_draft_is_a_draft() {
    let mut book = marked();
    // Over the cap of a sheet without network costs at nil, but not open.
    let mut sheet = reference();
    for nil in (37..93).step_by(2) {
        sheet[nil] = 0;
    }
    assert_eq!(book.trial(2023, 10, 3, &sheet), Ok(0));
    let mut open = book.clone();
    open.confirm(1).unwrap();
    assert_eq!(open.trial(2023, 10, 3, &sheet), Ok(1));
    assert_eq!(
        book.quote(1, 0, 1, &[0, 0, 0]),
        open.quote(1, 0, 1, &[0, 0, 0])
    );
    assert_eq!(number(book.close(1)), 12);
    assert_eq!(number(book.clone().put(1, &high())), 0);
    assert_eq!(number(book.drop_code(1)), 0);
    assert_eq!(book.state(1), Some(State::Empty));
}

// UNDO.

/// D4: SET, PUT, ASK, SET, UNDO, CONFIRM.
#[test]
fn undo_brings_back_the_marks() {
    let mut book = marked();
    book.put(32, &low()).unwrap();
    book.ask(32).unwrap();
    book.put(2, &low()).unwrap();
    let before = book.clone();
    set(&mut book);
    assert_eq!(number(book.confirm(1)), 16);
    assert_eq!(number(book.confirm(32)), 16);
    assert_eq!(number(book.undo()), 0);
    assert_eq!(book, before);
    assert_eq!(book.confirm(1), Ok(28));
    assert_eq!(number(book.confirm(2)), 16);
    assert_eq!(book.confirm(32), Ok(28));
    assert_eq!(number(book.undo()), 15);
}

#[test]
fn undo_brings_back_marks_and_open_tariffs_together() {
    let mut book = two_open();
    book.put(3, &low()).unwrap();
    book.ask(3).unwrap();
    let before = book.clone();
    // October alone: code 1 falls.
    book.set(2023, 10, 1, &reference()).unwrap();
    assert_eq!(book.state(1), Some(State::Draft));
    assert!(!book.is_marked(1) && !book.is_marked(3));
    book.undo().unwrap();
    assert_eq!(book, before);
}

/// The marks of the book that it restores, and of none before that.
#[test]
fn undo_brings_back_no_older_mark() {
    let mut book = marked();
    set(&mut book);
    set(&mut book);
    assert_eq!(number(book.undo()), 0);
    assert_eq!(number(book.confirm(1)), 16);
    assert_eq!(number(book.undo()), 15);
}

#[test]
fn an_accepted_ask_ends_the_chance_to_undo() {
    for again in [false, true] {
        let mut book = reference_book();
        book.put(1, &low()).unwrap();
        set(&mut book);
        assert_eq!(book.clone().undo(), Ok(()));
        assert_eq!(book.ask(1), Ok(28));
        if again {
            assert_eq!(book.ask(1), Ok(28));
        }
        let before = book.clone();
        assert_eq!(number(book.undo()), 15);
        assert_eq!(book, before);
        // After CONFIRM there is none either, as after ASK.
        assert_eq!(book.confirm(1), Ok(28));
        assert_eq!(number(book.undo()), 15);
    }
}

#[test]
fn a_refused_ask_or_confirm_leaves_the_chance() {
    let mut book = two_open();
    let before = seen(&book);
    book.put(5, &low()).unwrap();
    book.drop_code(5).unwrap();
    book.set(2023, 10, 1, &reference()).unwrap();
    for (code, refusal) in [(0, 6), (33, 6), (3, 9), (2, 7), (1, 11)] {
        assert_eq!(asked(&mut book, code), refusal);
    }
    for (code, refusal) in [(0, 6), (33, 6), (3, 9), (2, 7), (1, 16)] {
        assert_eq!(number(book.confirm(code)), refusal);
    }
    assert_eq!(number(book.undo()), 0);
    assert_eq!(seen(&book), before);
}

// Books of random scripts.

/// Looks at the book before each line of random scripts.
fn each_book(seeds: std::ops::Range<u64>, mut look: impl FnMut(&Book)) {
    for seed in seeds {
        let mut desk = Desk::new();
        for line in script(seed, 2_000).split(|&byte| byte == b'\n') {
            look(desk.book());
            desk.line(line, &mut Vec::new());
        }
    }
}

/// The same answers, the figures of 11 among them, and the same book, the chance to UNDO included.
#[test]
fn open_is_ask_and_then_confirm() {
    let mut answers = [0; 17];
    let mut with_chance = 0;
    each_book(1..9, |book| {
        for code in [0, 1, 2, 7, 16, 31, 32, 33] {
            let (mut opened, mut asked) = (book.clone(), book.clone());
            let by_open = opened.open(code);
            let by_ask = asked.ask(code);
            assert_eq!(by_open, by_ask);
            if let Ok(cells) = by_ask {
                assert_eq!(asked.state(code), Some(State::Draft));
                assert_ne!(&asked, &opened);
                assert_eq!(asked.confirm(code), Ok(cells));
                with_chance += usize::from(book.clone().undo().is_ok());
            } else {
                assert_eq!(&asked, book);
            }
            assert_eq!(opened, asked);
            answers[by_open.map_or_else(|why| why.number(), |_| 0) as usize] += 1;
        }
    });
    for answer in [0, 6, 7, 9, 10, 11] {
        assert!(answers[answer] > 500, "{answers:?}");
    }
    assert!(with_chance > 100, "{with_chance}");
}

/// A marked draft is one that OPEN would open, and there is nothing to take back while there is a
/// mark. So it cannot be seen that CONFIRM does not test 10 and 11 after 16, nor that CONFIRM, and ASK
/// of a draft that is marked already, end the chance to UNDO.
#[test]
fn a_mark_stands_only_within_the_cap_and_with_nothing_to_take_back() {
    let (mut marks, mut without) = (0, 0);
    each_book(11..31, |book| {
        let codes: Vec<u32> = (0..=33).filter(|&code| book.is_marked(code)).collect();
        for &code in &codes {
            assert_eq!(book.state(code), Some(State::Draft));
            assert_eq!(
                book.clone().open(code),
                book.clone().confirm(code).map_err(NotOpened::from)
            );
            assert!(book.clone().open(code).is_ok());
        }
        if book.clone().undo().is_ok() {
            assert_eq!(codes, []);
            without += 1;
        }
        marks += codes.len();
    });
    assert!(marks > 5_000 && without > 500, "{marks} {without}");
}

/// What is open is within the cap, by whichever road it came: closed, it can be opened by either.
#[test]
fn what_is_open_is_within_the_cap() {
    let mut open = 0;
    each_book(21..25, |book| {
        for code in 1..=32 {
            if book.state(code) == Some(State::Open) {
                let mut closed = book.clone();
                closed.close(code).unwrap();
                assert!(!closed.is_marked(code));
                let cells = closed.clone().open(code).unwrap();
                assert_eq!(closed.ask(code), Ok(cells));
                assert_eq!(closed.confirm(code), Ok(cells));
                if book.clone().undo().is_err() {
                    assert_eq!(&closed, book);
                }
                open += 1;
            }
        }
    });
    assert!(open > 5_000, "{open}");
}

/// The whole book is as it was before SET.
#[test]
fn undo_restores_the_book_of_a_random_script() {
    let mut with_marks = 0;
    each_book(31..39, |book| {
        let mut changed = book.clone();
        set(&mut changed);
        changed.undo().unwrap();
        // A chance that was there before is gone.
        if book.clone().undo().is_err() {
            assert_eq!(&changed, book);
        }
        with_marks += usize::from((1..=32).any(|code| changed.is_marked(code)));
        for code in 1..=32 {
            assert_eq!(changed.is_marked(code), book.is_marked(code));
        }
    });
    assert!(with_marks > 1_000, "{with_marks}");
}
