//! Tariffs under a direction (M-108), on the reference sheet of document 01, its numbers written out by
//! hand, and on the books of random scripts.

mod common;

use common::{number, reference, reference_book, seen, tariff, ALL};
use second::desk::Desk;
use second::script::script;
use second::{Book, DeskRegions, NotOpened, State, RECORD};

/// Within the cap of the reference sheet, in 28 cells.
fn low() -> [u32; RECORD] {
    tariff(1, 23_000, &[18_000], &[])
}

/// A mill over it.
fn high() -> [u32; RECORD] {
    tariff(1, 23_961, &[18_000], &[])
}

/// The starred tariff of document 01 that is over the cap at 100 kWh a month and not at 300 in one.
fn tiered() -> [u32; RECORD] {
    tariff(1, 20_000, &[20_000, 15_000], &[100])
}

fn set(book: &mut Book) {
    book.set(2023, 10, 3, &reference()).unwrap();
}

/// The sheet under which 23,960 a day falls, and 23,000 does not.
fn tight() -> Vec<u32> {
    let mut sheet = reference();
    sheet[36] = 480_000;
    sheet
}

fn of_open(answer: Result<u32, NotOpened>) -> u32 {
    answer.map_or_else(|why| why.number(), |_| 0)
}

/// The reference sheet in force, and at code 1 a draft under a direction that is over the cap.
fn directed() -> Book {
    let mut book = reference_book();
    book.put(1, &high()).unwrap();
    book.direct(1).unwrap();
    book
}

/// The same, open.
fn directed_open() -> Book {
    let mut book = directed();
    assert_eq!(book.open(1), Ok(0));
    book
}

// DIRECT.

#[test]
fn the_starred_tariff_opens_under_a_direction() {
    let mut book = reference_book();
    book.put(1, &tiered()).unwrap();
    let Err(NotOpened::OverCap(breach)) = book.open(1) else {
        panic!("over the cap");
    };
    assert_eq!(breach.excess, 2_535_300_000_000);
    assert_eq!(breach.months(), [100, 100, 100]);
    assert_eq!(book.direct(1), Ok(()));
    assert_eq!(book.open(1), Ok(0));
    assert_eq!(book.state(1), Some(State::Open));
}

#[test]
fn direct_checks_the_code_the_place_and_its_state() {
    let mut book = reference_book();
    book.put(1, &high()).unwrap();
    book.put(2, &low()).unwrap();
    book.open(2).unwrap();
    let before = book.clone();
    for (code, refusal) in [(0, 6), (33, 6), (257, 6), (u32::MAX, 6), (3, 9), (2, 7)] {
        assert_eq!(number(book.direct(code)), refusal, "code {code}");
        assert_eq!(book, before);
    }
    // An open one under a direction is refused too.
    book.direct(1).unwrap();
    book.open(1).unwrap();
    assert_eq!(number(book.direct(1)), 7);
}

#[test]
fn seventeen_comes_first_and_only_all_fourteen_may_give_one() {
    let mut book = reference_book();
    // Regions 0 and 1, inside most of the desks.
    let mut own = high();
    own[3] = 3;
    book.put(1, &own).unwrap();
    book.put(2, &low()).unwrap();
    book.open(2).unwrap();
    let before = book.clone();
    let desks = [
        0,
        1,
        3,
        16_382,
        8_191,
        16_384,
        32_767,
        65_536 | ALL,
        u32::MAX,
    ];
    for desk in desks {
        for code in [0, 33, 3, 2, 1] {
            let answer = book.direct_by(DeskRegions::new(desk), code);
            assert_eq!(number(answer), 17, "desk {desk}, code {code}");
            assert_eq!(book, before);
        }
    }
    assert_eq!(book.direct_by(DeskRegions::new(ALL), 1), Ok(()));
}

#[test]
fn a_direction_needs_no_sheet_and_can_be_given_again() {
    let mut book = Book::new();
    book.put(1, &high()).unwrap();
    assert_eq!(book.direct(1), Ok(()));
    let once = book.clone();
    // F1: no refusal is named for it.
    assert_eq!(book.direct(1), Ok(()));
    assert_eq!(book, once);
    assert!(book.is_directed(1));
    assert_eq!(book.state(1), Some(State::Draft));
}

#[test]
fn each_code_has_its_own_direction() {
    let mut book = reference_book();
    for code in 1..=32 {
        book.put(code, &high()).unwrap();
    }
    for code in 1..=32 {
        let mut one = book.clone();
        one.direct(code).unwrap();
        for other in 1..=32 {
            assert_eq!(one.is_directed(other), other == code);
            let answer = of_open(one.open(other));
            assert_eq!(answer, if other == code { 0 } else { 11 });
        }
    }
    assert!(!book.is_directed(0) && !book.is_directed(33));
}

/// Nothing else of the book is another.
#[test]
fn questions_are_answered_as_without_one() {
    let mut book = reference_book();
    book.put(1, &tiered()).unwrap();
    let before = seen(&book);
    book.direct(1).unwrap();
    assert_eq!(seen(&book), before);
    let mut open = book.clone();
    open.open(1).unwrap();
    let quote = open.quote(1, 0, 1, &[100; 3]).unwrap();
    assert_eq!(quote.charge, 282_240_000_000_000);
    assert_eq!(quote.maximum, 279_704_700_000_000);
}

// OPEN, ASK and CONFIRM.

#[test]
fn open_and_ask_skip_eleven_and_nothing_else() {
    let mut book = Book::new();
    book.put(1, &high()).unwrap();
    book.direct(1).unwrap();
    // F2: no sheet.
    assert_eq!(of_open(book.open(1)), 10);
    assert_eq!(of_open(book.ask(1)), 10);
    assert_eq!(number(book.confirm(1)), 16);
    set(&mut book);
    let part = DeskRegions::new(1);
    assert_eq!(of_open(book.open_by(part, 1)), 17);
    assert_eq!(of_open(book.ask_by(part, 1)), 17);
    assert_eq!(number(book.confirm(1)), 16);
    assert_eq!(book.ask(1), Ok(0));
    assert_eq!(book.confirm(1), Ok(0));
    assert_eq!(of_open(book.open(1)), 7);
    assert_eq!(of_open(book.ask(1)), 7);
    assert_eq!(number(book.confirm(1)), 7);
}

#[test]
fn the_cells_are_0_within_the_cap_too() {
    let mut book = reference_book();
    book.put(1, &low()).unwrap();
    book.direct(1).unwrap();
    assert_eq!(book.ask(1), Ok(0));
    assert_eq!(book.confirm(1), Ok(0));
    book.close(1).unwrap();
    assert_eq!(book.open(1), Ok(0));
}

/// F3: what counts is the direction at CONFIRM.
#[test]
fn a_direction_between_ask_and_confirm() {
    let mut book = reference_book();
    book.put(1, &low()).unwrap();
    assert_eq!(book.ask(1), Ok(28));
    book.direct(1).unwrap();
    assert!(book.is_marked(1));
    assert_eq!(book.confirm(1), Ok(0));
    assert_eq!(book.state(1), Some(State::Open));
}

#[test]
fn giving_one_leaves_a_mark_as_it_is() {
    let mut book = reference_book();
    book.put(1, &low()).unwrap();
    book.put(2, &low()).unwrap();
    book.ask(1).unwrap();
    book.direct(1).unwrap();
    book.direct(2).unwrap();
    assert!(book.is_marked(1) && !book.is_marked(2));
    assert_eq!(number(book.confirm(2)), 16);
    assert_eq!(book.confirm(1), Ok(0));
}

#[test]
fn open_is_ask_and_confirm() {
    for record in [low(), high(), tiered()] {
        let mut book = reference_book();
        book.put(1, &record).unwrap();
        book.direct(1).unwrap();
        let mut by_two = book.clone();
        assert_eq!(by_two.ask(1), Ok(0));
        assert_eq!(by_two.confirm(1), Ok(0));
        assert_eq!(book.open(1), Ok(0));
        assert_eq!(book, by_two);
    }
}

/// A desk may use a tariff under a direction if it is offered in the desk's regions alone.
#[test]
fn a_part_desk_uses_its_own_tariff_under_a_direction() {
    let own = DeskRegions::new(3);
    let mut record = high();
    record[3] = 3;
    let mut book = reference_book();
    book.put_by(own, 1, &record).unwrap();
    assert_eq!(of_open(book.open_by(own, 1)), 11);
    book.direct(1).unwrap();
    assert_eq!(book.ask_by(own, 1), Ok(0));
    assert_eq!(book.confirm_by(own, 1), Ok(0));
    assert_eq!(book.close_by(own, 1), Ok(()));
    assert_eq!(book.open_by(own, 1), Ok(0));
    book.close_by(own, 1).unwrap();
    // It can end the direction, and cannot give it again.
    let mut dropped = book.clone();
    dropped.drop_code_by(own, 1).unwrap();
    book.put_by(own, 1, &record).unwrap();
    for mut book in [book, dropped] {
        assert!(!book.is_directed(1));
        assert_eq!(number(book.direct_by(own, 1)), 17);
    }
}

// SET, TRIAL and UNDO.

#[test]
fn set_leaves_it_open_and_trial_does_not_count_it() {
    let mut book = directed_open();
    book.put(2, &tariff(1, 23_960, &[18_000], &[])).unwrap();
    book.open(2).unwrap();
    book.put(3, &low()).unwrap();
    book.direct(3).unwrap();
    assert_eq!(book.open(3), Ok(0));
    // 2 alone falls; 1 was over the cap before, and 3 is within it.
    assert_eq!(book.trial(2023, 10, 3, &tight()), Ok(2));
    book.set(2023, 10, 3, &tight()).unwrap();
    let states = [1, 2, 3].map(|code| book.state(code).unwrap());
    assert_eq!(states, [State::Open, State::Draft, State::Open]);
    // And through a sheet of nothing, for a year.
    let mut nothing = reference();
    nothing[..22].fill(0);
    nothing[36..93].fill(0);
    assert_eq!(book.trial(2024, 1, 12, &nothing), Ok(0));
    book.set(2024, 1, 12, &nothing).unwrap();
    assert_eq!(book.state(1), Some(State::Open));
    assert_eq!(book.state(3), Some(State::Open));
}

/// F5: it is the direction at the time of the SET that counts.
#[test]
fn a_direction_after_a_fall_brings_nothing_back() {
    let mut book = reference_book();
    book.put(1, &tariff(1, 23_960, &[18_000], &[])).unwrap();
    book.open(1).unwrap();
    book.set(2023, 10, 3, &tight()).unwrap();
    assert_eq!(book.state(1), Some(State::Draft));
    book.direct(1).unwrap();
    assert_eq!(book.state(1), Some(State::Draft));
    assert_eq!(number(book.close(1)), 12);
    // It has to be opened, and no sheet makes it a draft from then on.
    set(&mut book);
    assert_eq!(book.state(1), Some(State::Draft));
    assert_eq!(book.open(1), Ok(0));
    book.set(2023, 10, 3, &tight()).unwrap();
    assert_eq!(book.state(1), Some(State::Open));
}

/// F6, D4.
#[test]
fn set_clears_the_mark_of_a_directed_draft() {
    let mut book = directed();
    assert_eq!(book.ask(1), Ok(0));
    set(&mut book);
    assert_eq!(number(book.confirm(1)), 16);
    assert!(book.is_directed(1));
    assert_eq!(book.undo(), Ok(()));
    assert_eq!(book.confirm(1), Ok(0));
}

#[test]
fn giving_one_ends_the_chance_to_undo() {
    for again in [false, true] {
        let mut book = Book::new();
        book.put(1, &low()).unwrap();
        if again {
            book.direct(1).unwrap();
        }
        set(&mut book);
        book.direct(1).unwrap();
        assert_eq!(number(book.undo()), 15);
    }
    // A refused one does not.
    let mut book = Book::new();
    book.put(1, &low()).unwrap();
    set(&mut book);
    for (desk, code) in [(ALL, 0), (ALL, 2), (1, 1), (0, 1)] {
        assert!(book.direct_by(DeskRegions::new(desk), code).is_err());
    }
    assert_eq!(book.undo(), Ok(()));
    assert_eq!(book.t(), None);
}

/// F4: there is nothing for UNDO to bring back or take away.
#[test]
fn undo_keeps_the_direction() {
    let mut book = directed_open();
    book.put(2, &tariff(1, 23_960, &[18_000], &[])).unwrap();
    book.open(2).unwrap();
    book.put(3, &high()).unwrap();
    book.direct(3).unwrap();
    let before = book.clone();
    book.set(2023, 10, 3, &tight()).unwrap();
    assert_eq!(book.undo(), Ok(()));
    assert_eq!(book, before);
    assert!(book.is_directed(1) && book.is_directed(3));
    assert_eq!(book.state(2), Some(State::Open));
    // What fell and came back is not under a direction.
    assert!(!book.is_directed(2));
    book.set(2023, 10, 3, &tight()).unwrap();
    assert_eq!(book.state(2), Some(State::Draft));
}

// What keeps a direction, and what ends it.

#[test]
fn close_set_undo_ask_open_and_confirm_keep_it() {
    let mut book = directed();
    for _ in 0..2 {
        assert_eq!(book.ask(1), Ok(0));
        assert_eq!(book.confirm(1), Ok(0));
        set(&mut book);
        book.undo().unwrap();
        set(&mut book);
        book.close(1).unwrap();
        assert!(book.is_directed(1));
        assert_eq!(book.open(1), Ok(0));
        book.close(1).unwrap();
        set(&mut book);
        assert!(book.is_directed(1));
    }
}

#[test]
fn refused_calls_keep_it() {
    let mut book = directed_open();
    assert_eq!(number(book.put(1, &low())), 7);
    assert_eq!(number(book.drop_code(1)), 7);
    assert!(book.is_directed(1));
    book.close(1).unwrap();
    let part = DeskRegions::new(1);
    assert_eq!(number(book.put(1, &low()[..26])), 8);
    assert_eq!(number(book.put_by(part, 1, &low())), 17);
    assert_eq!(number(book.drop_code_by(part, 1)), 17);
    assert_eq!(number(book.close(1)), 12);
    assert!(book.is_directed(1));
    assert_eq!(book.open(1), Ok(0));
}

#[test]
fn put_and_drop_end_it() {
    // The same tariff again is a tariff without a direction.
    let mut book = directed();
    book.put(1, &high()).unwrap();
    assert_eq!(of_open(book.open(1)), 11);
    let mut book = directed();
    book.drop_code(1).unwrap();
    assert_eq!(number(book.direct(1)), 9);
    book.put(1, &high()).unwrap();
    assert!(!book.is_directed(1));
    assert_eq!(of_open(book.ask(1)), 11);
    // The cells are there again too.
    book.put(1, &low()).unwrap();
    assert_eq!(book.open(1), Ok(28));
    // Those of another code are not ended.
    let mut book = directed();
    book.put(2, &low()).unwrap();
    book.drop_code(2).unwrap();
    assert!(book.is_directed(1));
}

/// On the books of random scripts: what DIRECT changes of a draft, and OPEN under a direction.
#[test]
fn random_books_under_directions() {
    let mut tried = 0;
    for seed in 1..=4 {
        let mut desk = Desk::new();
        let script = script(seed, 3_000);
        for (place, line) in script.split(|&byte| byte == b'\n').enumerate() {
            desk.line(line, &mut Vec::new());
            if place % 25 > 0 {
                continue;
            }
            for code in 1..=32 {
                let mut book = desk.book().clone();
                let draft = book.state(code) == Some(State::Draft);
                let before = seen(&book);
                let (marked, over) = (book.is_marked(code), of_open(book.clone().open(code)));
                assert_eq!(book.direct(code).is_ok(), draft);
                assert_eq!(seen(&book), before);
                assert_eq!(book.is_marked(code), marked);
                if !draft {
                    assert_eq!(&book, desk.book());
                    continue;
                }
                tried += 1;
                assert!(book.is_directed(code));
                assert_eq!(number(book.undo()), 15);
                match (over, book.t()) {
                    (10, None) => assert_eq!(of_open(book.open(code)), 10),
                    (0 | 11, Some(_)) => assert_eq!(book.open(code), Ok(0)),
                    other => panic!("{other:?}"),
                }
            }
        }
    }
    assert!(tried > 2_000, "{tried}");
}
