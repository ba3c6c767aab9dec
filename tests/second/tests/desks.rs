//! Desks with regions (M-107), on the reference sheet of document 01, its numbers written out by hand,
//! and on the books of random scripts.
//!
//! The desk of these tests has regions 0 and 1, and so has the tariff that is its own.

mod common;

use common::{number, reference, reference_book, tariff, ALL};
use second::desk::Desk;
use second::random::Random;
use second::script::{script, two_books, Line, Said};
use second::{Book, DeskRegions, NotOpened, Refusal, State, Tariff, RECORD};

/// Regions 0 and 1.
const OWN: u32 = 3;

/// Desks in which a tariff of regions 0 and 1 is not: none, one of the two regions, all others, and
/// sets with a higher bit that have both.
const OUTSIDE: [u32; 12] = [
    0,
    1,
    2,
    4,
    16_380,
    16_381,
    16_384,
    OWN | 16_384,
    32_767,
    65_536 | ALL,
    1 << 31 | OWN,
    u32::MAX,
];

/// Desks in which it is: just these regions, one more, all but one, all.
const INSIDE: [u32; 4] = [OWN, 7, ALL & !(1 << 13), ALL];

fn desk(set: u32) -> DeskRegions {
    DeskRegions::new(set)
}

/// A flat tariff in these regions: within the cap of the reference sheet up to 23,960 a day.
fn flat(regions: u32, standing: u32) -> [u32; RECORD] {
    let mut record = tariff(1, standing, &[18_000], &[]);
    record[3] = regions;
    record
}

fn low(regions: u32) -> [u32; RECORD] {
    flat(regions, 23_000)
}

fn high(regions: u32) -> [u32; RECORD] {
    flat(regions, 23_961)
}

fn of_open(answer: Result<u32, NotOpened>) -> u32 {
    answer.map_or_else(|why| why.number(), |_| 0)
}

/// The reference sheet in force, and at code 1 the desk's own tariff as a draft.
fn with_draft() -> Book {
    let mut book = reference_book();
    book.put(1, &low(OWN)).unwrap();
    book
}

fn with_mark() -> Book {
    let mut book = with_draft();
    book.ask(1).unwrap();
    book
}

fn with_open() -> Book {
    let mut book = with_draft();
    book.open(1).unwrap();
    book
}

/// Looks that the call leaves the book as it is.
fn unchanged(book: &mut Book, call: impl FnOnce(&mut Book) -> u32) -> u32 {
    let before = book.clone();
    let answer = call(book);
    assert_eq!(*book, before);
    answer
}

// The set.

#[test]
fn only_16383_has_all_fourteen() {
    for set in (0..=20).chain(16_000..=17_000).chain(OUTSIDE) {
        assert_eq!(desk(set).has_all(), set == 16_383, "{set}");
    }
    assert!(!desk(32_767).has_all());
    assert!(!desk(65_536 + 16_383).has_all());
    assert_eq!(desk(16_383), DeskRegions::ALL);
}

#[test]
fn a_set_holds_its_own_regions_alone() {
    for set in 1..=ALL {
        for region in 0..14 {
            assert_eq!(desk(set).hold(1 << region), set >> region & 1 == 1);
        }
        assert!(desk(set).hold(set));
        assert!(desk(ALL).hold(set));
        assert!(!desk(0).hold(set));
        assert!(!desk(32_767).hold(set));
        assert!(!desk(1 << 14 | set).hold(set));
        assert!(!desk(1 << 31 | set).hold(set));
        assert_eq!(desk(set).hold(ALL), set == ALL);
    }
}

// SET, TRIAL and UNDO: 17, then the others.

/// A sheet for each answer of SET: 0, or the refusal that it deserves.
fn sheets() -> Vec<(u32, u32, Vec<u32>)> {
    let with = |changes: &[(usize, u32)]| {
        let mut sheet = reference();
        for &(field, word) in changes {
            sheet[field] = word;
        }
        sheet
    };
    vec![
        (0, 10, reference()),
        (1, 10, reference()[..95].to_vec()),
        (2, 10, with(&[(93, 0)])),
        (3, 13, reference()),
        (4, 10, with(&[(1, 100_000_000)])),
        (14, 10, with(&[(36, 4_289_717_295)])),
        (5, 10, with(&[(37, 100_000_000)])),
    ]
}

#[test]
fn set_and_trial_are_for_the_desk_with_all_fourteen() {
    for set in OUTSIDE.into_iter().chain([OWN, ALL & !1, ALL - 1]) {
        for (answer, month, fields) in sheets() {
            for mut book in [Book::new(), with_mark(), with_open()] {
                let by_set =
                    |book: &mut Book| number(book.set_by(desk(set), 2023, month, 3, &fields));
                assert_eq!(unchanged(&mut book, by_set), 17, "desk {set}");
                let by_trial = number(book.trial_by(desk(set), 2023, month, 3, &fields));
                assert_eq!(by_trial, 17, "desk {set}");
                let all = DeskRegions::ALL;
                assert_eq!(number(book.trial_by(all, 2023, month, 3, &fields)), answer);
                assert_eq!(number(book.set_by(all, 2023, month, 3, &fields)), answer);
            }
        }
    }
}

#[test]
fn undo_is_refused_with_17_and_then_15() {
    for set in OUTSIDE.into_iter().chain([OWN, ALL & !1, ALL - 1]) {
        let by_desk = |book: &mut Book| number(book.undo_by(desk(set)));
        // Nothing to take back.
        for mut book in [Book::new(), with_mark(), with_open()] {
            assert_eq!(unchanged(&mut book, by_desk), 17, "desk {set}");
            assert_eq!(number(book.undo()), 15);
        }
        let mut book = with_mark();
        book.set(2023, 10, 1, &reference()).unwrap();
        assert_eq!(unchanged(&mut book, by_desk), 17, "desk {set}");
        // It can still be taken back by the desk with all fourteen.
        assert_eq!(number(book.undo_by(DeskRegions::ALL)), 0);
        assert_eq!(book, with_mark());
    }
}

// PUT: 6, 7, 8, 17.

#[test]
fn put_is_refused_with_6_7_8_and_then_17() {
    let bad = &low(OWN)[..13];
    let mut record = low(OWN);
    record[3] = 0;
    for set in OUTSIDE {
        for bad in [bad, &[], &record] {
            let put = |mut book: Book, code: u32, record: &[u32]| {
                let by_desk = |book: &mut Book| number(book.put_by(desk(set), code, record));
                unchanged(&mut book, by_desk)
            };
            for code in [0, 33, u32::MAX] {
                assert_eq!(put(with_draft(), code, &low(OWN)), 6, "desk {set}");
                assert_eq!(put(with_draft(), code, bad), 6, "desk {set}");
            }
            // At an open place of another desk.
            assert_eq!(put(with_open(), 1, &low(OWN)), 7, "desk {set}");
            assert_eq!(put(with_open(), 1, bad), 7, "desk {set}");
            // No tariff, at an empty place and over a draft of another desk.
            for code in [1, 2] {
                assert_eq!(put(with_draft(), code, bad), 8, "desk {set}");
                assert_eq!(put(with_draft(), code, &low(OWN)), 17, "desk {set}");
            }
        }
    }
    for set in INSIDE {
        let put = |mut book: Book, code: u32, record: &[u32]| {
            number(book.put_by(desk(set), code, record))
        };
        assert_eq!(put(with_draft(), 33, &low(OWN)), 6);
        assert_eq!(put(with_open(), 1, &low(OWN)), 7);
        assert_eq!(put(with_draft(), 1, bad), 8);
        assert_eq!(put(with_draft(), 1, &low(OWN)), 0);
        assert_eq!(put(with_draft(), 2, &low(OWN)), 0);
    }
}

/// E3: both have to lie in the desk, and at an empty place the new one.
#[test]
fn put_looks_at_the_old_draft_and_the_new_tariff() {
    // Inside, exactly, half inside, wider and outside.
    let sorts = [(1, true), (3, true), (6, false), (7, false), (8, false)];
    for (new, new_inside) in sorts {
        for (old, old_inside) in sorts {
            let mut book = reference_book();
            book.put(1, &low(old)).unwrap();
            let answer = number(book.put_by(desk(OWN), 1, &high(new)));
            let right = if new_inside && old_inside { 0 } else { 17 };
            assert_eq!(answer, right, "{old} {new}");
            // A place that is open is 7, whoever has it, and closed again it is as before.
            let mut book = reference_book();
            book.put(1, &low(old)).unwrap();
            book.open(1).unwrap();
            assert_eq!(number(book.put_by(desk(OWN), 1, &high(new))), 7);
            book.close(1).unwrap();
            assert_eq!(number(book.put_by(desk(OWN), 1, &high(new))), right);
        }
        let mut book = reference_book();
        let right = if new_inside { 0 } else { 17 };
        assert_eq!(number(book.put_by(desk(OWN), 1, &low(new))), right);
        // An old draft that was dropped does not count.
        let mut book = reference_book();
        book.put(1, &low(8)).unwrap();
        book.drop_code(1).unwrap();
        assert_eq!(number(book.put_by(desk(OWN), 1, &low(new))), right);
    }
}

// OPEN and ASK: 6, 9, 17, 7, 10, 11.

#[test]
fn open_and_ask_are_refused_with_6_9_17_7_10_and_then_11() {
    type Call = fn(&mut Book, DeskRegions, u32) -> Result<u32, NotOpened>;
    let calls: [Call; 2] = [Book::open_by, Book::ask_by];
    let mut no_sheet = Book::new();
    no_sheet.put(1, &low(OWN)).unwrap();
    let mut over = reference_book();
    over.put(1, &high(OWN)).unwrap();
    let books = [
        (with_open(), 7),
        (no_sheet, 10),
        (over, 11),
        (with_draft(), 0),
        (with_mark(), 0),
    ];
    for call in calls {
        for (book, to_all) in &books {
            for set in OUTSIDE {
                let by_desk = |code: u32| {
                    let call = |book: &mut Book| of_open(call(book, desk(set), code));
                    unchanged(&mut book.clone(), call)
                };
                for code in [0, 33, u32::MAX] {
                    assert_eq!(by_desk(code), 6, "desk {set}");
                }
                assert_eq!(by_desk(2), 9, "desk {set}");
                assert_eq!(by_desk(1), 17, "desk {set}");
            }
            for set in INSIDE {
                let by_desk = |code: u32| of_open(call(&mut book.clone(), desk(set), code));
                assert_eq!(by_desk(33), 6);
                assert_eq!(by_desk(2), 9);
                assert_eq!(by_desk(1), *to_all);
                // The figures of 11 too.
                let (mut one, mut other) = (book.clone(), book.clone());
                assert_eq!(call(&mut one, desk(set), 1), call(&mut other, desk(ALL), 1));
                assert_eq!(one, other);
            }
        }
    }
}

/// E7: the number of cells is the product, as for the desk with all fourteen.
#[test]
fn a_part_desk_is_told_the_number_of_cells() {
    for (regions, methods, cells) in [(1, 1, 1), (3, 3, 4), (2, 3, 2), (3, 2, 2)] {
        let mut record = low(regions);
        record[4] = methods;
        let mut book = reference_book();
        book.put_by(desk(OWN), 1, &record).unwrap();
        assert_eq!(book.clone().open_by(desk(OWN), 1), Ok(cells));
        assert_eq!(book.ask_by(desk(OWN), 1), Ok(cells));
        assert_eq!(book.confirm_by(desk(OWN), 1), Ok(cells));
    }
}

// CONFIRM: 6, 9, 17, 7, 16. CLOSE: 6, 9, 17, 12. DROP: 6, 9, 17, 7.

#[test]
fn confirm_close_and_drop_are_refused_with_6_9_17_and_then_the_others() {
    type Call = fn(&mut Book, DeskRegions, u32) -> Result<(), Refusal>;
    let confirm: Call = |book, desk, code| book.confirm_by(desk, code).map(drop);
    // What the desk with all fourteen is answered of a draft, a marked one and an open one.
    let calls: [(Call, [u32; 3]); 3] = [
        (confirm, [16, 0, 7]),
        (Book::close_by, [12, 12, 0]),
        (Book::drop_code_by, [0, 0, 7]),
    ];
    let mut no_sheet = Book::new();
    no_sheet.put(1, &low(OWN)).unwrap();
    let books = [
        (with_draft(), 0),
        (no_sheet, 0),
        (with_mark(), 1),
        (with_open(), 2),
    ];
    for (call, to_all) in calls {
        for (book, sort) in &books {
            for set in OUTSIDE {
                let by_desk = |code: u32| {
                    let call = |book: &mut Book| number(call(book, desk(set), code));
                    unchanged(&mut book.clone(), call)
                };
                for code in [0, 33, u32::MAX] {
                    assert_eq!(by_desk(code), 6, "desk {set}");
                }
                assert_eq!(by_desk(2), 9, "desk {set}");
                assert_eq!(by_desk(1), 17, "desk {set}");
            }
            for set in INSIDE {
                let by_desk = |code: u32| number(call(&mut book.clone(), desk(set), code));
                assert_eq!(by_desk(33), 6);
                assert_eq!(by_desk(2), 9);
                assert_eq!(by_desk(1), to_all[*sort]);
            }
        }
    }
}

// BENCHMARK and MAXIMUM: 13, 17, 10.

#[test]
fn benchmark_and_maximum_are_refused_with_13_17_and_then_10() {
    let bad = [
        [14, 0, 0, 0],
        [0, 2, 0, 0],
        [0, 0, 2, 0],
        [0, 0, 0, 120_001],
        [u32::MAX, 0, 0, 0],
    ];
    for book in [Book::new(), reference_book()] {
        let benchmark = |set: u32, [region, arrangement, method, level]: [u32; 4]| {
            number(book.benchmark_by(desk(set), region, arrangement, method, level))
        };
        let maximum = |set: u32, [region, arrangement, method, total]: [u32; 4]| {
            number(book.maximum_by(desk(set), region, arrangement, method, total))
        };
        let to_all = if book.t().is_none() { 10 } else { 0 };
        for set in OUTSIDE.into_iter().chain(INSIDE) {
            for numbers in bad {
                assert_eq!(benchmark(set, numbers), 13, "desk {set}");
                assert_eq!(maximum(set, numbers), 13, "desk {set}");
            }
            for region in 0..14 {
                let own = (1..=ALL).contains(&set) && set >> region & 1 == 1;
                let right = if own { to_all } else { 17 };
                assert_eq!(benchmark(set, [region, 0, 1, 1]), right, "desk {set}");
                assert_eq!(maximum(set, [region, 1, 0, 120_000]), right, "desk {set}");
            }
        }
    }
}

/// E4: one region is all that they need.
#[test]
fn one_region_is_enough_for_its_questions() {
    let mut sheet = reference();
    for region in 0..14 {
        sheet[37 + 4 * region] += region as u32;
    }
    let mut book = Book::new();
    book.set(2023, 10, 3, &sheet).unwrap();
    for region in 0..14 {
        let alone = desk(1 << region);
        let others = desk(ALL & !(1 << region));
        // 8,817,500 on the reference sheet.
        let right = Ok(8_817_500 + region);
        assert_eq!(book.benchmark_by(alone, region, 0, 1, 0), right);
        assert_eq!(book.benchmark_by(DeskRegions::ALL, region, 0, 1, 0), right);
        assert_eq!(number(book.benchmark_by(others, region, 0, 1, 0)), 17);
        assert_eq!(number(book.maximum_by(others, region, 0, 1, 0)), 17);
        for other in (0..14).filter(|&other| other != region) {
            assert_eq!(number(book.benchmark_by(alone, other, 0, 1, 0)), 17);
            assert_eq!(number(book.maximum_by(alone, other, 0, 1, 0)), 17);
            let right = Ok(8_817_500 + other);
            assert_eq!(book.benchmark_by(others, other, 0, 1, 0), right);
        }
    }
}

// QUOTE: 6, 9, 10, 13, 17.

#[test]
fn quote_is_refused_with_6_9_10_13_and_then_17() {
    let mut no_sheet = Book::new();
    no_sheet.put(1, &low(OWN)).unwrap();
    let months: &[u32] = &[0, 0, 0];
    for book in [&with_draft(), &with_mark(), &with_open(), &no_sheet] {
        let bare = book.t().is_none();
        for set in OUTSIDE.into_iter().chain(INSIDE) {
            let quote = |code: u32, region: u32, method: u32, months: &[u32]| {
                number(book.quote_by(desk(set), code, region, method, months))
            };
            for code in [0, 33, u32::MAX] {
                assert_eq!(quote(code, 0, 1, months), 6, "desk {set}");
                assert_eq!(quote(code, 14, 2, &[]), 6, "desk {set}");
            }
            assert_eq!(quote(2, 0, 1, months), 9, "desk {set}");
            assert_eq!(quote(2, 14, 2, &[]), 9, "desk {set}");
            let right = if bare { 10 } else { 13 };
            for (region, method, months) in [
                (2, 1, months),
                (13, 1, months),
                (14, 1, months),
                (u32::MAX, 1, months),
                (0, 2, months),
                (0, 1, &[0, 0]),
                (0, 1, &[0, 0, 0, 0]),
                (0, 1, &[0, 10_001, 0]),
            ] {
                assert_eq!(quote(1, region, method, months), right, "desk {set}");
            }
            for region in [0, 1] {
                let right = match (bare, OUTSIDE.contains(&set)) {
                    (true, _) => 10,
                    (_, true) => 17,
                    _ => 0,
                };
                assert_eq!(quote(1, region, 1, months), right, "desk {set}");
            }
        }
    }
}

/// The tariff has to lie in the desk, and not the quoted region alone.
#[test]
fn a_quote_of_a_tariff_half_inside_is_outside() {
    let mut book = with_draft();
    let months = [0, 0, 0];
    for (set, region) in [(1, 0), (2, 1), (1, 1), (2, 0), (ALL & !1, 1)] {
        let quote = book.quote_by(desk(set), 1, region, 1, &months);
        assert_eq!(number(quote), 17, "desk {set}, region {region}");
    }
    book.put(1, &low(1)).unwrap();
    let own = book.quote_by(desk(1), 1, 0, 1, &months);
    assert_eq!(own, book.quote(1, 0, 1, &months));
    assert_eq!(number(own), 0);
}

// Desks that work on one book.

#[test]
fn one_desk_asks_and_another_confirms() {
    for asks in INSIDE {
        for confirms in INSIDE {
            let mut book = with_draft();
            assert_eq!(book.ask_by(desk(asks), 1), Ok(4));
            for set in OUTSIDE {
                let by_desk = |book: &mut Book| number(book.confirm_by(desk(set), 1));
                assert_eq!(unchanged(&mut book, by_desk), 17);
            }
            assert!(book.is_marked(1));
            assert_eq!(book.confirm_by(desk(confirms), 1), Ok(4));
            assert_eq!(book, with_open());
            assert_eq!(number(book.close_by(desk(asks), 1)), 0);
            assert_eq!(number(book.confirm_by(desk(confirms), 1)), 16);
        }
    }
}

#[test]
fn a_call_that_is_outside_clears_no_mark_and_leaves_the_chance() {
    for set in OUTSIDE {
        let mut book = with_mark();
        let own = desk(set);
        let before = book.clone();
        assert_eq!(number(book.put_by(own, 1, &low(OWN))), 17);
        assert_eq!(number(book.drop_code_by(own, 1)), 17);
        assert_eq!(of_open(book.open_by(own, 1)), 17);
        assert_eq!(of_open(book.ask_by(own, 1)), 17);
        assert_eq!(number(book.set_by(own, 2023, 10, 3, &reference())), 17);
        assert_eq!(book, before);
        assert_eq!(book.confirm_by(desk(OWN), 1), Ok(4));

        let mut book = with_mark();
        book.set(2023, 10, 1, &reference()).unwrap();
        assert_eq!(number(book.put_by(own, 1, &low(OWN))), 17);
        assert_eq!(number(book.drop_code_by(own, 1)), 17);
        assert_eq!(of_open(book.ask_by(own, 1)), 17);
        assert_eq!(number(book.close_by(own, 1)), 17);
        assert_eq!(number(book.undo()), 0);
        assert_eq!(book, with_mark());
    }
}

/// C4: an accepted call from any desk ends the chance for all.
#[test]
fn a_part_desk_ends_the_chance_to_undo() {
    type Call = fn(&mut Book) -> u32;
    let calls: [Call; 7] = [
        |book| number(book.put_by(desk(OWN), 1, &low(OWN))),
        |book| number(book.put_by(desk(OWN), 3, &low(1))),
        |book| of_open(book.open_by(desk(OWN), 1)),
        |book| of_open(book.ask_by(desk(OWN), 1)),
        |book| number(book.drop_code_by(desk(OWN), 1)),
        |book| number(book.close_by(desk(OWN), 2)),
        // Not these.
        |book| {
            let quote = book.quote_by(desk(OWN), 1, 0, 1, &[0, 0, 0]);
            number(quote) + number(book.benchmark_by(desk(OWN), 0, 0, 1, 0))
        },
    ];
    for (place, call) in calls.into_iter().enumerate() {
        let mut book = with_draft();
        book.put(2, &low(OWN)).unwrap();
        book.open(2).unwrap();
        book.set(2023, 10, 3, &reference()).unwrap();
        assert_eq!(number(book.clone().undo()), 0);
        assert_eq!(call(&mut book), 0);
        let right = if place < 6 { 15 } else { 0 };
        assert_eq!(number(book.undo_by(DeskRegions::ALL)), right);
    }
}

/// SET by the desk with all fourteen makes drafts of what a part desk opened, and clears its marks; UNDO
/// brings both back.
#[test]
fn a_sheet_meets_what_a_part_desk_opened() {
    let own = desk(OWN);
    let mut book = reference_book();
    book.put_by(own, 1, &flat(OWN, 23_960)).unwrap();
    book.put_by(own, 2, &low(OWN)).unwrap();
    assert_eq!(book.open_by(own, 1), Ok(4));
    assert_eq!(book.ask_by(own, 2), Ok(4));
    let before = book.clone();
    let mut sheet = reference();
    sheet[36] = 480_000;
    assert_eq!(book.trial(2023, 10, 3, &sheet), Ok(1));
    book.set(2023, 10, 3, &sheet).unwrap();
    assert_eq!(book.state(1), Some(State::Draft));
    assert_eq!(of_open(book.open_by(own, 1)), 11);
    assert_eq!(number(book.confirm_by(own, 2)), 16);
    assert_eq!(number(book.undo_by(own)), 17);
    assert_eq!(number(book.undo()), 0);
    assert_eq!(book, before);
    assert_eq!(book.confirm_by(own, 2), Ok(4));
}

// Two books.

/// The reference sheet with this network field changed.
fn with_field(field: usize, word: u32) -> Vec<u32> {
    let mut sheet = reference();
    sheet[field] = word;
    sheet
}

/// Region 5 has fields 57 to 60. Under the one sheet 23,960 a day is at the cap there, under the other
/// it is over it.
#[test]
fn a_desk_does_not_see_the_network_fields_of_other_regions() {
    for field in [57, 58, 59, 60] {
        let word = reference()[field];
        let [mut one, mut other] = [word, word - 1_000].map(|word| {
            let mut book = Book::new();
            book.set(2023, 10, 3, &with_field(field, word)).unwrap();
            // Its own, one half inside, one of region 5 and of all, drafts and marked and open.
            book.put(1, &flat(OWN, 23_960)).unwrap();
            book.put(2, &flat(OWN | 32, 23_960)).unwrap();
            book.put(3, &flat(32, 23_000)).unwrap();
            book.open(3).unwrap();
            book.put(4, &flat(ALL, 23_000)).unwrap();
            book.ask(4).unwrap();
            book
        });
        type Call = fn(&mut Book, DeskRegions) -> String;
        let calls: [Call; 12] = [
            |book, desk| format!("{:?}", book.open_by(desk, 1)),
            |book, desk| format!("{:?}", book.open_by(desk, 2)),
            |book, desk| format!("{:?}", book.ask_by(desk, 2)),
            |book, desk| format!("{:?}", book.close_by(desk, 3)),
            |book, desk| format!("{:?}", book.confirm_by(desk, 4)),
            |book, desk| format!("{:?}", book.quote_by(desk, 2, 0, 1, &[0, 0, 0])),
            |book, desk| format!("{:?}", book.quote_by(desk, 4, 5, 1, &[0, 100, 0])),
            |book, desk| format!("{:?}", book.benchmark_by(desk, 5, 0, 1, 0)),
            |book, desk| format!("{:?}", book.maximum_by(desk, 5, 0, 1, 100)),
            |book, desk| format!("{:?}", book.benchmark_by(desk, 1, 1, 1, 1)),
            |book, desk| format!("{:?}", book.put_by(desk, 2, &low(OWN))),
            |book, desk| format!("{:?}", book.undo_by(desk)),
        ];
        for call in calls {
            for set in [OWN, 1, ALL & !32, 0, 32_767] {
                let own = desk(set);
                assert_eq!(call(&mut one.clone(), own), call(&mut other.clone(), own));
            }
            // One after the other too.
            assert_eq!(call(&mut one, desk(OWN)), call(&mut other, desk(OWN)));
        }
        // A desk that has the region may see it.
        let (arrangement, level) = ((field as u32 - 57) / 2, (field as u32 - 57) % 2);
        for set in [32, 32 | OWN, ALL] {
            let figure = |book: &Book| book.benchmark_by(desk(set), 5, arrangement, 1, level);
            assert_eq!(figure(&one).unwrap(), figure(&other).unwrap() + 1_000);
        }
    }
}

/// The two books of many pairs, of which this book itself answers both; `two_books` sees to it that
/// the desk without the regions gets the same answers.
#[test]
fn pairs_of_books() {
    let both = two_books(107, 200);
    let said = |said: Said| both.lines.iter().filter(move |line| line.said == said);
    let (without, with) = (said(Said::Without), said(Said::With));
    assert!(without.clone().count() > 2_000);
    let answered = |line: &&Line| line.answers[0].starts_with(b"ok");
    assert!(without.filter(answered).count() > 1_000);
    let differ = |line: &&Line| line.answers[0] != line.answers[1];
    assert!(with.filter(differ).count() > 200);
}

// Books of random scripts.

/// Looks at the book before each line of random scripts.
fn each_book(seeds: std::ops::Range<u64>, mut look: impl FnMut(&Book, &mut Random)) {
    for seed in seeds {
        let mut random = Random::new(seed);
        let mut desk = Desk::new();
        for line in script(seed, 2_000).split(|&byte| byte == b'\n') {
            look(desk.book(), &mut random);
            desk.line(line, &mut Vec::new());
        }
    }
}

/// The answer to a call by a desk, and the book after it.
fn said(book: &Book, set: u32, call: &str) -> (String, Book) {
    let mut desk = Desk::new();
    *desk.book_mut() = book.clone();
    let mut answer = Vec::new();
    desk.line(format!("desk {set} {call}").as_bytes(), &mut answer);
    (String::from_utf8(answer).unwrap(), desk.book().clone())
}

fn refusal_of(answer: &str) -> usize {
    let number = answer.strip_prefix("refused ");
    let number = number.and_then(|rest| rest.split_whitespace().next());
    number.map_or(0, |number| number.parse().unwrap())
}

/// The refusals that come before 17.
fn before_17(call: &str) -> &'static [usize] {
    match call {
        "set" | "trial" | "undo" => &[],
        "put" => &[6, 7, 8],
        "benchmark" | "maximum" => &[13],
        "quote" => &[6, 9, 10, 13],
        _ => &[6, 9],
    }
}

fn words(numbers: &[u32]) -> String {
    let words: Vec<String> = numbers.iter().map(u32::to_string).collect();
    words.join(" ")
}

/// The regions of the tariff in a place, found by asking in which of the fourteen it is: by the desk
/// that has all but one, CLOSE is outside exactly where it is offered.
fn regions_of(book: &Book, code: u32) -> Option<u32> {
    if matches!(book.state(code), None | Some(State::Empty)) {
        return None;
    }
    let outside = |region: &u32| {
        let others = desk(ALL & !(1 << region));
        number(book.clone().close_by(others, code)) == 17
    };
    Some((0..14).filter(outside).map(|region| 1 << region).sum())
}

/// The answer to any desk is that to the desk with all fourteen, but for 17: which is the answer where
/// the call is outside the desk and none of the refusals that come before 17 applies. A call that is
/// refused leaves the book as it is, and one that is accepted does what it does for all fourteen.
#[test]
fn answers_are_those_of_all_fourteen_but_for_17() {
    let fields = words(&reference());
    let mut refused = [0; 18];
    let mut accepted = 0;
    each_book(1..7, |book, random| {
        if !random.one_in(4) {
            return;
        }
        let code = match random.below(10) {
            0 => random.pick(&[0, 33]),
            _ => random.between(1, 32),
        };
        let old = regions_of(book, code);
        let any = random.between(1, ALL);
        let near = old.unwrap_or(any);
        let one = 1 << random.below(14);
        let higher = 1 << random.between(14, 31);
        let odd = random.pick(&OUTSIDE);
        let sets = [
            near,
            near,
            ALL,
            near | any,
            near & any,
            any,
            one,
            ALL & !one,
            odd,
        ];
        let mut set = random.pick(&sets);
        if random.one_in(9) {
            set |= higher;
        }
        let new = random.pick(&[near, any, set]);
        let record = low(new);
        let region = random.between(0, 15);
        let last = random.between(1, 13);
        let months = " 100".repeat(book.t().unwrap_or(3) as usize);

        let valid = (1..=ALL).contains(&set);
        let not_in = |regions: u32| !valid || regions & !set > 0;
        let of_code = !valid || old.is_some_and(not_in);
        let of_put = of_code || Tariff::new(&record).is_some() && not_in(new);
        let of_region = !valid || region < 14 && not_in(1 << region);
        for (call, outside) in [
            (format!("set 2023 {last} 3 {fields}"), set != ALL),
            (format!("trial 2023 {last} 3 {fields}"), set != ALL),
            ("undo".to_string(), set != ALL),
            (format!("put {code} {}", words(&record)), of_put),
            (format!("open {code}"), of_code),
            (format!("ask {code}"), of_code),
            (format!("confirm {code}"), of_code),
            (format!("close {code}"), of_code),
            (format!("drop {code}"), of_code),
            (format!("benchmark {region} 0 1 {}", last % 3), of_region),
            (format!("maximum {region} {} 1 300", last % 3), of_region),
            (format!("quote {code} {region} 1{months}"), of_code),
        ] {
            let name = call.split(' ').next().unwrap();
            let (to_all, after_all) = said(book, ALL, &call);
            let (answer, after) = said(book, set, &call);
            if outside && !before_17(name).contains(&refusal_of(&to_all)) {
                assert_eq!(answer, "refused 17\n", "{name} by {set}");
            } else {
                assert_eq!(answer, to_all, "{name} by {set}");
            }
            if answer.starts_with("ok") {
                assert_eq!(after, after_all, "{name} by {set}");
                accepted += 1;
            } else {
                assert_eq!(after, *book, "{name} by {set}");
                refused[refusal_of(&answer)] += 1;
            }
        }
    });
    assert!(accepted > 4_000, "{accepted}");
    for number in [3, 6, 7, 8, 9, 10, 11, 12, 13, 15, 16, 17] {
        assert!(refused[number] > 50, "{number}: {refused:?}");
    }
}

/// "Exactly when" over the cap, for desks that may use the code: whatever the desk, the answer is the
/// one that the tariff deserves.
#[test]
fn what_a_desk_opens_is_within_the_cap() {
    let (mut opened, mut over) = (0, 0);
    each_book(11..15, |book, random| {
        let code = random.between(1, 32);
        let Some(regions) = regions_of(book, code) else {
            return;
        };
        let set = regions | random.between(0, ALL);
        let by_desk = book.clone().open_by(desk(set), code);
        assert_eq!(by_desk, book.clone().open(code));
        assert_eq!(by_desk, book.clone().open_by(desk(regions), code));
        match by_desk {
            Ok(_) => opened += 1,
            Err(why) => over += usize::from(why.number() == 11),
        }
    });
    assert!(opened > 200 && over > 1_000, "{opened} {over}");
}
