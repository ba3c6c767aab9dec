//! The reference sheet, written out from document 01, with the split of 28AD.31 (document 02, M-103).
#![allow(dead_code)]

use second::{Book, NotOpened, Refusal, RECORD, REGIONAL};

pub const ALL: u32 = 16_383;

pub fn reference() -> Vec<u32> {
    let mut s = vec![
        0, 30_000_000, 0, 36_000_000, // DF0
        0, 1_000_000, 0, 1_000_000, // CM0
        1_000_000, 8_000_000, 1_000_000, 8_000_000, // PC0
        5_000_000, 9_000_000, 5_000_000, 9_000_000, // OC0
        10_000, 10_000, // HAP
        20_000, 0, // PAP
        400_000, 0, // PAAC
        1_000, 100, 100, 100, 100, 100, 100, // initial
        1_100, 100, 105, 100, 100, 100, 100,     // current
        500_000, // SMNCC
    ];
    for _region in 0..14 {
        s.extend([2_000_000, 12_000_000, 2_000_000, 12_000_000]);
    }
    s.extend([3_000, 4_000]);
    s.push(580);
    assert_eq!(s.len(), 96);
    s
}

/// A book with the reference sheet for October 2023, t 3.
pub fn reference_book() -> Book {
    let mut book = Book::new();
    book.set(2023, 10, 3, &reference()).unwrap();
    book
}

/// A tariff in all regions and by both methods, with 0 for each region.
pub fn tariff(kind: u32, standing: u32, rates: &[u32], steps: &[u32]) -> [u32; RECORD] {
    let mut record = [0; RECORD];
    record[..5].copy_from_slice(&[kind, rates.len() as u32, standing, ALL, 3]);
    record[5..5 + rates.len()].copy_from_slice(rates);
    record[9..9 + steps.len()].copy_from_slice(steps);
    record
}

/// The record that begins with these numbers and has 0 for each region.
pub fn with_zeros(first: [u32; REGIONAL]) -> [u32; RECORD] {
    let mut record = [0; RECORD];
    record[..REGIONAL].copy_from_slice(&first);
    record
}

/// The record with these numbers for these regions.
pub fn by_region(record: [u32; RECORD], numbers: &[(usize, u32)]) -> [u32; RECORD] {
    let mut record = record;
    for &(region, number) in numbers {
        record[REGIONAL + region] = number;
    }
    record
}

/// What OPEN of a tariff says: the number of cells, or region, method, excess and months.
#[derive(Clone, Debug, PartialEq)]
pub enum Verdict {
    Opens(u32),
    Over(u32, u32, u64, Vec<u32>),
}

/// The verdict on a tariff put at code 1, which stays a draft there.
pub fn verdict(book: &mut Book, record: &[u32]) -> Verdict {
    book.put(1, record).unwrap();
    opened(book, 1)
}

/// The same of the draft at a code, which stays one.
pub fn opened(book: &mut Book, code: u32) -> Verdict {
    match book.open(code) {
        Ok(cells) => {
            book.close(code).unwrap();
            Verdict::Opens(cells)
        }
        Err(NotOpened::OverCap(breach)) => Verdict::Over(
            breach.region,
            breach.method,
            breach.excess,
            breach.months().to_vec(),
        ),
        Err(NotOpened::Refused(refusal)) => panic!("refused {}", refusal.number()),
    }
}

/// The number of a refusal, or 0.
pub fn number<T>(answer: Result<T, Refusal>) -> u32 {
    match answer {
        Ok(_) => 0,
        Err(refusal) => refusal.number(),
    }
}

/// The reference sheet in force, and two flat tariffs open: 23,960 and 23,000 a day.
pub fn two_open() -> Book {
    let mut book = reference_book();
    for (code, standing) in [(1, 23_960), (2, 23_000)] {
        book.put(code, &tariff(1, standing, &[18_000], &[]))
            .unwrap();
        assert_eq!(book.open(code), Ok(28));
    }
    book
}

/// What can be seen of a book: each place, its sheet, and what each used place costs under it.
pub fn seen(book: &Book) -> impl PartialEq + std::fmt::Debug {
    let benchmarks: Vec<_> = (0..112)
        .map(|i| book.benchmark(i / 8, i / 4 % 2, i / 2 % 2, i % 2))
        .collect();
    let maximum = book.maximum(0, 0, 1, 300);
    let places: Vec<_> = (1..=32)
        .map(|code| {
            let t = book.t().unwrap_or(0) as usize;
            let quote = book.quote(code, 0, 1, &vec![100; t]);
            (book.state(code), quote)
        })
        .collect();
    (benchmarks, maximum, places)
}
