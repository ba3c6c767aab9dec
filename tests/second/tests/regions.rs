//! Standing charges by region (M-104): fields 13 to 26 of a tariff, added to field 2 for regions 0
//! to 13. On the reference sheet of document 01, its numbers written out by hand.
//!
//! There the three months of 2023 allow 2,204,375 mills at 0 kWh by Other, single-rate or Economy 7,
//! and 2,354,512.5 by Standard Credit: 23,960 and 25,592 mills a day for 92 days.

mod common;

use common::Verdict::{Opens, Over};
use common::{by_region, opened, reference, reference_book, tariff, verdict, with_zeros, ALL};
use second::{Book, Quote, Refusal, State, RECORD, REGIONAL};

fn put(book: &mut Book, record: &[u32]) -> u32 {
    book.put(1, record).map_or_else(Refusal::number, |()| 0)
}

/// 23,000 and the rate 18,000 everywhere, with these numbers by region.
fn flat(numbers: &[(usize, u32)]) -> [u32; RECORD] {
    by_region(tariff(1, 23_000, &[18_000], &[]), numbers)
}

/// The same number in all regions.
fn in_all(number: u32) -> Vec<(usize, u32)> {
    (0..14).map(|region| (region, number)).collect()
}

/// 37 mills, times 12,000 x 3,000.
const ONE_MILL_A_DAY: u64 = 1_332_000_000;

// OPEN.

#[test]
fn the_charge_of_a_region_is_the_sum() {
    let mut book = reference_book();
    assert_eq!(verdict(&mut book, &flat(&[])), Opens(28));
    assert_eq!(verdict(&mut book, &flat(&in_all(960))), Opens(28));
    for region in 0..14 {
        let over = Over(region as u32, 1, ONE_MILL_A_DAY, vec![0; 3]);
        assert_eq!(verdict(&mut book, &flat(&[(region, 960)])), Opens(28));
        assert_eq!(verdict(&mut book, &flat(&[(region, 961)])), over);
        // The others at the cap.
        let mut numbers = in_all(960);
        numbers[region].1 = 961;
        assert_eq!(verdict(&mut book, &flat(&numbers)), over);
        // All of it as the number.
        let mut record = tariff(1, 0, &[18_000], &[]);
        record[REGIONAL..].fill(23_960);
        assert_eq!(verdict(&mut book, &record), Opens(28));
        record[REGIONAL + region] = 23_961;
        assert_eq!(verdict(&mut book, &record), over);
        // By Standard Credit alone there is more room: 43.5 mills over at 25,593.
        let mut record = flat(&[(region, 2_592)]);
        record[4] = 1;
        assert_eq!(verdict(&mut book, &record), Opens(14));
        record[REGIONAL + region] = 2_593;
        let over = Over(region as u32, 0, 1_566_000_000, vec![0; 3]);
        assert_eq!(verdict(&mut book, &record), over);
        // By both, Standard Credit is looked at first.
        record[4] = 3;
        assert_eq!(verdict(&mut book, &record), over);
    }
}

#[test]
fn the_first_region_that_is_over_and_not_the_worst() {
    let mut book = reference_book();
    let over = |region, excess| Over(region, 1, excess, vec![0; 3]);
    let record = flat(&[(3, 961), (9, 961)]);
    assert_eq!(verdict(&mut book, &record), over(3, ONE_MILL_A_DAY));
    // 129 mills in region 9, but 37 in region 3.
    let record = flat(&[(3, 961), (9, 962)]);
    assert_eq!(verdict(&mut book, &record), over(3, ONE_MILL_A_DAY));
    let record = flat(&[(3, 960), (9, 962)]);
    assert_eq!(verdict(&mut book, &record), over(9, 129 * 36_000_000));
    // Only where it is offered.
    let mut record = flat(&[(9, 961), (13, 961)]);
    record[3] = 1 << 9 | 1 << 13;
    assert_eq!(verdict(&mut book, &record), over(9, ONE_MILL_A_DAY));
    record[REGIONAL + 9] = 960;
    assert_eq!(verdict(&mut book, &record), over(13, ONE_MILL_A_DAY));
    record[REGIONAL + 13] = 0;
    assert_eq!(verdict(&mut book, &record), Opens(4));
}

/// With the same charge in all regions it is all one how much of it is in field 2.
#[test]
fn every_verdict_of_the_reference_sheet_however_its_charge_is_written() {
    let over = |excess, months| Over(0, 1, excess, vec![months; 3]);
    for (record, expected) in [
        (tariff(1, 23_000, &[18_000], &[]), Opens(28)),
        (tariff(1, 23_960, &[18_000], &[]), Opens(28)),
        (tariff(1, 23_961, &[18_000], &[]), over(ONE_MILL_A_DAY, 0)),
        (
            tariff(1, 20_000, &[20_000, 15_000], &[100]),
            over(2_535_300_000_000, 100),
        ),
        (tariff(1, 0, &[165_509, 0], &[5]), Opens(28)),
        (tariff(1, 0, &[165_510, 0], &[5]), over(540_000_000, 5)),
        (
            tariff(2, 23_000, &[18_000, 12_250], &[]),
            over(3_678_000_000_000, 10_000),
        ),
    ] {
        let mut book = reference_book();
        let standing = record[2];
        for number in [0, 1.min(standing), standing / 2, standing] {
            let mut record = by_region(record, &in_all(number));
            record[2] = standing - number;
            assert_eq!(verdict(&mut book, &record), expected, "{record:?}");
        }
    }
}

/// The worst months are those of the region without its standing charge.
#[test]
fn months_that_are_not_0() {
    let mut book = reference_book();
    // By Other the cap has 55,652,000 / 3,000 mills per kWh. 100 kWh a month at 20,000 are over that
    // by 434,800 mills for the three months, so 19,234 mills a day are allowed: 1,769,528 of the
    // 1,769,575 that are left.
    let tiers = tariff(1, 19_000, &[20_000, 15_000], &[100]);
    for region in 0..14 {
        assert_eq!(
            verdict(&mut book, &by_region(tiers, &[(region, 234)])),
            Opens(28)
        );
        assert_eq!(
            verdict(&mut book, &by_region(tiers, &[(region, 235)])),
            Over(region as u32, 1, 45 * 36_000_000, vec![100; 3])
        );
    }
    // Economy 7 at 15,579 mills per kWh, 0.5 below the cap: 0 kWh are the worst, and at 15,580 it is
    // 10,000, by 15,000 mills of the 2,204,375.
    let low = tariff(2, 20_000, &[15_579, 15_579], &[]);
    let high = tariff(2, 20_000, &[15_580, 15_580], &[]);
    for (record, most, excess, months) in [(low, 3_960, 37, 0), (high, 3_797, 41, 10_000)] {
        let opens = by_region(record, &[(6, most), (12, most)]);
        assert_eq!(verdict(&mut book, &opens), Opens(28));
        let over = by_region(record, &[(6, most), (12, most + 1)]);
        assert_eq!(
            verdict(&mut book, &over),
            Over(12, 1, excess * 48_000_000, vec![months; 3])
        );
    }
}

// SET and TRIAL.

#[test]
fn a_sheet_makes_a_tariff_fall_by_the_charge_of_one_region() {
    for region in 0..14 {
        let other = (region + 1) % 14;
        let mut book = reference_book();
        for (code, record) in [
            (1, flat(&[(region, 960)])),
            (2, flat(&[(other, 960)])),
            (3, flat(&[(region, 957)])),
            (4, flat(&[(region, 958), (other, 960)])),
            (5, flat(&[])),
            (6, flat(&in_all(960))),
        ] {
            book.put(code, &record).unwrap();
            book.open(code).unwrap();
        }
        // 1,000 less for a year at nil in this region, that is 2,204,125 mills or 23,957.9 a day.
        let mut sheet = reference();
        sheet[37 + 4 * region] -= 1_000;
        let fall = 1 | 1 << 3 | 1 << 5;
        assert_eq!(book.trial(2023, 10, 3, &sheet), Ok(fall));
        assert_eq!(book.trial(2023, 10, 3, &reference()), Ok(0));
        book.set(2023, 10, 3, &sheet).unwrap();
        for code in 1..=6 {
            let falls = fall >> (code - 1) & 1 == 1;
            let state = if falls { State::Draft } else { State::Open };
            assert_eq!(
                book.state(code),
                Some(state),
                "region {region}, code {code}"
            );
        }
        let over = |mills: u64| Over(region as u32, 1, mills * 36_000_000, vec![0; 3]);
        assert_eq!(opened(&mut book, 1), over(195));
        assert_eq!(opened(&mut book, 4), over(11));
        assert_eq!(opened(&mut book, 6), over(195));
    }
}

// QUOTE.

#[test]
fn a_quote_has_the_charge_of_its_region() {
    let mut book = reference_book();
    let numbers: Vec<(usize, u32)> = (0..14).map(|region| (region, 10 * region as u32)).collect();
    book.put(1, &flat(&numbers)).unwrap();
    // A draft, and open.
    for _ in 0..2 {
        for region in 0..14 {
            for (method, nil, rise) in [(0, 9_418_050, 56_765_040), (1, 8_817_500, 55_652_000)] {
                let standing = 23_000 + 10 * u64::from(region);
                assert_eq!(
                    book.quote(1, region, method, &[100, 200, 300]),
                    Ok(Quote {
                        charge: 36_000_000 * (92 * standing + 600 * 18_000),
                        maximum: 1_000 * (nil * 9_000 + 12 * rise * 600),
                    })
                );
            }
        }
        let _ = book.open(1);
    }
    assert_eq!(book.state(1), Some(State::Open));
    // Where it is not offered it has none.
    let mut record = flat(&[(5, 960)]);
    record[3] = 1 << 5;
    book.put(2, &record).unwrap();
    assert!(book.quote(2, 5, 1, &[0; 3]).is_ok());
    assert_eq!(book.quote(2, 4, 1, &[0; 3]), Err(Refusal::Argument));
}

// Refusal 8.

#[test]
fn each_sum_is_at_most_1_000_000() {
    let mut book = Book::new();
    for standing in [0, 1, 23_000, 999_999, 1_000_000] {
        let record = tariff(1, standing, &[18_000], &[]);
        let room = 1_000_000 - standing;
        assert_eq!(put(&mut book, &by_region(record, &in_all(room))), 0);
        for region in 0..14 {
            let mut with = |number| put(&mut book, &by_region(record, &[(region, number)]));
            assert_eq!(with(room), 0);
            assert_eq!(with(room + 1), 8);
            assert_eq!(with(room + 2), 8);
            assert_eq!(with(1_000_001), 8);
            for number in [1 << 31, u32::MAX - 1, u32::MAX] {
                assert_eq!(with(number), 8, "{standing} and {number}");
            }
            // Sums of 2^32, which is 0 in 32 bits, and of a little more.
            if standing > 0 {
                assert_eq!(with(u32::MAX - standing + 1), 8);
                assert_eq!(with(u32::MAX - standing / 2), 8);
            }
            // One region too high beside others that are as high as they may be.
            let mut numbers = in_all(room);
            numbers[region].1 = room + 1;
            assert_eq!(put(&mut book, &by_region(record, &numbers)), 8);
        }
    }
}

#[test]
fn field_2_keeps_its_own_range() {
    let mut book = Book::new();
    let record = |standing| tariff(1, standing, &[18_000], &[]);
    assert_eq!(put(&mut book, &record(1_000_000)), 0);
    for standing in [1_000_001, 2_000_000, 1 << 31, u32::MAX] {
        assert_eq!(put(&mut book, &record(standing)), 8);
        // Whatever would bring the sums back.
        for sum in [0, 1, 23_000, 1_000_000u32] {
            let number = sum.wrapping_sub(standing);
            let record = by_region(record(standing), &in_all(number));
            assert_eq!(put(&mut book, &record), 8);
        }
    }
}

#[test]
fn a_region_not_offered_has_0() {
    let mut book = Book::new();
    for standing in [0, 23_000, 1_000_000] {
        for region in 0..14 {
            let mut record = tariff(1, standing, &[18_000], &[]);
            record[3] = ALL & !(1 << region);
            assert_eq!(put(&mut book, &record), 0);
            let wrap = u32::MAX - standing;
            for number in [1, 2, 1_000_000, 1_000_001, 1 << 31, wrap, u32::MAX] {
                let with = by_region(record, &[(region, number)]);
                assert_eq!(put(&mut book, &with), 8, "region {region} with {number}");
                // Offered in that region alone, in which it may be a number.
                let mut alone = with;
                alone[3] = 1 << region;
                let sum = u64::from(standing) + u64::from(number);
                assert_eq!(put(&mut book, &alone) == 0, sum <= 1_000_000);
                alone[REGIONAL + (region + 1) % 14] = 1;
                assert_eq!(put(&mut book, &alone), 8);
            }
        }
    }
}

/// The numbers by region are looked at in tariffs of every kind.
#[test]
fn every_kind_has_numbers_by_region() {
    let mut book = Book::new();
    for record in [
        with_zeros([1, 1, 0, ALL, 3, 5, 0, 0, 0, 0, 0, 0, 0]),
        with_zeros([1, 4, 7, ALL, 1, 5, 5, 5, 5, 1, 2, 9_999, 0]),
        with_zeros([2, 2, 7, ALL, 2, 5, 5, 0, 0, 0, 0, 0, 0]),
        with_zeros([3, 4, 7, ALL, 3, 5, 5, 5, 5, 1, 2, 3, 994]),
    ] {
        for region in 0..14 {
            let mut with = |number| put(&mut book, &by_region(record, &[(region, number)]));
            assert_eq!(with(0), 0);
            assert_eq!(with(1_000_000 - record[2]), 0);
            assert_eq!(with(1_000_001 - record[2]), 8);
            let mut other = by_region(record, &[(region, 1)]);
            other[3] = ALL & !(1 << region);
            assert_eq!(put(&mut book, &other), 8);
        }
    }
}

/// A bad record leaves the draft as it was, and 6 and 7 come first.
#[test]
fn what_comes_before_8() {
    let mut book = reference_book();
    let good = flat(&[(5, 960)]);
    let bad = flat(&[(5, 977_001)]);
    let number = |answer: Result<(), Refusal>| answer.map_or_else(Refusal::number, |()| 0);
    assert_eq!(number(book.put(0, &bad)), 6);
    assert_eq!(number(book.put(33, &bad)), 6);
    book.put(1, &good).unwrap();
    let quote = book.quote(1, 5, 1, &[0; 3]).unwrap();
    assert_eq!(number(book.put(1, &bad)), 8);
    assert_eq!(book.quote(1, 5, 1, &[0; 3]), Ok(quote));
    book.open(1).unwrap();
    assert_eq!(number(book.put(1, &bad)), 7);
    assert_eq!(book.quote(1, 5, 1, &[0; 3]), Ok(quote));
}
