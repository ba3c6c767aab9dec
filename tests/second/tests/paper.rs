//! Document 01's own figures and rules, its numbers written out by hand. Excesses and quotes are ten
//! times as large as there, since document 02 (M-103) has them over 12,000 x m.

mod common;

use common::{reference, reference_book, tariff, with_zeros, ALL};
use second::{field_range, Book, Breach, Maximum, NotOpened, Quote, Refusal, State, RECORD};

fn over_cap(answer: Result<u32, NotOpened>) -> Breach {
    match answer {
        Err(NotOpened::OverCap(breach)) => breach,
        other => panic!("not refusal 11: {other:?}"),
    }
}

fn assert_over(answer: Result<u32, NotOpened>, cell: (u32, u32), months: &[u32], excess: u64) {
    let breach = over_cap(answer);
    assert_eq!((breach.region, breach.method), cell);
    assert_eq!(breach.months(), months);
    assert_eq!(breach.excess, excess);
}

fn number<T>(answer: Result<T, Refusal>) -> u32 {
    match answer {
        Ok(_) => 0,
        Err(refusal) => refusal.number(),
    }
}

fn open_number(answer: Result<u32, NotOpened>) -> u32 {
    match answer {
        Ok(_) => 0,
        Err(refusal) => refusal.number(),
    }
}

fn set(fields: &[u32]) -> u32 {
    number(Book::new().set(2023, 10, 3, fields))
}

// The reference sheet and its verdicts.

#[test]
fn reference_benchmarks() {
    let book = reference_book();
    for region in 0..14 {
        assert_eq!(book.benchmark(region, 0, 1, 0), Ok(8_817_500));
        assert_eq!(book.benchmark(region, 0, 1, 1), Ok(64_469_500));
        assert_eq!(book.benchmark(region, 0, 0, 0), Ok(9_418_050));
        assert_eq!(book.benchmark(region, 0, 0, 1), Ok(66_183_090));
        assert_eq!(book.benchmark(region, 1, 1, 1), Ok(71_135_500));
        // Not in the paper: at nil the two arrangements have the same costs; at m by
        // Standard Credit 58,550,000 + 1,591,000 + 601,410 + 12,000,000 + 240,000.
        assert_eq!(book.benchmark(region, 1, 1, 0), Ok(8_817_500));
        assert_eq!(book.benchmark(region, 1, 0, 0), Ok(9_418_050));
        assert_eq!(book.benchmark(region, 1, 0, 1), Ok(72_982_410));
    }
}

#[test]
fn one_rate_within_the_cap_opens_28_cells() {
    let mut book = reference_book();
    book.put(1, &tariff(1, 23_000, &[18_000], &[])).unwrap();
    assert_eq!(book.open(1), Ok(28));
    book.put(2, &tariff(1, 23_960, &[18_000], &[])).unwrap();
    assert_eq!(book.open(2), Ok(28));
}

#[test]
fn one_mill_a_day_more_is_over() {
    let mut book = reference_book();
    book.put(3, &tariff(1, 23_961, &[18_000], &[])).unwrap();
    assert_over(book.open(3), (0, 1), &[0, 0, 0], 1_332_000_000);
    assert_eq!(book.state(3), Some(State::Draft));
}

#[test]
fn the_tiered_surprise() {
    let mut book = reference_book();
    book.put(4, &tariff(1, 20_000, &[20_000, 15_000], &[100]))
        .unwrap();
    assert_over(book.open(4), (0, 1), &[100, 100, 100], 2_535_300_000_000);
    let spread = book.quote(4, 0, 1, &[100, 100, 100]).unwrap();
    assert_eq!(spread.charge - spread.maximum, 2_535_300_000_000);
    // The same 300 kWh in one month is below the cap.
    for months in [[300, 0, 0], [0, 300, 0], [0, 0, 300]] {
        let quote = book.quote(4, 0, 1, &months).unwrap();
        assert_eq!(quote.maximum, spread.maximum);
        assert!(quote.charge < quote.maximum);
        // 1,840,000 + 2,000,000 + 3,000,000 mills against 7,769,575.
        assert_eq!(quote.charge, 6_840_000 * 36_000_000);
        assert_eq!(quote.maximum, 7_769_575 * 36_000_000);
    }
}

#[test]
fn a_steep_first_step() {
    let mut book = reference_book();
    book.put(5, &tariff(1, 0, &[165_509, 0], &[5])).unwrap();
    assert_eq!(book.open(5), Ok(28));
    let quote = book.quote(5, 0, 1, &[5, 5, 5]).unwrap();
    assert_eq!(quote.charge, quote.maximum);
    book.put(6, &tariff(1, 0, &[165_510, 0], &[5])).unwrap();
    assert_over(book.open(6), (0, 1), &[5, 5, 5], 540_000_000);
}

#[test]
fn economy_7_over_at_the_top() {
    let mut book = reference_book();
    book.put(7, &tariff(2, 23_000, &[18_000, 12_250], &[]))
        .unwrap();
    assert_over(
        book.open(7),
        (0, 1),
        &[10_000, 10_000, 10_000],
        3_678_000_000_000,
    );
    let quote = book.quote(7, 0, 1, &[10_000; 3]).unwrap();
    assert_eq!(quote.charge - quote.maximum, 3_678_000_000_000);
}

#[test]
fn codes_0_and_33() {
    let mut book = reference_book();
    let record = tariff(1, 23_000, &[18_000], &[]);
    for code in [0, 33, 34, 64, 256, 257, 65_537, 1 << 31, u32::MAX] {
        assert_eq!(number(book.put(code, &record)), 6);
        assert_eq!(open_number(book.open(code)), 6);
        assert_eq!(number(book.close(code)), 6);
        assert_eq!(number(book.drop_code(code)), 6);
        assert_eq!(number(book.quote(code, 0, 0, &[0, 0, 0])), 6);
        assert_eq!(book.state(code), None);
    }
    for code in 1..=32 {
        assert_eq!(book.state(code), Some(State::Empty));
        assert_eq!(number(book.put(code, &record)), 0);
        assert_eq!(book.open(code), Ok(28));
    }
}

#[test]
fn m_0_is_2() {
    for field in [93, 94] {
        let mut sheet = reference();
        sheet[field] = 0;
        assert_eq!(set(&sheet), 2);
    }
}

#[test]
fn open_twice_is_7() {
    let mut book = reference_book();
    book.put(1, &tariff(1, 23_000, &[18_000], &[])).unwrap();
    assert_eq!(open_number(book.open(1)), 0);
    assert_eq!(open_number(book.open(1)), 7);
    assert_eq!(book.state(1), Some(State::Open));
}

#[test]
fn shares_summing_to_999_are_8() {
    let mut book = reference_book();
    let rates = [18_000, 12_000];
    assert_eq!(number(book.put(1, &tariff(3, 0, &rates, &[579, 420]))), 8);
    assert_eq!(number(book.put(1, &tariff(3, 0, &rates, &[580, 421]))), 8);
    assert_eq!(number(book.put(1, &tariff(3, 0, &rates, &[580, 420]))), 0);
}

// The traps.

#[test]
fn trap_days_over_365() {
    // With 92 / 365 in place of 3 / 12, standing 24,157 would pass: 8,817,500 / 365 = 24,157.5.
    let mut book = reference_book();
    book.put(1, &tariff(1, 24_000, &[18_000], &[])).unwrap();
    assert_eq!(open_number(book.open(1)), 11);
}

#[test]
fn trap_economy_7_at_50_50() {
    // At 58:42 the weighted rate is 15,585 against 15,579.5; at 50:50 it would be 15,125.
    let mut book = reference_book();
    book.put(1, &tariff(2, 0, &[18_000, 12_250], &[])).unwrap();
    let quote = book.quote(1, 0, 1, &[1, 0, 0]).unwrap();
    assert_eq!(quote.charge, 15_585 * 12_000 * 4_000);
    book.put(2, &tariff(3, 0, &[18_000, 12_250], &[500, 500]))
        .unwrap();
    let quote = book.quote(2, 0, 1, &[1, 0, 0]).unwrap();
    assert_eq!(quote.charge, 15_125 * 12_000 * 4_000);
}

#[test]
fn trap_maximum_rounded() {
    // 18,550 2/3 mills per kWh: one kWh at 18,551 is over by a third of a mill, with
    // nothing else to hide it. A sheet with no charge at nil.
    let mut sheet = reference();
    for four in [8, 10, 12, 14] {
        sheet[four] = 0;
    }
    sheet[36] = 0;
    for nil in (37..93).step_by(2) {
        sheet[nil] = 0;
    }
    let mut book = Book::new();
    book.set(2023, 10, 3, &sheet).unwrap();
    assert_eq!(book.benchmark(0, 0, 1, 0), Ok(0));
    // 51,450,000 + 514,500 + 12,000,000 = 63,964,500, over 3,000 kWh 21,321.5 mills each.
    assert_eq!(book.benchmark(0, 0, 1, 1), Ok(63_964_500));
    book.put(1, &tariff(1, 0, &[21_322, 0], &[1])).unwrap();
    assert_over(book.open(1), (0, 1), &[1, 1, 1], 3 * 12_000 * 3_000 / 2);
    book.put(1, &tariff(1, 0, &[21_321], &[])).unwrap();
    assert_eq!(book.open(1), Ok(28));
}

#[test]
fn trap_network_cost_in_headroom() {
    // Headroom and the adjustment one after the other: network costs get the second only.
    let mut sheet = vec![0; 96];
    sheet[22..36].fill(1);
    sheet[16..18].fill(500_000);
    sheet[18..20].copy_from_slice(&[100_000, 0]);
    for pair in (37..93).step_by(2) {
        sheet[pair + 1] = 1_000;
    }
    sheet[93..95].fill(1);
    let mut book = Book::new();
    book.set(2018, 1, 1, &sheet).unwrap();
    assert_eq!(book.benchmark(0, 0, 0, 1), Ok(1_100));
    assert_eq!(book.benchmark(0, 0, 1, 1), Ok(1_000));
    sheet[36] = 1_000;
    book.set(2018, 1, 1, &sheet).unwrap();
    // 1,000 + 100 + 550 + 1,100, and the same without the network at nil.
    assert_eq!(book.benchmark(13, 1, 0, 1), Ok(2_750));
    assert_eq!(book.benchmark(13, 1, 0, 0), Ok(1_650));
    assert_eq!(book.benchmark(13, 1, 1, 1), Ok(2_500));
}

// The sheet.

/// A sheet with different values everywhere, worked out in fractions beside the program.
#[test]
fn a_sheet_of_different_values() {
    let mut sheet = vec![
        1_000_003, 31_000_007, 1_200_013, 37_000_019, // DF0
        200_003, 1_100_009, 300_007, 1_300_021, // CM0
        900_001, 7_800_013, 1_100_027, 8_200_031, // PC0
        5_100_049, 9_000_061, 4_900_067, 9_300_071, // OC0
        14_600, 17_300, 21_700, 3_100, 410_009, 15_013, // HAP, PAP, PAAC
        1_009, 97, 101, 103, 107, 109, 113, // initial
        1_123, 89, 106, 127, 131, 137, 139, // current
        512_347,
    ];
    for region in 0..14 {
        sheet.extend([
            2_000_000 + 10_007 * region,
            12_000_000 + 20_011 * region,
            2_100_000 + 30_013 * region,
            13_000_000 + 40_031 * region,
        ]);
    }
    sheet.extend([3_100, 4_200, 583]);
    let mut book = Book::new();
    book.set(2020, 1, 2, &sheet).unwrap();

    // By region: single-rate Standard Credit nil and m, Other nil and m, then Economy 7.
    for (region, expected) in [
        (
            0,
            [
                11_053_927, 69_730_896, 10_440_036, 68_048_795, 11_572_309, 78_922_762, 10_947_884,
                77_072_225,
            ],
        ),
        (
            6,
            [
                11_115_272, 69_853_567, 10_500_264, 68_169_233, 11_756_295, 79_168_160, 11_128_520,
                77_313_156,
            ],
        ),
        (
            13,
            [
                11_186_841, 69_996_684, 10_570_530, 68_309_744, 11_970_945, 79_454_458, 11_339_263,
                77_594_241,
            ],
        ),
    ] {
        for (i, expected) in (0u32..).zip(expected) {
            let (arrangement, method, level) = (i / 4, i / 2 % 2, i % 2);
            assert_eq!(
                book.benchmark(region, arrangement, method, level),
                Ok(expected)
            );
        }
    }
    // All 112 with different weights.
    let mut sum = 0;
    for i in 0..112 {
        let charge = book.benchmark(i / 8, i / 4 % 2, i / 2 % 2, i % 2).unwrap();
        sum += u64::from(charge) * u64::from(i + 1);
    }
    assert_eq!(sum, 270_838_123_983);
}

#[test]
fn the_range_of_each_field() {
    for field in 0..96 {
        let (lowest, highest) = match field {
            0..=15 => (0, 100_000_000),
            16..=19 => (0, 1_000_000),
            20 | 21 => (0, 100_000_000),
            22..=28 => (1, 1_000_000_000),
            29..=35 => (0, 1_000_000_000),
            // Document 02, M-102.
            36 => (-100_000_000, 100_000_000),
            37..=92 => (0, 100_000_000),
            93 | 94 => (1, 20_000),
            // M-103.
            _ => (0, 1_000),
        };
        assert_eq!(field_range(field), (lowest, highest));
        let mut sheet = reference();
        let mut at = |value: i64| {
            sheet[field] = value as u32;
            set(&sheet)
        };
        for outside in [highest + 1, (1 << 31) - 1, 1 << 31] {
            assert_eq!(at(outside), 2, "field {field} at {outside}");
        }
        if lowest != 0 {
            assert_eq!(at(lowest - 1), 2, "field {field} at {}", lowest - 1);
        }
        // All the bits: -1 in field 36.
        assert_eq!(at(u32::MAX.into()) == 2, field != 36, "field {field}");
        for inside in [lowest, highest] {
            assert_ne!(at(inside), 2, "field {field} at {inside}");
        }
    }
}

#[test]
fn the_checks_of_set_in_their_order() {
    let mut book = reference_book();
    let good = reference();
    let mut field = good.clone();
    field[5] = 100_000_001;
    let mut term = good.clone();
    (term[22], term[29]) = (1, 1_000_000_000);
    let mut falls = good.clone();
    falls[37] = 100_000_000;

    let mut long = field.clone();
    long.push(0);
    assert_eq!(number(book.set(0, 0, 0, &long)), 1);
    assert_eq!(number(book.set(0, 0, 0, &[])), 1);
    assert_eq!(number(book.set(2023, 10, 3, &good[..95])), 1);
    assert_eq!(number(book.set(0, 10, 3, &field)), 2);
    let mut both = term.clone();
    both[37] = 100_000_000;
    assert_eq!(number(book.set(2100, 10, 3, &both)), 3);
    assert_eq!(number(book.set(2023, 13, 3, &falls)), 3);
    assert_eq!(number(book.set(2023, 10, 0, &good)), 3);
    assert_eq!(number(book.set(2023, 10, 3, &both)), 4);
    assert_eq!(number(book.set(2023, 10, 3, &falls)), 5);
    assert_eq!(number(book.set(2023, 10, 3, &good)), 0);
    // Refused sheets have changed nothing.
    assert_eq!(book.benchmark(0, 0, 1, 1), Ok(64_469_500));
}

/// The 18 terms: each alone may reach 100,000,000 after rounding, and no more.
#[test]
fn each_indexed_term_to_its_limit() {
    let terms = (0..4)
        .map(|i| (i, 0))
        .chain((4..8).map(|i| (i, 1)))
        .chain((8..12).map(|i| (i, i - 5)))
        .chain((12..16).map(|i| (i, 2)))
        .chain([(20, 2), (21, 2)]);
    let mut count = 0;
    for (baseline, index) in terms {
        count += 1;
        // All costs 0 but this one; network costs keep m above nil.
        let mut sheet = vec![0; 96];
        sheet[22..36].fill(1);
        for pair in (37..93).step_by(2) {
            sheet[pair + 1] = 100_000_000;
        }
        sheet[93..95].fill(1);
        for (value, current, initial, expected) in [
            (100_000_000, 1, 1, 0),
            (1, 100_000_000, 1, 0),
            (1, 100_000_001, 1, 4),
            (1, 200_000_001, 2, 4),
            (1, 300_000_001, 3, 0),
            (1, 300_000_002, 3, 4),
            (1, 900_000_004, 9, 0),
            (1, 900_000_005, 9, 4),
            (100_000_000, 1_000_000_000, 999_999_999, 0),
            (100_000_000, 200_000_001, 200_000_000, 4),
            (100_000_000, 200_000_002, 200_000_001, 0),
            (100_000_000, 1_000_000_000, 1, 4),
        ] {
            sheet[baseline] = value;
            sheet[29 + index] = current;
            sheet[22 + index] = initial;
            assert_eq!(
                set(&sheet),
                expected,
                "field {baseline}: {value} x {current} / {initial}"
            );
        }
    }
    assert_eq!(count, 18);
}

#[test]
fn smncc_is_no_indexed_term() {
    let mut sheet = reference();
    sheet[13] = 100_000_000;
    sheet[31] = 100;
    sheet[36] = 100_000_000;
    assert_eq!(set(&sheet), 0);
}

#[test]
fn m_may_equal_nil_and_not_fall_below() {
    for region in 0..14 {
        for arrangement in 0..2 {
            let mut sheet = vec![0; 96];
            sheet[22..36].fill(1);
            sheet[93..95].fill(1);
            sheet[37..93].fill(5);
            assert_eq!(set(&sheet), 0);
            sheet[37 + 4 * region + 2 * arrangement] = 6;
            assert_eq!(set(&sheet), 5);
            sheet[37 + 4 * region + 2 * arrangement + 1] = 6;
            assert_eq!(set(&sheet), 0);
        }
    }
    // By one method only. At nil a network cost of 3; at m one of 2 and a policy cost of 1,
    // so that the payment method adjustment is rounded once at nil and twice at m.
    let mut sheet = vec![0; 96];
    sheet[22..36].fill(1);
    sheet[93..95].fill(1);
    (sheet[37], sheet[38], sheet[9]) = (3, 2, 1);
    let by = |pap: [u32; 2]| {
        let mut sheet = sheet.clone();
        sheet[18..20].copy_from_slice(&pap);
        set(&sheet)
    };
    assert_eq!(by([0, 0]), 0);
    // 40%: 3 + 1 against 2 + 1 + 1 + 0.
    assert_eq!(by([400_000, 0]), 0);
    assert_eq!(by([0, 400_000]), 0);
    // 20%: 3 + 1 against 2 + 0 + 1 + 0.
    assert_eq!(by([200_000, 0]), 5);
    assert_eq!(by([0, 200_000]), 5);
}

#[test]
fn halves_round_up() {
    let mut sheet = vec![0; 96];
    sheet[22..36].fill(1);
    sheet[93..95].fill(1);
    // Direct fuel at m 5 / 2, 7 / 3 and 8 / 3.
    for (value, initial, expected) in [(5, 2, 3), (7, 3, 2), (8, 3, 3), (1, 2, 1), (1, 3, 0)] {
        sheet[1] = value;
        sheet[22] = initial;
        let mut book = Book::new();
        book.set(2018, 1, 1, &sheet).unwrap();
        assert_eq!(book.benchmark(0, 0, 0, 1), Ok(expected));
    }
}

#[test]
fn the_greatest_benchmark_and_excess() {
    let mut sheet = vec![100_000_000; 96];
    sheet[16..20].fill(1_000_000);
    sheet[22..36].fill(1_000_000_000);
    sheet[93..95].fill(20_000);
    sheet[95] = 1_000;
    let mut book = Book::new();
    book.set(2096, 1, 12, &sheet).unwrap();
    for i in 0..112 {
        let charge = book.benchmark(i / 8, i / 4 % 2, i / 2 % 2, i % 2);
        assert_eq!(charge, Ok(2_400_000_000));
    }
    assert_eq!(
        book.maximum(13, 1, 1, 120_000),
        Ok(Maximum {
            number: 2_400_000_000 * 12 * 20_000,
            denominator: 240_000
        })
    );
    // From nothing at nil to all at m, m 1.
    for nil in (0..16).step_by(2).chain((37..93).step_by(2)) {
        sheet[nil] = 0;
    }
    sheet[36] = 0;
    sheet[20..22].fill(0);
    sheet[93..95].fill(1);
    book.set(2096, 1, 12, &sheet).unwrap();
    assert_eq!(book.benchmark(0, 0, 0, 0), Ok(0));
    // WC, PC and OC 400,000,000 without SMNCC; doubled twice; network doubled.
    assert_eq!(book.benchmark(0, 0, 0, 1), Ok(1_800_000_000));
    assert_eq!(
        book.maximum(0, 0, 0, 120_000),
        Ok(Maximum {
            number: 12 * 1_800_000_000 * 120_000,
            denominator: 12
        })
    );
    // The dearest tariff against a cap of nothing, 366 days.
    let mut sheet = vec![0; 96];
    sheet[22..36].fill(1);
    sheet[93..95].fill(20_000);
    book.set(2096, 1, 12, &sheet).unwrap();
    book.put(1, &tariff(1, 1_000_000, &[200_000], &[])).unwrap();
    let excess = 240_000_000 * (1_000_000 * 366 + 200_000 * 120_000);
    assert_eq!(excess, 5_847_840_000_000_000_000);
    assert_over(book.open(1), (0, 0), &[10_000; 12], excess);
    assert_eq!(
        book.quote(1, 13, 1, &[10_000; 12]),
        Ok(Quote {
            charge: excess,
            maximum: 0
        })
    );
}

#[test]
fn an_empty_sheet_opens_only_what_is_free() {
    let mut sheet = vec![0; 96];
    sheet[22..29].fill(1);
    sheet[93..95].fill(1);
    let mut book = Book::new();
    book.set(2018, 2, 1, &sheet).unwrap();
    book.put(1, &tariff(1, 0, &[0], &[])).unwrap();
    assert_eq!(book.open(1), Ok(28));
    book.put(2, &tariff(1, 1, &[0], &[])).unwrap();
    assert_over(book.open(2), (0, 0), &[0], 12_000 * 28);
    book.put(3, &tariff(1, 0, &[0, 1], &[9_999])).unwrap();
    assert_over(book.open(3), (0, 0), &[10_000], 12_000);
}

// The calls.

#[test]
fn a_fresh_book() {
    let mut book = Book::new();
    for code in 1..=32 {
        assert_eq!(book.state(code), Some(State::Empty));
        assert_eq!(open_number(book.open(code)), 9);
        assert_eq!(number(book.close(code)), 9);
        assert_eq!(number(book.drop_code(code)), 9);
        assert_eq!(number(book.quote(code, 0, 0, &[])), 9);
    }
    assert_eq!(number(book.benchmark(0, 0, 0, 0)), 10);
    assert_eq!(number(book.maximum(0, 0, 0, 0)), 10);
    assert_eq!(number(book.benchmark(14, 0, 0, 0)), 13);
    assert_eq!(number(book.maximum(0, 0, 0, 120_001)), 13);
    book.put(1, &tariff(1, 0, &[0], &[])).unwrap();
    assert_eq!(open_number(book.open(1)), 10);
    assert_eq!(number(book.quote(1, 99, 99, &[])), 10);
    assert_eq!(number(book.close(1)), 12);
    assert_eq!(number(book.drop_code(1)), 0);
    assert_eq!(number(book.drop_code(1)), 9);
}

#[test]
fn put_open_close_drop() {
    let mut book = reference_book();
    let record = tariff(1, 23_000, &[18_000], &[]);
    let other = tariff(1, 22_000, &[17_000], &[]);
    assert_eq!(number(book.put(32, &record)), 0);
    assert_eq!(number(book.put(32, &other)), 0);
    assert_eq!(number(book.close(32)), 12);
    assert_eq!(book.open(32), Ok(28));
    // A bad record at an open place is 7, not 8.
    assert_eq!(number(book.put(32, &record)), 7);
    assert_eq!(number(book.put(32, &[])), 7);
    assert_eq!(number(book.drop_code(32)), 7);
    assert_eq!(book.state(32), Some(State::Open));
    // The second record stands.
    let quote = book.quote(32, 0, 1, &[1, 0, 0]).unwrap();
    assert_eq!(quote.charge, (22_000 * 92 + 17_000) * 36_000_000);
    assert_eq!(number(book.close(32)), 0);
    assert_eq!(number(book.close(32)), 12);
    // A bad record leaves the draft.
    assert_eq!(number(book.put(32, &[])), 8);
    assert_eq!(book.quote(32, 0, 1, &[1, 0, 0]), Ok(quote));
    assert_eq!(number(book.drop_code(32)), 0);
    assert_eq!(book.state(32), Some(State::Empty));
}

#[test]
fn a_sheet_demotes_what_exceeds_and_keeps_the_rest() {
    let mut book = reference_book();
    book.put(1, &tariff(1, 23_000, &[18_000], &[])).unwrap();
    book.put(2, &tariff(1, 23_960, &[18_000], &[])).unwrap();
    book.put(3, &tariff(1, 10_000, &[10_000], &[])).unwrap();
    book.put(4, &tariff(1, 23_961, &[18_000], &[])).unwrap();
    for code in 1..=3 {
        assert_eq!(book.open(code), Ok(28));
    }
    // SMNCC 480,000: at nil 20,200 less by Other, that is 54.9 mills a day.
    let mut sheet = reference();
    sheet[36] = 480_000;
    assert_eq!(number(book.set(2023, 10, 3, &sheet)), 0);
    assert_eq!(book.state(1), Some(State::Open));
    assert_eq!(book.state(2), Some(State::Draft));
    assert_eq!(book.state(3), Some(State::Open));
    assert_eq!(book.state(4), Some(State::Draft));
    // A kinder sheet opens nothing by itself.
    assert_eq!(number(book.set(2023, 10, 3, &reference())), 0);
    assert_eq!(book.state(2), Some(State::Draft));
    assert_eq!(book.open(2), Ok(28));
    // Only the last region tighter: still demoted. A refused sheet demotes nothing.
    // At nil 8,317,500 by Other (2,079,375 mills for three months against 2,116,000), and
    // 8,908,050 by Standard Credit (2,227,012.5).
    let mut sheet = reference();
    sheet[89] = 1_500_000;
    assert_eq!(number(book.set(2023, 13, 3, &sheet)), 3);
    assert_eq!(book.state(1), Some(State::Open));
    assert_eq!(number(book.set(2023, 10, 3, &sheet)), 0);
    assert_eq!(book.state(1), Some(State::Draft));
    assert_eq!(book.state(3), Some(State::Open));
    let breach = over_cap(book.open(1));
    assert_eq!((breach.region, breach.method), (13, 1));
}

#[test]
fn the_new_period_counts_too() {
    // 92 days of three months against 90 of January to March 2023.
    let mut book = Book::new();
    book.set(2023, 1, 3, &reference()).unwrap();
    // 2,204,375 / 90 = 24,493.05
    book.put(1, &tariff(1, 24_493, &[18_000], &[])).unwrap();
    assert_eq!(book.open(1), Ok(28));
    book.set(2023, 10, 3, &reference()).unwrap();
    assert_eq!(book.state(1), Some(State::Draft));
}

#[test]
fn cells_are_offered_regions_times_offered_methods() {
    let mut book = reference_book();
    for (regions, methods, cells) in [
        (1, 1, 1),
        (1 << 13, 2, 1),
        (0b101, 3, 4),
        (ALL, 1, 14),
        (ALL, 3, 28),
        (ALL - 1, 3, 26),
    ] {
        let mut record = tariff(1, 0, &[0], &[]);
        (record[3], record[4]) = (regions, methods);
        book.put(9, &record).unwrap();
        assert_eq!(book.open(9), Ok(cells));
        book.close(9).unwrap();
    }
}

#[test]
fn the_walk_goes_by_region_then_method() {
    let mut sheet = reference();
    // Region 5 is the tightest: at nil 8,317,500 by Other, 8,908,050 by Standard Credit.
    sheet[37 + 4 * 5] = 1_500_000;
    let mut book = Book::new();
    book.set(2023, 10, 3, &sheet).unwrap();
    let mut record = tariff(1, 23_900, &[18_000], &[]);
    book.put(1, &record).unwrap();
    let breach = over_cap(book.open(1));
    assert_eq!((breach.region, breach.method), (5, 1));
    record[2] = 30_000;
    book.put(1, &record).unwrap();
    let breach = over_cap(book.open(1));
    assert_eq!((breach.region, breach.method), (0, 0));
    // Not offered in the regions before.
    record[3] = 1 << 5 | 1 << 9;
    record[4] = 2;
    book.put(1, &record).unwrap();
    let breach = over_cap(book.open(1));
    assert_eq!((breach.region, breach.method), (5, 1));
    // The first cell that exceeds, not the worst.
    record[3] = 1 << 4 | 1 << 5;
    book.put(1, &record).unwrap();
    let breach = over_cap(book.open(1));
    assert_eq!((breach.region, breach.method), (4, 1));
}

#[test]
fn the_smallest_of_the_worst_months() {
    // 10 mills per kWh at the cap and nothing at nil.
    let mut sheet = vec![0; 96];
    sheet[22..36].fill(1);
    for pair in (37..93).step_by(2) {
        sheet[pair + 1] = 1_000;
    }
    sheet[93..95].fill(100);
    sheet[95] = 580;
    let mut book = Book::new();
    book.set(2018, 2, 2, &sheet).unwrap();
    let worst = |book: &mut Book, kind, rates: &[u32], steps: &[u32]| {
        book.put(1, &tariff(kind, 1, rates, steps)).unwrap();
        over_cap(book.open(1)).months().to_vec()
    };
    assert_eq!(worst(&mut book, 1, &[10], &[]), [0, 0]);
    assert_eq!(worst(&mut book, 1, &[9], &[]), [0, 0]);
    assert_eq!(worst(&mut book, 1, &[11], &[]), [10_000, 10_000]);
    assert_eq!(worst(&mut book, 1, &[10, 11], &[7]), [10_000, 10_000]);
    assert_eq!(worst(&mut book, 1, &[11, 10], &[7]), [7, 7]);
    assert_eq!(worst(&mut book, 1, &[11, 9], &[7]), [7, 7]);
    assert_eq!(worst(&mut book, 1, &[9, 11, 0], &[7, 14]), [0, 0]);
    assert_eq!(worst(&mut book, 1, &[9, 11, 0], &[7, 15]), [15, 15]);
    assert_eq!(worst(&mut book, 1, &[11, 9, 11, 0], &[7, 14, 21]), [7, 7]);
    assert_eq!(worst(&mut book, 1, &[11, 9, 11, 0], &[7, 14, 22]), [22, 22]);
    assert_eq!(worst(&mut book, 1, &[9, 11], &[5_000]), [0, 0]);
    assert_eq!(worst(&mut book, 1, &[9, 11], &[4_999]), [10_000, 10_000]);
    assert_eq!(worst(&mut book, 1, &[11, 9, 11], &[2, 5_001]), [2, 2]);
    assert_eq!(
        worst(&mut book, 1, &[11, 9, 11], &[2, 5_000]),
        [10_000, 10_000]
    );
    assert_eq!(worst(&mut book, 2, &[10, 10], &[]), [0, 0]);
    assert_eq!(worst(&mut book, 2, &[11, 10], &[]), [10_000, 10_000]);
    assert_eq!(worst(&mut book, 3, &[20, 0], &[500, 500]), [0, 0]);
    assert_eq!(worst(&mut book, 3, &[20, 0], &[501, 499]), [10_000, 10_000]);
}

#[test]
fn records() {
    let mut book = Book::new();
    let mut put = |record: &[u32]| number(book.put(1, record));
    let one = with_zeros([1, 1, 0, 1, 1, 5, 0, 0, 0, 0, 0, 0, 0]);
    let four = with_zeros([1, 4, 0, 1, 1, 5, 5, 5, 5, 1, 2, 9_999, 0]);
    let e7 = with_zeros([2, 2, 0, 1, 1, 5, 5, 0, 0, 0, 0, 0, 0]);
    let multi = with_zeros([3, 3, 0, 1, 1, 5, 5, 5, 0, 0, 1_000, 0, 0]);
    for good in [one, four, e7, multi] {
        assert_eq!(put(&good), 0);
        // Document 02, M-104: 27 numbers, and no longer 13.
        for length in [1, 12, 13, 14, 26] {
            assert_eq!(put(&good[..length]), 8);
        }
        assert_eq!(put(&[&good[..], &[0]].concat()), 8);
    }
    assert_eq!(put(&[]), 8);
    let with = |record: [u32; RECORD], changes: &[(usize, u32)]| {
        let mut record = record;
        for &(place, value) in changes {
            record[place] = value;
        }
        record
    };
    // Good at their limits.
    for (record, changes) in [
        (one, &[(2, 1_000_000), (3, ALL), (4, 3), (5, 200_000)][..]),
        (one, &[(5, 0)]),
        (four, &[(9, 9_997), (10, 9_998)]),
        (four, &[(10, 9_998)]),
        (multi, &[(9, 333), (10, 333), (11, 334)]),
        (multi, &[(1, 4), (8, 7), (10, 1), (12, 999)]),
        (multi, &[(1, 2), (7, 0)]),
    ] {
        assert_eq!(
            put(&with(record, changes)),
            0,
            "{record:?} with {changes:?}"
        );
    }
    for (record, changes) in [
        (one, &[(0, 0)][..]),
        (one, &[(0, 4)]),
        (one, &[(0, u32::MAX)]),
        (one, &[(1, 0)]),
        (four, &[(1, 5)]),
        (four, &[(1, 3)]),
        (one, &[(1, u32::MAX)]),
        (one, &[(2, 1_000_001)]),
        (one, &[(3, 0)]),
        (one, &[(3, ALL + 1)]),
        (one, &[(3, ALL + 2)]),
        (one, &[(3, u32::MAX)]),
        (one, &[(4, 0)]),
        (one, &[(4, 4)]),
        (one, &[(4, 7)]),
        (one, &[(5, 200_001)]),
        (four, &[(8, 200_001)]),
        (one, &[(6, 1)]),
        (one, &[(8, 1)]),
        (one, &[(9, 1)]),
        (one, &[(12, 1)]),
        (four, &[(12, 9_999)]),
        (four, &[(12, 10_000)]),
        (four, &[(11, 10_000)]),
        (four, &[(9, 0)]),
        (four, &[(10, 1)]),
        (four, &[(9, 3)]),
        (four, &[(11, 2)]),
        (e7, &[(1, 1), (6, 0)]),
        (e7, &[(1, 3)]),
        (e7, &[(7, 1)]),
        (e7, &[(9, 580), (10, 420)]),
        (e7, &[(9, 58), (10, 42)]),
        (e7, &[(9, 1)]),
        (multi, &[(1, 1), (6, 0), (7, 0), (9, 1_000), (10, 0)]),
        (multi, &[(1, 5)]),
        (multi, &[(10, 999)]),
        (multi, &[(10, 100)]),
        (multi, &[(9, 33), (10, 33), (11, 34)]),
        (multi, &[(9, 1)]),
        (multi, &[(10, 1_001)]),
        (multi, &[(9, u32::MAX), (10, 1_001)]),
        (multi, &[(9, 1 << 31), (10, (1 << 31) + 1_000)]),
        (multi, &[(10, 999), (12, 1)]),
        (multi, &[(8, 1)]),
    ] {
        assert_eq!(
            put(&with(record, changes)),
            8,
            "{record:?} with {changes:?}"
        );
    }
}

#[test]
fn arguments_outside_their_range() {
    let book = reference_book();
    for past in [2, 3, 32, 256, u32::MAX] {
        assert_eq!(number(book.benchmark(0, past, 0, 0)), 13);
        assert_eq!(number(book.benchmark(0, 0, past, 0)), 13);
        assert_eq!(number(book.benchmark(0, 0, 0, past)), 13);
        assert_eq!(number(book.maximum(0, past, 0, 0)), 13);
        assert_eq!(number(book.maximum(0, 0, past, 0)), 13);
    }
    for past in [14, 15, 32, 256, u32::MAX] {
        assert_eq!(number(book.benchmark(past, 0, 0, 0)), 13);
        assert_eq!(number(book.maximum(past, 0, 0, 0)), 13);
    }
    for total in [120_001, 1 << 31, u32::MAX] {
        assert_eq!(number(book.maximum(0, 0, 0, total)), 13);
    }
}

#[test]
fn maximum_is_not_reduced() {
    let book = reference_book();
    // N x 3 x 3,000 + 12 x 55,652,000 x 300 over 36,000: 7,769,575 mills.
    let maximum = book.maximum(0, 0, 1, 300).unwrap();
    assert_eq!(maximum.number, 279_704_700_000);
    assert_eq!(maximum.denominator, 36_000);
    assert_eq!(maximum.number, 7_769_575 * 36_000);
    let maximum = book.maximum(13, 1, 1, 0).unwrap();
    assert_eq!(maximum.number, 8_817_500 * 3 * 4_000);
    assert_eq!(maximum.denominator, 48_000);
    let maximum = book.maximum(7, 0, 1, 120_000).unwrap();
    assert_eq!(
        maximum.number,
        8_817_500 * 9_000 + 12 * 55_652_000 * 120_000
    );
}

#[test]
fn quotes() {
    let mut book = reference_book();
    let mut record = tariff(1, 20_000, &[20_000, 15_000], &[100]);
    (record[3], record[4]) = (1 << 3 | 1 << 13, 2);
    book.put(4, &record).unwrap();
    let quote = |region, method, months: &[u32]| book.quote(4, region, method, months);
    assert_eq!(number(quote(3, 1, &[0, 0, 0])), 0);
    assert_eq!(number(quote(13, 1, &[10_000, 10_000, 10_000])), 0);
    for region in [0, 4, 12, 14, 31, 32, 35, 45, 64, 67, u32::MAX] {
        assert_eq!(number(quote(region, 1, &[0, 0, 0])), 13);
    }
    for method in [0, 2, 3, 32, 33, u32::MAX] {
        assert_eq!(number(quote(3, method, &[0, 0, 0])), 13);
    }
    assert_eq!(number(quote(3, 1, &[])), 13);
    assert_eq!(number(quote(3, 1, &[0, 0])), 13);
    assert_eq!(number(quote(3, 1, &[0, 0, 0, 0])), 13);
    for i in 0..3 {
        for month in [10_001, 1 << 31, u32::MAX] {
            let mut months = [0; 3];
            months[i] = month;
            assert_eq!(number(quote(3, 1, &months)), 13);
        }
    }
    // 1,840,000 standing; 99, 100 and 101 kWh.
    let charge = 1_840_000 + 99 * 20_000 + 100 * 20_000 + 100 * 20_000 + 15_000;
    assert_eq!(
        quote(3, 1, &[99, 100, 101]),
        Ok(Quote {
            charge: charge * 36_000_000,
            maximum: 279_704_700_000_000,
        })
    );
}

#[test]
fn three_registers() {
    let mut book = reference_book();
    let record = tariff(3, 1_000, &[10_000, 20_001, 30_000], &[333, 333, 334]);
    book.put(1, &record).unwrap();
    // 3,330,000 + 6,660,333 + 10,020,000 thousandths of a mill per kWh.
    let quote = book.quote(1, 0, 0, &[1, 0, 2]).unwrap();
    assert_eq!(quote.charge, 12 * 4_000 * (1_000 * 92_000 + 3 * 20_010_333));
    assert_eq!(
        quote.maximum,
        1_000 * book.maximum(0, 1, 0, 3).unwrap().number
    );
}
