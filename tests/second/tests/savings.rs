//! The smart meter component below zero (M-102), on the reference sheet of document 01, its
//! numbers written out by hand.

mod common;

use common::{reference, reference_book, tariff};
use second::random::Random;
use second::{common_sums, Book, Maximum, NotOpened, Refusal, State};

/// The word of an SMNCC, in two's complement.
fn word(smncc: i64) -> u32 {
    (smncc & 0xffff_ffff) as u32
}

/// The reference sheet with this SMNCC and these fields changed.
fn with(smncc: i64, changes: &[(usize, u32)]) -> Vec<u32> {
    let mut sheet = reference();
    sheet[36] = word(smncc);
    for &(field, value) in changes {
        sheet[field] = value;
    }
    sheet
}

/// The answer to a sheet, 0 if it is taken: of SET, and of TRIAL on a fresh book and on another.
fn answer_in(year: u32, month: u32, t: u32, sheet: &[u32]) -> u32 {
    let number = |refusal: Option<Refusal>| refusal.map_or(0, Refusal::number);
    let mut book = reference_book();
    let tried = number(book.trial(year, month, t, sheet).err());
    assert_eq!(
        number(Book::new().trial(year, month, t, sheet).err()),
        tried
    );
    assert_eq!(number(book.set(year, month, t, sheet).err()), tried);
    if tried > 0 {
        assert_eq!(benchmarks(&book, 0), benchmarks(&reference_book(), 0));
        assert_eq!(book.t(), Some(3));
    }
    tried
}

fn answer(sheet: &[u32]) -> u32 {
    answer_in(2023, 10, 3, sheet)
}

fn book_with(sheet: &[u32]) -> Book {
    let mut book = Book::new();
    book.set(2023, 10, 3, sheet).unwrap();
    book
}

/// The eight of a region: by arrangement, then method, then level.
fn benchmarks(book: &Book, region: u32) -> [u32; 8] {
    let eight = [0, 1, 2, 3, 4, 5, 6, 7];
    eight.map(|i| book.benchmark(region, i / 4, i / 2 % 2, i % 2).unwrap())
}

/// The eight sums of a sheet, and the eight benchmarks that every region has.
fn assert_figures(sheet: &[u32], sums: [u64; 8], expected: [u32; 8]) {
    assert_eq!(common_sums(sheet.first_chunk().unwrap()), Ok(sums));
    let book = book_with(sheet);
    for region in 0..14 {
        assert_eq!(benchmarks(&book, region), expected);
    }
}

#[test]
fn words_in_twos_complement() {
    assert_eq!(word(-1), 4_294_967_295);
    assert_eq!(word(-500_000), 4_294_467_296);
    assert_eq!(word(-5_250_000), 4_289_717_296);
    assert_eq!(word(-100_000_000), 4_194_967_296);
}

#[test]
fn a_saving_of_500_000() {
    // OC is 5,250,000 - 500,000 and 9,450,000 - 500,000. WC + PC + OC + PAENC + H, the network
    // then adds 2,000,000 and 12,000,000, and 2% of that by Standard Credit.
    assert_figures(
        &with(-500_000, &[]),
        [
            6_347_850,  // 0 + 1,000,000 + 4,750,000 + 535,000 + 62,850
            52_912_890, // 34,000,000 + 8,000,000 + 8,950,000 + 1,439,000 + 523,890
            5_807_500,  // 0 + 1,000,000 + 4,750,000 + 0 + 57,500
            51_459_500, // 34,000,000 + 8,000,000 + 8,950,000 + 0 + 509,500
            6_347_850,  // 0 + 1,000,000 + 4,750,000 + 535,000 + 62,850
            59_712_210, // 40,600,000 + 8,000,000 + 8,950,000 + 1,571,000 + 591,210
            5_807_500,  // 0 + 1,000,000 + 4,750,000 + 0 + 57,500
            58_125_500, // 40,600,000 + 8,000,000 + 8,950,000 + 0 + 575,500
        ],
        [
            8_387_850, 65_152_890, 7_807_500, 63_459_500, 8_387_850, 71_952_210, 7_807_500,
            70_125_500,
        ],
    );
}

#[test]
fn verdicts_under_a_saving_of_500_000() {
    let mut book = book_with(&with(-500_000, &[]));
    // 7,807,500 x 3 x 3,000 + 12 x 55,652,000 x 300.
    assert_eq!(
        book.maximum(0, 0, 1, 300),
        Ok(Maximum {
            number: 270_614_700_000,
            denominator: 36_000
        })
    );
    // 7,807,500 / 4 = 1,951,875 for the quarter: 92 days at 21,216 are 1,951,872, at 21,217
    // they are 89 mills over.
    book.put(1, &tariff(1, 21_216, &[18_000], &[])).unwrap();
    assert_eq!(book.open(1), Ok(28));
    book.put(2, &tariff(1, 21_217, &[18_000], &[])).unwrap();
    let Err(NotOpened::OverCap(breach)) = book.open(2) else {
        panic!("not refusal 11");
    };
    assert_eq!((breach.region, breach.method), (0, 1));
    assert_eq!(breach.months(), [0, 0, 0]);
    assert_eq!(breach.excess, 89 * 36_000_000);
}

#[test]
fn what_a_saving_makes_fall() {
    let mut book = reference_book();
    for (code, standing) in [(1, 23_960), (2, 21_216), (3, 21_217)] {
        book.put(code, &tariff(1, standing, &[18_000], &[]))
            .unwrap();
        assert_eq!(book.open(code), Ok(28));
    }
    let sheet = with(-500_000, &[]);
    assert_eq!(book.trial(2023, 10, 3, &sheet), Ok(0b101));
    // One refused by 14 makes nothing fall.
    let refused = book.set(2023, 10, 3, &with(-5_250_001, &[]));
    assert_eq!(refused, Err(Refusal::OcBelowZero));
    assert_eq!(book.state(1), Some(State::Open));
    book.set(2023, 10, 3, &sheet).unwrap();
    assert_eq!(
        [1, 2, 3].map(|code| book.state(code).unwrap()),
        [State::Draft, State::Open, State::Draft]
    );
    // Back to a cost: none falls.
    assert_eq!(book.trial(2023, 10, 3, &reference()), Ok(0));
}

#[test]
fn an_oc_of_0_passes_and_a_mill_less_is_14() {
    // OC is 0 at nil and 4,200,000 at m.
    let sums = [
        1_454_400,  // 0 + 1,000,000 + 0 + 440,000 + 14,400
        48_019_440, // 34,000,000 + 8,000,000 + 4,200,000 + 1,344,000 + 475,440
        1_010_000,  // 0 + 1,000,000 + 0 + 0 + 10,000
        46_662_000, // 34,000,000 + 8,000,000 + 4,200,000 + 0 + 462,000
        1_454_400,  // 0 + 1,000,000 + 0 + 440,000 + 14,400
        54_818_760, // 40,600,000 + 8,000,000 + 4,200,000 + 1,476,000 + 542,760
        1_010_000,  // 0 + 1,000,000 + 0 + 0 + 10,000
        53_328_000, // 40,600,000 + 8,000,000 + 4,200,000 + 0 + 528,000
    ];
    let eight = [
        3_494_400, 60_259_440, 3_010_000, 58_662_000, 3_494_400, 67_058_760, 3_010_000, 65_328_000,
    ];
    assert_figures(&with(-5_250_000, &[]), sums, eight);
    // A mill of OC more: no percentage of it is half a mill.
    assert_figures(
        &with(-5_249_999, &[]),
        sums.map(|sum| sum + 1),
        eight.map(|charge| charge + 1),
    );
    // Though WC + PC + OC at nil would be 999,999.
    assert_eq!(answer(&with(-5_250_001, &[])), 14);
}

#[test]
fn each_of_the_four_alone_below_zero() {
    // The term of 5,000,000 is 5,250,000, that of 4,999,999 is 5,249,998.95, so 5,249,999.
    let alike = |low: Option<usize>| {
        let mut sheet = with(-5_250_000, &[]);
        sheet[12..16].fill(5_000_000);
        if let Some(four) = low {
            sheet[12 + four] = 4_999_999;
        }
        sheet
    };
    assert_eq!(answer(&alike(None)), 0);
    for four in 0..4 {
        assert_eq!(answer(&alike(Some(four))), 14);
        // With the reference sheet's costs in the other places.
        assert_eq!(answer(&with(-5_250_000, &[(12 + four, 4_999_999)])), 14);
        assert_eq!(answer(&with(-5_250_000, &[(12 + four, 5_000_000)])), 0);
    }
}

#[test]
fn the_term_is_rounded_before_smncc() {
    // 4,999,990 x 105 / 100 = 5,249,989.5, rounded up.
    let nil = [(12, 4_999_990), (14, 4_999_990)];
    assert_eq!(answer(&with(-5_249_990, &nil)), 0);
    assert_eq!(answer(&with(-5_249_991, &nil)), 14);
    let book = book_with(&with(-5_249_990, &nil));
    assert_eq!(book.benchmark(0, 0, 1, 0), Ok(3_010_000));
    // OC at m is 4,200,010.
    assert_eq!(book.benchmark(0, 0, 1, 1), Ok(58_662_010));
}

#[test]
fn the_range_of_smncc() {
    for (smncc, expected) in [
        (0, 0),
        (1, 0),
        (100_000_000, 0),
        (100_000_001, 2),
        (2_147_483_647, 2),
        (-2_147_483_648, 2),
        (-100_000_001, 2),
        (-100_000_000, 14),
        (-99_999_999, 14),
        (-1, 0),
    ] {
        assert_eq!(answer(&with(smncc, &[])), expected, "{smncc}");
    }
    // The fields of money around it are not signed.
    for field in [15, 20, 21, 35, 37, 92] {
        assert_eq!(answer(&with(500_000, &[(field, word(-1))])), 2);
        assert_eq!(answer(&with(500_000, &[(field, word(-100_000_000))])), 2);
    }
}

#[test]
fn the_greatest_saving() {
    // Operating costs of 100,000,000 for all of the four, by an index that has not moved: OC is 0.
    let costs: Vec<_> = (12..16)
        .map(|field| (field, 100_000_000))
        .chain([(31, 100)])
        .collect();
    assert_figures(
        &with(-100_000_000, &costs),
        [
            1_434_200,  // 0 + 1,000,000 + 0 + 420,000 + 14,200
            43_672_400, // 34,000,000 + 8,000,000 + 0 + 1,240,000 + 432,400
            1_010_000,  // 0 + 1,000,000 + 0 + 0 + 10,000
            42_420_000, // 34,000,000 + 8,000,000 + 0 + 0 + 420,000
            1_434_200,  // 0 + 1,000,000 + 0 + 420,000 + 14,200
            50_471_720, // 40,600,000 + 8,000,000 + 0 + 1,372,000 + 499,720
            1_010_000,  // 0 + 1,000,000 + 0 + 0 + 10,000
            49_086_000, // 40,600,000 + 8,000,000 + 0 + 0 + 486,000
        ],
        [
            3_474_200, 55_912_400, 3_010_000, 54_420_000, 3_474_200, 62_711_720, 3_010_000,
            61_086_000,
        ],
    );
    assert_eq!(answer(&with(-100_000_001, &costs)), 2);
    for four in 12..16 {
        let mut sheet = with(-100_000_000, &costs);
        sheet[four] = 99_999_999;
        assert_eq!(answer(&sheet), 14);
    }

    // By the reference sheet's index 95,238,095 are 99,999,999.75, rounded up.
    let costs = [12, 13, 14, 15].map(|field| (field, 95_238_095));
    assert_figures(
        &with(-100_000_000, &costs),
        [
            1_454_400,  // 0 + 1,000,000 + 0 + 440,000 + 14,400
            43_692_600, // 34,000,000 + 8,000,000 + 0 + 1,260,000 + 432,600
            1_010_000,  // 0 + 1,000,000 + 0 + 0 + 10,000
            42_420_000, // 34,000,000 + 8,000,000 + 0 + 0 + 420,000
            1_454_400,  // 0 + 1,000,000 + 0 + 440,000 + 14,400
            50_491_920, // 40,600,000 + 8,000,000 + 0 + 1,392,000 + 499,920
            1_010_000,  // 0 + 1,000,000 + 0 + 0 + 10,000
            49_086_000, // 40,600,000 + 8,000,000 + 0 + 0 + 486,000
        ],
        [
            3_494_400, 55_932_600, 3_010_000, 54_420_000, 3_494_400, 62_731_920, 3_010_000,
            61_086_000,
        ],
    );
}

#[test]
fn fourteen_in_its_place() {
    let saving = -5_250_001;
    assert_eq!(answer(&with(saving, &[])), 14);
    // Before it 1, 2 and 3.
    assert_eq!(answer(&with(saving, &[])[..95]), 1);
    assert_eq!(answer(&[&with(saving, &[])[..], &[0]].concat()), 1);
    assert_eq!(answer(&with(saving, &[(93, 0)])), 2);
    assert_eq!(answer_in(2023, 13, 3, &with(saving, &[])), 3);
    assert_eq!(answer_in(2100, 10, 3, &with(saving, &[])), 3);
    assert_eq!(answer_in(2023, 10, 0, &with(saving, &[])), 3);
    // And 4, by every sort of term. The least that is too high, and one less.
    for (changes, field, least) in [
        // 1,100 / 1,000: 100,000,001.2 and 100,000,000.1.
        (&[][..], 0, 90_909_092),
        (&[], 3, 90_909_092),
        // An index of 101 / 100: 100,000,001.02 and 100,000,000.01.
        (&[(30, 101)], 4, 99_009_902),
        (&[(30, 101)], 7, 99_009_902),
        (&[(32, 101)], 8, 99_009_902),
        (&[(35, 101)], 11, 99_009_902),
        // 105 / 100: 100,000,000.8 and 99,999,999.75.
        (&[], 13, 95_238_096),
        (&[], 15, 95_238_096),
        (&[], 20, 95_238_096),
        (&[], 21, 95_238_096),
    ] {
        let at = |value| answer(&with(saving, &[changes, &[(field, value)]].concat()));
        assert_eq!(at(least), 4, "field {field}");
        assert_eq!(at(least - 1), 14, "field {field}");
    }
    // After it 5: a network cost at nil of 100,000,000, in the first region or in the last.
    for nil in [37, 39, 89, 91] {
        let falls = [(nil, 100_000_000)];
        assert_eq!(answer(&with(saving, &falls)), 14);
        assert_eq!(answer(&with(-5_250_000, &falls)), 5);
    }
    // 4, 14 and 5 together.
    let all = [(20, 100_000_000), (37, 100_000_000)];
    assert_eq!(answer(&with(saving, &all)), 4);
}

/// With an index that has not moved, SMNCC is as much more or less in each of OC0.
#[test]
fn a_saving_is_as_much_less_of_each_oc0() {
    let mut random = Random::new(102);
    let (mut taken, mut below) = (0, 0);
    while taken < 4_000 || below < 1_000 {
        let mut sheet = with(0, &[(31, 100)]);
        for percentage in &mut sheet[16..20] {
            *percentage = random.any_size(1_000_000);
        }
        let four: [u32; 4] = std::array::from_fn(|_| random.between(0, 30_000_000));
        let lowest = *four.iter().min().unwrap();
        let saving = match random.below(4) {
            0 => lowest,
            1 => lowest + 1,
            _ => random.between(0, lowest + lowest / 4),
        };
        sheet[12..16].copy_from_slice(&four);
        sheet[36] = word(-i64::from(saving));
        if saving > lowest {
            assert_eq!(answer(&sheet), 14);
            below += 1;
            continue;
        }
        let mut less = sheet.clone();
        less[36] = 0;
        for oc0 in &mut less[12..16] {
            *oc0 -= saving;
        }
        let sums = |sheet: &[u32]| common_sums(sheet.first_chunk().unwrap());
        assert_eq!(sums(&sheet), sums(&less));
        assert_eq!(answer(&sheet), answer(&less));
        taken += 1;
    }
}
