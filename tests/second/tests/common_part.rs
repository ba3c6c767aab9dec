//! The common part of the benchmarks (M-101): eight sums WC + PC + OC + PAENC + H, worked out
//! from fields 0 to 36 alone. To its sum each of the 112 figures adds NC and PANC.

mod common;

use common::reference;
use second::random::Random;
use second::{common_sums, field_range, Book, Refusal, SheetError};

/// The sums of a sheet, by arrangement, then method, then level.
fn sums(sheet: &[u32]) -> Result<[u64; 8], SheetError> {
    common_sums(sheet.first_chunk().unwrap())
}

fn round(n: u64, d: u64) -> u64 {
    n / d + u64::from(n % d * 2 >= d)
}

/// Each sum plus NC and PANC, by region, arrangement, method and level.
fn figures(sums: &[u64; 8], sheet: &[u32]) -> Vec<u64> {
    let figure = |i: usize| {
        let (region, arrangement, method, level) = (i / 8, i / 4 % 2, i / 2 % 2, i % 2);
        let nc = u64::from(sheet[37 + 4 * region + 2 * arrangement + level]);
        let pap = u64::from(sheet[18 + method]);
        sums[i % 8] + nc + round(pap * nc, 1_000_000)
    };
    (0..112).map(figure).collect()
}

/// The 112 figures that the book gives, in the same order.
fn benchmarks(book: &Book) -> Vec<u64> {
    (0..112)
        .map(|i| book.benchmark(i / 8, i / 4 % 2, i / 2 % 2, i % 2))
        .map(|figure| figure.unwrap().into())
        .collect()
}

/// All 112 with different weights.
fn weighted(book: &Book) -> u64 {
    let figures = benchmarks(book);
    (1..).zip(figures).map(|(i, figure)| i * figure).sum()
}

fn set(book: &mut Book, sheet: &[u32]) -> u32 {
    book.set(2023, 10, 3, sheet)
        .map_or_else(Refusal::number, |()| 0)
}

#[test]
fn the_sums_of_the_reference_sheet() {
    // WC + PC + OC + PAENC + H. WC is 0 at nil and 33,000,000 + 1,000,000 at m, for Economy 7
    // 39,600,000 + 1,000,000. OC is 5,250,000 + 500,000 and 9,450,000 + 500,000. PAENC is
    // 420,000 + 2% by Standard Credit and 0 by Other. H is 1%.
    let expected = [
        7_378_050,  // 0 + 1,000,000 + 5,750,000 + 555,000 + 73,050
        53_943_090, // 34,000,000 + 8,000,000 + 9,950,000 + 1,459,000 + 534,090
        6_817_500,  // 0 + 1,000,000 + 5,750,000 + 0 + 67,500
        52_469_500, // 34,000,000 + 8,000,000 + 9,950,000 + 0 + 519,500
        7_378_050,  // 0 + 1,000,000 + 5,750,000 + 555,000 + 73,050
        60_742_410, // 40,600,000 + 8,000,000 + 9,950,000 + 1,591,000 + 601,410
        6_817_500,  // 0 + 1,000,000 + 5,750,000 + 0 + 67,500
        59_135_500, // 40,600,000 + 8,000,000 + 9,950,000 + 0 + 585,500
    ];
    assert_eq!(sums(&reference()), Ok(expected));
}

/// A sheet with different values everywhere.
fn sheet_u() -> Vec<u32> {
    let mut sheet = vec![
        1_000_000, 31_000_000, 2_000_000, 37_000_000, // DF0
        300_000, 1_500_000, 350_000, 1_750_000, // CM0
        1_100_000, 8_300_000, 1_200_000, 8_600_000, // PC0
        5_200_000, 9_100_000, 5_300_000, 9_400_000, // OC0
        10_000, 15_000, 20_000, 3_000, 400_000, 70_000, // HAP, PAP, PAAC
        1_000, 200, 101, 103, 107, 109, 113, // initial
        1_100, 210, 106, 104, 110, 111, 120, // current
        512_345,
    ];
    for region in 0..14 {
        sheet.extend([
            2_200_000 - 10_007 * region,
            12_400_000 - 30_011 * region,
            2_100_000 + 20_021 * region,
            12_500_000 + 40_039 * region,
        ]);
    }
    sheet.extend([3_100, 4_200, 583]);
    sheet
}

/// Worked out in fractions beside the program.
#[test]
fn the_sums_of_a_sheet_of_different_values() {
    let sheet = sheet_u();
    // WC + PC + OC + PAENC + H.
    let expected = [
        9_176_014,  // 1,415,000 + 1,110,680 + 5,969,771 + 589,711 + 90,852
        56_333_521, // 35,675,000 + 8,532,710 + 10,062,840 + 1,505,213 + 557,758
        8_680_346,  // 1,415,000 + 1,110,680 + 5,969,771 + 98,951 + 85,944
        55_051_895, // 35,675,000 + 8,532,710 + 10,062,840 + 236,277 + 545,068
        10_638_546, // 2,567,500 + 1,222,018 + 6,074,721 + 617,087 + 157,220
        64_664_326, // 42,537,500 + 9,132,743 + 10,377,692 + 1,660,761 + 955,630
        10_116_806, // 2,567,500 + 1,222,018 + 6,074,721 + 103,058 + 149,509
        63_242_157, // 42,537,500 + 9,132,743 + 10,377,692 + 259,609 + 934,613
    ];
    assert_eq!(sums(&sheet), Ok(expected));

    // One figure, region 0, single-rate, Standard Credit, m:
    // WC     34,100,000 + 1,575,000 = 35,675,000
    // PC     8,532,710
    // OC     9,550,495 + 512,345 = 10,062,840
    // PAENC  419,802 + 1,085,411 = 1,505,213, the second 2% of 54,270,550
    // H      557,758, 1% of 55,775,763
    // NC     12,400,000
    // PANC   248,000, 2% of NC
    let mut book = Book::new();
    assert_eq!(set(&mut book, &sheet), 0);
    assert_eq!(book.benchmark(0, 0, 0, 1), Ok(68_981_521));
    assert_eq!(weighted(&book), 269_047_656_735);
}

/// The same sheet with SMNCC below zero (M-102), worked out in fractions beside the program.
#[test]
fn the_sums_of_a_sheet_of_different_values_with_a_saving() {
    let mut sheet = sheet_u();
    sheet[36] = 4_294_454_951; // -512,345
    let expected = [
        8_120_378,  // 1,415,000 + 1,110,680 + 4,945,081 + 569,217 + 80,400
        55_277_885, // 35,675,000 + 8,532,710 + 9,038,150 + 1,484,719 + 547,306
        7_642_304,  // 1,415,000 + 1,110,680 + 4,945,081 + 95,877 + 75,666
        54_013_854, // 35,675,000 + 8,532,710 + 9,038,150 + 233,203 + 534,791
        9_577_684,  // 2,567,500 + 1,222,018 + 5,050,031 + 596,593 + 141,542
        63_603_465, // 42,537,500 + 9,132,743 + 9,353,002 + 1,640,267 + 939,953
        9_073_626,  // 2,567,500 + 1,222,018 + 5,050,031 + 99,984 + 134,093
        62_198_977, // 42,537,500 + 9,132,743 + 9,353,002 + 256,535 + 919,197
    ];
    assert_eq!(sums(&sheet), Ok(expected));
    let mut book = Book::new();
    assert_eq!(set(&mut book, &sheet), 0);
    assert_eq!(weighted(&book), 262_407_272_635);

    // The operating cost of single-rate at nil, 5,457,426, is all saved.
    sheet[36] = 4_289_509_870;
    assert_eq!(set(&mut book, &sheet), 0);
    assert_eq!(weighted(&book), 230_361_244_915);
    sheet[36] -= 1;
    assert_eq!(set(&mut book, &sheet), 14);
}

/// One more in a field moves the sums that it belongs to, and no others.
#[test]
fn each_field_from_0_to_36_matters() {
    let sheet = sheet_u();
    let before = sums(&sheet).unwrap();
    for field in 0..37 {
        let mut changed = sheet.clone();
        changed[field] += 1;
        assert_eq!(set(&mut Book::new(), &changed), 0);
        let after = sums(&changed).unwrap();
        for i in 0..8 {
            let (arrangement, method, level) = (i / 4, i / 2 % 2, i % 2);
            let four = 2 * arrangement + level;
            let moves = match field {
                0..=15 => field % 4 == four,
                16..=17 => field - 16 == arrangement,
                18..=21 => field % 2 == method,
                25..=28 => field - 25 == four,
                32..=35 => field - 32 == four,
                _ => true,
            };
            assert_eq!(after[i] != before[i], moves, "field {field}, sum {i}");
        }
    }
}

/// Fields 0 to 36 of a sheet: costs of one size, mostly higher at m, and now and then a saving or
/// a field at an end of its range.
fn random_common(random: &mut Random) -> Vec<u32> {
    let size = random.pick(&[50_000_000, 5_000_000, 50]);
    let mut fields: Vec<_> = (0..37)
        .map(|field| match field {
            16..=19 => random.between(0, 1_000_000),
            _ => random.between(0, size),
        })
        .collect();
    for pair in fields[..16].chunks_mut(2) {
        if !random.one_in(8) {
            pair.sort();
        }
    }
    for initial in 22..29 {
        fields[initial] = 1 + random.any_size(499_999_999);
        fields[initial + 7] = random.between(0, 2 * fields[initial]);
    }
    if random.one_in(4) {
        fields[36] = (fields[36] / 4).wrapping_neg();
    }
    if random.one_in(4) {
        let field = random.index(37);
        let (lowest, highest) = field_range(field);
        fields[field] = random.pick(&[lowest, highest]) as u32;
    }
    fields
}

/// Fields 37 to 95. Network costs rise from nil to m, on some sheets by much in all regions.
fn random_rest(random: &mut Random) -> Vec<u32> {
    let mut fields = Vec::new();
    let rise = random.any_size(30_000_000);
    for _ in 0..28 {
        let nil = random.between(0, 40_000_000);
        fields.extend([nil, nil + rise + random.between(0, 30_000_000)]);
    }
    fields.extend([random.between(1, 20_000), random.between(1, 20_000)]);
    fields.push(random.between(0, 1_000));
    fields
}

/// Pairs of random sheets that agree in fields 0 to 36 and differ in all others. The same sums
/// give the figures of both, and SET's answers 4, 14 and 5.
#[test]
fn the_same_sums_whatever_the_regions() {
    let mut random = Random::new(101);
    let mut book = Book::new();
    let (mut taken, mut high, mut below, mut refused, mut falling) = (0, 0, 0, 0, 0);
    let mut savings = 0;
    while taken < 4_000 {
        let common = random_common(&mut random);
        let rests = [random_rest(&mut random), random_rest(&mut random)];
        if rests[0].iter().zip(&rests[1]).any(|(a, b)| a == b) {
            continue;
        }
        let sheets = rests.map(|rest| [&common[..], &rest].concat());
        assert_eq!(sums(&sheets[0]), sums(&sheets[1]));
        let sums = match sums(&sheets[0]) {
            Ok(sums) => sums,
            Err(error) => {
                let (count, answer) = match error {
                    SheetError::Term => (&mut high, 4),
                    SheetError::OcBelowZero => (&mut below, 14),
                    _ => panic!("no refusal of fields 0 to 36: {error:?}"),
                };
                *count += 1;
                assert_eq!(sheets.map(|sheet| set(&mut book, &sheet)), [answer; 2]);
                continue;
            }
        };
        let falls = |figures: &[u64]| figures.chunks(2).any(|pair| pair[1] < pair[0]);
        let answers = sheets.map(|sheet| {
            let figures = figures(&sums, &sheet);
            let answer = set(&mut book, &sheet);
            assert_eq!(answer, if falls(&figures) { 5 } else { 0 });
            if answer == 0 {
                assert_eq!(benchmarks(&book), figures);
            }
            answer
        });
        if answers == [0, 0] {
            taken += 1;
            savings += u32::from(common[36] > 100_000_000);
            // A sum may fall from nil to m: the network costs can make up for it.
            falling += u32::from(falls(&sums));
        } else {
            refused += 1;
        }
    }
    assert!(high > 100 && below > 100 && refused > 100 && falling > 100 && savings > 100);
}
