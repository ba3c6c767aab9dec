//! Splits by direction (M-103): the peak share of Economy 7 in field 95, shares in tenths of a
//! percent, excesses and quotes over 12,000 x m. On the reference sheet of document 01, its numbers
//! written out by hand.

mod common;

use common::Verdict::{Opens, Over};
use common::{reference, reference_book, tariff, verdict, Verdict};
use second::random::Random;
use second::{period_days, Book, Maximum, NotOpened, Quote, Refusal, State, RECORD};

/// The reference sheet with this peak share and these fields changed.
fn with(share: u32, changes: &[(usize, u32)]) -> Vec<u32> {
    let mut sheet = reference();
    sheet[95] = share;
    for &(field, value) in changes {
        sheet[field] = value;
    }
    sheet
}

fn book_with(sheet: &[u32]) -> Book {
    let mut book = Book::new();
    book.set(2023, 10, 3, sheet).unwrap();
    book
}

/// A book with the reference sheet at this peak share.
fn book_at(share: u32) -> Book {
    book_with(&with(share, &[]))
}

/// The answer to a sheet, 0 if it is taken: of SET, and of TRIAL on a fresh book and on another.
fn answer_in(year: u32, month: u32, t: u32, sheet: &[u32]) -> u32 {
    let number = |refusal: Option<Refusal>| refusal.map_or(0, Refusal::number);
    let mut book = reference_book();
    let tried = number(book.trial(year, month, t, sheet).err());
    let fresh = Book::new().trial(year, month, t, sheet);
    assert_eq!(number(fresh.err()), tried);
    assert_eq!(number(book.set(year, month, t, sheet).err()), tried);
    tried
}

fn answer(sheet: &[u32]) -> u32 {
    answer_in(2023, 10, 3, sheet)
}

fn put(book: &mut Book, record: &[u32]) -> u32 {
    book.put(1, record).map_or_else(Refusal::number, |()| 0)
}

/// Over the cap in region 0 by Other, at these months.
fn over(excess: u64, months: u32) -> Verdict {
    Over(0, 1, excess, vec![months; 3])
}

/// The starred Economy 7 tariff of document 01.
fn starred() -> [u32; RECORD] {
    tariff(2, 23_000, &[18_000, 12_250], &[])
}

// The table of document 01.

#[test]
fn at_580_every_verdict_stays_its_excess_ten_times_as_large() {
    let mut book = book_at(580);
    for (record, expected) in [
        (tariff(1, 23_000, &[18_000], &[]), Opens(28)),
        (tariff(1, 23_960, &[18_000], &[]), Opens(28)),
        // 37 mills, times 12,000 x 3,000.
        (tariff(1, 23_961, &[18_000], &[]), over(1_332_000_000, 0)),
        // 70,425 mills.
        (
            tariff(1, 20_000, &[20_000, 15_000], &[100]),
            over(2_535_300_000_000, 100),
        ),
        (tariff(1, 0, &[165_509, 0], &[5]), Opens(28)),
        // 15 mills, one for each kWh.
        (tariff(1, 0, &[165_510, 0], &[5]), over(540_000_000, 5)),
        // 76,625 mills, times 12,000 x 4,000.
        (starred(), over(3_678_000_000_000, 10_000)),
    ] {
        assert_eq!(verdict(&mut book, &record), expected, "{record:?}");
    }
    for (arrangement, method, level, charge) in [
        (0, 1, 0, 8_817_500),
        (0, 1, 1, 64_469_500),
        (0, 0, 0, 9_418_050),
        (0, 0, 1, 66_183_090),
        (1, 1, 1, 71_135_500),
    ] {
        assert_eq!(book.benchmark(0, arrangement, method, level), Ok(charge));
    }
}

/// No split changes what is held to the single-rate cap, or a benchmark.
#[test]
fn the_single_rate_verdicts_whatever_the_split() {
    for share in [0, 1, 579, 581, 1_000] {
        let mut book = book_at(share);
        for (record, expected) in [
            (tariff(1, 23_960, &[18_000], &[]), Opens(28)),
            (tariff(1, 23_961, &[18_000], &[]), over(1_332_000_000, 0)),
            (tariff(1, 0, &[165_509, 0], &[5]), Opens(28)),
            (tariff(1, 0, &[165_510, 0], &[5]), over(540_000_000, 5)),
        ] {
            assert_eq!(verdict(&mut book, &record), expected, "{share}");
        }
        for i in 0..112 {
            let charge = |book: &Book| book.benchmark(i / 8, i / 4 % 2, i / 2 % 2, i % 2);
            assert_eq!(charge(&book), charge(&reference_book()));
        }
    }
}

// Kind 2 under other splits.

/// The cap of Economy 7 by Other is 2,204,375 mills for the quarter and 15,579.5 per kWh, by
/// Standard Credit 2,354,512.5 and 15,891.09. The standing charge comes to 2,116,000.
#[test]
fn the_starred_economy_7_under_other_splits() {
    for (share, expected) in [
        // 12,250 per kWh.
        (0, Opens(28)),
        (1, Opens(28)),
        // 50:50 is 15,125.
        (500, Opens(28)),
        // 15,579.25, a quarter of a mill below.
        (579, Opens(28)),
        // 15,585: 5.5 x 30,000 - 88,375 = 76,625 mills.
        (580, over(3_678_000_000_000, 10_000)),
        // 15,590.75: 11.25 x 30,000 - 88,375 = 249,125.
        (581, over(11_958_000_000_000, 10_000)),
        // 15,889.75 is still within the cap by Standard Credit: 310.25 x 30,000 - 88,375 =
        // 9,219,125 by Other.
        (633, over(442_518_000_000_000, 10_000)),
        // 15,895.5 by Standard Credit: 4.41 x 30,000 - 238,512.5 is below 0. By Other 316 x
        // 30,000 - 88,375 = 9,391,625.
        (634, over(450_798_000_000_000, 10_000)),
        // 15,901.25 by Standard Credit: 10.16 x 30,000 - 238,512.5 = 66,287.5.
        (635, Over(0, 0, 3_181_800_000_000, vec![10_000; 3])),
        // 17,994.25: 2,103.16 x 30,000 - 238,512.5 = 62,856,287.5.
        (999, Over(0, 0, 3_017_101_800_000_000, vec![10_000; 3])),
        // 18,000: 2,108.91 x 30,000 - 238,512.5 = 63,028,787.5.
        (1_000, Over(0, 0, 3_025_381_800_000_000, vec![10_000; 3])),
    ] {
        assert_eq!(
            verdict(&mut book_at(share), &starred()),
            expected,
            "{share}"
        );
    }
}

/// The rates of the starred tariff exchanged: the cheaper one by day.
#[test]
fn a_peak_rate_below_the_off_peak_rate() {
    let record = tariff(2, 23_000, &[12_250, 18_000], &[]);
    for (share, expected) in [
        (0, Over(0, 0, 3_025_381_800_000_000, vec![10_000; 3])),
        (1, Over(0, 0, 3_017_101_800_000_000, vec![10_000; 3])),
        (419, over(11_958_000_000_000, 10_000)),
        (420, over(3_678_000_000_000, 10_000)),
        (421, Opens(28)),
        (580, Opens(28)),
        (1_000, Opens(28)),
    ] {
        assert_eq!(verdict(&mut book_at(share), &record), expected, "{share}");
    }
}

/// The same rate by day and by night: no split matters.
#[test]
fn two_rates_alike() {
    for share in 0..=1_000 {
        let mut book = book_at(share);
        let record = tariff(2, 23_000, &[15_579, 15_579], &[]);
        assert_eq!(verdict(&mut book, &record), Opens(28));
        // 2.5 x 30,000 is less than 88,375, and 3.5 x 30,000 is 16,625 more.
        let record = tariff(2, 23_000, &[15_582, 15_582], &[]);
        assert_eq!(verdict(&mut book, &record), Opens(28));
        let record = tariff(2, 23_000, &[15_583, 15_583], &[]);
        assert_eq!(verdict(&mut book, &record), over(798_000_000_000, 10_000));
    }
}

/// January 2018 (31 days) on a sheet that allows 20,000 mills a day and 15,000 per kWh, by either
/// method, for both arrangements; m 1,000.
fn round_book(share: u32) -> Book {
    let mut sheet = vec![0; 96];
    sheet[22..36].fill(1);
    for pair in (37..93).step_by(2) {
        // 372 x 20,000, and 1,000 x 15,000 more.
        (sheet[pair], sheet[pair + 1]) = (7_440_000, 22_440_000);
    }
    sheet[93..95].fill(1_000);
    sheet[95] = share;
    let mut book = Book::new();
    book.set(2018, 1, 1, &sheet).unwrap();
    book
}

/// Rates whose weighted rate is 15,000 exactly, and a mill to either side: an excess of 0 at any
/// consumption, then the least excess that there is.
#[test]
fn exactly_at_the_cap() {
    for (share, [peak, off_peak]) in [
        (580, [17_100, 12_100]),    // 9,918,000 + 5,082,000 thousandths of a mill
        (580, [15_420, 14_420]),    // 8,943,600 + 6,056,400
        (580, [14_580, 15_580]),    // 8,456,400 + 6,543,600
        (579, [15_421, 14_421]),    // 8,928,759 + 6,071,241
        (581, [15_419, 14_419]),    // 8,958,439 + 6,041,561
        (1, [15_999, 14_999]),      // 15,999 + 14,984,001
        (999, [14_999, 15_999]),    // 14,984,001 + 15,999
        (500, [29_999, 1]),         // 14,999,500 + 500
        (500, [0, 30_000]),         // 0 + 15,000,000
        (250, [60_000, 0]),         // 15,000,000 + 0
        (0, [200_000, 15_000]),     // 0 + 15,000,000
        (0, [0, 15_000]),           // 0 + 15,000,000
        (1_000, [15_000, 200_000]), // 15,000,000 + 0
        (1_000, [15_000, 0]),       // 15,000,000 + 0
    ] {
        let mut book = round_book(share);
        let at = |standing, peak, off_peak| tariff(2, standing, &[peak, off_peak], &[]);
        assert_eq!(verdict(&mut book, &at(20_000, peak, off_peak)), Opens(28));
        for kwh in [0, 1, 333, 10_000] {
            let quote = book.quote(1, 13, 0, &[kwh]).unwrap();
            // 620,000 mills and 15,000 for each kWh, times 12,000,000.
            let mills = 620_000 + 15_000 * u64::from(kwh);
            assert_eq!(quote.charge, mills * 12_000_000);
            assert_eq!(quote.maximum, mills * 12_000_000);
        }
        // One mill per kWh more by day or by night: so many thousandths for 10,000 kWh.
        let one_more = |excess: u64| match excess {
            0 => Opens(28),
            _ => Over(0, 0, excess, vec![10_000]),
        };
        let (by_day, by_night) = (u64::from(share), u64::from(1_000 - share));
        if peak < 200_000 {
            let dearer = verdict(&mut book, &at(20_000, peak + 1, off_peak));
            assert_eq!(dearer, one_more(by_day * 10 * 12_000_000));
        }
        if off_peak < 200_000 {
            let dearer = verdict(&mut book, &at(20_000, peak, off_peak + 1));
            assert_eq!(dearer, one_more(by_night * 10 * 12_000_000));
        }
        // One mill a day more: as flat as the cap, so the months are 0. 31 mills.
        assert_eq!(
            verdict(&mut book, &at(20_001, peak, off_peak)),
            Over(0, 0, 372_000_000, vec![0])
        );
        // One mill less.
        assert_eq!(verdict(&mut book, &at(19_999, peak, off_peak)), Opens(28));
        if peak > 0 {
            assert_eq!(
                verdict(&mut book, &at(20_000, peak - 1, off_peak)),
                Opens(28)
            );
        }
        if off_peak > 0 {
            assert_eq!(
                verdict(&mut book, &at(20_000, peak, off_peak - 1)),
                Opens(28)
            );
        }
    }
}

// Sheets that differ in the split alone.

/// Which of the codes 1 to 6 are open.
fn open_codes(book: &Book) -> Vec<u32> {
    (1..=6)
        .filter(|&code| book.state(code) == Some(State::Open))
        .collect()
}

/// All open at 579: the starred tariff, one that is within the cap at 580 too, one that is cheaper
/// by day, the same rates by shares of the tariff's own, one of kind 1 at the cap, and one of kind 3
/// a mill below it.
fn six_open() -> Book {
    let mut book = book_at(579);
    for (code, record) in [
        (1, starred()),
        // 18,000 less 10: 15,579.2 at 580, and 15,584.94 at 581.
        (2, tariff(2, 23_000, &[17_990, 12_250], &[])),
        // 15,579.25 at 421, 15,585 at 420; less with a higher peak share.
        (3, tariff(2, 23_000, &[12_250, 18_000], &[])),
        (4, tariff(3, 23_000, &[18_000, 12_250], &[579, 421])),
        (5, tariff(1, 23_960, &[18_000], &[])),
        (6, tariff(3, 23_000, &[15_582, 15_582], &[1_000, 0])),
    ] {
        book.put(code, &record).unwrap();
        assert_eq!(book.open(code), Ok(28), "{code}");
    }
    book
}

#[test]
fn what_falls_by_the_split_alone() {
    for (share, fallen, open) in [
        (579, 0, &[1, 2, 3, 4, 5, 6][..]),
        (578, 0, &[1, 2, 3, 4, 5, 6]),
        (421, 0, &[1, 2, 3, 4, 5, 6]),
        (420, 0b100, &[1, 2, 4, 5, 6]),
        (0, 0b100, &[1, 2, 4, 5, 6]),
        (580, 0b1, &[2, 3, 4, 5, 6]),
        (581, 0b11, &[3, 4, 5, 6]),
        (1_000, 0b11, &[3, 4, 5, 6]),
    ] {
        let mut book = six_open();
        let sheet = with(share, &[]);
        assert_eq!(book.trial(2023, 10, 3, &sheet), Ok(fallen), "{share}");
        assert_eq!(open_codes(&book), [1, 2, 3, 4, 5, 6]);
        book.set(2023, 10, 3, &sheet).unwrap();
        assert_eq!(open_codes(&book), open, "{share}");
        // The split of before: nothing falls, and nothing opens by itself.
        assert_eq!(book.trial(2023, 10, 3, &with(579, &[])), Ok(0));
        book.set(2023, 10, 3, &with(579, &[])).unwrap();
        assert_eq!(open_codes(&book), open, "{share}");
        for code in (1..=6).filter(|code| !open.contains(code)) {
            assert_eq!(book.open(code), Ok(28));
        }
    }
}

#[test]
fn what_fell_by_the_split_is_over_the_cap() {
    let mut book = six_open();
    book.set(2023, 10, 3, &with(580, &[])).unwrap();
    let over = |answer: Result<u32, NotOpened>| match answer {
        Err(NotOpened::OverCap(breach)) => {
            assert_eq!((breach.region, breach.method), (0, 1));
            assert_eq!(breach.months(), [10_000; 3]);
            breach.excess
        }
        other => panic!("not refusal 11: {other:?}"),
    };
    assert_eq!(over(book.open(1)), 3_678_000_000_000);
    book.set(2023, 10, 3, &with(581, &[])).unwrap();
    assert_eq!(over(book.open(1)), 11_958_000_000_000);
    // 5.44 x 30,000 - 88,375 = 74,825 mills.
    assert_eq!(over(book.open(2)), 3_591_600_000_000);
    // A tariff that was put while another split was in force goes by the one in force.
    book.drop_code(1).unwrap();
    book.set(2023, 10, 3, &with(579, &[])).unwrap();
    book.put(1, &starred()).unwrap();
    book.set(2023, 10, 3, &with(580, &[])).unwrap();
    assert_eq!(over(book.open(1)), 3_678_000_000_000);
    // A refused sheet changes no split.
    assert_eq!(
        book.set(2023, 10, 3, &with(1_001, &[])),
        Err(Refusal::FieldRange)
    );
    assert_eq!(book.set(2023, 13, 3, &with(579, &[])), Err(Refusal::Period));
    assert_eq!(over(book.open(1)), 3_678_000_000_000);
}

// Quotes.

#[test]
fn quotes_of_economy_7_under_some_splits() {
    // 300 kWh in three months: 2,116,000 mills and 300 times the weighted rate, times 48,000,000.
    // The maximum is 2,204,375 + 15,579.5 x 300 = 6,878,225 mills, whatever the split.
    for (share, charge) in [
        (0, 5_791_000),     // 12,250
        (500, 6_653_500),   // 15,125
        (579, 6_789_775),   // 15,579.25
        (580, 6_791_500),   // 15,585
        (581, 6_793_225),   // 15,590.75
        (1_000, 7_516_000), // 18,000
    ] {
        let mut book = book_at(share);
        book.put(1, &starred()).unwrap();
        for months in [[100, 100, 100], [300, 0, 0], [0, 299, 1]] {
            assert_eq!(
                book.quote(1, 0, 1, &months),
                Ok(Quote {
                    charge: charge * 48_000_000,
                    maximum: 330_154_800_000_000,
                })
            );
        }
    }
    // One kWh, where a tenth of a percent is 5.75 mills: 2,131,579.25 and 2,131,585.
    for (share, charge) in [(579, 102_315_804_000_000), (580, 102_316_080_000_000)] {
        let mut book = book_at(share);
        book.put(1, &starred()).unwrap();
        let quote = book.quote(1, 0, 1, &[0, 1, 0]).unwrap();
        assert_eq!(quote.charge, charge);
        // 2,219,954.5 mills.
        assert_eq!(quote.maximum, 106_557_816_000_000);
    }
}

/// The maximum of a quote is 1,000 times that of MAXIMUM, which stays over 12 x m.
#[test]
fn maximums_stay_over_12_m() {
    for share in [0, 579, 580, 1_000] {
        let mut book = book_at(share);
        // 8,817,500 x 3 x 4,000 + 12 x 62,318,000 x 30,000.
        assert_eq!(
            book.maximum(0, 1, 1, 30_000),
            Ok(Maximum {
                number: 22_540_290_000_000,
                denominator: 48_000
            })
        );
        assert_eq!(
            book.maximum(0, 0, 1, 300),
            Ok(Maximum {
                number: 279_704_700_000,
                denominator: 36_000
            })
        );
        for (record, arrangement) in [
            (tariff(1, 23_000, &[18_000], &[]), 0),
            (starred(), 1),
            (tariff(3, 23_000, &[1, 2, 3], &[100, 899, 1]), 1),
        ] {
            book.put(1, &record).unwrap();
            for months in [[0, 0, 0], [1, 0, 0], [10_000, 10_000, 10_000]] {
                let quote = book.quote(1, 3, 0, &months).unwrap();
                let maximum = book
                    .maximum(3, arrangement, 0, months.iter().sum())
                    .unwrap();
                assert_eq!(quote.maximum, 1_000 * maximum.number);
            }
        }
    }
}

// Shares of kind 3.

#[test]
fn shares_are_tenths_with_the_sum_1_000() {
    let mut book = reference_book();
    let rates = [18_000, 15_000, 11_000, 9_000];
    for (shares, expected) in [
        (&[580, 420][..], 0),
        (&[1_000, 0], 0),
        (&[0, 1_000], 0),
        (&[1, 999], 0),
        (&[0, 0, 1_000], 0),
        (&[333, 333, 334], 0),
        (&[0, 1_000, 0, 0], 0),
        (&[250, 250, 250, 250], 0),
        (&[1, 1, 1, 997], 0),
        // 999 and 1,001.
        (&[580, 419], 8),
        (&[579, 420], 8),
        (&[580, 421], 8),
        (&[581, 420], 8),
        (&[333, 333, 333], 8),
        (&[250, 250, 250, 251], 8),
        // In percent.
        (&[58, 42], 8),
        (&[100, 0], 8),
        (&[0, 100], 8),
        (&[40, 35, 25], 8),
        (&[25, 25, 25, 25], 8),
        // In parts of 10,000.
        (&[5_800, 4_200], 8),
        (&[10_000, 0], 8),
        // A share above 1,000; the third to the last have a sum of 1,000 modulo 2^16 or 2^32.
        (&[1_001, 0], 8),
        (&[0, 1_001], 8),
        (&[60_000, 6_536], 8),
        (&[4_294_967_295, 1_001], 8),
        (&[1_001, 4_294_967_295, 0], 8),
        (&[2_147_483_648, 2_147_484_648], 8),
        (&[0, 0], 8),
    ] {
        let record = tariff(3, 0, &rates[..shares.len()], shares);
        assert_eq!(put(&mut book, &record), expected, "{shares:?}");
    }
    // Kind 2 has no shares of its own.
    for steps in [&[580, 420][..], &[58, 42], &[1_000], &[0, 1_000]] {
        assert_eq!(put(&mut book, &tariff(2, 0, &rates[..2], steps)), 8);
    }
}

/// Kind 3 with the starred tariff's rates, under any split of Economy 7.
#[test]
fn kind_3_goes_by_its_own_shares() {
    for share in [0, 579, 580, 1_000] {
        let mut book = book_at(share);
        let rates = [18_000, 12_250];
        for (shares, expected) in [
            (&[0, 1_000], Opens(28)),
            (&[500, 500], Opens(28)),
            (&[579, 421], Opens(28)),
            (&[580, 420], over(3_678_000_000_000, 10_000)),
            (&[581, 419], over(11_958_000_000_000, 10_000)),
            (
                &[1_000, 0],
                Over(0, 0, 3_025_381_800_000_000, vec![10_000; 3]),
            ),
        ] {
            let record = tariff(3, 23_000, &rates, shares);
            assert_eq!(verdict(&mut book, &record), expected, "{share}, {shares:?}");
        }
    }
    // 40, 35 and 25 percent of 18,000, 15,000 and 11,000: 15,200. A tenth of a percent from the
    // last to the first: 15,207.
    let mut book = reference_book();
    for (shares, rate) in [([400, 350, 250], 15_200), ([401, 350, 249], 15_207)] {
        let record = tariff(3, 22_000, &[18_000, 15_000, 11_000], &shares);
        book.put(1, &record).unwrap();
        let quote = book.quote(1, 0, 1, &[1, 0, 0]).unwrap();
        assert_eq!(quote.charge, (22_000 * 92 + rate) * 48_000_000);
    }
}

/// With each peak share, kind 2 is as kind 3 with that share and the rest.
#[test]
fn kind_2_is_kind_3_with_the_shares_of_the_sheet() {
    let mut random = Random::new(103);
    let (mut opened, mut refused) = (0, 0);
    for share in 0..=1_000 {
        let mut book = book_at(share);
        for _ in 0..4 {
            let near = |random: &mut Random| match random.below(3) {
                0 => random.between(0, 200_000),
                1 => random.between(15_500, 15_700),
                _ => random.between(10_000, 20_000),
            };
            let rates = [near(&mut random), near(&mut random)];
            let standing = random.between(22_000, 24_200);
            let by_sheet = tariff(2, standing, &rates, &[]);
            let by_steps = tariff(3, standing, &rates, &[share, 1_000 - share]);
            let expected = verdict(&mut book, &by_steps);
            let months = [random.between(0, 10_000), 0, random.between(0, 10_000)];
            let quote = book.quote(1, 2, 1, &months);
            assert_eq!(verdict(&mut book, &by_sheet), expected);
            assert_eq!(book.quote(1, 2, 1, &months), quote);
            match expected {
                Opens(_) => opened += 1,
                Over(..) => refused += 1,
            }
        }
    }
    assert!(opened > 500 && refused > 500, "{opened} and {refused}");
}

/// A weighted rate does not change with the order of its registers, nor if one of them is cut in
/// two with the same rate, and it lies between the rates that count.
#[test]
fn weighted_rates() {
    let mut random = Random::new(1_000);
    let mut book = reference_book();
    let mut charge = |rates: &[u32], shares: &[u32]| {
        book.put(1, &tariff(3, 0, rates, shares)).unwrap();
        let quote = book.quote(1, 0, 0, &[0, 1, 0]).unwrap();
        assert_eq!(quote.charge % 48_000, 0);
        // In thousandths of a mill.
        quote.charge / 48_000
    };
    for _ in 0..4_000 {
        let rates: [u32; 3] = std::array::from_fn(|_| random.between(0, 200_000));
        let first = random.between(0, 1_000);
        let second = random.between(0, 1_000 - first);
        let shares = [first, second, 1_000 - first - second];
        let sum = |rates: &[u32], shares: &[u32]| -> u64 {
            let products = rates.iter().zip(shares);
            products.map(|(&r, &s)| u64::from(r) * u64::from(s)).sum()
        };
        let expected = sum(&rates, &shares);
        let [a, b, c] = rates;
        let [x, y, z] = shares;
        assert_eq!(charge(&rates, &shares), expected);
        assert_eq!(charge(&[c, a, b], &[z, x, y]), expected);
        assert_eq!(charge(&[b, a, c], &[y, x, z]), expected);
        let part = random.between(0, x);
        assert_eq!(charge(&[a, b, a, c], &[part, y, x - part, z]), expected);
        assert_eq!(charge(&[a, b], &[x, 1_000 - x]), sum(&[a, b], &[x, y + z]));
        let used = [(a, x), (b, y), (c, z)].into_iter().filter(|&(_, s)| s > 0);
        let used: Vec<u64> = used.map(|(rate, _)| 1_000 * u64::from(rate)).collect();
        assert!(*used.iter().min().unwrap() <= expected);
        assert!(expected <= *used.iter().max().unwrap());
    }
}

// Refusals.

#[test]
fn a_sheet_has_96_numbers() {
    let sheet = reference();
    assert_eq!(answer(&sheet), 0);
    for count in [0, 1, 37, 93, 94, 95] {
        assert_eq!(answer(&sheet[..count]), 1, "{count}");
    }
    for more in [&[0][..], &[580], &[0, 0], &[u32::MAX; 96]] {
        assert_eq!(answer(&[&sheet[..], more].concat()), 1);
    }
    // The sheet of before M-103, whose last number is m.
    assert_eq!(answer(&[&sheet[..93], &[3_000, 4_000]].concat()), 1);
    // 1 before the others.
    assert_eq!(answer_in(2023, 13, 3, &sheet[..95]), 1);
    let outside = [&with(1_001, &[(0, u32::MAX)])[..], &[0]].concat();
    assert_eq!(answer(&outside), 1);
}

#[test]
fn the_range_of_the_peak_share() {
    for share in 0..=1_000 {
        assert_eq!(answer(&with(share, &[])), 0, "{share}");
    }
    for share in 1_001..=10_000 {
        assert_eq!(
            Book::new().set(2023, 10, 3, &with(share, &[])),
            Err(Refusal::FieldRange)
        );
    }
    for share in [
        1_001,
        5_800,
        10_000,
        65_536,
        66_116,
        100_000,
        1_000_000,
        2_147_483_647,
        2_147_483_648,
        4_294_966_716,
        4_294_967_295,
    ] {
        assert_eq!(answer(&with(share, &[])), 2, "{share}");
    }
}

#[test]
fn the_peak_share_in_its_place() {
    let outside = 1_001;
    // 2 before 3, 4, 14 and 5.
    for (year, month, t) in [(2017, 10, 3), (2100, 10, 3), (2023, 0, 3), (2023, 13, 3)] {
        assert_eq!(answer_in(year, month, t, &with(outside, &[])), 2);
        assert_eq!(answer_in(year, month, t, &with(1_000, &[])), 3);
    }
    for t in [0, 13] {
        assert_eq!(answer_in(2023, 10, t, &with(outside, &[])), 2);
        assert_eq!(answer_in(2023, 10, t, &with(0, &[])), 3);
    }
    // 30,000,000 x 4 is too high; a saving of 5,250,001 is more than the OC at nil; a network cost
    // of 100,000,000 at nil.
    let (term, saving, falls) = ((29, 4_000), (36, 4_289_717_295), (91, 100_000_000));
    for (changes, expected) in [
        (&[term][..], 4),
        (&[saving], 14),
        (&[falls], 5),
        (&[term, saving, falls], 4),
        (&[saving, falls], 14),
    ] {
        for share in [0, 580, 1_000] {
            assert_eq!(answer(&with(share, changes)), expected);
        }
        assert_eq!(answer(&with(outside, changes)), 2);
        assert_eq!(answer_in(2023, 13, 3, &with(outside, changes)), 2);
    }
}

// The scale.

/// Tariffs of all kinds with shares in whole percents, and the split of 58:42, as they were before
/// M-103: the excess over 1,200 x m, and the quote, are a tenth of what they are now.
#[test]
fn all_is_ten_times_as_large() {
    let mut random = Random::new(12_000);
    let (mut opened, mut refused) = (0, 0);
    for _ in 0..3_000 {
        let mut sheet = reference();
        for field in [37, 38, 39, 40] {
            sheet[field] += random.between(0, 400_000);
        }
        sheet[93] = random.between(1, 20_000);
        sheet[94] = random.between(1, 20_000);
        let (year, month, t) = (random.between(2018, 2099), random.between(1, 12), 2);
        let days = i128::from(period_days(year, month, t).unwrap());
        let mut book = Book::new();
        book.set(year, month, t, &sheet).unwrap();

        let kind = random.between(1, 3);
        let percent = random.between(0, 100);
        let arrangement = u32::from(kind != 1);
        let m = i128::from(sheet[93 + arrangement as usize]);
        let charge_of = |level| i128::from(book.benchmark(0, arrangement, 1, level).unwrap());
        let (nil, at_m) = (charge_of(0), charge_of(1));
        let rate = ((at_m - nil) / m) as u32;
        let mut near = || {
            (rate + random.between(0, 40))
                .saturating_sub(20)
                .min(200_000)
        };
        let rates = [near(), near()];
        let standing = (nil / 6 / days) as u32 + random.between(0, 2);
        let mut record = match kind {
            1 => tariff(1, standing, &rates, &[100]),
            2 => tariff(2, standing, &rates, &[]),
            _ => tariff(3, standing, &rates, &[10 * percent, 1_000 - 10 * percent]),
        };
        (record[3], record[4]) = (1, 2);

        // In hundredths of a mill, as document 01 has it.
        let [first, second] = rates.map(i128::from);
        let month_charge = |kwh: i128| match kind {
            1 => 100 * (first * kwh.min(100) + second * (kwh - 100).max(0)),
            2 => (58 * first + 42 * second) * kwh,
            _ => (i128::from(percent) * first + (100 - i128::from(percent)) * second) * kwh,
        };
        let charge = |kwh: [i128; 2]| {
            100 * i128::from(standing) * days + month_charge(kwh[0]) + month_charge(kwh[1])
        };
        let maximum = |kwh: [i128; 2]| nil * 2 * m + 12 * (at_m - nil) * (kwh[0] + kwh[1]);
        let excess = |kwh: [i128; 2]| 12 * m * charge(kwh) - 100 * maximum(kwh);
        let ends = [0, 100, 10_000];
        let greatest = ends
            .into_iter()
            .map(|kwh| excess([kwh, kwh]))
            .max()
            .unwrap();

        match verdict(&mut book, &record) {
            Opens(_) => {
                assert!(greatest <= 0);
                opened += 1;
            }
            Over(region, method, told, _) => {
                assert_eq!((region, method), (0, 1));
                assert_eq!(i128::from(told), 10 * greatest);
                refused += 1;
            }
        }
        for _ in 0..10 {
            let kwh = [random.between(0, 10_000), random.between(0, 10_000)];
            let quote = book.quote(1, 0, 1, &kwh).unwrap();
            let kwh = kwh.map(i128::from);
            assert_eq!(i128::from(quote.charge), 10 * 12 * m * charge(kwh));
            assert_eq!(i128::from(quote.maximum), 10 * 100 * maximum(kwh));
        }
    }
    assert!(opened > 300 && refused > 300, "{opened} and {refused}");
}

/// The greatest figures of Economy 7: 366 days at 1,000,000, 120,000 kWh at 200,000, m 20,000.
#[test]
fn the_greatest_figures() {
    let mut sheet = vec![0; 96];
    sheet[22..36].fill(1);
    sheet[93..95].fill(20_000);
    for (share, rates) in [
        (0, [0, 200_000]),
        (1, [200_000, 200_000]),
        (580, [200_000, 200_000]),
        (1_000, [200_000, 0]),
    ] {
        sheet[95] = share;
        let mut book = Book::new();
        book.set(2096, 1, 12, &sheet).unwrap();
        let record = tariff(2, 1_000_000, &rates, &[]);
        let excess = 5_847_840_000_000_000_000;
        assert_eq!(
            verdict(&mut book, &record),
            Over(0, 0, excess, vec![10_000; 12])
        );
        let quote = book.quote(1, 0, 0, &[10_000; 12]).unwrap();
        assert_eq!((quote.charge, quote.maximum), (excess, 0));
    }
    // The greatest maximum: four costs and NC of 100,000,000 at m and nothing at nil, SMNCC and PAAC
    // of 100,000,000, HAP and PAP of 100%. At nil 2 x (100,000,000 + 200,000,000), at m 2 x
    // (500,000,000 + 600,000,000) + 2 x 100,000,000.
    let mut sheet = vec![0; 96];
    for field in (1..16).step_by(2).chain((38..93).step_by(2)) {
        sheet[field] = 100_000_000;
    }
    sheet[16..20].fill(1_000_000);
    for field in [20, 21, 36] {
        sheet[field] = 100_000_000;
    }
    sheet[22..36].fill(1);
    sheet[93..95].fill(20_000);
    sheet[95] = 1_000;
    let mut book = Book::new();
    book.set(2096, 1, 12, &sheet).unwrap();
    assert_eq!(book.benchmark(13, 1, 1, 0), Ok(600_000_000));
    assert_eq!(book.benchmark(13, 1, 1, 1), Ok(2_400_000_000));
    book.put(1, &tariff(2, 1_000_000, &[200_000, 0], &[]))
        .unwrap();
    let quote = book.quote(1, 13, 1, &[10_000; 12]).unwrap();
    assert_eq!(quote.charge, 5_847_840_000_000_000_000);
    // 1,000 x (600,000,000 x 12 x 20,000 + 12 x 1,800,000,000 x 120,000).
    assert_eq!(quote.maximum, 2_736_000_000_000_000_000);
    assert_eq!(
        verdict(&mut book, &tariff(2, 1_000_000, &[200_000, 0], &[])),
        Over(0, 0, 3_111_840_000_000_000_000, vec![10_000; 12])
    );
    // Next to nothing against it: far below, and open.
    assert_eq!(verdict(&mut book, &tariff(2, 0, &[1, 1], &[])), Opens(28));
}
