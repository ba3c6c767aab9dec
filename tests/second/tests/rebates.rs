//! Rebate runs (M-108), on the reference sheet of document 01, its numbers written out by hand, and on
//! the books of random scripts.

mod common;

use common::{by_region, reference, reference_book, tariff, ALL};
use second::desk::Desk;
use second::random::Random;
use second::script::script;
use second::{Account, Book, DeskRegions, NotRun, Quote, State, RECORD, RUN_LIMIT};

const NOT_WRITTEN: u64 = 1 << 63 | 77;

/// An account of region 0, method 1. The places past its months are not as a month may be.
fn account(code: u32, months: &[u32]) -> Account {
    let mut places = [u32::MAX; 12];
    places[..months.len()].copy_from_slice(months);
    Account {
        code,
        region: 0,
        method: 1,
        count: months.len() as u32,
        months: places,
        rebate: NOT_WRITTEN,
    }
}

/// The reference sheet in force, and these tariffs open under a direction from code 1 on.
fn book_of(records: &[[u32; RECORD]]) -> Book {
    let mut book = reference_book();
    for (code, record) in (1..).zip(records) {
        book.put(code, record).unwrap();
        book.direct(code).unwrap();
        assert_eq!(book.open(code), Ok(0));
    }
    book
}

/// The starred tariff: 20,000 a day, 20,000 to 100 kWh, then 15,000.
fn tiered() -> [u32; RECORD] {
    tariff(1, 20_000, &[20_000, 15_000], &[100])
}

/// One that costs so much in the 92 days for 1 kWh in one month.
fn of_one_kwh(charge: u32) -> [u32; RECORD] {
    tariff(1, 23_960, &[charge - 92 * 23_960], &[])
}

fn rebates(accounts: &[Account]) -> Vec<u64> {
    accounts.iter().map(|account| account.rebate).collect()
}

/// A run that is accepted: its total and its rebates. Nothing else of the accounts is another.
fn run(book: &Book, accounts: &[Account]) -> (u64, Vec<u64>) {
    let mut after = accounts.to_vec();
    let total = book.rebate(&mut after).unwrap();
    let given = rebates(&after);
    for (account, before) in after.iter_mut().zip(accounts) {
        account.rebate = before.rebate;
    }
    assert_eq!(after, accounts);
    assert_eq!(total, given.iter().sum());
    (total, given)
}

/// A run that is refused: nothing is written.
fn refused_by(book: &Book, desk: u32, accounts: &[Account]) -> NotRun {
    let mut after = accounts.to_vec();
    let refusal = book.rebate_by(DeskRegions::new(desk), &mut after);
    assert_eq!(after, accounts);
    refusal.unwrap_err()
}

fn refused(book: &Book, accounts: &[Account]) -> NotRun {
    refused_by(book, ALL, accounts)
}

// Figures.

#[test]
fn the_household_of_the_starred_tariff() {
    let book = book_of(&[tiered()]);
    // 92 x 20,000 + 300 x 20,000 is 7,840,000 mills; the maximum is 7,769,575.
    let owed = account(1, &[100, 100, 100]);
    assert_eq!(run(&book, &[owed]), (70_425, vec![70_425]));
    // 7,840,000 - 200 x 5,000 is 6,840,000.
    let not_owed = account(1, &[300, 0, 0]);
    assert_eq!(run(&book, &[not_owed]), (0, vec![0]));
    assert_eq!(run(&book, &[not_owed, owed]), (70_425, vec![0, 70_425]));
    // By method 0 the maximum is 2,354,512.5 and 18,921.68 a kWh.
    let mut by_credit = owed;
    by_credit.method = 0;
    assert_eq!(run(&book, &[by_credit]), (0, vec![0]));
}

#[test]
fn the_maximum_of_the_account_s_own_method() {
    let book = book_of(&[tariff(1, 40_000, &[0], &[])]);
    let other = account(1, &[0, 0, 0]);
    let mut credit = other;
    credit.method = 0;
    // 3,680,000 less 2,204,375, and less 2,354,512.5.
    assert_eq!(run(&book, &[other, credit]).1, [1_475_625, 1_325_488]);
}

#[test]
fn the_standing_charge_and_the_maximum_of_the_account_s_own_region() {
    let mut sheet = reference();
    // Region 13 at nil, single-rate: 8,917,500, and 2,229,375 for three months.
    sheet[89] += 100_000;
    let mut book = Book::new();
    book.set(2023, 10, 3, &sheet).unwrap();
    let record = by_region(tariff(1, 24_000, &[18_000], &[]), &[(13, 1_000)]);
    book.put(1, &record).unwrap();
    book.direct(1).unwrap();
    book.open(1).unwrap();
    let first = account(1, &[0, 0, 0]);
    let mut last = first;
    last.region = 13;
    assert_eq!(run(&book, &[first, last]).1, [3_625, 70_625]);
}

#[test]
fn economy_7_by_the_split_of_the_sheet() {
    let book = book_of(&[
        tariff(2, 23_000, &[18_000, 12_250], &[]),
        tariff(3, 23_000, &[18_000, 12_250], &[580, 420]),
    ]);
    // 2,116,000 + 30,000 x 15,585 less 2,204,375 + 30,000 x 62,318,000 / 4,000 is 76,625.
    let of = |code| account(code, &[10_000; 3]);
    assert_eq!(run(&book, &[of(1), of(2)]), (153_250, vec![76_625; 2]));
}

#[test]
fn exactly_at_the_cap_and_above_it() {
    let capped = |rate| tariff(1, 0, &[rate, 0], &[5]);
    let book = book_of(&[capped(165_509), capped(165_510)]);
    let of = |code| account(code, &[5, 5, 5]);
    // 15 kWh at the rate: 2,482,635 is the maximum.
    assert_eq!(run(&book, &[of(1), of(2)]).1, [0, 15]);
    let less = account(2, &[5, 5, 4]);
    assert_eq!(run(&book, &[less]).1, [0]);
}

#[test]
fn rounded_up() {
    // The maximum for 1 kWh is 2,222,925 and two thirds of a mill.
    let charges = [2_222_925, 2_222_926, 2_222_927];
    let book = book_of(&charges.map(of_one_kwh));
    let accounts = [1, 2, 3].map(|code| account(code, &[1, 0, 0]));
    // A third of a mill, and four thirds.
    assert_eq!(run(&book, &accounts), (3, vec![0, 1, 2]));
    // Whole figures stay as they are: 3 kWh have a maximum of 2,260,027.
    let charge = tariff(1, 23_960, &[2_260_028 - 2_204_320, 0], &[1]);
    let book = book_of(&[charge]);
    assert_eq!(run(&book, &[account(1, &[3, 0, 0])]), (1, vec![1]));
}

/// The least that can be above the cap, 4 of 12,000 x m with an m of 1: a three thousandth of a mill.
#[test]
fn the_smallest_part_of_a_mill() {
    let mut sheet = reference();
    for at_m in (1..16).step_by(2).chain((38..93).step_by(2)) {
        sheet[at_m] = sheet[at_m - 1];
    }
    sheet[93..95].copy_from_slice(&[1, 1]);
    let mut book = Book::new();
    book.set(2023, 10, 1, &sheet).unwrap();
    // The maximum is 8,817,500 / 12 whatever is used: 734,791.667. 31 days are 734,762.
    let weighted = |first, second| tariff(3, 23_702, &[30, 29], &[first, second]);
    for (code, record) in [(1, weighted(666, 334)), (2, weighted(667, 333))] {
        book.put(code, &record).unwrap();
        book.direct(code).unwrap();
        assert_eq!(book.open(code), Ok(0));
    }
    let quote = book.quote(2, 0, 1, &[1]).unwrap();
    assert_eq!(quote.charge - quote.maximum, 4);
    let accounts = [account(1, &[1]), account(2, &[1])];
    assert_eq!(run(&book, &accounts), (1, vec![0, 1]));
}

#[test]
fn the_greatest_rebate_and_the_greatest_total() {
    // A sheet of nothing: everything is above the cap.
    let mut nothing = reference();
    nothing[..22].fill(0);
    nothing[36..93].fill(0);
    let mut book = Book::new();
    book.set(2096, 1, 12, &nothing).unwrap();
    book.put(1, &tariff(1, 1_000_000, &[200_000], &[])).unwrap();
    book.direct(1).unwrap();
    assert_eq!(book.open(1), Ok(0));
    let most = account(1, &[10_000; 12]);
    // 366 days and 120,000 kWh.
    let rebate = 366_000_000 + 24_000_000_000;
    assert_eq!(run(&book, &[most]), (rebate, vec![rebate]));
    let accounts = vec![most; RUN_LIMIT];
    let (total, given) = run(&book, &accounts);
    assert_eq!(total, 24_366_000_000_000_000);
    assert!(given.iter().all(|&of_one| of_one == rebate));
}

#[test]
fn lists_of_any_length() {
    let book = book_of(&[tiered()]);
    assert_eq!(run(&book, &[]), (0, vec![]));
    let owed = account(1, &[100, 100, 100]);
    // The same account twice is owed twice.
    assert_eq!(run(&book, &[owed, owed]).0, 140_850);
    assert_eq!(run(&book, &[owed; 500]), (35_212_500, vec![70_425; 500]));
}

// Refusals.

#[test]
fn what_quote_would_refuse_is_19() {
    let mut record = tiered();
    record[3] = 3;
    record[4] = 2;
    let book = book_of(&[record]);
    let good = account(1, &[100, 100, 100]);
    let with = |change: &dyn Fn(&mut Account)| {
        let mut account = good;
        change(&mut account);
        account
    };
    for code in [0, 33, 257, u32::MAX, 2] {
        let bad = with(&|account| account.code = code);
        assert_eq!(refused(&book, &[bad]), NotRun::NotQuoted(0), "code {code}");
    }
    for region in [2, 13, 14, 32, 64, u32::MAX] {
        let bad = with(&|account| account.region = region);
        assert_eq!(refused(&book, &[bad]), NotRun::NotQuoted(0), "{region}");
    }
    for method in [0, 2, 32, 33, u32::MAX] {
        let bad = with(&|account| account.method = method);
        assert_eq!(refused(&book, &[bad]), NotRun::NotQuoted(0), "{method}");
    }
    for count in [0, 1, 2, 4, 11, 12, 13, 16, 255, 259, 65_539, u32::MAX] {
        let bad = with(&|account| {
            account.months = [100; 12];
            account.count = count;
        });
        assert_eq!(refused(&book, &[bad]), NotRun::NotQuoted(0), "{count}");
    }
    for month in 0..3 {
        for kwh in [10_001, 65_636, u32::MAX] {
            let bad = with(&|account| account.months[month] = kwh);
            assert_eq!(refused(&book, &[bad]), NotRun::NotQuoted(0), "{kwh}");
        }
    }
    assert_eq!(run(&book, &[good]).0, 70_425);
}

#[test]
fn an_account_of_twelve_months() {
    let mut book = Book::new();
    book.set(2023, 10, 12, &reference()).unwrap();
    book.put(1, &tiered()).unwrap();
    book.direct(1).unwrap();
    book.open(1).unwrap();
    let full = account(1, &[100; 12]);
    // 366 x 20,000 + 1,200 x 20,000 less 8,817,500 + 1,200 x 55,652,000 / 3,000.
    assert_eq!(run(&book, &[full]).0, 241_700);
    for count in [11, 13, u32::MAX] {
        let mut bad = full;
        bad.count = count;
        assert_eq!(refused(&book, &[bad]), NotRun::NotQuoted(0));
    }
    let mut bad = full;
    bad.months[11] = 10_001;
    assert_eq!(refused(&book, &[bad]), NotRun::NotQuoted(0));
}

/// F10.
#[test]
fn without_a_sheet_every_account_is_19() {
    let mut book = Book::new();
    book.put(1, &tiered()).unwrap();
    book.direct(1).unwrap();
    for count in [0, 3] {
        let list = [account(1, &[100; 3][..count]); 2];
        assert_eq!(refused(&book, &list), NotRun::NotQuoted(0));
    }
    assert_eq!(run(&book, &[]), (0, vec![]));
}

/// F9.
#[test]
fn what_is_not_open_under_a_direction_is_18() {
    let mut book = book_of(&[tiered()]);
    let low = tariff(1, 23_000, &[18_000], &[]);
    // 2 is a draft under a direction, 3 open without one, 4 a draft without one.
    book.put(2, &low).unwrap();
    book.direct(2).unwrap();
    book.put(3, &low).unwrap();
    assert_eq!(book.open(3), Ok(28));
    book.put(4, &low).unwrap();
    let of = |code| account(code, &[0, 0, 0]);
    for code in [2, 3, 4] {
        assert_eq!(refused(&book, &[of(code)]), NotRun::NotDirected(0));
        let list = [of(1), of(1), of(code), of(1)];
        assert_eq!(refused(&book, &list), NotRun::NotDirected(2));
    }
    // Marked, it is a draft as before.
    book.ask(2).unwrap();
    assert_eq!(refused(&book, &[of(2)]), NotRun::NotDirected(0));
    book.confirm(2).unwrap();
    assert_eq!(run(&book, &[of(2)]).0, 0);
    book.close(2).unwrap();
    assert_eq!(refused(&book, &[of(2)]), NotRun::NotDirected(0));
    book.open(2).unwrap();
    assert_eq!(run(&book, &[of(2), of(1)]).0, 0);
}

#[test]
fn nineteen_is_tested_over_the_whole_list_first() {
    let mut book = book_of(&[tiered()]);
    book.put(2, &tiered()).unwrap();
    let good = account(1, &[100, 100, 100]);
    let draft = account(2, &[100, 100, 100]);
    let bad = account(3, &[100, 100, 100]);
    let cases: [(&[Account], NotRun); 9] = [
        (&[draft, bad], NotRun::NotQuoted(1)),
        (&[bad, draft], NotRun::NotQuoted(0)),
        (&[good, draft, good, bad, bad], NotRun::NotQuoted(3)),
        (&[bad, good, bad], NotRun::NotQuoted(0)),
        (&[good, bad, draft, bad], NotRun::NotQuoted(1)),
        (&[draft, draft, good], NotRun::NotDirected(0)),
        (&[good, good, draft], NotRun::NotDirected(2)),
        (&[good, draft, draft, good], NotRun::NotDirected(1)),
        (&[draft, good, good, good, bad], NotRun::NotQuoted(4)),
    ];
    for (list, refusal) in cases {
        assert_eq!(refused(&book, list), refusal);
        let is_19 = refusal == NotRun::NotQuoted(refusal.place());
        assert_eq!(refusal.number(), if is_19 { 19 } else { 18 });
    }
}

#[test]
fn lists_longer_than_a_million() {
    let mut book = book_of(&[tiered()]);
    book.put(2, &tiered()).unwrap();
    let good = account(1, &[100, 100, 100]);
    let draft = account(2, &[100, 100, 100]);
    let bad = account(3, &[100, 100, 100]);
    let mut list = vec![good; RUN_LIMIT];
    assert_eq!(run(&book, &list).0, 70_425_000_000);
    // F8: whatever stands there, and before any 18.
    for (first, last) in [(good, good), (draft, good), (good, bad), (draft, bad)] {
        list.truncate(RUN_LIMIT);
        list[0] = first;
        list.push(last);
        assert_eq!(refused(&book, &list), NotRun::NotQuoted(1_000_000));
    }
    list.push(good);
    list[999_999] = bad;
    assert_eq!(refused(&book, &list), NotRun::NotQuoted(999_999));
    list.truncate(RUN_LIMIT);
    list[999_999] = draft;
    list[0] = good;
    assert_eq!(refused(&book, &list), NotRun::NotDirected(999_999));
}

// Desks.

#[test]
fn a_part_desk_runs_it_over_its_own_codes() {
    let mut own = tiered();
    own[3] = 3;
    let book = book_of(&[own, tiered()]);
    let (mine, other) = (account(1, &[100; 3]), account(2, &[100; 3]));
    for desk in [3, 7, 16_382 | 1, ALL] {
        let mut list = [mine, mine];
        let answer = book.rebate_by(DeskRegions::new(desk), &mut list);
        assert_eq!(answer, Ok(140_850), "desk {desk}");
    }
    for desk in [3, 7, 8_191] {
        let refusal = refused_by(&book, desk, &[mine, other, mine]);
        assert_eq!(refusal, NotRun::NotQuoted(1), "desk {desk}");
    }
    for desk in [0, 1, 2, 16_380, 16_384, 3 | 16_384, 32_767, u32::MAX] {
        let refusal = refused_by(&book, desk, &[mine, other]);
        assert_eq!(refusal, NotRun::NotQuoted(0), "desk {desk}");
        // E5: the run itself is for every desk.
        assert_eq!(book.rebate_by(DeskRegions::new(desk), &mut []), Ok(0));
    }
}

/// 17 is QUOTE's, and so comes before 18 wherever it stands.
#[test]
fn outside_the_desk_is_19_and_not_18() {
    let mut book = reference_book();
    let mut own = tiered();
    own[3] = 3;
    book.put(1, &own).unwrap();
    book.put(2, &tiered()).unwrap();
    let (mine, other) = (account(1, &[100; 3]), account(2, &[100; 3]));
    assert_eq!(refused_by(&book, 3, &[mine, other]), NotRun::NotQuoted(1));
    assert_eq!(refused_by(&book, 3, &[mine, mine]), NotRun::NotDirected(0));
    assert_eq!(refused_by(&book, 1, &[mine, mine]), NotRun::NotQuoted(0));
}

// The book.

/// F12.
#[test]
fn the_chance_to_undo_stays() {
    let mut book = book_of(&[tiered()]);
    book.set(2023, 10, 3, &reference()).unwrap();
    let before = book.clone();
    assert_eq!(run(&book, &[account(1, &[100; 3])]).0, 70_425);
    assert_eq!(book, before);
    assert_eq!(book.undo(), Ok(()));
}

#[test]
fn under_another_sheet_the_same_account_is_owed_something_else() {
    let mut book = book_of(&[tiered()]);
    let mut sheet = reference();
    sheet[36] = 480_000;
    book.set(2023, 10, 3, &sheet).unwrap();
    // HAP takes a hundredth of SMNCC with it: 20,200 a year less at nil and at m.
    let owed = account(1, &[100; 3]);
    assert_eq!(run(&book, &[owed]).0, 75_475);
    book.undo().unwrap();
    assert_eq!(run(&book, &[owed]).0, 70_425);
}

/// Against QUOTE, on the books of random scripts: a rebate is the least whole number of mills that
/// leaves at most the maximum.
#[test]
fn random_runs() {
    let mut random = Random::new(108);
    let (mut owed, mut not_owed, mut not_quoted, mut not_directed) = (0, 0, 0, 0);
    for seed in 1..=6 {
        let mut desk = Desk::new();
        let script = script(seed, 4_000);
        for (place, line) in script.split(|&byte| byte == b'\n').enumerate() {
            desk.line(line, &mut Vec::new());
            if place % 10 > 0 {
                continue;
            }
            let mut book = desk.book().clone();
            let all = random.one_in(2);
            for code in 1..=32 {
                if book.state(code) == Some(State::Draft) && (all || random.one_in(2)) {
                    book.direct(code).unwrap();
                    if book.t().is_some() {
                        assert_eq!(book.open(code), Ok(0));
                    }
                }
            }
            let set = random.pick(&[ALL, ALL, ALL, 3, 16_382, 0]);
            let by = DeskRegions::new(set);
            let t = book.t().unwrap_or(3);
            let count = random.pick(&[0, 1, 2, 5]);
            let mut any = || Account {
                code: random.between(1, 32),
                region: random.between(0, 13),
                method: random.between(0, 1),
                count: t,
                months: std::array::from_fn(|_| random.between(0, 10_000)),
                rebate: NOT_WRITTEN,
            };
            // Most of them such as QUOTE takes.
            let mut some = || {
                let mut tries = (0..30).map(|_| any());
                tries.find(|account| quoted(&book, by, account).is_some())
            };
            let mut accounts: Vec<Account> = (0..count).filter_map(|_| some()).collect();
            if random.one_in(4) {
                for account in &mut accounts {
                    match random.below(12) {
                        0 => account.code = random.between(0, 33),
                        1 => account.count = random.between(0, 14),
                        2 => account.months[0] = random.between(10_000, 10_001),
                        3 => account.region = random.between(0, 14),
                        _ => {}
                    }
                }
            }
            let before = accounts.clone();
            let quotes: Vec<_> = before
                .iter()
                .map(|account| quoted(&book, by, account))
                .collect();
            let open = |account: &Account| {
                book.state(account.code) == Some(State::Open) && book.is_directed(account.code)
            };
            match book.rebate_by(by, &mut accounts) {
                Err(refusal) => {
                    assert_eq!(accounts, before);
                    match quotes.iter().position(Option::is_none) {
                        Some(place) => {
                            not_quoted += 1;
                            assert_eq!(refusal, NotRun::NotQuoted(place));
                        }
                        None => {
                            not_directed += 1;
                            let place = before.iter().position(|account| !open(account));
                            assert_eq!(Some(refusal), place.map(NotRun::NotDirected));
                        }
                    }
                }
                Ok(total) => {
                    assert!(before.iter().all(open));
                    assert_eq!(total, rebates(&accounts).iter().sum());
                    for (account, quote) in accounts.iter().zip(quotes) {
                        let quote = quote.expect("an account of an accepted run");
                        match account.rebate {
                            0 => not_owed += 1,
                            _ => owed += 1,
                        }
                        assert!(
                            scales(&book, account).any(|scale| is_due(
                                account.rebate,
                                quote,
                                scale
                            )),
                            "{account:?}, {quote:?}"
                        );
                    }
                }
            }
        }
    }
    let met = [owed, not_owed, not_quoted, not_directed];
    assert!(met.iter().all(|&times| times > 80), "{met:?}");
}

fn quoted(book: &Book, by: DeskRegions, account: &Account) -> Option<Quote> {
    let months = account.months.get(..account.count as usize)?;
    let quote = book.quote_by(by, account.code, account.region, account.method, months);
    quote.ok()
}

/// Whether charge less rebate is at most the maximum, and with a mill less would not be.
fn is_due(rebate: u64, quote: Quote, scale: u64) -> bool {
    let [charge, maximum] = [quote.charge, quote.maximum].map(u128::from);
    let least = |mills: u64| maximum + u128::from(mills) * u128::from(scale);
    charge <= least(rebate) && (rebate == 0 || charge > least(rebate - 1))
}

/// 12,000 x m for the arrangement of an account's tariff: of the two, each that has the maximum of its
/// quote.
fn scales<'a>(book: &'a Book, account: &'a Account) -> impl Iterator<Item = u64> + 'a {
    let months = &account.months[..account.count as usize];
    let quote = quoted(book, DeskRegions::ALL, account).expect("an account of an accepted run");
    let maximums = [0, 1].map(|arrangement| {
        let total = months.iter().sum();
        let maximum = book.maximum(account.region, arrangement, account.method, total);
        maximum.expect("a sheet")
    });
    maximums
        .into_iter()
        .filter(move |maximum| 1_000 * maximum.number == quote.maximum)
        .map(|maximum| 1_000 * u64::from(maximum.denominator))
}
