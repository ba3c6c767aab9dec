//! The fast decision against trying many lists of months, charged kWh by kWh.

mod common;

use common::reference;
use second::random::Random;
use second::{period_days, Book, NotOpened, RECORD, REGIONAL};

/// A tariff as its record says, charged without any shortcut.
struct Plain {
    record: [u32; RECORD],
    /// 1,000 x the charge for each kWh count of one month, standing charge apart.
    by_kwh: Vec<i128>,
}

impl Plain {
    fn new(record: [u32; RECORD], sheet: &[u32]) -> Plain {
        let n = record[1] as usize;
        let mut by_kwh = vec![0];
        for kwh in 1..=10_000u32 {
            let thousandths: i128 = match record[0] {
                1 => {
                    let tier = (0..n - 1).take_while(|&i| kwh > record[9 + i]).count();
                    1_000 * i128::from(record[5 + tier])
                }
                2 => {
                    let peak = i128::from(sheet[95]);
                    peak * i128::from(record[5]) + (1_000 - peak) * i128::from(record[6])
                }
                _ => (0..n)
                    .map(|i| i128::from(record[5 + i]) * i128::from(record[9 + i]))
                    .sum(),
            };
            by_kwh.push(by_kwh[by_kwh.len() - 1] + thousandths);
        }
        Plain { record, by_kwh }
    }
}

struct Cell {
    region: usize,
    nil: i128,
    rise: i128,
    m: i128,
    t: usize,
    days: i128,
}

impl Cell {
    /// 12,000 x m x (charge - maximum), straight from the definition.
    fn excess(&self, plain: &Plain, months: &[u32]) -> i128 {
        let number = plain.record[REGIONAL + self.region];
        let standing = i128::from(plain.record[2]) + i128::from(number);
        let charge = 1_000 * standing * self.days
            + months
                .iter()
                .map(|&kwh| plain.by_kwh[kwh as usize])
                .sum::<i128>();
        let total: i128 = months.iter().map(|&kwh| i128::from(kwh)).sum();
        let maximum = self.nil * self.t as i128 * self.m + 12 * self.rise * total;
        12 * self.m * charge - 1_000 * maximum
    }

    fn share(&self, plain: &Plain, kwh: usize) -> i128 {
        12 * self.m * plain.by_kwh[kwh] - 12_000 * self.rise * kwh as i128
    }
}

fn random_sheet(random: &mut Random) -> (u32, u32, u32, Vec<u32>) {
    let mut sheet = reference();
    if random.one_in(2) {
        // Small whole rates and standing charges, so that much is equal.
        sheet[..22].fill(0);
        sheet[22..36].fill(1);
        sheet[36] = 0;
        sheet[93] = random.between(1, 12);
        sheet[94] = random.between(1, 12);
        let (nil, rate) = (random.between(0, 40_000), random.between(0, 20));
        for pair in (37..93).step_by(2) {
            let m = sheet[if pair % 4 == 1 { 93 } else { 94 }];
            sheet[pair] = nil + random.between(0, 2);
            sheet[pair + 1] = sheet[pair] + m * rate + random.below(4) as u32 / 3;
        }
    } else {
        for _ in 0..4 {
            let field = random.between(29, 92) as usize;
            sheet[field] = (sheet[field] + sheet[field] / 50).saturating_sub(random.between(0, 9));
        }
        sheet[93] = random.between(1, 20_000);
        sheet[94] = random.between(1, 20_000);
    }
    if random.one_in(3) {
        sheet[18 + random.index(2)] = random.between(0, 30_000);
    }
    if random.one_in(2) {
        sheet[95] = random.pick(&[0, 1, 579, 581, 1_000]);
    } else if random.one_in(2) {
        sheet[95] = random.between(0, 1_000);
    }
    (
        random.between(2018, 2099),
        random.between(1, 12),
        random.between(1, 12),
        sheet,
    )
}

fn random_record(
    random: &mut Random,
    book: &Book,
    days: u32,
    t: u32,
    sheet: &[u32],
) -> [u32; RECORD] {
    let kind = random.pick(&[1, 1, 1, 2, 3]);
    let n = match kind {
        1 => random.between(1, 4),
        2 => 2,
        _ => random.between(2, 4),
    };
    let arrangement = u32::from(kind != 1);
    let nil = book.benchmark(0, arrangement, 1, 0).unwrap();
    let rise = book.benchmark(0, arrangement, 1, 1).unwrap() - nil;
    let rate = (rise / sheet[93 + arrangement as usize]).min(190_000);
    let standing = (u64::from(nil) * u64::from(t) / (12 * u64::from(days))) as u32;
    let mut record = [0; RECORD];
    record[0] = kind;
    record[1] = n;
    record[2] = (standing + 2)
        .saturating_sub(random.between(0, 4))
        .min(1_000_000);
    if random.one_in(3) {
        record[2] /= 2;
    }
    record[3] = random.pick(&[1, 1 << 13, 16_383, 16_383, 1 << 4 | 1 << 9]);
    record[4] = random.between(1, 3);
    let most = random.pick(&[1, 2, 3, 2_000]);
    for i in 0..n as usize {
        record[5 + i] = (rate + random.between(0, most)).saturating_sub(random.between(0, most));
    }
    if kind == 1 {
        let mut steps: Vec<u32> = Vec::new();
        let limit = random.pick(&[8, 60, 9_999]);
        while steps.len() < n as usize - 1 {
            let step = random.between(1, limit);
            if !steps.contains(&step) {
                steps.push(step);
            }
        }
        steps.sort_unstable();
        record[9..9 + steps.len()].copy_from_slice(&steps);
    } else if kind == 3 {
        let mut left = 1_000;
        for i in 0..n as usize - 1 {
            record[9 + i] = random.between(0, left);
            left -= record[9 + i];
        }
        record[8 + n as usize] = left;
    }
    if random.one_in(2) {
        // A part of the standing charge by region, a mill or two more or less.
        let part = random.between(0, record[2]);
        record[2] -= part;
        let regions = record[3];
        for region in (0..14).filter(|region| regions >> region & 1 == 1) {
            let number = (part + random.between(0, 2)).saturating_sub(random.between(0, 2));
            record[REGIONAL + region] = number.min(1_000_000 - record[2]);
        }
    }
    record
}

/// Calls `look` with every list of `t` months from `from`.
fn all_lists(from: &[u32], t: usize, look: &mut dyn FnMut(&[u32])) {
    fn fill(from: &[u32], list: &mut Vec<u32>, t: usize, look: &mut dyn FnMut(&[u32])) {
        if list.len() == t {
            return look(list);
        }
        for &kwh in from {
            list.push(kwh);
            fill(from, list, t, look);
            list.pop();
        }
    }
    fill(from, &mut Vec::new(), t, look);
}

#[test]
fn no_list_of_months_contradicts_open() {
    let mut random = Random::new(28);
    let (mut opened, mut refused, mut later, mut tied, mut by_number) = (0, 0, 0, 0, 0);
    for _ in 0..120 {
        let (year, month, t, sheet) = random_sheet(&mut random);
        let mut book = Book::new();
        if book.set(year, month, t, &sheet).is_err() {
            continue;
        }
        let days = period_days(year, month, t).unwrap();
        for _ in 0..4 {
            let record = random_record(&mut random, &book, days, t, &sheet);
            book.put(1, &record).unwrap();
            let answer = book.open(1);
            let plain = Plain::new(record, &sheet);
            let arrangement = u32::from(record[0] != 1);

            let mut first = None;
            'walk: for region in (0..14).filter(|region| record[3] >> region & 1 == 1) {
                for method in (0..2).filter(|method| record[4] >> method & 1 == 1) {
                    let at = |level| {
                        i128::from(book.benchmark(region, arrangement, method, level).unwrap())
                    };
                    let cell = Cell {
                        region: region as usize,
                        nil: at(0),
                        rise: at(1) - at(0),
                        m: i128::from(sheet[93 + arrangement as usize]),
                        t: t as usize,
                        days: i128::from(days),
                    };
                    // All 10,001 months, the smallest of the worst.
                    let shares: Vec<i128> =
                        (0..=10_000).map(|kwh| cell.share(&plain, kwh)).collect();
                    let most = *shares.iter().max().unwrap();
                    let worst = shares.iter().position(|&share| share == most).unwrap();
                    let months = vec![worst as u32; t as usize];
                    let greatest = cell.excess(&plain, &months);
                    if shares.iter().rposition(|&share| share == most) != Some(worst) {
                        tied += 1;
                    }

                    // No list does better: all of a few consumptions, equal months, any.
                    let mut near = vec![0, 1, 10_000];
                    if record[0] == 1 {
                        for &step in record[9..13].iter().filter(|&&step| step > 0) {
                            near.extend([step - 1, step, step + 1]);
                        }
                    }
                    if t <= 3 {
                        all_lists(&near, t as usize, &mut |months| {
                            assert!(cell.excess(&plain, months) <= greatest);
                        });
                    }
                    for kwh in (0..=10_000).step_by(97) {
                        assert!(cell.excess(&plain, &vec![kwh; t as usize]) <= greatest);
                    }
                    for _ in 0..50 {
                        let months: Vec<u32> = (0..t)
                            .map(|_| match random.below(2) {
                                0 => random.pick(&near),
                                _ => random.between(0, 10_000),
                            })
                            .collect();
                        let excess = cell.excess(&plain, &months);
                        assert!(excess <= greatest);
                        let quote = book.quote(1, region, method, &months).unwrap();
                        let difference = i128::from(quote.charge) - i128::from(quote.maximum);
                        assert_eq!(difference, excess);
                    }
                    if greatest > 0 {
                        first = Some((region, method, greatest, months));
                        break 'walk;
                    }
                }
            }
            match (answer, first) {
                (Ok(cells), None) => {
                    assert_eq!(cells, record[3].count_ones() * record[4].count_ones());
                    opened += 1;
                    book.close(1).unwrap();
                }
                (Err(NotOpened::OverCap(breach)), Some((region, method, excess, months))) => {
                    assert_eq!((breach.region, breach.method), (region, method));
                    assert_eq!(breach.months(), months);
                    assert_eq!(i128::from(breach.excess), excess);
                    refused += 1;
                    later += u32::from((region, method) != (0, 0));
                    // With 0 for its region it is within the cap of the cell.
                    let number = i128::from(record[REGIONAL + region as usize]);
                    let m = i128::from(sheet[93 + arrangement as usize]);
                    by_number += u32::from(excess <= 12_000 * m * number * i128::from(days));
                }
                (answer, first) => panic!("{answer:?} for {first:?} of {record:?}"),
            }
        }
    }
    // Enough of each for the test to mean something.
    assert!(opened > 40, "{opened} opened");
    assert!(refused > 100, "{refused} refused");
    assert!(later > 30, "{later} in a later cell");
    assert!(tied > 100, "{tied} tied");
    assert!(by_number > 20, "{by_number} by the number of a region");
}

/// A sheet demotes exactly the open tariffs that it would not open, and a trial names them.
#[test]
fn set_and_trial_judge_as_open_does() {
    let mut random = Random::new(7);
    let (mut fell, mut stayed) = (0, 0);
    for _ in 0..200 {
        let (year, month, t, sheet) = random_sheet(&mut random);
        let mut book = Book::new();
        if book.set(year, month, t, &sheet).is_err() {
            continue;
        }
        let days = period_days(year, month, t).unwrap();
        for code in 1..=32 {
            let record = random_record(&mut random, &book, days, t, &sheet);
            book.put(code, &record).unwrap();
            let _ = book.open(code);
        }
        let mut next = sheet.clone();
        let less = random.pick(&[3, 300, 100_000]);
        for pair in (37..93).step_by(2) {
            let less = random.between(0, less).min(next[pair]);
            next[pair] -= less;
            next[pair + 1] -= less;
        }
        if random.one_in(4) {
            // The split alone.
            next = sheet.clone();
            next[95] = random.between(0, 1_000);
        }
        let mut after = book.clone();
        if after.set(year, month, t, &next).is_err() {
            continue;
        }
        let named = book.trial(year, month, t, &next).unwrap();
        for code in 1..=32 {
            let was_open = book.clone().close(code).is_ok();
            let is_open = after.clone().close(code).is_ok();
            let mut reopened = after.clone();
            let _ = reopened.close(code);
            let within = reopened.open(code).is_ok();
            assert_eq!(is_open, was_open && within);
            assert_eq!(named >> (code - 1) & 1 == 1, was_open && !within);
            fell += u32::from(was_open && !is_open);
            stayed += u32::from(is_open);
        }
    }
    assert!(fell > 100, "{fell} fell");
    assert!(stayed > 100, "{stayed} stayed");
}
