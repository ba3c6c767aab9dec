//! Rebate runs: lists of any length, accounts at the cap and next to it, accounts that are refused
//! and what stands before and behind them.

use super::*;
use crate::desk::ACCOUNT;

impl Writer {
    /// A run, accepted or refused.
    pub(super) fn any_rebate(&mut self) {
        match self.random.below(200) {
            0..=5 => self.rebate(&[]),
            6 => self.long_run(),
            7..=24 => self.run_at_the_cap(),
            way => {
                let most = match way {
                    25..=99 => 1,
                    100..=184 => 4,
                    _ => 20,
                };
                self.short_run(most);
            }
        }
    }

    /// One account of a code, if its place is used.
    pub(super) fn rebate_of(&mut self, code: u32) {
        let mut account = self.account_of(code);
        if self.random.one_in(12) {
            self.spoil_account(&mut account);
        }
        self.rebate(&[account]);
    }

    /// An account that QUOTE takes, if the place of its code is used.
    pub(super) fn account_of(&mut self, code: u32) -> Account {
        let record = self.used_record(code).unwrap_or(FREE);
        let t = self.book.t().unwrap_or(3);
        let region = self.random_bit(record[3]);
        let method = self.random_bit(record[4]);
        let months = self.months(&record, t as usize);
        let mut places = self.unread_places();
        places[..t as usize].copy_from_slice(&months);
        Account {
            code,
            region,
            method,
            count: t,
            months: places,
            rebate: 0,
        }
    }

    /// What may stand in the places past the months: anything.
    fn unread_places(&mut self) -> [u32; 12] {
        let any = self.random.any_size(u32::MAX);
        let same = self
            .random
            .pick(&[0, 0, 0, 9, MONTH_LIMIT, MONTH_LIMIT + 1, u32::MAX, any]);
        [same; 12]
    }

    /// Makes an account such as QUOTE refuses.
    fn spoil_account(&mut self, account: &mut Account) {
        let record = self.used_record(account.code).unwrap_or(FREE);
        let t = self.book.t().unwrap_or(3);
        match self.random.below(13) {
            0 => account.code = self.bad_code(),
            1 => account.code = self.code_in(State::Empty, 1_000),
            2 => account.region = self.past(14),
            3 => account.region = self.random_bit(!record[3] & ALL_REGIONS),
            4 => account.method = self.past(2),
            5 => account.method = self.random_bit(!record[4] & 3),
            6 => account.count = t - 1,
            7 => account.count = t + 1,
            8 => {
                let far = self.random.pick(&FAR);
                account.count =
                    self.random
                        .pick(&[0, 12, 13, 14, 16, 256 + t, 65_536 + t, u32::MAX, far]);
            }
            9 => account.months[0] = MONTH_LIMIT + 1,
            10 => account.months[t as usize - 1] = MONTH_LIMIT + 1,
            11 => {
                let month = self.random.index(t as usize);
                account.months[month] = self.random.between(MONTH_LIMIT + 1, u32::MAX);
            }
            _ => account.months = [u32::MAX; 12],
        }
    }

    /// A code whose tariff is not open under a direction, if there is one.
    fn code_not_under_a_direction(&mut self) -> Option<u32> {
        let (directed, open) = (self.random.one_in(2), self.random.one_in(2));
        let wanted = if open { State::Open } else { State::Draft };
        let start = self.random.between(0, 31);
        let used = |book: &Book, code| book.state(code) != Some(State::Empty);
        let exactly = self.code_from(start, |book, code| {
            book.state(code) == Some(wanted) && book.is_directed(code) == (directed && !open)
        });
        exactly.or_else(|| {
            self.code_from(start, |book, code| {
                used(book, code)
                    && !(book.is_directed(code) && book.state(code) == Some(State::Open))
            })
        })
    }

    /// Up to so many accounts, now and then one twice, and some that are refused among them.
    fn short_run(&mut self, most: u32) {
        if self.code_under_a_direction().is_none() && self.random.one_in(2) {
            self.directed_open();
        }
        let mut accounts = Vec::new();
        for _ in 0..self.random.between(1, most) {
            let Some(code) = self.code_under_a_direction().or_else(|| self.used_code()) else {
                return self.rebate(&[]);
            };
            let account = self.account_of(code);
            accounts.push(account);
            if most > 1 && self.random.one_in(5) {
                accounts.push(account);
            }
        }
        for _ in 0..self.random.pick(&[0, 0, 0, 1, 1, 2, 2, 3]) {
            let mut account = self.random.pick(&accounts);
            match self.code_not_under_a_direction() {
                Some(code) if self.random.one_in(2) => account = self.account_of(code),
                _ => self.spoil_account(&mut account),
            }
            // In the place of another, or put between.
            let place = self.random.index(accounts.len());
            if self.random.one_in(2) {
                accounts[place] = account;
            } else {
                accounts.insert(place, account);
            }
        }
        self.rebate(&accounts);
    }

    /// A tariff whose charge for some months is at the cap, or next to it, and a run over it: the
    /// standing charge takes up all but less than the days of the period, and the first kWh, or a
    /// weighted kWh, the rest.
    fn run_at_the_cap(&mut self) {
        if self.book.t().is_none() {
            return self.rebate(&[]);
        }
        let Dated { year, month, t, .. } = self.sheet;
        let days = u64::from(period_days(year, month, t).expect("the period in force"));
        let (region, method) = (self.region(), self.random.between(0, 1));
        let weighted = self.random.one_in(3);
        let kwh = match self.random.below(3) {
            _ if weighted => 1,
            0 => self.random.between(1, MONTH_LIMIT),
            // The maximum is whole more often.
            1 => 12 * self.random.between(1, 800),
            _ => self.sheet.fields[93].min(MONTH_LIMIT),
        };
        let (arrangement, whole) = if weighted { (1, 1_000) } else { (0, 1) };
        let maximum = self.scratch.maximum(region, arrangement, method, kwh);
        let maximum = maximum.expect("a sheet in force");
        let cap = maximum.number * whole / u64::from(maximum.denominator);
        let standing = cap / (whole * days);
        if standing > u64::from(STANDING_LIMIT) {
            return self.rebate(&[]);
        }
        let step = self.random.pick(&[0, 0, 0, 1, 1, 1, 2, whole]);
        let rest = (cap - standing * whole * days + step) as u32;
        let regions = self.some_of(ALL_REGIONS) | 1 << region;
        let mut record = record_of(1, 2, standing as u32, regions, 1 << method | 1);
        if weighted {
            record[0] = 3;
            let (rate, share) = (rest / WHOLE, rest % WHOLE);
            record[5..7].copy_from_slice(&[rate + 1, rate]);
            record[9..11].copy_from_slice(&[share, WHOLE - share]);
        } else {
            record[5] = rest;
            record[9] = 1;
        }
        let code = self.code_to_put();
        self.put(code, &record);
        self.direct(code);
        self.open_by_either_road(code);
        let mut account = self.account_of(code);
        (account.region, account.method) = (region, method);
        account.months[..t as usize].fill(0);
        account.months[self.random.index(t as usize)] = kwh;
        let mut accounts = vec![account; self.random.pick(&[1, 1, 2, 3])];
        if self.random.one_in(3) {
            accounts.push(self.account_of(code));
        }
        self.rebate(&accounts);
    }

    /// About as many accounts as a line holds, 500 most of the time, of one digit a number.
    fn long_run(&mut self) {
        let t = self.book.t().unwrap_or(10);
        if t > 9 {
            return self.short_run(4);
        }
        let code = self.random.between(1, 9);
        let region = self.random.between(0, 9);
        if self.book.state(code) == Some(State::Open) {
            self.close(code);
        }
        let mut record = self.record_over();
        record[3] = 1 << region;
        record[REGIONAL..].fill(0);
        self.put(code, &record);
        if !self.random.one_in(6) {
            self.direct(code);
        }
        self.open(code);
        let method = self.random_bit(record[4]);
        let count = self.random.pick(&[499, 500, 500, 500, 500, 501, 511]);
        let mut accounts = Vec::new();
        for _ in 0..count {
            accounts.push(Account {
                code,
                region,
                method,
                count: t,
                months: std::array::from_fn(|_| self.random.between(0, 9)),
                rebate: 0,
            });
        }
        for _ in 0..self.random.pick(&[0, 0, 0, 1, 2]) {
            let place = match self.random.below(4) {
                0 => count - 1,
                _ => self.random.index(count),
            };
            match self.random.below(4) {
                0 => accounts[place].count = (t + 1) % 10,
                1 => accounts[place].region = (region + 1) % 10,
                2 => accounts[place].code = code % 9 + 1,
                _ => accounts[place].code = 0,
            }
        }
        self.rebate(&accounts);
    }
}

/// The numbers of a list of accounts in a line.
pub(super) fn numbers_of(accounts: &[Account]) -> Vec<u32> {
    let mut numbers = Vec::with_capacity(ACCOUNT * accounts.len());
    for account in accounts {
        let Account {
            code,
            region,
            method,
            count,
            months,
            ..
        } = *account;
        numbers.extend([code, region, method, count]);
        numbers.extend(months);
    }
    numbers
}
