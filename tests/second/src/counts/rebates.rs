//! What rebate runs reach: lists of every length, rebates at the cap and next to it, and the accounts
//! that are refused, with what stands before and behind them.

use std::collections::HashSet;

use super::*;
use crate::desk::ACCOUNT;
use crate::regions::DeskRegions;

/// What a list of so many accounts is called.
fn size(accounts: usize) -> &'static str {
    match accounts {
        0 => "no account",
        1 => "one account",
        2..=9 => "some accounts",
        10..=498 => "many accounts",
        500 => "500 accounts",
        511 => "511 accounts",
        _ => "about 500 accounts",
    }
}

/// The months of an account, or none if there are more than twelve.
fn months(account: &[u32]) -> Option<&[u32]> {
    account[4..].get(..account[3] as usize)
}

impl Counts {
    pub(super) fn rebate(&mut self, numbers: &[u32], refusal: u64, values: &[u64], book: &Book) {
        let accounts: Vec<&[u32]> = numbers.chunks(ACCOUNT).collect();
        let size = size(accounts.len());
        match refusal {
            0 => count!(self, "rebate of {size}: ok"),
            _ => count!(self, "rebate of {size}: refused {refusal}"),
        }
        match refusal {
            0 => self.rebates(&accounts, values, book),
            18 => self.not_directed(&accounts, values[1] as usize, book),
            _ => self.not_quoted(&accounts, values[1] as usize, book),
        }
    }

    /// What QUOTE of the same desk refuses an account with, or 0.
    fn quote_refuses(&self, account: &[u32], book: &Book) -> u32 {
        let desk = self.desk.map_or(DeskRegions::ALL, DeskRegions::new);
        // More than twelve months are not t.
        let months = months(account).unwrap_or(&[0; 13]);
        let quote = book.quote_by(desk, account[0], account[1], account[2], months);
        quote.map_or_else(Refusal::number, |_| 0)
    }

    fn rebates(&mut self, accounts: &[&[u32]], values: &[u64], book: &Book) {
        let (&total, rebates) = values.split_first().expect("a total");
        assert_eq!(total, rebates.iter().sum::<u64>(), "the total of a run");
        if total > u64::from(u32::MAX) {
            self.tally.one("rebate: a total above 2^32");
        }
        let part = is_part(self.desk);
        match (accounts.is_empty(), part) {
            (true, true) => self.tally.one("rebate of no account by a part desk: ok"),
            (false, true) => self.tally.one("rebate of accounts by a part desk: ok"),
            _ => {}
        }
        let mut met = HashSet::new();
        let (mut twice, mut codes, mut methods) = (false, 0u32, 0u32);
        for (account, &rebate) in accounts.iter().zip(rebates) {
            codes |= 1 << (account[0] - 1);
            methods |= 1 << account[2];
            twice |= !met.insert(*account) && rebate > 0;
            self.one_rebate(account, rebate, book);
        }
        if twice {
            self.tally
                .one("rebate ok: an account twice, owed something");
        }
        if codes.count_ones() > 1 {
            self.tally.one("rebate ok: accounts of several codes");
        }
        if methods == 3 {
            self.tally.one("rebate ok: accounts of both methods");
        }
        if rebates.iter().skip(1).any(|rebate| *rebate != rebates[0]) {
            self.tally.one("rebate ok: different rebates");
        }
    }

    fn one_rebate(&mut self, account: &[u32], rebate: u64, book: &Book) {
        let &[code, region, method, count, ..] = account else {
            panic!("an account of 16 numbers");
        };
        assert!(
            self.is_open_under_a_direction(code),
            "a rebate of code {code}"
        );
        let months = months(account).expect("at most twelve months");
        let record = self.records[code as usize - 1];
        let quote = book.quote(code, region, method, months);
        let quote = quote.expect("an account of an accepted run");
        let arrangement = u32::from(record[0] != 1);
        let maximum = book.maximum(region, arrangement, method, 0);
        let scale = 1_000 * u64::from(maximum.expect("a sheet in force").denominator);
        self.tally.one(match quote.charge.cmp(&quote.maximum) {
            Ordering::Less => "rebates of 0 below the cap",
            Ordering::Equal => "rebates of 0 exactly at the cap",
            Ordering::Greater => match (quote.charge - quote.maximum, rebate) {
                (over, 1) if over == scale => "rebates of 1 mill, for just that",
                (_, 1) => "rebates of 1 mill, for a part of it",
                (over, _) if over % scale == 0 => "rebates of whole mills",
                _ => "rebates rounded up",
            },
        });
        if quote.charge == quote.maximum && quote.charge > 0 {
            self.tally.one("exactly at a cap above 0: rebates of 0");
        }
        if rebate > u64::from(u32::MAX) {
            self.tally.one("rebates above 2^32");
        }
        if rebate > 0 {
            self.shape("rebate", &record);
            let cell = u64::from(2 * region + method + 28 * arrangement);
            let what = "cells with a rebate, by arrangement";
            self.tally.different(what, cell);
            self.tally.different("codes with a rebate", code.into());
            let what = "lengths of the months of a rebate";
            self.tally.different(what, count.into());
        }
        let past = &account[4 + count as usize..];
        if past.iter().any(|&kwh| kwh > MONTH_LIMIT) {
            let what = "rebates with more than 10,000 past the months";
            self.tally.one(what);
        } else if past.iter().any(|&kwh| kwh > 0) {
            self.tally.one("rebates with something past the months");
        }
    }

    /// Where the account stands that a run is refused for.
    fn place_of_account(&mut self, refusal: u32, place: usize, count: usize) {
        let what = match place {
            _ if count == 1 => "the only place",
            0 => "the first place",
            _ if place + 1 == count => "the last place",
            _ => "a place between",
        };
        count!(self, "rebate refused {refusal} at {what}");
    }

    fn not_quoted(&mut self, accounts: &[&[u32]], place: usize, book: &Book) {
        let account = accounts[place];
        let (before, behind) = (&accounts[..place], &accounts[place + 1..]);
        let mut refused = before
            .iter()
            .map(|account| self.quote_refuses(account, book));
        assert!(refused.all(|refusal| refusal == 0), "an earlier account");
        self.place_of_account(19, place, accounts.len());
        let directed = |account: &&[u32]| self.is_open_under_a_direction(account[0]);
        let behind_18 = !before.iter().all(directed);
        let refused = |account: &&[u32]| self.quote_refuses(account, book) > 0;
        let before_19 = behind.iter().any(refused);
        let before_18 = behind
            .iter()
            .any(|account| !refused(account) && !directed(account));
        for (met, what) in [
            (behind_18, "rebate refused 19 behind an 18"),
            (before_18, "rebate refused 19 before an 18"),
            (before_19, "rebate refused 19 before another 19"),
        ] {
            if met {
                self.tally.one(what);
            }
        }
        let refusal = self.quote_refuses(account, book);
        assert!(refusal > 0, "an account that quote takes was refused 19");
        count!(self, "rebate refused 19: refusal {refusal} of quote");
        match refusal {
            13 => self.fault_of_account(account),
            _ if months(account).is_none() => {
                let what = "rebate refused 19: more than twelve months and another fault";
                self.tally.one(what);
            }
            _ => {}
        }
    }

    /// What alone is wrong with an account that QUOTE refuses with 13.
    fn fault_of_account(&mut self, account: &[u32]) {
        let &[code, region, method, count, ..] = account else {
            panic!("an account of 16 numbers");
        };
        let record = self.records[code as usize - 1];
        let t = self.period.expect("a sheet in force")[2];
        let read = months(account).unwrap_or(&[]);
        let length = match count {
            0 => "no month",
            _ if count < t => "too few months",
            u32::MAX => "4294967295 months",
            _ if count > 12 => "more than twelve months",
            _ => "too many months",
        };
        let faults = [
            (region > 13, "region past 13"),
            (
                region <= 13 && record[3] >> region & 1 == 0,
                "region not offered",
            ),
            (method > 1, "method past 1"),
            (
                method <= 1 && record[4] >> method & 1 == 0,
                "method not offered",
            ),
            (count != t, length),
            (
                read.iter().any(|&kwh| kwh > MONTH_LIMIT),
                "a month above 10,000",
            ),
        ];
        let mut met = faults.iter().filter(|(met, _)| *met);
        if let (Some((_, fault)), None) = (met.next(), met.next()) {
            count!(self, "rebate refused 19: {fault} alone");
            if t > 1 && read.first() == Some(&(MONTH_LIMIT + 1)) {
                self.tally.one("rebate refused 19: first month 10,001");
            }
            if t > 1 && read.last() == Some(&(MONTH_LIMIT + 1)) {
                self.tally.one("rebate refused 19: last month 10,001");
            }
        }
    }

    fn not_directed(&mut self, accounts: &[&[u32]], place: usize, book: &Book) {
        let mut refused = accounts
            .iter()
            .map(|account| self.quote_refuses(account, book));
        assert!(refused.all(|refusal| refusal == 0), "18 before a 19");
        let directed = |account: &&[u32]| self.is_open_under_a_direction(account[0]);
        let first = accounts.iter().position(|account| !directed(account));
        assert_eq!(first, Some(place), "the place of 18");
        let another = !accounts[place + 1..].iter().all(directed);
        self.place_of_account(18, place, accounts.len());
        if another {
            self.tally.one("rebate refused 18 before another 18");
        }
        let code = accounts[place][0];
        let what = match (self.open[code as usize - 1], self.is_directed(code)) {
            (true, _) => "an open tariff without a direction",
            (false, true) if self.is_marked(code) => "a marked draft under a direction",
            (false, true) => "a draft under a direction",
            (false, false) => "a draft without a direction",
        };
        count!(self, "rebate refused 18: {what}");
    }
}
