//! What standing charges by region reach: sums at their limit, numbers where there may be none, and
//! tariffs that only the number of one region puts over the cap.

use super::*;
use crate::sheet::{PEAK_SHARE, REGIONS};
use crate::tariff::{Tariff, REGIONAL, STANDING_LIMIT};

/// A quote, as long as no other call has come after it.
#[derive(PartialEq)]
pub(super) struct Quoted {
    pub code: u32,
    pub method: u32,
    pub months: Vec<u32>,
}

const LIMIT: u64 = STANDING_LIMIT as u64;
const ONE_ABOVE: u64 = LIMIT + 1;
const ROUND: u64 = 1 << 32;
/// What is 2^32 with the limit.
const TO_ROUND: u32 = STANDING_LIMIT.wrapping_neg();

fn number(record: &[u32; RECORD], region: usize) -> u32 {
    record[REGIONAL + region]
}

/// Field 2 and the number of a region.
fn sum(record: &[u32; RECORD], region: usize) -> u64 {
    u64::from(record[2]) + u64::from(number(record, region))
}

fn is_offered(record: &[u32; RECORD], region: usize) -> bool {
    record[3] >> region & 1 == 1
}

/// Which of the offered regions this one is.
fn which(record: &[u32; RECORD], region: usize) -> &'static str {
    let first = record[3].trailing_zeros() as usize;
    match region {
        0 => "region 0",
        _ if region == first => "the first offered region, not 0",
        _ => "a later region",
    }
}

/// The record with another number for a region.
fn with_number(record: &[u32; RECORD], region: usize, number: u32) -> [u32; RECORD] {
    let mut other = *record;
    other[REGIONAL + region] = number;
    other
}

impl Counts {
    pub(super) fn put_by_region(&mut self, record: &[u32; RECORD]) {
        let offered = (0..REGIONS).filter(|&region| is_offered(record, region));
        let mut numbers: Vec<u32> = offered.map(|region| number(record, region)).collect();
        for region in (0..REGIONS).filter(|&region| number(record, region) > 0) {
            let what = "regions put with a number";
            self.tally.different(what, region as u64);
        }
        if record[2] == 0 && numbers.iter().all(|&number| number > 0) {
            let what = "put: field 2 of 0, a number in each region";
            self.tally.one(what);
        }
        if record[2] > 0 && numbers.iter().any(|&number| number > 0) {
            let what = "put: field 2 above 0, with a number by region";
            self.tally.one(what);
        }
        numbers.dedup();
        self.tally.one(match numbers[..] {
            [0] => "put: 0 in all regions",
            [_] => "put: the same number in all its regions",
            _ => "put: different numbers in its regions",
        });
        let at_limit = |region| number(record, region) > 0 && sum(record, region) == LIMIT;
        if let Some(region) = only(REGIONS, at_limit) {
            let what = "regions with a sum of 1,000,000 alone";
            self.tally.different(what, region as u64);
            count!(
                self,
                "put ok: a sum of 1,000,000 alone, in {}",
                which(record, region)
            );
        }
    }

    /// PUT was refused for its record: for what, if its length, field 2 or the numbers by region
    /// are all that was wrong.
    pub(super) fn refused_record(&mut self, record: &[u32]) {
        let Ok(record) = <&[u32; RECORD]>::try_from(record) else {
            return self.refused_length(record);
        };
        let mut without = *record;
        without[REGIONAL..].fill(0);
        without[2] = 0;
        if Tariff::new(&without).is_none() {
            return;
        }
        if record[2] > STANDING_LIMIT {
            return self.refused_field_2(record);
        }
        let spare = |region| !is_offered(record, region) && number(record, region) > 0;
        let over = |region| is_offered(record, region) && sum(record, region) > LIMIT;
        let bad = |region| spare(region) || over(region);
        match only(REGIONS, bad) {
            Some(region) if spare(region) => self.refused_number(record, region),
            Some(region) => self.refused_sum(record, region),
            None => {}
        }
    }

    fn refused_length(&mut self, record: &[u32]) {
        let count = record.len();
        if ![REGIONAL, RECORD - 1, RECORD + 1].contains(&count) {
            return;
        }
        let mut whole = record.to_vec();
        whole.resize(RECORD, 0);
        if Tariff::new(&whole).is_some() {
            count!(self, "put refused 8 for {count} numbers alone");
        }
    }

    fn refused_field_2(&mut self, record: &[u32; RECORD]) {
        let mut offered = (0..REGIONS).filter(|&region| is_offered(record, region));
        if record[REGIONAL..] == [0; REGIONS] {
            if record[2] == STANDING_LIMIT + 1 {
                let what = "put refused 8: field 2 of 1,000,001, 0 in all regions";
                self.tally.one(what);
            }
        } else if offered.all(|region| sum(record, region) as u32 <= STANDING_LIMIT) {
            let what = "put refused 8: field 2 above its range, all sums within it at 2^32";
            self.tally.one(what);
        }
    }

    /// The only fault is the number of a region that is not offered.
    fn refused_number(&mut self, record: &[u32; RECORD], region: usize) {
        let what = match (number(record, region), sum(record, region)) {
            (1, _) => "regions not offered, with a number of 1 alone",
            (_, 0..=LIMIT) => "regions not offered, with a sum of 1,000,000 at most alone",
            _ => "regions not offered, with a sum above 1,000,000 alone",
        };
        self.tally.different(what, region as u64);
    }

    /// The only fault is the sum of a region that is offered.
    fn refused_sum(&mut self, record: &[u32; RECORD], region: usize) {
        if record[2] == STANDING_LIMIT {
            match number(record, region) {
                1 => self.tally.one("put refused 8: 1,000,000 and 1"),
                u32::MAX => self.tally.one("put refused 8: 1,000,000 and 2^32 - 1"),
                TO_ROUND => self
                    .tally
                    .one("put refused 8: 1,000,000 and 2^32 - 1,000,000"),
                _ => {}
            }
        }
        let sum = sum(record, region);
        let (what, size) = match (sum, sum as u32) {
            (ONE_ABOVE, _) => ("regions with a sum of 1,000,001 alone", "of 1,000,001"),
            (ROUND.., 0) => ("regions with a sum past 2^32 alone", "of 0 at 2^32"),
            (ROUND.., 1..=STANDING_LIMIT) => (
                "regions with a sum past 2^32 alone",
                "of 1 to 1,000,000 at 2^32",
            ),
            _ => (
                "regions with another sum above 1,000,000 alone",
                "above 1,000,001",
            ),
        };
        self.tally.different(what, region as u64);
        count!(
            self,
            "put refused 8: a sum {size} alone, in {}",
            which(record, region)
        );
    }

    /// Whether a tariff is over the cap of the sheet in force.
    pub(super) fn over(&mut self, record: &[u32; RECORD]) -> bool {
        self.over_at(self.fields[PEAK_SHARE], record)
    }

    /// A tariff was opened.
    pub(super) fn opened_by_region(&mut self, record: &[u32; RECORD]) {
        let numbers: Vec<usize> = (0..REGIONS)
            .filter(|&region| number(record, region) > 0)
            .collect();
        if numbers.is_empty() {
            return self.tally.one("opened: 0 in all regions");
        }
        count!(self, "opened: kind {}, numbers by region", record[0]);
        let mut at_the_cap = 0;
        for region in numbers {
            let more = with_number(record, region, number(record, region) + 1);
            if sum(record, region) < LIMIT && self.over(&more) {
                at_the_cap += 1;
                let what = "regions opened with their highest number";
                self.tally.different(what, region as u64);
                count!(
                    self,
                    "opened: the highest number for {}",
                    which(record, region)
                );
            }
        }
        if at_the_cap > 1 {
            self.tally
                .one("opened: the highest number for several regions");
        }
    }

    /// A tariff is over the cap in a cell.
    pub(super) fn over_in_region(&mut self, record: &[u32; RECORD], region: usize, method: u64) {
        let number = number(record, region);
        if number == 0 {
            return self.tally.one("11: 0 in its region");
        }
        count!(self, "11: kind {}, a number in its region", record[0]);
        if !self.over(&with_number(record, region, 0)) {
            count!(self, "11: only by the number of {}", which(record, region));
        }
        if !self.over(&with_number(record, region, number - 1)) {
            count!(
                self,
                "11: by one mill of the number of {}",
                which(record, region)
            );
            let cell = 2 * region as u64 + method;
            let cell = if record[0] == 1 { cell } else { 28 + cell };
            let what = "cells over the cap by one mill of a number, by arrangement";
            self.tally.different(what, cell);
        }
    }

    /// Tariffs that fall by a sheet, or would: those that do only by the number of the region
    /// that is over. `after` has the sheet, and they are drafts in it.
    pub(super) fn fall_by_number(&mut self, call: &str, fallen: u32, after: &mut Book) {
        for place in (0..PLACES).filter(|&place| fallen >> place & 1 == 1) {
            let (code, record) = (place as u32 + 1, self.records[place]);
            let Err(NotOpened::OverCap(breach)) = after.open(code) else {
                panic!("code {code} fell and is not over the cap");
            };
            let region = breach.region as usize;
            if number(&record, region) == 0 {
                continue;
            }
            let put = after.put(code, &with_number(&record, region, 0));
            put.expect("a draft");
            if after.open(code).is_ok() {
                let falls = name(call, "falls", "would fall");
                count!(
                    self,
                    "{call}: {falls} only by the number of {}",
                    which(&record, region)
                );
                let what = name(
                    call,
                    "regions by whose number alone a tariff falls",
                    "regions by whose number alone a tariff would fall",
                );
                self.tally.different(what, region as u64);
            }
        }
    }

    /// A quote was answered.
    pub(super) fn quoted_by_region(
        &mut self,
        numbers: &[u32],
        record: &[u32; RECORD],
        at_cap: bool,
    ) {
        let &[code, region, method, ref months @ ..] = numbers else {
            panic!("quote takes at least 3 numbers");
        };
        let region = region as usize;
        let quoted = Quoted {
            code,
            method,
            months: months.to_vec(),
        };
        match self.quoted.take() {
            Some((before, other))
                if before == quoted && number(record, other) != number(record, region) =>
            {
                let what = "quoted: the same in a region with another number";
                self.tally.one(what);
                let what = "pairs of regions quoted in, with different numbers";
                self.tally
                    .different(what, (REGIONS * other + region) as u64);
            }
            _ => {}
        }
        self.quoted = Some((quoted, region));
        if at_cap && number(record, region) > 0 {
            let what = "quote exactly at the cap, a number in its region";
            self.tally.one(what);
        }
    }
}
