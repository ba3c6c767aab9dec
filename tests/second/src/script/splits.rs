//! Splits of Economy 7: sheets with any peak share, tariffs of kind 2 at the cap under it, and
//! sheets that differ from the one in force in the peak share alone.

use super::*;

/// The peak share of 28AD.31, in tenths of a percent.
pub(crate) const DRAFTED: u32 = 580;

/// Peak shares next to the ends of their range and to the drafted one.
const EDGES: [u32; 9] = [0, 1, 58, 420, 579, 580, 581, 999, 1_000];

/// Numbers that are no peak share, and that a careless program takes for one.
const OUTSIDE: [u32; 8] = [
    1_001,
    1_001,
    1_002,
    5_800,
    10_000,
    66_116,
    0x8000_0000,
    u32::MAX,
];

/// Whether the number is one of these peak shares, within their range or outside of it.
pub(crate) fn is_share_edge(share: u32) -> bool {
    EDGES.contains(&share) || OUTSIDE.contains(&share)
}

impl Dated {
    fn peak_share(&self) -> u32 {
        self.fields[PEAK_SHARE]
    }
}

impl Writer {
    fn any_share(&mut self) -> u32 {
        match self.random.below(3) {
            0 => self.random.pick(&EDGES),
            _ => self.random.between(0, WHOLE),
        }
    }

    /// Another peak share on a sheet.
    pub(super) fn split(&mut self, dated: &mut Dated) {
        let share = dated.peak_share().min(WHOLE);
        let other = match self.random.below(7) {
            0 => share + 1,
            1 => share.saturating_sub(1),
            2 => WHOLE - share,
            3 => DRAFTED,
            4 => self.random.pick(&[0, WHOLE]),
            _ => self.any_share(),
        };
        dated.fields[PEAK_SHARE] = other.min(WHOLE);
    }

    /// Two rates that have this weighted rate, in thousandths of a mill, if the first is for this
    /// share. `None` if there are none.
    fn rates_for(&mut self, weighted: u64, share: u32) -> Option<[u32; 2]> {
        let rest = WHOLE - share;
        if share == 0 || rest == 0 {
            // One of them counts for nothing.
            let whole = weighted.is_multiple_of(WHOLE.into());
            let rate = u32::try_from(weighted / u64::from(WHOLE)).ok();
            let rate = rate.filter(|&rate| whole && rate <= RATE_LIMIT)?;
            let other = self.random.between(0, RATE_LIMIT);
            return Some(if share == 0 {
                [other, rate]
            } else {
                [rate, other]
            });
        }
        let (share, rest, limit) = (u64::from(share), u64::from(rest), u64::from(RATE_LIMIT));
        let least = weighted.saturating_sub(rest * limit).div_ceil(share);
        let most = (weighted / share).min(limit);
        let count = (most + 1).checked_sub(least).filter(|&count| count > 0)?;
        let start = self.random.below(count);
        // If there is one, there is one among so many.
        let first = (0..count.min(u64::from(WHOLE)))
            .map(|i| least + (start + i) % count)
            .find(|first| (weighted - share * first).is_multiple_of(rest))?;
        let second = (weighted - share * first) / rest;
        Some([first as u32, second as u32])
    }

    /// A tariff of kind 2 or 3 whose weighted rate is that of the cap in its one cell, so that no
    /// consumption is worse than another. Its standing charge is 0.
    pub(super) fn flat(&mut self, kind: u32, region: u32, method: u32) -> Option<[u32; RECORD]> {
        let at = |level| self.scratch.benchmark(region, 1, method, level).ok();
        let rise = u64::from(at(1)? - at(0)?);
        let m = u64::from(self.sheet.fields[94]);
        let thousandths = u64::from(WHOLE) * rise;
        if !thousandths.is_multiple_of(m) {
            return None;
        }
        let share = match kind {
            2 => self.sheet.peak_share(),
            _ => self.any_share(),
        };
        let [first, second] = self.rates_for(thousandths / m, share)?;
        let mut record = record_of(kind, 2, 0, 1 << region, 1 << method);
        (record[5], record[6]) = (first, second);
        if kind == 3 {
            (record[9], record[10]) = (share, WHOLE - share);
        }
        Some(record)
    }

    /// A tariff of kind 2 at the cap of the sheet in force, or a mill to either side.
    fn economy_7(&mut self) -> [u32; RECORD] {
        let share = match self.sheet.peak_share() {
            share @ (0 | DRAFTED | WHOLE) => share.to_string(),
            _ => "another".to_string(),
        };
        if self.random.one_in(2) {
            let (region, method) = (self.region(), self.random.between(0, 1));
            if let Some(mut record) = self.flat(2, region, method) {
                record[2] = self.allowed(&record).0;
                let (place, limit) = self.random.pick(&[
                    (2, STANDING_LIMIT),
                    (2, STANDING_LIMIT),
                    (5, RATE_LIMIT),
                    (6, RATE_LIMIT),
                ]);
                let (how, value) = match self.random.below(3) {
                    0 => ("", record[place]),
                    1 => (" but a mill more", (record[place] + 1).min(limit)),
                    _ => (" but a mill less", record[place].saturating_sub(1)),
                };
                record[place] = value;
                self.note(&format!(
                    "Economy 7 as flat as the cap{how}, peak share: {share}"
                ));
                return record;
            }
        }
        let mut record = self.shape_where(|record| record[0] == 2);
        if let Some((place, most)) = self.fit(&record) {
            let (how, value) = match self.random.below(4) {
                0 => ("one mill under the cap", most.saturating_sub(1)),
                1 => ("one mill over the cap", most + 1),
                _ => ("just within the cap", most),
            };
            record[place] = value;
            self.note(&format!("Economy 7 {how}, peak share: {share}"));
        }
        record
    }

    /// A tariff of kind 2 next to the cap, and then the sheet in force with another peak share
    /// alone: tried, set, and what comes of it.
    pub(super) fn splits(&mut self) {
        if self.book.t().is_none() {
            return;
        }
        if self.random.one_in(3) {
            // A sheet under which a tariff can be at the cap.
            let mut dated = reference();
            match self.random.below(3) {
                0 => self.spread(&mut dated),
                _ => self.plain(&mut dated),
            }
            self.split(&mut dated);
            self.set(&dated);
        }
        let code = self.code_to_put();
        let record = self.economy_7();
        self.put(code, &record);
        self.open(code);
        self.quote_at_an_end(code);
        for _ in 0..1 + self.random.index(3) {
            let mut dated = self.sheet.clone();
            self.split(&mut dated);
            if self.random.one_in(8) {
                dated.fields[PEAK_SHARE] = self.random.pick(&OUTSIDE);
            }
            if self.random.one_in(2) {
                let _ = self.trial(&dated);
            }
            if self.random.one_in(2) {
                self.set(&dated);
            }
            match self.random.below(4) {
                0 => self.close(code),
                1 => self.quote_at_an_end(code),
                _ => self.open(code),
            }
        }
    }

    /// Quotes a used code in a cell of its own, with all the months at an end of their range.
    fn quote_at_an_end(&mut self, code: u32) {
        let Some(record) = self.used_record(code) else {
            return;
        };
        let (region, method) = (self.random_bit(record[3]), self.random_bit(record[4]));
        let kwh = self.random.pick(&[0, MONTH_LIMIT, MONTH_LIMIT]);
        let t = self.book.t().unwrap_or(3) as usize;
        self.quote(code, region, method, &vec![kwh; t]);
    }
}
