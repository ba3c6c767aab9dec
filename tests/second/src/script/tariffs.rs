//! Tariffs for a random script: at the cap and next to it, with worst months that tie, and
//! records that are no tariff.

use super::*;

impl Writer {
    pub(super) fn breach_of(&mut self, record: &[u32; RECORD]) -> Option<Breach> {
        self.scratch.put(1, record).expect("a tariff to be tried");
        match self.scratch.open(1) {
            Ok(_) => {
                self.scratch.close(1).expect("a tariff just opened");
                None
            }
            Err(NotOpened::OverCap(breach)) => Some(breach),
            Err(NotOpened::Refused(refusal)) => panic!("refused {}", refusal.number()),
        }
    }

    /// The highest value of field 2, of one rate or of the number of one offered region, at which
    /// the tariff is within the cap, and its place in the record; `None` if no value is both within
    /// the cap and next to one that is not.
    pub(super) fn fit(&mut self, record: &[u32; RECORD]) -> Option<(usize, u32)> {
        let place = match self.random.below(7) {
            0..=1 => 2,
            2 => REGIONAL + self.random_bit(record[3]) as usize,
            _ => 5 + self.random.index(record[1] as usize),
        };
        Some((place, self.fit_at(record, place)?))
    }

    /// The same for this place of the record.
    pub(super) fn fit_at(&mut self, record: &[u32; RECORD], place: usize) -> Option<u32> {
        let mut record = *record;
        let mut within = 0;
        let mut over = match place {
            2 => STANDING_LIMIT - highest_number(&record),
            5..=8 => RATE_LIMIT,
            _ => STANDING_LIMIT - record[2],
        };
        record[place] = over;
        self.breach_of(&record)?;
        record[place] = within;
        if self.breach_of(&record).is_some() {
            return None;
        }
        while over - within > 1 {
            let middle = within + (over - within) / 2;
            record[place] = middle;
            if self.breach_of(&record).is_some() {
                over = middle;
            } else {
                within = middle;
            }
        }
        Some(within)
    }

    /// The standing charge and the rate that the tightest offered cell just allows. The numbers by
    /// region are not looked at.
    pub(super) fn allowed(&self, record: &[u32; RECORD]) -> (u32, u32) {
        let arrangement = u32::from(record[0] != 1);
        let m = self.sheet.fields[93 + arrangement as usize];
        let (mut nil, mut rise) = (u32::MAX, u32::MAX);
        for region in (0..14).filter(|region| record[3] >> region & 1 == 1) {
            for method in (0..2).filter(|method| record[4] >> method & 1 == 1) {
                let at = |level| {
                    self.scratch
                        .benchmark(region, arrangement, method, level)
                        .unwrap_or(0)
                };
                nil = nil.min(at(0));
                rise = rise.min(at(1) - at(0));
            }
        }
        let Dated { year, month, t, .. } = self.sheet;
        let days = period_days(year, month, t).expect("a sheet in force has a period");
        let standing = u64::from(nil) * u64::from(t) / (12 * u64::from(days));
        (
            standing.min(u64::from(STANDING_LIMIT)) as u32,
            (rise / m).min(RATE_LIMIT),
        )
    }

    pub(super) fn offer(&mut self) -> (u32, u32) {
        let regions = match self.random.below(6) {
            0..=2 => ALL_REGIONS,
            3 => 1 << self.region(),
            _ => self.random.between(1, ALL_REGIONS),
        };
        let regions = self.regions_within(regions);
        (regions, self.random.pick(&[1, 2, 3, 3, 3]))
    }

    /// Rising steps, some of them side by side or at the ends of their range.
    pub(super) fn steps(&mut self, count: usize) -> [u32; 4] {
        loop {
            let mut steps: Vec<u32> = Vec::new();
            for _ in 0..count {
                let step = match self.random.below(8) {
                    0 => 1,
                    1 => 9_999,
                    2 => steps.last().map_or(2, |&step| (step + 1).min(9_999)),
                    3..=5 => self.random.between(1, 400),
                    _ => self.random.between(1, 9_999),
                };
                steps.push(step);
            }
            steps.sort_unstable();
            steps.dedup();
            if steps.len() == count {
                let mut places = [0; 4];
                places[..count].copy_from_slice(&steps);
                return places;
            }
        }
    }

    /// Shares of a whole.
    pub(super) fn shares(&mut self, n: usize, whole: u32) -> [u32; 4] {
        let mut places = [0; 4];
        let mut left = whole;
        for place in places.iter_mut().take(n - 1) {
            *place = match self.random.below(5) {
                0 => 0,
                1 => left,
                _ => self.random.between(0, left),
            };
            left -= *place;
        }
        places[n - 1] = left;
        let other = self.random.index(n);
        places.swap(n - 1, other);
        places
    }

    /// A tariff of any kind, its rates and standing charge of any size.
    pub(super) fn shape(&mut self) -> [u32; RECORD] {
        let kind = self.random.pick(&[1, 1, 1, 2, 3]);
        let n = match kind {
            1 => self.random.between(1, 4),
            2 => 2,
            _ => self.random.between(2, 4),
        };
        let (regions, methods) = self.offer();
        let mut record = record_of(kind, n, 0, regions, methods);
        let steps = match kind {
            1 => self.steps(n as usize - 1),
            2 => [0; 4],
            _ => self.shares(n as usize, WHOLE),
        };
        record[9..REGIONAL].copy_from_slice(&steps);

        let (standing, rate) = self.allowed(&record);
        let scale = |random: &mut Random, value: u32, limit: u32| -> u32 {
            let percent = random.between(0, 115);
            (u64::from(value) * u64::from(percent) / 100).min(u64::from(limit)) as u32
        };
        match self.random.below(10) {
            0 => {
                record[2] = self.random.between(0, STANDING_LIMIT);
                for rate in &mut record[5..5 + n as usize] {
                    *rate = self.random.between(0, RATE_LIMIT);
                }
            }
            1 => {
                record[2] = self
                    .random
                    .pick(&[0, 1, STANDING_LIMIT - 1, STANDING_LIMIT]);
                for rate in &mut record[5..5 + n as usize] {
                    *rate = self.random.pick(&[0, 0, 1, RATE_LIMIT - 1, RATE_LIMIT]);
                }
            }
            2..=4 => {
                // The first kWh dear and the rest cheap, or the other way round.
                record[2] = scale(&mut self.random, standing, STANDING_LIMIT);
                let (mut near, mut far) = (rate, rate);
                for (i, place) in record[5..5 + n as usize].iter_mut().enumerate() {
                    near = (near + self.random.between(0, rate / 4)).min(RATE_LIMIT);
                    far = scale(&mut self.random, far, RATE_LIMIT);
                    *place = if i % 2 == 0 { near } else { far };
                }
                if self.random.one_in(2) {
                    record[5..5 + n as usize].reverse();
                }
            }
            _ => {
                record[2] = scale(&mut self.random, standing, STANDING_LIMIT);
                for place in &mut record[5..5 + n as usize] {
                    *place = scale(&mut self.random, rate, RATE_LIMIT);
                }
            }
        }
        if self.random.one_in(2) {
            self.by_region(&mut record);
        }
        record
    }

    /// A tariff record that PUT takes.
    pub(super) fn any_record(&mut self) -> [u32; RECORD] {
        if self.book.t().is_none() {
            return self.shape();
        }
        if self.random.one_in(5) {
            if let Some(record) = self.tie() {
                self.note("tariffs with worst months that tie");
                return record;
            }
        }
        let mut record = self.shape();
        if self.random.one_in(3) {
            return record;
        }
        if let Some((place, most)) = self.fit(&record) {
            record[place] = match self.random.below(4) {
                0 => {
                    self.note("tariffs one mill under the cap");
                    most.saturating_sub(1)
                }
                1 => {
                    self.note("tariffs one mill over the cap");
                    most + 1
                }
                _ => {
                    self.note("tariffs just within the cap");
                    most
                }
            };
        }
        record
    }

    /// A tariff of a working day: near the cap, mostly within it.
    pub(super) fn common_record(&mut self) -> [u32; RECORD] {
        let kind = self.random.pick(&[1, 1, 1, 2, 3]);
        let n = match kind {
            1 => self.random.pick(&[1, 1, 2, 2, 3, 4]),
            2 => 2,
            _ => self.random.between(2, 4),
        };
        let regions = if self.random.one_in(3) {
            self.random.between(1, ALL_REGIONS)
        } else {
            ALL_REGIONS
        };
        let methods = self.random.pick(&[1, 2, 3, 3, 3]);
        let standing = self.random.between(18_000, 24_000);
        let mut record = record_of(kind, n, standing, regions, methods);
        for place in &mut record[5..5 + n as usize] {
            *place = self.random.between(12_000, 16_000);
        }
        if self.random.one_in(6) {
            record[5] = self.random.between(16_000, 24_000);
        }
        let steps = match kind {
            1 => {
                let mut steps = [0; 4];
                let mut step = 0;
                for place in steps.iter_mut().take(n as usize - 1) {
                    step += self.random.between(20, 300);
                    *place = step;
                }
                steps
            }
            2 => [0; 4],
            _ => self.shares(n as usize, WHOLE),
        };
        record[9..REGIONAL].copy_from_slice(&steps);
        record
    }

    /// A tariff with two worst consumptions in some cell, only the lower of which is the
    /// answer. With rise / m = p / q in lowest terms, a stretch of q x k kWh that costs
    /// p x k mills leaves the excess where it was.
    pub(super) fn tie(&mut self) -> Option<[u32; RECORD]> {
        let region = self.region();
        let method = self.random.between(0, 1);
        let arrangement = u32::from(self.random.one_in(3));
        let m = self.sheet.fields[93 + arrangement as usize];
        let at = |level| {
            self.scratch
                .benchmark(region, arrangement, method, level)
                .ok()
        };
        let rise = at(1)? - at(0)?;
        let common = gcd(rise, m);
        let (p, q) = (u64::from(rise / common), m / common);
        let rate = rise / m;
        let mut record = record_of(1, 0, 0, 1 << region, 1 << method);
        if arrangement == 1 {
            // As flat as the cap from 0 to 10,000.
            let kind = self.random.between(2, 3);
            record = self.flat(kind, region, method)?;
        } else {
            if q > 4_000 || rate > RATE_LIMIT - 20_000 {
                return None;
            }
            let span = q * self
                .random
                .between(1, (9_000 / q).clamp(1, 40))
                .max(3 / q + 1);
            let mills = p * u64::from(span / q);
            // A dip over all of the stretch but its last kWh, which brings it back.
            let dip = (mills / u64::from(span)) as u32;
            let dip = dip.saturating_sub(self.random.between(0, 3));
            let back = mills - u64::from(dip) * u64::from(span - 1);
            if back > u64::from(RATE_LIMIT) {
                return None;
            }
            let back = back as u32;
            let start = self.random.between(1, 9_998 - span);
            let up = rate + self.random.between(1, 20_000);
            let down = self.random.between(0, rate);
            let (rates, steps) = match self.random.below(3) {
                // At the start and at the end of the stretch.
                0 => (
                    vec![up, dip, back, down],
                    vec![start, start + span - 1, start + span],
                ),
                // At 0 and at the end of the stretch.
                1 => (vec![dip, back, down], vec![span - 1, span]),
                // At the start of the stretch and at 10,000.
                _ => (
                    vec![up, dip, back],
                    vec![MONTH_LIMIT - span, MONTH_LIMIT - 1],
                ),
            };
            record[1] = rates.len() as u32;
            record[5..5 + rates.len()].copy_from_slice(&rates);
            record[9..9 + steps.len()].copy_from_slice(&steps);
        }
        crate::Tariff::new(&record)?;
        // Over the cap by one standing charge step more than allowed, so that it shows.
        let (standing, _) = self.allowed(&record);
        record[2] = match self.random.below(4) {
            0 => standing,
            1 => STANDING_LIMIT,
            _ => (standing + 1).min(STANDING_LIMIT),
        };
        if self.random.one_in(2) {
            self.alike(&mut record);
        }
        Some(record)
    }

    /// A record that is no tariff.
    pub(super) fn bad_record(&mut self) -> Vec<u32> {
        let mut record = self.shape().to_vec();
        let n = record[1] as usize;
        let way = match self.random.below(30) {
            0 => {
                record.pop();
                "record: 26 numbers"
            }
            1 => {
                record.push(0);
                "record: 28 numbers"
            }
            2 => {
                let count = self.random.pick(&[0, 1, 5, 9, 12, 14, 25, 40, 96, 500]);
                record.resize(count, 0);
                "record: another length"
            }
            3 => {
                record[0] = self.random.pick(&[0, 4, 5, 257, 65_537, u32::MAX]);
                "record: kind"
            }
            4 => {
                record[1] = match record[0] {
                    1 => self.random.pick(&[0, 5, 6, 8, 9, 257, u32::MAX]),
                    2 => self.random.pick(&[0, 1, 3, 4, 5, u32::MAX]),
                    _ => self.random.pick(&[0, 1, 5, 6, 258, u32::MAX]),
                };
                "record: n"
            }
            5 => {
                record[2] = self
                    .random
                    .pick(&[STANDING_LIMIT + 1, 1 << 31, 1 << 24, u32::MAX]);
                "record: standing charge"
            }
            6 => {
                record[3] = 0;
                record[REGIONAL..].fill(0);
                "record: no region"
            }
            7 => {
                record[3] |= 1 << self.random.between(14, 31);
                "record: region past 13"
            }
            8 => {
                record[4] = 0;
                "record: no method"
            }
            9 => {
                record[4] |= 1 << self.random.between(2, 31);
                "record: method past 1"
            }
            10 => {
                let place = 5 + self.random.index(n);
                record[place] = self.random.pick(&[RATE_LIMIT + 1, 1 << 31, u32::MAX]);
                "record: rate"
            }
            11 => {
                record = self.shape_where(|r| r[1] < 4).to_vec();
                let place = 8 - self.random.index(4 - record[1] as usize);
                record[place] = self.random.pick(&[1, 200_000, u32::MAX]);
                "record: rate past n"
            }
            12 => {
                record = self.shape_where(|r| r[0] == 1).to_vec();
                let place = self.random.between(8 + record[1], 12) as usize;
                record[place] = self.random.pick(&[1, 9_999, 10_000, u32::MAX]);
                "record: step past n"
            }
            13 => {
                record = self.shape_where(|r| r[0] == 2).to_vec();
                if self.random.one_in(2) {
                    (record[9], record[10]) = self.random.pick(&[(580, 420), (58, 42)]);
                } else {
                    let place = self.random.between(9, 12) as usize;
                    record[place] = self.random.pick(&[1, WHOLE, u32::MAX]);
                }
                "record: Economy 7 with a step"
            }
            14 => {
                record = self.shape_where(|r| r[0] == 1 && r[1] > 2).to_vec();
                if self.random.one_in(2) {
                    record[10] = record[9];
                } else {
                    record.swap(9, 10);
                }
                "record: steps not rising"
            }
            15 => {
                record = self.shape_where(|r| r[0] == 1 && r[1] > 1).to_vec();
                if self.random.one_in(2) {
                    record[9] = 0;
                } else {
                    let last = 7 + record[1] as usize;
                    record[last] = self.random.pick(&[10_000, 10_001, u32::MAX]);
                }
                "record: step outside 1 to 9,999"
            }
            16 => {
                record = self.shape_where(|r| r[0] == 3).to_vec();
                let places: Vec<usize> = (9..9 + record[1] as usize).collect();
                let place = self.random.pick(&places);
                if self.random.one_in(2) && record[place] > 0 {
                    record[place] -= 1;
                    "record: shares of 999"
                } else {
                    record[place] += 1;
                    "record: shares of 1,001"
                }
            }
            17 => {
                record = self.shape_where(|r| r[0] == 3).to_vec();
                // 1,000, if sums went round at 2^32 or at 2^16.
                (record[9], record[10]) = self.random.pick(&[
                    (u32::MAX, 1_001),
                    (60_000, 6_536),
                    (0x8000_01f4, 0x8000_01f4),
                ]);
                record[11..REGIONAL].fill(0);
                "record: share above 1,000"
            }
            19 => {
                record = self.shape_where(|r| r[0] == 3).to_vec();
                record[9..REGIONAL].fill(0);
                let place = 9 + self.random.index(record[1] as usize);
                record[place] = WHOLE + 1;
                "record: share of 1,001, the others 0"
            }
            18 => {
                record = self.shape_where(|r| r[0] == 3).to_vec();
                let shares = self.shares(record[1] as usize, 100);
                record[9..REGIONAL].copy_from_slice(&shares);
                "record: shares in percent"
            }
            20 => {
                record = self.shape_where(|r| r[0] == 3 && r[1] < 4).to_vec();
                let place = 9 + self.random.between(record[1], 3) as usize;
                let used = self.random.index(record[1] as usize);
                if self.random.one_in(2) && record[9 + used] > 0 {
                    // The sum over all four places stays 1,000.
                    record[9 + used] -= 1;
                    record[place] = 1;
                } else {
                    record[place] = self.random.pick(&[1, WHOLE, u32::MAX]);
                }
                "record: share past n"
            }
            21 => {
                record.truncate(REGIONAL);
                "record: 13 numbers"
            }
            22..=24 => {
                record = self.not_offered().to_vec();
                "record: a number in a region not offered"
            }
            25..=28 => {
                record = self.past_the_sum().to_vec();
                "record: a sum above 1,000,000"
            }
            _ => {
                record = self.field_2_past().to_vec();
                "record: field 2 above 1,000,000, with numbers by region"
            }
        };
        if self.scratch.put(1, &record).is_err() {
            self.note(way);
        }
        record
    }

    pub(super) fn shape_where(&mut self, wanted: fn(&[u32; RECORD]) -> bool) -> [u32; RECORD] {
        loop {
            let record = self.shape();
            if wanted(&record) {
                return record;
            }
        }
    }
}

/// The highest of the numbers by region.
pub(super) fn highest_number(record: &[u32; RECORD]) -> u32 {
    record[REGIONAL..].iter().copied().fold(0, u32::max)
}

fn gcd(a: u32, b: u32) -> u32 {
    if b == 0 {
        a
    } else {
        gcd(b, a % b)
    }
}
