//! Cost sheets and periods for a random script: good ones of several makes, sheets next to a
//! refusal, and sheets with something wrong.

use super::*;

impl Writer {
    pub(super) fn period(&mut self, dated: &mut Dated) {
        dated.year = match self.random.below(4) {
            0 => self
                .random
                .pick(&[2018, 2019, 2020, 2023, 2024, 2028, 2096, 2098, 2099]),
            _ => self.random.between(2018, 2099),
        };
        dated.month = self.random.between(1, 12);
        dated.t = match self.random.below(3) {
            0 => self.random.pick(&[1, 3, 6, 12]),
            _ => self.random.between(1, 12),
        };
    }

    /// Small changes to some fields of a sheet, all kept within their ranges.
    pub(super) fn shift(&mut self, dated: &mut Dated, mild: bool) {
        let count = 1 + self.random.index(if mild { 4 } else { 8 });
        for _ in 0..count {
            let field = match self.random.below(3) {
                0 => self.random.between(29, 35) as usize,
                1 => self.random.between(36, 92) as usize,
                _ => self.random.index(FIELDS),
            };
            let (lowest, highest) = field_range(field);
            let value = dated.value(field);
            let changed = match self.random.below(if mild { 4 } else { 7 }) {
                0 => value - 1,
                1 => value + 1,
                2 => value - value * self.random.below(40) as i64 / 1_000,
                3 => value + value * self.random.below(40) as i64 / 1_000,
                4 => self.random.pick(&[lowest, highest]),
                5 => lowest + self.random.below((highest - lowest) as u64 + 1) as i64,
                _ => self.random.any_size(highest as u32).into(),
            };
            dated.set_value(field, changed.clamp(lowest, highest));
        }
    }

    /// A sheet that SET takes, most of the time.
    pub(super) fn good_sheet(&mut self) -> Dated {
        let mut dated = reference();
        match self.random.below(33) {
            0 => return dated,
            1..=5 => {
                let mild = self.random.one_in(2);
                self.shift(&mut dated, mild);
                if self.random.one_in(2) {
                    self.period(&mut dated);
                }
                if self.random.one_in(2) {
                    self.spread(&mut dated);
                }
            }
            6..=10 => {
                dated = self.sheet.clone();
                if self.random.one_in(20) {
                    return dated;
                }
                self.shift(&mut dated, true);
                if self.random.one_in(6) {
                    self.period(&mut dated);
                }
            }
            11..=13 => self.plain(&mut dated),
            14..=15 => self.wide(&mut dated),
            16 => self.extreme(&mut dated),
            17..=18 => self.brink_of_term(&mut dated),
            19 => self.brink_of_fall(&mut dated),
            20 => self.halves(&mut dated),
            21..=24 => {
                dated = self.good_sheet();
                self.saving(&mut dated);
            }
            _ => {
                dated = self.good_sheet();
                self.split(&mut dated);
            }
        }
        dated
    }

    /// Network costs that differ by region, one region the tightest.
    pub(super) fn spread(&mut self, dated: &mut Dated) {
        let tightest = self.region() as usize;
        for region in 0..REGIONS {
            for (four, base) in [2_000_000, 12_000_000, 2_000_000, 12_000_000]
                .into_iter()
                .enumerate()
            {
                let more = if region == tightest {
                    0
                } else {
                    self.random.between(0, 2_000_000)
                };
                dated.fields[37 + 4 * region + four] = base + more;
            }
        }
        if self.random.one_in(2) {
            dated.fields.swap(18, 19);
            dated.fields.swap(20, 21);
        }
    }

    /// A sheet whose benchmarks are its network costs, with a whole rate and a whole
    /// standing charge at the cap.
    pub(super) fn plain(&mut self, dated: &mut Dated) {
        self.period(dated);
        let days = period_days(dated.year, dated.month, dated.t).expect("a good period");
        dated.fields[..22].fill(0);
        dated.fields[22..36].fill(1);
        dated.fields[36] = 0;
        for arrangement in 0..2 {
            let m = match self.random.below(3) {
                0 => self.random.pick(&[1, 100, 1_000, 3_000, 20_000]),
                _ => self.random.between(1, 20_000),
            };
            dated.fields[93 + arrangement] = m;
            let standing = self.random.between(0, MONEY / 3 / (12 * days));
            let rate = self.random.between(0, (MONEY / 2 / m).min(150_000));
            let uneven = self.random.one_in(2);
            for region in 0..REGIONS {
                let (mut standing, mut rate) = (standing, rate);
                if uneven {
                    standing += self.random.between(0, 2);
                    rate += self.random.between(0, 2);
                }
                let nil = 12 * days * standing;
                dated.fields[37 + 4 * region + 2 * arrangement] = nil;
                dated.fields[37 + 4 * region + 2 * arrangement + 1] = nil + m * rate;
            }
        }
        // The same for a method 0 a little above, or below, method 1.
        if self.random.one_in(2) {
            dated.fields[18 + self.random.index(2)] = self.random.between(0, 20_000);
        }
    }

    /// Fields of any size.
    pub(super) fn wide(&mut self, dated: &mut Dated) {
        self.period(dated);
        for index in 0..7 {
            let initial = self.random.any_size(1_000_000_000).max(1);
            let percent = self.random.below(130);
            let current = (u64::from(initial) * percent / 100).min(1_000_000_000);
            dated.fields[22 + index] = initial;
            dated.fields[29 + index] = current as u32;
        }
        for pair in (0..16).step_by(2).chain((37..93).step_by(2)) {
            let high = self.random.any_size(70_000_000);
            dated.fields[pair + 1] = high;
            dated.fields[pair] = self.random.between(0, high);
        }
        // The index of each four applies to its own level only.
        dated.fields[33] = dated.fields[33].min(dated.fields[26]);
        for field in 16..20 {
            dated.fields[field] = self.random.any_size(1_000_000);
        }
        for field in [20, 21, 36] {
            dated.fields[field] = self.random.any_size(70_000_000);
        }
        for field in [93, 94] {
            dated.fields[field] = self.random.any_size(20_000).max(1);
        }
    }

    /// Fields at the ends of their ranges.
    pub(super) fn extreme(&mut self, dated: &mut Dated) {
        self.period(dated);
        let flat = self.random.one_in(2);
        for (field, word) in dated.fields.iter_mut().enumerate() {
            let (lowest, highest) = field_range(field);
            let value = match field {
                // The levels of a four: nil, then m.
                0..=15 | 37..=92 => {
                    let nil = if field < 16 {
                        field % 2 == 0
                    } else {
                        field % 2 == 1
                    };
                    if nil && !flat {
                        lowest
                    } else {
                        highest
                    }
                }
                22..=35 => highest,
                // The lowest is more than most sheets can make up for.
                SMNCC if !self.random.one_in(4) => highest,
                _ => self.random.pick(&[lowest, highest]),
            };
            *word = value as u32;
        }
        match self.random.below(4) {
            0 => dated.fields[22..36].fill(1),
            1 => dated.fields[29..36].fill(0),
            2 => {
                for value in &mut dated.fields[..16] {
                    *value = 0;
                }
                dated.fields[36..93].fill(0);
            }
            _ => {}
        }
        for _ in 0..self.random.index(4) {
            let field = self.random.index(FIELDS);
            let (lowest, highest) = field_range(field);
            let value = self
                .random
                .pick(&[lowest, lowest + 1, highest - 1, highest]);
            dated.set_value(field, value);
        }
    }

    /// A sheet with an indexed term next to 100,000,000.
    pub(super) fn brink_of_term(&mut self, dated: &mut Dated) {
        if self.random.one_in(2) {
            self.period(dated);
        }
        self.term = (self.term + 1) % 18;
        let (baseline, index) = match self.term {
            term @ 0..=3 => (term, 0),
            term @ 4..=7 => (term, 1),
            term @ 8..=11 => (term, term - 5),
            term @ 12..=15 => (term, 2),
            term => (term + 4, 2),
        };
        // 100,000,000 x (d + up) / d, with the half at d = 200,000,000 x up.
        let up = self.random.between(1, 4);
        let half = 200_000_000 * up;
        let d = match self.random.below(5) {
            0 => half - 1,
            1 => half,
            2 => half + 1,
            3 => half + 2,
            _ => self.random.between(half - 1_000_000, half + 1_000_000),
        };
        dated.fields[22 + index] = d;
        dated.fields[29 + index] = d + up;
        dated.fields[baseline] = MONEY;
        if baseline < 16 && baseline % 2 == 0 && !self.random.one_in(3) {
            // The same at m, so that the benchmark does not fall.
            dated.fields[baseline + 1] = MONEY;
            if (8..12).contains(&baseline) {
                dated.fields[22 + index + 1] = d;
                dated.fields[29 + index + 1] = d + up;
            }
        }
        self.note("sheets with a term next to 100,000,000");
    }

    /// A sheet with a benchmark at m next to its benchmark at nil.
    pub(super) fn brink_of_fall(&mut self, dated: &mut Dated) {
        if self.random.one_in(2) {
            self.period(dated);
        }
        // Other costs about alike at both levels, network costs high at nil in one region.
        for pair in (0..16).step_by(2) {
            let value = dated.fields[pair + 1];
            let less = self.random.between(0, value / 20);
            dated.fields[pair] = value - less;
            if self.random.one_in(3) {
                dated.fields.swap(pair, pair + 1);
            }
        }
        for field in 16..20 {
            if self.random.one_in(2) {
                dated.fields[field] = self.random.any_size(1_000_000);
            }
        }
        for pair in (37..93).step_by(2) {
            dated.fields[pair + 1] = MONEY;
        }
        if self.random.one_in(3) {
            self.some_saving(dated);
        }
        let region = self.region() as usize;
        let field = 38 + 4 * region + 2 * self.random.index(2);
        dated.fields[field - 1] = self.random.between(10_000_000, 60_000_000);
        let mut book = Book::new();
        if book.set_dated(dated).is_err() {
            return;
        }
        let (mut falls, mut holds) = (0, MONEY);
        dated.fields[field] = falls;
        if book.set_dated(dated).is_ok() {
            return;
        }
        while holds - falls > 1 {
            let middle = falls + (holds - falls) / 2;
            dated.fields[field] = middle;
            if book.set_dated(dated).is_ok() {
                holds = middle;
            } else {
                falls = middle;
            }
        }
        dated.fields[field] = self.random.pick(&[falls, holds, holds, holds + 1]);
        self.note("sheets with m next to nil");
    }

    /// One thing wrong with a sheet or its period.
    pub(super) fn spoil(&mut self, dated: &mut Dated) {
        match self.random.below(13) {
            0..=1 => {
                let count = match self.random.below(3) {
                    0 => self.random.pick(&[0, 1, 94, 95, 97, 98, 99, 192, 1_000]),
                    1 => 95,
                    _ => 97,
                };
                let last = self.random.between(0, 9);
                dated.fields.resize(count, last);
            }
            2..=7 => {
                let field = match self.random.below(4) {
                    0 => self
                        .random
                        .pick(&[22, 23, 24, 25, 26, 27, 28, SMNCC, 93, 94, PEAK_SHARE]),
                    _ => {
                        self.spoilt = (self.spoilt + 1) % FIELDS;
                        self.spoilt
                    }
                };
                let (lowest, highest) = field_range(field);
                let word = if lowest != 0 && self.random.one_in(2) {
                    (lowest - 1) as u32
                } else {
                    let above = (highest + 1) as u32;
                    self.random
                        .pick(&[above, above, above + 1, 0x8000_0000, 0x8000_0001, u32::MAX])
                };
                if let Some(place) = dated.fields.get_mut(field) {
                    *place = word;
                    let value = field_value(field, word);
                    if value < lowest {
                        self.note("sheets with a field below its range");
                    } else if value > highest {
                        self.note("sheets with a field above its range");
                    }
                }
            }
            8..=9 => match self.random.below(3) {
                0 => {
                    dated.year = self
                        .random
                        .pick(&[0, 1, 18, 2017, 2100, 2101, 67_554, u32::MAX])
                }
                1 => dated.month = self.random.pick(&[0, 13, 14, 257, u32::MAX]),
                _ => dated.t = self.random.pick(&[0, 13, 14, 24, 257, u32::MAX]),
            },
            10 => {
                // A term far above the limit.
                let index = self.random.index(7);
                if dated.fields.len() == FIELDS {
                    dated.fields[22 + index] = 1;
                    dated.fields[29 + index] = 1_000_000_000;
                }
            }
            11 => {
                // A saving greater than most operating costs.
                if dated.fields.len() == FIELDS {
                    dated.set_value(SMNCC, field_range(SMNCC).0);
                }
            }
            _ => {
                // Nil above m in one pair.
                let pair = 37 + 2 * self.random.index(28);
                if dated.fields.len() == FIELDS {
                    dated.fields[pair] = MONEY;
                    dated.fields[pair + 1] = 0;
                }
            }
        }
    }
}
