//! Standing charges by region: numbers of several makes, tariffs that the number of one region
//! brings to the cap and a mill over it, sums next to 1,000,000, and records that are no tariff for
//! their numbers.

use super::*;

/// The regions that a tariff is offered in.
fn offered(record: &[u32; RECORD]) -> Vec<u32> {
    let regions = record[3];
    let regions = (0..REGIONS as u32).filter(|region| regions >> region & 1 == 1);
    regions.collect()
}

fn place_of(region: u32) -> usize {
    REGIONAL + region as usize
}

impl Writer {
    /// One of the offered regions; every other time it is the first.
    fn offered_region(&mut self, record: &[u32; RECORD]) -> u32 {
        let regions = offered(record);
        if self.random.one_in(2) {
            regions[0]
        } else {
            self.random.pick(&regions)
        }
    }

    /// Numbers by region for a tariff without any.
    pub(super) fn by_region(&mut self, record: &mut [u32; RECORD]) {
        if self.random.one_in(2) {
            record[2] = self.random.between(0, record[2]);
        }
        let most = STANDING_LIMIT - record[2];
        match self.random.below(6) {
            0 => self.alike(record),
            1 => {
                let region = self.offered_region(record);
                let any = self.random.between(0, most);
                let little = self.random.between(0, record[2].min(most));
                record[place_of(region)] = self.random.pick(&[1.min(most), most, any, little]);
            }
            2 => {
                for region in offered(record) {
                    record[place_of(region)] = self.random.any_size(most);
                }
            }
            _ => {
                // As much as its region has room for, or a part of it.
                for region in offered(record) {
                    let mut alone = *record;
                    alone[3] = 1 << region;
                    let room = self.allowed(&alone).0.saturating_sub(record[2]);
                    let part = self.random.between(0, room);
                    record[place_of(region)] = self.random.pick(&[room, part, part]);
                }
            }
        }
    }

    /// The same charge in all regions as before, but some of it or all as their numbers.
    pub(super) fn alike(&mut self, record: &mut [u32; RECORD]) {
        let moved = match self.random.below(3) {
            0 => record[2],
            _ => self.random.between(0, record[2]),
        };
        record[2] -= moved;
        for region in offered(record) {
            record[place_of(region)] = moved;
        }
    }

    // Records that are no tariff.

    /// A number in one region that is not offered.
    pub(super) fn not_offered(&mut self) -> [u32; RECORD] {
        let mut record = self.shape_where(|record| record[3] != ALL_REGIONS);
        let region = self.random_bit(!record[3] & ALL_REGIONS);
        let room = STANDING_LIMIT - record[2];
        let number = match self.random.below(6) {
            0..=1 => 1,
            2 => room,
            3 => room + 1,
            // The sum is 0, if it goes round at 2^32.
            4 => 0u32.wrapping_sub(record[2]),
            _ => u32::MAX,
        };
        record[place_of(region)] = number.max(1);
        record
    }

    /// A sum above 1,000,000 in one region that is offered.
    pub(super) fn past_the_sum(&mut self) -> [u32; RECORD] {
        let mut record = self.shape();
        if self.random.one_in(3) {
            record[2] = STANDING_LIMIT;
            record[REGIONAL..].fill(0);
        }
        let region = self.offered_region(&record);
        let room = STANDING_LIMIT - record[2];
        record[place_of(region)] = match self.random.below(6) {
            0..=1 => room + 1,
            2 => self.random.between(room + 1, u32::MAX),
            3 => u32::MAX,
            _ => {
                // Below field 2, if it goes round at 2^32.
                let below = record[2].saturating_sub(1);
                let round = self.random.pick(&[0, 0, 1, below / 2, below]);
                round.wrapping_sub(record[2])
            }
        };
        record
    }

    /// Field 2 above its range, and sums within it if they go round at 2^32.
    pub(super) fn field_2_past(&mut self) -> [u32; RECORD] {
        let mut record = self.shape();
        record[REGIONAL..].fill(0);
        let past = self.random.between(STANDING_LIMIT + 1, u32::MAX);
        record[2] = self
            .random
            .pick(&[STANDING_LIMIT + 1, STANDING_LIMIT + 1, u32::MAX, past]);
        let any = self.random.between(0, STANDING_LIMIT);
        let round = self.random.pick(&[0, STANDING_LIMIT, any]);
        for region in offered(&record) {
            record[place_of(region)] = round.wrapping_sub(record[2]);
        }
        record
    }

    // Turns.

    /// A tariff that the number of a region brings to an edge, and then past it.
    pub(super) fn regions(&mut self) {
        if self.book.t().is_none() {
            return;
        }
        if self.random.one_in(3) {
            // A sheet under which a tariff can be at the cap.
            let mut dated = reference();
            match self.random.below(4) {
                0 => {}
                1 => self.plain(&mut dated),
                _ => self.spread(&mut dated),
            }
            self.set(&dated);
        }
        match self.random.below(6) {
            0 => self.sums(),
            1 => self.regions_at_the_cap(),
            _ => self.region_at_the_cap(),
        }
    }

    /// A sum of 1,000,000 in one region, and then of one more.
    fn sums(&mut self) {
        let code = self.code_to_put();
        let mut record = self.shape();
        if self.random.one_in(4) {
            record[2] = self.random.pick(&[0, STANDING_LIMIT]);
            record[REGIONAL..].fill(0);
        }
        let region = self.offered_region(&record);
        record[place_of(region)] = STANDING_LIMIT - record[2];
        self.put(code, &record);
        self.open(code);
        self.quote_in_two_regions(code, region);
        if self.book.state(code) == Some(State::Open) {
            self.close(code);
        }
        record[place_of(region)] += 1;
        self.put(code, &record);
        if self.random.one_in(2) {
            self.quote_in_two_regions(code, region);
        }
    }

    /// One region's number is the highest that opens.
    fn region_at_the_cap(&mut self) {
        let code = self.code_to_put();
        let mut record = self.record_within();
        let region = self.offered_region(&record);
        match self.fit_at(&record, place_of(region)) {
            Some(most) => {
                record[place_of(region)] = most;
                self.at_the_cap_and_over(code, record, region);
            }
            None => self.put(code, &record),
        }
    }

    /// The numbers of all regions are the highest that open there.
    fn regions_at_the_cap(&mut self) {
        let code = self.code_to_put();
        let mut record = self.record_within();
        let mut at_the_cap = Vec::new();
        for region in offered(&record) {
            let mut alone = record;
            alone[3] = 1 << region;
            alone[REGIONAL..].fill(0);
            if let Some(most) = self.fit_at(&alone, place_of(region)) {
                record[place_of(region)] = most;
                at_the_cap.push(region);
            }
        }
        if at_the_cap.is_empty() {
            return self.put(code, &record);
        }
        if at_the_cap.len() > 1 {
            self.note("tariffs at the cap in several regions by their numbers");
        }
        let region = self.random.pick(&at_the_cap);
        self.at_the_cap_and_over(code, record, region);
    }

    /// A tariff with a number in one region that is the highest that opens: opened, and then under
    /// a sheet with lower network costs there, or with a mill more.
    fn at_the_cap_and_over(&mut self, code: u32, mut record: [u32; RECORD], region: u32) {
        self.put(code, &record);
        self.open_by_either_road(code);
        self.quote_in_two_regions(code, region);
        if self.random.one_in(2) {
            let mut dated = self.sheet.clone();
            self.squeeze_in(Some(region), &mut dated);
            if self.random.one_in(2) {
                let _ = self.trial(&dated);
            }
            if self.random.one_in(2) {
                self.set(&dated);
            }
            return self.open(code);
        }
        self.close(code);
        record[place_of(region)] += 1;
        self.put(code, &record);
        self.open_by_either_road(code);
        self.follow_breach();
        if self.random.one_in(2) {
            record[place_of(region)] -= 1;
            self.put(code, &record);
            self.open_by_either_road(code);
        }
    }

    /// Quotes the same months in a region and in one with another number.
    fn quote_in_two_regions(&mut self, code: u32, region: u32) {
        let Some(record) = self.used_record(code) else {
            return;
        };
        let number = |region: u32| record[place_of(region)];
        let mut others = offered(&record);
        others.retain(|&other| number(other) != number(region));
        if others.is_empty() {
            return;
        }
        let other = self.random.pick(&others);
        let method = self.random_bit(record[4]);
        let t = self.book.t().unwrap_or(3) as usize;
        let months = self.months(&record, t);
        self.quote(code, region, method, &months);
        self.quote(code, other, method, &months);
    }
}
