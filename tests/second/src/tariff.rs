//! A tariff record and its charge.

use std::borrow::Cow;

use crate::sheet::{METHODS, REGIONS};

/// The first of the numbers of a record that are for one region each, region 0 first.
pub const REGIONAL: usize = 13;
/// Numbers in a tariff record.
pub const RECORD: usize = REGIONAL + REGIONS;
/// The most a customer uses in a month, in kWh.
pub const MONTH_LIMIT: u32 = 10_000;
/// The whole of a consumption in tenths of a percent: what its shares add up to. Rates and
/// charges are kept in this part of a mill, so that no weighted rate is rounded.
pub const WHOLE: u32 = 1_000;

/// The highest standing charge per day, in mills: of field 2, and of each region.
pub const STANDING_LIMIT: u32 = 1_000_000;
/// The highest rate, in mills per kWh.
pub const RATE_LIMIT: u32 = 200_000;

/// A stretch of a month's consumption at one rate.
#[derive(Clone, Copy, Debug, Default, PartialEq, Eq)]
pub(crate) struct Tier {
    /// The last kWh of the tier.
    pub end: u32,
    /// Thousandths of a mill per kWh.
    pub rate: u32,
    /// The charge for a month of `end` kWh, in thousandths of a mill.
    pub charge_at_end: u64,
}

/// The tiers of a month's consumption, the last of which ends at 10,000 kWh.
#[derive(Clone, Copy, Debug, Default, PartialEq, Eq)]
pub(crate) struct Tiers {
    count: usize,
    tiers: [Tier; 4],
}

impl Tiers {
    /// One rate for all of it.
    fn flat(rate: u32) -> Tiers {
        let mut tiers = Tiers::default();
        tiers.add(MONTH_LIMIT, rate);
        tiers
    }

    fn add(&mut self, end: u32, rate: u32) {
        let (start, charge) = match self.list().last() {
            Some(before) => (before.end, before.charge_at_end),
            None => (0, 0),
        };
        self.tiers[self.count] = Tier {
            end,
            rate,
            charge_at_end: charge + u64::from(rate) * u64::from(end - start),
        };
        self.count += 1;
    }

    pub fn list(&self) -> &[Tier] {
        &self.tiers[..self.count]
    }

    /// The charge for the kWh of one month, without the standing charge, in thousandths
    /// of a mill. A month has at most 10,000 kWh.
    pub fn month_charge(&self, kwh: u32) -> u64 {
        let (mut start, mut charge) = (0, 0);
        for tier in self.list() {
            if kwh <= tier.end {
                return charge + u64::from(tier.rate) * u64::from(kwh - start);
            }
            (start, charge) = (tier.end, tier.charge_at_end);
        }
        charge
    }
}

/// What a consumption costs.
#[derive(Clone, Copy, Debug, PartialEq, Eq)]
enum Units {
    /// The same under every sheet: kind 1, and kind 3 with its weighted rate.
    Tiers(Tiers),
    /// Kind 2: the peak and the off-peak rate, which the sheet's split weights.
    Economy7([u32; 2]),
}

/// A tariff of one of the three kinds.
///
/// A multi-register tariff is charged by its weighted rate, that is as one tier.
#[derive(Clone, Copy, Debug, PartialEq, Eq)]
pub struct Tariff {
    arrangement: usize,
    regions: u32,
    methods: u32,
    /// By region, in mills a day: field 2 and the region's own number.
    standing: [u32; REGIONS],
    units: Units,
}

/// The rate of a consumption of which each share is at its own rate, in thousandths of a mill
/// per kWh. The shares add up to the whole.
fn weighted(rates: &[u32], shares: &[u32]) -> u32 {
    let products = rates.iter().zip(shares).map(|(rate, share)| rate * share);
    products.sum()
}

/// The standing charge of each region: field 2 and the region's number. `None` if one of them is
/// above the limit, and if a region that is not offered has a number.
fn standing_charges(field_2: u32, regions: u32, numbers: &[u32]) -> Option<[u32; REGIONS]> {
    let mut charges = [0; REGIONS];
    for (region, (charge, &number)) in charges.iter_mut().zip(numbers).enumerate() {
        if number != 0 && regions >> region & 1 == 0 {
            return None;
        }
        *charge = field_2
            .checked_add(number)
            .filter(|&sum| sum <= STANDING_LIMIT)?;
    }
    Some(charges)
}

impl Tariff {
    /// Reads a record of 27 numbers; `None` if it is no tariff.
    pub fn new(record: &[u32]) -> Option<Tariff> {
        let record: &[u32; RECORD] = record.try_into().ok()?;
        let [kind, n, standing, regions, methods, ..] = *record;
        let (rates, steps) = record[5..REGIONAL].split_at(4);

        let counts = match kind {
            1 => 1..=4,
            2 => 2..=2,
            3 => 2..=4,
            _ => return None,
        };
        if !counts.contains(&n)
            || standing > STANDING_LIMIT
            || regions == 0
            || regions >= 1 << REGIONS
            || methods == 0
            || methods >= 1 << METHODS
        {
            return None;
        }
        let standing = standing_charges(standing, regions, &record[REGIONAL..])?;
        let n = n as usize;
        let (rates, unused_rates) = rates.split_at(n);
        let used_steps = match kind {
            1 => n - 1,
            2 => 0,
            _ => n,
        };
        let (steps, unused_steps) = steps.split_at(used_steps);
        if rates.iter().any(|&rate| rate > RATE_LIMIT)
            || unused_rates.iter().chain(unused_steps).any(|&n| n != 0)
        {
            return None;
        }

        let units = match kind {
            1 => {
                let mut tiers = Tiers::default();
                let mut start = 0;
                for (&rate, &step) in rates.iter().zip(steps) {
                    if step <= start || step >= MONTH_LIMIT {
                        return None;
                    }
                    tiers.add(step, WHOLE * rate);
                    start = step;
                }
                tiers.add(MONTH_LIMIT, WHOLE * rates[n - 1]);
                Units::Tiers(tiers)
            }
            2 => Units::Economy7([rates[0], rates[1]]),
            _ => {
                if steps.iter().any(|&share| share > WHOLE) || steps.iter().sum::<u32>() != WHOLE {
                    return None;
                }
                Units::Tiers(Tiers::flat(weighted(rates, steps)))
            }
        };
        Some(Tariff {
            arrangement: usize::from(kind != 1),
            regions,
            methods,
            standing,
            units,
        })
    }

    /// The tiers under a sheet with this peak share of Economy 7.
    pub(crate) fn tiers(&self, peak_share: u32) -> Cow<'_, Tiers> {
        match &self.units {
            Units::Tiers(tiers) => Cow::Borrowed(tiers),
            Units::Economy7(rates) => {
                let shares = [peak_share, WHOLE - peak_share];
                Cow::Owned(Tiers::flat(weighted(rates, &shares)))
            }
        }
    }

    /// 0 for single-rate, 1 for Economy 7 (28AD.3, 28AD.4).
    pub fn arrangement(&self) -> usize {
        self.arrangement
    }

    /// The standing charge per day in a region, in mills.
    pub fn standing(&self, region: usize) -> u32 {
        self.standing[region]
    }

    /// The set of the offered regions.
    pub fn regions(&self) -> u32 {
        self.regions
    }

    pub fn offers_region(&self, region: u32) -> bool {
        region < REGIONS as u32 && self.regions >> region & 1 == 1
    }

    pub fn offers_method(&self, method: u32) -> bool {
        method < METHODS as u32 && self.methods >> method & 1 == 1
    }

    /// Offered regions times offered methods.
    pub fn cells(&self) -> u32 {
        self.regions.count_ones() * self.methods.count_ones()
    }
}
