//! The cost sheet: its ranges, the Benchmark Maximum Charges and the test of a tariff.

use crate::calendar::period_days;
use crate::tariff::{Tariff, WHOLE};

/// Numbers on a cost sheet.
pub const FIELDS: usize = 96;
/// The first of them, up to SMNCC: those that the sums without a region are made of.
pub const COMMON_FIELDS: usize = 37;
/// Charge Restriction Regions, in the order of Annex 6.
pub const REGIONS: usize = 14;
/// Payment methods: Standard Credit, then Other.
pub const METHODS: usize = 2;

/// The smart meter net cost component, the one field that can be below zero.
pub const SMNCC: usize = 36;
/// The peak share of Economy 7, in tenths of a percent; the rest is off-peak.
pub const PEAK_SHARE: usize = 95;

const ARRANGEMENTS: usize = 2;
const MONEY: i64 = 100_000_000;
const PPM: u64 = 1_000_000;

// The first field of each group. "Four" is single-rate nil, single-rate m,
// Economy 7 nil, Economy 7 m.
const DF0: usize = 0;
const CM0: usize = 4;
const PC0: usize = 8;
const OC0: usize = 12;
const HAP: usize = 16;
const PAP: usize = 18;
const PAAC: usize = 20;
const INITIAL: usize = 22;
const CURRENT: usize = 29;
const NC: usize = 37;
const M: usize = 93;

// Within the initial and the current values: DFI, CMI, CPIH, then the four PI.
const DFI: usize = 0;
const CMI: usize = 1;
const CPIH: usize = 2;
const PI: usize = 3;

/// What a word means in a field: SMNCC is in two's complement, all others are unsigned.
pub fn field_value(field: usize, word: u32) -> i64 {
    match field {
        SMNCC => i64::from(word as i32),
        _ => i64::from(word),
    }
}

/// The lowest and the highest value allowed in a field.
pub fn field_range(field: usize) -> (i64, i64) {
    match field {
        0..=15 | 20..=21 | 37..=92 => (0, MONEY),
        SMNCC => (-MONEY, MONEY),
        16..=19 => (0, 1_000_000),
        22..=28 => (1, 1_000_000_000),
        29..=35 => (0, 1_000_000_000),
        93..=94 => (1, 20_000),
        PEAK_SHARE => (0, WHOLE.into()),
        _ => panic!("a cost sheet has no field {field}"),
    }
}

/// Why a cost sheet is not taken, in the order of the checks.
#[derive(Clone, Copy, Debug, PartialEq, Eq)]
pub enum SheetError {
    Length,
    Field,
    Period,
    Term,
    OcBelowZero,
    Falling,
}

/// The two Benchmark Maximum Charges of a region, arrangement and method, in mills.
#[derive(Clone, Copy, Debug, Default, PartialEq, Eq)]
pub(crate) struct Benchmark {
    pub nil: u32,
    pub m: u32,
}

impl Benchmark {
    /// The step from nil to m. SET has seen to it that it is not negative.
    pub fn rise(self) -> u32 {
        self.m - self.nil
    }
}

/// The first cell in which a tariff exceeds, with its worst months.
#[derive(Clone, Copy, Debug, PartialEq, Eq)]
pub struct Breach {
    pub region: u32,
    pub method: u32,
    /// 12,000 x m x (charge - maximum).
    pub excess: u64,
    t: u32,
    worst: [u32; 12],
}

impl Breach {
    /// The t monthly consumptions of greatest excess.
    pub fn months(&self) -> &[u32] {
        &self.worst[..self.t as usize]
    }
}

/// An accepted cost sheet with its period, the benchmarks worked out.
#[derive(Clone, Debug, PartialEq, Eq)]
pub(crate) struct Sheet {
    pub t: u32,
    pub days: u32,
    /// Of Economy 7, in tenths of a percent.
    pub peak_share: u32,
    m: [u32; ARRANGEMENTS],
    benchmarks: [[[Benchmark; METHODS]; REGIONS]; ARRANGEMENTS],
}

/// n / d to the nearest whole, halves up.
fn round(n: u64, d: u64) -> u64 {
    (2 * n + d) / (2 * d)
}

/// A baseline value times its current index over its initial one.
fn term(fields: &[u32; COMMON_FIELDS], baseline: usize, index: usize) -> Result<u64, SheetError> {
    let product = u64::from(fields[baseline]) * u64::from(fields[CURRENT + index]);
    let term = round(product, u64::from(fields[INITIAL + index]));
    if term > MONEY as u64 {
        Err(SheetError::Term)
    } else {
        Ok(term)
    }
}

/// OC for the four: below zero where SMNCC saves more than the rest comes to.
/// `SheetError::Term` if that is too high.
pub fn operating_costs(fields: &[u32; COMMON_FIELDS]) -> Result<[i64; 4], SheetError> {
    let smncc = field_value(SMNCC, fields[SMNCC]);
    let mut costs = [smncc; 4];
    for (four, cost) in costs.iter_mut().enumerate() {
        *cost += term(fields, OC0 + four, CPIH)? as i64;
    }
    Ok(costs)
}

/// The part of the benchmarks that has no region in it: the eight sums WC + PC + OC + PAENC + H
/// by arrangement, then method, then level, from fields 0 to 36, each within its range.
/// `SheetError::Term` if an indexed term is too high, and if none is,
/// `SheetError::OcBelowZero` if some OC is below zero.
pub fn common_sums(fields: &[u32; COMMON_FIELDS]) -> Result<[u64; 8], SheetError> {
    let term = |baseline, index| term(fields, baseline, index);
    // WC + PC, by arrangement, then level.
    let mut costs = [0; 4];
    for (four, cost) in costs.iter_mut().enumerate() {
        let wc = term(DF0 + four, DFI)? + term(CM0 + four, CMI)?;
        let pc = term(PC0 + four, PI + four)?;
        *cost = wc + pc;
    }
    let operating = operating_costs(fields)?;
    let additional = [term(PAAC, CPIH)?, term(PAAC + 1, CPIH)?];

    // All the terms are within their limit. From here on the costs are WC + PC + OC.
    for (cost, oc) in costs.iter_mut().zip(operating) {
        *cost += u64::try_from(oc).map_err(|_| SheetError::OcBelowZero)?;
    }

    let mut sums = [0; 8];
    for (i, sum) in sums.iter_mut().enumerate() {
        let (arrangement, method, level) = (i / 4, i / 2 % 2, i % 2);
        let cost = costs[2 * arrangement + level];
        let paenc = additional[method] + round(u64::from(fields[PAP + method]) * cost, PPM);
        let h = round(u64::from(fields[HAP + arrangement]) * (cost + paenc), PPM);
        *sum = cost + paenc + h;
    }
    Ok(sums)
}

impl Sheet {
    pub fn new(year: u32, month: u32, t: u32, fields: &[u32]) -> Result<Sheet, SheetError> {
        let fields: &[u32; FIELDS] = fields.try_into().map_err(|_| SheetError::Length)?;
        for (field, &word) in fields.iter().enumerate() {
            let (lowest, highest) = field_range(field);
            let value = field_value(field, word);
            if value < lowest || value > highest {
                return Err(SheetError::Field);
            }
        }
        let days = period_days(year, month, t).ok_or(SheetError::Period)?;

        let common = fields.first_chunk().expect("96 fields are more than 37");
        let sums = common_sums(common)?;

        let mut benchmarks = [[[Benchmark::default(); METHODS]; REGIONS]; ARRANGEMENTS];
        for (arrangement, regions) in benchmarks.iter_mut().enumerate() {
            for (region, methods) in regions.iter_mut().enumerate() {
                for (method, benchmark) in methods.iter_mut().enumerate() {
                    let charge = |level: usize| {
                        let sum = sums[4 * arrangement + 2 * method + level];
                        let nc = u64::from(fields[NC + 4 * region + 2 * arrangement + level]);
                        let panc = round(u64::from(fields[PAP + method]) * nc, PPM);
                        // At most 2,400,000,000.
                        (sum + nc + panc) as u32
                    };
                    let (nil, m) = (charge(0), charge(1));
                    if m < nil {
                        return Err(SheetError::Falling);
                    }
                    *benchmark = Benchmark { nil, m };
                }
            }
        }
        Ok(Sheet {
            t,
            days,
            peak_share: fields[PEAK_SHARE],
            m: [fields[M], fields[M + 1]],
            benchmarks,
        })
    }

    pub fn m(&self, arrangement: usize) -> u32 {
        self.m[arrangement]
    }

    pub fn benchmark(&self, region: usize, arrangement: usize, method: usize) -> Benchmark {
        self.benchmarks[arrangement][region][method]
    }

    /// 12 x m times the Relevant Maximum Charge.
    pub fn maximum(&self, region: usize, arrangement: usize, method: usize, total: u64) -> u64 {
        let benchmark = self.benchmark(region, arrangement, method);
        u64::from(benchmark.nil) * u64::from(self.t) * u64::from(self.m[arrangement])
            + 12 * u64::from(benchmark.rise()) * total
    }

    /// The first cell, by region and then by method, in which the tariff exceeds.
    ///
    /// With the charge taken in thousandths of a mill, the excess of a list of months is
    ///
    /// 12 x m x 1,000 x standing charge of the region x days - 1,000 x N x t x m
    ///     + 12 x the sum over the months of (m x charge - 1,000 x (M - N) x kWh).
    ///
    /// The months stand in it apart from each other, so the greatest excess has the worst
    /// kWh in each. A month's part is a straight line within each tier: its greatest value
    /// over a tier, and the first kWh that has it, is at the tier's start or at its end. So
    /// 0 and the ends of the tiers (the last one ends at 10,000) are all that need be looked
    /// at, and a later end is worse only if it is strictly so.
    ///
    /// Nothing here is above 6 x 10^18, or as far below zero; 9.2 x 10^18 would fit.
    pub fn first_breach(&self, tariff: &Tariff) -> Option<Breach> {
        let arrangement = tariff.arrangement();
        let m = i64::from(self.m[arrangement]);
        let t = i64::from(self.t);
        let whole = i64::from(WHOLE);
        let per_standing = 12 * whole * m * i64::from(self.days);
        let per_nil = whole * t * m;

        let mut ends = [(0, 0, 0); 4];
        let tiers = tariff.tiers(self.peak_share);
        for (end, tier) in ends.iter_mut().zip(tiers.list()) {
            *end = (
                tier.end,
                m * tier.charge_at_end as i64,
                whole * i64::from(tier.end),
            );
        }
        let ends = &ends[..tiers.list().len()];

        for (region, methods) in self.benchmarks[arrangement].iter().enumerate() {
            if !tariff.offers_region(region as u32) {
                continue;
            }
            let fixed = per_standing * i64::from(tariff.standing(region));
            for (method, benchmark) in methods.iter().enumerate() {
                if !tariff.offers_method(method as u32) {
                    continue;
                }
                let rise = i64::from(benchmark.rise());
                let (mut worst, mut most) = (0, 0);
                for &(kwh, charge, thousand_kwh) in ends {
                    let share = charge - rise * thousand_kwh;
                    if share > most {
                        (worst, most) = (kwh, share);
                    }
                }
                let excess = fixed - per_nil * i64::from(benchmark.nil) + 12 * t * most;
                if excess > 0 {
                    return Some(Breach {
                        region: region as u32,
                        method: method as u32,
                        excess: excess as u64,
                        t: self.t,
                        worst: [worst; 12],
                    });
                }
            }
        }
        None
    }
}
