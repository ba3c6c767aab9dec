//! Sheets at the ends of their fields' ranges, sheets whose sums fall on a half, and the
//! script of all periods.

use super::*;

/// A sheet on which everything costs nothing.
pub(super) fn nothing() -> Vec<u32> {
    let mut fields = vec![0; FIELDS];
    fields[22..36].fill(1);
    fields[93..95].fill(1);
    fields[PEAK_SHARE] = DRAFTED;
    fields
}

/// Tries and sets every period in turn, and quotes in it. The tariff is a standing charge of one
/// mill a day. The sheets that are set allow 31 mills a month, so it stays open; those that are
/// tried allow 30, so that the days of the period decide. Every other month it is the desk of its
/// region that quotes.
pub fn all_periods() -> Vec<u8> {
    let mut writer = Writer::plain_lines(0, usize::MAX);
    let sheet = |year, month, t, mills: u32| {
        let mut fields = nothing();
        // Region 13, single-rate, at nil and at m.
        fields[89..91].fill(12 * mills);
        Dated {
            year,
            month,
            t,
            fields,
        }
    };
    writer.put(1, &record_of(1, 1, 1, 1 << 13, 2));
    writer.set(&sheet(2018, 1, 1, 31));
    writer.open(1);
    for year in 2018..=2099 {
        for month in 1..=12 {
            for t in 1..=12 {
                let _ = writer.trial(&sheet(year, month, t, 30));
                writer.set(&sheet(year, month, t, 31));
                if month % 2 == 0 {
                    writer.whose = Whose::One(1 << 13);
                }
                writer.quote(1, 13, 1, &[0; 12][..t as usize]);
                writer.whose = Whose::Unnamed;
            }
        }
    }
    writer.text
}

impl Writer {
    /// A sheet that is taken with a field at an end of its range, and what comes of it. The
    /// fields and their ends take their turns.
    pub(super) fn end_of_a_field(&mut self) {
        if self.book.t().is_none() {
            return;
        }
        self.field_end = (self.field_end + 1) % (2 * FIELDS);
        let (field, high) = (self.field_end / 2, self.field_end % 2 == 1);
        let (lowest, highest) = field_range(field);
        let value = if high { highest } else { lowest };
        let place = |dated: &mut Dated| {
            dated.set_value(field, value);
            match field {
                // At m as at nil, so that the benchmark does not fall.
                0..=15 if high && field % 2 == 0 => dated.set_value(field + 1, value),
                37..=92 if high && field % 2 == 1 => dated.set_value(field + 1, value),
                // An index that has not moved.
                22..=28 => dated.set_value(field + 7, value),
                29..=35 if high => dated.set_value(field - 7, value),
                // No OC is below zero.
                SMNCC if !high => dated.operating([MONEY; 4]),
                _ => {}
            }
        };
        let mut dated = self.sheet.clone();
        place(&mut dated);
        if Book::new().set_dated(&dated).is_err() {
            dated.fields = reference().fields;
            place(&mut dated);
        }
        if Book::new().set_dated(&dated).is_err() {
            dated.fields = nothing();
            place(&mut dated);
        }
        if self.random.one_in(2) {
            let _ = self.trial(&dated);
        }
        self.set(&dated);
        let region = match field {
            37..=92 => (field as u32 - 37) / 4,
            _ => self.region(),
        };
        for arrangement in 0..2 {
            for method in 0..2 {
                let level = self.random.between(0, 1);
                self.call("benchmark", &[region, arrangement, method, level]);
            }
        }
    }

    /// A sheet with small costs, some of whose roundings are of an exact half.
    pub(super) fn halves(&mut self, dated: &mut Dated) {
        self.period(dated);
        let fields = &mut dated.fields;
        for pair in (0..16).step_by(2).chain((37..93).step_by(2)) {
            fields[pair] = self.random.between(0, 1_000_000);
            fields[pair + 1] = fields[pair] + self.random.between(100_000, 2_000_000);
        }
        for percentage in &mut fields[16..20] {
            *percentage = self.random.pick(&[0, 100_000, 250_000, 500_000, 1_000_000]);
        }
        for field in [20, 21, 36] {
            fields[field] = self.random.between(0, 1_000_000);
        }
        for index in 22..29 {
            let scale = self.random.between(1, 300_000_000);
            fields[index] = scale * 2;
            // The same for nil and for m.
            fields[index + 7] = scale * if index == 22 { 3 } else { 1 };
        }

        if self.random.one_in(3) {
            self.some_saving(dated);
        }

        // Where the halves are.
        let round = |n: i64, d: i64| (2 * n + d) / (2 * d);
        let half = |n: i64, d: i64| 2 * (n % d) == d;
        let ppm = 1_000_000;
        let value = |field: usize| dated.value(field);
        let product = |baseline: usize, index: usize| {
            (value(baseline) * value(29 + index), value(22 + index))
        };
        let (mut terms, mut paenc, mut headroom, mut panc) = (false, false, false, false);
        for four in 0..4 {
            let mut cost = value(SMNCC);
            for (baseline, index) in [(0, 0), (4, 1), (8, 3 + four), (12, 2)] {
                let (n, d) = product(baseline + four, index);
                terms |= half(n, d);
                cost += round(n, d);
            }
            for method in 0..2 {
                let (n, d) = product(20 + method, 2);
                terms |= half(n, d);
                let pap = value(18 + method);
                paenc |= half(pap * cost, ppm);
                let sum = cost + round(n, d) + round(pap * cost, ppm);
                headroom |= half(value(16 + four / 2) * sum, ppm);
                panc |= (0..REGIONS).any(|region| half(pap * value(37 + 4 * region + four), ppm));
            }
        }
        if Book::new().set_dated(dated).is_err() {
            return;
        }
        for (met, what) in [
            (terms, "sheets with an indexed term on a half"),
            (paenc, "sheets with PAENC on a half"),
            (headroom, "sheets with headroom on a half"),
            (panc, "sheets with PANC on a half"),
            (
                dated.value(SMNCC) < 0 && (paenc || headroom),
                "sheets with a saving, PAENC or headroom on a half",
            ),
        ] {
            if met {
                self.note(what);
            }
        }
    }
}
