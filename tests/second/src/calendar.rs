//! Month beginnings, January 2018 to December 2100, as day numbers; day 0 is 1 January 2018.

const FIRST_YEAR: u32 = 2018;
const LAST_YEAR: u32 = 2099;
const MONTHS: usize = 996;

/// The day number of the first of a month, 1 January of the year 1 being day 0
/// of the proleptic Gregorian calendar.
const fn gregorian(year: u32, month: u32) -> u32 {
    let before = year - 1;
    let leap = year.is_multiple_of(4) && (!year.is_multiple_of(100) || year.is_multiple_of(400));
    let february = if month <= 2 {
        0
    } else if leap {
        1
    } else {
        2
    };
    365 * before + before / 4 - before / 100 + before / 400 + (367 * month - 362) / 12 - february
}

const fn month_beginnings() -> [u32; MONTHS] {
    let mut days = [0; MONTHS];
    let mut i = 0;
    while i < MONTHS {
        let month = i as u32;
        days[i] = gregorian(FIRST_YEAR + month / 12, month % 12 + 1) - gregorian(FIRST_YEAR, 1);
        i += 1;
    }
    days
}

pub(crate) static BEGINNINGS: [u32; MONTHS] = month_beginnings();

/// The days of a period of `t` whole months, or `None` for a period outside its range.
pub fn period_days(year: u32, month: u32, t: u32) -> Option<u32> {
    let inside = (FIRST_YEAR..=LAST_YEAR).contains(&year)
        && (1..=12).contains(&month)
        && (1..=12).contains(&t);
    if !inside {
        return None;
    }
    let first = ((year - FIRST_YEAR) * 12 + month - 1) as usize;
    Some(BEGINNINGS[first + t as usize] - BEGINNINGS[first])
}

#[cfg(test)]
mod tests {
    use super::*;

    fn month_length(year: u32, month: u32) -> u32 {
        match month {
            4 | 6 | 9 | 11 => 30,
            2 if year == 2100 => 28,
            2 if year.is_multiple_of(4) => 29,
            2 => 28,
            _ => 31,
        }
    }

    #[test]
    fn each_entry_differs_from_the_next_by_its_month() {
        assert_eq!(BEGINNINGS.len(), 996);
        assert_eq!(BEGINNINGS[0], 0);
        for i in 0..995 {
            let month = i as u32;
            let length = month_length(2018 + month / 12, month % 12 + 1);
            assert_eq!(BEGINNINGS[i + 1] - BEGINNINGS[i], length, "entry {i}");
        }
        // 1 December 2100: 82 years, 20 of them leap, and 334 days.
        assert_eq!(BEGINNINGS[995], 82 * 365 + 20 + 334);
    }

    #[test]
    fn a_period_has_the_days_of_its_months() {
        for year in 2018..=2099 {
            for month in 1..=12 {
                let mut days = 0;
                for t in 1..=12 {
                    let last = month - 1 + t - 1;
                    days += month_length(year + last / 12, last % 12 + 1);
                    assert_eq!(period_days(year, month, t), Some(days));
                }
            }
        }
    }

    #[test]
    fn figures_of_the_month_table() {
        assert_eq!(period_days(2022, 10, 6), Some(182));
        assert_eq!(period_days(2023, 10, 6), Some(183));
        assert_eq!(period_days(2099, 12, 12), Some(365));
        assert_eq!(period_days(2023, 10, 3), Some(92));
        assert_eq!(period_days(2099, 3, 12), Some(365));
        assert_eq!(period_days(2096, 1, 12), Some(366));
        assert_eq!(period_days(2096, 2, 1), Some(29));
    }

    #[test]
    fn periods_outside_their_range() {
        for (year, month, t) in [
            (2017, 12, 1),
            (2100, 1, 1),
            (0, 1, 1),
            (u32::MAX, 1, 1),
            (2023, 0, 3),
            (2023, 13, 3),
            (2023, u32::MAX, 3),
            (2023, 10, 0),
            (2023, 10, 13),
            (2023, 10, u32::MAX),
        ] {
            assert_eq!(period_days(year, month, t), None);
        }
        assert_eq!(period_days(2018, 1, 1), Some(31));
        assert_eq!(period_days(2099, 12, 1), Some(31));
    }
}
