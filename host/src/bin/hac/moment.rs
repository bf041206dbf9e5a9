//! Times as TR counts them, told as a calendar has them.

use crate::decimal::Decimal;
use std::fmt;

/// The decimal places of a time fraction, TR Tables 6, 7 and 19 to 24, and so many
/// fractions to a second.
const PLACES: u8 = 4;
const SECOND: i64 = 10_000;
const MINUTE: i64 = 60 * SECOND;
const HOUR: i64 = 60 * MINUTE;
const DAY: i64 = 24 * HOUR;

/// A time by the recorder's clock, which TR says is usually set to local time: the
/// fractions of a second since 1970 began.
#[derive(Clone, Copy, PartialEq, Eq, PartialOrd, Ord)]
pub struct Moment(i64);

impl Moment {
    /// The seconds of a CPU time with the fraction added to it.
    pub fn of(time_cpu: u32, time_fraction: impl Into<i64>) -> Moment {
        Moment(i64::from(time_cpu) * SECOND + time_fraction.into())
    }

    /// The seconds since 1970 began.
    pub fn seconds(self) -> Decimal {
        Decimal {
            number: self.0,
            places: PLACES,
        }
    }
}

/// The year before the count begins: a position's fraction has a sign, so that a time may
/// be a few seconds before.
const YEAR_BEFORE: u32 = 1969;

fn is_leap(year: u32) -> bool {
    (year.is_multiple_of(4) && !year.is_multiple_of(100)) || year.is_multiple_of(400)
}

fn months(year: u32) -> [i64; 12] {
    let february = if is_leap(year) { 29 } else { 28 };
    [31, february, 31, 30, 31, 30, 31, 31, 30, 31, 30, 31]
}

/// Year, month and day of a number of days since 1970 began.
fn date(days: i64) -> (u32, usize, i64) {
    let mut left = days + months(YEAR_BEFORE).iter().sum::<i64>();
    let mut year = YEAR_BEFORE;
    loop {
        for (month, days) in (1..).zip(months(year)) {
            if left < days {
                return (year, month, left + 1);
            }
            left -= days;
        }
        year += 1;
    }
}

/// By ISO 8601, without a zone, for the clock names none.
impl fmt::Display for Moment {
    fn fmt(&self, to: &mut fmt::Formatter<'_>) -> fmt::Result {
        let (year, month, day) = date(self.0.div_euclid(DAY));
        let of_day = self.0.rem_euclid(DAY);
        let (hour, minute) = (of_day / HOUR, of_day % HOUR / MINUTE);
        let (second, fraction) = (of_day % MINUTE / SECOND, of_day % SECOND);
        write!(to, "{year}-{month:02}-{day:02}")?;
        write!(to, "T{hour:02}:{minute:02}:{second:02}.{fraction:04}")
    }
}

#[cfg(test)]
mod tests {
    use super::*;

    #[test]
    fn moments() {
        for (time_cpu, time_fraction, told) in [
            (0, 0, "1970-01-01T00:00:00.0000"),
            (0, -1, "1969-12-31T23:59:59.9999"),
            (0, -32768, "1969-12-31T23:59:56.7232"),
            (68_169_599, 9999, "1972-02-28T23:59:59.9999"),
            (68_169_600, 0, "1972-02-29T00:00:00.0000"),
            (68_256_000, 0, "1972-03-01T00:00:00.0000"),
            (900_406_801, 5000, "1998-07-14T09:00:01.5000"),
            (946_684_799, 10_000, "2000-01-01T00:00:00.0000"),
            (951_782_400, 0, "2000-02-29T00:00:00.0000"),
            (u32::MAX, 0, "2106-02-07T06:28:15.0000"),
            (u32::MAX, 65_535, "2106-02-07T06:28:21.5535"),
        ] {
            let moment = Moment::of(time_cpu, time_fraction);
            assert_eq!(moment.to_string(), told);
        }
        assert_eq!(Moment::of(900, 250).seconds().to_string(), "900.0250");
    }
}
