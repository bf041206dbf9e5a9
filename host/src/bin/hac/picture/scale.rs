//! Round numbers: along the sides of a picture, and on the scale of its colours.

/// The least of 1, 2, 5, 10, 20 .. and of their tenths, hundredths .. that goes into a span no
/// more than so often.
pub fn round_step(span: f64, most: usize) -> f64 {
    let least = span / most as f64;
    let ten = 10_f64.powf(least.log10().floor());
    let steps = [1.0, 2.0, 5.0].map(|step| step * ten);
    // worked out by logarithms, so perhaps just below
    let enough = steps.into_iter().find(|step| *step >= least * 0.999_999);
    enough.unwrap_or(10.0 * ten)
}

/// So many steps a scale has at the most, beside what is added to end it on round numbers.
const STEPS: usize = 8;

/// A scale that begins and ends on round numbers.
pub struct Scale {
    step: f64,
    /// Its ends, in steps.
    first: i64,
    last: i64,
}

impl Scale {
    /// A scale for all from the least to the most.
    pub fn over(least: f64, most: f64) -> Scale {
        let step = match most > least {
            true => round_step(most - least, STEPS),
            false => 1.0,
        };
        let first = (least / step).floor() as i64;
        let last = (most / step).ceil() as i64;
        Scale {
            step,
            first,
            last: last.max(first + 1),
        }
    }

    /// How far up the scale a value is, of 1.
    pub fn share(&self, value: f64) -> f64 {
        (value / self.step - self.first as f64) / (self.last - self.first) as f64
    }

    /// The round numbers, as they are written, each with how far up it is.
    pub fn marks(&self) -> impl Iterator<Item = (String, f64)> + '_ {
        let places = (-self.step.log10().floor()).max(0.0) as usize;
        (self.first..=self.last).map(move |nth| {
            let value = nth as f64 * self.step;
            (format!("{value:.places$}"), self.share(value))
        })
    }
}

#[cfg(test)]
mod tests {
    use super::*;

    #[test]
    fn steps() {
        for (span, most, step) in [
            (100.0, 10, 10.0),
            (101.0, 10, 20.0),
            (1905.0, 15, 200.0),
            (7.0, 8, 1.0),
            (0.3, 3, 0.1),
            (0.31, 3, 0.2),
        ] {
            assert!((round_step(span, most) - step).abs() < step / 1e6, "{span}");
        }
    }

    fn marks(least: f64, most: f64) -> Vec<String> {
        Scale::over(least, most)
            .marks()
            .map(|(mark, _)| mark)
            .collect()
    }

    #[test]
    fn scales() {
        assert_eq!(
            marks(-83.5, -61.0),
            ["-85", "-80", "-75", "-70", "-65", "-60"]
        );
        assert_eq!(
            marks(0.0, 0.4),
            ["0.00", "0.05", "0.10", "0.15", "0.20", "0.25", "0.30", "0.35", "0.40"]
        );
        assert_eq!(marks(-7.0, -7.0), ["-7", "-6"]);
        assert_eq!(marks(0.5, 0.5), ["0", "1"]);
        let scale = Scale::over(-100.0, 0.0);
        assert_eq!(
            [-100.0, -50.0, 0.0].map(|value| scale.share(value)),
            [0.0, 0.5, 1.0]
        );
    }
}
