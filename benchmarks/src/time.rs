//! How long a call takes.

use serde_json::Value;
use std::fs;
use std::path::Path;
use std::time::Duration;

/// The mean time of a call and the ends of an interval that it is in, in seconds.
#[derive(Clone, Copy, Debug, PartialEq)]
pub struct Time {
    pub mean: f64,
    pub low: f64,
    pub high: f64,
}

impl Time {
    /// The time of one call, which says nothing about others.
    pub fn once(time: Duration) -> Self {
        let mean = time.as_secs_f64();
        Time {
            mean,
            low: mean,
            high: mean,
        }
    }

    /// What criterion found in a run, if there was one: its `estimates.json`.
    pub fn read(estimates: &Path) -> Option<Self> {
        Self::parse(&fs::read_to_string(estimates).ok()?)
    }

    fn parse(estimates: &str) -> Option<Self> {
        let estimates: Value = serde_json::from_str(estimates).ok()?;
        let mean = &estimates["mean"];
        let interval = &mean["confidence_interval"];
        let seconds = |nanoseconds: &Value| Some(nanoseconds.as_f64()? / 1e9);
        Some(Time {
            mean: seconds(&mean["point_estimate"])?,
            low: seconds(&interval["lower_bound"])?,
            high: seconds(&interval["upper_bound"])?,
        })
    }

    /// Two measurements of the same call as one: the interval holds both, and so a drift between them.
    pub fn joined(&self, other: &Time) -> Time {
        Time {
            mean: (self.mean + other.mean) / 2.0,
            low: self.low.min(other.low),
            high: self.high.max(other.high),
        }
    }

    /// Half the interval's width as a part of the mean.
    pub fn spread(&self) -> f64 {
        (self.high - self.low) / 2.0 / self.mean
    }

    /// This time as a multiple of another. The ends are those of the worst and the best case.
    pub fn ratio(&self, of: &Time) -> Time {
        Time {
            mean: self.mean / of.mean,
            low: self.low / of.high,
            high: self.high / of.low,
        }
    }
}

/// The power of the size that the time grows with: the slope of the straight line through the
/// logarithms, by least squares. None for fewer than two sizes.
pub fn exponent(points: &[(usize, f64)]) -> Option<f64> {
    let logs = || points.iter().map(|(x, y)| ((*x as f64).ln(), y.ln()));
    let count = points.len() as f64;
    let (x, y) = logs().fold((0.0, 0.0), |sum, (x, y)| (sum.0 + x, sum.1 + y));
    let (x, y) = (x / count, y / count);
    let (above, below) = logs().fold((0.0, 0.0), |sum, (a, b)| {
        (sum.0 + (a - x) * (b - y), sum.1 + (a - x) * (a - x))
    });
    (below > 0.0).then(|| above / below)
}

#[cfg(test)]
mod tests {
    use super::*;

    #[test]
    fn estimates_are_read() {
        let json = r#"{"mean":{"confidence_interval":{"confidence_level":0.95,
            "lower_bound":1900.0,"upper_bound":2100.0},
            "point_estimate":2000.0,"standard_error":50.0}}"#;
        let time = Time::parse(json).unwrap();
        assert!((time.mean - 2e-6).abs() < 1e-12);
        assert!((time.spread() - 0.05).abs() < 1e-9);
        assert_eq!(Time::parse("{}"), None);
        assert_eq!(Time::read(Path::new("no such file")), None);
    }

    #[test]
    fn drift_widens_the_interval() {
        let time = |mean| Time {
            mean,
            low: mean - 1.0,
            high: mean + 1.0,
        };
        let joined = time(10.0).joined(&time(20.0));
        assert_eq!([joined.low, joined.mean, joined.high], [9.0, 15.0, 21.0]);
        assert_eq!(time(20.0).joined(&time(10.0)), joined);
    }

    #[test]
    fn exponents() {
        let square = [(1_000, 1e-3), (2_000, 4e-3), (4_000, 16e-3)];
        assert!((exponent(&square).unwrap() - 2.0).abs() < 1e-9);
        assert_eq!(exponent(&square[..1]), None);
        assert_eq!(exponent(&[]), None);
    }
}
