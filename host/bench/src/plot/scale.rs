//! Logarithmic scales.

/// Lays values from `low` to `high` onto pixels from `start` to `end`.
#[derive(Clone, Copy)]
pub struct Scale {
    pub low: f64,
    pub high: f64,
    pub start: f64,
    pub end: f64,
}

impl Scale {
    pub fn pixel(self, value: f64) -> f64 {
        let part = (value / self.low).ln() / (self.high / self.low).ln();
        self.start + part * (self.end - self.start)
    }
}

/// The powers of ten from the last one below the values to the first one above them.
pub fn decades(values: &[f64]) -> Vec<f64> {
    let logarithms = || values.iter().map(|value| value.log10());
    let low = logarithms().fold(f64::INFINITY, f64::min).floor() as i32;
    let high = logarithms().fold(f64::NEG_INFINITY, f64::max).ceil() as i32;
    (low..=high).map(|power| 10f64.powi(power)).collect()
}
