//! Times of the three versions, in nanoseconds.

/// The simple version is slow: it has a sample in one of so many rounds.
pub const SIMPLE_PART: usize = 16;

/// The median and the least of samples.
#[derive(Clone, Copy)]
pub struct Times {
    pub median: f64,
    pub least: f64,
}

impl Times {
    pub const NONE: Times = Times {
        median: 0.0,
        least: 0.0,
    };

    fn of(mut samples: Vec<f64>) -> Times {
        samples.sort_unstable_by(f64::total_cmp);
        Times {
            median: samples[samples.len() / 2],
            least: samples[0],
        }
    }

    /// What this has over an earlier time.
    pub fn over(self, earlier: Times) -> Times {
        Times {
            median: self.median - earlier.median,
            least: self.least - earlier.least,
        }
    }
}

/// Of proved, plain and simple.
pub type Three<T> = [T; 3];

/// The samples of versions in this order: proved, plain, simple.
#[derive(Clone)]
pub struct Samples<const N: usize>([Vec<f64>; N]);

impl<const N: usize> Samples<N> {
    pub fn none() -> Samples<N> {
        Samples(std::array::from_fn(|_| Vec::new()))
    }

    /// Adds what each version takes in this round, one after the other, so that a busy machine slows
    /// all alike.
    pub fn add(&mut self, round: usize, mut sample: impl FnMut(usize) -> f64) {
        for (version, samples) in self.0.iter_mut().enumerate() {
            if version < 2 || round.is_multiple_of(SIMPLE_PART) {
                samples.push(sample(version));
            }
        }
    }

    pub fn times(self) -> [Times; N] {
        self.0.map(Times::of)
    }
}
