//! Measuring in turn: in each round all that is compared runs once, so that what slows the machine for a while slows
//! all.

use std::fmt;
use std::time::Instant;

pub trait Measured {
    /// Before each measured run, not timed. A reading call runs once, so that file and code are in the cache; an edit
    /// has its buffers restored here.
    fn ready(&mut self) {
        self.run();
    }

    fn run(&mut self);
}

impl<F: FnMut()> Measured for F {
    fn run(&mut self) {
        self();
    }
}

/// The times of each, in seconds, one for each round.
pub struct Times(Vec<Vec<f64>>);

/// Runs all in turn; each round begins with another one.
pub fn measure(all: &mut [Box<dyn Measured + '_>], rounds: usize) -> Times {
    let n = all.len();
    let mut times = vec![Vec::with_capacity(rounds); n];
    for round in 0..rounds {
        for k in 0..n {
            let who = (round + k) % n;
            all[who].ready();
            let start = Instant::now();
            all[who].run();
            times[who].push(start.elapsed().as_secs_f64());
        }
    }
    Times(times)
}

/// The ratio of two times, and the quartiles of the ratios of single rounds.
pub struct Ratio {
    pub whole: f64,
    pub low: f64,
    pub high: f64,
}

impl fmt::Display for Ratio {
    fn fmt(&self, f: &mut fmt::Formatter) -> fmt::Result {
        write!(f, "{:.2} ({:.2}-{:.2})", self.whole, self.low, self.high)
    }
}

/// The number that `part` hundredths of the numbers do not exceed.
fn percentile(mut numbers: Vec<f64>, part: usize) -> f64 {
    numbers.sort_by(f64::total_cmp);
    numbers[(numbers.len() - 1) * part / 100]
}

impl Times {
    /// In seconds: the tenth percentile, which other work on the machine moves less than the median or the minimum.
    pub fn time(&self, a: usize) -> f64 {
        percentile(self.0[a].clone(), 10)
    }

    pub fn ratio(&self, a: usize, b: usize) -> Ratio {
        let rounds: Vec<f64> = self.0[a].iter().zip(&self.0[b]).map(|(x, y)| x / y).collect();
        let whole = self.time(a) / self.time(b);
        Ratio { whole, low: percentile(rounds.clone(), 25), high: percentile(rounds, 75) }
    }
}
