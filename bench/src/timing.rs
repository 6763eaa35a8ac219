//! Times of all three in turn, and their line of the table.

use request::{Request, Work};
use std::time::{Duration, Instant};

/// So many calls of the library and of the limit for each round of the source: they are short.
const CALLS_PER_TURN: usize = 8;

/// At least so many turns, whatever the time.
const TURNS: usize = 5;

pub const TITLES: &str = "case               N     F      C  sweeps  scorings    \
                          Rust ms  (median)  ns/scoring    ours ms  (median)  ns/scoring   \
                          limit ms  (median)  ns/scoring   ratio  ours/limit";

pub struct Times {
    sizes: [usize; 3],
    source: Vec<Duration>,
    ours: Vec<Duration>,
    limit: Vec<Duration>,
}

pub fn milliseconds(time: Duration) -> f64 {
    time.as_secs() as f64 * 1e3 + f64::from(time.subsec_nanos()) / 1e6
}

impl Times {
    /// Turns of all three, one after the other, for so long.
    pub fn measure(request: &Request, time: Duration) -> Times {
        let mut times = Times { sizes: request.sizes(), source: vec![], ours: vec![], limit: vec![] };
        let mut out = request.slices();
        let start = Instant::now();
        while times.source.len() < TURNS || start.elapsed() < time {
            let mut called = request.fresh();
            times.source.push(request.source(&mut called));
            for _ in 0..CALLS_PER_TURN {
                times.ours.push(request.ours(&mut out).1);
            }
            for _ in 0..CALLS_PER_TURN {
                times.limit.push(request.limit(&mut out).1);
            }
        }
        times.source.sort();
        times.ours.sort();
        times.limit.sort();
        times
    }

    /// The source's best time over our best time.
    pub fn ratio(&self) -> f64 {
        milliseconds(self.source[0]) / milliseconds(self.ours[0])
    }

    /// Our best time over the limit's best time.
    fn over_limit(&self) -> f64 {
        milliseconds(self.ours[0]) / milliseconds(self.limit[0])
    }

    pub fn line(&self, name: &str, work: &Work) -> String {
        let side = |times: &[Duration]| {
            let (best, median) = (milliseconds(times[0]), milliseconds(times[times.len() / 2]));
            format!("{:9.4} {:9.4} {:11.2}", best, median, best * 1e6 / work.scorings as f64)
        };
        let [n, f, c] = self.sizes;
        let sizes = format!("{:5} {:5} {:6} {:7} {:9}", n, f, c, work.sweeps, work.scorings);
        let sides = format!("{}  {}  {}", side(&self.source), side(&self.ours), side(&self.limit));
        format!("{:14} {}  {} {:7.1} {:11.2}", name, sizes, sides, self.ratio(), self.over_limit())
    }
}
