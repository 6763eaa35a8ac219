//! In place of bio::stats: document 01, section 1, written from its text.
//!
//! A LogProb is a whole number of steps, held in an f64 in which sums and differences of such numbers are exact. The
//! mark is minus infinity. The source makes its LogProbs of Probs, so numbers of steps travel as Probs (`From<Prob>`).

pub mod stats {
    use std::cell::{Cell, RefCell};
    use std::ops::{Add, Deref, Sub};

    // KNOTS: [i32; 1665], by oracle/build from the rule in tools/knots.py
    include!("../../target/oracle/knots.rs");

    /// The ratio that the source is handed; its two quotients stand for ts and tv.
    pub const TS_TV_RATIO: f64 = 4.0;

    /// The source's tolerance for probabilities that should add up to one.
    const MARGIN: f64 = 0.00001;

    const LOWEST: i64 = -65536;

    thread_local! {
        static TS_TV: Cell<(f64, f64)> = Cell::new((0.0, 0.0));
        static CONVERTED: RefCell<Vec<f64>> = RefCell::new(vec![]);
    }

    /// Sets the steps of ts and tv.
    pub fn set_ts_tv(ts: i32, tv: i32) {
        TS_TV.with(|x| x.set((f64::from(ts), f64::from(tv))));
    }

    /// The Prob that stands for a cutoff of so many steps (0 or fewer).
    pub fn cutoff(steps: i32) -> f64 {
        2.0 - f64::from(steps)
    }

    /// The steps of all LogProbs that became PHREDProbs since the last call, in order.
    pub fn take_converted() -> Vec<f64> {
        CONVERTED.with(|log| log.replace(vec![]))
    }

    #[derive(Debug, Clone, Copy, PartialEq, PartialOrd)]
    pub struct LogProb(pub f64);

    #[derive(Debug, Clone, Copy, PartialEq, PartialOrd)]
    pub struct Prob(pub f64);

    #[derive(Debug, Clone, Copy, PartialEq, PartialOrd)]
    pub struct PHREDProb(pub f64);

    /// A(d) of document 01.
    fn addend(d: f64) -> f64 {
        if d >= 53248.0 {
            return 0.0;
        }
        let (k, r) = (d as usize / 32, d as i32 % 32);
        f64::from(KNOTS[k] - (KNOTS[k] - KNOTS[k + 1]) * r / 32)
    }

    impl LogProb {
        pub fn ln_one() -> LogProb {
            LogProb(0.0)
        }

        pub fn ln_zero() -> LogProb {
            LogProb(-1.0 / 0.0)
        }

        pub fn ln_add_exp(self, other: LogProb) -> LogProb {
            let (low, high) = if self < other { (self, other) } else { (other, self) };
            if low == LogProb::ln_zero() {
                return high;
            }
            LogProb(high.0 + addend(high.0 - low.0))
        }

        pub fn ln_sum_exp(probs: &[LogProb]) -> LogProb {
            probs.iter().fold(LogProb::ln_zero(), |sum, p| sum.ln_add_exp(*p))
        }

        /// The greatest q of 0 or less with ln_add_exp(self, q) of 0 or less; the mark where self is 0.
        pub fn ln_one_minus_exp(&self) -> LogProb {
            if self.0 == 0.0 {
                return LogProb::ln_zero();
            }
            let (mut low, mut high) = (LOWEST, 1);
            while high - low > 1 {
                let middle = (low + high) / 2 - if (low + high) % 2 < 0 { 1 } else { 0 };
                if self.ln_add_exp(LogProb(middle as f64)).0 <= 0.0 {
                    low = middle;
                } else {
                    high = middle;
                }
            }
            LogProb(low as f64)
        }

        /// The source asks for this only to measure how far a sum is from certainty. Document 01 drops what is above
        /// (the mark: within the source's tolerance); a sum below is far from it, and the source stops.
        pub fn ln_sub_exp(self, other: LogProb) -> LogProb {
            if self.0 == 0.0 && other.0 < 0.0 {
                return self;
            }
            LogProb::ln_zero()
        }
    }

    impl Add for LogProb {
        type Output = LogProb;
        fn add(self, other: LogProb) -> LogProb {
            LogProb(self.0 + other.0)
        }
    }

    impl Sub for LogProb {
        type Output = LogProb;
        fn sub(self, other: LogProb) -> LogProb {
            LogProb(self.0 - other.0)
        }
    }

    impl From<Prob> for LogProb {
        fn from(p: Prob) -> LogProb {
            if p.0 >= 2.0 {
                return LogProb(2.0 - p.0);
            }
            let (ts, tv) = TS_TV.with(|x| x.get());
            let known = [
                (0.5, -4096.0),
                (0.25, -8192.0),
                (TS_TV_RATIO / (TS_TV_RATIO + 2.0), ts),
                (1.0 / (TS_TV_RATIO + 2.0), tv),
                (MARGIN, -68034.0),
            ];
            for &(prob, steps) in &known {
                if p.0 == prob {
                    return LogProb(steps);
                }
            }
            panic!("no steps stand for the probability {}", p.0)
        }
    }

    impl From<LogProb> for f64 {
        fn from(p: LogProb) -> f64 {
            p.0
        }
    }

    impl From<LogProb> for Prob {
        fn from(p: LogProb) -> Prob {
            Prob((p.0 / 4096.0).exp2())
        }
    }

    impl From<LogProb> for PHREDProb {
        fn from(p: LogProb) -> PHREDProb {
            CONVERTED.with(|log| log.borrow_mut().push(p.0));
            if p == LogProb::ln_zero() {
                return PHREDProb(500.0);
            }
            PHREDProb((-(p.0 as i64)) as f64 * ((3.010299956639812 / 1048576.0) * 256.0))
        }
    }

    macro_rules! deref {
        ($($name:ident)*) => { $(
            impl Deref for $name {
                type Target = f64;
                fn deref(&self) -> &f64 {
                    &self.0
                }
            }
        )* };
    }

    deref!(LogProb Prob PHREDProb);
}
