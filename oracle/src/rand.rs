//! In place of rand. `gen` gives 0.0 and leaves the state, so that the source flips no genotype; `shuffle` goes by the
//! plan that was set before the source's call.

use std::cell::RefCell;

/// Where the orders of the sweeps come from.
#[derive(Clone)]
pub enum Orders {
    /// Sweep s has order s mod m of these m.
    Lent(Vec<Vec<usize>>),
    /// Document 01's own orders: SplitMix64 from the seed, and its swaps.
    Seeded,
    /// The first shuffle leaves the source's function by unwinding, with the variants as the given phase left them.
    Leave,
}

/// What unwinding carries under `Orders::Leave`.
pub struct Left;

struct Plan {
    orders: Orders,
    limit: usize,
    sweeps: usize,
    last: usize,
}

thread_local! {
    static PLAN: RefCell<Plan> = RefCell::new(Plan { orders: Orders::Seeded, limit: 0, sweeps: 0, last: 0 });
}

/// Sets the plan. Past `limit` sweeps a shuffle gives the variant visited last, N times: it scores as it just did, so
/// nothing changes and the source stops.
pub fn plan(orders: Orders, limit: usize) {
    PLAN.with(|x| x.replace(Plan { orders: orders, limit: limit, sweeps: 0, last: 0 }));
}

/// How many sweeps began since the plan was set.
pub fn sweeps() -> usize {
    PLAN.with(|x| x.borrow().sweeps)
}

pub mod rngs {
    pub struct StdRng {
        state: u64,
    }

    impl StdRng {
        pub fn new(state: u64) -> StdRng {
            StdRng { state: state }
        }

        /// SplitMix64, as published.
        pub fn next(&mut self) -> u64 {
            self.state = self.state.wrapping_add(0x9E37_79B9_7F4A_7C15);
            let z = (self.state ^ (self.state >> 30)).wrapping_mul(0xBF58_476D_1CE4_E5B9);
            let z = (z ^ (z >> 27)).wrapping_mul(0x94D0_49BB_1331_11EB);
            z ^ (z >> 31)
        }
    }
}

use self::rngs::StdRng;

pub trait SeedableRng {
    fn seed_from_u64(seed: u64) -> Self;
}

impl SeedableRng for StdRng {
    fn seed_from_u64(seed: u64) -> StdRng {
        StdRng::new(seed)
    }
}

pub trait Rng {
    fn gen<T: Default>(&mut self) -> T;
}

impl Rng for StdRng {
    fn gen<T: Default>(&mut self) -> T {
        T::default()
    }
}

/// Document 01's swaps.
fn fisher_yates(order: &mut [usize], rng: &mut StdRng) {
    for i in (1..order.len()).rev() {
        let j = rng.next() % (i as u64 + 1);
        order.swap(i, j as usize);
    }
}

pub mod seq {
    use super::rngs::StdRng;
    use super::{fisher_yates, Left, Orders, PLAN};
    use std::panic;

    pub trait SliceRandom {
        fn shuffle(&mut self, rng: &mut StdRng);
    }

    impl SliceRandom for [usize] {
        fn shuffle(&mut self, rng: &mut StdRng) {
            let leaves = PLAN.with(|plan| {
                let plan = &mut *plan.borrow_mut();
                let s = plan.sweeps;
                plan.sweeps += 1;
                if s >= plan.limit {
                    for v in self.iter_mut() {
                        *v = plan.last;
                    }
                    return false;
                }
                match plan.orders {
                    Orders::Lent(ref lent) => self.copy_from_slice(&lent[s % lent.len()]),
                    Orders::Seeded => fisher_yates(self, rng),
                    Orders::Leave => return true,
                }
                plan.last = self.last().map_or(0, |v| *v);
                false
            });
            if leaves {
                panic::resume_unwind(Box::new(Left));
            }
        }
    }
}
