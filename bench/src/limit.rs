//! The round of bench/limit.c, the practical limit.

use condorbed::{Rates, Round};

#[repr(C)]
struct RoundAnswer {
    number: usize,
    place: usize,
    sweeps: usize,
    settled: bool,
    start: i64,
    end: i64,
    source: i64,
}

#[link(name = "limit", kind = "static")]
extern "C" {
    fn limit_round(
        words: *const i32, words_len: usize, bases: *const u8, bases_len: usize, rates: Rates,
        phase: *const u8, phase_len: usize, sets: *const i32, sets_len: usize,
        orders: *const u32, orders_len: usize, limit: u32,
        haplotypes: *mut u8, haplotypes_len: usize, likelihoods: *mut i64, likelihoods_len: usize,
        posteriors: *mut i64, posteriors_len: usize, quals: *mut f64, quals_len: usize, gqs: *mut f64, gqs_len: usize,
    ) -> RoundAnswer;
}

/// As `condorbed::call_genotypes_with_haplotypes`; none where it is refused.
pub fn call_genotypes_with_haplotypes(
    words: &[i32], bases: &[u8], rates: Rates, phase: &[u8], sets: &[i32], orders: &[u32], limit: u32,
    haplotypes: &mut [u8], likelihoods: &mut [i64], posteriors: &mut [i64], quals: &mut [f64], gqs: &mut [f64],
) -> Option<Round> {
    let a = unsafe {
        limit_round(
            words.as_ptr(), words.len(), bases.as_ptr(), bases.len(), rates,
            phase.as_ptr(), phase.len(), sets.as_ptr(), sets.len(), orders.as_ptr(), orders.len(), limit,
            haplotypes.as_mut_ptr(), haplotypes.len(), likelihoods.as_mut_ptr(), likelihoods.len(),
            posteriors.as_mut_ptr(), posteriors.len(), quals.as_mut_ptr(), quals.len(), gqs.as_mut_ptr(), gqs.len(),
        )
    };
    if a.number != 0 {
        return None;
    }
    Some(Round { sweeps: a.sweeps, settled: a.settled, start: a.start, end: a.end, source: a.source })
}
