//! A safe wrapper of target/staticlib/libexports.a, which `tools/build library` writes.
//!
//! The operations require nothing of their slices, and Rust's references have true lengths and do not overlap where
//! they are `&mut`: so every call is safe. A call answers its result, or `Refused`, which leaves every slice as it was.
//! It uses up to 1 MiB of stack. docs/FORMAT.md says how a case is laid out, and what is written.

use std::fmt;

/// Why an operation turned its input down: a number from 1 to 14, and the place of the fault.
#[derive(Clone, Copy, Debug, PartialEq, Eq)]
pub struct Refused {
    pub number: usize,
    pub place: usize,
}

impl fmt::Display for Refused {
    fn fmt(&self, f: &mut fmt::Formatter) -> fmt::Result {
        write!(f, "refused {} {}", self.number, self.place)
    }
}

impl std::error::Error for Refused {}

/// N, F, C, the number of call records used, the first free one (0: none) and the cutoff.
#[derive(Clone, Copy, Debug, PartialEq, Eq)]
pub struct Sizes {
    pub n: usize,
    pub f: usize,
    pub c: usize,
    pub used: usize,
    pub free: usize,
    pub cutoff: i32,
}

/// How many bytes and lines were written.
#[derive(Clone, Copy, Debug, PartialEq, Eq)]
pub struct Amount {
    pub bytes: usize,
    pub lines: usize,
}

/// How many sweeps were made, whether the last one changed nothing, the totals over the phased variants at the start
/// and at the end, and the total over all variants at the end.
#[derive(Clone, Copy, Debug, PartialEq, Eq)]
pub struct Round {
    pub sweeps: usize,
    pub settled: bool,
    pub start: i64,
    pub end: i64,
    pub source: i64,
}

/// The phased total after an arrival or a departure; never settled. Whether a sample is settled is the answer of the latest
/// arrival, departure or run; the caller keeps it.
#[derive(Clone, Copy, Debug, PartialEq, Eq)]
pub struct Updated {
    pub settled: bool,
    pub total: i64,
}

/// What arrivals and departures update: 2 likelihoods a fragment, 10 counts a variant (those of calling without haplotypes,
/// from its third value on) and the phased total, which an accepted call replaces.
#[derive(Debug, PartialEq, Eq)]
pub struct Values<'a> {
    pub likelihoods: &'a mut [i64],
    pub counts: &'a mut [i32],
    pub total: i64,
}

/// Each in -262144..=-1, in steps; the first four added up as probabilities are below certainty.
#[repr(C)]
#[derive(Clone, Copy, Debug, PartialEq, Eq)]
pub struct Rates {
    pub hom_snv: i64,
    pub het_snv: i64,
    pub hom_indel: i64,
    pub het_indel: i64,
    pub ts: i64,
    pub tv: i64,
}

/// Variants are too dense where more than `n` others of quality `gq` or more stand within `len` bases.
#[repr(C)]
#[derive(Clone, Copy, Debug, PartialEq)]
pub struct DensityParameters {
    pub n: u32,
    pub len: u32,
    pub gq: f64,
}

/// The check of a case, which every other operation makes as well: numbers 1 to 5.
pub fn check_case(words: &[i32], bases: &[u8]) -> Result<Sizes, Refused> {
    let a = unsafe { c::condorbed_check_case(words.as_ptr(), words.len(), bases.as_ptr(), bases.len()) };
    result(a.number, a.place, Sizes { n: a.n, f: a.f, c: a.c, used: a.used, free: a.free, cutoff: a.cutoff })
}

/// Writes N filters.
pub fn var_filter(
    words: &[i32],
    bases: &[u8],
    quals: &[f64],
    density: DensityParameters,
    max_depth: u32,
    filters: &mut [u8],
) -> Result<(), Refused> {
    let a = unsafe {
        c::condorbed_var_filter(
            words.as_ptr(), words.len(), bases.as_ptr(), bases.len(), quals.as_ptr(), quals.len(),
            density, max_depth, filters.as_mut_ptr(), filters.len(),
        )
    };
    result(a.number, a.place, ())
}

/// Writes 9 priors a variant.
pub fn genotype_priors(words: &[i32], bases: &[u8], rates: Rates, priors: &mut [i64]) -> Result<(), Refused> {
    let a = unsafe {
        c::condorbed_genotype_priors(
            words.as_ptr(), words.len(), bases.as_ptr(), bases.len(),
            rates, priors.as_mut_ptr(), priors.len(),
        )
    };
    result(a.number, a.place, ())
}

/// Writes 13 values a variant, N quals and N gqs.
pub fn call_genotypes_no_haplotypes(
    words: &[i32],
    bases: &[u8],
    rates: Rates,
    variants: &mut [i32],
    quals: &mut [f64],
    gqs: &mut [f64],
) -> Result<(), Refused> {
    let a = unsafe {
        c::condorbed_call_genotypes_no_haplotypes(
            words.as_ptr(), words.len(), bases.as_ptr(), bases.len(),
            rates, variants.as_mut_ptr(), variants.len(), quals.as_mut_ptr(), quals.len(), gqs.as_mut_ptr(), gqs.len(),
        )
    };
    result(a.number, a.place, ())
}

/// Writes 2 haplotype alleles a variant, N phased flags and N set names.
pub fn given_phase(
    words: &[i32],
    bases: &[u8],
    phase: &[u8],
    sets: &[i32],
    haplotypes: &mut [u8],
    phased: &mut [u8],
    names: &mut [u32],
) -> Result<(), Refused> {
    let a = unsafe {
        c::condorbed_given_phase(
            words.as_ptr(), words.len(), bases.as_ptr(), bases.len(),
            phase.as_ptr(), phase.len(), sets.as_ptr(), sets.len(), haplotypes.as_mut_ptr(), haplotypes.len(),
            phased.as_mut_ptr(), phased.len(), names.as_mut_ptr(), names.len(),
        )
    };
    result(a.number, a.place, ())
}

/// Writes the fragment lines, each ended by a zero byte.
pub fn generate_flist_buffer(
    words: &[i32],
    bases: &[u8],
    single_reads: bool,
    buffer: &mut [u8],
) -> Result<Amount, Refused> {
    let a = unsafe {
        c::condorbed_generate_flist_buffer(
            words.as_ptr(), words.len(), bases.as_ptr(), bases.len(),
            single_reads, buffer.as_mut_ptr(), buffer.len(),
        )
    };
    result(a.number, a.place, Amount { bytes: a.bytes, lines: a.lines })
}

/// Fills the slice with orders of the variants.
pub fn sweep_orders(words: &[i32], bases: &[u8], seed: u64, orders: &mut [u32]) -> Result<(), Refused> {
    let a = unsafe {
        c::condorbed_sweep_orders(
            words.as_ptr(), words.len(), bases.as_ptr(), bases.len(), seed, orders.as_mut_ptr(), orders.len(),
        )
    };
    result(a.number, a.place, ())
}

/// One round: sweeps by the orders in turn, until one changes nothing or the limit is reached. Writes 2 haplotype
/// alleles a variant, 2 likelihoods a fragment, 9 posteriors a variant, N quals and N gqs.
pub fn call_genotypes_with_haplotypes(
    words: &[i32],
    bases: &[u8],
    rates: Rates,
    phase: &[u8],
    sets: &[i32],
    orders: &[u32],
    limit: u32,
    haplotypes: &mut [u8],
    likelihoods: &mut [i64],
    posteriors: &mut [i64],
    quals: &mut [f64],
    gqs: &mut [f64],
) -> Result<Round, Refused> {
    let a = unsafe {
        c::condorbed_call_genotypes_with_haplotypes(
            words.as_ptr(), words.len(), bases.as_ptr(), bases.len(), rates,
            phase.as_ptr(), phase.len(), sets.as_ptr(), sets.len(), orders.as_ptr(), orders.len(), limit,
            haplotypes.as_mut_ptr(), haplotypes.len(), likelihoods.as_mut_ptr(), likelihoods.len(),
            posteriors.as_mut_ptr(), posteriors.len(), quals.as_mut_ptr(), quals.len(), gqs.as_mut_ptr(), gqs.len(),
        )
    };
    let round = Round { sweeps: a.sweeps, settled: a.settled, start: a.start, end: a.end, source: a.source };
    result(a.number, a.place, round)
}

/// A fragment arrives: one whose number is absent, with its strand (0 forward, 1 reverse; 2 and 3 the same, muted) and its
/// calls (4 words each), which take the free call records from the first on, then unused ones. `phase` has a byte a variant,
/// `haplotypes` 2 alleles a variant as they stand. A muted fragment does not vote: its calls count as ambiguous.
pub fn arrive(
    words: &mut [i32],
    bases: &[u8],
    phase: &[u8],
    haplotypes: &[u8],
    values: &mut Values,
    fragment: u32,
    strand: i32,
    calls: &[i32],
) -> Result<Updated, Refused> {
    let a = unsafe {
        c::condorbed_arrive(
            words.as_mut_ptr(), words.len(), bases.as_ptr(), bases.len(), phase.as_ptr(), phase.len(),
            haplotypes.as_ptr(), haplotypes.len(), values.likelihoods.as_mut_ptr(), values.likelihoods.len(),
            values.counts.as_mut_ptr(), values.counts.len(), values.total, fragment, strand, calls.as_ptr(), calls.len(),
        )
    };
    updated(a, values)
}

/// A fragment departs: it is absent afterwards, with likelihoods of 0. Its call records are free, and are the next to be
/// taken.
pub fn depart(
    words: &mut [i32],
    bases: &[u8],
    phase: &[u8],
    haplotypes: &[u8],
    values: &mut Values,
    fragment: u32,
) -> Result<Updated, Refused> {
    let a = unsafe {
        c::condorbed_depart(
            words.as_mut_ptr(), words.len(), bases.as_ptr(), bases.len(), phase.as_ptr(), phase.len(),
            haplotypes.as_ptr(), haplotypes.len(), values.likelihoods.as_mut_ptr(), values.likelihoods.len(),
            values.counts.as_mut_ptr(), values.counts.len(), values.total, fragment,
        )
    };
    updated(a, values)
}

// The answer; a new total replaces the old one.
fn updated(a: c::LateAnswer, values: &mut Values) -> Result<Updated, Refused> {
    let answer = result(a.number, a.place, Updated { settled: a.settled, total: a.total })?;
    values.total = answer.total;
    Ok(answer)
}

// Number 0 is done.
fn result<T>(number: usize, place: usize, values: T) -> Result<T, Refused> {
    if number == 0 {
        return Ok(values);
    }
    Err(Refused { number, place })
}

// What condorbed.h declares.
mod c {
    use super::{DensityParameters, Rates};

    #[repr(C)]
    pub struct Answer {
        pub number: usize,
        pub place: usize,
    }

    #[repr(C)]
    pub struct CheckAnswer {
        pub number: usize,
        pub place: usize,
        pub n: usize,
        pub f: usize,
        pub c: usize,
        pub used: usize,
        pub free: usize,
        pub cutoff: i32,
    }

    #[repr(C)]
    pub struct FlistAnswer {
        pub number: usize,
        pub place: usize,
        pub bytes: usize,
        pub lines: usize,
    }

    #[repr(C)]
    pub struct RoundAnswer {
        pub number: usize,
        pub place: usize,
        pub sweeps: usize,
        pub settled: bool,
        pub start: i64,
        pub end: i64,
        pub source: i64,
    }

    #[repr(C)]
    pub struct LateAnswer {
        pub number: usize,
        pub place: usize,
        pub settled: bool,
        pub total: i64,
    }

    #[link(name = "exports", kind = "static")]
    extern "C" {
        pub fn condorbed_check_case(
            words: *const i32, words_len: usize, bases: *const u8, bases_len: usize,
        ) -> CheckAnswer;

        pub fn condorbed_var_filter(
            words: *const i32, words_len: usize, bases: *const u8, bases_len: usize,
            quals: *const f64, quals_len: usize,
            density: DensityParameters, max_depth: u32, filters: *mut u8, filters_len: usize,
        ) -> Answer;

        pub fn condorbed_genotype_priors(
            words: *const i32, words_len: usize, bases: *const u8, bases_len: usize,
            rates: Rates, priors: *mut i64, priors_len: usize,
        ) -> Answer;

        pub fn condorbed_call_genotypes_no_haplotypes(
            words: *const i32, words_len: usize, bases: *const u8, bases_len: usize,
            rates: Rates, variants: *mut i32, variants_len: usize,
            quals: *mut f64, quals_len: usize, gqs: *mut f64, gqs_len: usize,
        ) -> Answer;

        pub fn condorbed_given_phase(
            words: *const i32, words_len: usize, bases: *const u8, bases_len: usize,
            phase: *const u8, phase_len: usize, sets: *const i32, sets_len: usize,
            haplotypes: *mut u8, haplotypes_len: usize, phased: *mut u8, phased_len: usize,
            names: *mut u32, names_len: usize,
        ) -> Answer;

        pub fn condorbed_generate_flist_buffer(
            words: *const i32, words_len: usize, bases: *const u8, bases_len: usize,
            single_reads: bool, buffer: *mut u8, buffer_len: usize,
        ) -> FlistAnswer;

        pub fn condorbed_sweep_orders(
            words: *const i32, words_len: usize, bases: *const u8, bases_len: usize,
            seed: u64, orders: *mut u32, orders_len: usize,
        ) -> Answer;

        pub fn condorbed_call_genotypes_with_haplotypes(
            words: *const i32, words_len: usize, bases: *const u8, bases_len: usize, rates: Rates,
            phase: *const u8, phase_len: usize, sets: *const i32, sets_len: usize,
            orders: *const u32, orders_len: usize, limit: u32,
            haplotypes: *mut u8, haplotypes_len: usize, likelihoods: *mut i64, likelihoods_len: usize,
            posteriors: *mut i64, posteriors_len: usize,
            quals: *mut f64, quals_len: usize, gqs: *mut f64, gqs_len: usize,
        ) -> RoundAnswer;

        pub fn condorbed_arrive(
            words: *mut i32, words_len: usize, bases: *const u8, bases_len: usize, phase: *const u8, phase_len: usize,
            haplotypes: *const u8, haplotypes_len: usize, likelihoods: *mut i64, likelihoods_len: usize,
            counts: *mut i32, counts_len: usize, total: i64, fragment: u32, strand: i32,
            calls: *const i32, calls_len: usize,
        ) -> LateAnswer;

        pub fn condorbed_depart(
            words: *mut i32, words_len: usize, bases: *const u8, bases_len: usize, phase: *const u8, phase_len: usize,
            haplotypes: *const u8, haplotypes_len: usize, likelihoods: *mut i64, likelihoods_len: usize,
            counts: *mut i32, counts_len: usize, total: i64, fragment: u32,
        ) -> LateAnswer;
    }
}
