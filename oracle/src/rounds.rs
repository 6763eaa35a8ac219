//! Rounds of the source's `call_genotypes_with_haplotypes`, and what can be read off them.

use bio::stats::{cutoff, set_ts_tv, take_converted, LogProb, TS_TV_RATIO};
use call_genotypes::call_genotypes_with_haplotypes;
use case::{fragment_of, Case};
use genotype_probs::{Genotype, GenotypePriors};
use hapcut2;
use rand::{self, Left, Orders};
use std::panic::{catch_unwind, resume_unwind, AssertUnwindSafe};
use util::DensityParameters;
use variants_and_fragments::FragCall;

/// The phase that HapCUT2's place hands back.
#[derive(Clone)]
pub struct Phase {
    pub bytes: Vec<u8>,
    pub sets: Vec<i32>,
}

impl Phase {
    /// The same byte and no set for every variant.
    pub fn all(byte: u8, n: usize) -> Phase {
        Phase { bytes: vec![byte; n], sets: vec![-1; n] }
    }
}

/// The source's priors of the six rates.
pub fn genotype_priors(rates: &[i32]) -> GenotypePriors {
    let steps = |i: usize| LogProb(f64::from(rates[i]));
    set_ts_tv(rates[4], rates[5]);
    GenotypePriors::new(steps(0), steps(1), steps(2), steps(3), TS_TV_RATIO).expect("priors")
}

/// One round (an infinite ll_delta ends the outer loop after it) of sweeps by `orders` up to `limit`; the steps that
/// the source turned into PHREDProbs on its way.
pub fn round(case: &mut Case, priors: &GenotypePriors, phase: &Phase, orders: Orders, limit: usize) -> Vec<f64> {
    let density = DensityParameters { n: 0, len: 0, gq: 0.0 };
    hapcut2::give(&phase.bytes, &phase.sets);
    rand::plan(orders, limit);
    take_converted();
    let Case { ref mut flist, ref mut varlist, max_p_miscall } = *case;
    let call = AssertUnwindSafe(|| {
        let (none, name, ll_delta) = (None, String::new(), 1.0 / 0.0);
        let (interval, cov) = (None, 0);
        call_genotypes_with_haplotypes(
            flist, varlist, &interval, priors, &none, 0, cov, &density, max_p_miscall, &name, ll_delta,
        )
    });
    match catch_unwind(call) {
        Ok(result) => result.expect("a round"),
        Err(reason) => {
            if !reason.is::<Left>() {
                resume_unwind(reason);
            }
        }
    }
    take_converted()
}

/// The priors where any serve.
fn some_priors() -> GenotypePriors {
    genotype_priors(&[-70000, -70000, -70000, -70000, -4096, -8192])
}

/// The case as the given phase leaves it: genotypes in order, set names.
pub fn phased_case(case: &Case, phase: &Phase) -> Case {
    let mut case = case.clone();
    round(&mut case, &some_priors(), phase, Orders::Leave, 1);
    case
}

/// Which variants the source takes as phased: one read a variant, with one call there, has likelihoods other than 0 at
/// the end exactly where its variant counts.
pub fn phased_flags(case: &Case, phase: &Phase) -> Vec<bool> {
    let mut probe = case.clone();
    let read = |v: usize| {
        let (miss, matched) = (LogProb(-2.0), LogProb(-1.0));
        let call = FragCall { frag_ix: v, var_ix: v, allele: 0, qual: miss, one_minus_qual: matched };
        fragment_of(vec![call], false)
    };
    probe.flist = (0..case.n()).map(read).collect();
    probe.max_p_miscall = cutoff(0);
    let order = (0..case.n()).collect();
    round(&mut probe, &some_priors(), phase, Orders::Lent(vec![order]), 1);
    probe.flist.iter().map(|f| f.p_read_hap[0] != LogProb::ln_one()).collect()
}

/// The phased total at these haplotypes: the source's own total after HapCUT2, of the case cut down to its phased
/// variants with these genotypes, which bytes other than '0' and '1' leave as they are.
pub fn phased_total(case: &Case, priors: &GenotypePriors, flags: &[bool], haplotypes: &[Genotype]) -> i64 {
    let mut cut = case.with_genotypes(haplotypes).cut(flags);
    let n = cut.n();
    let converted = round(&mut cut, priors, &Phase::all(b'-', n), Orders::Leave, 1);
    *converted.last().expect("the total after HapCUT2") as i64
}

/// The likelihoods before the first sweep, 2 per fragment. The source writes them after its sweeps; here one sweep visits
/// a variant of one allele that no fragment calls, again and again, which changes nothing.
pub fn first_likelihoods(case: &Case, phase: &Phase) -> Vec<LogProb> {
    let (mut longer, mut phase) = (case.with_idle_variant(), phase.clone());
    phase.bytes.push(b'-');
    phase.sets.push(-1);
    let n = case.n();
    round(&mut longer, &some_priors(), &phase, Orders::Lent(vec![vec![n; n + 1]]), 1);
    assert!(rand::sweeps() == 1, "a sweep over an idle variant changed something");
    likelihoods(&longer)
}

/// The likelihoods that a round wrote, 2 per fragment.
pub fn likelihoods(called: &Case) -> Vec<LogProb> {
    called.flist.iter().flat_map(|f| f.p_read_hap.to_vec()).collect()
}

pub fn genotypes(case: &Case) -> Vec<Genotype> {
    case.varlist.lst.iter().map(|v| v.genotype).collect()
}
