//! A `run` request, as the source takes it and as the library and the limit do.

use bio::stats::{LogProb, Prob};
use case::Case;
use case::layout::{PAIR, TABLE};
use condorbed::{self, Rates, Round};
use genotype_probs::GenotypePriors;
use limit;
use protocol::Tokens;
use rand::{self, Orders};
use rounds::{genotype_priors, round, Phase};
use std::time::{Duration, Instant};

/// Both readings of a request: `case`, `priors` and `lent` are the source's.
pub struct Request {
    case: Case,
    priors: GenotypePriors,
    lent: Orders,
    pub words: Vec<i32>,
    pub bases: Vec<u8>,
    pub rates: Rates,
    pub phase: Phase,
    orders: Vec<u32>,
    limit: u32,
}

/// The slices that the library and the limit write.
#[derive(PartialEq)]
pub struct Slices {
    haplotypes: Vec<u8>,
    likelihoods: Vec<i64>,
    posteriors: Vec<i64>,
    quals: Vec<f64>,
    gqs: Vec<f64>,
}

/// What a round has to do.
pub struct Work {
    pub sweeps: usize,
    /// A scoring is one pair of alleles scored at one visit over one usable call: in each sweep k × k per usable call.
    pub scorings: usize,
}

impl Request {
    pub fn read(text: &[u8]) -> Option<Request> {
        let (mut tokens, mut again) = (Tokens::new(text), Tokens::new(text));
        if tokens.next()? != b"run" {
            return None;
        }
        again.next()?;
        let case = Case::read(&mut again)?;
        let words = tokens.slice(|t| t.i32())?;
        let bases = tokens.slice(|t| t.u8())?;
        let steps = tokens.several(6, |t| t.i32())?;
        let phase = Phase { bytes: tokens.slice(|t| t.u8())?, sets: tokens.slice(|t| t.i32())? };
        let orders = tokens.slice(|t| t.u32())?;
        let each = orders.chunks(case.n()).map(|order| order.iter().map(|v| *v as usize).collect());
        Some(Request {
            priors: genotype_priors(&steps),
            lent: Orders::Lent(each.collect()),
            limit: tokens.u32()?,
            rates: rates(&steps),
            case, words, bases, phase, orders,
        })
    }

    /// Room for everything that is written.
    pub fn slices(&self) -> Slices {
        let (n, f) = (self.case.n(), self.case.flist.len());
        Slices {
            haplotypes: vec![0; PAIR * n],
            likelihoods: vec![0; PAIR * f],
            posteriors: vec![0; TABLE * n],
            quals: vec![0.0; n],
            gqs: vec![0.0; n],
        }
    }

    /// One round of the source; its time.
    pub fn source(&self, called: &mut Case) -> Duration {
        let lent = self.lent.clone();
        let start = Instant::now();
        round(called, &self.priors, &self.phase, lent, self.limit as usize);
        start.elapsed()
    }

    /// A case for the source to call.
    pub fn fresh(&self) -> Case {
        self.case.clone()
    }

    /// One call of the library; its answer and its time.
    pub fn ours(&self, out: &mut Slices) -> (Round, Duration) {
        self.ours_on(&self.words, out)
    }

    /// The same on other words of as many variants and fragments.
    pub fn ours_on(&self, words: &[i32], out: &mut Slices) -> (Round, Duration) {
        let start = Instant::now();
        let answer = condorbed::call_genotypes_with_haplotypes(
            words, &self.bases, self.rates, &self.phase.bytes, &self.phase.sets, &self.orders, self.limit,
            &mut out.haplotypes, &mut out.likelihoods, &mut out.posteriors, &mut out.quals, &mut out.gqs,
        );
        let time = start.elapsed();
        (answer.expect("an accepted request"), time)
    }

    /// One call of the limit; its answer and its time.
    pub fn limit(&self, out: &mut Slices) -> (Round, Duration) {
        let start = Instant::now();
        let answer = limit::call_genotypes_with_haplotypes(
            &self.words, &self.bases, self.rates, &self.phase.bytes, &self.phase.sets, &self.orders, self.limit,
            &mut out.haplotypes, &mut out.likelihoods, &mut out.posteriors, &mut out.quals, &mut out.gqs,
        );
        let time = start.elapsed();
        (answer.expect("an accepted request"), time)
    }

    /// What all three have to do; stops the program where they do not come to the same.
    pub fn agreed(&self) -> Work {
        let (mut called, mut out, mut limit_out) = (self.fresh(), self.slices(), self.slices());
        self.source(&mut called);
        let (answer, _) = self.ours(&mut out);
        let (limit_answer, _) = self.limit(&mut limit_out);
        assert!(answer.settled && answer.sweeps == rand::sweeps(), "not as many sweeps, or unsettled");
        assert!(out == written(&called), "the library's answer is not that of the source");
        assert!(limit_answer == answer, "the limit's sweeps or totals are not those of the library");
        assert!(limit_out == out, "the limit has not written what the library has");
        Work { sweeps: answer.sweeps, scorings: answer.sweeps * self.scorings() }
    }

    /// The scorings of one sweep.
    fn scorings(&self) -> usize {
        let cutoff = LogProb::from(Prob(self.case.max_p_miscall));
        let calls = self.case.flist.iter().flat_map(|fragment| &fragment.calls);
        let counts = calls.filter(|call| call.qual < cutoff).map(|call| self.case.varlist.lst[call.var_ix].alleles.len());
        counts.map(|k| k * k).sum()
    }

    /// The numbers of variants, fragments and calls.
    pub fn sizes(&self) -> [usize; 3] {
        let calls = self.case.flist.iter().map(|fragment| fragment.calls.len());
        [self.case.n(), self.case.flist.len(), calls.sum()]
    }
}

fn rates(steps: &[i32]) -> Rates {
    let rate = |i: usize| i64::from(steps[i]);
    Rates { hom_snv: rate(0), het_snv: rate(1), hom_indel: rate(2), het_indel: rate(3), ts: rate(4), tv: rate(5) }
}

/// What the source wrote, in the library's slices.
fn written(called: &Case) -> Slices {
    let vars = &called.varlist.lst;
    let nine = |tab: &Vec<Vec<LogProb>>| {
        let mut values: Vec<i64> = tab.iter().flat_map(|row| row).map(|p| p.0 as i64).collect();
        values.resize(TABLE, 0);
        values
    };
    Slices {
        haplotypes: vars.iter().flat_map(|v| vec![v.genotype.0, v.genotype.1]).collect(),
        likelihoods: called.flist.iter().flat_map(|f| f.p_read_hap.to_vec()).map(|p| p.0 as i64).collect(),
        posteriors: vars.iter().flat_map(|v| nine(&v.genotype_post.tab)).collect(),
        quals: vars.iter().map(|v| v.qual).collect(),
        gqs: vars.iter().map(|v| v.gq).collect(),
    }
}
