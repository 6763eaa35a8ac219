//! A case of document 01, section 2, as amended by requests 1, 3 and 5, as the source's variants and fragments. The case is
//! an accepted one. An absent fragment is read as one without calls; free and unused records are not read. The source does
//! not know muted fragments: the calls of one get the quality 0, both qualities alike, which is below no cutoff.
//!
//! Here, in `layout`, stand all strides, offsets and limits that the oracle and the benchmark know.

use bio::stats::{cutoff, LogProb};
use genotype_probs::{Genotype, GenotypeProbs};
use protocol::Tokens;
use self::layout::{ranged, Words, MAX_LENGTH};
use variants_and_fragments::{FragCall, Fragment, Var, VarFilter, VarList};

/// Where each word of a case stands, and the strides of the slices that are written.
pub mod layout {
    pub const MAX_VARIANTS: usize = 1024;
    pub const MAX_FRAGMENTS: usize = 4096;
    pub const MAX_CALLS: usize = 16384;
    pub const MAX_ALLELES: usize = 3;
    pub const MAX_LENGTH: usize = 64;
    pub const LOWEST: i32 = -262144;
    /// Strands are 0 forward, 1 reverse, and from MUTED on the same, muted.
    pub const STRANDS: i32 = 4;
    pub const MUTED: i32 = 2;

    /// Words of the head and of each record.
    const HEAD: usize = 6;
    const VARIANT: usize = 8;
    const FRAGMENT: usize = 2;
    const CALL: usize = 5;

    /// Written: 2 haplotype alleles per variant and 2 likelihoods per fragment; a table of all pairs per variant; the
    /// values of calling without haplotypes, with the counts among them.
    #[allow(dead_code)] // the benchmark's
    pub const PAIR: usize = 2;
    pub const TABLE: usize = MAX_ALLELES * MAX_ALLELES;
    #[allow(dead_code)] // the benchmark's
    pub const CALLED: usize = 13;
    #[allow(dead_code)] // the benchmark's
    pub const COUNTED: ::std::ops::Range<usize> = 2..12;

    /// The words of a case.
    pub struct Words<'a>(pub &'a [i32]);

    /// The words of one variant, one fragment, one call.
    pub struct VariantWords<'a>(&'a [i32]);
    pub struct FragmentWords<'a>(&'a [i32]);
    pub struct CallWords<'a>(&'a [i32]);

    impl<'a> Words<'a> {
        pub fn n(&self) -> usize {
            self.0[0] as usize
        }

        pub fn f(&self) -> usize {
            self.0[1] as usize
        }

        pub fn c(&self) -> usize {
            self.0[2] as usize
        }

        pub fn cutoff(&self) -> i32 {
            self.0[3]
        }

        pub fn used(&self) -> usize {
            self.0[4] as usize
        }

        pub fn free(&self) -> usize {
            self.0[5] as usize
        }

        pub fn variant(&self, v: usize) -> VariantWords<'a> {
            VariantWords(self.record(HEAD + VARIANT * v, VARIANT))
        }

        pub fn fragment(&self, f: usize) -> FragmentWords<'a> {
            FragmentWords(self.record(HEAD + VARIANT * self.n() + FRAGMENT * f, FRAGMENT))
        }

        /// Calls are numbered from 1; those past the used ones are not read.
        pub fn call(&self, r: usize) -> CallWords<'a> {
            assert!(r <= self.used(), "a chain into the unused records");
            CallWords(self.record(HEAD + VARIANT * self.n() + FRAGMENT * self.f() + CALL * (r - 1), CALL))
        }

        fn record(&self, at: usize, words: usize) -> &'a [i32] {
            &self.0[at..at + words]
        }

        /// Whether the head is within its limits and gives this number of words: a test that both sides mean the same
        /// layout, not the check of a case.
        pub fn sized(&self) -> bool {
            let (n, f, c, used) = (self.n(), self.f(), self.c(), self.used());
            let within = n <= MAX_VARIANTS && f <= MAX_FRAGMENTS && c <= MAX_CALLS && used <= c && self.free() <= used;
            within && ranged(self.cutoff()) && self.0.len() == HEAD + VARIANT * n + FRAGMENT * f + CALL * c
        }
    }

    /// Takes the last fragment out, whose records are the last ones and are unused then. Its strand, and its calls as an
    /// arrival gives them.
    #[allow(dead_code)] // the benchmark's
    pub fn take_last(words: &mut [i32]) -> (i32, Vec<i32>) {
        let (f, c) = (Words(words).f(), Words(words).c());
        let (first, strand) = (Words(words).fragment(f - 1).first(), Words(words).fragment(f - 1).strand());
        let calls = (first..c + 1).flat_map(|r| Words(words).call(r).0[..CALL - 1].to_vec()).collect();
        let at = HEAD + VARIANT * Words(words).n() + FRAGMENT * (f - 1);
        words[at] = -1;
        words[4] = first as i32 - 1;
        (strand, calls)
    }

    /// Whether it is a cutoff or a quality.
    pub fn ranged(steps: i32) -> bool {
        LOWEST <= steps && steps <= 0
    }

    impl<'a> VariantWords<'a> {
        pub fn pos0(&self) -> usize {
            self.0[0] as usize
        }

        pub fn dp(&self) -> usize {
            self.0[1] as usize
        }

        pub fn genotype(&self) -> (u8, u8) {
            (self.0[2] as u8, self.0[3] as u8)
        }

        pub fn k(&self) -> usize {
            self.0[4] as usize
        }

        /// The lengths of its k alleles.
        pub fn lengths(&self) -> &'a [i32] {
            let all = &self.0[5..5 + MAX_ALLELES];
            &all[..self.k()]
        }
    }

    impl<'a> FragmentWords<'a> {
        /// The first call; 0 for a fragment without calls and for an absent one, whose word is -1.
        pub fn first(&self) -> usize {
            self.0[0].max(0) as usize
        }

        pub fn strand(&self) -> i32 {
            self.0[1]
        }

        pub fn reverse(&self) -> bool {
            self.strand() % 2 == 1
        }

        /// Whether it is on file without a vote.
        pub fn muted(&self) -> bool {
            self.strand() >= MUTED
        }
    }

    impl<'a> CallWords<'a> {
        pub fn variant(&self) -> usize {
            self.0[0] as usize
        }

        pub fn allele(&self) -> u8 {
            self.0[1] as u8
        }

        pub fn qual(&self) -> i32 {
            self.0[2]
        }

        pub fn one_minus_qual(&self) -> i32 {
            self.0[3]
        }

        pub fn next(&self) -> usize {
            self.0[4] as usize
        }
    }
}

#[derive(Clone)]
pub struct Case {
    pub varlist: VarList,
    pub flist: Vec<Fragment>,
    /// The cutoff, as the Prob that stands for it.
    pub max_p_miscall: f64,
}

impl Case {
    pub fn read(tokens: &mut Tokens) -> Option<Case> {
        let words = tokens.slice(|t| t.i32())?;
        let bases = tokens.slice(|t| t.u8())?;
        Some(Case::decode(&words, &bases))
    }

    fn decode(words: &[i32], bases: &[u8]) -> Case {
        let words = Words(words);
        assert!(words.sized(), "not the words of an accepted case");
        let mut bases = bases.iter().map(|b| *b as char);
        Case {
            varlist: var_list((0..words.n()).map(|v| variant(&words, v, &mut bases)).collect()),
            flist: (0..words.f()).map(|f| fragment(&words, f)).collect(),
            max_p_miscall: cutoff(words.cutoff()),
        }
    }

    /// The number of variants.
    pub fn n(&self) -> usize {
        self.varlist.lst.len()
    }

    /// The case with one variant more, behind the others: of one allele, and called by no fragment.
    pub fn with_idle_variant(&self) -> Case {
        let mut vars = self.varlist.lst.clone();
        let pos0 = vars.last().map_or(0, |var| var.pos0);
        vars.push(variant_of(pos0, 0, Genotype(0, 0), vec!["A".to_string()]));
        Case { varlist: var_list(vars), flist: self.flist.clone(), max_p_miscall: self.max_p_miscall }
    }

    pub fn with_genotypes(&self, genotypes: &[Genotype]) -> Case {
        let mut case = self.clone();
        for (var, g) in case.varlist.lst.iter_mut().zip(genotypes) {
            var.genotype = *g;
        }
        case
    }

    /// The case cut down to the variants that `keep` marks, and to the calls there.
    pub fn cut(&self, keep: &[bool]) -> Case {
        let place = |v: usize| keep[..v].iter().filter(|k| **k).count();
        let places: Vec<usize> = (0..self.n()).map(place).collect();
        let vars = self.varlist.lst.iter().zip(keep).filter(|x| *x.1).map(|x| x.0.clone());
        let mut flist = self.flist.clone();
        for fragment in flist.iter_mut() {
            fragment.calls.retain(|c| keep[c.var_ix]);
            for call in fragment.calls.iter_mut() {
                call.var_ix = places[call.var_ix];
            }
        }
        Case { varlist: var_list(vars.collect()), flist: flist, max_p_miscall: self.max_p_miscall }
    }
}

/// The list of these variants in their order. Its index by position stays empty: nothing that we call looks at it, and
/// it would have an entry for every thousand bases.
fn var_list(vars: Vec<Var>) -> VarList {
    let mut list = VarList::new(vec![], vec![]).expect("an empty list");
    list.lst = vars;
    for (i, var) in list.lst.iter_mut().enumerate() {
        var.ix = i;
    }
    list.assert_sorted();
    list
}

fn variant<I: Iterator<Item = char>>(words: &Words, v: usize, bases: &mut I) -> Var {
    let words = words.variant(v);
    let (a, b) = words.genotype();
    let lengths = words.lengths().iter().map(|l| *l as usize);
    let alleles: Vec<String> = lengths.map(|l| bases.by_ref().take(l).collect()).collect();
    assert!(alleles.iter().all(|x| 1 <= x.len() && x.len() <= MAX_LENGTH), "an allele's length");
    variant_of(words.pos0(), words.dp(), Genotype(a, b), alleles)
}

/// A variant as the source has it before any calling; its list gives it its number.
fn variant_of(pos0: usize, dp: usize, genotype: Genotype, alleles: Vec<String>) -> Var {
    let k = alleles.len();
    Var {
        ix: 0,
        tid: 0,
        pos0: pos0,
        alleles: alleles,
        dp: dp,
        allele_counts: vec![0; k],
        allele_counts_forward: vec![0; k],
        allele_counts_reverse: vec![0; k],
        ambiguous_count: 0,
        qual: 0.0,
        filter: VarFilter::Pass,
        genotype: genotype,
        gq: 0.0,
        unphased_genotype: Genotype(0, 0),
        unphased_gq: 0.0,
        genotype_post: GenotypeProbs::ones(k),
        phase_set: None,
        strand_bias_pvalue: 1.0,
        mec: 0,
        mec_frac_variant: 0.0,
        mec_frac_block: 0.0,
        mean_allele_qual: 0.0,
        dp_any_mq: 0,
        mq10_frac: 0.0,
        mq20_frac: 0.0,
        mq30_frac: 0.0,
        mq40_frac: 0.0,
        mq50_frac: 0.0,
    }
}

/// The calls of a muted fragment have both qualities 0.
fn fragment(words: &Words, f: usize) -> Fragment {
    let own = words.fragment(f);
    assert!(0 <= own.strand() && own.strand() < layout::STRANDS, "a strand");
    let steps = |quality: i32| LogProb(if own.muted() { 0.0 } else { f64::from(quality) });
    let mut calls = vec![];
    let mut next = own.first();
    while next != 0 {
        let call = words.call(next);
        assert!(ranged(call.qual()) && ranged(call.one_minus_qual()), "a quality");
        calls.push(FragCall {
            frag_ix: f,
            var_ix: call.variant(),
            allele: call.allele(),
            qual: steps(call.qual()),
            one_minus_qual: steps(call.one_minus_qual()),
        });
        next = call.next();
    }
    fragment_of(calls, own.reverse())
}

pub fn fragment_of(calls: Vec<FragCall>, reverse_strand: bool) -> Fragment {
    Fragment { id: None, calls: calls, p_read_hap: [LogProb::ln_one(); 2], reverse_strand: reverse_strand }
}
