//! The operations that the source has, each request read, put to the source and answered.

use bio::stats::LogProb;
use call_genotypes::call_genotypes_no_haplotypes;
use case::Case;
use case::layout::{MAX_ALLELES, TABLE};
use genotype_probs::GenotypeProbs;
use haplotype_assembly::generate_flist_buffer;
use protocol::{Answer, Output, Tokens};
use rand::rngs::StdRng;
use rand::seq::SliceRandom;
use rand::{self, Orders, SeedableRng};
use rounds::{first_likelihoods, genotype_priors, genotypes, likelihoods};
use rounds::{phased_case, phased_flags, phased_total, round, Phase};
use variants_and_fragments::{var_filter, Var};

/// The source's own limit of sweeps.
const MAX_ITERATIONS: usize = 1000000;

/// What is asked of a run.
#[derive(Clone, Copy)]
pub enum Mode {
    /// The answer, by the lent orders.
    Lent,
    /// The answer, by document 01's own orders from seed 0.
    Reference,
}

/// The answer to a request whose word has been read; none where it cannot be read.
pub fn answer(word: &[u8], tokens: &mut Tokens, mode: Mode) -> Option<Answer> {
    match word {
        b"priors" => priors(tokens),
        b"nohap" => nohap(tokens),
        b"phase" => phase(tokens),
        b"run" => run(tokens, mode),
        b"flist" => flist(tokens),
        b"filter" => filter(tokens),
        b"orders" => orders(tokens),
        b"afresh" => afresh(tokens),
        _ => None,
    }
}

fn rates(tokens: &mut Tokens) -> Option<Vec<i32>> {
    tokens.several(6, |t| t.i32())
}

fn rooms(tokens: &mut Tokens, count: usize) -> Option<Vec<usize>> {
    tokens.several(count, |t| t.u32().map(|x| x as usize))
}

/// The places of a table of pairs, row-major, then zeros.
fn nine(probs: &GenotypeProbs) -> Vec<i64> {
    let mut values: Vec<i64> = probs.tab.iter().flat_map(|row| row).map(|p| p.0 as i64).collect();
    values.resize(TABLE, 0);
    values
}

/// Counts by allele, absent alleles 0.
fn three(counts: &[u16]) -> Vec<i64> {
    (0..MAX_ALLELES).map(|a| counts.get(a).map_or(0, |x| i64::from(*x))).collect()
}

/// The counts of a variant: by allele, on each strand, ambiguous.
fn counts(v: &Var) -> Vec<i64> {
    let mut values = three(&v.allele_counts);
    values.extend(three(&v.allele_counts_forward));
    values.extend(three(&v.allele_counts_reverse));
    values.push(i64::from(v.ambiguous_count));
    values
}

fn steps(probs: Vec<LogProb>) -> Vec<i64> {
    probs.into_iter().map(|p| p.0 as i64).collect()
}

fn pairs(vars: &[Var]) -> Vec<u8> {
    vars.iter().flat_map(|v| vec![v.genotype.0, v.genotype.1]).collect()
}

fn priors(tokens: &mut Tokens) -> Option<Answer> {
    let case = Case::read(tokens)?;
    let priors = genotype_priors(&rates(tokens)?);
    let room = rooms(tokens, 1)?[0];
    let table = |v: &Var| nine(&priors.get_all_priors(&v.alleles).expect("priors of a variant"));
    let written = case.varlist.lst.iter().flat_map(table);
    Some(Answer::new(String::new(), vec![Output::integers(room, written)]))
}

fn nohap(tokens: &mut Tokens) -> Option<Answer> {
    let mut case = Case::read(tokens)?;
    let priors = genotype_priors(&rates(tokens)?);
    let rooms = rooms(tokens, 3)?;
    call_genotypes_no_haplotypes(&case.flist, &mut case.varlist, &priors, case.max_p_miscall).expect("calling");
    let vars = &case.varlist.lst;
    let values = vars.iter().flat_map(|v| {
        let mut values = vec![i64::from(v.genotype.0), i64::from(v.genotype.1)];
        values.extend(counts(v));
        values.push(v.dp as i64);
        values
    });
    let outputs = vec![
        Output::integers(rooms[0], values),
        Output::qualities(rooms[1], vars.iter().map(|v| v.qual)),
        Output::qualities(rooms[2], vars.iter().map(|v| v.gq)),
    ];
    Some(Answer::new(String::new(), outputs))
}

fn given_phase(tokens: &mut Tokens) -> Option<Phase> {
    let bytes = tokens.slice(|t| t.u8())?;
    let sets = tokens.slice(|t| t.i32())?;
    Some(Phase { bytes: bytes, sets: sets })
}

fn phase(tokens: &mut Tokens) -> Option<Answer> {
    let case = Case::read(tokens)?;
    let phase = given_phase(tokens)?;
    let rooms = rooms(tokens, 3)?;
    let flags = phased_flags(&case, &phase);
    let phased = phased_case(&case, &phase);
    let names = phased.varlist.lst.iter().map(|v| v.phase_set.map_or(0, |name| name as i64));
    let outputs = vec![
        Output::bytes(rooms[0], pairs(&phased.varlist.lst).into_iter()),
        Output::bytes(rooms[1], flags.into_iter().map(u8::from)),
        Output::integers(rooms[2], names),
    ];
    Some(Answer::new(String::new(), outputs))
}

fn lent_orders(tokens: &mut Tokens, n: usize) -> Option<Orders> {
    let flat = tokens.slice(|t| t.u32().map(|x| x as usize))?;
    if n == 0 {
        return Some(Orders::Lent(vec![vec![]]));
    }
    Some(Orders::Lent(flat.chunks(n).map(|order| order.to_vec()).collect()))
}

fn run(tokens: &mut Tokens, mode: Mode) -> Option<Answer> {
    let case = Case::read(tokens)?;
    let rates = rates(tokens)?;
    let phase = given_phase(tokens)?;
    let lent = lent_orders(tokens, case.n())?;
    let limit = tokens.u32()? as usize;
    let rooms = rooms(tokens, 5)?;
    Some(match mode {
        Mode::Lent => ran(&case, &rates, &phase, lent, limit, &rooms),
        Mode::Reference => ran(&case, &rates, &phase, Orders::Seeded, limit, &rooms),
    })
}

fn ran(case: &Case, rates: &[i32], phase: &Phase, orders: Orders, limit: usize, rooms: &[usize]) -> Answer {
    let priors = genotype_priors(rates);
    let mut called = case.clone();
    let converted = round(&mut called, &priors, phase, orders, limit);
    let sweeps = rand::sweeps();
    assert!(sweeps < MAX_ITERATIONS, "the source's own limit does not tell whether its last sweep changed something");
    let settled = sweeps <= limit;
    let flags = phased_flags(case, phase);
    let total = |at: &Case| phased_total(case, &priors, &flags, &genotypes(at));
    let fields = format!(
        " {} {} {} {} {}",
        sweeps.min(limit),
        if settled { "settled" } else { "unsettled" },
        total(&phased_case(case, phase)),
        total(&called),
        source_total(&converted)
    );
    Answer::new(fields, run_outputs(&called, rooms))
}

/// The source converts its last total, then compares it with the one before the round: the last three conversions.
fn source_total(converted: &[f64]) -> i64 {
    converted[converted.len() - 3] as i64
}

fn run_outputs(called: &Case, rooms: &[usize]) -> Vec<Output> {
    let vars = &called.varlist.lst;
    let sums = vars.iter().map(|v| v.genotype_post.sum());
    assert!(sums.into_iter().all(|sum| sum == LogProb::ln_one()), "a sum of row sums is not 0 after normalize");
    vec![
        Output::bytes(rooms[0], pairs(vars).into_iter()),
        Output::integers(rooms[1], steps(likelihoods(called)).into_iter()),
        Output::integers(rooms[2], vars.iter().flat_map(|v| nine(&v.genotype_post))),
        Output::qualities(rooms[3], vars.iter().map(|v| v.qual)),
        Output::qualities(rooms[4], vars.iter().map(|v| v.gq)),
    ]
}

/// The flags are the source's own before HapCUT2: those of a phase that leaves every one of them.
fn flist(tokens: &mut Tokens) -> Option<Answer> {
    let case = Case::read(tokens)?;
    let single_reads = tokens.int(0, 1)? == 1;
    let room = rooms(tokens, 1)?[0];
    let flags = phased_flags(&case, &Phase::all(b'0', case.n()));
    let lines = generate_flist_buffer(&case.flist, &flags, case.max_p_miscall, single_reads).expect("lines");
    let count = lines.len();
    let text: Vec<u8> = lines.into_iter().flat_map(|line| line).collect();
    let fields = format!(" {} {}", text.len(), count);
    Some(Answer::new(fields, vec![Output::bytes(room, text.into_iter())]))
}

fn filter(tokens: &mut Tokens) -> Option<Answer> {
    let mut case = Case::read(tokens)?;
    let quals = tokens.slice(|t| t.f64())?;
    let density_qual = tokens.f64()?;
    let (dist, count, max_depth) = (tokens.u32()?, tokens.u32()?, tokens.u32()?);
    let room = rooms(tokens, 1)?[0];
    for (var, qual) in case.varlist.lst.iter_mut().zip(quals) {
        var.qual = qual;
    }
    var_filter(&mut case.varlist, density_qual, dist as usize, count as usize, max_depth);
    let filters = case.varlist.lst.iter().map(|v| v.filter as u8);
    Some(Answer::new(String::new(), vec![Output::bytes(room, filters)]))
}

/// Not in the source: the orders that the shuffle of the reference run makes, one after the other.
fn orders(tokens: &mut Tokens) -> Option<Answer> {
    let case = Case::read(tokens)?;
    let mut rng = StdRng::seed_from_u64(tokens.u64()?);
    let room = rooms(tokens, 1)?[0];
    rand::plan(Orders::Seeded, room + 1);
    let mut written = vec![];
    while written.len() < room {
        let mut order: Vec<usize> = (0..case.n()).collect();
        order.shuffle(&mut rng);
        written.extend(order.into_iter().map(|v| v as i64));
    }
    Some(Answer::new(String::new(), vec![Output::integers(room, written.into_iter())]))
}

/// No operation of the program: what arrivals and departures update, taken afresh at section 5's haplotypes. The phased
/// total at the start of a run, the likelihoods before its first sweep, and the counts of calling without haplotypes.
fn afresh(tokens: &mut Tokens) -> Option<Answer> {
    let case = Case::read(tokens)?;
    let priors = genotype_priors(&rates(tokens)?);
    let phase = Phase { bytes: tokens.slice(|t| t.u8())?, sets: vec![-1; case.n()] };
    let rooms = rooms(tokens, 2)?;
    let total = phased_total(&case, &priors, &phased_flags(&case, &phase), &genotypes(&phased_case(&case, &phase)));
    let mut called = case.clone();
    call_genotypes_no_haplotypes(&case.flist, &mut called.varlist, &priors, case.max_p_miscall).expect("calling");
    let outputs = vec![
        Output::integers(rooms[0], steps(first_likelihoods(&case, &phase)).into_iter()),
        Output::integers(rooms[1], called.varlist.lst.iter().flat_map(counts)),
    ];
    Some(Answer::new(format!(" {}", total), outputs))
}
