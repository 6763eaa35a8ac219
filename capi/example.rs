//! Every function, on a small case: variants A/G, A/C, A/AC, A/G, and one read of G, A and G at variants 0, 1 and 3.

use condorbed::{DensityParameters, Rates, Refused, Round, Sizes, Updated, Values};
use std::fmt::Display;

const WORDS: &[i32] = &[
    4, 1, 3, -2000, 3, 0, // N, F, C, cutoff, records used, the first free one
    100, 31, 0, 1, 2, 1, 1, 0, // pos0, depth, genotype, k, allele lengths
    110, 28, 0, 1, 2, 1, 1, 0,
    120, 90, 0, 1, 2, 1, 2, 0,
    130, 30, 0, 1, 2, 1, 1, 0,
    1, 0, // first call, strand: forward
    0, 1, -13607, -622, 2, // variant, allele, qual, one_minus_qual, next
    1, 0, -13607, -622, 3,
    3, 1, -13607, -622, 0,
];
const BASES: &[u8] = b"AGACAACAG";
const RATES: Rates =
    Rates { hom_snv: -12000, het_snv: -8000, hom_indel: -20000, het_indel: -16000, ts: -4096, tv: -8192 };

/// Done, or refused with the number and the place; the values, where there are any.
fn first_line<T>(operation: &str, answer: Result<T, Refused>) -> Option<T> {
    match answer {
        Ok(values) => {
            println!("{}: done", operation);
            Some(values)
        }
        Err(refused) => {
            println!("{}: {}", operation, refused);
            None
        }
    }
}

fn line<T: Display>(slice: &[T]) {
    println!("{}", slice.iter().map(T::to_string).collect::<Vec<_>>().join(" "));
}

fn check_line(answer: Result<Sizes, Refused>) {
    let none = Sizes { n: 0, f: 0, c: 0, used: 0, free: 0, cutoff: 0 };
    let s = first_line("check_case", answer).unwrap_or(none);
    println!("{} {} {} {} {} {}", s.n, s.f, s.c, s.used, s.free, s.cutoff);
}

fn check_case() {
    check_line(condorbed::check_case(WORDS, BASES));
    // a word is missing
    check_line(condorbed::check_case(&WORDS[..WORDS.len() - 1], BASES));
}

fn var_filter() {
    let quals = [60.0, 55.0, 60.0, 50.0];
    let density = DensityParameters { n: 2, len: 30, gq: 50.0 };
    let mut filters = [9; 5];
    // the first time the slice is too short
    for length in [3, 5] {
        first_line("var_filter", condorbed::var_filter(WORDS, BASES, &quals, density, 80, &mut filters[..length]));
        line(&filters);
    }
}

fn genotype_priors() {
    let mut priors = [0; 9 * 4];
    first_line("genotype_priors", condorbed::genotype_priors(WORDS, BASES, RATES, &mut priors));
    line(&priors);
}

fn call_genotypes_no_haplotypes() {
    let mut variants = [0; 13 * 4];
    let (mut quals, mut gqs) = ([0.0; 4], [0.0; 4]);
    let answer = condorbed::call_genotypes_no_haplotypes(WORDS, BASES, RATES, &mut variants, &mut quals, &mut gqs);
    first_line("call_genotypes_no_haplotypes", answer);
    line(&variants);
    line(&quals.map(|q| format!("{:.4}", q)));
    line(&gqs.map(|q| format!("{:.4}", q)));
}

fn given_phase() {
    let (mut haplotypes, mut phased, mut names) = ([0; 2 * 4], [0; 4], [0; 4]);
    let sets = [-1, 3, 3, 3];
    let answer = condorbed::given_phase(WORDS, BASES, b"0101", &sets, &mut haplotypes, &mut phased, &mut names);
    first_line("given_phase", answer);
    line(&haplotypes);
    line(&phased);
    line(&names);
}

fn generate_flist_buffer() {
    // how many bytes are needed?
    let needed = condorbed::generate_flist_buffer(WORDS, BASES, true, &mut []);
    first_line("generate_flist_buffer", needed);
    let mut buffer = vec![0; needed.map_or_else(|refused| refused.place, |amount| amount.bytes)];
    let answer = condorbed::generate_flist_buffer(WORDS, BASES, true, &mut buffer);
    if let Some(amount) = first_line("generate_flist_buffer", answer) {
        line(&[amount.bytes, amount.lines]);
        println!("{}", String::from_utf8_lossy(&buffer[..amount.bytes - 1]));
    }
}

fn sweep_orders() {
    let mut orders = [0; 2 * 4];
    first_line("sweep_orders", condorbed::sweep_orders(WORDS, BASES, 0, &mut orders));
    line(&orders);
}

fn call_genotypes_with_haplotypes() {
    let (sets, orders) = ([-1, 3, 3, 3], [2, 1, 0, 3, 2, 3, 1, 0]);
    let (mut haplotypes, mut likelihoods, mut posteriors) = ([0; 2 * 4], [0; 2], [0; 9 * 4]);
    let (mut quals, mut gqs) = ([0.0; 4], [0.0; 4]);
    // a limit of 0 is refused, one of 100 is enough
    for limit in [0, 100] {
        let answer = condorbed::call_genotypes_with_haplotypes(
            WORDS, BASES, RATES, b"0101", &sets, &orders, limit,
            &mut haplotypes, &mut likelihoods, &mut posteriors, &mut quals, &mut gqs,
        );
        let none = Round { sweeps: 0, settled: false, start: 0, end: 0, source: 0 };
        let r = first_line("call_genotypes_with_haplotypes", answer).unwrap_or(none);
        let settled = if r.settled { "settled" } else { "unsettled" };
        println!("{} {} {} {} {}", r.sweeps, settled, r.start, r.end, r.source);
    }
    line(&haplotypes);
    line(&likelihoods);
    line(&posteriors);
    line(&quals.map(|q| format!("{:.4}", q)));
    line(&gqs.map(|q| format!("{:.4}", q)));
}

fn late_lines(operation: &str, answer: Result<Updated, Refused>, words: &[i32], values: &Values) {
    let u = first_line(operation, answer).unwrap_or(Updated { settled: false, total: 0 });
    println!("{} {}", if u.settled { "settled" } else { "unsettled" }, u.total);
    line(words);
    line(values.likelihoods);
    line(values.counts);
}

fn arrive_and_depart() {
    // two variants A/G and no read yet; fragment 0 is absent, and there are two unused records
    let mut words = [
        2, 1, 2, -2000, 0, 0, 100, 31, 0, 1, 2, 1, 1, 0, 110, 28, 0, 1, 2, 1, 1, 0, -1, 0, 0, 0, 0, 0, 0, 0, 0, 0, 0, 0,
    ];
    let (bases, phase, haplotypes) = (b"AGAG", b"01", [0, 1, 1, 0]);
    let (calls, call) = ([0, 0, -13607, -622, 1, 1, -13607, -622], [1, 0, -13607, -622]);
    // the total is that of a run at its start
    let mut values = Values { likelihoods: &mut [0; 2], counts: &mut [0; 10 * 2], total: -32590 };
    // a read of A and G arrives, and cannot arrive again
    for _ in 0..2 {
        let answer = condorbed::arrive(&mut words, bases, phase, &haplotypes, &mut values, 0, 0, &calls);
        late_lines("arrive", answer, &words, &values);
    }
    // it departs, and its records 1 and 2 are free
    let answer = condorbed::depart(&mut words, bases, phase, &haplotypes, &mut values, 0);
    late_lines("depart", answer, &words, &values);
    check_line(condorbed::check_case(&words, bases));
    // another read arrives, of A alone: it takes record 1
    let answer = condorbed::arrive(&mut words, bases, phase, &haplotypes, &mut values, 0, 1, &call);
    late_lines("arrive", answer, &words, &values);
    check_line(condorbed::check_case(&words, bases));
}

fn main() {
    check_case();
    var_filter();
    genotype_priors();
    call_genotypes_no_haplotypes();
    given_phase();
    generate_flist_buffer();
    sweep_orders();
    call_genotypes_with_haplotypes();
    arrive_and_depart();
}
