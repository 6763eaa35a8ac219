//! An arrival and a departure against the same values taken afresh.
//!
//! The case is a request's, its last fragment out. It arrives and departs again and again: the first time into unused
//! records, then into those that its departure freed. Afresh: the library's calling without haplotypes, for the counts, and
//! the likelihoods of all fragments by a plain loop over the words. The total, the phased flags and the copying of the
//! counts are left out of that time.

use case::layout::{take_last, Words, CALLED, COUNTED, PAIR};
use condorbed::{self, Refused, Updated, Values};
use request::Request;
use std::time::{Duration, Instant};
use timing::milliseconds;

/// At least so many turns, whatever the time.
const TURNS: usize = 20;

pub struct Late<'a> {
    request: &'a Request,
    /// The words without the last fragment; its strand and its calls.
    words: Vec<i32>,
    strand: i32,
    calls: Vec<i32>,
    haplotypes: Vec<u8>,
    phased: Vec<u8>,
}

/// What an arrival and a departure update.
#[derive(Clone, Debug, PartialEq)]
struct Fresh {
    likelihoods: Vec<i64>,
    counts: Vec<i32>,
    total: i64,
}

/// Times of arrivals, departures, checks of the case and taking all afresh.
#[derive(Default)]
struct Times {
    arrival: Vec<Duration>,
    departure: Vec<Duration>,
    check: Vec<Duration>,
    afresh: Vec<Duration>,
}

impl<'a> Late<'a> {
    pub fn new(request: &'a Request) -> Late<'a> {
        let mut words = request.words.clone();
        let (strand, calls) = take_last(&mut words);
        let n = Words(&words).n();
        let (mut haplotypes, mut phased, mut names) = (vec![0; PAIR * n], vec![0; n], vec![0; n]);
        let phase = &request.phase;
        condorbed::given_phase(
            &words, &request.bases, &phase.bytes, &phase.sets, &mut haplotypes, &mut phased, &mut names,
        ).expect("an accepted phase");
        Late { request, words, strand, calls, haplotypes, phased }
    }

    /// The likelihoods of all fragments; those of a muted one are 0.
    fn likelihoods(&self, words: &[i32], out: &mut [i64]) {
        let words = Words(words);
        let cutoff = words.cutoff();
        for (f, two) in out.chunks_mut(PAIR).enumerate() {
            let mut sum = [0; PAIR];
            let votes = !words.fragment(f).muted();
            let mut next = words.fragment(f).first();
            while next != 0 {
                let call = words.call(next);
                let v = call.variant();
                if votes && call.qual() < cutoff && self.phased[v] == 1 {
                    for h in 0..PAIR {
                        let matches = self.haplotypes[PAIR * v + h] == call.allele();
                        sum[h] += i64::from(if matches { call.one_minus_qual() } else { call.qual() });
                    }
                }
                next = call.next();
            }
            two.copy_from_slice(&sum);
        }
    }

    /// All values of these words afresh, with the time of the calling and of the likelihoods.
    fn afresh(&self, words: &[i32]) -> (Fresh, Duration) {
        let (n, f) = (Words(words).n(), Words(words).f());
        let (mut variants, mut quals, mut gqs) = (vec![0; CALLED * n], vec![0.0; n], vec![0.0; n]);
        let mut likelihoods = vec![0; PAIR * f];
        let start = Instant::now();
        condorbed::call_genotypes_no_haplotypes(
            words, &self.request.bases, self.request.rates, &mut variants, &mut quals, &mut gqs,
        ).expect("an accepted case");
        self.likelihoods(words, &mut likelihoods);
        let time = start.elapsed();
        let counts = variants.chunks(CALLED).flat_map(|own| own[COUNTED].to_vec()).collect();
        let total = self.request.ours_on(words, &mut self.request.slices()).0.start;
        (Fresh { likelihoods, counts, total }, time)
    }

    fn arrive(&self, words: &mut [i32], values: &mut Fresh) -> Duration {
        let (bases, phase, last) = (&self.request.bases, &self.request.phase.bytes, Words(words).f() as u32 - 1);
        timed(values, |lent| {
            condorbed::arrive(words, bases, phase, &self.haplotypes, lent, last, self.strand, &self.calls)
        })
    }

    fn depart(&self, words: &mut [i32], values: &mut Fresh) -> Duration {
        let (bases, phase, last) = (&self.request.bases, &self.request.phase.bytes, Words(words).f() as u32 - 1);
        timed(values, |lent| condorbed::depart(words, bases, phase, &self.haplotypes, lent, last))
    }

    /// Stops the program where an arrival or a departure leaves other values than those taken afresh.
    fn agreed(&self) {
        let (mut words, mut values) = (self.words.clone(), self.afresh(&self.words).0);
        let before = values.clone();
        for _ in 0..2 {
            self.arrive(&mut words, &mut values);
            assert!(words == self.request.words, "an arrival has not put the fragment back");
            assert!(values == self.afresh(&words).0, "an arrival leaves other values than those afresh");
            self.depart(&mut words, &mut values);
            assert!(values == before, "a departure leaves other values than those before");
        }
    }

    /// The times, in turn, for so long, as two lines.
    pub fn measured(&self, time: Duration) -> String {
        self.agreed();
        let (mut words, mut values, mut times) = (self.words.clone(), self.afresh(&self.words).0, Times::default());
        let start = Instant::now();
        while times.arrival.len() < TURNS || start.elapsed() < time {
            times.arrival.push(self.arrive(&mut words, &mut values));
            times.afresh.push(self.afresh(&words).1);
            times.check.push(checked(&words, &self.request.bases));
            times.departure.push(self.depart(&mut words, &mut values));
        }
        times.lines(self.calls.len())
    }
}

/// The time of an arrival or a departure, which is accepted; the values are those afterwards.
fn timed<F: FnOnce(&mut Values) -> Result<Updated, Refused>>(values: &mut Fresh, call: F) -> Duration {
    let mut lent = Values { likelihoods: &mut values.likelihoods, counts: &mut values.counts, total: values.total };
    let start = Instant::now();
    let answer = call(&mut lent);
    let time = start.elapsed();
    values.total = answer.expect("an accepted arrival or departure").total;
    time
}

fn checked(words: &[i32], bases: &[u8]) -> Duration {
    let start = Instant::now();
    condorbed::check_case(words, bases).expect("an accepted case");
    start.elapsed()
}

impl Times {
    /// Best times and medians; the shares and ratios go by the best.
    fn lines(mut self, words: usize) -> String {
        let side = |times: &mut Vec<Duration>| {
            times.sort();
            (milliseconds(times[0]), milliseconds(times[times.len() / 2]))
        };
        let (arrival, departure) = (side(&mut self.arrival), side(&mut self.departure));
        let (check, afresh) = (side(&mut self.check), side(&mut self.afresh));
        format!(
            "late, {} words of calls: arrival {:.4} ms (median {:.4}), departure {:.4} ({:.4}), afresh {:.4} ({:.4}), \
             check alone {:.4} ({:.4})\n\
             late: afresh / arrival {:.2}, afresh / departure {:.2}, check / arrival {:.0} %",
            words, arrival.0, arrival.1, departure.0, departure.1, afresh.0, afresh.1, check.0, check.1,
            afresh.0 / arrival.0, afresh.0 / departure.0, 100.0 * check.0 / arrival.0
        )
    }
}
