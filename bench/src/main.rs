//! The benchmark: one round of longshot's own code, of the static library and of bench/limit.c, in turn on each case.
//!
//! bench SECONDS FILE...   each file a `run` request; so many seconds per file; the last file's ratio is the last line,
//!                         after what an arrival and a departure take there
//!
//! What is timed of the Rust is `call_genotypes_with_haplotypes` (one round, by an infinite ll_delta) on variants,
//! fragments and priors that are ready; of ours and of the limit the whole call, with the checks of all slices and the
//! making of the priors. Nothing is timed before all three have given the same answer.
//!
//! The modules are those of oracle/src/main.rs, less its own program (edition 2015: the source's paths start here).

#[macro_use]
#[path = "../../oracle/src/errors.rs"]
mod errors;
#[path = "../../oracle/src/bio.rs"]
mod bio;
#[path = "../../oracle/src/call_potential_snvs.rs"]
mod call_potential_snvs;
#[allow(dead_code)]
#[path = "../../oracle/src/case.rs"]
mod case;
#[path = "../../oracle/src/chrono.rs"]
mod chrono;
#[path = "../../oracle/src/clap.rs"]
mod clap;
#[path = "../../oracle/src/hapcut2.rs"]
mod hapcut2;
#[path = "../../oracle/src/hashbrown.rs"]
mod hashbrown;
#[path = "../../oracle/src/print_output.rs"]
mod print_output;
#[allow(dead_code)]
#[path = "../../oracle/src/protocol.rs"]
mod protocol;
#[allow(dead_code)]
#[path = "../../oracle/src/rand.rs"]
mod rand;
#[allow(dead_code)]
#[path = "../../oracle/src/rounds.rs"]
mod rounds;
#[allow(dead_code)]
#[path = "../../oracle/src/rust_htslib.rs"]
mod rust_htslib;

#[allow(warnings)]
#[path = "../../target/oracle/source/call_genotypes.rs"]
mod call_genotypes;
#[allow(warnings)]
#[path = "../../target/oracle/source/genotype_probs.rs"]
mod genotype_probs;
#[allow(warnings)]
#[path = "../../target/oracle/source/haplotype_assembly.rs"]
mod haplotype_assembly;
#[allow(warnings)]
#[path = "../../target/oracle/source/util.rs"]
mod util;
#[allow(warnings)]
#[path = "../../target/oracle/source/variants_and_fragments.rs"]
mod variants_and_fragments;

extern crate condorbed;

mod late;
mod limit;
mod request;
mod timing;

use late::Late;
use request::Request;
use std::path::Path;
use std::time::Duration;
use std::{env, fs};
use timing::{Times, TITLES};

fn read(file: &str) -> Request {
    let text = fs::read(file).expect("reading a request");
    Request::read(&text).expect("a run request")
}

/// The line of one file, and its ratio.
fn measured(file: &str, time: Duration) -> (String, f64) {
    let request = read(file);
    let work = request.agreed();
    let times = Times::measure(&request, time);
    let name = Path::new(file).file_stem().expect("a name").to_string_lossy().into_owned();
    (times.line(&name, &work), times.ratio())
}

fn main() {
    let arguments: Vec<String> = env::args().skip(1).collect();
    let seconds: f64 = arguments[0].parse().expect("a number of seconds");
    let time = Duration::from_millis((seconds * 1000.0) as u64);
    println!("{}", TITLES);
    let mut last = 0.0;
    for file in &arguments[1..] {
        let (line, ratio) = measured(file, time);
        println!("{}", line);
        last = ratio;
    }
    if let Some(file) = arguments[1..].last() {
        println!("{}", Late::new(&read(file)).measured(time));
    }
    println!("ratio {:.1}", last);
}
