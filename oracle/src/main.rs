//! The oracle: longshot's own files, compiled where they lie and unchanged, with stand-ins for what they lean on,
//! behind the request stream. It takes accepted requests of the operations that the source has; `oracle/compare` holds
//! the program against it.
//!
//! oracle < REQUESTS               runs by the lent orders
//! oracle --reference < REQUESTS   runs by document 01's own orders from seed 0
//!
//! The first group of modules stands in for the source's dependencies (edition 2015: its paths start at this root), the
//! second is the source, through the link that oracle/build makes, and the third asks it.

#[macro_use]
mod errors;
mod bio;
mod call_potential_snvs;
mod chrono;
mod clap;
mod hapcut2;
mod hashbrown;
mod print_output;
mod rand;
#[allow(dead_code)]
mod rust_htslib;

#[allow(warnings)]
#[path = "../../target/oracle/source/call_genotypes.rs"]
mod call_genotypes;
#[allow(warnings)]
#[path = "../../target/oracle/source/genotype_probs.rs"]
mod genotype_probs;
#[allow(warnings)]
#[path = "../../target/oracle/source/haplotype_assembly.rs"]
mod haplotype_assembly;
#[allow(warnings)]
#[path = "../../target/oracle/source/util.rs"]
mod util;
#[allow(warnings)]
#[path = "../../target/oracle/source/variants_and_fragments.rs"]
mod variants_and_fragments;

mod case;
mod protocol;
mod requests;
mod rounds;

use requests::Mode;
use std::env;
use std::io::{self, BufWriter, Read, Write};

fn answers(input: &[u8], mode: Mode) -> io::Result<()> {
    let mut out = BufWriter::new(io::stdout());
    let mut tokens = protocol::Tokens::new(input);
    while let Some(word) = tokens.next() {
        match requests::answer(word, &mut tokens, mode) {
            Some(answer) => answer.write(&mut out)?,
            None => {
                writeln!(out, "unreadable")?;
                break;
            }
        }
    }
    out.flush()
}

fn main() {
    let options: Vec<String> = env::args().skip(1).collect();
    let mode = match options.first().map(|option| option.as_str()) {
        None => Mode::Lent,
        Some("--reference") => Mode::Reference,
        Some(option) => panic!("no option {}", option),
    };
    let mut input = vec![];
    io::stdin().read_to_end(&mut input).and_then(|_| answers(&input, mode)).expect("reading and writing");
}
