//! In place of longshot's module of this name: no debug VCF.

use errors::Result;
use util::{DensityParameters, GenomicInterval};
use variants_and_fragments::VarList;

pub fn print_variant_debug(
    _: &mut VarList,
    _: &Option<GenomicInterval>,
    _: &Option<String>,
    _: &String,
    _: u32,
    _: &DensityParameters,
    _: &String,
) -> Result<()> {
    Ok(())
}
