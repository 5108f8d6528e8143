//! Made by scripts/rust.sh from crates/lay_args/src/lines.rt, which is proved: change that.
//!
//! What a command line asks for.
use crate::generated::lay_io::Which;
/// What a command line asks for.
#[derive(Debug,)]
pub enum Line {
    /// The words are no command line, or ask for help.
    Usage,
    /// `[FILE]`: format this input.
    Format(Which),
    /// `--check [FILE]`: check whether this input is formatted.
    Check(Which),
    /// `--map [FILE]`: write the map from this input to its formatted text.
    Map(Which),
    /// `--sample SEED --items N`: make and format a sample of N items, drawn from SEED.
    Sample {
        /// SEED: any number of 64 bits.
        seed: u64,
        /// N, the number of items, at most 200,000.
        items: u32,
    },
}
