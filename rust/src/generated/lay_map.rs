//! Made by scripts/rust.sh from crates/lay_map/src/lib.rt, which is proved: change that.
//!
//! The source map of formatting: which tokens of the input and of the output say the same.
//!
//! [`units`] finds the units of the tokens that spell a file: each token but the punctuation that
//! the grammar allows but doesn't require, and the tokens of one documentation together. No second
//! walk over the tree is needed: a `Marker` is fed the layout of the file and matches the tokens
//! against it. [`pairs`] pairs the units of a source with those of its output. [`map_law`] says why
//! they belong together: however a file is spelled, it has equally many units, and they say the
//! same. [`found_law`] says that for each `clear` form, as that of a file is, matching against the
//! layout finds the units.
mod ahead;
mod files;
mod flags;
mod law;
mod marker;
mod marking;
pub mod spelling;
mod tokens;
mod unit;
mod walk;
pub use files::{units, units_of_text};
pub use unit::{Pair, Span, Unit, pairs};
