//! Made by scripts/rust.sh from crates/lay_map_lines/src/lib.rt, which is proved: change that.
//!
//! The source map as lines of text.
//!
//! [`write_map`] writes a line for each unit of bytes that parse to a file: where it is in the
//! bytes, and where the unit of the formatted text is that says the same. `lay_map::units` defines
//! what a unit is, `lay_code` which bytes read to which file, and `specs/` what a line is.
mod lines;
mod mapping;
pub use mapping::write_map;
