//! Made by scripts/rust.sh from crates/lay_read_code/src/lib.rt, which is proved: change that.
//!
//! Parsing of expressions, blocks, items and files.
//!
//! [`read_file`] parses a whole file, [`read_item`] the next item, as it may be at its site,
//! [`read_expr`] the next expression, as it may be at its place, and [`read_block`], [`read_stmt`]
//! and [`read_arm`] what their names say. Each reader is proved equal to a function of the tokens
//! ahead that `lay_code` defines. That function reads exactly what the grammar spells.
//!
//! An item is read up to its body first, which needs no recursion (lay_read_begun), and then its
//! body, if it has one. What can contain itself is read by one cycle of functions (`knot`), with
//! the rules of the crates below.
//!
//! The functions of the cycle are `#[inline(never)]`: 254 levels of nesting have to fit in the
//! stack of a thread, so the frame of each is kept small (docs/DECISIONS.md, "Trees").
mod file;
mod knot;
mod reads;
pub use file::read_file;
pub use reads::{read_arm, read_block, read_expr, read_item, read_stmt};
