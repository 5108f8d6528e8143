//! Made by scripts/rust.sh from crates/lay_out_exprs/src/flags.rt, which is proved: change that.
//!
//! `&&` and `||` as functions, without short circuit.
/// Whether both flags are set.
pub fn both(first: bool, second: bool) -> bool {
    first && second
}
/// Whether one of the flags is set.
pub fn either(first: bool, second: bool) -> bool {
    first || second
}
