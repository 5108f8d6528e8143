//! Made by scripts/rust.sh from crates/lay_paren/src/loose_laws/laws.rt, which is proved: change that.
//!
//! The theorem about trees with each part in parentheses. (No code runs.)
