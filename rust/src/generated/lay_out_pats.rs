//! Made by scripts/rust.sh from crates/lay_out_pats/src/lib.rt, which is proved: change that.
//!
//! The layout of patterns, and of what expressions, items and fields share with them: attributes on
//! lines of their own, fields in braces, and the `..` after a number.
//!
//! [`put_pat`] emits to an [`Emit`](lay_stream::Emit) exactly the stream of the form that
//! `lay_node` gives to a pattern, or stops when the `Emit` fails. A function named `add_..` is
//! given the result of the calls before it, as in [`lay_out_types`].
mod patterns;
pub use patterns::{
    add_attrs,
    add_brace,
    add_closing_brace,
    add_dots_behind,
    add_group,
    add_pat,
    is_pointed,
    put_pat,
};
