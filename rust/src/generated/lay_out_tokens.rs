//! Made by scripts/rust.sh from crates/lay_out_tokens/src/lib.rt, which is proved: change that.
//!
//! The layout of token lists, and of the attributes and macro calls that hold them.
//!
//! Each function emits to an [`Emit`](lay_stream::Emit) exactly the stream of the form that
//! `lay_node` gives to its node, or stops when the `Emit` fails. A token list is walked as the flat
//! list that it is, however deep its groups nest: what stands before a group doesn't matter after
//! it, so no stack of open groups is kept.
mod attributes;
mod calls;
mod neighbours;
pub mod notation;
mod separation;
mod simple_paths;
mod tokens;
mod told;
mod words;
pub use attributes::{put_attr, put_bare_attr};
pub use calls::put_call;
pub use notation::HARD_BREAK;
pub use simple_paths::{put_global, put_simple_path};
pub use tokens::{put_enclosed, put_group, put_tokens};
pub use words::{put_either, put_token, put_word};
