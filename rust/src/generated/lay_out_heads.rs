//! Made by scripts/rust.sh from crates/lay_out_heads/src/lib.rt, which is proved: change that.
//!
//! The layout of visibilities, fields, the heads of items, the items that consist of a head alone,
//! and use trees.
//!
//! Each public function emits to an [`Emit`](lay_stream::Emit) exactly the stream of the form that
//! `lay_node` gives to its node, or stops when the `Emit` fails.
//!
//! Inside the crate a function is given the result of the calls before it, as in [`lay_out_types`],
//! whose functions lay out the parts of heads. Lists and fields in braces are laid out by one loop
//! each, whatever their parts are. The layout around bodies and after visibilities is public for
//! the crates above.
pub mod calls;
mod fields;
mod functions;
mod heads;
pub mod items;
pub mod loops;
mod uses;
mod vis;
pub use fields::{put_fields, put_variant};
pub use functions::{add_self_type, put_fn_head};
pub use heads::{put_impl_head, put_trait_head, put_value_head};
pub use items::{put_alias, put_enum, put_extern_crate, put_struct, put_union};
pub use uses::put_use;
pub use vis::put_vis;
