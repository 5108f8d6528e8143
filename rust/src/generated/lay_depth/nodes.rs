//! Made by scripts/rust.sh from crates/lay_depth/src/nodes.rt, which is proved: change that.
//!
//! The nesting depth of nodes that hold no expression.
//!
//! Each type, pattern, expression, use tree and item counts one level more than what holds it. The
//! depth of a node is the least depth limit at which some tokens spell it: that of its form, which
//! `lay_form` defines. It is counted in one walk over the node, which needs stack in proportion to
//! the depth and allocates nothing.
mod functions;
mod generics;
mod heads;
mod levels;
mod patterns;
mod types;
mod uses;
pub use functions::fn_head_depth;
pub use generics::{type_or_none_depth, wheres_depth};
pub use heads::{
    alias_depth,
    enum_depth,
    impl_head_depth,
    struct_depth,
    trait_head_depth,
    union_depth,
    value_head_depth,
};
pub use levels::deeper;
pub use patterns::pat_depth;
pub use types::{arguments_depth, path_depth, type_depth, types_depth};
pub use uses::use_depth;
