//! Made by scripts/rust.sh from crates/lay_out_types/src/lib.rt, which is proved: change that.
//!
//! The layout of types, paths, generic arguments, bounds, generic parameters and where clauses.
//!
//! A function named `put_..` emits to an [`Emit`](lay_stream::Emit) exactly the stream of the form
//! that `lay_node` gives to its node, or stops when the `Emit` fails.
//!
//! A function named `add_..` is given the result of the calls before it, and gives the result of
//! all of them: after an error it emits nothing, and passes the error on. So the body of a function
//! is the sequence of its parts, and no part returns early. The crates above lay out their nodes
//! with these functions.
pub mod calls;
mod generics;
pub mod lists;
pub mod parts;
mod types;
mod wheres;
pub use generics::{add_asked, add_default, put_generics};
pub use types::{
    add_angles,
    add_path,
    add_type,
    put_args,
    put_bounds,
    put_path,
    put_type,
};
pub use wheres::put_wheres;
