//! Made by scripts/rust.sh from crates/lay_io/src/lib.rt, which is proved: change that.
//!
//! Input and output: where bytes come from, and where they go.
//!
//! [`Inputs`] and [`Sink`] are all that the other crates know of the outside. Each object counts
//! its failures. Objects in memory also show their content to contracts; [`HostInputs`] and
//! [`HostSink`], which reach the system's streams and files, don't. [`Lent`] is a sink behind a
//! mutable reference. [`read_all`] reads an input to its end.
pub mod outside;
pub mod read;
pub use outside::{Failed, Inputs, Sink, Which};
pub use read::{ReadError, read_all};
