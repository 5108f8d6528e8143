//! Made by scripts/rust.sh from crates/lay_out_code/src/lib.rt, which is proved: change that.
//!
//! The layout of expressions, blocks, items and files, emitted to an [`Emit`](lay_stream::Emit)
//! token by token.
//!
//! [`put_file`] emits exactly the stream of the layout that `lay_code` gives to a file,
//! [`put_shebang`] that of its shebang line, and [`put_item`], [`put_block`], [`put_stmt`],
//! [`put_arm`] and [`put_expr`] the streams of the forms of their nodes; or they stop when the
//! `Emit` fails. [`put_enclosed_constant`] emits the stream of a file with one constant, whose
//! value is an expression with each part in parentheses.
//!
//! A function named `add_..` is given the result of the calls before it, as in [`lay_out_heads`].
//! Expressions contain blocks, blocks contain items, and items contain expressions, so these
//! functions call each other. `lay_out_exprs` and `lay_out_heads` lay out what stands between such
//! parts. A type parameter says whether parts get parentheses (`lay_paren_defs`), so one layout
//! serves both.
mod blocks;
mod branches;
mod calls;
mod conditions;
mod enclosed;
mod exprs;
mod files;
mod heads;
mod items;
mod macros;
mod operands;
pub use blocks::{put_block, put_stmt};
pub use branches::put_arm;
pub use enclosed::put_enclosed_constant;
pub use exprs::put_expr;
pub use files::{put_file, put_shebang};
pub use items::put_item;
