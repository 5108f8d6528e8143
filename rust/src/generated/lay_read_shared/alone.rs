//! Made by scripts/rust.sh from crates/lay_read_shared/src/alone.rt, which is proved: change that.
//!
//! Blocks, statements and arms that stand alone: when the next tokens spell one, and the functions
//! that their readers are proved equal to.
//!
//! Inside an expression or an item it is known what follows them; alone, anything may follow.
//! [`front_law`] and [`alone_law`] say what holds of all of them.
mod laws;
