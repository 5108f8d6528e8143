//! Made by scripts/rust.sh from crates/lay_sample/src/items.rt, which is proved: change that.
//!
//! The items of a sample.
/// What is drawn for an item. The line of each item but a `Use` also holds its index in the sample,
/// from 0.
#[derive(Clone, Copy, Debug,)]
pub enum Item {
    /// `struct S0{a:u8,b:Vec<u8>}`.
    Struct,
    /// `use m17::{a,b,c};`, with the number of the module.
    Use(u64),
    /// `fn f2(x:u8)->u8{match x{0=>{g(x)}_=>x+17,}}`, with the number that is added.
    Function(u64),
    /// `const C3:[u8;3]=[1,2,17];`, with the last number.
    Constant(u64),
}
