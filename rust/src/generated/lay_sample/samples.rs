//! Made by scripts/rust.sh from crates/lay_sample/src/samples.rt, which is proved: change that.
//!
//! The lines of a sample.
use crate::generated::lay_sample::draws::Draws;
use crate::generated::lay_sample::items::Item;
use crate::shims::Buffer;
use crate::generated::lay_text::{NoMemory, Text};
use crate::shims::Global;
/// The sample of a seed: a text of this many items, each on a line of its own that ends with LF.
/// With more items it only gets more lines. Only the text is allocated; `NoMemory` if that fails.
pub fn sample(alloc: Global, seed: u64, items: u32) -> Result<Text, NoMemory> {
    let mut draws = Draws { state: seed };
    let mut text = Text::new(alloc);
    for i in 0..u64::from(items) {
        push_line(&mut text, i, draws.item())?;
    }
    Ok(text)
}
/// Appends the line of item `i`.
fn push_line(text: &mut Text, i: u64, item: Item) -> Result<(), NoMemory> {
    match item {
        Item::Struct => {
            push_number(text, b"struct S", i)?;
            text.push_bytes(b"{a:u8,b:Vec<u8>}\n")
        }
        Item::Use(module) => {
            push_number(text, b"use m", module)?;
            text.push_bytes(b"::{a,b,c};\n")
        }
        Item::Function(added) => {
            push_number(text, b"fn f", i)?;
            push_number(text, b"(x:u8)->u8{match x{0=>{g(x)}_=>x+", added)?;
            text.push_bytes(b",}}\n")
        }
        Item::Constant(last) => {
            push_number(text, b"const C", i)?;
            push_number(text, b":[u8;3]=[1,2,", last)?;
            text.push_bytes(b"];\n")
        }
    }
}
/// Appends bytes, and a number in decimal digits.
fn push_number(text: &mut Text, before: &[u8], number: u64) -> Result<(), NoMemory> {
    text.push_bytes(before)?;
    text.push_bytes(Buffer::new().format(number).as_bytes())
}
