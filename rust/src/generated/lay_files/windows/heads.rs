//! Made by scripts/rust.sh from crates/lay_files/src/windows/heads.rt, which is proved: change that.
//!
//! Parsing of attributes and of the heads of modules.
use crate::generated::lay_code::{Attr, Name, Vis};
use crate::generated::lay_nest::Cursor;
use crate::generated::lay_read_heads::read_vis;
use crate::generated::lay_read_tokens::front::takes_keyword;
use crate::generated::lay_read_tokens::names::read_name;
use crate::generated::lay_read_tokens::stop::keep;
use crate::generated::lay_read_tokens::{Ahead, ReadNone, read_attr};
use crate::generated::lay_token::List;
use crate::shims::Global;
/// The head of a module: everything before its `{`.
pub struct Head {
    /// Outer attributes.
    pub attrs: List<Attr>,
    pub vis: Vis,
    pub name: Name,
}
/// Parses the head of a module, if all tokens ahead are one.
pub fn read_head(alloc: Global, at: &mut Cursor<'_>) -> Result<Head, ReadNone> {
    let mut attrs = List::new(alloc);
    add_attrs(alloc, at, false, &mut attrs)?;
    let vis = read_vis(alloc, at)?;
    let name = read_module_name(alloc, at)?;
    Ok(Head { attrs, vis, name })
}
/// Parses `mod` and a name, if the tokens ahead are these two.
fn read_module_name(alloc: Global, at: &Cursor<'_>) -> Result<Name, ReadNone> {
    let mut ahead = Ahead::new(at.fork());
    if !takes_keyword(&mut ahead, b"mod") {
        return Err(ReadNone::NoReading);
    }
    let name = read_name(alloc, &mut ahead)?;
    if ahead.is_end() { Ok(name) } else { Err(ReadNone::NoReading) }
}
/// Parses attributes and appends them, as many as there are.
pub fn add_attrs(
    alloc: Global,
    at: &mut Cursor<'_>,
    inner: bool,
    attrs: &mut List<Attr>,
) -> Result<(), ReadNone> {
    for _ in 0..usize::MAX {
        match read_attr(alloc, at, inner) {
            Ok(attr) => keep(attrs, attr)?,
            Err(ReadNone::NoReading) => return Ok(()),
            Err(ReadNone::NoMemory) => return Err(ReadNone::NoMemory),
        }
    }
    Ok(())
}
