//! Made by scripts/rust.sh from crates/lay_map/src/unit.rt, which is proved: change that.
//!
//! Units and pairs of units, as byte ranges.
use crate::generated::lay_text::{List, NoMemory};
use crate::shims::Global;
/// The byte range of a unit in its text: from the start of its first token to the end of its last
/// one.
#[derive(Clone, Copy, Debug, PartialEq, Eq,)]
pub struct Unit {
    pub at: usize,
    pub len: usize,
}
/// The byte range of a unit in 8 bytes, to save memory. Contracts see the `Unit`.
#[derive(Debug,)]
pub struct Span {
    at: u32,
    len: u32,
}
impl Span {
    /// Packs the unit. The error, `NoMemory`, means that it begins after 2^32 bytes or is as long.
    #[inline(always)]
    pub(crate) fn new(unit: Unit) -> Result<Span, NoMemory> {
        match (u32::try_from(unit.at), u32::try_from(unit.len)) {
            (Ok(at), Ok(len)) => Ok(Span { at, len }),
            _ => Err(NoMemory),
        }
    }
    /// The unit.
    #[inline(always)]
    pub fn unit(&self) -> Unit {
        Unit { at: self.at as usize, len: self.len as usize }
    }
}
/// A unit of the source and the unit of the output that says the same.
#[derive(Clone, Copy, Debug, PartialEq, Eq,)]
pub struct Pair {
    pub source: Unit,
    pub output: Unit,
}
/// Pairs the units of the source and of the output by their index. There are equally many of both.
pub fn pairs(
    alloc: Global,
    source: &[Unit],
    output: &[Unit],
) -> Result<List<Pair>, NoMemory> {
    let mut list = List::new(alloc);
    let mut units = source;
    let mut others = output;
    while let Some((unit, more)) = units.split_first() {
        match others.split_first() {
            Some((other, behind)) => {
                add(&mut list, *unit, *other)?;
                units = more;
                others = behind;
            }
            None => return Ok(list),
        }
    }
    Ok(list)
}
/// Unpacks the units.
pub(crate) fn units_of_spans(
    alloc: Global,
    spans: &[Span],
) -> Result<List<Unit>, NoMemory> {
    let mut list = List::new(alloc);
    let mut rest = spans;
    while let Some((span, behind)) = rest.split_first() {
        match list.push(span.unit()) {
            Ok(()) => rest = behind,
            Err(_) => return Err(NoMemory),
        }
    }
    Ok(list)
}
/// Adds a pair at the end.
fn add(list: &mut List<Pair>, source: Unit, output: Unit) -> Result<(), NoMemory> {
    match list.push(Pair { source, output }) {
        Ok(()) => Ok(()),
        Err(_) => Err(NoMemory),
    }
}
