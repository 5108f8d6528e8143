//! Made by scripts/rust.sh from crates/lay_read_pats/src/rules.rt, which is proved: change that.
//!
//! The rules of one level, over the reader of the next deeper level.
use crate::generated::lay_node::{Boxed, Pat, PatPlace};
use crate::generated::lay_read_tokens::stop::boxed;
use crate::generated::lay_read_tokens::{Ahead, Found, ReadNone};
use crate::shims::Global;
/// The rules of one level, over the reader of patterns of the next deeper level.
pub struct PatRules<P> {
    pub alloc: Global,
    /// The depth limit of the next deeper level.
    pub depth: u32,
    pub pats: P,
}
impl<
    P: Fn(Global, &mut Ahead<'_>, PatPlace, u32) -> Result<Found<Pat>, ReadNone>,
> PatRules<P> {
    /// Parses a pattern of the next deeper level.
    pub fn inner(
        &self,
        at: &mut Ahead<'_>,
        place: PatPlace,
    ) -> Result<Found<Pat>, ReadNone> {
        (self.pats)(self.alloc, at, place, self.depth)
    }
    /// Parses a pattern of the next deeper level, and boxes it.
    pub fn boxed_inner(
        &self,
        at: &mut Ahead<'_>,
        place: PatPlace,
    ) -> Result<Found<Boxed<Pat>>, ReadNone> {
        let found = self.inner(at, place)?;
        let node = boxed(self.alloc, found.node)?;
        Ok(Found { node, need: found.need })
    }
}
