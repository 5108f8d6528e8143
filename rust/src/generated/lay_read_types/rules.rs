//! Made by scripts/rust.sh from crates/lay_read_types/src/rules.rt, which is proved: change that.
//!
//! What the rules share: the readers of the next deeper level.
use crate::generated::lay_node::{Constraint, Ty, TypePlace};
use crate::generated::lay_read_tokens::{Ahead, Found, ReadNone};
use crate::shims::Global;
/// The rules of one level, over the readers of the next deeper level: of types at a place, and of
/// constraints.
pub struct Rules<F, G> {
    pub alloc: Global,
    /// The depth limit of the next deeper level.
    pub depth: u32,
    pub types: F,
    pub constraints: G,
}
impl<
    F: Fn(Global, &mut Ahead<'_>, TypePlace, u32) -> Result<Found<Ty>, ReadNone>,
    G: Fn(Global, &mut Ahead<'_>, u32) -> Result<Found<Constraint>, ReadNone>,
> Rules<F, G> {
    /// Parses a type of the next deeper level.
    pub fn inner(
        &self,
        at: &mut Ahead<'_>,
        place: TypePlace,
    ) -> Result<Found<Ty>, ReadNone> {
        (self.types)(self.alloc, at, place, self.depth)
    }
    /// Parses a constraint of the next deeper level.
    pub fn asked(&self, at: &mut Ahead<'_>) -> Result<Found<Constraint>, ReadNone> {
        (self.constraints)(self.alloc, at, self.depth)
    }
}
