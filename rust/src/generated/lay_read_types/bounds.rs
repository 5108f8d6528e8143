//! Made by scripts/rust.sh from crates/lay_read_types/src/bounds.rt, which is proved: change that.
//!
//! Parsing of bounds, and of constraints among generic arguments.
use crate::generated::lay_read_types::rules::Rules;
use crate::generated::lay_node::{Bound, Constraint, PathStyle, Ty, TypePlace};
use crate::generated::lay_read_parts::joins::{both, prepended, refused};
use crate::generated::lay_read_parts::leads::{begins_const, is_at_lifetime};
use crate::generated::lay_read_parts::loops::{Joint, Part, read_chain};
use crate::generated::lay_read_parts::parts::{
    read_binder_if,
    read_captures,
    read_const,
    read_lifetime,
};
use crate::generated::lay_read_tokens::front::{
    takes_closer,
    takes_keyword,
    takes_mark,
    takes_op,
    takes_opener,
};
use crate::generated::lay_read_tokens::{Ahead, Found, ReadNone};
use crate::generated::lay_token::{Delim, List};
use crate::shims::Global;
/// Bounds as the parts of a chain.
pub struct Bounds;
impl Part<Bound, ()> for Bounds {}
/// Parses the arguments of `use<..>`, after the `use`.
#[inline(never)]
fn captures(alloc: Global, at: &mut Ahead<'_>) -> Result<Found<Bound>, ReadNone> {
    let captured = read_captures(alloc, at)?;
    Ok(Found { node: Bound::Captures { captured }, need: 0 })
}
impl<
    F: Fn(Global, &mut Ahead<'_>, TypePlace, u32) -> Result<Found<Ty>, ReadNone>,
    G: Fn(Global, &mut Ahead<'_>, u32) -> Result<Found<Constraint>, ReadNone>,
> Rules<F, G> {
    /// Parses a bound that is a path; `parens` says that it is in parentheses.
    fn meets(&self, at: &mut Ahead<'_>, parens: bool) -> Result<Found<Bound>, ReadNone> {
        let maybe = takes_mark(at, b"?");
        let binder = read_binder_if(self.alloc, at)?;
        let (binder, path) = both(binder, self.path(at, PathStyle::Kind))?;
        Ok(
            Found {
                need: path.need,
                node: Bound::Meets { parens, maybe, binder, path: path.node },
            },
        )
    }
    /// Parses a bound.
    fn bound(&self, at: &mut Ahead<'_>, _place: ()) -> Result<Found<Bound>, ReadNone> {
        if is_at_lifetime(at) {
            let lifetime = read_lifetime(self.alloc, at)?;
            return Ok(Found { node: Bound::Outlives { lifetime }, need: 0 });
        }
        if takes_keyword(at, b"use") {
            return captures(self.alloc, at);
        }
        if !takes_opener(at, Delim::Paren) {
            return self.meets(at, false);
        }
        let bound = self.meets(at, true)?;
        if takes_closer(at, Delim::Paren) { Ok(bound) } else { refused(bound) }
    }
    /// Parses one or more bounds.
    pub fn all_bounds(
        &self,
        at: &mut Ahead<'_>,
    ) -> Result<Found<List<Bound>>, ReadNone> {
        read_chain::<
            Bounds,
            Rules<F, G>,
            Bound,
            (),
            _,
        >(self.alloc, at, self.depth, Joint::Plus, self, Rules::bound, ())
    }
    /// Parses one or more bounds, or only one where the place allows no more.
    pub fn bounds(
        &self,
        at: &mut Ahead<'_>,
        place: TypePlace,
    ) -> Result<Found<List<Bound>>, ReadNone> {
        match place {
            TypePlace::Bounds => self.all_bounds(at),
            TypePlace::NoBounds => {
                let bound = self.bound(at, ())?;
                let node = prepended(bound.node, List::new(self.alloc))?;
                Ok(Found { node, need: bound.need })
            }
        }
    }
    /// Parses what a name is equal to, after the `=`.
    fn equal(&self, at: &mut Ahead<'_>) -> Result<Found<Constraint>, ReadNone> {
        if begins_const(at) {
            let value = read_const(self.alloc, at)?;
            return Ok(Found { node: Constraint::EqualConst { value }, need: 1 });
        }
        let ty = self.inner(at, TypePlace::Bounds)?;
        Ok(Found { need: ty.need + 1, node: Constraint::Equal { ty: ty.node } })
    }
    /// Parses the constraint of a name among generic arguments.
    pub fn constraint(&self, at: &mut Ahead<'_>) -> Result<Found<Constraint>, ReadNone> {
        if takes_op(at, b":") {
            let bounds = self.all_bounds(at)?;
            Ok(
                Found {
                    need: bounds.need + 1,
                    node: Constraint::Limit { bounds: bounds.node },
                },
            )
        } else if takes_op(at, b"=") { self.equal(at) } else { Err(ReadNone::NoReading) }
    }
}
