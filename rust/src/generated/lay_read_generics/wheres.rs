//! Made by scripts/rust.sh from crates/lay_read_generics/src/wheres.rt, which is proved: change that.
//!
//! Parsing of where clauses.
use crate::generated::lay_read_generics::level::Level;
use crate::generated::lay_node::{Predicate, Ty, TypePlace, Wheres};
use crate::generated::lay_read_parts::joins::{both, refused};
use crate::generated::lay_read_parts::leads::is_at_lifetime;
use crate::generated::lay_read_parts::loops::{Opening, Part, read_open_elements};
use crate::generated::lay_read_parts::parts::{
    read_binder_if,
    read_lifetime,
    read_lifetimes,
};
use crate::generated::lay_read_tokens::found::greater;
use crate::generated::lay_read_tokens::front::{takes_keyword, takes_op};
use crate::generated::lay_read_tokens::{Ahead, Found, ReadNone};
use crate::generated::lay_read_types::type_ahead;
use crate::generated::lay_token::List;
use crate::shims::Global;
/// Predicates as the elements of a where clause.
pub struct Predicates;
impl Part<Predicate, ()> for Predicates {}
impl Level {
    /// Parses a predicate of a type.
    fn type_predicate(&self, at: &mut Ahead<'_>) -> Result<Found<Predicate>, ReadNone> {
        let binder = read_binder_if(self.alloc, at)?;
        let ty = type_ahead(self.alloc, at, TypePlace::Bounds, self.depth)?;
        if !takes_op(at, b":") {
            return refused(ty);
        }
        let (ty, bounds) = both(ty, self.met(at))?;
        Ok(
            Found {
                need: greater(ty.need, bounds.need),
                node: Predicate::Bounded { binder, ty: ty.node, bounds: bounds.node },
            },
        )
    }
    /// Parses a predicate.
    fn predicate(
        &self,
        at: &mut Ahead<'_>,
        _place: (),
    ) -> Result<Found<Predicate>, ReadNone> {
        if !is_at_lifetime(at) {
            return self.type_predicate(at);
        }
        let lifetime = read_lifetime(self.alloc, at)?;
        if !takes_op(at, b":") {
            return refused(lifetime);
        }
        let (lifetime, bounds) = both(lifetime, read_lifetimes(self.alloc, at))?;
        Ok(Found { node: Predicate::Region { lifetime, bounds }, need: 0 })
    }
    /// Parses predicates as long as one begins.
    fn predicates(
        &self,
        at: &mut Ahead<'_>,
    ) -> Result<Found<(List<Predicate>, bool)>, ReadNone> {
        read_open_elements::<
            Predicates,
            Level,
            Predicate,
            (),
            _,
        >(self.alloc, at, self.depth, Opening::Predicate, self, Level::predicate, ())
    }
    /// Parses a where clause, if one comes next. The flag says that its last predicate has a comma,
    /// or that it is a `where` without predicates.
    pub fn wheres(&self, at: &mut Ahead<'_>) -> Result<Found<(Wheres, bool)>, ReadNone> {
        if !takes_keyword(at, b"where") {
            let predicates = List::new(self.alloc);
            return Ok(Found { node: (Wheres { predicates }, false), need: 0 });
        }
        let Found { node, need } = self.predicates(at)?;
        let (predicates, last) = node;
        Ok(Found { node: (Wheres { predicates }, last), need })
    }
}
