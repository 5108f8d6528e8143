//! Made by scripts/rust.sh from crates/lay_read_operators/src/casts.rt, which is proved: change that.
//!
//! Parsing of casts.
use crate::generated::lay_read_operators::rules::ExprRules;
use crate::generated::lay_code::{Boxed, Expr, Place, Ty, TypePlace};
use crate::generated::lay_read_parts::joins::both;
use crate::generated::lay_read_parts::loops::Part;
use crate::generated::lay_read_shared::boxes::boxed_found;
use crate::generated::lay_read_shared::loops::{Going, read_parts};
use crate::generated::lay_read_tokens::found::greater;
use crate::generated::lay_read_tokens::front::takes_keyword;
use crate::generated::lay_read_tokens::{Ahead, Found, ReadNone};
use crate::generated::lay_read_types::type_ahead;
use crate::generated::lay_token::List;
use crate::shims::Global;
/// Types after `as` as consecutive parts.
pub struct Types;
impl Part<Ty, ()> for Types {}
impl<
    P: Fn(Global, &mut Ahead<'_>, Place, u32) -> Result<Found<Boxed<Expr>>, ReadNone>,
> ExprRules<P> {
    /// Parses a type after its `as`.
    #[inline(never)]
    fn one_type(&self, at: &mut Ahead<'_>, _place: ()) -> Result<Found<Ty>, ReadNone> {
        if takes_keyword(at, b"as") {
            type_ahead(self.alloc, at, TypePlace::NoBounds, self.depth)
        } else { Err(ReadNone::NoReading) }
    }
    /// Parses the casts after an expression, and gives the whole.
    #[inline(never)]
    pub fn cast_expr(
        &self,
        at: &mut Ahead<'_>,
        lhs: Found<Boxed<Expr>>,
    ) -> Result<Found<Boxed<Expr>>, ReadNone> {
        let (lhs, found) = both(
            lhs,
            read_parts::<
                Types,
                ExprRules<P>,
                Ty,
                (),
                _,
            >(self.alloc, at, self.depth, Going::Types, self, ExprRules::one_type, ()),
        )?;
        boxed_found(
            self.alloc,
            Expr::Cast { operand: lhs.node, types: found.node },
            greater(lhs.need, found.need) + 1,
        )
    }
}
