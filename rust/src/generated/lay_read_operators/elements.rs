//! Made by scripts/rust.sh from crates/lay_read_operators/src/elements.rt, which is proved: change that.
//!
//! Parsing of expressions with commas between them, in delimiters.
use crate::generated::lay_read_operators::rules::ExprRules;
use crate::generated::lay_code::{Boxed, Expr, Place};
use crate::generated::lay_ops::places::FREE;
use crate::generated::lay_read_parts::loops::{Closer, Part, read_elements};
use crate::generated::lay_read_shared::boxes::unboxed;
use crate::generated::lay_read_tokens::{Ahead, Found, ReadNone};
use crate::generated::lay_token::{Delim, List};
use crate::shims::Global;
/// Expressions of the next deeper level as the elements of a list.
pub struct Elements;
impl Part<Boxed<Expr>, Place> for Elements {}
impl<
    P: Fn(Global, &mut Ahead<'_>, Place, u32) -> Result<Found<Boxed<Expr>>, ReadNone>,
> ExprRules<P> {
    /// Parses expressions with commas between them, and the closing delimiter. Each is boxed.
    #[inline(never)]
    pub fn boxed_elements(
        &self,
        at: &mut Ahead<'_>,
        delim: Delim,
    ) -> Result<Found<List<Boxed<Expr>>>, ReadNone> {
        read_elements::<
            Elements,
            ExprRules<P>,
            Boxed<Expr>,
            Place,
            _,
        >(self.alloc, at, self.depth, Closer::Group(delim), self, ExprRules::inner, FREE)
    }
    /// Parses expressions with commas between them, and the closing delimiter.
    #[inline(never)]
    pub fn free_elements(
        &self,
        at: &mut Ahead<'_>,
        delim: Delim,
    ) -> Result<Found<List<Expr>>, ReadNone> {
        let found = self.boxed_elements(at, delim)?;
        let node = unboxed(self.alloc, found.node)?;
        Ok(Found { node, need: found.need })
    }
}
