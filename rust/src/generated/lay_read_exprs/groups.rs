//! Made by scripts/rust.sh from crates/lay_read_exprs/src/groups.rt, which is proved: change that.
//!
//! Parsing of expressions in delimiters.
use crate::generated::lay_read_exprs::climber::Climber;
use crate::generated::lay_code::{Boxed, Expr, Place};
use crate::generated::lay_ops::places::FREE;
use crate::generated::lay_read_parts::joins::{both, prepended, refused};
use crate::generated::lay_read_shared::boxes::{boxed_found, unboxed};
use crate::generated::lay_read_tokens::found::greater;
use crate::generated::lay_read_tokens::front::{takes_closer, takes_mark};
use crate::generated::lay_read_tokens::tokens::read_tokens;
use crate::generated::lay_read_tokens::{Ahead, Found, ReadNone};
use crate::generated::lay_token::{Delim, List};
use crate::shims::Global;
/// Parses the rest of an array `[a; n]` after its `;`.
fn repeat_by(
    alloc: Global,
    at: &mut Ahead<'_>,
    element: Found<Boxed<Expr>>,
) -> Result<Found<Boxed<Expr>>, ReadNone> {
    let (element, length) = both(element, read_tokens(alloc, at))?;
    if !takes_closer(at, Delim::Bracket) || length.as_slice().is_empty() {
        return refused((element, length));
    }
    boxed_found(alloc, Expr::Repeat { element: element.node, length }, element.need + 1)
}
impl<
    P: Fn(Global, &mut Ahead<'_>, Place, u32) -> Result<Found<Boxed<Expr>>, ReadNone>,
    H,
> Climber<P, H> {
    /// Parses an expression after its `(`.
    #[inline(never)]
    pub fn paren_expr(
        &self,
        at: &mut Ahead<'_>,
    ) -> Result<Found<Boxed<Expr>>, ReadNone> {
        if takes_closer(at, Delim::Paren) {
            return boxed_found(
                self.rules.alloc,
                Expr::Tuple { elements: List::new(self.rules.alloc) },
                1,
            );
        }
        let first = self.rules.inner(at, FREE)?;
        self.paren_by(at, first)
    }
    /// Parses an expression after its `(` and the first expression in it.
    #[inline(never)]
    fn paren_by(
        &self,
        at: &mut Ahead<'_>,
        first: Found<Boxed<Expr>>,
    ) -> Result<Found<Boxed<Expr>>, ReadNone> {
        if takes_closer(at, Delim::Paren) {
            return boxed_found(
                self.rules.alloc,
                Expr::Paren { inner: first.node },
                first.need + 1,
            );
        }
        if !takes_mark(at, b",") {
            return refused(first);
        }
        let (first, more) = both(first, self.rules.boxed_elements(at, Delim::Paren))?;
        let elements = unboxed(self.rules.alloc, prepended(first.node, more.node)?)?;
        boxed_found(
            self.rules.alloc,
            Expr::Tuple { elements },
            greater(first.need, more.need) + 1,
        )
    }
    /// Parses an array after its `[`.
    #[inline(never)]
    pub fn bracket_expr(
        &self,
        at: &mut Ahead<'_>,
    ) -> Result<Found<Boxed<Expr>>, ReadNone> {
        if takes_closer(at, Delim::Bracket) {
            return boxed_found(
                self.rules.alloc,
                Expr::Array { elements: List::new(self.rules.alloc) },
                1,
            );
        }
        let first = self.rules.inner(at, FREE)?;
        if takes_mark(at, b";") { repeat_by(self.rules.alloc, at, first) } else {
            self.array_by(at, first)
        }
    }
    /// Parses an array after its `[` and the first element, if no `;` follows.
    #[inline(never)]
    fn array_by(
        &self,
        at: &mut Ahead<'_>,
        first: Found<Boxed<Expr>>,
    ) -> Result<Found<Boxed<Expr>>, ReadNone> {
        if takes_closer(at, Delim::Bracket) {
            let elements = unboxed(
                self.rules.alloc,
                prepended(first.node, List::new(self.rules.alloc))?,
            )?;
            return boxed_found(
                self.rules.alloc,
                Expr::Array { elements },
                first.need + 1,
            );
        }
        if !takes_mark(at, b",") {
            return refused(first);
        }
        let (first, more) = both(first, self.rules.boxed_elements(at, Delim::Bracket))?;
        let elements = unboxed(self.rules.alloc, prepended(first.node, more.node)?)?;
        boxed_found(
            self.rules.alloc,
            Expr::Array { elements },
            greater(first.need, more.need) + 1,
        )
    }
}
