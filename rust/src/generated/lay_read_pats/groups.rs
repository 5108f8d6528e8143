//! Made by scripts/rust.sh from crates/lay_read_pats/src/groups.rt, which is proved: change that.
//!
//! Parsing of patterns in delimiters, and of reference patterns.
use crate::generated::lay_read_pats::facts::{is_rest, is_span};
use crate::generated::lay_read_pats::rules::PatRules;
use crate::generated::lay_node::{Pat, PatPlace};
use crate::generated::lay_read_parts::joins::{both, prepended, refused};
use crate::generated::lay_read_parts::loops::{Closer, Part, read_elements};
use crate::generated::lay_read_tokens::found::greater;
use crate::generated::lay_read_tokens::front::{takes_closer, takes_keyword, takes_mark};
use crate::generated::lay_read_tokens::stop::{boxed, keep};
use crate::generated::lay_read_tokens::{Ahead, Found, ReadNone};
use crate::generated::lay_token::{Delim, List};
use crate::shims::Global;
/// Patterns of the next deeper level as the elements of a list.
pub struct Elements;
impl Part<Pat, PatPlace> for Elements {}
/// A list of one pattern.
fn only(alloc: Global, pat: Pat) -> Result<List<Pat>, ReadNone> {
    let mut pats = List::new(alloc);
    keep(&mut pats, pat)?;
    Ok(pats)
}
/// A pattern alone in parentheses, which were read: a tuple if it is `..`, else in parentheses.
fn alone_of(
    alloc: Global,
    at: &Ahead<'_>,
    found: Found<Pat>,
) -> Result<Found<Pat>, ReadNone> {
    let need = found.need + 1;
    if is_rest(&found.node) {
        let elements = only(alloc, found.node)?;
        return Ok(Found { node: Pat::Tuple { elements }, need });
    }
    let inner = boxed(alloc, found.node)?;
    Ok(Found { node: Pat::Paren { inner }, need })
}
/// A tuple pattern of a first element and the others. After `..` alone it has no comma.
fn tuple_of(
    at: &Ahead<'_>,
    first: Found<Pat>,
    more: Found<List<Pat>>,
) -> Result<Found<Pat>, ReadNone> {
    if more.node.as_slice().is_empty() && is_rest(&first.node) {
        return refused((first, more));
    }
    let need = greater(first.need, more.need) + 1;
    let elements = prepended(first.node, more.node)?;
    Ok(Found { node: Pat::Tuple { elements }, need })
}
impl<
    P: Fn(Global, &mut Ahead<'_>, PatPlace, u32) -> Result<Found<Pat>, ReadNone>,
> PatRules<P> {
    /// Parses patterns with commas between them, and the closing delimiter.
    pub fn elements(
        &self,
        at: &mut Ahead<'_>,
        delim: Delim,
    ) -> Result<Found<List<Pat>>, ReadNone> {
        read_elements::<
            Elements,
            PatRules<P>,
            Pat,
            PatPlace,
            _,
        >(
            self.alloc,
            at,
            self.depth,
            Closer::Group(delim),
            self,
            PatRules::inner,
            PatPlace::Alternatives,
        )
    }
    /// Parses a pattern after its `&`.
    pub fn ref_pat(&self, at: &mut Ahead<'_>) -> Result<Found<Pat>, ReadNone> {
        let mutable = takes_keyword(at, b"mut");
        let found = self.inner(at, PatPlace::Single)?;
        if is_span(&found.node) {
            return refused(found);
        }
        let need = found.need + 1;
        let inner = boxed(self.alloc, found.node)?;
        Ok(Found { node: Pat::Ref { mutable, inner }, need })
    }
    /// Parses a pattern after its `[`.
    pub fn slice_pat(&self, at: &mut Ahead<'_>) -> Result<Found<Pat>, ReadNone> {
        let found = self.elements(at, Delim::Bracket)?;
        Ok(Found { node: Pat::Slice { elements: found.node }, need: found.need + 1 })
    }
    /// Parses a pattern after its `(`.
    pub fn paren_pat(&self, at: &mut Ahead<'_>) -> Result<Found<Pat>, ReadNone> {
        if takes_closer(at, Delim::Paren) {
            let elements = List::new(self.alloc);
            return Ok(Found { node: Pat::Tuple { elements }, need: 1 });
        }
        let first = self.inner(at, PatPlace::Alternatives)?;
        self.paren_by(at, first)
    }
    /// Parses a pattern after its `(` and the first pattern in it.
    fn paren_by(
        &self,
        at: &mut Ahead<'_>,
        first: Found<Pat>,
    ) -> Result<Found<Pat>, ReadNone> {
        if takes_closer(at, Delim::Paren) {
            return alone_of(self.alloc, at, first);
        }
        if !takes_mark(at, b",") {
            return refused(first);
        }
        let (first, more) = both(first, self.elements(at, Delim::Paren))?;
        tuple_of(at, first, more)
    }
}
