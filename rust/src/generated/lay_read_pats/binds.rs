//! Made by scripts/rust.sh from crates/lay_read_pats/src/binds.rt, which is proved: change that.
//!
//! Parsing of bindings.
use crate::generated::lay_read_pats::rules::PatRules;
use crate::generated::lay_node::{Name, Pat, PatPlace};
use crate::generated::lay_read_parts::joins::{both, refused};
use crate::generated::lay_read_tokens::front::{is_at_keyword, takes_keyword, takes_op};
use crate::generated::lay_read_tokens::names::read_name;
use crate::generated::lay_read_tokens::{Ahead, Found, ReadNone};
use crate::shims::Global;
/// Whether a binding comes next that begins with `ref` or `mut`.
pub fn begins_bind(at: &Ahead<'_>) -> bool {
    is_at_keyword(at, b"ref") || is_at_keyword(at, b"mut")
}
/// The binding that was read, if neither `::` nor `!` follows.
fn bound(at: &Ahead<'_>, found: Found<Pat>) -> Result<Found<Pat>, ReadNone> {
    if at.op_is(b"::") || at.op_is(b"!") { refused(found) } else { Ok(found) }
}
impl<
    P: Fn(Global, &mut Ahead<'_>, PatPlace, u32) -> Result<Found<Pat>, ReadNone>,
> PatRules<P> {
    /// Parses the `@` and the pattern of a binding, if they come next.
    pub fn bind(
        &self,
        at: &mut Ahead<'_>,
        by_ref: bool,
        mutable: bool,
        name: Name,
    ) -> Result<Found<Pat>, ReadNone> {
        if takes_op(at, b"@") {
            let (name, of) = both(name, self.boxed_inner(at, PatPlace::Single))?;
            let node = Pat::Bind { by_ref, mutable, name, of: Some(of.node) };
            bound(at, Found { node, need: of.need + 1 })
        } else {
            let node = Pat::Bind { by_ref, mutable, name, of: None };
            bound(at, Found { node, need: 1 })
        }
    }
    /// Parses a binding that begins with `ref` or `mut`.
    pub fn marked_bind(&self, at: &mut Ahead<'_>) -> Result<Found<Pat>, ReadNone> {
        let by_ref = takes_keyword(at, b"ref");
        let mutable = takes_keyword(at, b"mut");
        let name = read_name(self.alloc, at)?;
        self.bind(at, by_ref, mutable, name)
    }
}
