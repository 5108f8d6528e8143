//! Made by scripts/rust.sh from crates/lay_read_pats/src/kinds.rt, which is proved: change that.
//!
//! Parsing of each kind of pattern, by its first token.
use crate::generated::lay_read_pats::binds::begins_bind;
use crate::generated::lay_read_pats::rules::PatRules;
use crate::generated::lay_read_pats::values::{
    begins_dots,
    begins_value,
    span,
    value_pat,
};
use crate::generated::lay_node::{Pat, PatPlace};
use crate::generated::lay_read_parts::joins::refused;
use crate::generated::lay_read_tokens::calls::call_ahead;
use crate::generated::lay_read_tokens::front::{
    is_at_opened,
    takes_mark,
    takes_opener,
    takes_underscore,
};
use crate::generated::lay_read_tokens::{Ahead, Found, ReadNone};
use crate::generated::lay_read_types::types::begins_call;
use crate::generated::lay_token::Delim;
use crate::shims::Global;
/// Parses a macro call as a pattern.
fn call_pat(alloc: Global, at: &mut Ahead<'_>) -> Result<Found<Pat>, ReadNone> {
    let call = call_ahead(alloc, at)?;
    Ok(Found { node: Pat::Call { call }, need: 1 })
}
/// Whether a token comes next that can't follow a pattern.
fn goes_on(at: &Ahead<'_>) -> bool {
    is_at_opened(at, Delim::Paren) || is_at_opened(at, Delim::Brace) || begins_dots(at)
}
impl<
    P: Fn(Global, &mut Ahead<'_>, PatPlace, u32) -> Result<Found<Pat>, ReadNone>,
> PatRules<P> {
    /// Parses a pattern that isn't an alternation, and that nothing goes on with.
    pub fn single_by(&self, at: &mut Ahead<'_>) -> Result<Found<Pat>, ReadNone> {
        let found = self.pat_by(at)?;
        if goes_on(at) { refused(found) } else { Ok(found) }
    }
    /// Parses a pattern by its first token.
    fn pat_by(&self, at: &mut Ahead<'_>) -> Result<Found<Pat>, ReadNone> {
        if begins_value(at) {
            value_pat(self.alloc, at, self.depth)
        } else if takes_underscore(at) {
            Ok(Found { node: Pat::Wild, need: 1 })
        } else if begins_dots(at) {
            let start = Found { node: None, need: 0 };
            span(self.alloc, at, self.depth, start)
        } else if takes_mark(at, b"&") {
            self.ref_pat(at)
        } else if takes_opener(at, Delim::Paren) {
            self.paren_pat(at)
        } else if takes_opener(at, Delim::Bracket) { self.slice_pat(at) } else {
            self.word_led(at)
        }
    }
    /// Parses a pattern that begins with a word or a path.
    fn word_led(&self, at: &mut Ahead<'_>) -> Result<Found<Pat>, ReadNone> {
        if begins_bind(at) {
            self.marked_bind(at)
        } else if begins_call(self.alloc, at)? { call_pat(self.alloc, at) } else {
            self.path_pat(at)
        }
    }
}
