//! Made by scripts/rust.sh from crates/lay_read_exprs/src/prefixes.rt, which is proved: change that.
//!
//! Parsing of prefix operators.
use crate::generated::lay_read_exprs::climber::Climber;
use crate::generated::lay_code::{Boxed, Expr, Place, Prefix};
use crate::generated::lay_ops::ahead::prefix;
use crate::generated::lay_ops::operators::prefix_length;
use crate::generated::lay_ops::places::plain;
use crate::generated::lay_read_operators::operands::pass_tokens;
use crate::generated::lay_read_parts::joins::both;
use crate::generated::lay_read_shared::boxes::boxed_found;
use crate::generated::lay_read_tokens::stop::keep;
use crate::generated::lay_read_tokens::{Ahead, Found, ReadNone};
use crate::generated::lay_token::List;
use crate::shims::Global;
/// Parses prefix operators, as long as one comes next.
fn read_prefixes(alloc: Global, at: &mut Ahead<'_>) -> Result<List<Prefix>, ReadNone> {
    let mut prefixes = List::new(alloc);
    while let Some(one) = prefix(at) {
        pass_tokens(at, prefix_length(one));
        keep(&mut prefixes, one)?;
    }
    Ok(prefixes)
}
impl<
    P: Fn(Global, &mut Ahead<'_>, Place, u32) -> Result<Found<Boxed<Expr>>, ReadNone>,
    H,
> Climber<P, H> {
    /// Parses prefix operators and their operand.
    #[inline(never)]
    pub fn unary_expr(
        &self,
        at: &mut Ahead<'_>,
        no_struct: bool,
    ) -> Result<Found<Boxed<Expr>>, ReadNone> {
        let prefixes = read_prefixes(self.rules.alloc, at)?;
        let (prefixes, found) = both(
            prefixes,
            self.rules.inner(at, plain(12, no_struct)),
        )?;
        boxed_found(
            self.rules.alloc,
            Expr::Unary { prefixes, operand: found.node },
            found.need + 1,
        )
    }
}
