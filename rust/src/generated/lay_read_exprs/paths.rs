//! Made by scripts/rust.sh from crates/lay_read_exprs/src/paths.rt, which is proved: change that.
//!
//! Parsing of operands that begin with a path.
use crate::generated::lay_read_exprs::climber::Climber;
use crate::generated::lay_code::{Boxed, Expr, PathStyle, Place};
use crate::generated::lay_read_parts::joins::refused;
use crate::generated::lay_read_shared::boxes::boxed_found;
use crate::generated::lay_read_tokens::calls::call_ahead;
use crate::generated::lay_read_tokens::front::{is_at_opened, pass};
use crate::generated::lay_read_tokens::{Ahead, Found, ReadNone};
use crate::generated::lay_read_types::path_ahead;
use crate::generated::lay_read_types::types::begins_call;
use crate::generated::lay_token::Delim;
use crate::shims::Global;
/// Parses a macro call that is an expression.
fn call_expr(alloc: Global, at: &mut Ahead<'_>) -> Result<Found<Boxed<Expr>>, ReadNone> {
    let call = call_ahead(alloc, at)?;
    boxed_found(alloc, Expr::Call { call }, 1)
}
impl<
    P: Fn(Global, &mut Ahead<'_>, Place, u32) -> Result<Found<Boxed<Expr>>, ReadNone>,
    H,
> Climber<P, H> {
    /// Parses a macro call, or an operand that begins with a path.
    #[inline(never)]
    pub fn path_or_call(
        &self,
        at: &mut Ahead<'_>,
        no_struct: bool,
    ) -> Result<Found<Boxed<Expr>>, ReadNone> {
        if begins_call(self.rules.alloc, at)? { call_expr(self.rules.alloc, at) } else {
            self.path_expr(at, no_struct)
        }
    }
    /// Parses a path or a struct literal.
    #[inline(never)]
    fn path_expr(
        &self,
        at: &mut Ahead<'_>,
        no_struct: bool,
    ) -> Result<Found<Boxed<Expr>>, ReadNone> {
        let path = path_ahead(self.rules.alloc, at, PathStyle::Code, self.rules.depth)?;
        if !no_struct && is_at_opened(at, Delim::Brace) {
            pass(at);
            self.struct_expr(at, path)
        } else if at.op_is(b"!") { refused(path) } else {
            boxed_found(self.rules.alloc, Expr::Path { path: path.node }, path.need + 1)
        }
    }
}
