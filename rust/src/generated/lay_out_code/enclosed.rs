//! Made by scripts/rust.sh from crates/lay_out_code/src/enclosed.rt, which is proved: change that.
//!
//! The layout of an expression with each part in parentheses, as the value of a constant.
use crate::generated::lay_out_code::exprs::add_expr;
use crate::generated::lay_code::Expr;
use crate::generated::lay_out_heads::calls::add_break;
use crate::generated::lay_out_pats::add_group;
use crate::generated::lay_out_tokens::HARD_BREAK;
use crate::generated::lay_out_tokens::notation::NEVER_BREAK;
use crate::generated::lay_out_types::calls::add_text;
use crate::generated::lay_out_types::lists::add_end;
use crate::generated::lay_paren_defs::Enclosed;
use crate::generated::lay_stream::Emit;
/// Emits the layout of the file of one constant, `const _: () = (..);`, whose value is an
/// expression with each part in parentheses. It allocates nothing: the tree with the parentheses is
/// never built.
pub fn put_enclosed_constant<E: Emit>(out: &mut E, expr: &Expr) -> Result<(), E::Fault> {
    let group = add_group(out, Ok(()));
    let word = add_text(out, group, b"const ");
    let name = add_text(out, word, b"_");
    let colon = add_text(out, name, b": ");
    let unit = add_text(out, colon, b"()");
    let equals = add_text(out, unit, b" = ");
    let lead = add_break(out, equals, NEVER_BREAK);
    let value = add_expr::<E, Enclosed>(out, lead, false, expr);
    let head = add_end(out, value);
    let item = add_text(out, head, b";");
    add_break(out, item, HARD_BREAK)
}
