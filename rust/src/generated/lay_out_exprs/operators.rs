//! Made by scripts/rust.sh from crates/lay_out_exprs/src/operators.rt, which is proved: change that.
//!
//! The layout of operators, casts and labels.
use crate::generated::lay_code::{Lifetime, Op, Prefix, Ty};
use crate::generated::lay_out_tokens::notation::{NEVER_BREAK, SPACE_BREAK};
use crate::generated::lay_out_types::add_type;
use crate::generated::lay_out_types::calls::add_text;
use crate::generated::lay_stream::Emit;
/// Emits what stands between two operands: a break, the operator and a blank.
pub fn add_operator<
    E: Emit,
>(out: &mut E, before: Result<(), E::Fault>, op: Op) -> Result<(), E::Fault> {
    before?;
    out.brk(SPACE_BREAK)?;
    out.text(op.text())?;
    out.text(b" ")
}
/// Emits what stands between the target of an assignment and its value: the operator between
/// blanks, and a break that is never a newline, at which the measured width ends.
pub fn add_assignment<
    E: Emit,
>(out: &mut E, before: Result<(), E::Fault>, op: Op) -> Result<(), E::Fault> {
    before?;
    out.text(b" ")?;
    out.text(op.text())?;
    out.text(b" ")?;
    out.brk(NEVER_BREAK)
}
/// Emits prefix operators.
pub fn add_prefixes<
    E: Emit,
>(
    out: &mut E,
    before: Result<(), E::Fault>,
    prefixes: &[Prefix],
) -> Result<(), E::Fault> {
    let mut done = before;
    for prefix in prefixes {
        done = add_text(out, done, prefix_text(*prefix));
    }
    done
}
/// The text of a prefix operator, with a blank after its last word.
fn prefix_text(prefix: Prefix) -> &'static [u8] {
    match prefix {
        Prefix::Neg => b"-",
        Prefix::Deref => b"*",
        Prefix::Bang => b"!",
        Prefix::Amp => b"&",
        Prefix::AmpMut => b"&mut ",
        Prefix::RawConst => b"&raw const ",
        Prefix::RawMut => b"&raw mut ",
    }
}
/// Emits the types of a cast, each with an `as` before it.
pub fn add_casts<
    E: Emit,
>(out: &mut E, before: Result<(), E::Fault>, types: &[Ty]) -> Result<(), E::Fault> {
    let mut done = before;
    for ty in types {
        done = add_text(out, done, b" as ");
        done = add_type(out, done, ty);
    }
    done
}
/// Emits a label after `continue` or `break`, if there is one.
pub fn add_label<
    E: Emit,
>(
    out: &mut E,
    before: Result<(), E::Fault>,
    label: &Option<Lifetime>,
) -> Result<(), E::Fault> {
    match label {
        None => before,
        Some(label) => {
            let blank = add_text(out, before, b" ");
            add_text(out, blank, label.text.as_bytes())
        }
    }
}
