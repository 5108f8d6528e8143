//! Made by scripts/rust.sh from crates/lay_paren/src/slots.rt, which is proved: change that.
//!
//! Slots: rules that a node has for a part beside the part's place.
use crate::generated::lay_paren::leads::lead;
use crate::generated::lay_code::{Expr, Place};
use crate::generated::lay_ops::operands::ExprLead;
use crate::generated::lay_ops::{is_number, may};
/// What a node requires of a part beside the part's place. (For a value before an `else` there is a
/// function instead.)
#[derive(Clone, Copy,)]
pub(crate) enum Slot {
    /// Nothing.
    Any,
    /// The operand of a prefix operator.
    Prefixed,
    /// The operand of a `return` or of a labelled `break`, or the end of a range.
    Optional,
    /// The operand of an unlabelled `break`.
    Unlabelled,
    /// What stands directly before a tuple index.
    BeforeIndex,
}
/// Whether an expression fits its place and its slot, once its parts have their parentheses.
pub(crate) fn fits(expr: &Expr, place: Place, slot: Slot) -> bool {
    may(expr, place) && fits_slot(expr, place, slot)
}
/// Whether an expression fits its slot.
fn fits_slot(expr: &Expr, place: Place, slot: Slot) -> bool {
    match slot {
        Slot::Any => true,
        Slot::Prefixed => !is_prefix(lead(expr, place)),
        Slot::Optional => begins_free(lead(expr, place), place.no_struct),
        Slot::Unlabelled => is_unlabelled(lead(expr, place), place.no_struct),
        Slot::BeforeIndex => !is_number(expr),
    }
}
/// Whether an expression begins with a prefix operator.
fn is_prefix(lead: ExprLead) -> bool {
    matches!(lead, ExprLead::Prefix)
}
/// Whether an expression doesn't begin with a `{` where no struct literal may stand.
fn begins_free(lead: ExprLead, no_struct: bool) -> bool {
    !(no_struct && matches!(lead, ExprLead::Brace))
}
/// Whether an expression begins neither with such a `{` nor with a lifetime.
fn is_unlabelled(lead: ExprLead, no_struct: bool) -> bool {
    begins_free(lead, no_struct) && !matches!(lead, ExprLead::Label)
}
