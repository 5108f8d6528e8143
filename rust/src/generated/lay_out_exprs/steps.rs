//! Made by scripts/rust.sh from crates/lay_out_exprs/src/steps.rt, which is proved: change that.
//!
//! What is laid out around postfix steps: with several method calls, each but the first can be on a
//! line of its own.
use crate::generated::lay_out_exprs::flags::{both, either};
use crate::generated::lay_code::Step;
use crate::generated::lay_out_tokens::notation::SOFT_BREAK;
use crate::generated::lay_out_types::lists::add_end;
use crate::generated::lay_stream::Emit;
/// Whether several of the steps are method calls.
pub fn are_several_methods(steps: &[Step]) -> bool {
    let mut found = false;
    for step in steps {
        let method = is_method(step);
        if both(found, method) {
            return true;
        }
        found = either(found, method);
    }
    false
}
/// Whether a step is a method call.
pub fn is_method(step: &Step) -> bool {
    matches!(step, Step::Method { .. })
}
/// Emits what opens a postfix expression: a group, if it has several method calls.
pub fn add_steps_start<
    E: Emit,
>(out: &mut E, before: Result<(), E::Fault>, several: bool) -> Result<(), E::Fault> {
    before?;
    if several {
        return out.begin(true, 4);
    }
    Ok(())
}
/// Emits what stands before a step: a break, if there are several method calls, this is one, and it
/// isn't the first.
pub fn add_step_break<
    E: Emit,
>(
    out: &mut E,
    before: Result<(), E::Fault>,
    several: bool,
    behind: bool,
    method: bool,
) -> Result<(), E::Fault> {
    before?;
    if several && behind && method {
        return out.brk(SOFT_BREAK);
    }
    Ok(())
}
/// Emits what closes a postfix expression.
pub fn add_steps_end<
    E: Emit,
>(out: &mut E, before: Result<(), E::Fault>, several: bool) -> Result<(), E::Fault> {
    if several {
        return add_end(out, before);
    }
    before
}
