//! Made by scripts/rust.sh from crates/lay_out_exprs/src/generics.rt, which is proved: change that.
//!
//! The layout of the generic arguments of a method call.
use crate::generated::lay_code::Arg;
use crate::generated::lay_out_types::add_angles;
use crate::generated::lay_out_types::calls::add_text;
use crate::generated::lay_stream::Emit;
use crate::generated::lay_text::List;
/// Emits `::` and the generic arguments of a method, if it has some.
pub fn add_generics<
    E: Emit,
>(
    out: &mut E,
    before: Result<(), E::Fault>,
    generics: &Option<List<Arg>>,
) -> Result<(), E::Fault> {
    match generics {
        None => before,
        Some(args) => {
            let colons = add_text(out, before, b"::");
            add_angles(out, colons, args.as_slice())
        }
    }
}
