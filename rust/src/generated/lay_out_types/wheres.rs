//! Made by scripts/rust.sh from crates/lay_out_types/src/wheres.rt, which is proved: change that.
//!
//! The layout of where clauses.
use crate::generated::lay_out_types::calls::add_text;
use crate::generated::lay_out_types::generics::add_asked;
use crate::generated::lay_out_types::lists::{add_predicates_close, add_predicates_lead};
use crate::generated::lay_out_types::parts::{add_binder, add_outlived};
use crate::generated::lay_out_types::types::add_type;
use crate::generated::lay_node::{Predicate, Wheres};
use crate::generated::lay_stream::Emit;
/// Emits the layout of a where clause, before a body or before a `;`: nothing if it has no
/// predicates.
pub fn put_wheres<
    E: Emit,
>(out: &mut E, wheres: &Wheres, body: bool) -> Result<(), E::Fault> {
    let predicates = wheres.predicates.as_slice();
    let mut done = Ok(());
    for (index, predicate) in predicates.iter().enumerate() {
        done = add_predicates_lead(out, done, index == 0);
        done = add_predicate(out, done, predicate);
    }
    add_predicates_close(out, done, body, predicates.is_empty())
}
/// Emits a predicate of a where clause. Without bounds the `:` stands alone.
fn add_predicate<
    E: Emit,
>(
    out: &mut E,
    before: Result<(), E::Fault>,
    predicate: &Predicate,
) -> Result<(), E::Fault> {
    match predicate {
        Predicate::Region { lifetime, bounds } => {
            let bounds = bounds.as_slice();
            let lifetime = add_text(out, before, lifetime.text.as_bytes());
            if bounds.is_empty() {
                return add_text(out, lifetime, b":");
            }
            add_outlived(out, lifetime, bounds)
        }
        Predicate::Bounded { binder, ty, bounds } => {
            let bounds = bounds.as_slice();
            let binder = add_binder(out, before, binder);
            let ty = add_type(out, binder, ty);
            if bounds.is_empty() {
                return add_text(out, ty, b":");
            }
            add_asked(out, ty, bounds)
        }
    }
}
