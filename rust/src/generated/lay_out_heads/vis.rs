//! Made by scripts/rust.sh from crates/lay_out_heads/src/vis.rt, which is proved: change that.
//!
//! The layout of visibilities.
use crate::generated::lay_out_heads::calls::add_simple_path;
use crate::generated::lay_node::Vis;
use crate::generated::lay_out_types::calls::add_text;
use crate::generated::lay_stream::Emit;
/// Emits the layout of a visibility, with a blank after it; nothing if none is written.
pub fn put_vis<E: Emit>(out: &mut E, vis: &Vis) -> Result<(), E::Fault> {
    add_vis(out, Ok(()), vis)
}
/// Emits a visibility.
pub fn add_vis<
    E: Emit,
>(out: &mut E, before: Result<(), E::Fault>, vis: &Vis) -> Result<(), E::Fault> {
    match vis {
        Vis::Inherited => before,
        Vis::Public => add_text(out, before, b"pub "),
        Vis::Crate => add_text(out, before, b"pub(crate) "),
        Vis::Own => add_text(out, before, b"pub(self) "),
        Vis::Super => add_text(out, before, b"pub(super) "),
        Vis::In(path) => {
            let word = add_text(out, before, b"pub(in ");
            let path = add_simple_path(out, word, path);
            add_text(out, path, b") ")
        }
    }
}
