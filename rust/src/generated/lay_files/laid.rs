//! Made by scripts/rust.sh from crates/lay_files/src/laid.rt, which is proved: change that.
//!
//! The trait of what has the layout of a file: a file, or an expression as the value of a constant.
use crate::generated::lay_code::{Expr, File};
use crate::generated::lay_out_code::{put_enclosed_constant, put_file};
use crate::generated::lay_stream::Emit;
/// What has the layout of a file: a file, or an expression, which stands for the constant with each
/// of its parts in parentheses.
pub(crate) trait Laid {
    /// Emits the layout of the file.
    fn put<E: Emit>(&self, out: &mut E) -> Result<(), E::Fault>;
}
impl Laid for File {
    fn put<E: Emit>(&self, out: &mut E) -> Result<(), E::Fault> {
        put_file(out, self)
    }
}
impl Laid for Expr {
    fn put<E: Emit>(&self, out: &mut E) -> Result<(), E::Fault> {
        put_enclosed_constant(out, self)
    }
}
