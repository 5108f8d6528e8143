//! Made by scripts/rust.sh from crates/lay_out_code/src/files.rt, which is proved: change that.
//!
//! The layout of files.
use crate::generated::lay_out_code::items::put_item;
use crate::generated::lay_code::{File, Item};
use crate::generated::lay_out_pats::add_attrs;
use crate::generated::lay_out_tokens::HARD_BREAK;
use crate::generated::lay_stream::Emit;
use crate::generated::lay_text::Text;
/// Emits the layout of a file: its first line, if it is a shebang, its attributes and its items,
/// each with a newline after it.
pub fn put_file<E: Emit>(out: &mut E, file: &File) -> Result<(), E::Fault> {
    put_shebang(out, &file.shebang)?;
    add_attrs(out, Ok(()), file.attrs.as_slice())?;
    put_items(out, file.items.as_slice())
}
/// Emits the layout of the first line of a file, if it is a shebang: the line, with a newline after
/// it.
pub fn put_shebang<
    E: Emit,
>(out: &mut E, shebang: &Option<Text>) -> Result<(), E::Fault> {
    match shebang {
        None => Ok(()),
        Some(line) => put_line(out, line.as_bytes()),
    }
}
/// Emits a text, with a newline after it.
fn put_line<E: Emit>(out: &mut E, line: &[u8]) -> Result<(), E::Fault> {
    out.text(line)?;
    out.brk(HARD_BREAK)
}
/// Emits items, each with a newline after it.
fn put_items<E: Emit>(out: &mut E, items: &[Item]) -> Result<(), E::Fault> {
    for item in items {
        put_item(out, item)?;
        out.brk(HARD_BREAK)?;
    }
    Ok(())
}
