//! Made by scripts/rust.sh from crates/lay_map_lines/src/mapping.rt, which is proved: change that.
//!
//! From bytes that parse to a file to the map of its formatted text.
use crate::generated::lay_map_lines::lines::write_lines;
use crate::generated::lay_code::File;
use crate::generated::lay_files::text_of;
use crate::generated::lay_io::Sink;
use crate::generated::lay_lex::normalise;
use crate::generated::lay_map::{Span, units_of_text};
use crate::generated::lay_printer::PrintError;
use crate::generated::lay_token::{List, NoMemory};
use crate::shims::Global;
/// Writes a line for each unit of bytes that parse to the file: where it is in the text that is
/// lexed, which has no byte order mark and one LF for each CR LF, and where the unit of the
/// formatted text is that says the same.
pub fn write_map<
    K: Sink,
>(alloc: Global, bytes: &[u8], file: &File, out: &mut K) -> Result<(), PrintError> {
    let source = match units_in(alloc, bytes, file) {
        Ok(units) => units,
        Err(NoMemory) => return Err(PrintError::NoMemory),
    };
    let output = match units_of_output(alloc, file) {
        Ok(units) => units,
        Err(NoMemory) => return Err(PrintError::NoMemory),
    };
    write_lines(alloc, source.as_slice(), output.as_slice(), out)
}
/// The units of the text of a file, which parses to it.
fn units_of_output(alloc: Global, file: &File) -> Result<List<Span>, NoMemory> {
    let text = text_of(alloc, file)?;
    units_in(alloc, text.as_bytes(), file)
}
/// The units of bytes that parse to a file. Since no step of parsing them is refused, an error
/// means that memory is out.
fn units_in(alloc: Global, bytes: &[u8], file: &File) -> Result<List<Span>, NoMemory> {
    let source = match normalise(alloc, bytes) {
        Ok(source) => source,
        _ => {
            return Err(NoMemory);
        }
    };
    units_of_text(alloc, file, source.as_str(), source.start)
}
