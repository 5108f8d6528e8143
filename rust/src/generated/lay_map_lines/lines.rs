//! Made by scripts/rust.sh from crates/lay_map_lines/src/lines.rt, which is proved: change that.
//!
//! Pairs of units as lines of text.
use crate::shims::Vec;
use crate::shims::Buffer;
use crate::generated::lay_io::{Failed, Sink};
use crate::generated::lay_map::{Span, Unit};
use crate::generated::lay_printer::PrintError;
use crate::generated::lay_token::NoMemory;
use crate::shims::Global;
/// Writes a line for each unit of the source and the unit of the output with the same index.
pub fn write_lines<
    K: Sink,
>(
    alloc: Global,
    source: &[Span],
    output: &[Span],
    out: &mut K,
) -> Result<(), PrintError> {
    let mut line = Vec::new(alloc);
    let mut units = source;
    let mut others = output;
    while let Some((unit, more)) = units.split_first() {
        match others.split_first() {
            Some((other, behind)) => {
                match write_line(&mut line, unit.unit(), other.unit(), out) {
                    Ok(()) => {}
                    Err(error) => return Err(error),
                }
                units = more;
                others = behind;
            }
            None => return Ok(()),
        }
    }
    Ok(())
}
/// Writes the line of two units. `line` is only a buffer, so that no line allocates anew; its
/// content is lost.
fn write_line<
    K: Sink,
>(
    line: &mut Vec<u8>,
    source: Unit,
    output: Unit,
    out: &mut K,
) -> Result<(), PrintError> {
    line.clear();
    match add_line(line, source, output) {
        Ok(()) => {}
        Err(NoMemory) => return Err(PrintError::NoMemory),
    }
    match out.write(line.as_slice()) {
        Ok(()) => Ok(()),
        Err(Failed) => Err(PrintError::WriteFailed),
    }
}
/// Appends the line of two units: the place of the one, and that of the other.
fn add_line(line: &mut Vec<u8>, source: Unit, output: Unit) -> Result<(), NoMemory> {
    add_unit(line, source, b' ')?;
    add_unit(line, output, b'\n')
}
/// Appends the place of a unit, as its start, `+` and its length, and then a byte.
fn add_unit(line: &mut Vec<u8>, unit: Unit, behind: u8) -> Result<(), NoMemory> {
    add_number(line, unit.at, b'+')?;
    add_number(line, unit.len, behind)
}
/// Appends a number in decimal digits, and then a byte.
fn add_number(line: &mut Vec<u8>, number: usize, behind: u8) -> Result<(), NoMemory> {
    line.extend_from_slice(Buffer::new().format(number).as_bytes())?;
    line.push(behind)?;
    Ok(())
}
