//! Made by scripts/rust.sh from crates/lay_front/src/samples.rt, which is proved: change that.
//!
//! Samples: made, formatted, and summed up in one line.
use crate::generated::lay_front::stop::Stop;
use crate::shims::Buffer;
use crate::generated::lay_code::File;
use crate::generated::lay_files::{FileError, read_bytes, write_file};
use crate::generated::lay_io::{Failed, Sink};
use crate::generated::lay_sample::counting::{Counter, Counts};
use crate::generated::lay_sample::sample;
use crate::generated::lay_token::{NoMemory, Text};
use crate::shims::Global;
/// Makes the sample of a seed with this many items, formats it, and writes the line that sums it
/// up. The formatted text isn't kept: it is counted as it is made.
pub fn sum_up_sample<
    K: Sink,
>(alloc: Global, seed: u64, items: u32, out: &mut K) -> Result<(), Stop> {
    let bytes = match sample(alloc, seed, items) {
        Ok(bytes) => bytes,
        Err(NoMemory) => return Err(Stop::NoMemory),
    };
    let file = match read_bytes(alloc, bytes.as_bytes()) {
        Ok(file) => file,
        Err(FileError::Refused { refusal, place }) => {
            return Err(Stop::Refused { refusal, place })
        }
        Err(FileError::NoMemory) => return Err(Stop::NoMemory),
    };
    let line = match summary_of(alloc, items, bytes.as_bytes(), &file) {
        Ok(line) => line,
        Err(NoMemory) => return Err(Stop::NoMemory),
    };
    match out.write(line.as_bytes()) {
        Ok(()) => Ok(()),
        Err(Failed) => Err(Stop::WriteFailed),
    }
}
/// The line that sums up a sample of this many items and its formatted text.
fn summary_of(
    alloc: Global,
    items: u32,
    bytes: &[u8],
    file: &File,
) -> Result<Text, NoMemory> {
    let counts = count(alloc, file)?;
    let mut line = Text::new(alloc);
    add(&mut line, b"items ", u64::from(items))?;
    add(&mut line, b", bytes in ", bytes.len() as u64)?;
    add(&mut line, b", bytes out ", counts.bytes)?;
    add(&mut line, b", lines ", counts.lines)?;
    add(&mut line, b", longest ", counts.longest)?;
    line.push(b'\n')?;
    Ok(line)
}
/// Appends a piece, and a number in decimal digits.
fn add(line: &mut Text, piece: &[u8], number: u64) -> Result<(), NoMemory> {
    line.push_bytes(piece)?;
    line.push_bytes(Buffer::new().format(number).as_bytes())
}
/// The counts of a file's text.
fn count(alloc: Global, file: &File) -> Result<Counts, NoMemory> {
    let mut counter = Counter::new();
    match write_file(alloc, file, &mut counter) {
        Ok(()) => Ok(counter.counts()),
        Err(_) => Err(NoMemory),
    }
}
