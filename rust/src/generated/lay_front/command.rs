//! Made by scripts/rust.sh from crates/lay_front/src/command.rt, which is proved: change that.
//!
//! The command: its runs, and the status of each.
use crate::generated::lay_front::compare::is_text;
use crate::generated::lay_front::messages::tell;
use crate::generated::lay_front::samples::sum_up_sample;
use crate::generated::lay_front::stop::Stop;
use crate::generated::lay_args::{Line, line};
use crate::generated::lay_code::File;
use crate::generated::lay_files::{FileError, read_bytes, write_file};
use crate::generated::lay_io::{Inputs, ReadError, Sink, Which, read_all};
use crate::generated::lay_map_lines::write_map;
use crate::generated::lay_printer::PrintError;
use crate::generated::lay_token::{List, NoMemory, Refusal, Text};
use crate::shims::Global;
use core::mem::forget;
/// How a run of the command ended.
#[derive(Clone, Copy, Debug, PartialEq, Eq,)]
pub enum Status {
    /// The text was written completely; or the input was checked and is formatted; or its map was
    /// written completely; or the sample was summed up.
    Done,
    /// The input was checked and isn't formatted. Nothing was written.
    Differs,
    /// The words are no command line. Nothing was read.
    Usage,
    /// A read failed. Nothing was written.
    ReadFailed,
    /// The input has a syntax error. Nothing was written.
    Refused(Refusal),
    /// A write failed. A prefix of the output was written.
    WriteFailed,
    /// The input holds more than 16 MiB. Nothing was written.
    TooLong,
    /// Memory could not be allocated. A prefix of the output was written.
    NoMemory,
}
/// The greatest input of the command, in bytes.
pub const LIMIT: usize = 16_777_216;
/// Runs the command with its words, without the program's name: `[FILE]` writes the formatted text
/// of an input to `out`, `--check [FILE]` checks whether the input is formatted, `--map [FILE]`
/// writes where the parts of the input are in its formatted text, and `--sample SEED --items N`
/// makes a sample, formats it, and writes one line that sums it up. For every other outcome one
/// line is written to `err`.
///
/// The program has to end after the run: the tree of an input isn't dropped, and its memory isn't
/// freed.
pub fn run<
    I: Inputs,
    K: Sink,
    E: Sink,
>(alloc: Global, words: &[Text], inputs: &mut I, out: &mut K, err: &mut E) -> Status {
    let ended = execute(alloc, words, inputs, out);
    tell(ended, err);
    status_after(ended)
}
/// The status of a run that ended like this.
fn status_after(ended: Result<(), Stop>) -> Status {
    match ended {
        Ok(()) => Status::Done,
        Err(Stop::Usage) => Status::Usage,
        Err(Stop::ReadFailed) => Status::ReadFailed,
        Err(Stop::TooLong) => Status::TooLong,
        Err(Stop::Refused { refusal, .. }) => Status::Refused(refusal),
        Err(Stop::WriteFailed) => Status::WriteFailed,
        Err(Stop::Differs) => Status::Differs,
        Err(Stop::NoMemory) => Status::NoMemory,
    }
}
/// Does what the words ask for.
fn execute<
    I: Inputs,
    K: Sink,
>(alloc: Global, words: &[Text], inputs: &mut I, out: &mut K) -> Result<(), Stop> {
    match line(alloc, words) {
        Ok(Line::Usage) => Err(Stop::Usage),
        Ok(Line::Format(which)) => format_input(alloc, which, inputs, out),
        Ok(Line::Check(which)) => check_input(alloc, which, inputs),
        Ok(Line::Map(which)) => map_input(alloc, which, inputs, out),
        Ok(Line::Sample { seed, items }) => sum_up_sample(alloc, seed, items, out),
        Err(NoMemory) => Err(Stop::NoMemory),
    }
}
/// Writes the formatted text of an input.
fn format_input<
    I: Inputs,
    K: Sink,
>(alloc: Global, which: Which, inputs: &mut I, out: &mut K) -> Result<(), Stop> {
    let given = match read_input(alloc, which, inputs) {
        Ok(given) => given,
        Err(stop) => return Err(stop),
    };
    let written = write_file(alloc, &given.1, out);
    forget(given);
    match written {
        Ok(()) => Ok(()),
        Err(PrintError::WriteFailed) => Err(Stop::WriteFailed),
        Err(PrintError::NoMemory) => Err(Stop::NoMemory),
    }
}
/// Compares an input with its formatted text.
fn check_input<
    I: Inputs,
>(alloc: Global, which: Which, inputs: &mut I) -> Result<(), Stop> {
    let (bytes, file) = match read_input(alloc, which, inputs) {
        Ok(given) => given,
        Err(stop) => return Err(stop),
    };
    let compared = is_text(alloc, &file, bytes);
    forget(file);
    match compared {
        Ok(true) => Ok(()),
        Ok(false) => Err(Stop::Differs),
        Err(NoMemory) => Err(Stop::NoMemory),
    }
}
/// Writes the map from an input to its formatted text.
fn map_input<
    I: Inputs,
    K: Sink,
>(alloc: Global, which: Which, inputs: &mut I, out: &mut K) -> Result<(), Stop> {
    let given = match read_input(alloc, which, inputs) {
        Ok(given) => given,
        Err(stop) => return Err(stop),
    };
    let written = write_map(alloc, given.0.as_slice(), &given.1, out);
    forget(given);
    match written {
        Ok(()) => Ok(()),
        Err(PrintError::WriteFailed) => Err(Stop::WriteFailed),
        Err(PrintError::NoMemory) => Err(Stop::NoMemory),
    }
}
/// Reads an input, and parses it; gives its bytes and the file.
fn read_input<
    I: Inputs,
>(alloc: Global, which: Which, inputs: &mut I) -> Result<(List<u8>, File), Stop> {
    inputs.choose(which);
    let bytes = match read_all(alloc, inputs, LIMIT) {
        Ok(bytes) => bytes,
        Err(ReadError::ReadFailed) => return Err(Stop::ReadFailed),
        Err(ReadError::TooLong) => return Err(Stop::TooLong),
        Err(ReadError::NoMemory) => return Err(Stop::NoMemory),
    };
    match read_bytes(alloc, bytes.as_slice()) {
        Ok(file) => Ok((bytes, file)),
        Err(FileError::Refused { refusal, place }) => {
            Err(Stop::Refused { refusal, place })
        }
        Err(FileError::NoMemory) => Err(Stop::NoMemory),
    }
}
