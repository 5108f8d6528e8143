//! What stands where memory is wanting. Each test prints one line: the answer, and how many bytes were written, which it has compared with
//! the text. `scripts/refuse_memory.py` runs it once for each allocation that it makes, with that one refused.

use crate::runs::{given, status};
use crate::texts::{GENERATED, LAID, seen};
use lay_files::{DEPTH, FileError};
use lay_front::Status;
use lay_io::{QuietInputs, QuietSink};
use lay_token::List;
use std::alloc::Global;
use std::io::Print;
use std::process::Abort;
use std::test::Fail;

/// Prints the answer of a call that wrote a front of a text, and the whole of it where it was done.
fn tells<R: Print + Abort>(
    rt: &R,
    answer: Status,
    written: &[u8],
    text: &[u8],
) -> Result<(), Fail> {
    assert!(rt; text.starts_with(written));
    assert!(rt;
        answer == Status::NoMemory || answer == Status::Done && written.len() == text.len()
    );
    println!(rt; "{answer:?} {}", written.len())?;
    Ok(())
}

/// Runs the command over bytes, into a sink that has just the room for their text.
fn runs_over<R: Print + Abort>(
    rt: &R,
    alloc: Global,
    bytes: List<u8>,
    text: &[u8],
) -> Result<(), Fail> {
    let mut inputs = QuietInputs::new(bytes, List::new(alloc));
    let mut out = QuietSink::with_room(alloc, text.len())?;
    let mut err = QuietSink::new(alloc);
    let answer = status(alloc, &[], &mut inputs, &mut out, &mut err);
    tells(rt, answer, out.bytes(), text)
}

#[test]
fn run_over_a_generated_file(rt: HostRuntime) -> Result<(), Fail> {
    let alloc = rt.alloc();
    runs_over(&rt, alloc, given(alloc, GENERATED)?, LAID.as_bytes())
}

// The command writes while it lays out: 100 structs stand before one whose name has 40 letters, and the full room for texts is asked for
// behind that name, when the structs are written.
#[test]
fn run_over_a_long_last_name(rt: HostRuntime) -> Result<(), Fail> {
    let alloc = rt.alloc();
    let bytes = given(alloc, "100×struct A;·struct ·40×c·;")?;
    let text = given(alloc, "100×struct A;\n·struct ·40×c·;\n")?;
    runs_over(&rt, alloc, bytes, text.as_slice())
}

// Memory for the first group is asked for when the items before it are written.
#[test]
fn run_over_a_last_list(rt: HostRuntime) -> Result<(), Fail> {
    let alloc = rt.alloc();
    let bytes = given(alloc, "100×struct A;·use a::{b,c};")?;
    let text = given(alloc, "100×struct A;\n·use a::{b, c};\n")?;
    runs_over(&rt, alloc, bytes, text.as_slice())
}

#[test]
fn text_of_a_generated_file(rt: HostRuntime) -> Result<(), Fail> {
    match seen(rt.alloc(), GENERATED, DEPTH) {
        Ok((_, text)) => tells(&rt, Status::Done, text.as_bytes(), LAID.as_bytes()),
        Err(FileError::NoMemory) => tells(&rt, Status::NoMemory, b"", LAID.as_bytes()),
        Err(_) => {
            assert!(rt; false);
            Ok(())
        }
    }
}
