//! Runs of the command over objects in memory, and what they tell.
ghost use Rattle.std.specs.Prelude.{◌≡◌, None, IfOk};

use lay_front::{Status, run};
use lay_io::{Inputs, MemoryInputs, MemorySink, NamedFile, Sink};
use lay_test_rows::each::{column, number, string};
use lay_test_rows::repeated;
use lay_token::{List, NoMemory, Text};
use std::alloc::Global;

/// Room for the texts of most rows.
const ROOM: usize = 100_000;

/// The status of a run, and what stands on `out` and on `err`.
pub fn outcome(alloc: Global, row: &str) -> Result<String, NoMemory> {
    let (status, out, err) = ran(alloc, row, ROOM)?;
    let text = string(alloc, out.bytes())?;
    let line = string(alloc, err.bytes())?;
    Ok(format!(in alloc; "{status:?}→{text}→{line}")?)
}

/// The same of a run that writes many lines `struct A;`: their number stands there for them, and then what stands behind them.
pub fn counted_outcome(alloc: Global, row: &str) -> Result<String, NoMemory> {
    let (status, out, err) = ran(alloc, row, ROOM)?;
    let text = string(alloc, out.bytes())?;
    let line = string(alloc, err.bytes())?;
    let rest = text.as_str().trim_start_matches("struct A;\n");
    let lines = text.len().saturating_sub(rest.len()) / "struct A;\n".len();
    Ok(format!(in alloc; "{status:?}→{lines}→{rest}→{line}")?)
}

/// The status of a run.
pub fn status_of(alloc: Global, row: &str) -> Result<String, NoMemory> {
    let (status, ..) = ran(alloc, row, ROOM)?;
    Ok(format!(in alloc; "{status:?}")?)
}

/// A run of a row, which writes into this room: the words, standard input, the file `f`, the numbers of the read that fails, of the write
/// of `out` that fails, how many bytes of its piece that keeps, and the number of the write of `err` that fails and keeps one byte.
/// Columns at the end may be left out.
pub fn ran(
    alloc: Global,
    row: &str,
    room: usize,
) -> Result<(Status, MemorySink, MemorySink), NoMemory> {
    let (line, rest) = column(row);
    let (stdin, rest) = column(rest);
    let (file, rest) = column(rest);
    let (read, rest) = column(rest);
    let (write, rest) = column(rest);
    let (keep, told) = column(rest);
    let words = words(alloc, line)?;
    let mut inputs = inputs(alloc, stdin, file, read)?;
    let mut out = MemorySink::new(alloc, room, numbers(alloc, write)?, number(keep))?;
    let mut err = MemorySink::new(alloc, 100, numbers(alloc, told)?, 1)?;
    let status = status(alloc, words.as_slice(), &mut inputs, &mut out, &mut err);
    Ok((status, out, err))
}

/// The status of a run, which is the one call of it here, so that its clauses are read once.
pub fn status<I: Inputs, K: Sink, E: Sink>(
    alloc: Global,
    words: &[Text],
    inputs: &mut I,
    out: &mut K,
    err: &mut E,
) -> Status
    requires { I.chosen inputs.old ≡ None }
{
    run(alloc, words, inputs, out, err)
}

/// The words of a line, which stand between blanks.
fn words(alloc: Global, line: &str) -> Result<Vec<Text>, NoMemory> {
    let mut words = Vec::new(alloc);
    for word in line.split(' ') {
        if !word.is_empty() {
            words.push(Text::from_bytes(alloc, word.as_bytes())?)?;
        }
    }
    Ok(words)
}

/// Inputs with standard input and the file `f`, of which the read with this number fails.
fn inputs(alloc: Global, stdin: &str, file: &str, read: &str) -> Result<MemoryInputs, NoMemory>
    ensures { IfOk result (λ made. ⟦<MemoryInputs as Inputs>⟧.chosen made ≡ None) }
{
    let mut files = Vec::new(alloc);
    files.push(NamedFile {
        name: Text::from_bytes(alloc, b"f")?,
        bytes: given(alloc, file)?,
    })?;
    Ok(MemoryInputs::new(
        given(alloc, stdin)?,
        List::from_vec(files),
        numbers(alloc, read)?,
    ))
}

/// The bytes of pieces that stand between `·`, of which `3×a` is three times `a`.
pub fn given(alloc: Global, text: &str) -> Result<List<u8>, NoMemory> {
    let mut all = Vec::new(alloc);
    for piece in text.split('·') {
        let (count, part) = match piece.split_once('×') {
            Some((count, part)) => (number(count), part),
            None => (1, piece),
        };
        all.extend_from_slice(repeated(alloc, part.as_bytes(), count)?.as_slice())?;
    }
    Ok(List::from_vec(all))
}

/// The number that a text spells, if it spells one.
fn numbers(alloc: Global, text: &str) -> Result<List<u64>, NoMemory> {
    let mut all = Vec::new(alloc);
    if !text.is_empty() {
        all.push(number(text) as u64)?;
    }
    Ok(List::from_vec(all))
}
