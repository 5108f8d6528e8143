//! The counts of texts that are written in pieces.

use lay_io::Sink;
use lay_sample::counting::Counter;
use lay_test_rows::each::{column, each_is_told, number};
use lay_token::NoMemory;
use std::alloc::Global;
use std::test::Fail;

/// The counts of a text that is written in two pieces, of which the first has so many bytes: bytes, lines, and the bytes of the longest
/// line.
fn counts(alloc: Global, row: &str) -> Result<String, NoMemory> {
    let (text, first) = column(row);
    let (first, second) = text.as_bytes().split_at(number(first).min(text.len()));
    let mut counter = Counter::new();
    if counter.write(first).is_err() || counter.write(second).is_err() {
        return Ok(format!(in alloc; "a write failed")?);
    }
    let counts = counter.counts();
    Ok(format!(in alloc; "{} {} {}", counts.bytes, counts.lines, counts.longest)?)
}

#[test]
fn counts_of_texts(rt: HostRuntime) -> Result<(), Fail> {
    let rows = "→0⇒0 0 0§\
        \n→1⇒1 1 0§\
        \n\n\n→1⇒3 3 0§\
        abc→3⇒3 0 3§\
        abc\n→3⇒4 1 3§\
        ab\nabcd\na\n→8⇒10 3 4§\
        a\nbcdef\ngh\n→5⇒11 3 5§\
        a\n\n\nbcd→3⇒7 3 3§\
        abc\r\nd→4⇒6 1 4§\
        a\nbcde→3⇒6 1 4§\
        \u{e9}\n→1⇒3 1 2";
    each_is_told(&rt, rt.alloc(), rows, counts)?;
    Ok(())
}
