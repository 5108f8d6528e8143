//! Layouts written as words, one blank between two of them: a mark, `:` and what it says.
//!
//! Texts: `t:` is followed by the characters, in which `_` is a blank and `$` a line end; `x:` and a number is so many
//! letters `c`, and `b:` so many blanks. Groups: `c:` and an offset begins a consistent one, `i:` another, and `e:` ends
//! one. Breaks: `s:` and a number of blanks, `n:` the same for one that is never a newline; `h:` and an offset for one
//! that always is; `l:`, with `,` before a newline; `m:`, with `{` before it, `}` behind it and `,` instead of it; and
//! of these three marks `o:` has the first, and `a:` the two others.
ghost use Rattle.std.specs.Prelude.{◌≡◌, IfOk};
ghost use Rattle.lay_layout.specs.Machine.{opened};

use lay_layout::{Break, Mark, Tok};
use lay_stream::{Emit, Stream};
use lay_text::{NoMemory, Text};
use std::alloc::Global;

/// Adds what a word says to a text.
fn put(text: &mut Text, mark: &str, rest: &str) -> Result<(), NoMemory> {
    if mark == "t" {
        for byte in rest.as_bytes() {
            text.push(match *byte {
                b'_' => b' ',
                b'$' => b'\n',
                other => other,
            })?;
        }
        return Ok(());
    }
    let byte = if mark == "x" { b'c' } else { b' ' };
    for _ in 0..rest.parse::<usize>().unwrap_or(0) {
        text.push(byte)?;
    }
    Ok(())
}

/// The text of words.
pub fn text(alloc: Global, words: &str) -> Result<Text, NoMemory> {
    let mut text = Text::new(alloc);
    for word in words.split(' ') {
        if let Some((mark, rest)) = word.split_once(':') {
            put(&mut text, mark, rest)?;
        }
    }
    Ok(text)
}

/// The break that a word says.
fn brk(mark: &str, rest: &str) -> Break {
    let offset = rest.parse::<i8>().unwrap_or(0);
    let blank = rest.parse::<u16>().unwrap_or(0);
    let (before, after, instead) = match mark {
        "m" => (Mark::OpenBrace, Mark::CloseBrace, Mark::Comma),
        "o" => (Mark::OpenBrace, Mark::Absent, Mark::Absent),
        "a" => (Mark::Absent, Mark::CloseBrace, Mark::Comma),
        "l" => (Mark::Comma, Mark::Absent, Mark::Absent),
        _ => (Mark::Absent, Mark::Absent, Mark::Absent),
    };
    let (offset, blank) = match mark {
        "s" | "n" => (0, blank),
        "h" => (offset, 65535),
        _ => (offset, 0),
    };
    Break {
        offset,
        blank,
        before,
        after,
        instead,
        never: mark == "n",
    }
}

/// The token that a word says.
fn tok(alloc: Global, mark: &str, rest: &str) -> Result<Tok, NoMemory> {
    let offset = rest.parse::<i8>().unwrap_or(0);
    match mark {
        "t" | "x" | "b" => {
            let mut text = Text::new(alloc);
            put(&mut text, mark, rest)?;
            Ok(Tok::Text(text))
        }
        "c" => Ok(Tok::Begin {
            consistent: true,
            offset,
        }),
        "i" => Ok(Tok::Begin {
            consistent: false,
            offset,
        }),
        "e" => Ok(Tok::End),
        _ => Ok(Tok::Break(brk(mark, rest))),
    }
}

/// Adds a token to a stream in which so many groups are open, and answers how many are then. An end where none
/// is open is passed over.
pub fn add(stream: &mut Stream, groups: u64, tok: &Tok) -> Result<u64, NoMemory>
    requires { opened stream.old 0 ≡ groups }
    ensures { IfOk result (λ n. opened stream.new 0 ≡ n) }
{
    match tok {
        Tok::Text(text) => {
            stream.text(text.as_bytes())?;
            Ok(groups)
        }
        Tok::Break(brk) => {
            stream.brk(*brk)?;
            Ok(groups)
        }
        Tok::Begin { consistent, offset } => {
            stream.begin(*consistent, *offset)?;
            match groups.checked_add(1) {
                Some(more) => Ok(more),
                None => Err(NoMemory),
            }
        }
        Tok::End => {
            if groups == 0 {
                return Ok(0);
            }
            stream.end()?;
            Ok(groups - 1)
        }
    }
}

/// The stream of words. One in which a group is open at the end is none.
pub fn stream(alloc: Global, words: &str) -> Result<Stream, NoMemory>
    ensures { IfOk result (λ s. opened s 0 ≡ 0) }
{
    let mut stream = Stream::new(alloc);
    let mut groups = 0;
    for word in words.split(' ') {
        if let Some((mark, rest)) = word.split_once(':') {
            let tok = tok(alloc, mark, rest)?;
            groups = add(&mut stream, groups, &tok)?;
        }
    }
    if groups > 0 {
        return Err(NoMemory);
    }
    Ok(stream)
}
