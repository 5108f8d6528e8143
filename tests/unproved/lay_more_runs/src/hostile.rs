//! Runs over inputs that are cut off, malicious or as long as may be, and over reads and writes that fail one after another.

use crate::runs::{given, outcome, ran};
use crate::texts::{GENERATED, LAID};
use lay_front::Status;
use lay_io::MemorySink;
use lay_test_rows::each::{column, cut, each_is_told, number, string};
use lay_token::NoMemory;
use std::alloc::Global;
use std::test::Fail;

/// Room for the longest text here.
const MOST: usize = 6_000_000;

/// Room for a short text.
const FEW: usize = 10_000;

/// The status of a run over a text, which stands there in pieces, and what it writes.
fn laid(alloc: Global, text: &str, room: usize) -> Result<(Status, String), NoMemory> {
    let row = format!(in alloc; "→{text}")?;
    let (status, out, _) = ran(alloc, row.as_str(), room)?;
    let written = string(alloc, out.bytes())?;
    Ok((status, written))
}

/// Whether a run over a text writes just that text.
fn is_own(alloc: Global, text: &str, room: usize) -> Result<bool, NoMemory> {
    let (status, written) = laid(alloc, text, room)?;
    Ok(status == Status::Done && written.as_str() == text)
}

/// The status of a run over a text, and whether it writes the other text of the row; both stand there in pieces.
fn gives(alloc: Global, row: &str) -> Result<String, NoMemory> {
    let (text, wanted) = column(row);
    let wanted = given(alloc, wanted)?;
    let (status, written) = laid(alloc, text, MOST)?;
    let is_wanted = written.as_str().as_bytes() == wanted.as_slice();
    Ok(format!(in alloc; "{status:?} {is_wanted}")?)
}

/// The status of a run over a text, and whether a run over what it writes writes the same.
fn gives_own(alloc: Global, text: &str) -> Result<String, NoMemory> {
    let (status, written) = laid(alloc, text, MOST)?;
    let is_own = is_own(alloc, written.as_str(), MOST)?;
    Ok(format!(in alloc; "{status:?} {is_own}")?)
}

/// A line of what a run over a text writes, behind the number of blanks that it begins with.
fn line(alloc: Global, row: &str) -> Result<String, NoMemory> {
    let (place, text) = column(row);
    let place = number(place);
    let (_, written) = laid(alloc, text, FEW * 10)?;
    for (at, line) in written.as_str().split('\n').enumerate() {
        if at == place {
            let rest = line.trim_start_matches(' ');
            let blanks = line.len().saturating_sub(rest.len());
            return Ok(format!(in alloc; "{blanks} {rest}")?);
        }
    }
    Ok(format!(in alloc; "no line")?)
}

/// Whether a run over a text is done, and writes a text that is its own; or it is refused, and nothing is written. It is nothing else.
fn is_accepted(alloc: Global, text: &str) -> Result<Option<bool>, NoMemory> {
    let (status, written) = laid(alloc, text, FEW)?;
    match status {
        Status::Done => {
            let is_own = is_own(alloc, written.as_str(), FEW)?;
            Ok(is_own.then_some(true))
        }
        Status::Refused(_) => Ok(written.as_str().is_empty().then_some(false)),
        _ => Ok(None),
    }
}

/// How many prefixes of a text are accepted, and how many there are.
fn prefixes(alloc: Global, text: &str) -> Result<String, NoMemory> {
    let bytes = text.as_bytes();
    let all = bytes.len().saturating_add(1);
    let mut accepted = 0usize;
    for end in 0..all {
        let prefix = string(alloc, &bytes[..end.min(bytes.len())])?;
        match is_accepted(alloc, prefix.as_str())? {
            Some(true) => accepted = accepted.saturating_add(1),
            Some(false) => {}
            None => return Ok(format!(in alloc; "neither accepted nor refused: {prefix}")?),
        }
    }
    Ok(format!(in alloc; "{accepted} of {all}")?)
}

/// Whether two runs left the same.
fn left_same(
    some: &(Status, MemorySink, MemorySink),
    other: &(Status, MemorySink, MemorySink),
) -> bool {
    some.0 == other.0 && some.1.bytes() == other.1.bytes() && some.2.bytes() == other.2.bytes()
}

/// The status of each run of a row in which the numbers from 0 on stand for `№`, up to the first run that leaves what one without a
/// fault leaves; and of this its status, and what stands on `out` and on `err`. Each other run writes a front of what this writes to
/// `out`, and one whose read failed writes nothing.
fn in_turn(alloc: Global, row: &str) -> Result<String, NoMemory> {
    let (front, back) = cut(row, '№');
    let without = format!(in alloc; "{front}{back}")?;
    let whole = ran(alloc, without.as_str(), FEW)?;
    let mut before = String::new(alloc);
    for number in 0..FEW {
        let run = format!(in alloc; "{front}{number}{back}")?;
        let faulty = ran(alloc, run.as_str(), FEW)?;
        if left_same(&faulty, &whole) {
            let text = string(alloc, whole.1.bytes())?;
            let line = string(alloc, whole.2.bytes())?;
            return Ok(format!(in alloc; "{before}→{:?}→{text}→{line}", whole.0)?);
        }
        let status = format!(in alloc; "{:?}", faulty.0)?;
        let is_front = whole.1.bytes().starts_with(faulty.1.bytes());
        let is_silent = faulty.0 != Status::ReadFailed || faulty.1.bytes().is_empty();
        let is_as_before = number == 0 || status.as_str() == before.as_str();
        if !(is_front && is_silent && is_as_before) {
            return Ok(format!(in alloc; "{status} at {number}")?);
        }
        before = status;
    }
    Ok(format!(in alloc; "each run has a fault")?)
}

// Of the generated file those prefixes are accepted that end with or behind its comment, its inner attribute or one of its five items, and
// the empty one.
#[test]
fn inputs(rt: HostRuntime) -> Result<(), Fail> {
    let alloc = rt.alloc();
    let short = "→/* au→(⇒Refused(NoToken { at: 0 })→→1:1: no token\n§\
        →\u{feff}→(⇒Done→→§\
        →\0→(⇒Refused(NoToken { at: 0 })→→1:1: no token\n§\
        →//!a\rb→(⇒Refused(NoToken { at: 0 })→→1:1: no token\n§\
        →//a\rb\nstruct A;→(⇒Done→struct A;\n→§\
        →const A:&str=\"a\rb\";→(⇒Refused(NoToken { at: 13 })→→1:14: no token\n";
    let long =
        "const A:&str=r·255×#·\"x\"·255×#·;→const A: &str = r·255×#·\"x\"·255×#·;\n⇒Done true§\
        const A:&str=r·256×#·\"x\"·256×#·;→⇒Refused(NoToken { at: 13 }) true§\
        m!{·100000×&·}→m! {\n    ·100000×&·\n}\n⇒Done true§\
        const A:&str=\"·1000000×a·\";→const A: &str = \"·1000000×a·\";\n⇒Done true";
    let deep = "m!{·10000×(·10000×)·}⇒Done true§\
        const A:T=·254×(·1·254×)·;⇒Done true§\
        fn f(){·127×match x{A=>·b·127×}·}⇒Done true§\
        fn f(){·127×if g(·a·127×)&&let B=c{}·}⇒Done true§\
        fn f(){·128×if g(·a·128×)&&let B=c{}·}⇒Refused(NoItem { at: 0 }) true§\
        fn f(){·254×if ·a{}·253×&&let B=c{}·}⇒Done true";
    let lines = "60→61×mod a{·struct B;·61×}⇒240 mod a {§61→61×mod a{·struct B;·61×}⇒240 struct B;";
    let generated = format!(in alloc; "{GENERATED}⇒15 of 482")?;
    each_is_told(&rt, alloc, short, outcome)?;
    each_is_told(&rt, alloc, long, gives)?;
    each_is_told(&rt, alloc, deep, gives_own)?;
    each_is_told(&rt, alloc, lines, line)?;
    each_is_told(&rt, alloc, generated.as_str(), prefixes)?;
    Ok(())
}

#[test]
fn devices(rt: HostRuntime) -> Result<(), Fail> {
    let alloc = rt.alloc();
    let rows = format!(in alloc;
        "→{GENERATED}→→№⇒ReadFailed→Done→{LAID}→§\
        →{GENERATED}→→→№→0⇒WriteFailed→Done→{LAID}→§\
        →{GENERATED}→→→№→3⇒WriteFailed→Done→{LAID}→§\
        →struct A;fn f(){{if S{{a:1}}.b(){{}}}}→→→→→№⇒Refused(NoItem {{ at: 9 }})→Refused(NoItem {{ at: 9 }})→→1:10: no item\n"
    )?;
    each_is_told(&rt, alloc, rows.as_str(), in_turn)?;
    Ok(())
}
