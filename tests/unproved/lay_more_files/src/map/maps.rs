//! Rows of texts, and where what they say stands in them and in their output.
ghost use Rattle.std.specs.Prelude.{List as Items, IsUtf8};
ghost use Rattle.std.specs.Str.{IsCharBoundary};
ghost use Rattle.lay_token.specs.Lexes.{Lexes};
ghost use Rattle.lay_token.specs.declared.token.Token.{Token as TokenValue};
ghost use Rattle.lay_code.specs.Reading.{SpellsFile, top};
ghost use Rattle.lay_read_tokens.specs.Answers.{AreLexed};

use lay_code::File;
use lay_files::{DEPTH, text_of};
use lay_lex::{Source, lex, normalise};
use lay_map::{Span, Unit, pairs, units, units_of_text};
use lay_nest::{Nested, nest};
use lay_read_code::read_file;
use lay_test_rows::{BETWEEN, parts};
use lay_text::{FormatError, List, NoMemory, Text};
use std::alloc::Global;
use std::test::Fail;

/// Each row: a text, and behind `→` a line for each of its units: where it stands, and where it stands in the output.
const ROWS: &str = "struct A;→0+6 0+6\n7+1 7+1\n8+1 8+1\n\
    §use a::{b,c,};→0+3 0+3\n4+1 4+1\n5+1 5+1\n6+1 6+1\n7+1 7+1\n8+1 8+1\n9+1 9+1\n10+1 11+1\n12+1 12+1\n13+1 13+1\n\
    §#[doc=\"a\"]struct A;→0+10 0+4\n10+6 5+6\n17+1 12+1\n18+1 13+1\n\
    §→\
    §struct A<>where{a:u8}→0+6 0+6\n7+1 7+1\n15+1 9+1\n16+1 15+1\n17+1 16+1\n18+2 18+2\n20+1 22+1\n\
    §fn f(){match x{A=>{a}B=>m!{},|C=>|d|{e}}}→0+2 0+2\n3+1 3+1\n4+1 4+1\n5+1 5+1\n6+1 7+1\n7+5 13+5\n13+1 19+1\n14+1 21+1\n15+1 31+1\n16+1 33+1\n17+1 34+1\n\
    19+1 36+1\n21+1 47+1\n22+1 49+1\n23+1 50+1\n24+1 52+1\n25+1 53+1\n26+1 55+1\n27+1 56+1\n30+1 67+1\n31+1 69+1\n\
    32+1 70+1\n33+1 72+1\n34+1 73+1\n35+1 74+1\n37+1 76+1\n39+1 83+1\n40+1 85+1\n";

/// The units of a file's tokens, and its text.
fn found(alloc: Global, file: &File, nested: &Nested) -> Result<(List<Unit>, Text), NoMemory>
    requires lexed { AreLexed nested.now }
    requires spells { SpellsFile top file.now nested.now }
{
    let found = units(alloc, file, nested)?;
    let text = text_of(alloc, file)?;
    Ok((found, text))
}

/// The units of a text of which no tokens are handed in.
fn found_of_text(alloc: Global, file: &File, source: &Source) -> Result<List<Span>, NoMemory>
    requires utf8 { IsUtf8 source.now.text }
    requires border { IsCharBoundary source.now.text source.now.start }
    requires read { (tokens : Items TokenValue) × Lexes source.now.text source.now.start tokens × SpellsFile top file.now tokens }
{
    units_of_text(alloc, file, source.as_str(), source.start)
}

/// The units of a text without a first line, found of its tokens and of itself, and its output.
#[derive(Drop)]
struct Both {
    of_tokens: List<Unit>,
    of_text: List<Span>,
    output: Text,
}

/// The units of a text without a first line, and its output.
fn read(alloc: Global, text: &[u8]) -> Result<Both, FormatError> {
    let source = normalise(alloc, text)?;
    let tokens = lex(alloc, &source)?;
    let nested = nest(alloc, tokens)?;
    let file = read_file(alloc, &nested, None, DEPTH)?;
    let Ok((of_tokens, output)) = found(alloc, &file, &nested) else {
        return Err(FormatError::NoMemory);
    };
    match found_of_text(alloc, &file, &source) {
        Ok(of_text) => Ok(Both {
            of_tokens,
            of_text,
            output,
        }),
        Err(NoMemory) => Err(FormatError::NoMemory),
    }
}

/// The units that were found of the text are those that were found of its tokens.
fn is_same(both: &Both) -> bool {
    let (units, spans) = (both.of_tokens.as_slice(), both.of_text.as_slice());
    units.len() == spans.len()
        && units
            .iter()
            .zip(spans)
            .all(|(unit, span)| *unit == span.unit())
}

/// The lines of a text.
fn lines(alloc: Global, text: &str) -> Result<String, Fail> {
    let source = read(alloc, text.as_bytes())?;
    let target = read(alloc, source.output.as_bytes())?;
    let mut lines = String::new(alloc);
    if !is_same(&source) || !is_same(&target) {
        lines.push_str("the units of a text aren't those of its tokens")?;
        return Ok(lines);
    }
    let (source, target) = (source.of_tokens.as_slice(), target.of_tokens.as_slice());
    if source.len() != target.len() {
        return Ok(lines);
    }
    for pair in pairs(alloc, source, target)?.as_slice() {
        let (here, there) = (pair.source, pair.output);
        let line = format!(in alloc; "{}+{} {}+{}\n", here.at, here.len, there.at, there.len)?;
        lines.push_str(line.as_str())?;
    }
    Ok(lines)
}

#[test]
fn rows(rt: HostRuntime) -> Result<(), Fail> {
    let alloc = rt.alloc();
    for row in ROWS.split(BETWEEN) {
        let (text, wanted) = parts(row);
        assert!(rt; lines(alloc, text)?.as_str() == wanted);
    }
    Ok(())
}
