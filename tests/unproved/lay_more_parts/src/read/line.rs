//! Words and what they ask for, worked out by hand from what `clap` documents.
use crate::read::each::each_holds;
use lay_args::{Line, line};
use lay_io::Which;
use lay_test_rows::{BETWEEN, parts};
use lay_token::{NoMemory, Text};
use std::alloc::Global;

/// The line that the words of a row make, with a blank between two words. An empty row has none.
fn line_of(alloc: Global, row: &[u8]) -> Result<Line, NoMemory> {
    let mut words = Vec::new(alloc);
    if !row.is_empty() {
        for word in row.split(|byte| *byte == b' ') {
            words.push(Text::from_bytes(alloc, word)?)?;
        }
    }
    line(alloc, words.as_slice())
}

/// Whether the input is the file of this name, or standard input where there is none.
fn is_input(input: &Which, name: Option<&str>) -> bool {
    match (input, name) {
        (Which::Stdin, None) => true,
        (Which::File(file), Some(name)) => file.as_bytes() == name.as_bytes(),
        _ => false,
    }
}

/// Whether the sample is of this seed and of so many items, which stand in this order with a blank between them.
fn is_sample(seed: u64, items: u32, numbers: &str) -> bool {
    match numbers.split_once(' ') {
        Some((first, second)) => first.parse::<u64>() == Ok(seed)
            && second.parse::<u32>() == Ok(items),
        None => false,
    }
}

/// Whether the line asks for this, which stands before the name of its file or the numbers of its sample.
fn asks(line: &Line, wanted: &str) -> bool {
    let (mode, name) = match wanted.split_once(' ') {
        Some((mode, name)) => (mode, Some(name)),
        None => (wanted, None),
    };
    match (line, name) {
        (Line::Usage, None) => mode == "usage",
        (Line::Format(input), name) => mode == "format" && is_input(input, name),
        (Line::Check(input), name) => mode == "check" && is_input(input, name),
        (Line::Map(input), name) => mode == "map" && is_input(input, name),
        (Line::Sample { seed, items }, Some(numbers)) => mode == "sample"
            && is_sample(*seed, *items, numbers),
        _ => false,
    }
}

/// The words ask for this.
fn ask(alloc: Global, words: &[u8], wanted: &str) -> bool {
    match line_of(alloc, words) {
        Ok(line) => asks(&line, wanted),
        Err(NoMemory) => false,
    }
}

/// The words of a row ask for what stands behind them.
fn row_asks(alloc: Global, row: &str) -> bool {
    let (words, wanted) = parts(row);
    ask(alloc, words.as_bytes(), wanted)
}

#[test]
fn lines(rt: HostRuntime) {
    let rows = "→format§\
        --check→check§\
        a→format a§\
        --check a→check a§\
        a --check→check a§\
        --→format§\
        --check --→check§\
        -- --check→format --check§\
        --check -- --check→check --check§\
        -- -x→format -x§\
        -- --→format --§\
        -- →format §\
        -→format -§\
        --check -→check -§\
        help→format help§\
        a=b→format a=b§\
        a b→usage§\
        -- a b→usage§\
        a --check b→usage§\
        --check --check→usage§\
        --check=1→usage§\
        --check=→usage§\
        --chec→usage§\
        --checks→usage§\
        ---check→usage§\
        -check→usage§\
        -c→usage§\
        -x→usage§\
        --nope→usage§\
        a --nope→usage§\
        a -x→usage§\
        --map→map§\
        --map a→map a§\
        a --map→map a§\
        -- --map→format --map§\
        --map -→map -§\
        --map --map→usage§\
        --map --check→usage§\
        --check --map a→usage§\
        --map a b→usage§\
        --map=1→usage§\
        --maps→usage§\
        --help→usage§\
        a --help→usage§\
        -h→usage§\
        --version→usage§\
        -V→usage";
    each_holds(&rt, rt.alloc(), rows, BETWEEN, row_asks);
    // A word that isn't UTF-8.
    assert!(rt; ask(rt.alloc(), b"\xff", "usage"));
    assert!(rt; ask(rt.alloc(), b"-- a\xff", "usage"));
}

#[test]
fn samples(rt: HostRuntime) {
    let rows = "--sample 2 --items 1→sample 2 1§\
        --items 1 --sample 2→sample 2 1§\
        --sample=2 --items=1→sample 2 1§\
        --sample=2 --items 1→sample 2 1§\
        --sample 0 --items 0→sample 0 0§\
        --sample 18446744073709551615 --items 200000→sample 18446744073709551615 200000§\
        --sample 00000000000000000002 --items 000001→sample 2 1§\
        --sample 2 --items 1 --→sample 2 1§\
        --items 1→usage§\
        --sample 2→usage§\
        --sample→usage§\
        --items→usage§\
        --sample --items 1→usage§\
        --sample 2 --items→usage§\
        --sample 2 --items 200001→usage§\
        --sample 18446744073709551616 --items 1→usage§\
        --sample 99999999999999999999 --items 1→usage§\
        --sample 000000000000000000002 --items 1→usage§\
        --sample 2 --items 0000001→usage§\
        --sample +2 --items 1→usage§\
        --sample 2 --items +1→usage§\
        --sample -2 --items 1→usage§\
        --sample=-2 --items 1→usage§\
        --sample 2a --items 1→usage§\
        --sample 0x2 --items 1→usage§\
        --sample 2 --items 1_0→usage§\
        --sample 2 --items ١→usage§\
        --sample  --items 1→usage§\
        --sample= --items 1→usage§\
        --sample 2 --items →usage§\
        --sample 2 --sample 2 --items 1→usage§\
        --sample 2 --items 1 --items 1→usage§\
        --sample 2 3 --items 1→usage§\
        --sample 2 --items 1 --check→usage§\
        --check --sample 2 --items 1→usage§\
        --sample 2 --items 1 --map→usage§\
        --map --items 1→usage§\
        --sample 2 --items 1 a→usage§\
        a --sample 2 --items 1→usage§\
        --sample 2 --items 1 -- a→usage§\
        --sample 2 --items 1 --help→usage§\
        --items 1 a→usage§\
        --sample 2 --check→usage§\
        --sampl 2 --items 1→usage§\
        -s 2 --items 1→usage";
    each_holds(&rt, rt.alloc(), rows, BETWEEN, row_asks);
}
