//! Samples: their texts, worked out by hand from the draws, and the lines that sum them up.
ghost use Rattle.std.specs.Prelude.{◌≤◌};

use crate::runs::outcome;
use crate::texts::formatted;
use lay_sample::sample;
use lay_test_rows::each::{column, each_is_told, number, string};
use lay_token::NoMemory;
use std::alloc::Global;
use std::test::Fail;

/// The sample of a seed and so many items.
fn made(alloc: Global, row: &str) -> Result<String, NoMemory> {
    let (seed, items) = column(row);
    let items = number(items).min(200_000) as u32;
    string(alloc, sample(alloc, number(seed) as u64, items)?.as_bytes())
}

/// Whether a run says what there is to count in a sample and its text, and that text is its own.
fn is_summed_up(alloc: Global, row: &str) -> Result<String, NoMemory> {
    let (seed, items) = column(row);
    let given = made(alloc, row)?;
    let text = formatted(alloc, given.as_str())?;
    let line = summary(alloc, items, given.len(), text.as_str())?;
    let words = format!(in alloc; "--sample {seed} --items {items}→struct A;→→0")?;
    let is_said = outcome(alloc, words.as_str())?.as_str() == line.as_str();
    let is_own = formatted(alloc, text.as_str())?.as_str() == text.as_str();
    Ok(format!(in alloc; "{is_said} {is_own}")?)
}

/// What a run tells that sums up a text.
fn summary(alloc: Global, items: &str, given: usize, text: &str) -> Result<String, NoMemory> {
    let mut lines = 0usize;
    let mut longest = 0;
    for line in text.split('\n') {
        lines = lines.saturating_add(1);
        longest = line.len().max(longest);
    }
    // Behind the last LF stands nothing.
    lines = lines.saturating_sub(1);
    let size = text.len();
    Ok(format!(in alloc;
        "Done→items {items}, bytes in {given}, bytes out {size}, lines {lines}, longest {longest}\n→"
    )?)
}

// The draws are those of Knuth's generator.
#[test]
fn texts(rt: HostRuntime) -> Result<(), Fail> {
    let rows = "2→0⇒§\
        2→1⇒struct S0{a:u8,b:Vec<u8>}\n§\
        0→6⇒const C0:[u8;3]=[1,2,24];\nuse m236::{a,b,c};\nuse m891::{a,b,c};\nstruct S3{a:u8,b:Vec<u8>}\n\
        const C4:[u8;3]=[1,2,64];\nconst C5:[u8;3]=[1,2,3];\n§\
        1→4⇒fn f0(x:u8)->u8{match x{0=>{g(x)}_=>x+153,}}\nstruct S1{a:u8,b:Vec<u8>}\n\
        fn f2(x:u8)->u8{match x{0=>{g(x)}_=>x+34,}}\nconst C3:[u8;3]=[1,2,30];\n§\
        18446744073709551615→3⇒struct S0{a:u8,b:Vec<u8>}\nconst C1:[u8;3]=[1,2,77];\n\
        fn f2(x:u8)->u8{match x{0=>{g(x)}_=>x+864,}}\n";
    each_is_told(&rt, rt.alloc(), rows, made)?;
    Ok(())
}

// Each sample is Rust, what it is laid out to is laid out as itself, and the same words say the same.
#[test]
fn sums(rt: HostRuntime) -> Result<(), Fail> {
    let rows = "0→200⇒true true§1→200⇒true true§2→200⇒true true§3→200⇒true true§4→200⇒true true§\
        5→200⇒true true§6→200⇒true true§7→200⇒true true§8→200⇒true true§9→200⇒true true§\
        10→200⇒true true§11→200⇒true true§12→200⇒true true§13→200⇒true true§14→200⇒true true§\
        15→200⇒true true§16→200⇒true true§17→200⇒true true§18→200⇒true true§19→200⇒true true§\
        20→200⇒true true§2→1000⇒true true§2→1000⇒true true";
    each_is_told(&rt, rt.alloc(), rows, is_summed_up)?;
    Ok(())
}
