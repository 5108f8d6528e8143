#!/bin/sh
# Measures edits of a file of 100,000 items, a sample: 1,000 replacements of an item, 1,000 items put in and taken out again, and the whole
# text; and beside them how long it takes to begin with the file, and to format it once.
#
# usage: edits.sh FOLDER    FOLDER isn't there yet
#
# It makes FOLDER a clone of what is committed, and adds the program below to it. There it proves the program and the
# crates that it stands on, which takes long where nothing of them is kept, and runs it. So the program costs the repository's own gate nothing.
set -e
. "$(dirname "$0")/../usage.sh"
words 1 1 "$@"
top=$(cd "$(dirname "$0")/../.." && pwd)
git clone --quiet "$top" "$1"
cd "$1"
echo "measure_edits: lay_text lay_sample lay_files lay_front lay_items" >>crates.txt
mkdir -p crates/measure_edits/src
cd crates/measure_edits

cat >src/main.rt <<'END'
//! Edits a file of many items, and tells how long each kind of call takes.
#![tactic(auto)]

use lay_front::format;
use lay_items::Items;
use lay_sample::sample;
use lay_text::NoMemory;
use std::io::Print;
use std::rt::Clock;
use std::time::Instant;

/// How many edits of a kind there are.
const EDITS: usize = 1_000;

/// The item that is put in.
const ITEM: &[u8] = b"#[repr(C)]pub struct point_t{pub x: ::std::os::raw::c_int,pub name:[u8;64usize]}";

/// A place below a count that another turn seldom has, or 0 where that is 0.
fn place(turn: usize, count: usize) -> usize {
    if count == 0 {
        return 0;
    }
    turn.wrapping_mul(99_991) % count
}

/// Replaces items one after another.
fn replace(items: &mut Items) -> Option<()> {
    for turn in 0..EDITS {
        let index = place(turn, items.len());
        if index < items.len() {
            items.replace(index, ITEM).ok()?;
        }
    }
    Some(())
}

/// Puts items in one after another, and takes each out again.
fn put_in(items: &mut Items) -> Option<()> {
    for turn in 0..EDITS {
        let index = place(turn, items.len());
        if index < items.len() {
            items.insert(index, ITEM).ok()?;
        }
        if index < items.len() {
            items.remove(index);
        }
    }
    Some(())
}

fn measured<R: Clock + AllocGlobal + Print>(rt: &R) -> Option<()> {
    let alloc = rt.alloc();
    let text = sample(alloc, 1, 100_000).ok()?;
    let start = Instant::now(rt).ok()?;
    let laid = format(alloc, text.as_bytes()).ok()?;
    let once = start.elapsed(rt).ok()?.as_micros();
    println!(rt; "{} bytes formatted once to {}: {once} us", text.as_bytes().len(), laid.as_bytes().len()).ok()?;
    let start = Instant::now(rt).ok()?;
    let mut items = Items::from_bytes(alloc, text.as_bytes()).ok()?;
    let begun = start.elapsed(rt).ok()?.as_micros();
    println!(rt; "{} items begun with: {begun} us", items.len()).ok()?;
    let start = Instant::now(rt).ok()?;
    replace(&mut items)?;
    let replaced = start.elapsed(rt).ok()?.as_micros();
    println!(rt; "{EDITS} items replaced: {replaced} us").ok()?;
    let start = Instant::now(rt).ok()?;
    put_in(&mut items)?;
    let put = start.elapsed(rt).ok()?.as_micros();
    println!(rt; "{EDITS} items put in and taken out: {put} us").ok()?;
    let start = Instant::now(rt).ok()?;
    let whole = items.whole().ok()?;
    let joined = start.elapsed(rt).ok()?.as_micros();
    println!(rt; "whole text of {} bytes: {joined} us", whole.as_bytes().len()).ok()
}

fn main(rt: HostRuntime) -> Result<(), NoMemory> {
    match measured(&rt) {
        Some(()) => Ok(()),
        None => Err(NoMemory),
    }
}
END

rt run
