//! Layouts worked out by hand from the definitions: 89 columns, and 60 at the least after a newline.
use crate::print::words::{stream, text};
use lay_stream::plain;
use lay_text::NoMemory;
use std::alloc::Global;
use std::process::Abort;

/// Whether the stream of words has the text of words.
fn is_laid(alloc: Global, given: &str, wanted: &str) -> Result<bool, NoMemory> {
    let text = text(alloc, wanted)?;
    let stream = stream(alloc, given)?;
    Ok(plain(alloc, &stream)?.as_bytes() == text.as_bytes())
}

/// The stream of words has the text of words.
fn lays(rt: &impl Abort, alloc: Global, given: &str, wanted: &str) {
    assert_eq!(rt; is_laid(alloc, given, wanted), Ok(true), "{given}");
}

#[test]
fn groups(rt: HostRuntime) {
    let alloc = rt.alloc();
    // Fits exactly: 1 + 1 + 85 + 2 = 89: not greater than the space.
    lays(&rt, alloc, "c:4 t:a s:1 x:85 t:xy e:", "t:a_ x:85 t:xy");
    // One over: 90.
    lays(
        &rt,
        alloc,
        "c:4 t:a s:1 x:85 t:xyz e:",
        "t:a$____ x:85 t:xyz",
    );
    // Only the first: the group has 93; at the first break 1 + 4 > 89 - 85, at the second 1 + 2 <= 85 - 4.
    lays(
        &rt,
        alloc,
        "i:4 x:85 s:1 t:aaaa s:1 t:bb e:",
        "x:85 t:$____aaaa_bb",
    );
    // With what follows: the group has 3, and 87 follow it.
    lays(&rt, alloc, "c:4 t:a s:1 t:b e: x:87", "t:a$____b x:87");
    // With one less.
    lays(&rt, alloc, "c:4 t:a s:1 t:b e: x:86", "t:a_b x:86");
    // Up to a break: a break outside ends the measure; at it 1 + 85 = 89 - 3.
    lays(&rt, alloc, "c:4 t:a s:1 t:b e: s:1 x:85", "t:a_b_ x:85");
    // Past the break.
    lays(&rt, alloc, "c:4 t:a s:1 t:b e: s:1 x:86", "t:a_b$ x:86");
}

#[test]
fn marks_and_hard_breaks(rt: HostRuntime) {
    let alloc = rt.alloc();
    // Mark instead.
    lays(&rt, alloc, "c:4 t:a m:0 t:b e:", "t:a,b");
    // Marks before and after.
    lays(&rt, alloc, "c:4 t:a m:0 t:b h:-4 t:d e:", "t:a{$____}b$d");
    // A mark counts.
    lays(&rt, alloc, "c:4 x:87 m:-4 t:b e:", "x:87 t:,b");
    // A mark too much.
    lays(&rt, alloc, "c:4 x:88 m:-4 t:b e:", "x:88 t:{$}b");
    // Hard inside: a hard break makes its group and the groups around it broken.
    lays(
        &rt,
        alloc,
        "c:4 t:a s:1 i:4 t:b h:0 t:d e: e:",
        "t:a$____b$________d",
    );
    // Hard outside.
    lays(&rt, alloc, "t:a h:0 c:4 t:b s:1 t:d e:", "t:a$b_d");
    // Never ends a measure.
    lays(&rt, alloc, "c:4 t:a s:1 t:b e: n:0 x:89", "t:a_b x:89");
    // Never is no newline.
    lays(&rt, alloc, "c:4 t:a n:1 t:b h:0 t:d e:", "t:a_b$____d");
}

#[test]
fn columns(rt: HostRuntime) {
    let alloc = rt.alloc();
    // Below column 0.
    lays(&rt, alloc, "t:a h:-4 c:4 t:b h:-8 t:d e:", "t:a$b$d");
    // An indent below 0.
    lays(
        &rt,
        alloc,
        "c:4 t:a h:0 c:-8 t:b h:0 t:d e: e:",
        "t:a$____b$d",
    );
    // An indent above 240: 127 + 127 is kept at 240, and a break's own offset comes on top.
    lays(
        &rt,
        alloc,
        "c:127 t:a c:127 h:0 t:b h:4 t:d e: e:",
        "t:a$ b:240 t:b$ b:244 t:d",
    );
    // Least space: at column 100 the space is 60.
    lays(
        &rt,
        alloc,
        "c:100 t:a h:0 c:4 t:b s:1 x:58 e: e:",
        "t:a$ b:100 t:b_ x:58",
    );
    // Past the least space.
    lays(
        &rt,
        alloc,
        "c:100 t:a h:0 c:4 t:b s:1 x:59 e: e:",
        "t:a$ b:100 t:b$ b:104 x:59",
    );
    // Space of 65: at column 24 the space is 65, at column 29 it is 60, and so it is at column 30.
    lays(
        &rt,
        alloc,
        "c:24 t:a h:0 c:4 t:b s:1 x:63 e: e:",
        "t:a$ b:24 t:b_ x:63",
    );
    // Width 0, space -1: a measure of 0 is greater than a space of -1, and not than one of 0.
    lays(&rt, alloc, "x:90 c:4 s:0 e: n:0 t:x", "x:90 t:$____x");
    // Width 0, space 0.
    lays(&rt, alloc, "x:89 c:4 s:0 e: n:0 t:x", "x:89 t:x");
    // No blank at a line's end.
    lays(&rt, alloc, "t:a n:5 h:0 t:b n:3", "t:a$b");
    // A group in a flat group.
    lays(&rt, alloc, "i:4 t:a c:4 s:1 t:b e: s:2 t:d e:", "t:a_b__d");
}

// Blanks that wait are counted up to a million.
#[test]
fn many_blanks(rt: HostRuntime) {
    let row =
        "n:65535 n:65535 n:65535 n:65535 n:65535 n:65535 n:65535 n:65535 n:65535 n:65535 n:65535 n:65535 n:65535 n:65535 n:65535 n:65535 t:x";
    lays(&rt, rt.alloc(), row, "b:1000000 t:x");
}

// A list of two names.
#[test]
fn lists(rt: HostRuntime) {
    let alloc = rt.alloc();
    lays(
        &rt,
        alloc,
        "t:use_a:: c:4 t:{ s:0 t:b t:, s:1 x:76 l:-4 t:} e: t:; h:0",
        "t:use_a::{b,_ x:76 t:};$",
    );
    lays(
        &rt,
        alloc,
        "t:use_a:: c:4 t:{ s:0 t:b t:, s:1 x:77 l:-4 t:} e: t:; h:0",
        "t:use_a::{$ b:4 t:b,$ b:4 x:77 t:,$};$",
    );
}
