//! Runs of the command: its modes, its lines on `err`, reads and writes that fail, and how deep a text may be.

use crate::runs::{counted_outcome, outcome, status_of};
use lay_test_rows::each::each_is_told;
use std::test::Fail;

// Each row without a file has `(` in it, and each with one has `(` on standard input: read, it would be refused. A place counts behind
// a byte order mark, and a CR LF as one byte. A sample reads no input: the first read of each here would fail.
#[test]
fn outcomes(rt: HostRuntime) -> Result<(), Fail> {
    let alloc = rt.alloc();
    let modes = "→struct A;struct B;→(⇒Done→struct A;\nstruct B;\n→§\
        f→(→struct A;struct B;⇒Done→struct A;\nstruct B;\n→§\
        --check→struct A;struct B;→(⇒Differs→→differs\n§\
        --check→struct A;\nstruct B;\n→(⇒Done→→§\
        --check→struct A;\nstruct B;→(⇒Differs→→differs\n§\
        --check→struct A;\nstruct B;\n\n→(⇒Differs→→differs\n§\
        --check→→(⇒Done→→§\
        --check→structA;→(⇒Refused(NoItem { at: 0 })→→1:1: no item\n§\
        --check f→(→struct A;\n⇒Done→→§\
        f --check→(→struct A;⇒Differs→→differs\n§\
        --check q→(→(⇒ReadFailed→→read failed\n§\
        q→(→(⇒ReadFailed→→read failed\n";
    // A line for each unit: where it stands behind a byte order mark, with each CR LF as one LF, and where in the text. The first line is
    // none, nor is a comma that the list may do without, nor the braces that the arm's body is laid out with.
    let maps = "--map→struct A;→(⇒Done→0+6 0+6\n7+1 7+1\n8+1 8+1\n→§\
        --map→use a::{b,c,};→(⇒Done→0+3 0+3\n4+1 4+1\n5+1 5+1\n6+1 6+1\n7+1 7+1\n8+1 8+1\n9+1 9+1\n10+1 11+1\n12+1 12+1\n13+1 13+1\n→§\
        --map→#[doc=\"a\"]struct A;→(⇒Done→0+10 0+4\n10+6 5+6\n17+1 12+1\n18+1 13+1\n→§\
        --map→\u{feff}#!x\r\n\r\nstruct A;→(⇒Done→5+6 4+6\n12+1 11+1\n13+1 12+1\n→§\
        --map→→(⇒Done→→§\
        --map f→(→struct A;⇒Done→0+6 0+6\n7+1 7+1\n8+1 8+1\n→§\
        f --map→(→struct A;⇒Done→0+6 0+6\n7+1 7+1\n8+1 8+1\n→§\
        --map q→(→(⇒ReadFailed→→read failed\n§\
        --map→\u{feff}use a;\r\n\r\n  }→(⇒Refused(Unbalanced { at: 10 })→→3:3: unbalanced delimiter\n§\
        --map→use a;struct B→(⇒Refused(NoItem { at: 6 })→→1:7: no item\n";
    let refusals = "→structA;→(⇒Refused(NoItem { at: 0 })→→1:1: no item\n§\
        →use a;struct B→(⇒Refused(NoItem { at: 6 })→→1:7: no item\n§\
        →\u{feff}//!a\r\n#![b]\r\n  #![c d]→(⇒Refused(NoItem { at: 13 })→→3:3: no item\n§\
        →fn f( { )→(⇒Refused(Unbalanced { at: 8 })→→1:9: unbalanced delimiter\n§\
        →////x\n/***/struct A;/*/*x*/→(⇒Refused(NoToken { at: 20 })→→2:15: no token\n§\
        →\u{feff}////x\r\n/***/struct A;/*/*x*/→(⇒Refused(NoToken { at: 20 })→→2:15: no token\n§\
        →\u{feff}use a;\r\n\r\n  }→(⇒Refused(Unbalanced { at: 10 })→→3:3: unbalanced delimiter\n§\
        f→(→\r\n\r\n}⇒Refused(Unbalanced { at: 2 })→→3:1: unbalanced delimiter\n§\
        →mod a{→(⇒Refused(Unbalanced { at: 5 })→→1:6: unbalanced delimiter\n§\
        →mod a}→(⇒Refused(Unbalanced { at: 5 })→→1:6: unbalanced delimiter\n§\
        →fn f( { }→(⇒Refused(Unbalanced { at: 4 })→→1:5: unbalanced delimiter\n§\
        →}→(⇒Refused(Unbalanced { at: 0 })→→1:1: unbalanced delimiter\n§\
        →(→(⇒Refused(Unbalanced { at: 0 })→→1:1: unbalanced delimiter\n§\
        →[{}](])→(⇒Refused(Unbalanced { at: 5 })→→1:6: unbalanced delimiter\n§\
        →// x\r\n(((]]\"→(⇒Refused(NoToken { at: 10 })→→2:6: no token\n§\
        →struct r#self;→(⇒Refused(NoToken { at: 7 })→→1:8: no token\n";
    let usage =
        "--help→(→(⇒Usage→→usage: lay_fmt [--check | --map] [FILE] or lay_fmt --sample SEED --items N\n§\
        f f→(→(⇒Usage→→usage: lay_fmt [--check | --map] [FILE] or lay_fmt --sample SEED --items N\n§\
        --chec f→(→(⇒Usage→→usage: lay_fmt [--check | --map] [FILE] or lay_fmt --sample SEED --items N\n§\
        --items 1→(→(→0⇒Usage→→usage: lay_fmt [--check | --map] [FILE] or lay_fmt --sample SEED --items N\n§\
        --sample 2→(→(→0⇒Usage→→usage: lay_fmt [--check | --map] [FILE] or lay_fmt --sample SEED --items N\n§\
        --sample 2 --items 200001→(→(→0⇒Usage→→usage: lay_fmt [--check | --map] [FILE] or lay_fmt --sample SEED --items N\n§\
        --sample 18446744073709551616 --items 1→(→(→0⇒Usage→→usage: lay_fmt [--check | --map] [FILE] or lay_fmt --sample SEED --items N\n§\
        --map --check f→(→(→0⇒Usage→→usage: lay_fmt [--check | --map] [FILE] or lay_fmt --sample SEED --items N\n§\
        --check --sample 2 --items 1→(→(→0⇒Usage→→usage: lay_fmt [--check | --map] [FILE] or lay_fmt --sample SEED --items N\n";
    let samples =
        "--sample 2 --items 1→struct A;→→0⇒Done→items 1, bytes in 26, bytes out 41, lines 4, longest 15\n→§\
        --items 1 --sample 2→struct A;→→0⇒Done→items 1, bytes in 26, bytes out 41, lines 4, longest 15\n→§\
        --sample=2 --items=1→struct A;→→0⇒Done→items 1, bytes in 26, bytes out 41, lines 4, longest 15\n→§\
        --sample 2 --items 0→struct A;→→0⇒Done→items 0, bytes in 0, bytes out 0, lines 0, longest 0\n→";
    each_is_told(&rt, alloc, modes, outcome)?;
    each_is_told(&rt, alloc, maps, outcome)?;
    each_is_told(&rt, alloc, refusals, outcome)?;
    each_is_told(&rt, alloc, usage, outcome)?;
    each_is_told(&rt, alloc, samples, outcome)?;
    Ok(())
}

// 8,000 items take five reads of at most 16 KiB and one that finds the end, and three writes each: `struct A`, `;` and the newline.
// A text of 50,000 bytes is written as it is laid out: of 5,000 items 25 take the first 75 writes, and one of the next item's fails.
//
// The line of a refusal is written in four pieces. A write of `err` that fails changes no status, and nothing more is written. The line
// of a sample is written in one piece, and so is each line of a map.
#[test]
fn failures(rt: HostRuntime) -> Result<(), Fail> {
    let rows = "→8000×struct A;→→0⇒ReadFailed→0→→read failed\n§\
        →8000×struct A;→→1⇒ReadFailed→0→→read failed\n§\
        →8000×struct A;→→2⇒ReadFailed→0→→read failed\n§\
        →8000×struct A;→→3⇒ReadFailed→0→→read failed\n§\
        →8000×struct A;→→4⇒ReadFailed→0→→read failed\n§\
        →8000×struct A;→→5⇒ReadFailed→0→→read failed\n§\
        →8000×struct A;→→6⇒Done→8000→→§\
        →8000×struct A;→→7⇒Done→8000→→§\
        →2×struct A;→→→0→2⇒WriteFailed→0→st→write failed\n§\
        →2×struct A;→→→3→2⇒WriteFailed→1→st→write failed\n§\
        →2×struct A;→→→5→2⇒WriteFailed→2→→write failed\n§\
        →2×struct A;→→→6→2⇒Done→2→→§\
        →8000×struct A;→→→0→2⇒WriteFailed→0→st→write failed\n§\
        →8000×struct A;→→→23997→2⇒WriteFailed→7999→st→write failed\n§\
        →8000×struct A;→→→→2⇒Done→8000→→§\
        →5000×struct A;→→→75→2⇒WriteFailed→25→st→write failed\n§\
        --map→struct A;→→0⇒ReadFailed→0→→read failed\n§\
        --map→struct A;→→→1→2⇒WriteFailed→0→0+6 0+6\n7+→write failed\n§\
        →}→→→→→0⇒Refused(Unbalanced { at: 0 })→0→→1§\
        →}→→→→→1⇒Refused(Unbalanced { at: 0 })→0→→1:§\
        →}→→→→→2⇒Refused(Unbalanced { at: 0 })→0→→1:1§\
        →}→→→→→3⇒Refused(Unbalanced { at: 0 })→0→→1:1:§\
        →}→→→→→4⇒Refused(Unbalanced { at: 0 })→0→→1:1: unbalanced delimiter\n§\
        --sample 2 --items 1→struct A;→→0→0→0⇒WriteFailed→0→→write failed\n§\
        --sample 2 --items 1→struct A;→→0→0→5⇒WriteFailed→0→items→write failed\n";
    each_is_told(&rt, rt.alloc(), rows, counted_outcome)?;
    Ok(())
}

// The body of an arm or of a closure is as deep as it is with its braces, whether it has them or not; and so is what was laid out.
#[test]
fn depths_of_bodies(rt: HostRuntime) -> Result<(), Fail> {
    let rows = "→fn f(){·127×match x{A=>·b·127×}·}⇒Done§\
        →fn f(){·128×match x{A=>·b·128×}·}⇒Refused(NoItem { at: 0 })§\
        →fn f(){·127×match x{A=>{·b·127×}}·}⇒Done§\
        →fn f(){·128×match x{A=>{·b·128×}}·}⇒Refused(NoItem { at: 0 })§\
        →fn f(){·254×{·b·254×}·}⇒Done§\
        →fn f(){·255×{·b·255×}·}⇒Refused(NoItem { at: 0 })§\
        →fn f(){·254×if a{·b·254×}·}⇒Done§\
        →fn f(){·255×if a{·b·255×}·}⇒Refused(NoItem { at: 0 })§\
        →fn f(){·254×loop{·b·254×}·}⇒Done§\
        →fn f(){·255×loop{·b·255×}·}⇒Refused(NoItem { at: 0 })§\
        →fn f(){·127×||·b·}⇒Done§\
        →fn f(){·128×||·b·}⇒Refused(NoItem { at: 0 })§\
        →fn f(){·127×||{·b·127×}·}⇒Done§\
        →fn f(){·128×||{·b·128×}·}⇒Refused(NoItem { at: 0 })§\
        →fn f(){·84×||{{·b·84×}}·}⇒Done§\
        →fn f(){·85×||{{·b·85×}}·}⇒Refused(NoItem { at: 0 })§\
        →fn f(){·254×let A=a else{·b·254×};·}⇒Done§\
        →fn f(){·255×let A=a else{·b·255×};·}⇒Refused(NoItem { at: 0 })§\
        →fn f(){·254×fn g(){·b·254×}·}⇒Done§\
        →fn f(){·255×fn g(){·b·255×}·}⇒Refused(NoItem { at: 0 })";
    each_is_told(&rt, rt.alloc(), rows, status_of)?;
    Ok(())
}

// An expression stands in so many others at most, and what is a list in its own node takes no depth. An item stands in 255 others at
// most, and a group of a token list in any number.
#[test]
fn depths(rt: HostRuntime) -> Result<(), Fail> {
    let alloc = rt.alloc();
    let values = "→const A:T=·254×(·1·254×)·;⇒Done§\
        →const A:T=·255×(·1·255×)·;⇒Refused(NoItem { at: 0 })§\
        →const A:T=·254×a(·1·254×)·;⇒Done§\
        →const A:T=·255×a(·1·255×)·;⇒Refused(NoItem { at: 0 })§\
        →const A:T=·254×a[·1·254×]·;⇒Done§\
        →const A:T=·255×a[·1·255×]·;⇒Refused(NoItem { at: 0 })§\
        →const A:T=·254×a.b(·1·254×)·;⇒Done§\
        →const A:T=·255×a.b(·1·255×)·;⇒Refused(NoItem { at: 0 })§\
        →const A:T=·254×S{a:·1·254×}·;⇒Done§\
        →const A:T=·255×S{a:·1·255×}·;⇒Refused(NoItem { at: 0 })§\
        →const A:T=·254×return ·1·;⇒Done§\
        →const A:T=·255×return ·1·;⇒Refused(NoItem { at: 0 })§\
        →const A:T=·127×-(·1·127×)·;⇒Done§\
        →const A:T=·128×-(·1·128×)·;⇒Refused(NoItem { at: 0 })§\
        →const A:T=·127×(..·1·127×)·;⇒Done§\
        →const A:T=·128×(..·1·128×)·;⇒Refused(NoItem { at: 0 })§\
        →const A:T=·84×a=b+(·1·84×)·;⇒Done§\
        →const A:T=·85×a=b+(·1·85×)·;⇒Refused(NoItem { at: 0 })§\
        →const A:T=·63×a+(b*(·1·63×))·;⇒Done§\
        →const A:T=·64×a+(b*(·1·64×))·;⇒Refused(NoItem { at: 0 })§\
        →const A:T=·300×1+·1·;⇒Done§\
        →const A:T=·300×a=·1·;⇒Done§\
        →const A:T=·300×-·1·;⇒Done§\
        →const A:T=·1·300×?·;⇒Done§\
        →const A:T=·1·300× as B·;⇒Done";
    let others = "→256×mod a{·256×}⇒Done§\
        →257×mod a{·257×}⇒Refused(NoItem { at: 0 })§\
        →10000×mod a{·10000×}⇒Refused(NoItem { at: 0 })§\
        →m!·5000×(·5000×)·;⇒Done§\
        →1000000×(⇒Refused(Unbalanced { at: 999999 })§\
        →1000000×}⇒Refused(Unbalanced { at: 0 })";
    each_is_told(&rt, alloc, values, status_of)?;
    each_is_told(&rt, alloc, others, status_of)?;
    Ok(())
}
