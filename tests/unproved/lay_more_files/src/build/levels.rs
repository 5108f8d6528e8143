//! How deep nodes may be: 256, where a path, a literal, an empty struct and an empty module need 1.

use crate::build::parts::{body, made, named, nothing, only, path, sum, type_of};
use lay_build::{
    BuildError, BuiltExpr, BuiltItem, BuiltStmt, BuiltType, Op, block, expr_binary, expr_call,
    expr_if, item_const, item_mod, stmt_expr, type_ref,
};
use lay_text::List;
use std::alloc::Global;
use std::process::Abort;

/// A module that holds nothing, within so many others.
fn modules(rt: &impl Abort, alloc: Global, count: u64) -> BuiltItem {
    let mut module = made(
        rt,
        item_mod(alloc, false, named(rt, alloc, "a"), List::new(alloc)),
    );
    for _ in 0..count {
        let items = only(rt, alloc, module);
        module = made(rt, item_mod(alloc, false, named(rt, alloc, "a"), items));
    }
    module
}

// Each module needs 1 more than the deepest item in it.
#[test]
fn modules_within_modules(rt: HostRuntime) {
    let alloc = rt.alloc();
    let items = only(&rt, alloc, modules(&rt, alloc, 255));
    assert!(&rt;
        matches!(
            item_mod(alloc, false, named(&rt, alloc, "a"), items),
            Err(BuildError::TooDeep)
        )
    );
}

/// `a` as the argument of so many calls.
fn calls(rt: &impl Abort, alloc: Global, count: u64) -> BuiltExpr {
    let mut call = path(rt, alloc, "a");
    for _ in 0..count {
        let args = only(rt, alloc, call);
        call = made(rt, expr_call(alloc, path(rt, alloc, "f"), args));
    }
    call
}

// A call needs 1 more than its arguments.
#[test]
fn calls_within_calls(rt: HostRuntime) {
    let alloc = rt.alloc();
    let args = only(&rt, alloc, calls(&rt, alloc, 255));
    assert!(&rt;
        matches!(
            expr_call(alloc, path(&rt, alloc, "f"), args),
            Err(BuildError::TooDeep)
        )
    );
}

/// So many sums, each an operand of the next.
fn sums(rt: &impl Abort, alloc: Global, count: u64) -> BuiltExpr {
    let mut whole = path(rt, alloc, "a");
    for _ in 0..count {
        whole = sum(rt, alloc, whole, path(rt, alloc, "b"));
    }
    whole
}

// The first sum needs 2, and each sum over it 2 more, since the operand's parentheses are a node too.
#[test]
fn operands_within_operands(rt: HostRuntime) {
    let alloc = rt.alloc();
    let left = sums(&rt, alloc, 128);
    let right = path(&rt, alloc, "b");
    assert!(&rt;
        matches!(
            expr_binary(alloc, Op::Add, left, right),
            Err(BuildError::TooDeep)
        )
    );
}

/// So many branches, each the only expression in the block of the next.
fn branches(rt: &impl Abort, alloc: Global, count: u64) -> BuiltExpr {
    let mut branch = path(rt, alloc, "a");
    for _ in 0..count {
        let then = body(rt, alloc, branch);
        branch = made(rt, expr_if(alloc, path(rt, alloc, "a"), then, None));
    }
    branch
}

// A branch needs 1 more than what stands in its block, and so does the block by itself.
#[test]
fn blocks_within_blocks(rt: HostRuntime) {
    let alloc = rt.alloc();
    let none: List<BuiltStmt> = List::new(alloc);
    let tail = branches(&rt, alloc, 255);
    assert!(&rt; matches!(block(alloc, none, Some(tail)), Err(BuildError::TooDeep)));
    let stmt = branches(&rt, alloc, 255);
    assert!(&rt; matches!(stmt_expr(alloc, stmt), Err(BuildError::TooDeep)));
    let test = branches(&rt, alloc, 255);
    assert!(&rt;
        matches!(
            expr_if(alloc, test, nothing(&rt, alloc), None),
            Err(BuildError::TooDeep)
        )
    );
}

/// So many references to a type.
fn references(rt: &impl Abort, alloc: Global, count: u64) -> BuiltType {
    let mut reference = type_of(rt, alloc, "A");
    for _ in 0..count {
        reference = made(rt, type_ref(alloc, false, reference));
    }
    reference
}

// What a constant's type needs the constant needs, and 1 more.
#[test]
fn types_in_items(rt: HostRuntime) {
    let alloc = rt.alloc();
    let type_fits = references(&rt, alloc, 254);
    made(
        &rt,
        item_const(
            alloc,
            false,
            named(&rt, alloc, "A"),
            type_fits,
            calls(&rt, alloc, 254),
        ),
    );
    let ty = references(&rt, alloc, 255);
    let one = path(&rt, alloc, "b");
    assert!(&rt;
        matches!(
            item_const(alloc, false, named(&rt, alloc, "A"), ty, one),
            Err(BuildError::TooDeep)
        )
    );
}
