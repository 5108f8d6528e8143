//! Which trees lack nothing but parentheses.

use crate::paren::rows::tree;
use crate::paren::trees::expr;
use lay_code::{Expr, Op, Path, Step, Stmt};
use lay_laws::is_loose;
use lay_test_rows::{BETWEEN, parts};
use lay_text::{List, Text};
use std::alloc::Global;
use std::test::Fail;

/// An expression, behind `←` what it is spoilt with, and whether it then lacks nothing but parentheses.
const SPOILT: &str =
    "a←b→yes§a←fn→no§a←a + b→no§1←2→yes§1←2 + 3→no§1←(2)→no§a + b + c←-→yes§a + b + c←<→no\
    §a[0]←()→yes§a.b←()→no§{ loop {} b; }←;→yes§{ a; b; }←;→no";

/// A node, behind `←` the one that stands in it for `p`, and whether that lacks nothing but parentheses.
const BODIES: &str = "|| p←{ a; b }→yes§|| p←{ a }→no§|| p←'a: { a }→yes§-p←{ a }→yes";

/// Whether a tree lacks nothing but parentheses, where there is a tree.
pub(crate) fn told(alloc: Global, tree: Option<Expr>) -> Option<bool> {
    is_loose(alloc, &tree?).ok()
}

/// The expression of a row, spoilt.
fn spoilt(alloc: Global, given: &str) -> Option<Expr> {
    let (text, with) = given.split_once('←')?;
    let mut tree = expr(alloc, text)?;
    spoil(alloc, &mut tree, with)?;
    Some(tree)
}

/// Renames a path, gives a literal another text, operands other operators and steps a call behind them, and ends no statement in a `;`.
fn spoil(alloc: Global, tree: &mut Expr, with: &str) -> Option<()> {
    match tree {
        Expr::Path { path } => rename(path, Text::from_bytes(alloc, with.as_bytes()).ok()?),
        Expr::Lit { literal } => literal.text = Text::from_bytes(alloc, with.as_bytes()).ok()?,
        Expr::Chain { rest, .. } => {
            for (op, _) in rest.as_mut_slice().iter_mut() {
                *op = if with == "<" { Op::Less } else { Op::Sub };
            }
        },
        Expr::Postfix { steps, .. } => {
            let args = List::new(alloc);
            steps.push(Step::Apply { args }).ok()?;
        },
        Expr::Block { body, .. } => unend(body.stmts.as_mut_slice()),
        _ => {},
    }
    Some(())
}

/// Renames the one segment of a path.
fn rename(path: &mut Path, name: Text) {
    if let [(word, _)] = path.segments.as_mut_slice() {
        word.text = name;
    }
}

/// Takes away the `;` of each statement.
fn unend(stmts: &mut [Stmt]) {
    for stmt in stmts.iter_mut() {
        if let Stmt::Expr { ended, .. } = stmt {
            *ended = false;
        }
    }
}

#[test]
fn what_no_parentheses_mend(rt: HostRuntime) -> Result<(), Fail> {
    let alloc = rt.alloc();
    for row in SPOILT.split(BETWEEN) {
        let (given, wanted) = parts(row);
        assert!(rt;
            told(alloc, spoilt(alloc, given)) == Some(wanted == "yes"),
            "{row}"
        );
    }
    Ok(())
}

#[test]
fn bodies(rt: HostRuntime) -> Result<(), Fail> {
    let alloc = rt.alloc();
    for row in BODIES.split(BETWEEN) {
        let (given, wanted) = parts(row);
        assert!(rt;
            told(alloc, tree(alloc, given)) == Some(wanted == "yes"),
            "{row}"
        );
    }
    Ok(())
}
