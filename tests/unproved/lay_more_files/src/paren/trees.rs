//! Trees that lack parentheses: a node that is read from a text, in which another stands for the path `p`.

use lay_code::{Boxed, Branch, Condition, Expr, File, ItemKind, Link, Op, Stmt};
use lay_files::{read_bytes, text_of};
use lay_test_rows::repeated;
use lay_text::Text;
use std::alloc::Global;
use std::mem;

/// The file of a constant that this text is the value of.
pub(crate) fn file(alloc: Global, value: &str) -> Option<File> {
    let mut all = repeated(alloc, b"const A:B=", 1).ok()?;
    all.extend_from_slice(value.as_bytes()).ok()?;
    all.extend_from_slice(b";").ok()?;
    read_bytes(alloc, all.as_slice()).ok()
}

/// The expression that a text reads to.
pub(crate) fn expr(alloc: Global, text: &str) -> Option<Expr> {
    let mut file = file(alloc, text)?;
    match file.items.as_mut_slice() {
        [item] => taken(item.kind.get_mut()),
        _ => None,
    }
}

/// Takes the value out of a constant.
fn taken(kind: &mut ItemKind) -> Option<Expr> {
    match kind {
        ItemKind::Value { value, .. } => {
            let value = mem::replace(value, None)?;
            Some(value.into_inner())
        },
        _ => None,
    }
}

/// The text of a file whose constant has this value.
pub(crate) fn printed(alloc: Global, value: Expr) -> Option<Text> {
    let mut file = file(alloc, "p")?;
    let value = Boxed::new(alloc, value).ok()?;
    match file.items.as_mut_slice() {
        [item] => keep(item.kind.get_mut(), value),
        _ => return None,
    }
    text_of(alloc, &file).ok()
}

/// Puts a value into a constant.
fn keep(kind: &mut ItemKind, value: Boxed<Expr>) {
    if let ItemKind::Value { value: there, .. } = kind {
        *there = Some(value);
    }
}

/// The node of a text, in which the part stands for the path `p`.
pub(crate) fn with_part(alloc: Global, text: &str, part: Expr) -> Option<Expr> {
    let mut part = part;
    let mut node = expr(alloc, text)?;
    put(&mut node, &mut part);
    Some(node)
}

/// Whether an expression is the path `p`.
fn is_hole(expr: &Expr) -> bool {
    match expr {
        Expr::Path { path } => match path.segments.as_slice() {
            [(word, _)] => word.text.as_bytes() == b"p".as_slice(),
            _ => false,
        },
        _ => false,
    }
}

/// Puts the part for an expression that is the path `p`.
fn swap_in(there: &mut Expr, part: &mut Expr) {
    if is_hole(there) {
        mem::swap(there, part);
    }
}

/// Puts the part for the path `p`, where that is a part of the node.
fn put(node: &mut Expr, part: &mut Expr) {
    match node {
        Expr::Path { .. } => mem::swap(node, part),
        Expr::Unary { operand: there, .. }
        | Expr::Cast { operand: there, .. }
        | Expr::Closure { body: there, .. }
        | Expr::Postfix { base: there, .. }
        | Expr::Match {
            scrutinee: there,
            ..
        }
        | Expr::For {
            iterated: there,
            ..
        } => swap_in(there.get_mut(), part),
        Expr::Chain { first, rest } => {
            swap_in(first.get_mut(), part);
            put_operand(rest.as_mut_slice(), part);
        },
        Expr::Range { start, end, .. } => {
            put_if(start, part);
            put_if(end, part);
        },
        Expr::Assign { targets, value } => {
            put_target(targets.as_mut_slice(), part);
            swap_in(value.get_mut(), part);
        },
        Expr::Return { operand } | Expr::Break { operand, .. } => put_if(operand, part),
        Expr::If { branches, .. } => put_branch(branches.as_mut_slice(), part),
        Expr::While { condition, .. } => put_condition(condition, part),
        Expr::Block { body, .. } => put_stmt(body.stmts.as_mut_slice(), part),
        _ => {},
    }
}

/// The same of the operands behind operators.
fn put_operand(operands: &mut [(Op, Boxed<Expr>)], part: &mut Expr) {
    for (_, operand) in operands.iter_mut() {
        swap_in(operand.get_mut(), part);
    }
}

/// The same of the targets of an assignment.
fn put_target(targets: &mut [(Boxed<Expr>, Op)], part: &mut Expr) {
    for (target, _) in targets.iter_mut() {
        swap_in(target.get_mut(), part);
    }
}

/// The same of an operand that may be left out.
fn put_if(operand: &mut Option<Boxed<Expr>>, part: &mut Expr) {
    if let Some(there) = operand {
        swap_in(there.get_mut(), part);
    }
}

/// The same of the conditions of branches.
fn put_branch(branches: &mut [Branch], part: &mut Expr) {
    for branch in branches.iter_mut() {
        put_condition(&mut branch.condition, part);
    }
}

/// The same of the links of a condition.
fn put_condition(condition: &mut Condition, part: &mut Expr) {
    for link in condition.links.as_mut_slice().iter_mut() {
        match link {
            Link::Expr { expr } => swap_in(expr.get_mut(), part),
            Link::Let { value, .. } => swap_in(value.get_mut(), part),
        }
    }
}

/// The same of statements.
fn put_stmt(stmts: &mut [Stmt], part: &mut Expr) {
    for stmt in stmts.iter_mut() {
        match stmt {
            Stmt::Let { value, .. } => put_if(value, part),
            Stmt::Expr { expr, .. } => swap_in(expr.get_mut(), part),
            Stmt::Item { .. } => {},
        }
    }
}
