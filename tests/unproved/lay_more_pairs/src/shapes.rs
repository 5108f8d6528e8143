//! Nodes that are read from texts, with parts that are put in.
use lay_code::{Block, Boxed, Branch, Condition, Expr, ItemKind, Link, Step, Stmt};
use lay_files::read_bytes;
use lay_test_rows::repeated;
use lay_token::Text;
use std::alloc::Global;
use std::mem;

/// A node: a text, in which `p` and `q` stand for its parts, how many of these it has, and whether a part is the whole of a statement or
/// of a body, which never gets a pair.
#[derive(Clone, Copy)]
pub struct Shape {
    pub text: &'static str,
    pub parts: usize,
    pub whole: bool,
}

/// The expression that a text reads to.
pub fn expr(alloc: Global, text: &str) -> Option<Expr> {
    let mut all = repeated(alloc, b"const A:B=", 1).ok()?;
    all.extend_from_slice(text.as_bytes()).ok()?;
    all.extend_from_slice(b";").ok()?;
    let mut file = read_bytes(alloc, all.as_slice()).ok()?;
    match file.items.as_mut_slice() {
        [item] => match item.kind.get_mut() {
            ItemKind::Value { value, .. } => {
                let value = mem::replace(value, None)?;
                Some(value.into_inner())
            },
            _ => None,
        },
        _ => None,
    }
}

/// A box of it.
pub fn boxed<T: Drop>(alloc: Global, value: T) -> Option<Boxed<T>> {
    Boxed::new(alloc, value).ok()
}

/// An expression in parentheses, if it is to have them.
pub fn paired(alloc: Global, expr: Expr, pair: bool) -> Option<Expr> {
    if !pair {
        return Some(expr);
    }
    Some(Expr::Paren {
        inner: boxed(alloc, expr)?,
    })
}

/// The node of a text with this part for the name in it.
pub fn with_part(node: Expr, name: &[u8], part: Expr) -> Option<Expr> {
    let mut node = node;
    let mut part = Some(part);
    fill(&mut node, name, &mut part);
    match part {
        Some(_) => None,
        None => Some(node),
    }
}

/// Whether a path is the name.
fn is_named(text: &Text, name: &[u8]) -> bool {
    text.as_bytes() == name
}

/// Puts the part for the first path that is the name.
fn fill(expr: &mut Expr, name: &[u8], part: &mut Option<Expr>) {
    let found = match expr {
        Expr::Path { path } => match path.segments.as_slice() {
            [(word, _)] => is_named(&word.text, name),
            _ => false,
        },
        _ => false,
    };
    if found {
        if let Some(part) = part.take() {
            *expr = part;
        }
        return;
    }
    match expr {
        Expr::Paren { inner: x }
        | Expr::Unary { operand: x, .. }
        | Expr::Cast { operand: x, .. }
        | Expr::Repeat { element: x, .. }
        | Expr::Closure { body: x, .. } => fill(x.get_mut(), name, part),
        Expr::Tuple { elements } | Expr::Array { elements } => {
            for x in elements.as_mut_slice().iter_mut() {
                fill(x, name, part);
            }
        },
        Expr::Chain { first, rest } => {
            fill(first.get_mut(), name, part);
            for (_, x) in rest.as_mut_slice().iter_mut() {
                fill(x.get_mut(), name, part);
            }
        },
        Expr::Range { start, end, .. } => {
            fill_operand(start, name, part);
            fill_operand(end, name, part);
        },
        Expr::Assign { targets, value } => {
            for (x, _) in targets.as_mut_slice().iter_mut() {
                fill(x.get_mut(), name, part);
            }
            fill(value.get_mut(), name, part);
        },
        Expr::Postfix { base, steps } => {
            fill(base.get_mut(), name, part);
            for step in steps.as_mut_slice().iter_mut() {
                fill_step(step, name, part);
            }
        },
        Expr::Return { operand } | Expr::Break { operand, .. } => fill_operand(operand, name, part),
        Expr::Struct {
            base: Some(base),
            ..
        } => fill_operand(base, name, part),
        Expr::Block { body, .. }
        | Expr::Unsafe { body }
        | Expr::Loop { body, .. }
        | Expr::Async { body, .. } => fill_block(body, name, part),
        Expr::If { branches, .. } => {
            for branch in branches.as_mut_slice().iter_mut() {
                fill_branch(branch, name, part);
            }
        },
        Expr::While { condition, .. } => fill_condition(condition, name, part),
        Expr::For { iterated, .. } => fill(iterated.get_mut(), name, part),
        Expr::Match {
            scrutinee,
            arms,
            ..
        } => {
            fill(scrutinee.get_mut(), name, part);
            for arm in arms.as_mut_slice().iter_mut() {
                fill_operand(&mut arm.guard, name, part);
                fill(arm.body.get_mut(), name, part);
            }
        },
        _ => {},
    }
}

fn fill_operand(operand: &mut Option<Boxed<Expr>>, name: &[u8], part: &mut Option<Expr>) {
    if let Some(x) = operand {
        fill(x.get_mut(), name, part);
    }
}

fn fill_step(step: &mut Step, name: &[u8], part: &mut Option<Expr>) {
    match step {
        Step::Method { args, .. } | Step::Apply { args } => {
            for x in args.as_mut_slice().iter_mut() {
                fill(x, name, part);
            }
        },
        Step::Index { index } => fill(index.get_mut(), name, part),
        _ => {},
    }
}

fn fill_block(block: &mut Block, name: &[u8], part: &mut Option<Expr>) {
    for stmt in block.stmts.as_mut_slice().iter_mut() {
        fill_stmt(stmt, name, part);
    }
}

fn fill_stmt(stmt: &mut Stmt, name: &[u8], part: &mut Option<Expr>) {
    match stmt {
        Stmt::Let {
            value,
            otherwise,
            ..
        } => {
            fill_operand(value, name, part);
            if let Some(block) = otherwise {
                fill_block(block, name, part);
            }
        },
        Stmt::Expr { expr, .. } => fill(expr.get_mut(), name, part),
        Stmt::Item { .. } => {},
    }
}

fn fill_branch(branch: &mut Branch, name: &[u8], part: &mut Option<Expr>) {
    fill_condition(&mut branch.condition, name, part);
}

fn fill_condition(condition: &mut Condition, name: &[u8], part: &mut Option<Expr>) {
    for link in condition.links.as_mut_slice().iter_mut() {
        match link {
            Link::Expr { expr } => fill(expr.get_mut(), name, part),
            Link::Let { value, .. } => fill(value.get_mut(), name, part),
        }
    }
}
