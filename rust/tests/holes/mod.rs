//! Trees that lack parentheses: a node that is read from a text, in which another stands for the
//! path `p`.
use froesaffron::read;
use froesaffron::tree::*;

/// The expression that a text reads to.
pub fn expr(text: &str) -> Expr {
    let mut file = read(&format!("const A: B = {text};")).unwrap();
    assert_eq!(file.items.as_slice().len(), 1, "{text}");
    match file.items.as_mut_slice()[0].kind.get_mut() {
        ItemKind::Value { value, .. } => value.take().unwrap().into_inner(),
        _ => panic!("{text}"),
    }
}

/// The tree of a row: nodes with `←` between them, each of which stands for `p` in the one before
/// it.
pub fn nested(row: &str) -> Expr {
    let (node, part) = row.split_once('←').map_or((row, None), |(node, part)| (node, Some(part)));
    let mut node = expr(node);
    if let Some(part) = part {
        let mut part = Some(nested(part));
        put(&mut node, &mut part);
        assert!(part.is_none(), "{row}");
    }
    node
}

fn is_hole(expr: &Expr) -> bool {
    match expr {
        Expr::Path { path } => {
            matches!(path.segments.as_slice(), [(word, _)] if word.text.as_bytes() == b"p")
        }
        _ => false,
    }
}

/// Puts the part for the first path `p` in the expression, if it wasn't put for one.
fn put(expr: &mut Expr, part: &mut Option<Expr>) {
    if is_hole(expr) {
        if let Some(part) = part.take() {
            *expr = part;
        }
        return;
    }
    match expr {
        Expr::Unary { operand: inner, .. }
        | Expr::Cast { operand: inner, .. }
        | Expr::Closure { body: inner, .. }
        | Expr::Postfix { base: inner, .. }
        | Expr::Match { scrutinee: inner, .. }
        | Expr::For { iterated: inner, .. }
        | Expr::Paren { inner } => put(inner.get_mut(), part),
        Expr::Chain { first, rest } => {
            put(first.get_mut(), part);
            rest.as_mut_slice().iter_mut().for_each(|(_, operand)| put(operand.get_mut(), part));
        }
        Expr::Range { start, end, .. } => {
            put_in_option(start, part);
            put_in_option(end, part);
        }
        Expr::Assign { targets, value } => {
            targets.as_mut_slice().iter_mut().for_each(|(target, _)| put(target.get_mut(), part));
            put(value.get_mut(), part);
        }
        Expr::Return { operand } | Expr::Break { operand, .. } => put_in_option(operand, part),
        Expr::If { branches, .. } => {
            branches
                .as_mut_slice()
                .iter_mut()
                .for_each(|branch| put_in_condition(&mut branch.condition, part));
        }
        Expr::While { condition, .. } => put_in_condition(condition, part),
        Expr::Block { body, .. } => put_in_block(body, part),
        _ => {}
    }
}

fn put_in_option(operand: &mut Option<Boxed<Expr>>, part: &mut Option<Expr>) {
    if let Some(operand) = operand {
        put(operand.get_mut(), part);
    }
}

fn put_in_condition(condition: &mut Condition, part: &mut Option<Expr>) {
    for link in condition.links.as_mut_slice() {
        match link {
            Link::Expr { expr } => put(expr.get_mut(), part),
            Link::Let { value, .. } => put(value.get_mut(), part),
            _ => {}
        }
    }
}

fn put_in_block(block: &mut Block, part: &mut Option<Expr>) {
    for stmt in block.stmts.as_mut_slice() {
        match stmt {
            Stmt::Let { value, .. } => put_in_option(value, part),
            Stmt::Expr { expr, .. } => put(expr.get_mut(), part),
            Stmt::Item { item } => put_in_item(item.get_mut(), part),
            _ => {}
        }
    }
}

fn put_in_item(item: &mut Item, part: &mut Option<Expr>) {
    match item.kind.get_mut() {
        ItemKind::Value { value, .. } => put_in_option(value, part),
        ItemKind::Function { body: Some(body), .. } => put_in_block(body, part),
        ItemKind::Trait { items, .. } => {
            items.as_mut_slice().iter_mut().for_each(|item| put_in_item(item, part))
        }
        _ => {}
    }
}
