//! Made by scripts/rust.sh from crates/lay_tree/src/exprs.rt, which is proved: change that.
//!
//! Comparison of expressions, blocks and items, which contain each other.
//!
//! The functions compare a tree with what another tree becomes by `X`: the same tree (`AsIs`), or
//! the tree with each part in parentheses (`Enclosed`).
use crate::generated::lay_tree::operators::{same_op, same_params, same_prefixes};
use crate::generated::lay_code::{
    Arm,
    Block,
    Branch,
    Condition,
    Expr,
    FieldExpr,
    Item,
    ItemKind,
    Link,
    Op,
    Step,
    Stmt,
};
use crate::generated::lay_node::Boxed;
use crate::generated::lay_paren_defs::{Enclose, is_body_enclosed};
use crate::generated::lay_same_nodes::Same;
/// Whether `other` is what `expr` becomes, without a pair of parentheses round the whole.
pub fn same_whole<X: Enclose>(expr: &Expr, other: &Expr) -> bool {
    match expr {
        Expr::Lit { literal } => {
            matches!(other, Expr::Lit { literal: given } if literal.same(given))
        }
        Expr::Path { path } => matches!(
            other, Expr::Path { path: given } if path.same(given)
        ),
        Expr::Underscore => matches!(other, Expr::Underscore),
        Expr::Call { call } => matches!(
            other, Expr::Call { call: given } if call.same(given)
        ),
        Expr::Paren { inner } => {
            matches!(
                other, Expr::Paren { inner: given } if
                same_part::<X>(inner.get(), given.get())
            )
        }
        Expr::Continue { label } => {
            matches!(other, Expr::Continue { label: given } if label.same(given))
        }
        Expr::Tuple { elements } => {
            match other {
                Expr::Tuple { elements: given } => {
                    same_parts::<X>(elements.as_slice(), given.as_slice())
                }
                _ => false,
            }
        }
        Expr::Array { elements } => {
            match other {
                Expr::Array { elements: given } => {
                    same_parts::<X>(elements.as_slice(), given.as_slice())
                }
                _ => false,
            }
        }
        Expr::Repeat { element, length } => {
            match other {
                Expr::Repeat { element: other_element, length: other_length } => {
                    same_part::<X>(element.get(), other_element.get())
                        && length.same(other_length)
                }
                _ => false,
            }
        }
        Expr::Struct { path, fields, base } => {
            match other {
                Expr::Struct {
                    path: other_path,
                    fields: other_fields,
                    base: other_base,
                } => {
                    path.same(other_path)
                        && same_fields::<X>(fields.as_slice(), other_fields.as_slice())
                        && same_base::<X>(base, other_base)
                }
                _ => false,
            }
        }
        Expr::Chain { first, rest } => {
            match other {
                Expr::Chain { first: other_first, rest: other_rest } => {
                    same_part::<X>(first.get(), other_first.get())
                        && same_operands::<X>(rest.as_slice(), other_rest.as_slice())
                }
                _ => false,
            }
        }
        Expr::Cast { operand, types } => {
            match other {
                Expr::Cast { operand: other_operand, types: other_types } => {
                    same_part::<X>(operand.get(), other_operand.get())
                        && types.same(other_types)
                }
                _ => false,
            }
        }
        Expr::Unary { prefixes, operand } => {
            match other {
                Expr::Unary { prefixes: other_prefixes, operand: other_operand } => {
                    same_prefixes(prefixes.as_slice(), other_prefixes.as_slice())
                        && same_part::<X>(operand.get(), other_operand.get())
                }
                _ => false,
            }
        }
        Expr::Range { start, inclusive, end } => {
            match other {
                Expr::Range {
                    start: other_start,
                    inclusive: other_inclusive,
                    end: other_end,
                } => {
                    same_operand::<X>(start, other_start)
                        && *inclusive == *other_inclusive
                        && same_operand::<X>(end, other_end)
                }
                _ => false,
            }
        }
        Expr::Assign { targets, value } => {
            match other {
                Expr::Assign { targets: other_targets, value: other_value } => {
                    same_targets::<X>(targets.as_slice(), other_targets.as_slice())
                        && same_part::<X>(value.get(), other_value.get())
                }
                _ => false,
            }
        }
        Expr::Postfix { base, steps } => {
            match other {
                Expr::Postfix { base: other_base, steps: other_steps } => {
                    same_part::<X>(base.get(), other_base.get())
                        && same_steps::<X>(steps.as_slice(), other_steps.as_slice())
                }
                _ => false,
            }
        }
        Expr::Block { label, body } => {
            match other {
                Expr::Block { label: other_label, body: other_body } => {
                    label.same(other_label) && same_block::<X>(body, other_body)
                }
                _ => false,
            }
        }
        Expr::Unsafe { body } => {
            matches!(other, Expr::Unsafe { body: given } if same_block::<X>(body, given))
        }
        Expr::ConstBlock { body } => {
            matches!(
                other, Expr::ConstBlock { body: given } if same_block::<X>(body, given)
            )
        }
        Expr::Async { moves, body } => {
            match other {
                Expr::Async { moves: other_moves, body: other_body } => {
                    *moves == *other_moves && same_block::<X>(body, other_body)
                }
                _ => false,
            }
        }
        Expr::If { branches, otherwise } => {
            match other {
                Expr::If { branches: other_branches, otherwise: other_otherwise } => {
                    same_branches::<X>(branches.as_slice(), other_branches.as_slice())
                        && same_body::<X>(otherwise, other_otherwise)
                }
                _ => false,
            }
        }
        Expr::Match { scrutinee, attrs, arms } => {
            match other {
                Expr::Match {
                    scrutinee: other_scrutinee,
                    attrs: other_attrs,
                    arms: other_arms,
                } => {
                    same_part::<X>(scrutinee.get(), other_scrutinee.get())
                        && attrs.same(other_attrs)
                        && same_arms::<X>(arms.as_slice(), other_arms.as_slice())
                }
                _ => false,
            }
        }
        Expr::Loop { label, body } => {
            match other {
                Expr::Loop { label: other_label, body: other_body } => {
                    label.same(other_label) && same_block::<X>(body, other_body)
                }
                _ => false,
            }
        }
        Expr::While { label, condition, body } => {
            match other {
                Expr::While {
                    label: other_label,
                    condition: other_condition,
                    body: other_body,
                } => {
                    label.same(other_label)
                        && same_condition::<X>(condition, other_condition)
                        && same_block::<X>(body, other_body)
                }
                _ => false,
            }
        }
        Expr::For { label, pat, iterated, body } => {
            match other {
                Expr::For {
                    label: other_label,
                    pat: other_pat,
                    iterated: other_iterated,
                    body: other_body,
                } => {
                    label.same(other_label) && pat.same(other_pat)
                        && same_part::<X>(iterated.get(), other_iterated.get())
                        && same_block::<X>(body, other_body)
                }
                _ => false,
            }
        }
        Expr::Closure { is_async, moves, params, body } => {
            match other {
                Expr::Closure {
                    is_async: other_is_async,
                    moves: other_moves,
                    params: other_params,
                    body: other_body,
                } => {
                    *is_async == *other_is_async && *moves == *other_moves
                        && same_params(params.as_slice(), other_params.as_slice())
                        && same_body_part::<X>(body.get(), other_body.get())
                }
                _ => false,
            }
        }
        Expr::TypedClosure { is_async, moves, params, output, body } => {
            match other {
                Expr::TypedClosure {
                    is_async: other_is_async,
                    moves: other_moves,
                    params: other_params,
                    output: other_output,
                    body: other_body,
                } => {
                    *is_async == *other_is_async && *moves == *other_moves
                        && same_params(params.as_slice(), other_params.as_slice())
                        && output.same(other_output) && same_block::<X>(body, other_body)
                }
                _ => false,
            }
        }
        Expr::Return { operand } => {
            matches!(
                other, Expr::Return { operand: given } if
                same_operand::<X>(operand, given)
            )
        }
        Expr::Break { label, operand } => {
            match other {
                Expr::Break { label: other_label, operand: other_operand } => {
                    label.same(other_label) && same_operand::<X>(operand, other_operand)
                }
                _ => false,
            }
        }
    }
}
/// Whether `other` is what `expr` becomes as a part: in parentheses, if parts get them.
pub fn same_part<X: Enclose>(expr: &Expr, other: &Expr) -> bool {
    if !X::on() {
        return same_whole::<X>(expr, other);
    }
    match other {
        Expr::Paren { inner } => same_whole::<X>(expr, inner.get()),
        _ => false,
    }
}
/// Whether `other` is what `body` becomes as the body of an arm or of a closure.
fn same_body_part<X: Enclose>(body: &Expr, other: &Expr) -> bool {
    if is_body_enclosed::<X>(body) { same_part::<X>(body, other) } else {
        same_whole::<X>(body, other)
    }
}
/// Whether `others` are what `exprs` become as parts.
fn same_parts<X: Enclose>(exprs: &[Expr], others: &[Expr]) -> bool {
    if exprs.len() != others.len() {
        return false;
    }
    for (expr, other) in exprs.iter().zip(others) {
        if !same_part::<X>(expr, other) {
            return false;
        }
    }
    true
}
/// Whether `other` is what the optional part `operand` becomes.
fn same_operand<
    X: Enclose,
>(operand: &Option<Boxed<Expr>>, other: &Option<Boxed<Expr>>) -> bool {
    match operand {
        None => other.is_none(),
        Some(operand) => matches!(
            other, Some(given) if same_part::<X>(operand.get(), given.get())
        ),
    }
}
/// Whether `others` are what the operators and operands of a chain become.
fn same_operands<
    X: Enclose,
>(operands: &[(Op, Boxed<Expr>)], others: &[(Op, Boxed<Expr>)]) -> bool {
    if operands.len() != others.len() {
        return false;
    }
    for ((op, operand), (other_op, other_operand)) in operands.iter().zip(others) {
        if !same_op(op, other_op)
            || !same_part::<X>(operand.get(), other_operand.get()) {
            return false;
        }
    }
    true
}
/// Whether `other` is what the base of a struct literal becomes.
fn same_base<
    X: Enclose,
>(base: &Option<Option<Boxed<Expr>>>, other: &Option<Option<Boxed<Expr>>>) -> bool {
    match base {
        None => other.is_none(),
        Some(None) => matches!(other, Some(None)),
        Some(Some(base)) => {
            matches!(other, Some(Some(given)) if same_part::<X>(base.get(), given.get()))
        }
    }
}
/// Whether `others` are what the targets of an assignment become.
fn same_targets<
    X: Enclose,
>(targets: &[(Boxed<Expr>, Op)], others: &[(Boxed<Expr>, Op)]) -> bool {
    if targets.len() != others.len() {
        return false;
    }
    for ((target, op), (other_target, other_op)) in targets.iter().zip(others) {
        if !same_part::<X>(target.get(), other_target.get()) || !same_op(op, other_op) {
            return false;
        }
    }
    true
}
/// Whether `other` is what the field of a struct literal becomes.
fn same_field<X: Enclose>(field: &FieldExpr, other: &FieldExpr) -> bool {
    match field {
        FieldExpr::Named { attrs, name, value } => {
            match other {
                FieldExpr::Named {
                    attrs: other_attrs,
                    name: other_name,
                    value: other_value,
                } => {
                    attrs.same(other_attrs) && name.same(other_name)
                        && same_part::<X>(value.get(), other_value.get())
                }
                _ => false,
            }
        }
        FieldExpr::Numbered { attrs, index, value } => {
            match other {
                FieldExpr::Numbered {
                    attrs: other_attrs,
                    index: other_index,
                    value: other_value,
                } => {
                    attrs.same(other_attrs) && index.same(other_index)
                        && same_part::<X>(value.get(), other_value.get())
                }
                _ => false,
            }
        }
        FieldExpr::Short { attrs, name } => {
            match other {
                FieldExpr::Short { attrs: other_attrs, name: other_name } => {
                    attrs.same(other_attrs) && name.same(other_name)
                }
                _ => false,
            }
        }
    }
}
/// Whether `others` are what the fields of a struct literal become.
fn same_fields<X: Enclose>(fields: &[FieldExpr], others: &[FieldExpr]) -> bool {
    if fields.len() != others.len() {
        return false;
    }
    for (field, other) in fields.iter().zip(others) {
        if !same_field::<X>(field, other) {
            return false;
        }
    }
    true
}
/// Whether `other` is what `step` becomes.
fn same_step<X: Enclose>(step: &Step, other: &Step) -> bool {
    match step {
        Step::Field { name } => matches!(
            other, Step::Field { name: given } if name.same(given)
        ),
        Step::TupleIndex { index } => {
            matches!(other, Step::TupleIndex { index: given } if index.same(given))
        }
        Step::Method { name, generics, args } => {
            match other {
                Step::Method {
                    name: other_name,
                    generics: other_generics,
                    args: other_args,
                } => {
                    name.same(other_name) && generics.same(other_generics)
                        && same_parts::<X>(args.as_slice(), other_args.as_slice())
                }
                _ => false,
            }
        }
        Step::Apply { args } => {
            match other {
                Step::Apply { args: given } => {
                    same_parts::<X>(args.as_slice(), given.as_slice())
                }
                _ => false,
            }
        }
        Step::Index { index } => {
            matches!(
                other, Step::Index { index: given } if
                same_part::<X>(index.get(), given.get())
            )
        }
        Step::Try => matches!(other, Step::Try),
        Step::Await => matches!(other, Step::Await),
    }
}
/// Whether `others` are what `steps` become.
fn same_steps<X: Enclose>(steps: &[Step], others: &[Step]) -> bool {
    if steps.len() != others.len() {
        return false;
    }
    for (step, other) in steps.iter().zip(others) {
        if !same_step::<X>(step, other) {
            return false;
        }
    }
    true
}
/// Whether `other` is what `block` becomes.
pub fn same_block<X: Enclose>(block: &Block, other: &Block) -> bool {
    block.attrs.same(&other.attrs)
        && same_stmts::<X>(block.stmts.as_slice(), other.stmts.as_slice())
}
/// Whether `other` is what the optional block `body` becomes.
fn same_body<X: Enclose>(body: &Option<Block>, other: &Option<Block>) -> bool {
    match body {
        None => other.is_none(),
        Some(body) => matches!(other, Some(given) if same_block::<X>(body, given)),
    }
}
/// Whether `other` is what `stmt` becomes.
pub fn same_stmt<X: Enclose>(stmt: &Stmt, other: &Stmt) -> bool {
    match stmt {
        Stmt::Let { attrs, pat, ty, value, otherwise } => {
            match other {
                Stmt::Let {
                    attrs: other_attrs,
                    pat: other_pat,
                    ty: other_ty,
                    value: other_value,
                    otherwise: other_otherwise,
                } => {
                    attrs.same(other_attrs) && pat.same(other_pat) && ty.same(other_ty)
                        && same_operand::<X>(value, other_value)
                        && same_body::<X>(otherwise, other_otherwise)
                }
                _ => false,
            }
        }
        Stmt::Item { item } => {
            matches!(
                other, Stmt::Item { item: given } if
                same_item::<X>(item.get(), given.get())
            )
        }
        Stmt::Expr { attrs, expr, ended } => {
            match other {
                Stmt::Expr {
                    attrs: other_attrs,
                    expr: other_expr,
                    ended: other_ended,
                } => {
                    attrs.same(other_attrs) && *ended == *other_ended
                        && same_whole::<X>(expr.get(), other_expr.get())
                }
                _ => false,
            }
        }
    }
}
/// Whether `others` are what `stmts` become.
fn same_stmts<X: Enclose>(stmts: &[Stmt], others: &[Stmt]) -> bool {
    if stmts.len() != others.len() {
        return false;
    }
    for (stmt, other) in stmts.iter().zip(others) {
        if !same_stmt::<X>(stmt, other) {
            return false;
        }
    }
    true
}
/// Whether `other` is what `branch` becomes.
fn same_branch<X: Enclose>(branch: &Branch, other: &Branch) -> bool {
    same_condition::<X>(&branch.condition, &other.condition)
        && same_block::<X>(&branch.body, &other.body)
}
/// Whether `others` are what `branches` become.
fn same_branches<X: Enclose>(branches: &[Branch], others: &[Branch]) -> bool {
    if branches.len() != others.len() {
        return false;
    }
    for (branch, other) in branches.iter().zip(others) {
        if !same_branch::<X>(branch, other) {
            return false;
        }
    }
    true
}
/// Whether `other` is what `condition` becomes.
fn same_condition<X: Enclose>(condition: &Condition, other: &Condition) -> bool {
    same_links::<X>(condition.links.as_slice(), other.links.as_slice())
}
/// Whether `other` is what `link` becomes.
fn same_link<X: Enclose>(link: &Link, other: &Link) -> bool {
    match link {
        Link::Expr { expr } => {
            matches!(
                other, Link::Expr { expr: given } if
                same_part::<X>(expr.get(), given.get())
            )
        }
        Link::Let { pat, value } => {
            match other {
                Link::Let { pat: other_pat, value: other_value } => {
                    pat.same(other_pat) && same_part::<X>(value.get(), other_value.get())
                }
                _ => false,
            }
        }
    }
}
/// Whether `others` are what `links` become.
fn same_links<X: Enclose>(links: &[Link], others: &[Link]) -> bool {
    if links.len() != others.len() {
        return false;
    }
    for (link, other) in links.iter().zip(others) {
        if !same_link::<X>(link, other) {
            return false;
        }
    }
    true
}
/// Whether `other` is what `arm` becomes.
pub fn same_arm<X: Enclose>(arm: &Arm, other: &Arm) -> bool {
    arm.attrs.same(&other.attrs) && arm.pat.same(&other.pat)
        && same_operand::<X>(&arm.guard, &other.guard)
        && same_body_part::<X>(arm.body.get(), other.body.get())
}
/// Whether `others` are what `arms` become.
fn same_arms<X: Enclose>(arms: &[Arm], others: &[Arm]) -> bool {
    if arms.len() != others.len() {
        return false;
    }
    for (arm, other) in arms.iter().zip(others) {
        if !same_arm::<X>(arm, other) {
            return false;
        }
    }
    true
}
/// Whether `other` is what `item` becomes.
pub fn same_item<X: Enclose>(item: &Item, other: &Item) -> bool {
    item.attrs.same(&other.attrs) && item.vis.same(&other.vis)
        && same_kind::<X>(item.kind.get(), other.kind.get())
}
/// Whether `others` are what `items` become.
pub fn same_items<X: Enclose>(items: &[Item], others: &[Item]) -> bool {
    if items.len() != others.len() {
        return false;
    }
    for (item, other) in items.iter().zip(others) {
        if !same_item::<X>(item, other) {
            return false;
        }
    }
    true
}
/// Whether `other` is what `kind` becomes.
fn same_kind<X: Enclose>(kind: &ItemKind, other: &ItemKind) -> bool {
    match kind {
        ItemKind::ExternCrate { item } => {
            matches!(other, ItemKind::ExternCrate { item: given } if item.same(given))
        }
        ItemKind::Import { tree } => {
            matches!(other, ItemKind::Import { tree: given } if tree.same(given))
        }
        ItemKind::FileModule { name } => {
            matches!(other, ItemKind::FileModule { name: given } if name.same(given))
        }
        ItemKind::Module { name, attrs, items } => {
            match other {
                ItemKind::Module {
                    name: other_name,
                    attrs: other_attrs,
                    items: other_items,
                } => {
                    name.same(other_name) && attrs.same(other_attrs)
                        && same_items::<X>(items.as_slice(), other_items.as_slice())
                }
                _ => false,
            }
        }
        ItemKind::Function { head, wheres, body } => {
            match other {
                ItemKind::Function {
                    head: other_head,
                    wheres: other_wheres,
                    body: other_body,
                } => {
                    head.same(other_head) && wheres.same(other_wheres)
                        && same_body::<X>(body, other_body)
                }
                _ => false,
            }
        }
        ItemKind::Alias { item } => {
            matches!(other, ItemKind::Alias { item: given } if item.same(given))
        }
        ItemKind::Struct { item } => {
            matches!(other, ItemKind::Struct { item: given } if item.same(given))
        }
        ItemKind::Union { item } => {
            matches!(other, ItemKind::Union { item: given } if item.same(given))
        }
        ItemKind::Enum { item } => {
            matches!(other, ItemKind::Enum { item: given } if item.same(given))
        }
        ItemKind::Value { head, value } => {
            match other {
                ItemKind::Value { head: other_head, value: other_value } => {
                    head.same(other_head) && same_operand::<X>(value, other_value)
                }
                _ => false,
            }
        }
        ItemKind::Trait { head, wheres, attrs, items } => {
            match other {
                ItemKind::Trait {
                    head: other_head,
                    wheres: other_wheres,
                    attrs: other_attrs,
                    items: other_items,
                } => {
                    head.same(other_head) && wheres.same(other_wheres)
                        && attrs.same(other_attrs)
                        && same_items::<X>(items.as_slice(), other_items.as_slice())
                }
                _ => false,
            }
        }
        ItemKind::Impl { head, wheres, attrs, items } => {
            match other {
                ItemKind::Impl {
                    head: other_head,
                    wheres: other_wheres,
                    attrs: other_attrs,
                    items: other_items,
                } => {
                    head.same(other_head) && wheres.same(other_wheres)
                        && attrs.same(other_attrs)
                        && same_items::<X>(items.as_slice(), other_items.as_slice())
                }
                _ => false,
            }
        }
        ItemKind::Foreign { is_unsafe, abi, attrs, items } => {
            match other {
                ItemKind::Foreign {
                    is_unsafe: other_is_unsafe,
                    abi: other_abi,
                    attrs: other_attrs,
                    items: other_items,
                } => {
                    *is_unsafe == *other_is_unsafe && abi.same(other_abi)
                        && attrs.same(other_attrs)
                        && same_items::<X>(items.as_slice(), other_items.as_slice())
                }
                _ => false,
            }
        }
        ItemKind::MacroRules { name, rules } => {
            match other {
                ItemKind::MacroRules { name: other_name, rules: other_rules } => {
                    name.same(other_name) && rules.same(other_rules)
                }
                _ => false,
            }
        }
        ItemKind::Call { call } => {
            matches!(other, ItemKind::Call { call: given } if call.same(given))
        }
    }
}
