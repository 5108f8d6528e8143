//! Made by scripts/rust.sh from crates/lay_tree/src/enclosed.rt, which is proved: change that.
//!
//! Whether a file is one constant, whose value is an expression with each part in parentheses.
use crate::generated::lay_tree::exprs::same_part;
use crate::generated::lay_code::{
    Expr,
    File,
    GivenName,
    Item,
    ItemKind,
    Ty,
    ValueHead,
    Vis,
};
use crate::generated::lay_node::Boxed;
use crate::generated::lay_paren_defs::Enclosed;
/// Whether the file is only the constant `const _: () = e;`, where `e` is the expression with
/// itself and each part in parentheses. No pair is put round what is the whole of a statement, nor
/// round an unlabelled block as the body of an arm or of a closure.
///
/// It is for programs that make trees. Anything may stand in parentheses: so the text of this
/// constant parses back to it exactly if the expression lacks nothing but parentheses.
pub fn same_enclosed(expr: &Expr, file: &File) -> bool {
    file.shebang.is_none() && file.attrs.as_slice().is_empty()
        && is_alone(expr, file.items.as_slice())
}
/// Whether the constant is the only item.
fn is_alone(expr: &Expr, items: &[Item]) -> bool {
    match items {
        [item] => is_constant(expr, item),
        _ => false,
    }
}
/// Whether the item is the constant.
fn is_constant(expr: &Expr, item: &Item) -> bool {
    item.attrs.as_slice().is_empty() && matches!(item.vis, Vis::Inherited)
        && is_value(expr, item.kind.get())
}
/// Whether the item is the constant; its attributes and visibility aren't compared here.
fn is_value(expr: &Expr, item: &ItemKind) -> bool {
    match item {
        ItemKind::Value { head, value } => is_head(head) && is_enclosed(expr, value),
        _ => false,
    }
}
/// Whether the value is the expression with itself and each part in parentheses.
fn is_enclosed(expr: &Expr, value: &Option<Boxed<Expr>>) -> bool {
    match value {
        Some(given) => same_part::<Enclosed>(expr, given.get()),
        None => false,
    }
}
/// Whether it is `const _: ()`.
fn is_head(value_head: &ValueHead) -> bool {
    match value_head {
        ValueHead::Const { name, ty } => {
            matches!(name, GivenName::Underscore) && is_unit(ty)
        }
        ValueHead::Static { .. } => false,
    }
}
/// Whether the type is `()`.
fn is_unit(declared: &Ty) -> bool {
    match declared {
        Ty::Tuple { elements } => elements.as_slice().is_empty(),
        _ => false,
    }
}
