//! Made by scripts/rust.sh from crates/lay_build/src/items.rt, which is proved: change that.
//!
//! Builders of items.
use crate::generated::lay_build::blocks::bind;
use crate::generated::lay_build::kinds::{BuiltParam, NamedType};
use crate::generated::lay_build_types::{
    BuildError,
    BuiltBlock,
    BuiltExpr,
    BuiltItem,
    BuiltName,
    BuiltType,
    Turns,
    both,
    boxed,
    kept,
    nodes,
    part_or_none,
    turn_all,
};
use crate::generated::lay_code::{
    Block,
    Expr,
    Field,
    Fields,
    FnHead,
    Generics,
    GivenName,
    Item,
    ItemKind,
    Name,
    Param,
    ParamKind,
    Struct,
    Ty,
    ValueHead,
    Vis,
    Wheres,
};
use crate::generated::lay_text::List;
use crate::shims::Global;
/// A name with its type, as a parameter or a struct field: `a: B`.
pub fn param(name: BuiltName, ty: BuiltType) -> Result<BuiltParam, BuildError> {
    let (name, _) = name.into_parts();
    let (ty, need) = ty.into_parts();
    kept(Ok((NamedType { name, ty }, need + 1)))
}
/// A struct with named fields: `struct A { b: C }`.
pub fn item_struct(
    alloc: Global,
    public: bool,
    name: BuiltName,
    fields: List<BuiltParam>,
) -> Result<BuiltItem, BuildError> {
    let (name, _) = name.into_parts();
    let (fields, need) = nodes(alloc, fields)?;
    kept(structure(alloc, public, name, fields, need.max(1)))
}
/// A struct that needs this depth.
fn structure(
    alloc: Global,
    public: bool,
    name: Name,
    fields: List<NamedType>,
    need: u32,
) -> Result<(Item, u32), BuildError> {
    let fields = turn_all(alloc, fields)?;
    let item = Struct {
        name,
        generics: no_generics(alloc),
        fields: Fields::Named { fields },
        wheres: no_wheres(alloc),
    };
    item_of(alloc, public, ItemKind::Struct { item }, need)
}
impl Turns<Field> for NamedType {
    fn turn(self, alloc: Global) -> Result<Field, BuildError> {
        let NamedType { name, ty } = self;
        Ok(Field { attrs: List::new(alloc), vis: Vis::Inherited, name, ty })
    }
}
/// A constant: `const A: B = c;`.
pub fn item_const(
    alloc: Global,
    public: bool,
    name: BuiltName,
    ty: BuiltType,
    value: BuiltExpr,
) -> Result<BuiltItem, BuildError> {
    let (name, _) = name.into_parts();
    let (ty, need) = ty.into_parts();
    let (value, more) = value.into_parts();
    kept(constant(alloc, public, name, ty, value, need.max(more)))
}
/// A constant whose type and value need this depth.
fn constant(
    alloc: Global,
    public: bool,
    name: Name,
    ty: Ty,
    value: Expr,
    need: u32,
) -> Result<(Item, u32), BuildError> {
    let value = boxed(alloc, value)?;
    let kind = ItemKind::Value {
        head: ValueHead::Const { name: GivenName::Name(name), ty },
        value: Some(value),
    };
    item_of(alloc, public, kind, need + 1)
}
/// A function with these parameters, and this return type if there is one: `fn a(b: C) -> D { e }`.
pub fn item_fn(
    alloc: Global,
    public: bool,
    name: BuiltName,
    params: List<BuiltParam>,
    ret: Option<BuiltType>,
    body: BuiltBlock,
) -> Result<BuiltItem, BuildError> {
    let (name, _) = name.into_parts();
    let (output, need) = part_or_none(ret);
    let (params, body) = both(nodes(alloc, params), Ok(body.into_parts()))?;
    let (params, deepest) = params;
    let (body, more) = body;
    let need = deepest.max(need + 1).max(more);
    kept(function(alloc, public, name, params, output, body, need))
}
/// A function that needs this depth.
fn function(
    alloc: Global,
    public: bool,
    name: Name,
    params: List<NamedType>,
    output: Option<Ty>,
    body: Block,
    need: u32,
) -> Result<(Item, u32), BuildError> {
    let (params, body) = both(turn_all(alloc, params), Ok(body))?;
    let kind = ItemKind::Function {
        head: fn_head(alloc, name, params, output),
        wheres: no_wheres(alloc),
        body: Some(body),
    };
    item_of(alloc, public, kind, need)
}
/// The head of a function.
fn fn_head(
    alloc: Global,
    name: Name,
    params: List<Param>,
    output: Option<Ty>,
) -> FnHead {
    FnHead {
        is_const: false,
        is_async: false,
        safety: None,
        abi: None,
        name,
        generics: no_generics(alloc),
        params,
        output,
    }
}
impl Turns<Param> for NamedType {
    fn turn(self, alloc: Global) -> Result<Param, BuildError> {
        let NamedType { name, ty } = self;
        Ok(
            Param {
                attrs: List::new(alloc),
                kind: ParamKind::Typed { pat: bind(name), ty },
            },
        )
    }
}
/// A module of these items: `mod a { struct B; }`.
pub fn item_mod(
    alloc: Global,
    public: bool,
    name: BuiltName,
    items: List<BuiltItem>,
) -> Result<BuiltItem, BuildError> {
    let (name, _) = name.into_parts();
    let (items, need) = nodes(alloc, items)?;
    let kind = ItemKind::Module { name, attrs: List::new(alloc), items };
    kept(item_of(alloc, public, kind, need + 1))
}
/// An item of this kind, which needs this depth.
fn item_of(
    alloc: Global,
    public: bool,
    kind: ItemKind,
    need: u32,
) -> Result<(Item, u32), BuildError> {
    let kind = boxed(alloc, kind)?;
    let item = Item { attrs: List::new(alloc), vis: visibility(public), kind };
    Ok((item, need))
}
/// `pub`, or no visibility.
fn visibility(public: bool) -> Vis {
    if public { Vis::Public } else { Vis::Inherited }
}
/// No generic parameters.
fn no_generics(alloc: Global) -> Generics {
    Generics { params: List::new(alloc) }
}
/// No where clause.
fn no_wheres(alloc: Global) -> Wheres {
    Wheres { predicates: List::new(alloc) }
}
