//! Made by scripts/rust.sh from crates/lay_code/src/item.rt, which is proved: change that.
//!
//! Items.
use crate::generated::lay_code::blocks::Block;
use crate::generated::lay_code::drops::{
    discard_items,
    discard_kind,
    discard_operand,
    discard_otherwise,
};
use crate::generated::lay_code::exprs::Expr;
use crate::generated::lay_node::{
    Alias,
    Attr,
    Boxed,
    Enum,
    ExternCrate,
    FnHead,
    Group,
    ImplHead,
    Literal,
    MacroCall,
    Name,
    Struct,
    TraitHead,
    Union,
    UseTree,
    ValueHead,
    Vis,
    Wheres,
};
use crate::generated::lay_token::List;
/// An item with its outer attributes (Rust Reference, "Items"). An item within another counts one
/// level of depth more.
#[derive(Clone, Debug, PartialEq, Eq)]
pub struct Item {
    pub attrs: List<Attr>,
    /// `Inherited` for macro calls and macro definitions.
    pub vis: Vis,
    pub kind: Boxed<ItemKind>,
}
/// The kinds of items.
#[derive(Clone, Debug, PartialEq, Eq)]
#[non_exhaustive]
pub enum ItemKind {
    /// `extern crate a;`
    ExternCrate {
        item: ExternCrate,
    },
    /// `use a::{b, c};` The tree is boxed to keep `ItemKind` small.
    Import {
        tree: Boxed<UseTree>,
    },
    /// `mod a;`, a module in another file
    FileModule {
        name: Name,
    },
    /// `mod a { struct B; }`, with its inner attributes and its items
    Module {
        name: Name,
        attrs: List<Attr>,
        items: List<Item>,
    },
    /// `fn a() { b }` or `fn a();`
    Function {
        head: FnHead,
        wheres: Wheres,
        body: Option<Block>,
    },
    /// `type A = B;`
    Alias {
        item: Alias,
    },
    /// `struct A;`
    Struct {
        item: Struct,
    },
    /// `union A { b: C }`
    Union {
        item: Union,
    },
    /// `enum A { B }`
    Enum {
        item: Enum,
    },
    /// `const A: B = c;` or `static A: B;`
    Value {
        head: ValueHead,
        value: Option<Boxed<Expr>>,
    },
    /// `trait A { fn b(); }`, with its inner attributes and its members
    Trait {
        head: TraitHead,
        wheres: Wheres,
        attrs: List<Attr>,
        items: List<Item>,
    },
    /// `impl A { type B = C; }`, with its inner attributes and its members
    Impl {
        head: ImplHead,
        wheres: Wheres,
        attrs: List<Attr>,
        items: List<Item>,
    },
    /// `unsafe extern "C" { fn a(); }`, with its inner attributes and its items
    Foreign {
        is_unsafe: bool,
        abi: Option<Literal>,
        attrs: List<Attr>,
        items: List<Item>,
    },
    /// `macro_rules! m { () => {}; }`
    MacroRules {
        name: Name,
        rules: Group,
    },
    /// `m! {}` or `m!();`
    Call {
        call: MacroCall,
    },
}
