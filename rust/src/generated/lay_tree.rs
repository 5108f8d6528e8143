//! Made by scripts/rust.sh from crates/lay_tree/src/lib.rt, which is proved: change that.
//!
//! Syntax trees for programs that build or compare them: every node type, and equality.
//!
//! The node types are those of `lay_code`, which defines their grammar and their layout, and of the
//! crates below it. [`same`] compares two files; [`same_item`], [`same_stmt`], [`same_block`],
//! [`same_arm`] and [`same_expr`] compare parts of them, and [`Same`] the nodes that hold no
//! expression. [`same_enclosed`] says whether a file is the constant whose value is an expression
//! with each part in parentheses. A comparison needs stack in proportion to the depth of the trees.
mod enclosed;
mod equal;
mod exprs;
mod files;
mod operators;
pub use enclosed::same_enclosed;
pub use equal::{same_arm, same_block, same_expr, same_item, same_stmt};
pub use files::same;
pub use crate::generated::lay_code::{
    Abi,
    Alias,
    Arg,
    Args,
    Arm,
    Attr,
    Binder,
    Block,
    Bound,
    Boxed,
    Branch,
    Capture,
    ClosureParam,
    Condition,
    ConstArg,
    ConstDefault,
    Constraint,
    Enum,
    Expr,
    ExternCrate,
    Field,
    FieldExpr,
    FieldPat,
    Fields,
    File,
    FnHead,
    FuncParam,
    GenericParam,
    Generics,
    GivenName,
    Group,
    ImplHead,
    Item,
    ItemKind,
    Lifetime,
    LifetimeParam,
    Link,
    Listed,
    Literal,
    MacroCall,
    MetaInput,
    MetaPath,
    Name,
    Op,
    Param,
    ParamKind,
    Pat,
    PatPlace,
    PatValue,
    Path,
    PathStart,
    PathStyle,
    Place,
    Predicate,
    Prefix,
    Safety,
    SimplePath,
    Site,
    SpanEnd,
    Start,
    Step,
    Stmt,
    Struct,
    Tokens,
    TraitHead,
    TraitRef,
    TupleField,
    Ty,
    TypePlace,
    Union,
    UseEnd,
    UseTree,
    ValueHead,
    Variant,
    Vis,
    Wheres,
    Word,
};
pub use crate::generated::lay_same_nodes::Same;
