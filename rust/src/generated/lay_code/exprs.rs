//! Made by scripts/rust.sh from crates/lay_code/src/exprs.rt, which is proved: change that.
//!
//! Expressions, and the contexts that they stand in.
use crate::generated::lay_code::blocks::{Arm, Block, Branch};
use crate::generated::lay_code::conditions::Condition;
use crate::generated::lay_code::drops::{
    discard_arms,
    discard_base,
    discard_boxed,
    discard_branches,
    discard_exprs,
    discard_fields,
    discard_operand,
    discard_operands,
    discard_otherwise,
    discard_steps,
    discard_targets,
};
use crate::generated::lay_code::operators::{Op, Prefix};
use crate::generated::lay_node::{
    Arg,
    Attr,
    Boxed,
    Lifetime,
    Literal,
    MacroCall,
    Name,
    Pat,
    Path,
    Tokens,
    Ty,
};
use crate::generated::lay_token::{List, Text};
/// Whether an expression begins a statement or the body of an arm, and whether it is the whole.
#[derive(Clone, Copy, Debug, PartialEq, Eq)]
pub enum Start {
    /// It begins neither, as `b` in `a + b;`.
    No,
    /// It is the whole, as `match a {}` in `{ match a {} }`.
    Whole,
    /// It begins it, and more follows, as `a` in `a + b;`. What ends in a block needs parentheses
    /// here: `(match a {}) + b;`.
    Part,
}
/// The context of an expression, which decides what may stand there without parentheses.
#[derive(Clone, Copy, Debug, PartialEq, Eq)]
pub struct Place {
    /// The least precedence level that may stand here. 0: assignments, 1: ranges, 2: `||`, 3: `&&`,
    /// 4: comparisons, 5: `|`, 6: `^`, 7: `&`, 8: shifts, 9: `+` `-`, 10: `*` `/` `%`, 11: `as`,
    /// 12: prefix operators, `return`, `break`, closures, 13: postfix steps, 14: the rest. The
    /// operands of `*` have level 11: `(a + b) * c`.
    pub level: u8,
    /// No struct literal may stand here, as in the condition `if (A { b: c }) == d {}`, where `A {`
    /// would be read as the condition `A` and a block.
    pub no_struct: bool,
    pub start: Start,
    /// An operator follows, so nothing may stand here that would go on with it: `(return a) + b`,
    /// `(|| a) + b`, `(a..) = b`.
    pub op_after: bool,
    /// The operator `<` or `<<` follows, so no cast may stand here to a type for which it would
    /// begin generic arguments: `(a as B) < c`.
    pub lt_after: bool,
}
/// An expression (Rust Reference, "Expressions"). An expression within another counts one level of
/// depth more.
#[derive(Clone, Debug, PartialEq, Eq)]
#[non_exhaustive]
pub enum Expr {
    /// `1`, `true`, `"a"`
    Lit {
        literal: Literal,
    },
    /// `a`, `a::B`, `A::<B>::c`
    Path {
        path: Path,
    },
    /// `_`, as the target of an assignment
    Underscore,
    /// `m!(a)`
    Call {
        call: MacroCall,
    },
    /// `(a)`
    Paren {
        inner: Boxed<Expr>,
    },
    /// `continue 'a`
    Continue {
        label: Option<Lifetime>,
    },
    /// `(a, b)`
    Tuple {
        elements: List<Expr>,
    },
    /// `[a, b]`
    Array {
        elements: List<Expr>,
    },
    /// `[a; 2]`
    Repeat {
        element: Boxed<Expr>,
        length: Tokens,
    },
    /// `A { b: c, 0: d, e, ..f }`; `..` may also stand without the base `f`
    Struct {
        path: Path,
        fields: List<FieldExpr>,
        base: Option<Option<Boxed<Expr>>>,
    },
    /// `a + b - c`: at least one operator, all of one precedence level. The first operand binds
    /// more tightly.
    Chain {
        first: Boxed<Expr>,
        rest: List<(Op, Boxed<Expr>)>,
    },
    /// `a as B as C`, with at least one type
    Cast {
        operand: Boxed<Expr>,
        types: List<Ty>,
    },
    /// `-*a`, with at least one operator
    Unary {
        prefixes: List<Prefix>,
        operand: Boxed<Expr>,
    },
    /// `a..b`, `a..`, `..=b`, `..`
    Range {
        start: Option<Boxed<Expr>>,
        inclusive: bool,
        end: Option<Boxed<Expr>>,
    },
    /// `a = b += c`, with at least one target
    Assign {
        targets: List<(Boxed<Expr>, Op)>,
        value: Boxed<Expr>,
    },
    /// `a.b.0.c::<D>(e)(f)[g]?.await`, with at least one step
    Postfix {
        base: Boxed<Expr>,
        steps: List<Step>,
    },
    /// `'a: { b; c }`
    Block {
        label: Option<Lifetime>,
        body: Block,
    },
    /// `unsafe { a }`
    Unsafe {
        body: Block,
    },
    /// `const { a }`
    ConstBlock {
        body: Block,
    },
    /// `async move { a }`
    Async {
        moves: bool,
        body: Block,
    },
    /// `if a { b } else if let c = d { e } else { f }`, with at least one branch
    If {
        branches: List<Branch>,
        otherwise: Option<Block>,
    },
    /// `match a { b => c }`
    Match {
        scrutinee: Boxed<Expr>,
        attrs: List<Attr>,
        arms: List<Arm>,
    },
    /// `'a: loop { b }`
    Loop {
        label: Option<Lifetime>,
        body: Block,
    },
    /// `'a: while b { c }`, `while let b = c && d { e }`
    While {
        label: Option<Lifetime>,
        condition: Condition,
        body: Block,
    },
    /// `'a: for b in c { d }`
    For {
        label: Option<Lifetime>,
        pat: Pat,
        iterated: Boxed<Expr>,
        body: Block,
    },
    /// `async move |a, b: C| d`
    Closure {
        is_async: bool,
        moves: bool,
        params: List<ClosureParam>,
        body: Boxed<Expr>,
    },
    /// `async |a| -> B { c }`
    TypedClosure {
        is_async: bool,
        moves: bool,
        params: List<ClosureParam>,
        output: Ty,
        body: Block,
    },
    /// `return a`
    Return {
        operand: Option<Boxed<Expr>>,
    },
    /// `break 'a b`
    Break {
        label: Option<Lifetime>,
        operand: Option<Boxed<Expr>>,
    },
}
impl Expr {
    /// Takes the block out of the expression, if it is a block, with or without a label.
    pub fn into_block(self) -> Option<Block> {
        match self {
            Expr::Block { label: _, body } => Some(body),
            _ => None,
        }
    }
}
/// A parameter of a closure.
#[derive(Clone, Debug, PartialEq, Eq)]
pub struct ClosureParam {
    pub attrs: List<Attr>,
    pub pat: Pat,
    pub ty: Option<Ty>,
}
/// A field in a struct literal (Rust Reference, "Struct expressions").
#[derive(Clone, Debug, PartialEq, Eq)]
#[non_exhaustive]
pub enum FieldExpr {
    /// `a: b`
    Named {
        attrs: List<Attr>,
        name: Name,
        value: Boxed<Expr>,
    },
    /// `0: b`
    Numbered {
        attrs: List<Attr>,
        index: Text,
        value: Boxed<Expr>,
    },
    /// `a`, short for `a: a`
    Short {
        attrs: List<Attr>,
        name: Name,
    },
}
/// A postfix step: what follows the base of a `Postfix`.
#[derive(Clone, Debug, PartialEq, Eq)]
#[non_exhaustive]
pub enum Step {
    /// `.a`
    Field {
        name: Name,
    },
    /// `.0`
    TupleIndex {
        index: Text,
    },
    /// `.a::<B>(c)`
    Method {
        name: Name,
        generics: Option<List<Arg>>,
        args: List<Expr>,
    },
    /// `(a, b)`: the arguments of a call
    Apply {
        args: List<Expr>,
    },
    /// `[a]`
    Index {
        index: Boxed<Expr>,
    },
    /// `?`
    Try,
    /// `.await`
    Await,
}
