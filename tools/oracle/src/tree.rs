//! The trees. What a text spells that isn't in its tree stands in an `Aside`, which equality doesn't see.

use crate::lex::{Kind, Token};
use std::borrow::Cow;

/// A value that says how something was spelled and takes no part in equality.
#[derive(Clone, Copy, Debug, Default)]
pub struct Aside<T>(pub T);
impl<T> PartialEq for Aside<T> {
    fn eq(&self, _: &Self) -> bool {
        true
    }
}

pub type Tokens<'a> = Vec<Token<'a>>;

#[derive(Clone, PartialEq, Debug)]
pub struct File<'a> {
    pub shebang: Option<String>,
    pub attrs: Vec<Attr<'a>>,
    pub items: Vec<Item<'a>>,
}

#[derive(Clone, Copy, PartialEq, Debug)]
pub struct Word<'a> {
    pub raw: bool,
    pub text: &'a str,
}

#[derive(Clone, PartialEq, Debug)]
pub enum Attr<'a> {
    Doc { inner: bool, text: Cow<'a, str> },
    Meta { inner: bool, path: MetaPath<'a>, input: Input<'a> },
}

#[derive(Clone, PartialEq, Debug)]
pub enum MetaPath<'a> {
    Path(Path<'a>),
    Unsafe,
}

#[derive(Clone, PartialEq, Debug)]
pub enum Input<'a> {
    Bare,
    Group(Tokens<'a>),
    Value(Tokens<'a>),
}

#[derive(Clone, PartialEq, Debug)]
pub struct MacroCall<'a> {
    pub path: Path<'a>,
    pub tokens: Tokens<'a>,
}

#[derive(Clone, PartialEq, Debug)]
pub enum Vis<'a> {
    None,
    Pub,
    Crate,
    Slf,
    Super,
    In(Path<'a>),
}

#[derive(Clone, Copy, PartialEq, Debug)]
pub enum Style {
    Simple,
    Code,
    Kind,
}

#[derive(Clone, PartialEq, Debug)]
pub struct Path<'a> {
    pub qself: Option<Box<QSelf<'a>>>,
    pub global: bool,
    pub segments: Vec<Segment<'a>>,
}

#[derive(Clone, PartialEq, Debug)]
pub struct QSelf<'a> {
    pub ty: Ty<'a>,
    pub of: Option<Path<'a>>,
}

#[derive(Clone, PartialEq, Debug)]
pub struct Segment<'a> {
    pub word: Word<'a>,
    pub args: Args<'a>,
}

#[derive(Clone, PartialEq, Debug)]
pub enum Args<'a> {
    None,
    Angle(Vec<Arg<'a>>),
    Round(Vec<Ty<'a>>, Option<Box<Ty<'a>>>),
}

#[derive(Clone, PartialEq, Debug)]
pub enum Arg<'a> {
    Lifetime(&'a str),
    Type(Ty<'a>),
    Const(Tokens<'a>),
    EqualType(Word<'a>, Args<'a>, Ty<'a>),
    EqualConst(Word<'a>, Args<'a>, Tokens<'a>),
    Limit(Word<'a>, Args<'a>, Bounds<'a>),
}

pub type Bounds<'a> = Vec<Bound<'a>>;
#[derive(Clone, PartialEq, Debug)]
pub enum Bound<'a> {
    Lifetime(&'a str),
    Trait { paren: bool, maybe: bool, binder: Option<Binder<'a>>, path: Path<'a> },
    Captures(Vec<Capture<'a>>),
}

#[derive(Clone, PartialEq, Debug)]
pub enum Capture<'a> {
    Lifetime(&'a str),
    Word(Word<'a>),
}

pub type Binder<'a> = Vec<LifeParam<'a>>;
#[derive(Clone, PartialEq, Debug)]
pub struct LifeParam<'a> {
    pub attrs: Vec<Attr<'a>>,
    pub name: &'a str,
    pub bounds: Vec<&'a str>,
}

#[derive(Clone, PartialEq, Debug)]
pub enum Ty<'a> {
    Path(Path<'a>),
    Call(MacroCall<'a>),
    Paren(Box<Ty<'a>>),
    Tuple(Vec<Ty<'a>>),
    Never,
    Infer,
    Ptr(bool, Box<Ty<'a>>),
    Ref(Option<&'a str>, bool, Box<Ty<'a>>),
    Slice(Box<Ty<'a>>),
    Array(Box<Ty<'a>>, Tokens<'a>),
    Func(Box<Func<'a>>),
    Impl(Bounds<'a>),
    Dyn(Bounds<'a>),
}

#[derive(Clone, PartialEq, Debug)]
pub struct Func<'a> {
    pub binder: Option<Binder<'a>>,
    pub unsafe_: bool,
    pub abi: Option<Abi<'a>>,
    pub params: Vec<FuncParam<'a>>,
    pub variadic: bool,
    pub ret: Option<Ty<'a>>,
}

#[derive(Clone, PartialEq, Debug)]
pub struct Abi<'a> {
    pub name: Option<&'a str>,
}

#[derive(Clone, PartialEq, Debug)]
pub struct FuncParam<'a> {
    pub attrs: Vec<Attr<'a>>,
    pub name: Option<Option<Word<'a>>>,
    pub ty: Ty<'a>,
}

#[derive(Clone, PartialEq, Debug, Default)]
pub struct Generics<'a> {
    pub params: Vec<Param<'a>>,
}

#[derive(Clone, PartialEq, Debug)]
pub enum Param<'a> {
    Life(LifeParam<'a>),
    Type { attrs: Vec<Attr<'a>>, name: Word<'a>, bounds: Bounds<'a>, default: Option<Ty<'a>> },
    Const { attrs: Vec<Attr<'a>>, name: Word<'a>, ty: Ty<'a>, default: Option<Tokens<'a>> },
}

pub type Wheres<'a> = Vec<Pred<'a>>;
#[derive(Clone, PartialEq, Debug)]
pub enum Pred<'a> {
    Life(&'a str, Vec<&'a str>),
    Type(Option<Binder<'a>>, Ty<'a>, Bounds<'a>),
}

#[derive(Clone, PartialEq, Debug)]
pub enum Pat<'a> {
    Or(Vec<Pat<'a>>),
    Value(Value<'a>),
    Wild,
    Rest,
    Call(MacroCall<'a>),
    Path(Path<'a>),
    Bind { by_ref: bool, mutable: bool, name: Word<'a>, sub: Option<Box<Pat<'a>>> },
    Span(Option<SpanEnd<'a>>, bool, Option<SpanEnd<'a>>),
    Ref(bool, Box<Pat<'a>>),
    Struct(Path<'a>, Vec<FieldPat<'a>>, bool),
    TupleStruct(Path<'a>, Vec<Pat<'a>>),
    Tuple(Vec<Pat<'a>>),
    Paren(Box<Pat<'a>>),
    Slice(Vec<Pat<'a>>),
}

#[derive(Clone, PartialEq, Debug)]
pub struct Value<'a> {
    pub minus: bool,
    pub lit: Token<'a>,
}

#[derive(Clone, PartialEq, Debug)]
pub enum SpanEnd<'a> {
    Value(Value<'a>),
    Path(Path<'a>),
}

#[derive(Clone, PartialEq, Debug)]
pub struct FieldPat<'a> {
    pub attrs: Vec<Attr<'a>>,
    pub key: Option<Key<'a>>,
    pub pat: Pat<'a>,
}

#[derive(Clone, PartialEq, Debug)]
pub enum Key<'a> {
    Name(Word<'a>),
    Int(Token<'a>),
}

#[derive(Clone, PartialEq, Debug)]
pub struct Item<'a> {
    pub attrs: Vec<Attr<'a>>,
    pub vis: Vis<'a>,
    pub kind: ItemKind<'a>,
}

#[derive(Clone, Copy, PartialEq, Debug)]
pub enum Site {
    Module,
    Member,
    TraitMember,
    Foreign,
}

/// A Name, or `_` where None.
pub type NameOr<'a> = Option<Word<'a>>;
#[derive(Clone, PartialEq, Debug)]
pub enum ItemKind<'a> {
    ExternCrate(Word<'a>, Option<NameOr<'a>>),
    Import(UseTree<'a>),
    Module(Word<'a>, Option<(Vec<Attr<'a>>, Vec<Item<'a>>)>),
    Function(Box<FnHead<'a>>, Wheres<'a>, Option<Block<'a>>),
    Alias {
        name: Word<'a>,
        generics: Generics<'a>,
        bounds: Bounds<'a>,
        ty: Option<Ty<'a>>,
        wheres: Wheres<'a>,
    },
    Struct(Word<'a>, Generics<'a>, Wheres<'a>, Fields<'a>),
    Union(Word<'a>, Generics<'a>, Wheres<'a>, Vec<Field<'a>>),
    Enum(Word<'a>, Generics<'a>, Wheres<'a>, Vec<Variant<'a>>),
    Const(NameOr<'a>, Ty<'a>, Option<Expr<'a>>),
    Static(bool, Word<'a>, Ty<'a>, Option<Expr<'a>>),
    Trait {
        unsafe_: bool,
        name: Word<'a>,
        generics: Generics<'a>,
        bounds: Bounds<'a>,
        wheres: Wheres<'a>,
        attrs: Vec<Attr<'a>>,
        items: Vec<Item<'a>>,
    },
    Impl {
        unsafe_: bool,
        generics: Generics<'a>,
        of: Option<(bool, Path<'a>)>,
        ty: Ty<'a>,
        wheres: Wheres<'a>,
        attrs: Vec<Attr<'a>>,
        items: Vec<Item<'a>>,
    },
    Foreign {
        unsafe_: bool,
        abi: Option<&'a str>,
        attrs: Vec<Attr<'a>>,
        items: Vec<Item<'a>>,
    },
    MacroRules(Word<'a>, Tokens<'a>),
    Call(MacroCall<'a>),
}

#[derive(Clone, PartialEq, Debug)]
pub struct UseTree<'a> {
    pub global: bool,
    pub prefix: Vec<Word<'a>>,
    pub kind: UseKind<'a>,
}

#[derive(Clone, PartialEq, Debug)]
pub enum UseKind<'a> {
    Word(Word<'a>, Option<NameOr<'a>>),
    Glob,
    List(Vec<UseTree<'a>>),
}

#[derive(Clone, PartialEq, Debug)]
pub struct FnHead<'a> {
    pub const_: bool,
    pub async_: bool,
    pub safety: Safety,
    pub abi: Option<Abi<'a>>,
    pub name: Word<'a>,
    pub generics: Generics<'a>,
    pub params: Vec<FnParam<'a>>,
    pub ret: Option<Ty<'a>>,
}

#[derive(Clone, Copy, PartialEq, Debug)]
pub enum Safety {
    None,
    Unsafe,
    Safe,
}

#[derive(Clone, PartialEq, Debug)]
pub struct FnParam<'a> {
    pub attrs: Vec<Attr<'a>>,
    pub kind: FnParamKind<'a>,
}

#[derive(Clone, PartialEq, Debug)]
pub enum FnParamKind<'a> {
    Plain(Pat<'a>, Ty<'a>),
    RefSelf(Option<&'a str>, bool),
    OwnSelf(bool, Option<Ty<'a>>),
    Dots,
    PatDots(Pat<'a>),
}

#[derive(Clone, PartialEq, Debug)]
pub enum Fields<'a> {
    Unit,
    Tuple(Vec<TupleField<'a>>),
    Named(Vec<Field<'a>>),
}

#[derive(Clone, PartialEq, Debug)]
pub struct TupleField<'a> {
    pub attrs: Vec<Attr<'a>>,
    pub vis: Vis<'a>,
    pub ty: Ty<'a>,
}

#[derive(Clone, PartialEq, Debug)]
pub struct Field<'a> {
    pub attrs: Vec<Attr<'a>>,
    pub vis: Vis<'a>,
    pub name: Word<'a>,
    pub ty: Ty<'a>,
}

#[derive(Clone, PartialEq, Debug)]
pub struct Variant<'a> {
    pub attrs: Vec<Attr<'a>>,
    pub vis: Vis<'a>,
    pub name: Word<'a>,
    pub fields: Fields<'a>,
    pub value: Option<Tokens<'a>>,
}

#[derive(Clone, PartialEq, Debug)]
pub struct Block<'a> {
    pub attrs: Vec<Attr<'a>>,
    pub stmts: Vec<Stmt<'a>>,
}

#[derive(Clone, PartialEq, Debug)]
pub enum Stmt<'a> {
    Let { attrs: Vec<Attr<'a>>, pat: Pat<'a>, ty: Option<Ty<'a>>, init: Option<(Expr<'a>, Option<Block<'a>>)> },
    Item(Box<Item<'a>>),
    Expr { attrs: Vec<Attr<'a>>, expr: Expr<'a>, semi: bool },
}

#[derive(Clone, Copy, PartialEq, Eq, Debug)]
#[rustfmt::skip]
pub enum Op {
    Set, AddSet, SubSet, MulSet, DivSet, RemSet, XorSet, AndSet, OrSet, ShlSet, ShrSet,
    Upto, UptoEq, OrOr, AndAnd, EqEq, Differ, Less, Greater, LessEq, GreaterEq,
    BitOr, BitXor, BitAnd, Shl, Shr, Add, Sub, Mul, Div, Rem,
}

/// Each operator between operands, its text and its level.
#[rustfmt::skip]
pub const OPS: [(Op, &str, u8); 31] = [
    (Op::Set, "=", 0), (Op::AddSet, "+=", 0), (Op::SubSet, "-=", 0), (Op::MulSet, "*=", 0), (Op::DivSet, "/=", 0), (Op::RemSet, "%=", 0),
    (Op::XorSet, "^=", 0), (Op::AndSet, "&=", 0), (Op::OrSet, "|=", 0), (Op::ShlSet, "<<=", 0), (Op::ShrSet, ">>=", 0),
    (Op::Upto, "..", 1), (Op::UptoEq, "..=", 1), (Op::OrOr, "||", 2), (Op::AndAnd, "&&", 3),
    (Op::EqEq, "==", 4), (Op::Differ, "!=", 4), (Op::Less, "<", 4), (Op::Greater, ">", 4), (Op::LessEq, "<=", 4), (Op::GreaterEq, ">=", 4),
    (Op::BitOr, "|", 5), (Op::BitXor, "^", 6), (Op::BitAnd, "&", 7), (Op::Shl, "<<", 8), (Op::Shr, ">>", 8),
    (Op::Add, "+", 9), (Op::Sub, "-", 9), (Op::Mul, "*", 10), (Op::Div, "/", 10), (Op::Rem, "%", 10),
];

impl Op {
    pub fn text(self) -> &'static str {
        OPS[self as usize].1
    }

    pub fn level(self) -> u8 {
        OPS[self as usize].2
    }

    pub fn of(text: &str) -> Option<Op> {
        OPS.iter().find(|o| o.1 == text).map(|o| o.0)
    }
}

#[derive(Clone, Copy, PartialEq, Eq, Debug)]
pub enum Prefix {
    Neg,
    Deref,
    Bang,
    Amp,
    AmpMut,
    RawConst,
    RawMut,
}

#[derive(Clone, PartialEq, Debug)]
pub enum Expr<'a> {
    Lit(Token<'a>),
    Path(Path<'a>),
    Underscore,
    Call(MacroCall<'a>),
    Paren(Box<Expr<'a>>),
    Continue(Option<&'a str>),
    Tuple(Vec<Expr<'a>>),
    Array(Vec<Expr<'a>>),
    Repeat(Box<Expr<'a>>, Tokens<'a>),
    Struct(Path<'a>, Vec<FieldInit<'a>>, Option<Option<Box<Expr<'a>>>>),
    Block(Option<&'a str>, Block<'a>),
    Unsafe(Block<'a>),
    ConstBlock(Block<'a>),
    Async(bool, Block<'a>),
    If(Vec<(Condition<'a>, Block<'a>)>, Option<Block<'a>>),
    Match(Box<Expr<'a>>, Vec<Attr<'a>>, Vec<Arm<'a>>),
    Loop(Option<&'a str>, Block<'a>),
    While(Option<&'a str>, Condition<'a>, Block<'a>),
    For(Option<&'a str>, Pat<'a>, Box<Expr<'a>>, Block<'a>),
    Chain(u8, Box<Expr<'a>>, Vec<(Op, Expr<'a>)>),
    Cast(Box<Expr<'a>>, Vec<Ty<'a>>),
    Unary(Vec<Prefix>, Box<Expr<'a>>),
    Range(Option<Box<Expr<'a>>>, bool, Option<Box<Expr<'a>>>),
    Assign(Vec<(Expr<'a>, Op)>, Box<Expr<'a>>),
    Postfix(Box<Expr<'a>>, Vec<Step<'a>>),
    Closure(Box<Closure<'a>>),
    Return(Option<Box<Expr<'a>>>),
    Break(Option<&'a str>, Option<Box<Expr<'a>>>),
}

#[derive(Clone, PartialEq, Debug)]
pub struct FieldInit<'a> {
    pub attrs: Vec<Attr<'a>>,
    pub key: Key<'a>,
    pub value: Option<Expr<'a>>,
}

#[derive(Clone, PartialEq, Debug)]
pub struct Condition<'a> {
    pub links: Vec<Link<'a>>,
}

#[derive(Clone, PartialEq, Debug)]
pub enum Link<'a> {
    Expr(Expr<'a>),
    Let(Pat<'a>, Expr<'a>),
}

#[derive(Clone, PartialEq, Debug)]
pub enum Step<'a> {
    Field(Word<'a>),
    Index(Token<'a>),
    Method(Word<'a>, Option<Vec<Arg<'a>>>, Vec<Expr<'a>>),
    Call(Vec<Expr<'a>>),
    At(Expr<'a>),
    Try,
    Await,
}

#[derive(Clone, PartialEq, Debug)]
pub struct Closure<'a> {
    pub is_async: bool,
    pub is_move: bool,
    pub params: Vec<ClosureParam<'a>>,
    pub body: ClosureBody<'a>,
}

#[derive(Clone, PartialEq, Debug)]
pub enum ClosureBody<'a> {
    Expr(Expr<'a>, Aside<u32>),
    Ret(Ty<'a>, Block<'a>),
}

#[derive(Clone, PartialEq, Debug)]
pub struct ClosureParam<'a> {
    pub attrs: Vec<Attr<'a>>,
    pub pat: Pat<'a>,
    pub ty: Option<Ty<'a>>,
}

#[derive(Clone, PartialEq, Debug)]
pub struct Arm<'a> {
    pub attrs: Vec<Attr<'a>>,
    pub pat: Pat<'a>,
    pub guard: Option<Expr<'a>>,
    pub body: Expr<'a>,
    pub braces: Aside<u32>,
}

pub fn is_braced(call: &MacroCall<'_>) -> bool {
    matches!(call.tokens[0].kind, Kind::Opener(crate::lex::Delim::Brace))
}

pub fn block_like(e: &Expr<'_>) -> bool {
    matches!(
        e,
        Expr::Block(..)
            | Expr::Unsafe(..)
            | Expr::ConstBlock(..)
            | Expr::If(..)
            | Expr::Match(..)
            | Expr::Loop(..)
            | Expr::While(..)
            | Expr::For(..)
    )
}

pub fn braced_call(e: &Expr<'_>) -> bool {
    matches!(e, Expr::Call(c) if is_braced(c))
}

/// A block of one expression that an arm and a closure may have in its place.
pub fn is_bare(b: &Block<'_>) -> bool {
    b.attrs.is_empty()
        && b.stmts.len() == 1
        && matches!(&b.stmts[0], Stmt::Expr { attrs, expr, semi: false } if attrs.is_empty() && !matches!(expr, Expr::Call(_)))
}

/// A block whose one statement is an expression without attributes and semicolon, laid out by SOFT.
pub fn is_soft(b: &Block<'_>) -> bool {
    b.attrs.is_empty() && b.stmts.len() == 1 && matches!(&b.stmts[0], Stmt::Expr { attrs, semi: false, .. } if attrs.is_empty())
}

/// The expression of a bare block.
pub fn unbare(mut b: Block<'_>) -> Expr<'_> {
    match b.stmts.pop() {
        Some(Stmt::Expr { expr, .. }) => expr,
        _ => unreachable!(),
    }
}

/// The first token of the expression is `{`.
pub fn begins_brace(e: &Expr<'_>) -> bool {
    match e {
        Expr::Block(None, _) => true,
        Expr::Chain(_, f, _) => begins_brace(f),
        Expr::Cast(f, _) | Expr::Postfix(f, _) => begins_brace(f),
        Expr::Range(Some(f), ..) => begins_brace(f),
        Expr::Assign(t, _) => begins_brace(&t[0].0),
        _ => false,
    }
}

/// The first token of the expression is a lifetime.
pub fn begins_lifetime(e: &Expr<'_>) -> bool {
    match e {
        Expr::Block(Some(_), _) | Expr::Loop(Some(_), _) | Expr::While(Some(_), ..) | Expr::For(Some(_), ..) => true,
        Expr::Chain(_, f, _) => begins_lifetime(f),
        Expr::Cast(f, _) | Expr::Postfix(f, _) => begins_lifetime(f),
        Expr::Range(Some(f), ..) => begins_lifetime(f),
        Expr::Assign(t, _) => begins_lifetime(&t[0].0),
        _ => false,
    }
}

/// The expression ends in a Closure.
pub fn ends_closure(e: &Expr<'_>) -> bool {
    match e {
        Expr::Closure(_) => true,
        Expr::Chain(_, _, r) => ends_closure(&r[r.len() - 1].1),
        Expr::Unary(_, e) => ends_closure(e),
        Expr::Range(_, _, Some(e)) => ends_closure(e),
        Expr::Assign(_, e) => ends_closure(e),
        Expr::Return(Some(e)) | Expr::Break(_, Some(e)) => ends_closure(e),
        _ => false,
    }
}
