//! Trees of expressions that are put together without a thought for parentheses. Each call answers want of memory.
use froesaffron::tree::*;

/// A call that makes a tree.
type Made = fn() -> Result<Expr, NoMemory>;

/// Trees, and their texts with the parentheses that they lack, worked out by hand from the Rust Reference.
pub const TREES: [(Made, &str); 5] = [
    (product_of_sum, "(a + b) * c"),
    (negated_cast, "-(a as T)"),
    (cast_that_is_less, "(a as T) < b"),
    (test_of_literal, "if (S { a: 1 }) {}"),
    (sum, "a + b"),
];

/// `*` over (`+` over `a` and `b`) and `c`.
fn product_of_sum() -> Result<Expr, NoMemory> {
    binary(sum()?, Op::Mul, name("c")?)
}

/// `-` over `a as T`.
fn negated_cast() -> Result<Expr, NoMemory> {
    negated(cast()?)
}

/// `<` over `a as T` and `b`.
fn cast_that_is_less() -> Result<Expr, NoMemory> {
    binary(cast()?, Op::Less, name("b")?)
}

/// An `if` over `S { a: 1 }`, with an empty block.
pub fn test_of_literal() -> Result<Expr, NoMemory> {
    let literal = Literal { kind: Kind::Int, text: Text::from_bytes(Global, b"1")? };
    let name = Name { raw: false, text: Text::from_bytes(Global, b"a")? };
    let field = FieldExpr::Named { attrs: List::new(Global), name, value: Boxed::new(Global, Expr::Lit { literal })? };
    let test = Expr::Struct { path: path("S")?, fields: one(field)?, base: None };
    let condition = Condition { links: one(Link::Expr { expr: Boxed::new(Global, test)? })? };
    let body = Block { attrs: List::new(Global), stmts: List::new(Global) };
    Ok(Expr::If { branches: one(Branch { condition, body })?, otherwise: None })
}

/// `+` over `a` and `b`.
fn sum() -> Result<Expr, NoMemory> {
    binary(name("a")?, Op::Add, name("b")?)
}

/// `a as T`.
fn cast() -> Result<Expr, NoMemory> {
    Ok(Expr::Cast { operand: Boxed::new(Global, name("a")?)?, types: one(Ty::Path { path: path("T")? })? })
}

/// An operator between two operands.
pub fn binary(first: Expr, op: Op, second: Expr) -> Result<Expr, NoMemory> {
    Ok(Expr::Chain { first: Boxed::new(Global, first)?, rest: one((op, Boxed::new(Global, second)?))? })
}

/// `-` over an operand.
pub fn negated(operand: Expr) -> Result<Expr, NoMemory> {
    Ok(Expr::Unary { prefixes: one(Prefix::Neg)?, operand: Boxed::new(Global, operand)? })
}

/// The path of one name as an expression.
pub fn name(text: &str) -> Result<Expr, NoMemory> {
    Ok(Expr::Path { path: path(text)? })
}

fn path(name: &str) -> Result<Path, NoMemory> {
    let word = Word { raw: false, text: Text::from_bytes(Global, name.as_bytes())? };
    Ok(Path { start: PathStart::Local, segments: one((word, Args::None))? })
}

/// A list of an item.
fn one<T>(item: T) -> Result<List<T>, NoMemory> {
    let mut list = List::new(Global);
    list.push(item).map_err(|_| NoMemory)?;
    Ok(list)
}

/// The file of the constant `A` of type `T` with this value.
pub fn constant(value: Expr) -> Result<File, NoMemory> {
    let name = GivenName::Name(Name { raw: false, text: Text::from_bytes(Global, b"A")? });
    let head = ValueHead::Const { name, ty: Ty::Path { path: path("T")? } };
    let kind = Boxed::new(Global, ItemKind::Value { head, value: Some(Boxed::new(Global, value)?) })?;
    let item = Item { attrs: List::new(Global), vis: Vis::Inherited, kind };
    Ok(File { shebang: None, attrs: List::new(Global), items: one(item)? })
}
