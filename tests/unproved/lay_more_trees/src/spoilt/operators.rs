//! Operators, and the operands that may stand at their sides.

use super::each_spoils;
use crate::trees::{boxed, boxed_expr, expr, file_of_expr, file_of_tail, one, ty};
use lay_token::List;
use lay_tree::{Expr, File, Op, Prefix};
use std::alloc::Global;

/// The operator of this spelling, if it is one of these.
fn op(text: &str) -> Option<Op> {
    match text {
        "=" => Some(Op::Set),
        "+=" => Some(Op::AddSet),
        ".." => Some(Op::Upto),
        "||" => Some(Op::OrOr),
        "==" => Some(Op::EqEq),
        "!=" => Some(Op::Differ),
        "<" => Some(Op::Less),
        "<=" => Some(Op::LessEq),
        "<<" => Some(Op::Shl),
        "+" => Some(Op::Add),
        "-" => Some(Op::Sub),
        "*" => Some(Op::Mul),
        _ => None,
    }
}

/// Two operands and the operator between them.
fn binary(alloc: Global, first: Expr, op: Op, second: Expr) -> Option<Expr> {
    let rest = one(alloc, (op, boxed(alloc, second)?))?;
    let first = boxed(alloc, first)?;
    Some(Expr::Chain { first, rest })
}

/// An operand before this operator and `_`.
fn before(alloc: Global, text: &str, op: Op) -> Option<File> {
    let chain = binary(alloc, expr(alloc, text)?, op, Expr::Underscore)?;
    file_of_expr(alloc, chain)
}

/// An operand behind `_` and this operator.
fn behind(alloc: Global, text: &str, op: Op) -> Option<File> {
    let chain = binary(alloc, Expr::Underscore, op, expr(alloc, text)?)?;
    file_of_expr(alloc, chain)
}

/// `a * _`
fn before_star(alloc: Global, text: &str) -> Option<File> {
    before(alloc, text, Op::Mul)
}

/// `_ * a`
fn behind_star(alloc: Global, text: &str) -> Option<File> {
    behind(alloc, text, Op::Mul)
}

/// `_ + a + _`
fn between_sums(alloc: Global, text: &str) -> Option<File> {
    let mut rest = one(alloc, (Op::Add, boxed_expr(alloc, text)?))?;
    rest.push((Op::Add, boxed(alloc, Expr::Underscore)?)).ok()?;
    let first = boxed(alloc, Expr::Underscore)?;
    file_of_expr(alloc, Expr::Chain { first, rest })
}

/// `a || _`
fn before_or(alloc: Global, text: &str) -> Option<File> {
    before(alloc, text, Op::OrOr)
}

/// `_ || a`
fn behind_or(alloc: Global, text: &str) -> Option<File> {
    behind(alloc, text, Op::OrOr)
}

/// `a == _`
fn before_equals(alloc: Global, text: &str) -> Option<File> {
    before(alloc, text, Op::EqEq)
}

/// `_ == a`
fn behind_equals(alloc: Global, text: &str) -> Option<File> {
    behind(alloc, text, Op::EqEq)
}

/// `_ + _ - _`, of the operators of a row
fn chain(alloc: Global, row: &str) -> Option<File> {
    let mut rest = List::new(alloc);
    for text in row.split_whitespace() {
        rest.push((op(text)?, boxed(alloc, Expr::Underscore)?)).ok()?;
    }
    let first = boxed(alloc, Expr::Underscore)?;
    file_of_expr(alloc, Expr::Chain { first, rest })
}

/// `a < _`
fn before_less(alloc: Global, text: &str) -> Option<File> {
    before(alloc, text, Op::Less)
}

/// `a << _`
fn before_shift(alloc: Global, text: &str) -> Option<File> {
    before(alloc, text, Op::Shl)
}

/// `a <= _`
fn before_less_or_equal(alloc: Global, text: &str) -> Option<File> {
    before(alloc, text, Op::LessEq)
}

#[test]
fn chains(rt: HostRuntime) {
    let alloc = rt.alloc();
    let rows = "one operator at least→+→§operators of one level→+ -→+ *¶* +¶- <¶|| ==¶== ||§\
        one comparison alone→<→< <¶== !=¶< <=§no operator that assigns→-→=¶+=¶- +=§no range→*→..";
    each_spoils(&rt, alloc, rows, chain);
    let tighter =
        "nothing looser→(a+b)→a+b¶a..b¶a=b¶a||b¶a==b¶a<<b§no chain of the same level→(a*b)→a*b¶a/b¶a%b";
    each_spoils(&rt, alloc, tighter, before_star);
    each_spoils(&rt, alloc, tighter, behind_star);
    let or = "nothing looser→a&&b→a..b¶a=b¶a||b§nothing looser→a==b→a+=b¶..";
    each_spoils(&rt, alloc, or, before_or);
    each_spoils(&rt, alloc, or, behind_or);
    let comparisons =
        "no comparison beside a comparison→(a==b)→a==b¶a<b¶a>=b§tighter ones→a|b→a!=b";
    each_spoils(&rt, alloc, comparisons, before_equals);
    each_spoils(&rt, alloc, comparisons, behind_equals);
    let jumps =
        "no return, break or closure before an operator→(return)→return¶return a¶break¶break 'a¶|a|b¶||->A{}¶move||a§\
        none that an operand ends in→-(return)→-return¶&|a|b¶!break";
    each_spoils(&rt, alloc, jumps, before_star);
    each_spoils(&rt, alloc, jumps, between_sums);
    let last =
        "a jump behind the last operator→return→a..¶..§a closure behind it→|a|b→a..b§one that it ends in→-return→a+b";
    each_spoils(&rt, alloc, last, behind_star);
}

// The `<` behind the type would open its arguments.
#[test]
fn casts_before_angles(rt: HostRuntime) {
    let alloc = rt.alloc();
    let rows =
        "no cast to a type without arguments→a as[u8;1]→a as u8¶a as&u8¶a as*const u8¶a as A::B¶-a as u8§\
        no cast to a type that ends in one→a as A<u8>→a as A()->u8¶a as fn()->u8¶a as dyn A¶a as u8 as u16§\
        no cast that an operand ends in→a+b as(u8)→a+b as u8";
    each_spoils(&rt, alloc, rows, before_less);
    let shift = "no cast to a type without arguments→a as[u8;1]→a as u8¶a as&u8§\
        no cast that an operand ends in→a+b as fn()->!→a+b as u8";
    each_spoils(&rt, alloc, shift, before_shift);
    let others =
        "another operator may follow it→a as u8→a<b§another operator may follow it→a as dyn A→a..b";
    each_spoils(&rt, alloc, others, before_less_or_equal);
}

/// `a as u8`
fn cast(alloc: Global, text: &str) -> Option<File> {
    let operand = boxed_expr(alloc, text)?;
    let types = one(alloc, ty(alloc, "u8")?)?;
    file_of_expr(alloc, Expr::Cast { operand, types })
}

/// `_ as A as B`, of the types of a row
fn cast_to(alloc: Global, row: &str) -> Option<File> {
    let mut types = List::new(alloc);
    for text in row.split_whitespace() {
        types.push(ty(alloc, text)?).ok()?;
    }
    let operand = boxed(alloc, Expr::Underscore)?;
    file_of_expr(alloc, Expr::Cast { operand, types })
}

/// `-a`
fn negative(alloc: Global, text: &str) -> Option<File> {
    let prefixes = one(alloc, Prefix::Neg)?;
    let operand = boxed_expr(alloc, text)?;
    file_of_expr(alloc, Expr::Unary { prefixes, operand })
}

/// `&*_`, of so many operators as the row has characters
fn behind_prefixes(alloc: Global, row: &str) -> Option<File> {
    let mut prefixes = List::new(alloc);
    for _ in row.chars() {
        prefixes.push(Prefix::Amp).ok()?;
    }
    let operand = boxed(alloc, Expr::Underscore)?;
    file_of_expr(alloc, Expr::Unary { prefixes, operand })
}

#[test]
fn casts_and_prefixes(rt: HostRuntime) {
    let alloc = rt.alloc();
    let casts =
        "nothing looser→-a→a*b¶a..b¶a=b¶a&&b§no cast→(a as u8)→a as u8§no jump→(return)→return¶-return¶|a|b";
    each_spoils(&rt, alloc, casts, cast);
    each_spoils(
        &rt,
        alloc,
        "one type at least→u8→§one type at least→u8 u16→",
        cast_to,
    );
    let negatives =
        "nothing looser→a.b→a*b¶a as u8¶a..¶a=b§no operator before an operand→(-a)→-a¶!a¶&a¶&mut a¶&raw const a§\
        a jump, where none follows→return→-a";
    each_spoils(&rt, alloc, negatives, negative);
    each_spoils(
        &rt,
        alloc,
        "one operator at least→&&→§one operator at least→&→",
        behind_prefixes,
    );
}

/// `a.._`
fn range_start(alloc: Global, text: &str) -> Option<File> {
    let start = Some(boxed_expr(alloc, text)?);
    let end = Some(boxed(alloc, Expr::Underscore)?);
    file_of_expr(
        alloc,
        Expr::Range {
            start,
            inclusive: false,
            end,
        },
    )
}

/// `..a`
fn range_end(alloc: Global, text: &str) -> Option<File> {
    let end = Some(boxed_expr(alloc, text)?);
    file_of_expr(
        alloc,
        Expr::Range {
            start: None,
            inclusive: false,
            end,
        },
    )
}

/// `..=a`, or without an end where there is no text
fn inclusive_range(alloc: Global, text: &str) -> Option<File> {
    let end = if text.is_empty() {
        None
    } else {
        Some(boxed_expr(alloc, text)?)
    };
    file_of_expr(
        alloc,
        Expr::Range {
            start: None,
            inclusive: true,
            end,
        },
    )
}

/// `a = _`
fn target(alloc: Global, text: &str) -> Option<File> {
    let targets = one(alloc, (boxed_expr(alloc, text)?, Op::Set))?;
    let value = boxed(alloc, Expr::Underscore)?;
    file_of_expr(alloc, Expr::Assign { targets, value })
}

/// `_ = a`
fn assigned(alloc: Global, text: &str) -> Option<File> {
    let targets = one(alloc, (boxed(alloc, Expr::Underscore)?, Op::Set))?;
    let value = boxed_expr(alloc, text)?;
    file_of_expr(alloc, Expr::Assign { targets, value })
}

/// `_ = _ += _`, of the operators of a row
fn assignments(alloc: Global, row: &str) -> Option<File> {
    let mut targets = List::new(alloc);
    for text in row.split_whitespace() {
        targets.push((boxed(alloc, Expr::Underscore)?, op(text)?)).ok()?;
    }
    let value = boxed(alloc, Expr::Underscore)?;
    file_of_expr(alloc, Expr::Assign { targets, value })
}

#[test]
fn ranges_and_assignments(rt: HostRuntime) {
    let alloc = rt.alloc();
    let starts =
        "nothing looser→a||b→a=b§no range→(a..b)→a..b¶a..¶..b¶..§no jump→(return)→return¶|a|b¶a+break";
    each_spoils(&rt, alloc, starts, range_start);
    let ends =
        "nothing looser→a||b→a=b§no range→(..b)→..b¶..¶a..=b§a jump, where none follows→return a→a..b";
    each_spoils(&rt, alloc, ends, range_end);
    each_spoils(&rt, alloc, "an end behind ..=→a→", inclusive_range);
    let targets =
        "no assignment→(a=b)→a=b¶a+=b§no range without an end→a..b→a..¶..§no jump→(|a|b)→|a|b¶return¶..break";
    each_spoils(&rt, alloc, targets, target);
    let values = "no assignment of its own→(a=b)→a=b¶a-=b§a range, where nothing follows→a..→a=..";
    each_spoils(&rt, alloc, values, assigned);
    let rows = "one target at least→= +=→§an operator that assigns→+=→==¶+¶..¶= <=";
    each_spoils(&rt, alloc, rows, assignments);
}

// ---- what begins a statement

/// `a + _`, a statement
fn added_to(alloc: Global, text: &str) -> Option<File> {
    let chain = binary(alloc, expr(alloc, text)?, Op::Add, Expr::Underscore)?;
    file_of_tail(alloc, chain)
}

/// `a as u8`, a statement
fn cast_first(alloc: Global, text: &str) -> Option<File> {
    let operand = boxed_expr(alloc, text)?;
    let types = one(alloc, ty(alloc, "u8")?)?;
    file_of_tail(alloc, Expr::Cast { operand, types })
}

/// `a..`, a statement
fn range_first(alloc: Global, text: &str) -> Option<File> {
    let start = Some(boxed_expr(alloc, text)?);
    file_of_tail(
        alloc,
        Expr::Range {
            start,
            inclusive: false,
            end: None,
        },
    )
}

/// `a = _`, a statement
fn assigned_first(alloc: Global, text: &str) -> Option<File> {
    let targets = one(alloc, (boxed_expr(alloc, text)?, Op::Set))?;
    let value = boxed(alloc, Expr::Underscore)?;
    file_of_tail(alloc, Expr::Assign { targets, value })
}

#[test]
fn statements_that_begin_with_blocks(rt: HostRuntime) {
    let alloc = rt.alloc();
    let rows =
        "no block-like expression first→(match a{})→match a{}¶{}¶'a:{}¶unsafe{}¶const{}¶if a{}¶loop{}¶while a{}¶for a in b{}§\
        no macro call in braces first→m!()→m!{}¶a::m!{}§\
        none that the first begins with→m!{}.a→m!{}§\
        none that the first begins with→async{}→{}§\
        none that the first begins with→match a{}?→match a{}";
    each_spoils(&rt, alloc, rows, added_to);
    each_spoils(&rt, alloc, rows, cast_first);
    each_spoils(&rt, alloc, rows, range_first);
    each_spoils(&rt, alloc, rows, assigned_first);
    let elsewhere = "block-like expressions, where no statement begins→match a{}→a+b§\
        block-like expressions, where no statement begins→m!{}→a+b§\
        block-like expressions, where no statement begins→{}→a..b";
    each_spoils(&rt, alloc, elsewhere, before_star);
}
