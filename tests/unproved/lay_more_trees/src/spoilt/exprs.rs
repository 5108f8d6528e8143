//! Expressions: their steps, conditions, closures, jumps, and fields.

use super::each_spoils;
use crate::trees::{
    boxed, boxed_expr, bytes, empty_block, expr, file_of_expr, file_of_tail, name, one, pat,
    path_of_words, written,
};
use lay_token::List;
use lay_tree::{Branch, Condition, Expr, FieldExpr, File, Lifetime, Link, Step};
use std::alloc::Global;

// ---- steps

/// `a?`
fn tried(alloc: Global, text: &str) -> Option<File> {
    behind(alloc, text, Step::Try)
}

/// `a.0`
fn first_of(alloc: Global, text: &str) -> Option<File> {
    let index = bytes(alloc, "0")?;
    behind(alloc, text, Step::TupleIndex { index })
}

/// An expression with one step behind it.
fn behind(alloc: Global, text: &str, step: Step) -> Option<File> {
    let base = boxed_expr(alloc, text)?;
    let steps = one(alloc, step)?;
    file_of_expr(alloc, Expr::Postfix { base, steps })
}

/// The step of this spelling: `?`, `()`, `.0` or `.a`.
fn step(alloc: Global, text: &str) -> Option<Step> {
    match text {
        "?" => Some(Step::Try),
        "()" => Some(Step::Apply {
            args: List::new(alloc),
        }),
        _ => step_behind_point(alloc, text.strip_prefix('.')?),
    }
}

/// What stands behind a `.`: an index, if it begins with a digit, and else a field.
fn step_behind_point(alloc: Global, text: &str) -> Option<Step> {
    if matches!(text.as_bytes().first(), Some(b'0'..=b'9')) {
        let index = bytes(alloc, text)?;
        return Some(Step::TupleIndex { index });
    }
    let name = name(alloc, text)?;
    Some(Step::Field { name })
}

/// `_?()`, of the steps of a row
fn steps(alloc: Global, row: &str) -> Option<File> {
    let mut steps = List::new(alloc);
    for text in row.split_whitespace() {
        steps.push(step(alloc, text)?).ok()?;
    }
    let base = boxed(alloc, Expr::Underscore)?;
    file_of_expr(alloc, Expr::Postfix { base, steps })
}

/// `_.a()`
fn method(alloc: Global, text: &str) -> Option<File> {
    let step = Step::Method {
        name: name(alloc, text)?,
        generics: None,
        args: List::new(alloc),
    };
    let steps = one(alloc, step)?;
    let base = boxed(alloc, Expr::Underscore)?;
    file_of_expr(alloc, Expr::Postfix { base, steps })
}

/// `a()`, a statement
fn called_first(alloc: Global, text: &str) -> Option<File> {
    let base = boxed_expr(alloc, text)?;
    let steps = one(
        alloc,
        Step::Apply {
            args: List::new(alloc),
        },
    )?;
    file_of_tail(alloc, Expr::Postfix { base, steps })
}

/// `a?`, a statement
fn tried_first(alloc: Global, text: &str) -> Option<File> {
    let base = boxed_expr(alloc, text)?;
    let steps = one(alloc, Step::Try)?;
    file_of_tail(alloc, Expr::Postfix { base, steps })
}

#[test]
fn steps_behind_operands(rt: HostRuntime) {
    let alloc = rt.alloc();
    let bases =
        "no operators→(a+b)→a+b¶-a¶a as u8¶a..b¶a=b§no steps→(a?)→a?¶a.b¶a()¶a[b]§no jump→(return)→return¶return a¶|a|b¶break§\
        what ends by itself→continue→break§what ends by itself→async{}→||->A{}";
    each_spoils(&rt, alloc, bases, tried);
    let numbers = "no number without suffix before an index→1f32→1¶1.5¶1.¶0x1¶1e5§\
        no number without suffix before an index→(1)→1§no number without suffix before an index→\"a\"→1_0";
    each_spoils(&rt, alloc, numbers, first_of);
    let rows = "one step at least→? ()→§no call directly behind a field→.b ? ()→.b ()¶? .b ()§\
        no call directly behind a field→.0 ()→.b ()§\
        an index of digits alone→.00→.0u8¶.0x1¶.1_0¶.1e5¶.1.5¶.0a§\
        a field that is no keyword→.union→.await¶.fn¶.self¶.crate§raw, no word of paths→.#fn→.#self";
    each_spoils(&rt, alloc, rows, steps);
    let methods = "no keyword→union→await¶fn¶self§raw, no word of paths→#fn→#super";
    each_spoils(&rt, alloc, methods, method);
    let firsts = "no block-like expression called first→(match a{})→match a{}¶{}¶unsafe{}¶loop{}§\
        no macro call in braces called first→m!()→m!{}";
    each_spoils(&rt, alloc, firsts, called_first);
    let dots =
        "any, where a point or ? follows→match a{}→a+b§any, where a point or ? follows→m!{}→-a§\
        any, where a point or ? follows→{}→a?";
    each_spoils(&rt, alloc, dots, tried_first);
}

// ---- conditions

/// Links between which a `∧` stands, each matched with a pattern where it stands behind `let`. No text is no link.
fn linked(alloc: Global, text: &str) -> Option<Condition> {
    let mut links = List::new(alloc);
    if text.is_empty() {
        return Some(Condition { links });
    }
    for part in text.split('∧') {
        let link = match part.strip_prefix("let ") {
            Some(value) => Link::Let {
                pat: pat(alloc, "_")?,
                value: boxed_expr(alloc, value)?,
            },
            None => Link::Expr {
                expr: boxed_expr(alloc, part)?,
            },
        };
        links.push(link).ok()?;
    }
    Some(Condition { links })
}

/// A branch of a condition.
fn branch(alloc: Global, text: &str) -> Option<Branch> {
    Some(Branch {
        condition: linked(alloc, text)?,
        body: empty_block(alloc),
    })
}

/// `if a {}`
fn condition(alloc: Global, text: &str) -> Option<File> {
    file_of_branches(alloc, one(alloc, branch(alloc, text)?)?)
}

/// `if let _ = a {}`
fn behind_let(alloc: Global, text: &str) -> Option<File> {
    let text = format!(in alloc; "let {text}").ok()?;
    condition(alloc, text.as_str())
}

/// `if let _ = a && b {}`
fn before_link(alloc: Global, text: &str) -> Option<File> {
    let text = format!(in alloc; "let {text}∧b").ok()?;
    condition(alloc, text.as_str())
}

/// `if let _ = a && b {}`
fn last_link(alloc: Global, text: &str) -> Option<File> {
    let text = format!(in alloc; "let a∧{text}").ok()?;
    condition(alloc, text.as_str())
}

/// `if a {} else if b {}`, of the conditions of a row
fn branches(alloc: Global, row: &str) -> Option<File> {
    let mut branches = List::new(alloc);
    for text in row.split_whitespace() {
        branches.push(branch(alloc, text)?).ok()?;
    }
    file_of_branches(alloc, branches)
}

/// An `if` of these branches.
fn file_of_branches(alloc: Global, branches: List<Branch>) -> Option<File> {
    let otherwise = Some(empty_block(alloc));
    file_of_expr(
        alloc,
        Expr::If {
            branches,
            otherwise,
        },
    )
}

/// `while a {}`
fn repeated(alloc: Global, text: &str) -> Option<File> {
    let condition = linked(alloc, text)?;
    file_of_expr(
        alloc,
        Expr::While {
            label: None,
            condition,
            body: empty_block(alloc),
        },
    )
}

/// `match a {}`
fn matched(alloc: Global, text: &str) -> Option<File> {
    let scrutinee = boxed_expr(alloc, text)?;
    file_of_expr(
        alloc,
        Expr::Match {
            scrutinee,
            attrs: List::new(alloc),
            arms: List::new(alloc),
        },
    )
}

/// `for _ in a {}`
fn gone_over(alloc: Global, text: &str) -> Option<File> {
    let iterated = boxed_expr(alloc, text)?;
    let pat = pat(alloc, "_")?;
    file_of_expr(
        alloc,
        Expr::For {
            label: None,
            pat,
            iterated,
            body: empty_block(alloc),
        },
    )
}

#[test]
fn conditions(rt: HostRuntime) {
    let alloc = rt.alloc();
    let rows = "no struct literal→(S{})→S{}¶S{a:1}¶a::S{}§\
        none within it→a==(S{})→a==S{}¶S{}.a¶-S{}¶!S{}¶a&&S{}¶S{}()¶S{}as u8¶a=S{}¶..S{}¶return S{}¶|a|S{}§\
        any within delimiters→f(S{})→S{}§any within delimiters→a[S{}]→S{}§any within delimiters→[S{}]→S{}§\
        no block behind a range→a..({})→a..{}¶..{}§no block behind return or break→return({})→return{}¶break{}¶break 'a{}¶return{}+a§\
        a block elsewhere→{}→a..{}§a block elsewhere→a+{}→S{}";
    each_spoils(&rt, alloc, rows, condition);
    each_spoils(&rt, alloc, rows, repeated);
    each_spoils(&rt, alloc, rows, matched);
    each_spoils(&rt, alloc, rows, gone_over);
    let lets =
        "tighter than &&→(a&&b)→a&&b¶a||b¶a..b¶a=b§tighter than &&→a==b→a&&b§no struct literal→(S{})→S{}¶a|S{}";
    each_spoils(&rt, alloc, lets, behind_let);
    let befores = "tighter than && before &&→(a&&b)→a&&b¶a||b¶a..b¶a=b§no operator behind it→(return)→return¶break¶|a|b¶||a§\
        no struct literal→(S{})→S{}§comparisons→a==b→a&&b§a block→{}→a=b";
    each_spoils(&rt, alloc, befores, before_link);
    let lasts = "tighter than && behind &&→(a&&b)→a&&b¶a||b¶a..b¶a=b¶..a§return→return→a||b§a closure→|a|b→S{}§comparisons→a==b→a&&b";
    each_spoils(&rt, alloc, lasts, last_link);
    let links = "a let among links→let a∧b→a∧b¶a∧b∧c§a let among links→a∧let b→a∧a§a let among links→a∧let b∧c→a∧b∧c§\
        links→let a∧let b→§one let→let a→§no let→a→";
    each_spoils(&rt, alloc, links, condition);
    each_spoils(&rt, alloc, links, repeated);
    each_spoils(
        &rt,
        alloc,
        "one branch at least→a b→§one branch at least→a→",
        branches,
    );
}

// ---- closures

/// `|| a`
fn closure_of(alloc: Global, body: Expr) -> Option<Expr> {
    Some(Expr::Closure {
        is_async: false,
        moves: false,
        params: List::new(alloc),
        body: boxed(alloc, body)?,
    })
}

/// `const _: _ = || a;`
fn closure(alloc: Global, text: &str) -> Option<File> {
    file_of_expr(alloc, closure_of(alloc, expr(alloc, text)?)?)
}

/// `if || a {}`
fn closure_in_condition(alloc: Global, text: &str) -> Option<File> {
    decided(alloc, closure_of(alloc, expr(alloc, text)?)?)
}

/// `if || || a {}`
fn two_in_condition(alloc: Global, text: &str) -> Option<File> {
    let inner = closure_of(alloc, expr(alloc, text)?)?;
    decided(alloc, closure_of(alloc, inner)?)
}

/// An `if` whose condition is an expression.
fn decided(alloc: Global, node: Expr) -> Option<File> {
    let link = Link::Expr {
        expr: boxed(alloc, node)?,
    };
    let condition = Condition {
        links: one(alloc, link)?,
    };
    let body = empty_block(alloc);
    file_of_branches(alloc, one(alloc, Branch { condition, body })?)
}

#[test]
fn bodies_of_closures(rt: HostRuntime) {
    let alloc = rt.alloc();
    let rows = "no braces around one expression→a→{a}¶{{a}}¶{{}}¶{match a{}}¶{return}¶{return{}}¶{S{}}¶{||a}¶{{a;}}§\
        no braces around one expression, but a statement→{a;}→{a}§\
        no braces around one expression, but two→{m!{}a}→{a}§\
        no braces around one expression, but one with an attribute→{#[b]a}→{a}§\
        no braces around one expression, but with an inner attribute→{#![b]a}→{a}§\
        no braces around one expression, but with a label→'b:{a}→{a}¶{'b:{a}}§\
        no braces around one expression, but a macro call→{m!()}→{a}§\
        no braces around one expression, but a macro call→{m!{}}→{m!{}.a}§\
        any at its front→match a{}+b→{a}§any at its front→{}()→{{}.b}§any at its front→m!{}-a→{m![]-a}";
    each_spoils(&rt, alloc, rows, closure);
    let conditions = "no struct literal→(S{})→S{}¶a==S{}¶-S{}§\
        braces around a struct literal→{S{}}→S{}¶{a}¶{{S{}}}¶{(S{})}¶{f(S{})}§\
        braces around what holds a struct literal→{a+S{}}→a+S{}¶{a+(S{})}§\
        braces around what holds a struct literal→{||S{}}→||S{}¶{||a}¶{||(S{})}§\
        braces around a jump before a block→{return{}}→return{}¶{return}¶{return a}¶{return({})}¶{break}§\
        braces around a range before a block→{a..{}}→a..{}¶{a..}¶{a..b}¶{..b}§\
        braces around a statement→{S{};}→S{}¶{a}§a block at its front→{a}+b→{a}¶{a+b}§a block within→a+{}→{a+{}}";
    each_spoils(&rt, alloc, conditions, closure_in_condition);
    each_spoils(&rt, alloc, conditions, two_in_condition);
}

// ---- jumps

/// `break a`
fn broken(alloc: Global, text: &str) -> Option<File> {
    let operand = Some(boxed_expr(alloc, text)?);
    file_of_expr(
        alloc,
        Expr::Break {
            label: None,
            operand,
        },
    )
}

/// `break 'a b`
fn broken_with_label(alloc: Global, text: &str) -> Option<File> {
    let operand = Some(boxed_expr(alloc, text)?);
    let label = Some(Lifetime {
        text: bytes(alloc, "'a")?,
    });
    file_of_expr(alloc, Expr::Break { label, operand })
}

/// `continue 'a`
fn continued(alloc: Global, text: &str) -> Option<File> {
    let label = Some(Lifetime {
        text: bytes(alloc, text)?,
    });
    file_of_expr(alloc, Expr::Continue { label })
}

#[test]
fn jumps(rt: HostRuntime) {
    let alloc = rt.alloc();
    let rows = "no label first→('a:loop{})→'a:loop{}¶'a:{}¶'a:while b{}¶'a:for b in c{}§\
        none that the operand begins with→('a:loop{})+b→'a:loop{}+b¶'a:{}.b¶'a:loop{}..¶'a:{}as u8";
    each_spoils(&rt, alloc, rows, broken);
    let answer = written(alloc, broken_with_label(alloc, "'b:loop{}"));
    assert_eq!(rt; answer, Some(true));
    let alone = "a quote first→'a→a¶§one label→'a→'a 'b¶'a b";
    each_spoils(&rt, alloc, alone, continued);
}

// ---- fields

/// `S { 0: a }`
fn numbered_field(alloc: Global, text: &str) -> Option<File> {
    let value = boxed_expr(alloc, "a")?;
    let index = bytes(alloc, text)?;
    file_of_field(
        alloc,
        FieldExpr::Numbered {
            attrs: List::new(alloc),
            index,
            value,
        },
    )
}

/// `S { a: b }`
fn named_field(alloc: Global, text: &str) -> Option<File> {
    let value = boxed_expr(alloc, "b")?;
    let name = name(alloc, text)?;
    file_of_field(
        alloc,
        FieldExpr::Named {
            attrs: List::new(alloc),
            name,
            value,
        },
    )
}

/// `S { a }`
fn short_field(alloc: Global, text: &str) -> Option<File> {
    let name = name(alloc, text)?;
    file_of_field(
        alloc,
        FieldExpr::Short {
            attrs: List::new(alloc),
            name,
        },
    )
}

/// A struct literal of one field.
fn file_of_field(alloc: Global, field: FieldExpr) -> Option<File> {
    let path = path_of_words(alloc, "S")?;
    let fields = one(alloc, field)?;
    file_of_expr(
        alloc,
        Expr::Struct {
            path,
            fields,
            base: None,
        },
    )
}

#[test]
fn fields(rt: HostRuntime) {
    let alloc = rt.alloc();
    each_spoils(&rt, alloc, "an integer→0x1u8→a¶0.5¶¶-1", numbered_field);
    let names = "no keyword→a→fn¶self¶1¶§raw, no word of paths→#fn→#self";
    each_spoils(&rt, alloc, names, named_field);
    each_spoils(&rt, alloc, names, short_field);
}
