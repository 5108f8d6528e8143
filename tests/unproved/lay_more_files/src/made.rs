//! Files that are put together around one name, literal, or expression.
//!
//! Where a part isn't read, or memory is wanting, there is no file.
ghost use Rattle.std.specs.Prelude.{◌≡◌, [], IfSome, Some};
ghost use Rattle.lay_node.specs.tokens.Listing.{turned};

use lay_files::read_bytes;
use lay_token::{Kind, List, Text};
use lay_tree::{
    Arm, Block, Bound, Boxed, Branch, Capture, Condition, Expr, File, GivenName, Item, ItemKind,
    Link, Literal, Name, Op, Pat, Stmt, Ty, ValueHead, Vis, Word,
};
use std::alloc::Global;
use std::mem;

/// The file of an item that is read, and behind it `mod a;` of a name in which a text stands, `const _: impl use<a> = _;` of what is
/// captured, or `const _: _ = a;` of a literal or an expression.
pub fn made(alloc: Global, place: &str, text: &str) -> Option<File> {
    let File {
        shebang,
        attrs,
        items,
    } = match read_bytes(alloc, b"#![a]struct A;") {
        Ok(file) => file,
        Err(_) => return None,
    };
    match more(items, item(alloc, place, text)) {
        Some(items) => Some(File {
            shebang,
            attrs,
            items,
        }),
        None => None,
    }
}

/// A list and one node more behind it, if there is one.
fn more<T: Drop>(mut list: List<T>, node: Option<T>) -> Option<List<T>> {
    list.push(node?).ok()?;
    Some(list)
}

/// The item in which a text has a place.
fn item(alloc: Global, place: &str, text: &str) -> Option<Item> {
    let kind = if place == "name" {
        ItemKind::FileModule {
            name: name(alloc, text)?,
        }
    } else {
        ItemKind::Value {
            head: ValueHead::Const {
                name: GivenName::Underscore,
                ty: ty(alloc, place, text)?,
            },
            value: Some(value(alloc, place, text)?),
        }
    };
    Some(Item {
        attrs: List::new(alloc),
        vis: Vis::Inherited,
        kind: Boxed::new(alloc, kind).ok()?,
    })
}

/// `impl use<a>` of a word in which a text has the place of what is captured, and else `_`.
fn ty(alloc: Global, place: &str, text: &str) -> Option<Ty> {
    if place != "captured" {
        return Some(Ty::Infer);
    }
    let Name { raw, text } = name(alloc, text)?;
    let word = Word { raw, text };
    let captured = one(alloc, Capture::Word { word })?;
    Some(Ty::Bounds {
        dynamic: false,
        bounds: one(alloc, Bound::Captures { captured })?,
    })
}

/// A name, which is raw behind `#`.
fn name(alloc: Global, text: &str) -> Option<Name> {
    let (raw, text) = match text.strip_prefix('#') {
        Some(rest) => (true, rest),
        None => (false, text),
    };
    Some(Name {
        raw,
        text: Text::from_bytes(alloc, text.as_bytes()).ok()?,
    })
}

/// The expression in which what a text stands for has this place: itself, or a part of `a * _`, `if a {}`, `while a {}`,
/// `{ let _ = a else {}; }`, `match _ { _ => a }`, or `|| a`.
fn value(alloc: Global, place: &str, text: &str) -> Option<Boxed<Expr>> {
    match place {
        "if a {}" | "while a {}" => Boxed::new(alloc, decided(alloc, place, text)?).ok(),
        _ => valued(alloc, place, text),
    }
}

/// The same of a place that isn't a condition's.
fn valued(alloc: Global, place: &str, text: &str) -> Option<Boxed<Expr>> {
    let node = node(alloc, place, text)?;
    let whole = match place {
        "a * _" => Expr::Chain {
            first: node,
            rest: one(alloc, (Op::Mul, underscore(alloc)?))?,
        },
        "let _ = a else {};" => Expr::Block {
            label: None,
            body: block(
                alloc,
                one(
                    alloc,
                    Stmt::Let {
                        attrs: List::new(alloc),
                        pat: Pat::Wild,
                        ty: None,
                        value: Some(node),
                        otherwise: Some(block(alloc, List::new(alloc))),
                    },
                )?,
            ),
        },
        "_ => a" => Expr::Match {
            arms: one(
                alloc,
                Arm {
                    attrs: List::new(alloc),
                    pat: Pat::Wild,
                    guard: None,
                    body: node,
                },
            )?,
            scrutinee: underscore(alloc)?,
            attrs: List::new(alloc),
        },
        "|| a" => Expr::Closure {
            is_async: false,
            moves: false,
            params: List::new(alloc),
            body: node,
        },
        _ => return Some(node),
    };
    Boxed::new(alloc, whole).ok()
}

/// `if a {}` or `while a {}` of a condition.
fn decided(alloc: Global, place: &str, text: &str) -> Option<Expr> {
    let condition = Condition {
        links: links(alloc, place, text)?,
    };
    let body = block(alloc, List::new(alloc));
    if place == "while a {}" {
        return Some(Expr::While {
            label: None,
            condition,
            body,
        });
    }
    Some(Expr::If {
        branches: one(alloc, Branch { condition, body })?,
        otherwise: None,
    })
}

/// The links of a condition, between which a `∧` stands. No text is no link.
fn links(alloc: Global, place: &str, text: &str) -> Option<List<Link>> {
    let mut links = List::new(alloc);
    if text.is_empty() {
        return Some(links);
    }
    for part in text.split('∧') {
        links = more(links, link(alloc, place, part))?;
    }
    Some(links)
}

/// A link: behind `let` it is matched with `_`.
fn link(alloc: Global, place: &str, text: &str) -> Option<Link> {
    match text.strip_prefix("let ") {
        Some(value) => Some(Link::Let {
            pat: Pat::Wild,
            value: node(alloc, place, value)?,
        }),
        None => Some(Link::Expr {
            expr: node(alloc, place, text)?,
        }),
    }
}

/// `_`
fn underscore(alloc: Global) -> Option<Boxed<Expr>> {
    Boxed::new(alloc, Expr::Underscore).ok()
}

/// A block of these statements.
fn block(alloc: Global, stmts: List<Stmt>) -> Block {
    Block {
        attrs: List::new(alloc),
        stmts,
    }
}

/// A list of one node.
fn one<T: Drop>(alloc: Global, node: T) -> Option<List<T>> {
    more(List::new(alloc), Some(node))
}

/// What a text stands for: a literal in a place of a literal, `_` in the place of what is captured, and else the expression that it
/// reads to.
pub fn node(alloc: Global, place: &str, text: &str) -> Option<Boxed<Expr>> {
    if place == "captured" {
        return underscore(alloc);
    }
    if place == "literal" {
        let literal = literal(alloc, text)?;
        return Boxed::new(alloc, Expr::Lit { literal }).ok();
    }
    let other = ItemKind::FileModule {
        name: name(alloc, "a")?,
    };
    let other = Boxed::new(alloc, other).ok()?;
    let given = format!(in alloc; "const A:B={text};").ok()?;
    let file = read_bytes(alloc, given.as_bytes()).ok()?;
    let mut item = file.items.into_vec().pop()?;
    // Only the crate of items may take one apart.
    let mut kind = mem::replace(&mut item.kind, other).into_inner();
    match &mut kind {
        ItemKind::Value { head: _, value } => value.take(),
        _ => None,
    }
}

/// A literal of a kind and a text, between which a blank stands.
fn literal(alloc: Global, row: &str) -> Option<Literal> {
    let (kind, text) = row.split_once(' ')?;
    Some(Literal {
        kind: kind_called(kind)?,
        text: Text::from_bytes(alloc, text.as_bytes()).ok()?,
    })
}

/// The kind of tokens that is called so, which is none of delimiters.
fn kind_called(kind: &str) -> Option<Kind>
    ensures { IfSome result (λ kind. turned kind [] ≡ Some []) }
{
    match kind {
        "Ident" => Some(Kind::Ident),
        "Char" => Some(Kind::Char),
        "Str" => Some(Kind::Str),
        "RawStr" => Some(Kind::RawStr),
        "Byte" => Some(Kind::Byte),
        "ByteStr" => Some(Kind::ByteStr),
        "CStr" => Some(Kind::CStr),
        "Int" => Some(Kind::Int),
        "Float" => Some(Kind::Float),
        _ => None,
    }
}
