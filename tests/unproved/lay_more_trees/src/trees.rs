//! Trees that are put together: parts are read from texts, and stand in files of one item.
//!
//! Where a part isn't read, or memory is wanting, there is no tree.
ghost use Rattle.std.specs.Prelude.{◌≡◌, [], IfSome, Some};
ghost use Rattle.lay_node.specs.tokens.Listing.{turned};

use lay_files::read_bytes;
use lay_test_rows::repeated;
use lay_laws::is_written;
use lay_token::{Delim, Kind, List, Text};
use lay_tree::{
    Args, Block, Boxed, Expr, File, FnHead, Generics, GivenName, Group, Item, ItemKind, Literal,
    MacroCall, Name, Pat, Path, PathStart, SimplePath, Stmt, Tokens, Ty, ValueHead, Vis, Wheres,
    Word, same,
};
use std::alloc::Global;
use std::mem;

/// Whether a file can be written, if there is one.
pub fn written(alloc: Global, file: Option<File>) -> Option<bool> {
    is_written(alloc, &file?).ok()
}

/// Whether two files are equal, if there are two.
pub fn equal(file: Option<File>, other: Option<File>) -> Option<bool> {
    Some(same(&file?, &other?))
}

// ---- parts that are read

/// The file of a text that stands between two others.
pub fn file_within(alloc: Global, before: &str, text: &str, after: &str) -> Option<File> {
    let mut all = repeated(alloc, before.as_bytes(), 1).ok()?;
    all.extend_from_slice(text.as_bytes()).ok()?;
    all.extend_from_slice(after.as_bytes()).ok()?;
    read_bytes(alloc, all.as_slice()).ok()
}

/// The last item of a text that stands between two others.
pub fn item_within(alloc: Global, before: &str, text: &str, after: &str) -> Option<Item> {
    last_item(file_within(alloc, before, text, after)?)
}

/// The last item of a text.
pub fn item(alloc: Global, text: &[u8]) -> Option<Item> {
    last_item(read_bytes(alloc, text).ok()?)
}

fn last_item(file: File) -> Option<Item> {
    let File {
        shebang: _,
        attrs: _,
        items,
    } = file;
    items.into_vec().pop()
}

/// What the last item of a text is, without its attributes and its visibility.
pub fn item_kind(alloc: Global, text: &[u8]) -> Option<ItemKind> {
    kind_of(alloc, item(alloc, text)?)
}

/// The same of a text that stands between two others.
pub fn item_kind_within(alloc: Global, before: &str, text: &str, after: &str) -> Option<ItemKind> {
    kind_of(alloc, item_within(alloc, before, text, after)?)
}

/// What an item is. It leaves `extern {}` there, which is dropped.
fn kind_of(alloc: Global, mut item: Item) -> Option<ItemKind> {
    let left = ItemKind::Foreign {
        is_unsafe: false,
        abi: None,
        attrs: List::new(alloc),
        items: List::new(alloc),
    };
    let left = boxed(alloc, left)?;
    Some(mem::replace(&mut item.kind, left).into_inner())
}

/// The expression that a text reads to.
pub fn expr(alloc: Global, text: &str) -> Option<Expr> {
    expr_within(alloc, "", text, "")
}

/// The expression that a text reads to between two others.
fn expr_within(alloc: Global, before: &str, text: &str, after: &str) -> Option<Expr> {
    let mut all = repeated(alloc, b"const A:B=", 1).ok()?;
    for part in [before, text, after, ";"] {
        all.extend_from_slice(part.as_bytes()).ok()?;
    }
    let mut kind = item_kind(alloc, all.as_slice())?;
    match &mut kind {
        ItemKind::Value { head: _, value } => Some(value.take()?.into_inner()),
        _ => None,
    }
}

/// The block that a text reads to within braces.
pub fn block(alloc: Global, text: &str) -> Option<Block> {
    let mut kind = item_kind_within(alloc, "fn f(){", text, "}")?;
    match &mut kind {
        ItemKind::Function {
            head: _,
            wheres: _,
            body,
        } => body.take(),
        _ => None,
    }
}

/// The last statement of a text.
pub fn stmt(alloc: Global, text: &str) -> Option<Stmt> {
    block(alloc, text)?.into_stmts().into_vec().pop()
}

/// The type that a text reads to.
pub fn ty(alloc: Global, text: &str) -> Option<Ty> {
    let mut kind = item_kind_within(alloc, "type A=", text, ";")?;
    match &mut kind {
        ItemKind::Alias { item } => item.ty.take(),
        _ => None,
    }
}

/// The path that a text reads to in the style of kinds.
pub fn path(alloc: Global, text: &str) -> Option<Path> {
    match ty(alloc, text)? {
        Ty::Path { path } => Some(path),
        _ => None,
    }
}

/// The pattern that a text reads to where alternatives may stand.
pub fn pat(alloc: Global, text: &str) -> Option<Pat> {
    let mut looped = expr_within(alloc, "for ", text, " in a{}")?;
    match &mut looped {
        Expr::For { pat, .. } => Some(mem::replace(pat, Pat::Wild)),
        _ => None,
    }
}

/// The token list that a text reads to.
pub fn tokens(alloc: Global, text: &str) -> Option<Tokens> {
    let mut kind = item_kind_within(alloc, "m!{", text, "}")?;
    match &mut kind {
        ItemKind::Call { call } => Some(mem::replace(
            &mut call.tokens.tokens,
            Tokens::new(List::new(alloc)),
        )),
        _ => None,
    }
}

// ---- parts that are made

/// A text of these bytes.
pub fn bytes(alloc: Global, text: &str) -> Option<Text> {
    Text::from_bytes(alloc, text.as_bytes()).ok()
}

/// A name, which is raw behind `#`.
pub fn name(alloc: Global, text: &str) -> Option<Name> {
    let (raw, text) = told_raw(text);
    Some(Name {
        raw,
        text: bytes(alloc, text)?,
    })
}

/// A word of a path, which is raw behind `#`.
pub fn word(alloc: Global, text: &str) -> Option<Word> {
    let (raw, text) = told_raw(text);
    Some(Word {
        raw,
        text: bytes(alloc, text)?,
    })
}

/// Whether a text begins with `#`, and what stands behind that.
fn told_raw(text: &str) -> (bool, &str) {
    match text.strip_prefix('#') {
        Some(rest) => (true, rest),
        None => (false, text),
    }
}

/// A simple path of the words of a row.
pub fn simple_path(alloc: Global, row: &str) -> Option<SimplePath> {
    let mut words = List::new(alloc);
    for text in row.split_whitespace() {
        words.push(word(alloc, text)?).ok()?;
    }
    Some(SimplePath {
        global: false,
        words,
    })
}

/// A path whose segments are the words of a row.
pub fn path_of_words(alloc: Global, row: &str) -> Option<Path> {
    let mut segments = List::new(alloc);
    for text in row.split_whitespace() {
        segments.push((word(alloc, text)?, Args::None)).ok()?;
    }
    Some(Path {
        start: PathStart::Local,
        segments,
    })
}

/// A call in braces.
pub fn call(path: SimplePath, tokens: Tokens) -> MacroCall {
    let tokens = Group {
        delim: Delim::Brace,
        tokens,
    };
    MacroCall { path, tokens }
}

/// A literal of a kind and a text, between which a blank stands.
pub fn literal(alloc: Global, row: &str) -> Option<Literal> {
    let (kind, text) = row.split_once(' ')?;
    Some(Literal {
        kind: kind_called(kind)?,
        text: bytes(alloc, text)?,
    })
}

/// The kind of tokens that is called so, which is none of delimiters.
pub fn kind_called(kind: &str) -> Option<Kind>
    ensures { IfSome result (λ kind. turned kind [] ≡ Some []) }
{
    match kind {
        "Ident" => Some(Kind::Ident),
        "RawIdent" => Some(Kind::RawIdent),
        "Underscore" => Some(Kind::Underscore),
        "Lifetime" => Some(Kind::Lifetime),
        "Char" => Some(Kind::Char),
        "Str" => Some(Kind::Str),
        "RawStr" => Some(Kind::RawStr),
        "Byte" => Some(Kind::Byte),
        "ByteStr" => Some(Kind::ByteStr),
        "RawByteStr" => Some(Kind::RawByteStr),
        "CStr" => Some(Kind::CStr),
        "RawCStr" => Some(Kind::RawCStr),
        "Int" => Some(Kind::Int),
        "Float" => Some(Kind::Float),
        "Punct" => Some(Kind::Punct),
        _ => None,
    }
}

/// A block of these statements.
pub fn block_of(alloc: Global, stmts: List<Stmt>) -> Block {
    Block {
        attrs: List::new(alloc),
        stmts,
    }
}

/// A block of nothing.
pub fn empty_block(alloc: Global) -> Block {
    block_of(alloc, List::new(alloc))
}

/// An expression as a statement without a `;`.
pub fn unended(alloc: Global, expr: Expr) -> Option<Stmt> {
    Some(Stmt::Expr {
        attrs: List::new(alloc),
        expr: boxed(alloc, expr)?,
        ended: false,
    })
}

/// A box of a node.
pub fn boxed<T: Drop>(alloc: Global, node: T) -> Option<Boxed<T>> {
    Boxed::new(alloc, node).ok()
}

/// A box of the expression that a text reads to.
pub fn boxed_expr(alloc: Global, text: &str) -> Option<Boxed<Expr>> {
    boxed(alloc, expr(alloc, text)?)
}

/// A list of one node.
pub fn one<T: Drop>(alloc: Global, node: T) -> Option<List<T>> {
    let mut list = List::new(alloc);
    list.push(node).ok()?;
    Some(list)
}

// ---- files of one item

/// The file of one item.
pub fn file_of_item(alloc: Global, item: Item) -> Option<File> {
    Some(File {
        shebang: None,
        attrs: List::new(alloc),
        items: one(alloc, item)?,
    })
}

/// The file of one item without attributes and without visibility.
pub fn file_of_kind(alloc: Global, kind: ItemKind) -> Option<File> {
    file_of_item(
        alloc,
        Item {
            attrs: List::new(alloc),
            vis: Vis::Inherited,
            kind: boxed(alloc, kind)?,
        },
    )
}

/// `const _: _ = a;`
pub fn file_of_expr(alloc: Global, value: Expr) -> Option<File> {
    file_of_value(alloc, Ty::Infer, value)
}

/// `const _: A = _;`
pub fn file_of_type(alloc: Global, ty: Ty) -> Option<File> {
    file_of_value(alloc, ty, Expr::Underscore)
}

/// `const _: A = b;`
pub fn file_of_value(alloc: Global, ty: Ty, value: Expr) -> Option<File> {
    let head = ValueHead::Const {
        name: GivenName::Underscore,
        ty,
    };
    file_of_kind(
        alloc,
        ItemKind::Value {
            head,
            value: Some(boxed(alloc, value)?),
        },
    )
}

/// `fn f() { a }`
pub fn file_of_block(alloc: Global, body: Block) -> Option<File> {
    let head = FnHead {
        is_const: false,
        is_async: false,
        safety: None,
        abi: None,
        name: name(alloc, "f")?,
        generics: Generics {
            params: List::new(alloc),
        },
        params: List::new(alloc),
        output: None,
    };
    let wheres = Wheres {
        predicates: List::new(alloc),
    };
    file_of_kind(
        alloc,
        ItemKind::Function {
            head,
            wheres,
            body: Some(body),
        },
    )
}

/// `fn f() { a }`, of one statement.
pub fn file_of_stmt(alloc: Global, stmt: Stmt) -> Option<File> {
    let stmts = one(alloc, stmt)?;
    file_of_block(alloc, block_of(alloc, stmts))
}

/// `fn f() { a }`, of one expression without a `;`.
pub fn file_of_tail(alloc: Global, expr: Expr) -> Option<File> {
    file_of_stmt(alloc, unended(alloc, expr)?)
}

/// `const _: _ = for a in _ {};`
pub fn file_of_pat(alloc: Global, pat: Pat) -> Option<File> {
    let iterated = boxed(alloc, Expr::Underscore)?;
    let body = empty_block(alloc);
    file_of_expr(
        alloc,
        Expr::For {
            label: None,
            pat,
            iterated,
            body,
        },
    )
}
