//! Token lists. That their delimiters are balanced is held by their type, so none here breaks it.
ghost use Rattle.std.specs.Prelude.{◌≡◌, [], IfSome, Some};
ghost use Rattle.lay_node.specs.tokens.Listing.{kind_of, turned};

use super::{BESIDE, each_spoils};
use crate::trees::{
    boxed, bytes, call, file_of_expr, file_of_kind, file_of_type, item_kind, kind_called, name, one,
    simple_path, tokens,
};
use lay_token::{Kind, List};
use lay_tree::{Expr, Fields, File, ItemKind, Listed, Tokens, Ty, Variant, Vis};
use std::alloc::Global;

/// A token, of a kind and a text between which a blank stands. Behind `joint` it is joint; `outer` and `inner` are
/// documentation, and `comment` is a token of its kind.
fn token(alloc: Global, row: &str) -> Option<Listed>
    ensures { IfSome result (λ token. turned (kind_of token) [] ≡ Some []) }
{
    let (joint, row) = match row.strip_prefix("joint ") {
        Some(rest) => (true, rest),
        None => (false, row),
    };
    let (kind, text) = row.split_once(' ')?;
    let text = bytes(alloc, text)?;
    match kind {
        "outer" => Some(Listed::Doc { inner: false, text }),
        "inner" => Some(Listed::Doc { inner: true, text }),
        "comment" => Some(Listed::Token {
            kind: Kind::Doc {
                inner: false,
                block: false,
            },
            text,
            joint,
        }),
        _ => Some(Listed::Token {
            kind: kind_called(kind)?,
            text,
            joint,
        }),
    }
}

/// A list of one token.
fn list_of_one(alloc: Global, token: Listed) -> Option<Tokens>
    requires { turned (kind_of token) [] ≡ Some [] }
{
    let mut list = List::new(alloc);
    if list.push(token).is_err() {
        return None;
    }
    Some(Tokens::new(list))
}

/// A list of two tokens.
fn list_of_two(alloc: Global, first: Listed, second: Listed) -> Option<Tokens>
    requires first { turned (kind_of first) [] ≡ Some [] }
    requires second { turned (kind_of second) [] ≡ Some [] }
{
    let mut list = List::new(alloc);
    if list.push(first).is_err() || list.push(second).is_err() {
        return None;
    }
    Some(Tokens::new(list))
}

/// `m! { a }`, of the tokens of a row.
fn listed(alloc: Global, row: &str) -> Option<File> {
    let tokens = match row.split_once(BESIDE) {
        Some((first, second)) => list_of_two(alloc, token(alloc, first)?, token(alloc, second)?)?,
        None => list_of_one(alloc, token(alloc, row)?)?,
    };
    let call = call(simple_path(alloc, "m")?, tokens);
    file_of_kind(alloc, ItemKind::Call { call })
}

#[test]
fn tokens_of_lists(rt: HostRuntime) {
    let texts =
        "a text of its kind→Ident fn→Ident 1¶Ident a b¶Ident ¶Ident _¶Ident \"a\"¶Ident r#a§\
        a text of its kind→RawIdent a→RawIdent self¶RawIdent r#a¶RawIdent §\
        a text of its kind→Int 1→Int a¶Int 1.5¶Int 1 1§\
        a text of its kind→Float 1e5→Float 1¶Float .5§\
        a text of its kind→Punct &→Punct a¶Punct &&¶Punct ¶Punct (§\
        a text of its kind→Str \"a\"→Str a¶Str 'a'¶Str \"a\" ¶Str r\"a\"§\
        a text of its kind→Lifetime 'a→Lifetime a¶Lifetime 'a'§\
        a text of its kind→Underscore _→Underscore a¶Underscore __§\
        no comment→Ident a→Ident a/**/¶Ident a//§\
        documentation is no other token→outer a→comment a¶comment ///a¶Punct ///a";
    let joints = "not joint at the end→Punct +→joint Punct +§\
        joint before punctuation→joint Punct +·Punct =→joint Punct +·Ident a¶joint Punct +·Int 1¶joint Punct +·outer x§\
        no comma or semicolon joint→joint Punct +·Punct -→joint Punct ;·Punct +¶joint Punct ,·Punct ,§\
        no comma or semicolon joined→joint Punct +·Punct -→joint Punct +·Punct ,¶joint Punct +·Punct ;§\
        no comment by a joint slash→joint Punct /·Punct =→joint Punct /·Punct /¶joint Punct /·Punct *§\
        none but punctuation joint→Ident a·Punct +→joint Ident a·Punct +¶joint Int 1·Punct +¶joint Str \"a\"·Punct +";
    let numbers = "an index behind a point→Punct .·Int 0→Punct .·Float 0.1¶Punct .·Float 1.§\
        no index where a letter follows→Punct .·Float 1e5→Punct .·Float 1.5§\
        an index behind a point alone→Punct ,·Float 0.1→Punct .·Float 0.1";
    let documentation =
        "what a line or a block can hold→outer a→outer a\rb¶outer a ¶outer a\n*/b¶outer a\n/*b§\
        what an outer comment can begin with→outer *a→outer /a¶outer *a\nb¶outer /a\nb§\
        what an inner line or block can hold→inner /a→inner /a ¶inner a\n*/b¶inner \r";
    for rows in [texts, joints, numbers, documentation] {
        each_spoils(&rt, rt.alloc(), rows, listed);
    }
}

/// `[_; a]`, a type
fn array(alloc: Global, text: &str) -> Option<File> {
    let length = tokens(alloc, text)?;
    let inner = boxed(alloc, Ty::Infer)?;
    file_of_type(alloc, Ty::Array { inner, length })
}

/// `[_; a]`, an expression
fn repeat(alloc: Global, text: &str) -> Option<File> {
    let length = tokens(alloc, text)?;
    let element = boxed(alloc, Expr::Underscore)?;
    file_of_expr(alloc, Expr::Repeat { element, length })
}

/// `enum A { B = c }`
fn discriminant(alloc: Global, text: &str) -> Option<File> {
    let variants = one(alloc, variant(alloc, text)?)?;
    let mut kind = item_kind(alloc, b"enum A{}")?;
    if let ItemKind::Enum { item } = &mut kind {
        item.variants = variants;
    }
    file_of_kind(alloc, kind)
}

/// `B = c`
fn variant(alloc: Global, text: &str) -> Option<Variant> {
    let name = name(alloc, "B")?;
    let discriminant = Some(tokens(alloc, text)?);
    Some(Variant {
        attrs: List::new(alloc),
        vis: Vis::Inherited,
        name,
        fields: Fields::Unit,
        discriminant,
    })
}

#[test]
fn lengths_and_discriminants(rt: HostRuntime) {
    let alloc = rt.alloc();
    let one_at_least = "one token at least→1→";
    let discriminants = "one token at least→/// a\n→§no comma outside groups→(1,2)→1,2¶,¶1,¶(1),2";
    each_spoils(&rt, alloc, one_at_least, array);
    each_spoils(&rt, alloc, one_at_least, repeat);
    each_spoils(&rt, alloc, discriminants, discriminant);
}
