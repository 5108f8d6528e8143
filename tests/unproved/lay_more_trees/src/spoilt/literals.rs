//! Literals, and where only some of them stand.

use super::each_spoils;
use crate::trees::{
    boxed, file_of_expr, file_of_kind, file_of_pat, file_of_type, item_kind, literal, one, word,
};
use lay_token::List;
use lay_tree::{
    Abi, Arg, Args, ConstArg, Expr, File, ItemKind, Pat, PatValue, Path, PathStart, Ty,
};
use std::alloc::Global;

/// `const _: _ = 1;`
fn value(alloc: Global, row: &str) -> Option<File> {
    let literal = literal(alloc, row)?;
    file_of_expr(alloc, Expr::Lit { literal })
}

#[test]
fn literals(rt: HostRuntime) {
    let kinds =
        "a kind of literals→Ident true→Ident a¶Ident fn¶RawIdent true¶Underscore _¶Punct +¶Lifetime 'a§\
        one token→Str \"a\"u8→Str \"a\" \"b\"¶Str \"a\"/**/¶Int 1 1¶Int -1¶Float 1.5.5¶Float -1.5";
    let texts = "a string→Str \"a\"→Str a¶Str ¶Str \"a¶Str a\"¶Str 'a'¶Str r\"a\"¶Str 1¶Str \"a\"1§\
        a raw string→RawStr r\"a\"→RawStr \"a\"¶RawStr r#\"a\"¶RawStr r\"a\"#¶RawStr br\"a\"§\
        a character→Char 'a'→Char 'ab'¶Char ''¶Char a¶Char 'a¶Char b'a'§\
        a byte→Byte b'a'→Byte 'a'¶Byte b'\u{e9}'§\
        bytes→ByteStr b\"a\"→ByteStr \"a\"¶ByteStr b\"\u{e9}\"§\
        raw bytes→RawByteStr br\"a\"→RawByteStr r\"a\"¶RawByteStr br\"\u{e9}\"§\
        a C string→CStr c\"a\"→CStr \"a\"¶CStr c\"\\0\"§\
        a raw C string→RawCStr cr\"a\"→RawCStr c\"a\"¶RawCStr r\"a\"§\
        an escape→Str \"\\n\"→Str \"\\q\"¶Str \"\\x80\"¶Str \"\\u{d800}\"§\
        no CR→Str \"a\nb\"→Str \"a\rb\"";
    let numbers = "an integer→Int 1x→Int 1.5¶Int 1.¶Int 1e5¶Int a¶Int ¶Int 0x¶Int 0b2¶Int _1§\
        a number with a point or an exponent→Float 1.→Float 1¶Float .5¶Float 1.a¶Float 0x1.5¶Float 1e";
    for rows in [kinds, texts, numbers] {
        each_spoils(&rt, rt.alloc(), rows, value);
    }
}

/// The pattern `-1`.
fn negative_pattern(alloc: Global, row: &str) -> Option<File> {
    let value = PatValue {
        negative: true,
        literal: literal(alloc, row)?,
    };
    file_of_pat(alloc, Pat::Value { value })
}

/// The pattern `1`.
fn pattern(alloc: Global, row: &str) -> Option<File> {
    let value = PatValue {
        negative: false,
        literal: literal(alloc, row)?,
    };
    file_of_pat(alloc, Pat::Value { value })
}

/// `A<b>`, of a constant.
fn argument(alloc: Global, value: ConstArg) -> Option<File> {
    let args = one(alloc, Arg::Const { value })?;
    let segments = one(alloc, (word(alloc, "A")?, Args::Angle { args }))?;
    let path = Path {
        start: PathStart::Local,
        segments,
    };
    file_of_type(alloc, Ty::Path { path })
}

/// `A<1>`
fn constant(alloc: Global, row: &str) -> Option<File> {
    argument(alloc, ConstArg::Literal(literal(alloc, row)?))
}

/// `A<-1>`
fn negative_constant(alloc: Global, row: &str) -> Option<File> {
    argument(alloc, ConstArg::Negative(literal(alloc, row)?))
}

#[test]
fn literals_in_places(rt: HostRuntime) {
    let alloc = rt.alloc();
    let numbers = "a number behind a minus→Int 1→Str \"a\"¶Ident true¶Char 'a'¶Byte b'a'§\
        no minus of its own→Float 1.5→Float -1.5¶Int -1";
    each_spoils(&rt, alloc, numbers, negative_pattern);
    each_spoils(&rt, alloc, numbers, negative_constant);
    let literals = "a kind of literals→Ident false→Ident a¶Underscore _¶Lifetime 'a¶Punct .§\
        no minus of its own→Int 1→Int -1";
    each_spoils(&rt, alloc, literals, pattern);
    each_spoils(&rt, alloc, literals, constant);
}

/// `extern "C" fn()`
fn function_type(alloc: Global, row: &str) -> Option<File> {
    let abi = Abi {
        name: Some(literal(alloc, row)?),
    };
    file_of_type(
        alloc,
        Ty::Func {
            binder: boxed(alloc, None)?,
            is_unsafe: false,
            abi: boxed(alloc, Some(abi))?,
            params: List::new(alloc),
            variadic: false,
            output: None,
        },
    )
}

/// `extern "C" fn f() {}`
fn function(alloc: Global, row: &str) -> Option<File> {
    let abi = Abi {
        name: Some(literal(alloc, row)?),
    };
    let mut kind = item_kind(alloc, b"fn f(){}")?;
    if let ItemKind::Function { head, .. } = &mut kind {
        head.abi = Some(abi);
    }
    file_of_kind(alloc, kind)
}

/// `extern "C" {}`
fn foreign(alloc: Global, row: &str) -> Option<File> {
    file_of_kind(
        alloc,
        ItemKind::Foreign {
            is_unsafe: false,
            abi: Some(literal(alloc, row)?),
            attrs: List::new(alloc),
            items: List::new(alloc),
        },
    )
}

#[test]
fn abis(rt: HostRuntime) {
    let alloc = rt.alloc();
    let rows = "a string→RawStr r\"C\"→Int 1¶ByteStr b\"C\"¶Ident true¶CStr c\"C\"¶Char 'C'§\
        no suffix→Str \"C\"→Str \"C\"u8¶RawStr r\"C\"u8";
    each_spoils(&rt, alloc, rows, function_type);
    each_spoils(&rt, alloc, rows, function);
    each_spoils(&rt, alloc, rows, foreign);
}
