//! Which trees can be written, and which can't.

use crate::made::made;
use lay_laws::is_written;
use lay_test_rows::each::{column, each_is_told};
use lay_token::NoMemory;
use lay_tree::same;
use std::alloc::Global;
use std::test::Fail;

/// Stands between the texts of a row of which each breaks the row's condition.
const OTHER: char = '¶';

/// In each row a place, a condition, what stands there in a file that can be written, and what breaks the condition, so that the
/// file can't be written.
const ROWS: &str = "name→no keyword→a→fn¶true¶self¶crate¶Self¶dyn§\
    name→no reserved word→union→yield¶try§\
    name→one character at least→a→§\
    name→no blank→ab→a b¶a ¶ a§\
    name→no digit first→a1→1a¶1§\
    name→no comment→a→a/**/¶a//¶/**/a§\
    name→no punctuation→a→a;¶a{}¶:¶a(§\
    name→not the sign of no name→_a→_§\
    name→no keyword, as the others→layout→fn§\
    name→no keyword, in another name→drawn→fn§\
    name→raw, no word of paths→#fn→#self¶#super¶#crate¶#Self§\
    name→raw by its flag→#fn→r#fn§\
    name→raw, without its mark→#fn→#r#fn§\
    captured→a name or Self→Self→self¶super¶crate¶fn¶_¶a b§\
    captured→raw, no word of paths→#fn→#self¶#Self§\
    literal→a kind of literals→Ident true→Ident a¶Ident fn§\
    literal→one token→Str \"a\"u8→Str \"a\" \"b\"¶Str \"a\"/**/¶Int 1 1¶Int -1¶Float 1.5.5§\
    literal→a string→Str \"a\"→Str a¶Str ¶Str \"a¶Str a\"¶Str 'a'¶Str r\"a\"§\
    literal→a raw string→RawStr r\"a\"→RawStr \"a\"¶RawStr r#\"a\"¶RawStr br\"a\"§\
    literal→a character→Char 'a'→Char 'ab'¶Char ''¶Char a¶Char b'a'§\
    literal→a byte→Byte b'a'→Byte 'a'¶Byte b'\u{e9}'§\
    literal→bytes→ByteStr b\"a\"→ByteStr \"a\"¶ByteStr b\"\u{e9}\"§\
    literal→a C string→CStr c\"a\"→CStr \"a\"¶CStr c\"\\0\"§\
    literal→an escape→Str \"\\n\"→Str \"\\q\"¶Str \"\\x80\"¶Str \"\\u{d800}\"§\
    literal→no CR→Str \"a\nb\"→Str \"a\rb\"§\
    literal→an integer→Int 1x→Int 1.5¶Int 1.¶Int 1e5¶Int a¶Int ¶Int 0x¶Int 0b2§\
    literal→a number with a point or an exponent→Float 1.→Float 1¶Float .5¶Float 1.a¶Float 1e§\
    a * _→nothing looser→(a+b)→a+b¶a..b¶a=b¶a||b¶a==b¶a<<b§\
    a * _→no chain of the same level→(a*b)→a*b¶a/b¶a%b§\
    a * _→no return, break or closure before an operator→(return)→return¶return a¶break¶|a|b¶async|a|b§\
    if a {}→no struct literal→(S{})→S{}¶S{a:1}¶a::S{}§\
    if a {}→none within it→a==(S{})→a==S{}¶S{}.a¶-S{}¶a&&S{}¶S{}()¶S{}as u8¶|a|S{}§\
    if a {}→any within delimiters→f(S{})→S{}§\
    if a {}→no block behind a range→a..({})→a..{}¶..{}§\
    if a {}→no block behind return or break→return({})→return{}¶break{}¶break 'a{}§\
    if a {}→a link at least→a→§\
    if a {}→a let among links→let a∧b→a∧b¶a∧b∧c§\
    if a {}→nothing looser in a link→let a∧(b&&c)→let a∧b&&c¶let a∧b||c¶let a∧b=c¶let a∧b..c¶let a∧..b¶b&&c∧let a§\
    if a {}→nothing looser behind a let→let (a&&b)→let a&&b¶let a||b¶let a=b¶let a..b¶c∧let a&&b§\
    if a {}→no return, break or closure before a link→(return)∧let a→return∧let a¶break∧let a¶|a|b∧let c¶let return a∧b§\
    if a {}→no struct literal in a link→let a∧(S{})→let a∧S{}¶let S{}∧a¶S{}∧let a¶let a∧b==S{}§\
    while a {}→a let among links→let a∧b→a∧b¶§\
    let _ = a else {};→no chain of || or &&→(a||b)→a||b¶a&&b¶a&&b&&c§\
    let _ = a else {};→no brace at the end→(S{})→S{}¶{}¶match a{}¶-{a}¶a+S{}¶m!{}¶return{}¶&S{}§\
    let _ = a else {};→no closure at the end→(|a|b)→|a|b¶async|a|b¶a=|b|c¶return|b|c¶-|a|b§\
    _ => a→no braces around one expression→a→{a}¶{{a}}¶{match a{}}¶{return}¶{S{}}§\
    _ => a→no braces around one expression, but a statement→{a;}→{a}§\
    _ => a→no braces around one expression, but with a label→'b:{a}→{a}§\
    || a→no braces around one expression→a→{a}¶{{a}}¶{match a{}}¶{return}¶{S{}}¶{||a}§\
    || a→no braces around one expression, but a statement→{a;}→{a}¶{{a;}}§\
    || a→no braces around one expression, but with a label→'b:{a}→{a}¶{'b:{a}}§\
    || a→no braces around one expression, but a macro call→{m!()}→{{m!()}}§\
    _ => a→no block-like expression at its front→(match a{})+b→match a{}+b¶m!{}-a¶{}()";

/// Of two texts in a place: whether the file of the second can be written, and whether it is that of the first. Nothing is told where
/// there is no file.
fn judged(alloc: Global, place: &str, whole: &str, text: &str) -> Option<(bool, bool)> {
    let (whole, file) = match both(made(alloc, place, whole), made(alloc, place, text)) {
        Some(files) => files,
        None => return None,
    };
    match is_written(alloc, &file) {
        Ok(is_written) => Some((is_written, same(&whole, &file))),
        Err(NoMemory) => None,
    }
}

/// Both, where both are there.
fn both<A: Drop, B: Drop>(first: Option<A>, second: Option<B>) -> Option<(A, B)> {
    match (first, second) {
        (Some(first), Some(second)) => Some((first, second)),
        _ => None,
    }
}

/// The texts of a row that aren't judged as they should be, each behind a blank: the first one's file can be written and is itself, and
/// that of each other can't, and is another one.
fn misjudged(alloc: Global, row: &str) -> Result<String, NoMemory> {
    let (place, rest) = column(row);
    let (_, rest) = column(rest);
    let (whole, broken) = column(rest);
    let mut texts = String::new(alloc);
    if judged(alloc, place, whole, whole) != Some((true, true)) {
        texts = format!(in alloc; " {whole}")?;
    }
    for text in broken.split(OTHER) {
        if judged(alloc, place, whole, text) != Some((false, false)) {
            texts = format!(in alloc; "{texts} {text}")?;
        }
    }
    Ok(texts)
}

#[test]
fn spoilt_in_one_condition(rt: HostRuntime) -> Result<(), Fail> {
    each_is_told(&rt, rt.alloc(), ROWS, misjudged)?;
    Ok(())
}
