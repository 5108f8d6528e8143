//! Each kind of node: a text is read whole by its public call, laid out, and printed.
ghost use Rattle.std.specs.Prelude.{◌≡◌, IfOk, IfSome};
ghost use Rattle.lay_layout.specs.Machine.{opened};
ghost use Rattle.lay_read_tokens.specs.Answers.{AreLexed};

use lay_lex::{lex, normalise};
use lay_nest::{Nested, nest};
use lay_node::{
    Args, Attr, Bound, Generics, MacroCall, Pat, Path, PathStyle, Ty, TypePlace, Wheres,
};
use lay_out_pats::put_pat;
use lay_out_tokens::{put_attr, put_call};
use lay_out_types::{put_args, put_bounds, put_generics, put_path, put_type, put_wheres};
use lay_read_generics::{read_generics, read_wheres};
use lay_read_pats::{read_pat, read_pat_no_alt};
use lay_read_tokens::{read_attr, read_call};
use lay_read_types::{read_args, read_bounds, read_path, read_type};
use lay_stream::{Stream, plain};
use lay_text::Text;
use lay_token::FormatError;
use std::alloc::Global;

/// What reads and prints a text.
#[derive(Clone, Copy)]
pub enum Call {
    Type(TypePlace),
    Path(PathStyle),
    Args(PathStyle),
    Bounds,
    Generics,
    Wheres,
    Pat,
    PatNoAlt,
    MacroCall,
    OuterAttr,
}

/// The tokens of a text, nested.
fn nested(alloc: Global, text: &[u8]) -> Result<Nested, FormatError>
    ensures { IfOk result (λ found. AreLexed found) }
{
    let source = normalise(alloc, text)?;
    let tokens = lex(alloc, &source)?;
    nest(alloc, tokens)
}

/// What is read of the whole text at the depth is printed, or nothing where it isn't read.
pub fn printed(alloc: Global, call: Call, text: &[u8], depth: u32) -> Option<Text> {
    let stream = laid_out(alloc, call, text, depth)?;
    plain(alloc, &stream).ok()
}

/// The layout of what is read of the whole text at the depth.
pub fn laid_out(alloc: Global, call: Call, text: &[u8], depth: u32) -> Option<Stream>
    ensures { IfSome result (λ stream. opened stream 0 ≡ 0) }
{
    match nested(alloc, text) {
        Ok(nested) => stream(alloc, call, &nested, depth),
        Err(_) => None,
    }
}

/// Whether the text begins no type, and the cursor then still stands before its `=`.
pub fn stays(alloc: Global, text: &[u8]) -> bool {
    match nested(alloc, text) {
        Ok(nested) => stays_before(alloc, &nested),
        Err(_) => false,
    }
}

/// The same of tokens.
fn stays_before(alloc: Global, nested: &Nested) -> bool
    requires { AreLexed nested.now }
{
    let mut at = nested.cursor();
    match read_type(alloc, &mut at, TypePlace::Bounds, 256) {
        Ok(_) => false,
        Err(_) => at.op_is(b"="),
    }
}

/// Whether a pattern stands at the front of the text.
pub fn begins_pat(alloc: Global, text: &[u8]) -> bool {
    match nested(alloc, text) {
        Ok(nested) => pat_stands(alloc, &nested),
        Err(_) => false,
    }
}

/// The same of tokens.
fn pat_stands(alloc: Global, nested: &Nested) -> bool
    requires { AreLexed nested.now }
{
    let mut at = nested.cursor();
    read_pat(alloc, &mut at, 256).is_ok()
}

/// The stream of what is read of all the tokens.
fn stream(alloc: Global, call: Call, nested: &Nested, depth: u32) -> Option<Stream>
    requires { AreLexed nested.now }
    ensures { IfSome result (λ stream. opened stream 0 ≡ 0) }
{
    match call {
        Call::Type(place) => type_stream(alloc, nested, place, depth),
        Call::Path(style) => path_stream(alloc, nested, style, depth),
        Call::Args(style) => args_stream(alloc, nested, style, depth),
        Call::Bounds => bounds_stream(alloc, nested, depth),
        Call::Generics => generics_stream(alloc, nested, depth),
        Call::Wheres => wheres_stream(alloc, nested, depth),
        Call::Pat => pat_stream(alloc, nested, depth),
        Call::PatNoAlt => pat_no_alt_stream(alloc, nested, depth),
        Call::MacroCall => call_stream(alloc, nested),
        Call::OuterAttr => attr_stream(alloc, nested),
    }
}

/// The layout of a type.
fn type_stream(alloc: Global, nested: &Nested, place: TypePlace, depth: u32) -> Option<Stream>
    requires { AreLexed nested.now }
    ensures { IfSome result (λ stream. opened stream 0 ≡ 0) }
{
    let mut at = nested.cursor();
    let node = read_type(alloc, &mut at, place, depth).ok()?;
    of_type(alloc, &node, at.is_end())
}

/// The layout of a path.
fn path_stream(alloc: Global, nested: &Nested, style: PathStyle, depth: u32) -> Option<Stream>
    requires { AreLexed nested.now }
    ensures { IfSome result (λ stream. opened stream 0 ≡ 0) }
{
    let mut at = nested.cursor();
    let node = read_path(alloc, &mut at, style, depth).ok()?;
    of_path(alloc, &node, style, at.is_end())
}

/// The layout of generic arguments.
fn args_stream(alloc: Global, nested: &Nested, style: PathStyle, depth: u32) -> Option<Stream>
    requires { AreLexed nested.now }
    ensures { IfSome result (λ stream. opened stream 0 ≡ 0) }
{
    let mut at = nested.cursor();
    let node = read_args(alloc, &mut at, style, depth).ok()?;
    of_args(alloc, &node, style, at.is_end())
}

/// The layout of bounds.
fn bounds_stream(alloc: Global, nested: &Nested, depth: u32) -> Option<Stream>
    requires { AreLexed nested.now }
    ensures { IfSome result (λ stream. opened stream 0 ≡ 0) }
{
    let mut at = nested.cursor();
    let node = read_bounds(alloc, &mut at, depth).ok()?;
    of_bounds(alloc, node.as_slice(), at.is_end())
}

/// The layout of generic parameters.
fn generics_stream(alloc: Global, nested: &Nested, depth: u32) -> Option<Stream>
    requires { AreLexed nested.now }
    ensures { IfSome result (λ stream. opened stream 0 ≡ 0) }
{
    let mut at = nested.cursor();
    let node = read_generics(alloc, &mut at, depth).ok()?;
    of_generics(alloc, &node, at.is_end())
}

/// The layout of a where clause before a `;`.
fn wheres_stream(alloc: Global, nested: &Nested, depth: u32) -> Option<Stream>
    requires { AreLexed nested.now }
    ensures { IfSome result (λ stream. opened stream 0 ≡ 0) }
{
    let mut at = nested.cursor();
    let node = read_wheres(alloc, &mut at, depth).ok()?;
    of_wheres(alloc, &node, at.is_end())
}

/// The layout of a pattern.
fn pat_stream(alloc: Global, nested: &Nested, depth: u32) -> Option<Stream>
    requires { AreLexed nested.now }
    ensures { IfSome result (λ stream. opened stream 0 ≡ 0) }
{
    let mut at = nested.cursor();
    let node = read_pat(alloc, &mut at, depth).ok()?;
    of_pat(alloc, &node, at.is_end())
}

/// The layout of a pattern without alternatives.
fn pat_no_alt_stream(alloc: Global, nested: &Nested, depth: u32) -> Option<Stream>
    requires { AreLexed nested.now }
    ensures { IfSome result (λ stream. opened stream 0 ≡ 0) }
{
    let mut at = nested.cursor();
    let node = read_pat_no_alt(alloc, &mut at, depth).ok()?;
    of_pat(alloc, &node, at.is_end())
}

/// The layout of a macro call.
fn call_stream(alloc: Global, nested: &Nested) -> Option<Stream>
    requires { AreLexed nested.now }
    ensures { IfSome result (λ stream. opened stream 0 ≡ 0) }
{
    let mut at = nested.cursor();
    let node = read_call(alloc, &mut at).ok()?;
    of_call(alloc, &node, at.is_end())
}

/// The layout of an outer attribute on a line of its own.
fn attr_stream(alloc: Global, nested: &Nested) -> Option<Stream>
    requires { AreLexed nested.now }
    ensures { IfSome result (λ stream. opened stream 0 ≡ 0) }
{
    let mut at = nested.cursor();
    let node = read_attr(alloc, &mut at, false).ok()?;
    of_attr(alloc, &node, at.is_end())
}

/// The stream of a type, where it is the whole.
fn of_type(alloc: Global, ty: &Ty, whole: bool) -> Option<Stream>
    ensures { IfSome result (λ stream. opened stream 0 ≡ 0) }
{
    if !whole {
        return None;
    }
    let mut stream = Stream::new(alloc);
    match put_type(&mut stream, ty) {
        Ok(()) => Some(stream),
        Err(_) => None,
    }
}

/// The same of a path.
fn of_path(alloc: Global, path: &Path, style: PathStyle, whole: bool) -> Option<Stream>
    ensures { IfSome result (λ stream. opened stream 0 ≡ 0) }
{
    if !whole {
        return None;
    }
    let mut stream = Stream::new(alloc);
    match put_path(&mut stream, path, style) {
        Ok(()) => Some(stream),
        Err(_) => None,
    }
}

/// The same of generic arguments.
fn of_args(alloc: Global, args: &Args, style: PathStyle, whole: bool) -> Option<Stream>
    ensures { IfSome result (λ stream. opened stream 0 ≡ 0) }
{
    if !whole {
        return None;
    }
    let mut stream = Stream::new(alloc);
    match put_args(&mut stream, args, style) {
        Ok(()) => Some(stream),
        Err(_) => None,
    }
}

/// The same of bounds.
fn of_bounds(alloc: Global, bounds: &[Bound], whole: bool) -> Option<Stream>
    ensures { IfSome result (λ stream. opened stream 0 ≡ 0) }
{
    if !whole {
        return None;
    }
    let mut stream = Stream::new(alloc);
    match put_bounds(&mut stream, bounds) {
        Ok(()) => Some(stream),
        Err(_) => None,
    }
}

/// The same of generic parameters.
fn of_generics(alloc: Global, generics: &Generics, whole: bool) -> Option<Stream>
    ensures { IfSome result (λ stream. opened stream 0 ≡ 0) }
{
    if !whole {
        return None;
    }
    let mut stream = Stream::new(alloc);
    match put_generics(&mut stream, generics) {
        Ok(()) => Some(stream),
        Err(_) => None,
    }
}

/// The same of a where clause before a `;`.
fn of_wheres(alloc: Global, wheres: &Wheres, whole: bool) -> Option<Stream>
    ensures { IfSome result (λ stream. opened stream 0 ≡ 0) }
{
    if !whole {
        return None;
    }
    let mut stream = Stream::new(alloc);
    match put_wheres(&mut stream, wheres, false) {
        Ok(()) => Some(stream),
        Err(_) => None,
    }
}

/// The same of a pattern.
fn of_pat(alloc: Global, pat: &Pat, whole: bool) -> Option<Stream>
    ensures { IfSome result (λ stream. opened stream 0 ≡ 0) }
{
    if !whole {
        return None;
    }
    let mut stream = Stream::new(alloc);
    match put_pat(&mut stream, pat) {
        Ok(()) => Some(stream),
        Err(_) => None,
    }
}

/// The same of a macro call.
fn of_call(alloc: Global, call: &MacroCall, whole: bool) -> Option<Stream>
    ensures { IfSome result (λ stream. opened stream 0 ≡ 0) }
{
    if !whole {
        return None;
    }
    let mut stream = Stream::new(alloc);
    match put_call(&mut stream, call) {
        Ok(()) => Some(stream),
        Err(_) => None,
    }
}

/// The same of an attribute on a line of its own.
fn of_attr(alloc: Global, attr: &Attr, whole: bool) -> Option<Stream>
    ensures { IfSome result (λ stream. opened stream 0 ≡ 0) }
{
    if !whole {
        return None;
    }
    let mut stream = Stream::new(alloc);
    match put_attr(&mut stream, attr, true) {
        Ok(()) => Some(stream),
        Err(_) => None,
    }
}
