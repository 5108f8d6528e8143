//! Made by scripts/rust.sh from crates/lay_ops/src/operands.rt, which is proved: change that.
//!
//! Lookahead: how an expression begins with the next tokens.
use crate::generated::lay_ops::operators::is_word;
use crate::generated::lay_code::Place;
use crate::generated::lay_nest::Cursor;
use crate::generated::lay_token::word::{Class, word_class};
use crate::generated::lay_token::{Delim, Kind, Token};
/// The tokens that can begin an expression.
#[derive(Clone, Copy,)]
pub enum ExprLead {
    Literal,
    /// A path, or a macro call.
    Path,
    Underscore,
    /// A lifetime, which labels a block or a loop.
    Label,
    Paren,
    Bracket,
    Brace,
    /// A prefix operator.
    Prefix,
    /// `..` or `..=`
    Range,
    Continue,
    Break,
    Return,
    /// A word of an expression that contains a block.
    BlockWord,
    Closure,
}
/// Whether an operand comes next that may stand at this place.
pub fn begins_operand(at: &Cursor<'_>, place: Place) -> bool {
    is_operand_lead(expr_lead_at(at), place.no_struct)
}
/// Whether an operand can begin like this; `no_struct` says that no struct literal may stand there.
pub(crate) fn is_operand_lead(lead: Option<ExprLead>, no_struct: bool) -> bool {
    match lead {
        None => false,
        Some(ExprLead::Brace) => !no_struct,
        Some(_) => true,
    }
}
/// How an expression begins with the next tokens, if one does.
pub fn expr_lead_at(at: &Cursor<'_>) -> Option<ExprLead> {
    match at.peek(0) {
        Some(token) => expr_lead_by(token.kind, token.text.as_bytes(), at),
        None => None,
    }
}
/// How an expression begins with the next token, which has this kind and this text.
fn expr_lead_by(kind: Kind, text: &[u8], at: &Cursor<'_>) -> Option<ExprLead> {
    match kind {
        Kind::Ident => lead_of_word(text, at),
        Kind::RawIdent => Some(ExprLead::Path),
        Kind::Underscore => Some(ExprLead::Underscore),
        Kind::Lifetime => Some(ExprLead::Label),
        Kind::Punct => lead_of_punct(text, at),
        Kind::Opener(Delim::Paren) => Some(ExprLead::Paren),
        Kind::Opener(Delim::Bracket) => Some(ExprLead::Bracket),
        Kind::Opener(Delim::Brace) => Some(ExprLead::Brace),
        Kind::Closer(_) | Kind::Doc { .. } => None,
        _ => Some(ExprLead::Literal),
    }
}
/// How an expression begins with this word, which comes next.
fn lead_of_word(word: &[u8], at: &Cursor<'_>) -> Option<ExprLead> {
    if matches!(word_class(word), Class::Plain | Class::PathWord) {
        Some(ExprLead::Path)
    } else if word == b"true".as_slice() || word == b"false".as_slice() {
        Some(ExprLead::Literal)
    } else if word == b"continue".as_slice() {
        Some(ExprLead::Continue)
    } else if word == b"break".as_slice() {
        Some(ExprLead::Break)
    } else if word == b"return".as_slice() {
        Some(ExprLead::Return)
    } else if word == b"move".as_slice() {
        Some(ExprLead::Closure)
    } else if word == b"async".as_slice() {
        Some(async_lead(at))
    } else if is_block_word(word, at) { Some(ExprLead::BlockWord) } else { None }
}
/// How an expression begins with `async`, which comes next: as a closure before its bars, else as a
/// block.
fn async_lead(at: &Cursor<'_>) -> ExprLead {
    if is_before_closure(at) { ExprLead::Closure } else { ExprLead::BlockWord }
}
/// Whether a closure's bars follow the next token, with or without a `move`.
fn is_before_closure(at: &Cursor<'_>) -> bool {
    is_bar_behind(at, 1) || is_word(at, 1, b"move") && is_bar_behind(at, 2)
}
/// Whether a `|` comes next after `others` tokens.
fn is_bar_behind(at: &Cursor<'_>, others: usize) -> bool {
    match at.peek(others) {
        Some(token) => is_bar(token),
        None => false,
    }
}
/// Whether the token is a `|`.
fn is_bar(token: &Token) -> bool {
    matches!(token.kind, Kind::Punct) && token.text.as_bytes() == b"|".as_slice()
}
/// Whether an expression that contains a block begins with the word. With `const` it does only
/// before a `{`.
fn is_block_word(word: &[u8], at: &Cursor<'_>) -> bool {
    holds_block(word) || word == b"const".as_slice() && is_before_brace(at)
}
/// Whether an expression that contains a block begins with the word, whatever follows.
fn holds_block(word: &[u8]) -> bool {
    word == b"for".as_slice() || word == b"if".as_slice() || word == b"loop".as_slice()
        || word == b"match".as_slice() || word == b"unsafe".as_slice()
        || word == b"while".as_slice()
}
/// Whether a `{` follows the next token.
fn is_before_brace(at: &Cursor<'_>) -> bool {
    match at.peek(1) {
        Some(token) => is_brace(token),
        _ => false,
    }
}
/// Whether the token is a `{`.
fn is_brace(token: &Token) -> bool {
    matches!(token.kind, Kind::Opener(Delim::Brace))
}
/// How an expression begins with this punctuation, which comes next.
fn lead_of_punct(character: &[u8], at: &Cursor<'_>) -> Option<ExprLead> {
    match character {
        b"-" | b"*" | b"!" | b"&" => Some(ExprLead::Prefix),
        b"|" => Some(ExprLead::Closure),
        b"<" => Some(ExprLead::Path),
        _ => lead_of_run(at),
    }
}
/// How an expression begins with `::`, `..` or `..=`, if one of these comes next.
fn lead_of_run(at: &Cursor<'_>) -> Option<ExprLead> {
    if at.op_is(b"::") {
        Some(ExprLead::Path)
    } else if at.op_is(b"..") || at.op_is(b"..=") { Some(ExprLead::Range) } else { None }
}
