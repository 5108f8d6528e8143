//! Made by scripts/rust.sh from crates/lay_lex/src/lexer.rt, which is proved: change that.
//!
//! Lexing: the tokens of a text.
use crate::generated::lay_lex::border::{ends_before, ends_behind, open_behind};
use crate::generated::lay_lex::gap::after_gap;
use crate::generated::lay_lex::source::Source;
use crate::generated::lay_lex::tokens::Tokens;
use crate::generated::lay_lex::window::{Stop, Window};
use crate::generated::lay_token::{FormatError, List, Refusal, Token, piece_at};
use crate::shims::Global;
/// Lexes a text from where its shebang line ends (Rust Reference, "Lexical structure").
///
/// The only syntax error is `NoToken`, at the first place after a gap where no token begins.
pub fn lex(alloc: Global, source: &Source) -> Result<List<Token>, FormatError> {
    let text = crate::shims::text(source.text.as_slice());
    tokens_of(alloc, text, source.start)
}
/// The tokens of a text from the byte `start` on.
fn tokens_of(
    alloc: Global,
    text: &str,
    start: usize,
) -> Result<List<Token>, FormatError> {
    match window_of(alloc, text, start, None) {
        Ok(window) => Ok(window.tokens),
        Err(error) => Err(error),
    }
}
/// Lexes a window: the tokens of a text from the byte `start` on, and where they end. They end at
/// the end of the text; or, after at least `least` tokens, where one item may end and another begin
/// outside all groups; or after the opening brace of a module, or after a closing brace whose
/// opener isn't among them.
///
/// The only syntax error is `NoToken`, at the first place after a gap where no token begins, if
/// lexing gets there.
pub fn lex_window(
    alloc: Global,
    text: &str,
    start: usize,
    least: usize,
) -> Result<Window, FormatError> {
    window_of(alloc, text, start, Some(least))
}
/// The tokens of a text from the byte `start` on: all of them, or those of a window.
fn window_of(
    alloc: Global,
    text: &str,
    start: usize,
    least: Option<usize>,
) -> Result<Window, FormatError> {
    let mut ahead = &text[start..];
    let mut tokens = match Tokens::new(alloc, room(least, ahead.len())) {
        Ok(tokens) => tokens,
        Err(_) => return Err(FormatError::NoMemory),
    };
    let mut open = 0;
    while let Some(rest) = after_gap(ahead) {
        let at = text.len() - rest.len();
        let touches = rest.len() == ahead.len();
        match piece_at(rest, tokens.is_index_place()) {
            None => return Err(FormatError::Refused(Refusal::NoToken { at })),
            Some(found) => {
                let (piece, behind) = cut(rest, found.len);
                if ends_before(least, open, tokens.as_slice(), found.kind, piece) {
                    return Ok(tokens.window(Stop::More, text.len() - ahead.len()));
                }
                match tokens.add(alloc, found.kind, piece, at, touches) {
                    Ok(()) => ahead = behind,
                    Err(_) => return Err(FormatError::NoMemory),
                }
                if let Some(stop) = ends_behind(least, open, tokens.as_slice()) {
                    return Ok(tokens.window(stop, text.len() - ahead.len()));
                }
                open = open_behind(open, found.kind);
            }
        }
    }
    Ok(tokens.window(Stop::End, text.len()))
}
/// For how many tokens memory is allocated at once, if `ahead` bytes are left.
fn room(least: Option<usize>, ahead: usize) -> usize {
    match least {
        Some(least) => least.saturating_add(least / 4).min(ahead),
        None => 0,
    }
}
/// The first `len` bytes of a text, and the text after them.
pub fn cut(s: &str, len: usize) -> (&str, &str) {
    s.split_at(len)
}
