//! Made by scripts/rust.sh from crates/lay_lex/src/border.rt, which is proved: change that.
//!
//! Where a window of tokens may end.
use crate::generated::lay_lex::window::Stop;
use crate::generated::lay_token::{Delim, Kind, Token};
/// Whether a window of at least `least` tokens may end before the token `next`, while `open` groups
/// are open.
#[inline]
pub fn ends_before(
    least: Option<usize>,
    open: usize,
    tokens: &[Token],
    next: Kind,
    piece: &str,
) -> bool {
    match least {
        Some(least) => {
            open == 0 && tokens.len() >= least && begins_item(next, piece)
                && ends_item(tokens)
        }
        None => false,
    }
}
/// Why a window ends after its last token, if it does. It does if `least` is given, no group was
/// open before that token (`open` is 0), and the token is the opening brace of a module or a
/// closing brace.
#[inline]
pub fn ends_behind(least: Option<usize>, open: usize, tokens: &[Token]) -> Option<Stop> {
    if open == 0 && least.is_some() { ends_in_brace(tokens) } else { None }
}
/// How many groups are open after a token of this kind.
#[inline]
pub fn open_behind(groups: usize, kind: Kind) -> usize {
    match kind {
        Kind::Opener(_) => groups.saturating_add(1),
        Kind::Closer(_) => groups.saturating_sub(1),
        _ => groups,
    }
}
/// How a window ends after its last token, if that is the opening brace of a module or a closing
/// brace.
#[inline]
fn ends_in_brace(tokens: &[Token]) -> Option<Stop> {
    match tokens.split_last() {
        Some((last, before)) => {
            match last.kind {
                Kind::Opener(Delim::Brace) if ends_in_module(before) => {
                    Some(Stop::Opened)
                }
                Kind::Closer(Delim::Brace) => Some(Stop::Closed),
                _ => None,
            }
        }
        None => None,
    }
}
/// Whether the last tokens are `mod` and a name.
fn ends_in_module(tokens: &[Token]) -> bool {
    match tokens {
        [.., word, name] => {
            matches!(name.kind, Kind::Ident | Kind::RawIdent)
                && matches!(word.kind, Kind::Ident)
                && word.text.as_bytes() == b"mod".as_slice()
        }
        _ => false,
    }
}
/// Whether the last token may end an item: it is a `}` or a `;`.
fn ends_item(tokens: &[Token]) -> bool {
    match tokens.split_last() {
        Some((last, _)) => {
            match last.kind {
                Kind::Closer(Delim::Brace) => true,
                Kind::Punct => last.text.as_bytes() == b";".as_slice(),
                _ => false,
            }
        }
        None => false,
    }
}
/// Whether the piece may begin an item and can't go on with one after a `}`.
fn begins_item(kind: Kind, piece: &str) -> bool {
    match kind {
        Kind::Ident => !matches!(piece.as_bytes(), b"else" | b"as" | b"where"),
        Kind::Punct => matches!(piece.as_bytes(), b"#"),
        Kind::Doc { .. } => true,
        _ => false,
    }
}
