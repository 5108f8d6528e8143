//! Made by scripts/rust.sh from crates/lay_lex/src/window.rt, which is proved: change that.
//!
//! Windows: consecutive tokens of a text.
use crate::generated::lay_token::{List, Token};
/// Why a window ends where it ends.
#[derive(Clone, Copy, Debug,)]
pub enum Stop {
    /// The text ends.
    End,
    /// Between two items.
    More,
    /// After the opening brace of a module.
    Opened,
    /// After a closing brace whose opener isn't in the window.
    Closed,
}
/// Consecutive tokens of a text.
#[derive(Debug,)]
pub struct Window {
    pub tokens: List<Token>,
    pub stop: Stop,
    /// The byte offset where the text goes on.
    pub end: usize,
}
