//! Made by scripts/rust.sh from crates/lay_token/src/token.rt, which is proved: change that.
//!
//! Tokens of a text.
pub use crate::generated::lay_piece::{Delim, Kind};
use crate::generated::lay_text::Text;
/// One token of a text.
#[derive(Debug,)]
pub struct Token {
    pub kind: Kind,
    /// Whether this token and the next are punctuation with no gap between them, and neither is `,`
    /// or `;`.
    pub joint: bool,
    /// The piece as it is written; but a raw identifier without its `r#`, and documentation without
    /// its marks, of which a line has no blanks at its end either.
    pub text: Text,
    /// Where the piece begins: a byte offset in the text.
    pub at: usize,
    /// The length of the piece in bytes.
    pub len: usize,
}
