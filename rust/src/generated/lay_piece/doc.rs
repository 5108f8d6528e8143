//! Made by scripts/rust.sh from crates/lay_piece/src/doc.rt, which is proved: change that.
//!
//! Whether documentation can be written as a comment, and as which one.
/// How documentation can be written so that the same text is read back (Rust Reference, "Doc
/// comments").
#[derive(Clone, Copy, Debug, PartialEq, Eq)]
pub enum DocForm {
    /// As a line comment, after `///` or `//!`.
    Line,
    /// As a block comment, between `/**` or `/*!` and `*/`.
    Block,
    /// Only as the string of a `doc` attribute.
    Neither,
}
/// How a text of documentation can be written; `inner` says that it documents the item that it
/// stands in, as `//!` does.
///
/// A line comment holds no LF, no CR and no blank at its end. A block comment holds an LF and no
/// CR, and each comment nested in it is closed. Of outer documentation a line doesn't begin with
/// `/`, and a block begins neither with `/` nor with `*`.
pub fn doc_form(text: &[u8], inner: bool) -> DocForm {
    if is_line_text(text, inner) { DocForm::Line } else if is_block_text(text, inner) {
        DocForm::Block
    } else { DocForm::Neither }
}
/// Whether the text can be written as a line comment.
fn is_line_text(text: &[u8], inner: bool) -> bool {
    if !inner && begins_with(b'/', text) {
        return false;
    }
    !has_line_end(text) && !ends_in_blank(text)
}
/// Whether the text holds an LF or a CR.
fn has_line_end(text: &[u8]) -> bool {
    text.contains(&b'\n') || text.contains(&b'\r')
}
/// Whether the text begins with this byte.
fn begins_with(byte: u8, text: &[u8]) -> bool {
    match text.first() {
        Some(first) => *first == byte,
        None => false,
    }
}
/// Whether the text ends in a blank.
fn ends_in_blank(text: &[u8]) -> bool {
    match text.last() {
        Some(last) => *last == b' ',
        None => false,
    }
}
/// Whether the text can be written as a block comment.
fn is_block_text(text: &[u8], inner: bool) -> bool {
    if !text.contains(&b'\n') {
        return false;
    }
    if !inner && (begins_with(b'*', text) || begins_with(b'/', text)) {
        return false;
    }
    closes_at_end(text)
}
/// Whether a `*/` after the text closes the comment that the text stands in, and nothing in the
/// text closes it before. Comments nest, and a CR is not allowed.
fn closes_at_end(text: &[u8]) -> bool {
    let mut place = InComment::Deep(0);
    for byte in text {
        match place.step(*byte) {
            Some(next) => place = next,
            None => return false,
        }
    }
    place.ends()
}
/// The state within a block comment; the number counts the comments that are open around this one.
#[derive(Clone, Copy, Debug, PartialEq, Eq,)]
enum InComment {
    Deep(usize),
    /// After a star.
    Star(usize),
    /// After a slash.
    Slash(usize),
}
impl InComment {
    /// The state after one more byte, or `None` if the byte closes the outermost comment or is a
    /// CR.
    fn step(self, byte: u8) -> Option<InComment> {
        if byte == b'\r' {
            return None;
        }
        match self {
            InComment::Deep(depth) => Some(InComment::within(depth, byte)),
            InComment::Star(depth) => {
                if byte != b'/' {
                    Some(InComment::within(depth, byte))
                } else if depth == 0 { None } else { Some(InComment::Deep(depth - 1)) }
            }
            InComment::Slash(depth) => {
                if byte == b'*' { Some(InComment::Deep(depth + 1)) } else {
                    Some(InComment::within(depth, byte))
                }
            }
        }
    }
    /// The state after a byte that neither opens nor closes a comment.
    fn within(around: usize, byte: u8) -> InComment {
        match byte {
            b'*' => InComment::Star(around),
            b'/' => InComment::Slash(around),
            _ => InComment::Deep(around),
        }
    }
    /// Whether a `*/` here closes the outermost comment.
    fn ends(self) -> bool {
        match self {
            InComment::Deep(depth) => depth == 0,
            InComment::Star(depth) => depth == 0,
            InComment::Slash(_) => false,
        }
    }
}
