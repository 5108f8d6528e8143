//! Made by scripts/rust.sh from crates/lay_lex/src/gap.rt, which is proved: change that.
//!
//! Gaps: white space and plain comments.
use crate::generated::lay_token::piece::chars::first;
/// Whether the character is white space (Rust Reference, "Whitespace"). Blanks and printable ASCII
/// are tested first.
#[inline]
pub fn is_white(c: char) -> bool {
    c == ' ' || (!c.is_ascii_graphic() && is_rare_white(c))
}
/// Whether a character other than a blank is white space.
fn is_rare_white(c: char) -> bool {
    matches!(
        c, '\t'..= '\r' | '\u{85}' | '\u{200e}' | '\u{200f}' | '\u{2028}' | '\u{2029}'
    )
}
/// The state within a gap.
#[derive(Clone, Copy,)]
enum State {
    /// Between comments.
    Outside,
    /// After `/`.
    Opening,
    /// After `//`.
    Two,
    /// After `///`.
    Three,
    /// In a plain line comment.
    Line,
    /// After `/*`.
    Block,
    /// After `/**`.
    BlockStar,
    /// In a plain block comment.
    Within(InBlock),
    /// Not inside white space or a comment.
    Spoilt,
}
/// The state within a block comment; the number counts the comments that are open around this one.
#[derive(Clone, Copy,)]
enum InBlock {
    Deep(usize),
    /// After a star.
    Star(usize),
    /// After a slash.
    Slash(usize),
}
impl State {
    /// The state after one more character.
    fn step(self, c: char) -> State {
        match self {
            State::Outside => {
                if is_white(c) { State::Outside } else if c == '/' {
                    State::Opening
                } else { State::Spoilt }
            }
            State::Opening => {
                match c {
                    '/' => State::Two,
                    '*' => State::Block,
                    _ => State::Spoilt,
                }
            }
            State::Two => {
                match c {
                    '\n' => State::Outside,
                    '/' => State::Three,
                    '!' => State::Spoilt,
                    _ => State::Line,
                }
            }
            State::Three => if c == '/' { State::Line } else { State::Spoilt },
            State::Line => if c == '\n' { State::Outside } else { State::Line },
            State::Block => {
                match c {
                    '!' => State::Spoilt,
                    '*' => State::BlockStar,
                    _ => InBlock::Deep(0).step(c),
                }
            }
            State::BlockStar => {
                match c {
                    '*' => State::Within(InBlock::Star(0)),
                    '/' => State::Outside,
                    _ => State::Spoilt,
                }
            }
            State::Within(block) => block.step(c),
            State::Spoilt => State::Spoilt,
        }
    }
    /// Whether a text may end in this state.
    fn may_end(self) -> bool {
        match self {
            State::Outside => true,
            State::Two => true,
            State::Line => true,
            _ => false,
        }
    }
}
impl InBlock {
    /// The state after one more character.
    fn step(self, c: char) -> State {
        match self {
            InBlock::Deep(more) => InBlock::lone(more, c),
            InBlock::Star(more) => {
                if c != '/' { InBlock::lone(more, c) } else if more == 0 {
                    State::Outside
                } else { State::Within(InBlock::Deep(more - 1)) }
            }
            InBlock::Slash(more) => {
                if c == '*' { State::Within(InBlock::Deep(more + 1)) } else {
                    InBlock::lone(more, c)
                }
            }
        }
    }
    /// The state after a character that makes no token with the one before it.
    fn lone(more: usize, c: char) -> State {
        match c {
            '*' => State::Within(InBlock::Star(more)),
            '/' => State::Within(InBlock::Slash(more)),
            _ => State::Within(InBlock::Deep(more)),
        }
    }
}
/// The text after the longest gap at the beginning; `None` if a gap reaches the end of the text.
#[inline(always)]
pub fn after_gap(s: &str) -> Option<&str> {
    let mut rest = s;
    while let Some((c, tail)) = first(rest) {
        if c == '/' {
            return after_comments(rest);
        }
        if !is_white(c) {
            return Some(rest);
        }
        rest = tail;
    }
    None
}
/// The text after the longest gap at the beginning, which may hold comments; `None` if it reaches
/// the end.
fn after_comments(s: &str) -> Option<&str> {
    let mut state = State::Outside;
    let mut closed = s;
    let mut rest = s;
    while let Some((c, tail)) = first(rest) {
        state = state.step(c);
        rest = tail;
        match state {
            State::Outside => closed = rest,
            State::Spoilt => return Some(closed),
            _ => {}
        }
    }
    if state.may_end() { None } else { Some(closed) }
}
