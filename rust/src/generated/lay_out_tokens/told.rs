//! Made by scripts/rust.sh from crates/lay_out_tokens/src/told.rt, which is proved: change that.
//!
//! Neighbours, with the facts that are asked most computed once.
//!
//! All of it, and the rows that use it, are `#[inline(always)]`: otherwise these values would be
//! built in memory for each token of a list, to be passed by reference.
use crate::generated::lay_out_tokens::neighbours::{
    Neighbour,
    is_any_word,
    is_free_word,
    is_keyword,
    is_line_doc,
    is_number,
};
use crate::generated::lay_node::Listed;
use crate::generated::lay_token::{Delim, Kind};
/// A neighbour, with some facts about it.
#[derive(Clone, Copy,)]
pub struct Told<'a> {
    pub neighbour: Neighbour<'a>,
    /// The character of punctuation, else 0.
    pub mark: u8,
    /// Whether it is punctuation.
    pub punct: bool,
    /// Whether it is documentation.
    pub doc: bool,
    /// Whether it is joint with the token that follows.
    pub joint: bool,
}
impl<'a> Told<'a> {
    /// No neighbour.
    #[inline(always)]
    pub fn nothing() -> Told<'a> {
        Told {
            neighbour: Neighbour::Nothing,
            mark: 0,
            punct: false,
            doc: false,
            joint: false,
        }
    }
    /// A group as a neighbour.
    #[inline(always)]
    pub fn enclosed(delim: Delim) -> Told<'a> {
        Told {
            neighbour: Neighbour::Enclosed(delim),
            mark: 0,
            punct: false,
            doc: false,
            joint: false,
        }
    }
    /// A single token as a neighbour.
    #[inline(always)]
    pub fn single(token: &'a Listed) -> Told<'a> {
        match token {
            Listed::Token { kind, text, joint } => {
                match kind {
                    Kind::Punct => {
                        Told {
                            neighbour: Neighbour::Single(token),
                            mark: one(text.as_bytes()),
                            punct: true,
                            doc: false,
                            joint: *joint,
                        }
                    }
                    _ => {
                        Told {
                            neighbour: Neighbour::Single(token),
                            mark: 0,
                            punct: false,
                            doc: false,
                            joint: *joint,
                        }
                    }
                }
            }
            Listed::Doc { .. } => {
                Told {
                    neighbour: Neighbour::Single(token),
                    mark: 0,
                    punct: false,
                    doc: true,
                    joint: false,
                }
            }
        }
    }
    /// Whether there is none.
    #[inline(always)]
    pub fn is_nothing(&self) -> bool {
        matches!(self.neighbour, Neighbour::Nothing)
    }
    /// Whether it is punctuation with this character.
    #[inline(always)]
    pub fn is_mark(&self, character: u8) -> bool {
        self.mark == character
    }
    /// Whether it is joint with the token that follows.
    #[inline(always)]
    pub fn is_joint(&self) -> bool {
        self.joint
    }
    /// Whether it is punctuation with this character, and joint with the token that follows.
    #[inline(always)]
    pub fn is_joint_mark(&self, character: u8) -> bool {
        self.is_mark(character) && self.is_joint()
    }
    /// Whether it is punctuation.
    #[inline(always)]
    pub fn is_punct(&self) -> bool {
        self.punct
    }
    /// Whether it is documentation.
    #[inline(always)]
    pub fn is_doc(&self) -> bool {
        self.doc
    }
    /// Whether it is laid out as a line comment.
    #[inline(always)]
    pub fn is_line_doc(&self) -> bool {
        self.doc && self.is_line()
    }
    /// Whether documentation is laid out as a line comment.
    #[inline(always)]
    fn is_line(&self) -> bool {
        match self.neighbour {
            Neighbour::Single(token) => is_line_doc(token),
            _ => false,
        }
    }
    /// Whether it is an identifier that is no keyword.
    #[inline(always)]
    pub fn is_free_word(&self) -> bool {
        match self.neighbour {
            Neighbour::Single(token) => is_free_word(token),
            _ => false,
        }
    }
    /// Whether it is a keyword.
    #[inline(always)]
    pub fn is_keyword(&self) -> bool {
        match self.neighbour {
            Neighbour::Single(token) => is_keyword(token),
            _ => false,
        }
    }
    /// Whether it is an identifier or a keyword.
    #[inline(always)]
    pub fn is_any_word(&self) -> bool {
        match self.neighbour {
            Neighbour::Single(token) => is_any_word(token),
            _ => false,
        }
    }
    /// Whether it is a number: a Float, or an Int that is no tuple index. `place` says that it
    /// stands where it could be one.
    #[inline(always)]
    pub fn is_number(&self, place: bool) -> bool {
        match self.neighbour {
            Neighbour::Single(token) => is_number(token, place),
            _ => false,
        }
    }
    /// Whether it is a group in braces.
    #[inline(always)]
    pub fn is_brace(&self) -> bool {
        matches!(self.neighbour, Neighbour::Enclosed(Delim::Brace))
    }
    /// Whether it is a group in brackets.
    #[inline(always)]
    pub fn is_bracket(&self) -> bool {
        matches!(self.neighbour, Neighbour::Enclosed(Delim::Bracket))
    }
    /// Whether it is a group in parentheses.
    #[inline(always)]
    pub fn is_paren(&self) -> bool {
        matches!(self.neighbour, Neighbour::Enclosed(Delim::Paren))
    }
}
/// The only byte of a text that has one byte, else 0.
#[inline(always)]
fn one(text: &[u8]) -> u8 {
    match text {
        [byte] => *byte,
        _ => 0,
    }
}
