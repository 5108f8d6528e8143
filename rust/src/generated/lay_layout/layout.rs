//! Made by scripts/rust.sh from crates/lay_layout/src/layout.rt, which is proved: change that.
//!
//! Layout tokens: texts, breaks and groups.
use crate::generated::lay_text::Text;
/// What a break writes beside blanks and a newline.
#[derive(Clone, Copy, Debug, PartialEq, Eq,)]
pub enum Mark {
    /// Nothing.
    Absent,
    /// `,`
    Comma,
    /// `{`
    OpenBrace,
    /// `}`
    CloseBrace,
}
/// A place where a line may be broken.
///
/// If the line is broken here, `before` ends it, and the next line begins with the indent plus
/// `offset` in blanks and then `after`. If it isn't, `blank` blanks and then `instead` are written.
#[derive(Clone, Copy, Debug, PartialEq, Eq,)]
pub struct Break {
    pub offset: i8,
    pub blank: u16,
    pub before: Mark,
    pub after: Mark,
    pub instead: Mark,
    /// The line is never broken here; but the width that is measured before it ends here.
    pub never: bool,
}
/// One layout token.
#[derive(Debug,)]
pub enum Tok {
    /// A text, written as it is.
    Text(Text),
    /// A place where a line may be broken.
    Break(Break),
    /// A group begins. It is laid out flat if it fits. Otherwise all its breaks are newlines if it
    /// is consistent; if it isn't, only those after which the next part doesn't fit.
    Begin {
        consistent: bool,
        offset: i8,
    },
    /// The innermost open group ends.
    End,
}
/// How the content of a group is laid out.
#[derive(Clone, Copy, Debug, PartialEq, Eq,)]
pub enum Frame {
    /// No break is a newline.
    Flat,
    /// Breaks may be newlines: all of them if `consistent`. `indent` counts blanks.
    Broken {
        consistent: bool,
        indent: u64,
    },
}
