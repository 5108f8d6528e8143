//! Made by scripts/rust.sh from crates/lay_out_tokens/src/notation.rt, which is proved: change that.
//!
//! The breaks of layouts, and the opening of lists.
use crate::generated::lay_stream::Emit;
use crate::generated::lay_token::{Break, Mark};
/// A break that is nothing or a newline.
pub const SOFT_BREAK: Break = Break {
    offset: 0,
    blank: 0,
    before: Mark::Absent,
    after: Mark::Absent,
    instead: Mark::Absent,
    never: false,
};
/// A break that is a blank or a newline.
pub const SPACE_BREAK: Break = Break { blank: 1, ..SOFT_BREAK };
/// A break that is always a newline: it has more blanks than any line has columns.
pub const HARD_BREAK: Break = Break { blank: 65535, ..SOFT_BREAK };
/// A break that is never a newline, at which the measured width ends.
pub const NEVER_BREAK: Break = Break { never: true, ..SOFT_BREAK };
/// The newline before the brace that closes a body, one step out.
pub const CLOSING_HARD_BREAK: Break = Break { offset: -4, ..HARD_BREAK };
/// The break before the closer of a group, one step out; nothing if it is no newline.
pub const CLOSING_SOFT_BREAK: Break = Break { offset: -4, ..SOFT_BREAK };
/// The break before the closer of a group, one step out; a blank if it is no newline.
pub const CLOSING_SPACE_BREAK: Break = Break { offset: -4, ..SPACE_BREAK };
/// The break before the closer of a list, one step out, with a `,` before the newline.
pub const COMMA_CLOSING_BREAK: Break = Break {
    offset: -4,
    before: Mark::Comma,
    ..SOFT_BREAK
};
/// Opens a list, whose elements stand on one line, or each on its own line, one step in.
pub fn open_list<E: Emit>(out: &mut E, opener: &[u8]) -> Result<(), E::Fault> {
    out.begin(true, 4)?;
    out.text(opener)?;
    out.brk(SOFT_BREAK)
}
