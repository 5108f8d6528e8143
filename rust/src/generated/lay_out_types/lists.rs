//! Made by scripts/rust.sh from crates/lay_out_types/src/lists.rt, which is proved: change that.
//!
//! The delimiters and separators of lists, bounds and where clauses.
use crate::generated::lay_layout::Break;
use crate::generated::lay_out_tokens::notation::{
    CLOSING_SOFT_BREAK,
    CLOSING_SPACE_BREAK,
    COMMA_CLOSING_BREAK,
    NEVER_BREAK,
    SPACE_BREAK,
    open_list,
};
use crate::generated::lay_stream::Emit;
/// The break before the closer of parts with commas, one step out: a blank, or a `,` and a newline.
pub const COMMA_CLOSING_SPACE_BREAK: Break = Break { blank: 1, ..COMMA_CLOSING_BREAK };
/// Emits what stands before an element of a list: the opener of the list before the first one, else
/// a comma.
pub fn add_lead<
    E: Emit,
>(
    out: &mut E,
    before: Result<(), E::Fault>,
    first: bool,
    opener: &[u8],
) -> Result<(), E::Fault> {
    before?;
    if first {
        return open_list(out, opener);
    }
    put_comma(out)
}
/// Emits the comma between two elements, and the break after it.
fn put_comma<E: Emit>(out: &mut E) -> Result<(), E::Fault> {
    out.text(b",")?;
    out.brk(SPACE_BREAK)
}
/// Emits the closer of a list. If each element is on its own line, a `,` follows the last one, if
/// one is allowed. Of an empty list both delimiters are emitted as one text.
pub fn add_close<
    E: Emit,
>(
    out: &mut E,
    before: Result<(), E::Fault>,
    may: bool,
    bare: bool,
    both: &[u8],
    closer: &[u8],
) -> Result<(), E::Fault> {
    before?;
    if bare {
        return out.text(both);
    }
    out.brk(last_break(may))?;
    out.text(closer)?;
    out.end()
}
/// The break after the last element of a list.
fn last_break(may: bool) -> Break {
    if may {
        return COMMA_CLOSING_BREAK;
    }
    CLOSING_SOFT_BREAK
}
/// Emits what opens bounds.
pub fn add_begin<
    E: Emit,
>(out: &mut E, before: Result<(), E::Fault>) -> Result<(), E::Fault> {
    before?;
    out.begin(false, 4)
}
/// Emits what stands before a bound: a `+`, unless it is the first one.
pub(crate) fn add_plus<
    E: Emit,
>(out: &mut E, before: Result<(), E::Fault>, first: bool) -> Result<(), E::Fault> {
    before?;
    if first {
        return Ok(());
    }
    out.brk(SPACE_BREAK)?;
    out.text(b"+ ")
}
/// Emits what closes bounds.
pub fn add_end<
    E: Emit,
>(out: &mut E, before: Result<(), E::Fault>) -> Result<(), E::Fault> {
    before?;
    out.end()
}
/// Emits what stands before a predicate of a where clause: the word `where` before the first one,
/// else a comma.
pub(crate) fn add_predicates_lead<
    E: Emit,
>(out: &mut E, before: Result<(), E::Fault>, first: bool) -> Result<(), E::Fault> {
    before?;
    if first {
        return open_predicates(out);
    }
    put_comma(out)
}
/// Emits the word `where`, on the current line or on its own.
fn open_predicates<E: Emit>(out: &mut E) -> Result<(), E::Fault> {
    out.brk(NEVER_BREAK)?;
    out.begin(true, 4)?;
    out.brk(CLOSING_SPACE_BREAK)?;
    out.text(b"where")?;
    out.brk(SPACE_BREAK)
}
/// Emits the end of a where clause, if it has predicates: before a body a break, with a `,` before
/// its newline.
pub(crate) fn add_predicates_close<
    E: Emit,
>(
    out: &mut E,
    before: Result<(), E::Fault>,
    body: bool,
    bare: bool,
) -> Result<(), E::Fault> {
    before?;
    if bare {
        return Ok(());
    }
    if body {
        out.brk(COMMA_CLOSING_SPACE_BREAK)?;
        return out.end();
    }
    out.end()
}
