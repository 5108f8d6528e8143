//! Made by scripts/rust.sh from crates/lay_out_pats/src/patterns.rt, which is proved: change that.
//!
//! The layout of patterns.
use crate::generated::lay_layout::Break;
use crate::generated::lay_node::{
    Attr,
    FieldPat,
    Literal,
    Pat,
    PatValue,
    PathStyle,
    SpanEnd,
};
use crate::generated::lay_out_tokens::notation::{CLOSING_SPACE_BREAK, SPACE_BREAK};
use crate::generated::lay_out_tokens::{HARD_BREAK, put_bare_attr};
use crate::generated::lay_out_types::add_path;
use crate::generated::lay_out_types::calls::{
    add_call,
    add_either,
    add_if,
    add_literal,
    add_text,
    add_word,
};
use crate::generated::lay_out_types::lists::{
    COMMA_CLOSING_SPACE_BREAK,
    add_close,
    add_end,
    add_lead,
};
use crate::generated::lay_piece::Kind;
use crate::generated::lay_stream::Emit;
/// Emits the layout of a pattern.
pub fn put_pat<E: Emit>(out: &mut E, pat: &Pat) -> Result<(), E::Fault> {
    add_pat(out, Ok(()), pat)
}
/// Emits a pattern.
pub fn add_pat<
    E: Emit,
>(out: &mut E, before: Result<(), E::Fault>, pat: &Pat) -> Result<(), E::Fault> {
    match pat {
        Pat::Or { alternatives } => {
            add_alternatives(out, before, alternatives.as_slice())
        }
        Pat::Value { value } => add_value(out, before, value),
        Pat::Wild => add_text(out, before, b"_"),
        Pat::Rest => add_text(out, before, b".."),
        Pat::Call { call } => add_call(out, before, call),
        Pat::Path { path } => add_path(out, before, path, PathStyle::Code),
        Pat::Bind { by_ref, mutable, name, of } => {
            let reference = add_if(out, before, *by_ref, b"ref ");
            let word = add_if(out, reference, *mutable, b"mut ");
            let name = add_word(out, word, name.raw, &name.text);
            match of {
                None => name,
                Some(pat) => {
                    let sign = add_text(out, name, b" @ ");
                    add_pat(out, sign, pat.get())
                }
            }
        }
        Pat::Span { start, inclusive, end } => {
            let dots = add_dots(out, before, start.get(), *inclusive);
            add_last_end(out, dots, end.get())
        }
        Pat::Ref { mutable, inner } => {
            let reference = add_text(out, before, b"&");
            let word = add_if(out, reference, *mutable, b"mut ");
            add_pat(out, word, inner.get())
        }
        Pat::Struct { path, fields, rest } => {
            let path = add_path(out, before, path, PathStyle::Code);
            add_fields(out, path, fields.as_slice(), *rest)
        }
        Pat::TupleStruct { path, elements } => {
            let path = add_path(out, before, path, PathStyle::Code);
            add_pats(out, path, elements.as_slice(), b"(", b"()", b")")
        }
        Pat::Tuple { elements } => {
            let elements = elements.as_slice();
            match elements {
                [] => add_text(out, before, b"()"),
                [element] => add_single(out, before, element),
                [_, _, ..] => add_pats(out, before, elements, b"(", b"()", b")"),
            }
        }
        Pat::Paren { inner } => {
            let opener = add_text(out, before, b"(");
            let inner = add_pat(out, opener, inner.get());
            add_text(out, inner, b")")
        }
        Pat::Slice { elements } => {
            add_pats(out, before, elements.as_slice(), b"[", b"[]", b"]")
        }
    }
}
/// Emits alternatives, with a `|` between them.
fn add_alternatives<
    E: Emit,
>(
    out: &mut E,
    before: Result<(), E::Fault>,
    alternatives: &[Pat],
) -> Result<(), E::Fault> {
    let mut done = add_group(out, before);
    for (index, alternative) in alternatives.iter().enumerate() {
        done = add_bar(out, done, index == 0);
        done = add_pat(out, done, alternative);
    }
    add_end(out, done)
}
/// Emits patterns in brackets, with a `,` between them. Without a pattern the brackets are one
/// text.
fn add_pats<
    E: Emit,
>(
    out: &mut E,
    before: Result<(), E::Fault>,
    pats: &[Pat],
    opener: &[u8],
    both: &[u8],
    closer: &[u8],
) -> Result<(), E::Fault> {
    let mut done = before;
    for (index, pat) in pats.iter().enumerate() {
        done = add_lead(out, done, index == 0, opener);
        done = add_pat(out, done, pat);
    }
    add_close(out, done, true, pats.is_empty(), both, closer)
}
/// Emits the one element of a tuple, with its comma; a `..` alone has none.
fn add_single<
    E: Emit,
>(out: &mut E, before: Result<(), E::Fault>, element: &Pat) -> Result<(), E::Fault> {
    let rest = is_rest(element);
    let opener = add_text(out, before, b"(");
    let element = add_pat(out, opener, element);
    add_either(out, element, rest, b")", b",)")
}
/// Emits the fields of a struct in braces, and the `..` after them.
fn add_fields<
    E: Emit,
>(
    out: &mut E,
    before: Result<(), E::Fault>,
    fields: &[FieldPat],
    rest: bool,
) -> Result<(), E::Fault> {
    let mut done = before;
    for (index, field) in fields.iter().enumerate() {
        done = add_brace(out, done, index == 0);
        done = add_field(out, done, field);
    }
    if rest {
        let lead = add_brace(out, done, fields.is_empty());
        let dots = add_text(out, lead, b"..");
        return add_closing_brace(out, dots, false, false);
    }
    add_closing_brace(out, done, true, fields.is_empty())
}
/// Emits a field of a struct pattern, with its attributes.
fn add_field<
    E: Emit,
>(out: &mut E, before: Result<(), E::Fault>, field: &FieldPat) -> Result<(), E::Fault> {
    match field {
        FieldPat::Named { attrs, name, pat } => {
            let attrs = add_attrs(out, before, attrs.as_slice());
            let name = add_word(out, attrs, name.raw, &name.text);
            let colon = add_text(out, name, b": ");
            add_pat(out, colon, pat)
        }
        FieldPat::Index { attrs, index, pat } => {
            let attrs = add_attrs(out, before, attrs.as_slice());
            let index = add_text(out, attrs, index.as_bytes());
            let colon = add_text(out, index, b": ");
            add_pat(out, colon, pat)
        }
        FieldPat::Short { attrs, pat } => {
            let attrs = add_attrs(out, before, attrs.as_slice());
            add_pat(out, attrs, pat)
        }
    }
}
/// Emits attributes, each with a newline after it.
pub fn add_attrs<
    E: Emit,
>(out: &mut E, before: Result<(), E::Fault>, attrs: &[Attr]) -> Result<(), E::Fault> {
    let mut done = before;
    for attr in attrs {
        done = add_attr_line(out, done, attr);
    }
    done
}
/// Emits an attribute, with a newline after it.
fn add_attr_line<
    E: Emit,
>(out: &mut E, before: Result<(), E::Fault>, attr: &Attr) -> Result<(), E::Fault> {
    before?;
    put_bare_attr(out, attr)?;
    out.brk(HARD_BREAK)
}
/// Emits a literal, or a negative number with its `-`.
fn add_value<
    E: Emit,
>(out: &mut E, before: Result<(), E::Fault>, value: &PatValue) -> Result<(), E::Fault> {
    let minus = add_if(out, before, value.negative, b"-");
    add_literal(out, minus, &value.literal)
}
/// Emits an end of a range pattern.
fn add_span_end<
    E: Emit,
>(out: &mut E, before: Result<(), E::Fault>, end: &SpanEnd) -> Result<(), E::Fault> {
    match end {
        SpanEnd::Value(value) => add_value(out, before, value),
        SpanEnd::Path(path) => add_path(out, before, path, PathStyle::Code),
    }
}
/// Emits the start of a range pattern, if it has one, and the `..` or `..=` after it.
fn add_dots<
    E: Emit,
>(
    out: &mut E,
    before: Result<(), E::Fault>,
    start: &Option<SpanEnd>,
    inclusive: bool,
) -> Result<(), E::Fault> {
    match start {
        None => add_either(out, before, inclusive, b"..=", b".."),
        Some(start) => {
            let first = add_span_end(out, before, start);
            add_dots_behind(out, first, inclusive, ends_in_point(start))
        }
    }
}
/// Emits a `..` or `..=`, with a blank before it if it would directly follow the point of a number.
pub fn add_dots_behind<
    E: Emit,
>(
    out: &mut E,
    before: Result<(), E::Fault>,
    inclusive: bool,
    point: bool,
) -> Result<(), E::Fault> {
    if point {
        return add_either(out, before, inclusive, b" ..=", b" ..");
    }
    add_either(out, before, inclusive, b"..=", b"..")
}
/// Emits the end of a range pattern, if it has one.
fn add_last_end<
    E: Emit,
>(
    out: &mut E,
    before: Result<(), E::Fault>,
    end: &Option<SpanEnd>,
) -> Result<(), E::Fault> {
    match end {
        None => before,
        Some(end) => add_span_end(out, before, end),
    }
}
/// Whether an end of a range pattern ends in the `.` of a number.
fn ends_in_point(end: &SpanEnd) -> bool {
    match end {
        SpanEnd::Value(value) => is_pointed(&value.literal),
        SpanEnd::Path(_path) => false,
    }
}
/// Whether a literal is a number that ends in a `.`.
pub fn is_pointed(literal: &Literal) -> bool {
    match literal.kind {
        Kind::Float => is_digits_and_point(literal.text.as_bytes()),
        _ => false,
    }
}
/// Whether a text is digits and `_`, and then a `.`.
fn is_digits_and_point(text: &[u8]) -> bool {
    let mut rest = text;
    while let [byte, tail @ ..] = rest {
        if !(byte.is_ascii_digit() || *byte == b'_') {
            return *byte == b'.' && tail.is_empty();
        }
        rest = tail;
    }
    false
}
/// Whether a pattern is `..` alone.
fn is_rest(pat: &Pat) -> bool {
    matches!(pat, Pat::Rest)
}
/// Emits what opens alternatives.
pub fn add_group<
    E: Emit,
>(out: &mut E, before: Result<(), E::Fault>) -> Result<(), E::Fault> {
    before?;
    out.begin(false, 0)
}
/// Emits what stands before an alternative: a `|`, unless it is the first one.
fn add_bar<
    E: Emit,
>(out: &mut E, before: Result<(), E::Fault>, first: bool) -> Result<(), E::Fault> {
    before?;
    if first {
        return Ok(());
    }
    out.brk(SPACE_BREAK)?;
    out.text(b"| ")
}
/// Emits what stands before a field: the `{` before the first one, else a comma.
pub fn add_brace<
    E: Emit,
>(out: &mut E, before: Result<(), E::Fault>, first: bool) -> Result<(), E::Fault> {
    before?;
    if first {
        out.text(b" {")?;
        out.begin(true, 4)?;
        return out.brk(SPACE_BREAK);
    }
    out.text(b",")?;
    out.brk(SPACE_BREAK)
}
/// Emits the `}`. If each field is on its own line, a `,` follows the last one, if one is allowed.
/// Without fields both braces are emitted as one text.
pub fn add_closing_brace<
    E: Emit,
>(
    out: &mut E,
    before: Result<(), E::Fault>,
    may: bool,
    bare: bool,
) -> Result<(), E::Fault> {
    before?;
    if bare {
        return out.text(b" {}");
    }
    out.brk(closing_break(may))?;
    out.end()?;
    out.text(b"}")
}
/// The break after the last field; `may` says that a comma may stand before it.
fn closing_break(may: bool) -> Break {
    if may {
        return COMMA_CLOSING_SPACE_BREAK;
    }
    CLOSING_SPACE_BREAK
}
