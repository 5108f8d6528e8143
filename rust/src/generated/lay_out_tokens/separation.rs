//! Made by scripts/rust.sh from crates/lay_out_tokens/src/separation.rt, which is proved: change that.
//!
//! What is laid out between two neighbours in a token list.
use crate::generated::lay_out_tokens::neighbours::kind_of;
use crate::generated::lay_out_tokens::told::Told;
use crate::generated::lay_node::Listed;
use crate::generated::lay_token::{Delim, Kind};
/// What precedes a place in a token list, as far as it decides the layout.
#[derive(Clone, Copy,)]
pub struct Seen<'a> {
    /// The last two neighbours before the place.
    pub before: Told<'a>,
    pub last: Told<'a>,
    /// Whether the last one stands where a number may be a tuple index.
    pub place: bool,
    /// Whether the last one is a `<` of a turbofish.
    pub opens: bool,
    /// Whether the last one is the `>` that closes a turbofish.
    pub closes: bool,
    /// How many `<` of a turbofish are open.
    pub count: usize,
}
/// What is laid out between two neighbours. A soft break is a blank or a newline.
#[derive(Clone, Copy,)]
pub enum Separation {
    NoBreak,
    SoftBreak,
    HardBreak,
}
impl<'a> Seen<'a> {
    /// The state at the beginning of a list or of a group.
    #[inline(always)]
    pub fn at_start(count: usize) -> Seen<'a> {
        Seen {
            before: Told::nothing(),
            last: Told::nothing(),
            place: false,
            opens: false,
            closes: false,
            count,
        }
    }
    /// The state after a group.
    #[inline(always)]
    fn behind_group(delim: Delim, count: usize) -> Seen<'a> {
        Seen {
            before: Told::nothing(),
            last: Told::enclosed(delim),
            place: false,
            opens: false,
            closes: false,
            count,
        }
    }
    /// The state after one more token.
    #[inline(always)]
    pub fn behind(&self, token: &'a Listed, next: Told<'a>) -> Seen<'a> {
        match kind_of(token) {
            Kind::Opener(_) => Seen::at_start(self.count),
            Kind::Closer(delim) => Seen::behind_group(delim, self.count),
            _ => self.behind_single(next),
        }
    }
    /// The state after a token that is no delimiter.
    #[inline(always)]
    fn behind_single(&self, next: Told<'a>) -> Seen<'a> {
        if is_angle(&next) {
            return self.behind_angle(next);
        }
        Seen {
            before: self.last,
            last: next,
            place: self.is_index_place(),
            opens: false,
            closes: false,
            count: self.count,
        }
    }
    /// The state after a `<` or a `>`.
    #[inline(always)]
    fn behind_angle(&self, next: Told<'a>) -> Seen<'a> {
        Seen {
            before: self.last,
            last: next,
            place: self.is_index_place(),
            opens: self.opens_turbofish(&next),
            closes: self.closes_turbofish(&next),
            count: self.count_behind(&next),
        }
    }
    /// Whether a number here may be a tuple index: after a `.`, but not after `..`.
    #[inline(always)]
    fn is_index_place(&self) -> bool {
        self.last.is_mark(b'.') && !self.before.is_joint_mark(b'.')
    }
    /// The count of open `<` of a turbofish after this neighbour.
    #[inline(always)]
    fn count_behind(&self, next: &Told<'_>) -> usize {
        if next.is_mark(b'<') {
            return self.raised();
        }
        if next.is_mark(b'>') {
            return self.lowered();
        }
        self.count
    }
    /// The count of open `<` of a turbofish after a `<`.
    #[inline(always)]
    fn raised(&self) -> usize {
        if self.may_open_turbofish() {
            return self.count + 1;
        }
        self.count
    }
    /// Whether a `<` here is one of a turbofish.
    #[inline(always)]
    fn may_open_turbofish(&self) -> bool {
        self.count > 0 || self.last.is_joint_mark(b':')
    }
    /// The count of open `<` of a turbofish after a `>`. The `>` of an arrow closes none.
    #[inline(always)]
    fn lowered(&self) -> usize {
        if self.is_arrow() {
            return self.count;
        }
        self.count.saturating_sub(1)
    }
    /// Whether a `>` here ends an arrow.
    #[inline(always)]
    fn is_arrow(&self) -> bool {
        self.last.is_joint_mark(b'-') || self.last.is_joint_mark(b'=')
    }
    /// Whether this neighbour is a `<` of a turbofish.
    #[inline(always)]
    fn opens_turbofish(&self, next: &Told<'_>) -> bool {
        next.is_mark(b'<') && self.may_open_turbofish()
    }
    /// Whether this neighbour is a `>` inside a turbofish.
    #[inline(always)]
    fn ends_turbofish(&self, next: &Told<'_>) -> bool {
        next.is_mark(b'>') && self.count > 0
    }
    /// Whether this neighbour is the `>` that closes a turbofish.
    #[inline(always)]
    fn closes_turbofish(&self, next: &Told<'_>) -> bool {
        self.ends_turbofish(next) && self.lowered() == 0
    }
}
/// What is laid out before this neighbour: by the first row of the table that fits.
#[inline(always)]
pub fn between(seen: &Seen<'_>, next: &Told<'_>) -> Separation {
    if seen.last.is_nothing() {
        return Separation::NoBreak;
    }
    if seen.last.is_line_doc() {
        return Separation::HardBreak;
    }
    if is_beside_doc(seen, next) {
        return Separation::SoftBreak;
    }
    if seen.last.is_joint() {
        return Separation::NoBreak;
    }
    between_tokens(seen, next)
}
/// The rows for neighbours that aren't documentation, if the first isn't joint.
#[inline(always)]
fn between_tokens(seen: &Seen<'_>, next: &Told<'_>) -> Separation {
    if next.is_punct() {
        return before_mark(seen, next);
    }
    if seen.last.is_punct() {
        return behind_mark(seen, next);
    }
    around_group(seen, next)
}
/// The rows for punctuation that follows.
#[inline(always)]
fn before_mark(seen: &Seen<'_>, next: &Told<'_>) -> Separation {
    if is_end_mark(next) {
        return Separation::NoBreak;
    }
    if seen.last.is_punct() {
        return Separation::SoftBreak;
    }
    if is_point_behind_number(seen, next) {
        return Separation::SoftBreak;
    }
    if is_mark_without_gap(next) {
        return Separation::NoBreak;
    }
    if is_bang_of_call(seen, next) {
        return Separation::NoBreak;
    }
    around_group(seen, next)
}
/// The rows for punctuation that precedes.
#[inline(always)]
fn behind_mark(seen: &Seen<'_>, next: &Told<'_>) -> Separation {
    if is_behind_point_or_path(seen, next) {
        return Separation::NoBreak;
    }
    if is_behind_bang_or_dollar(seen, next) {
        return Separation::NoBreak;
    }
    if is_attribute(seen, next) {
        return Separation::NoBreak;
    }
    if is_prefix(seen) {
        return Separation::NoBreak;
    }
    around_group(seen, next)
}
/// The rows for a turbofish, and for a group that follows.
#[inline(always)]
fn around_group(seen: &Seen<'_>, next: &Told<'_>) -> Separation {
    if is_within_turbofish(seen, next) {
        return Separation::NoBreak;
    }
    if is_call_or_index(seen, next) {
        return Separation::NoBreak;
    }
    Separation::SoftBreak
}
#[inline(always)]
fn is_beside_doc(seen: &Seen<'_>, next: &Told<'_>) -> bool {
    seen.last.is_doc() || next.is_doc()
}
/// Whether the neighbour is `<` or `>`.
#[inline(always)]
fn is_angle(next: &Told<'_>) -> bool {
    next.is_mark(b'<') || next.is_mark(b'>')
}
/// Whether the neighbour is `,` or `;`.
#[inline(always)]
fn is_end_mark(next: &Told<'_>) -> bool {
    next.is_mark(b',') || next.is_mark(b';')
}
#[inline(always)]
fn is_point_behind_number(seen: &Seen<'_>, next: &Told<'_>) -> bool {
    next.is_mark(b'.') && seen.last.is_number(seen.place)
}
/// Whether the neighbour is `.`, `?` or `:`.
#[inline(always)]
fn is_mark_without_gap(next: &Told<'_>) -> bool {
    next.is_mark(b'.') || next.is_mark(b'?') || next.is_mark(b':')
}
/// Whether the neighbour is the `!` of `name!(..)`.
#[inline(always)]
fn is_bang_of_call(seen: &Seen<'_>, next: &Told<'_>) -> bool {
    next.is_mark(b'!') && !next.is_joint() && seen.last.is_free_word()
}
/// Whether the place follows a `.`, or precedes a word after `::`.
#[inline(always)]
fn is_behind_point_or_path(seen: &Seen<'_>, next: &Told<'_>) -> bool {
    seen.last.is_mark(b'.') || is_behind_path(seen, next)
}
#[inline(always)]
fn is_behind_path(seen: &Seen<'_>, next: &Told<'_>) -> bool {
    seen.last.is_mark(b':') && seen.before.is_joint_mark(b':') && next.is_any_word()
}
#[inline(always)]
fn is_behind_bang_or_dollar(seen: &Seen<'_>, next: &Told<'_>) -> bool {
    (seen.last.is_mark(b'!') || seen.last.is_mark(b'$')) && !next.is_brace()
}
/// Whether the neighbour is the brackets of `#[..]`.
#[inline(always)]
fn is_attribute(seen: &Seen<'_>, next: &Told<'_>) -> bool {
    seen.last.is_mark(b'#') && next.is_bracket()
}
/// Whether the place follows a `&`, `*` or `-` that has no left operand.
#[inline(always)]
fn is_prefix(seen: &Seen<'_>) -> bool {
    is_prefix_mark(&seen.last) && !is_joint_punct(&seen.before)
        && has_no_operand(&seen.before)
}
/// Whether the neighbour is `&`, `*` or `-`.
#[inline(always)]
fn is_prefix_mark(last: &Told<'_>) -> bool {
    last.is_mark(b'&') || last.is_mark(b'*') || last.is_mark(b'-')
}
#[inline(always)]
fn is_joint_punct(before: &Told<'_>) -> bool {
    before.is_punct() && before.is_joint()
}
/// Whether the neighbour is no left operand of an operator after it.
#[inline(always)]
fn has_no_operand(before: &Told<'_>) -> bool {
    before.is_nothing() || (before.is_punct() && !before.is_mark(b'?'))
        || before.is_keyword()
}
#[inline(always)]
fn is_within_turbofish(seen: &Seen<'_>, next: &Told<'_>) -> bool {
    seen.opens || seen.opens_turbofish(next) || seen.ends_turbofish(next)
        || (seen.closes && next.is_paren())
}
/// Whether the neighbour is the group of `name(..)` or `name[..]`, or a group after another.
#[inline(always)]
fn is_call_or_index(seen: &Seen<'_>, next: &Told<'_>) -> bool {
    (next.is_paren() || next.is_bracket()) && is_before_group(&seen.last)
}
#[inline(always)]
fn is_before_group(last: &Told<'_>) -> bool {
    last.is_free_word() || last.is_paren() || last.is_bracket()
}
