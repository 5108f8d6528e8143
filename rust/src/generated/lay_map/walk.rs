//! Made by scripts/rust.sh from crates/lay_map/src/walk.rt, which is proved: change that.
//!
//! A walk over tokens that searches the next token of a word.
use crate::generated::lay_map::ahead::Ahead;
use crate::generated::lay_map::flags::Flags;
use crate::generated::lay_map::tokens::{
    closes,
    is_semicolon,
    last_of,
    more_doc,
    opens,
    says,
    unit_from,
};
use crate::generated::lay_map::unit::{Span, Unit};
use crate::generated::lay_lex::one_by_one::Lexeme;
use crate::generated::lay_text::{List, NoMemory};
use crate::generated::lay_token::Kind;
use crate::shims::Global;
/// What is searched.
#[derive(Clone, Copy, Debug,)]
pub(crate) enum Sought {
    /// A token whose text begins with this byte.
    First(u8),
    /// Documentation, or what begins an attribute.
    Docs,
}
/// A place in the tokens, and the units that were found before it.
pub(crate) struct Walk<'a> {
    ahead: Ahead<'a>,
    /// For each open brace, whether it is in a unit.
    braces: Flags,
    units: List<Span>,
}
impl<'a> Walk<'a> {
    /// A walk before the first token.
    pub(crate) fn new(alloc: Global, ahead: Ahead<'a>) -> Walk<'a> {
        Walk { ahead, braces: Flags::new(alloc), units: List::new(alloc) }
    }
    /// Takes the next token whose text begins with this byte as a unit, and gives the length of its
    /// text in bytes. The tokens before it are in no unit.
    pub(crate) fn word(&mut self, byte: u8) -> Result<usize, NoMemory> {
        let found = find(&mut self.braces, &mut self.ahead, Sought::First(byte))?;
        match found {
            Some(lexeme) => {
                take(&mut self.braces, &mut self.units, &mut self.ahead, lexeme, 0)?;
                Ok(lexeme.text.len())
            }
            None => Ok(0),
        }
    }
    /// Takes the next documentation as a unit. The tokens before it are in no unit.
    pub(crate) fn docs(&mut self, inner: bool) -> Result<(), NoMemory> {
        let found = find(&mut self.braces, &mut self.ahead, Sought::Docs)?;
        match found {
            Some(lexeme) => {
                let more = more_doc(inner, lexeme.kind);
                take(&mut self.braces, &mut self.units, &mut self.ahead, lexeme, more)
            }
            None => Ok(()),
        }
    }
    /// Takes `row` opening braces, each as a unit: the last ones of those that stand in a row.
    /// `loose` says that `;` may stand between them.
    #[inline(never)]
    pub(crate) fn place(&mut self, row: usize, loose: bool) -> Result<(), NoMemory> {
        place(&mut self.braces, &mut self.units, &mut self.ahead, row, loose)
    }
    /// The units that were found.
    pub(crate) fn into_units(self) -> List<Span> {
        let Walk { ahead: _, braces: _, units } = self;
        units
    }
}
/// Moves past the token that is searched, and gives it; or past all tokens if there is none.
#[inline(always)]
fn find<
    'a,
>(
    braces: &mut Flags,
    ahead: &mut Ahead<'a>,
    sought: Sought,
) -> Result<Option<Lexeme<'a>>, NoMemory> {
    while let Some(lexeme) = ahead.next() {
        if is_sought(braces, sought, &lexeme) {
            return Ok(Some(lexeme));
        }
        pass(braces, lexeme.kind, false)?;
    }
    Ok(None)
}
/// Whether the token is the one that is searched.
#[inline(always)]
fn is_sought(braces: &Flags, sought: Sought, lexeme: &Lexeme<'_>) -> bool {
    if opens(lexeme.kind) { false } else if closes(lexeme.kind) {
        is_closing(sought) && braces.top()
    } else { says(sought, lexeme) }
}
/// Whether a closing brace is searched.
fn is_closing(sought: Sought) -> bool {
    match sought {
        Sought::First(byte) => byte == b'}',
        Sought::Docs => false,
    }
}
/// Moves past a token of this kind; `is_kept` says that it is in a unit.
#[inline(always)]
fn pass(braces: &mut Flags, kind: Kind, is_kept: bool) -> Result<(), NoMemory> {
    if opens(kind) {
        return braces.push(is_kept);
    }
    if closes(kind) {
        braces.pop();
    }
    Ok(())
}
/// Takes a token, and `more` of those ahead, as a unit.
#[inline(always)]
fn take<
    'a,
>(
    braces: &mut Flags,
    units: &mut List<Span>,
    ahead: &mut Ahead<'a>,
    lexeme: Lexeme<'a>,
    more: usize,
) -> Result<(), NoMemory> {
    let last = last_of(lexeme, ahead, more);
    add(units, unit_from(&lexeme, &last))?;
    pass(braces, lexeme.kind, true)
}
/// Adds a unit at the end.
fn add(units: &mut List<Span>, unit: Unit) -> Result<(), NoMemory> {
    match units.push(Span::new(unit)?) {
        Ok(()) => Ok(()),
        Err(_) => Err(NoMemory),
    }
}
/// Takes opening braces, each as a unit.
fn place(
    braces: &mut Flags,
    units: &mut List<Span>,
    ahead: &mut Ahead<'_>,
    row: usize,
    loose: bool,
) -> Result<(), NoMemory> {
    let mut left = row;
    let mut count = 0;
    while left > 0 {
        count = counted(count, *ahead, loose)?;
        match ahead.next() {
            Some(lexeme) => {
                let is_kept = opens(lexeme.kind) && count <= left;
                if is_kept {
                    add(units, unit_from(&lexeme, &lexeme))?;
                    left -= 1;
                }
                if opens(lexeme.kind) {
                    count -= 1;
                }
                pass(braces, lexeme.kind, is_kept)?;
            }
            None => return Ok(()),
        }
    }
    Ok(())
}
/// How many opening braces come next in a row. `count` is this number if they were counted before,
/// else 0; so no row is counted twice.
fn counted(count: usize, ahead: Ahead<'_>, loose: bool) -> Result<usize, NoMemory> {
    if count == 0 { count_openers(ahead, loose) } else { Ok(count) }
}
/// How many opening braces come next in a row; if `loose`, any number of `;` may stand between
/// them.
fn count_openers(ahead: Ahead<'_>, loose: bool) -> Result<usize, NoMemory> {
    let mut count = 0;
    let mut rest = ahead;
    while let Some(lexeme) = rest.next() {
        if opens(lexeme.kind) {
            count = one_more(count)?;
        } else if !(loose && is_semicolon(&lexeme)) {
            return Ok(count);
        }
    }
    Ok(count)
}
/// `count + 1`; `NoMemory` on overflow.
pub(crate) fn one_more(count: usize) -> Result<usize, NoMemory> {
    match count.checked_add(1) {
        Some(more) => Ok(more),
        None => Err(NoMemory),
    }
}
