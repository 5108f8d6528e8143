//! Bytes to the one file and its text, or to its refusal.

use crate::depth::Depth;
use crate::layout::lay;
use crate::lex::{lex, Token};
use crate::nest::nest;
use crate::read::Reader;
use crate::render;
use crate::source::{normalise, Source};
use crate::tree::*;
use crate::written;

#[derive(Clone, Copy, PartialEq, Eq, Debug)]
pub enum Refusal {
    NotUtf8(usize),
    NoToken(usize),
    Unbalanced(usize),
    NoItem(usize),
}

/// The file that the tokens spell, or the place of the item that isn't accepted.
pub fn read_file<'a>(toks: &[Token<'a>], partner: &[u32], shebang: Option<String>) -> Result<File<'a>, usize> {
    read_units(toks, partner, shebang).map(|(file, _)| file)
}

/// The same, and where the tokens stand that say something of the file, each with its length.
pub fn read_units<'a>(
    toks: &[Token<'a>],
    partner: &[u32],
    shebang: Option<String>,
) -> Result<(File<'a>, Vec<(usize, usize)>), usize> {
    let mut r = Reader::new(toks, partner);
    let mut file = File { shebang, attrs: vec![], items: vec![] };
    while r.inner_attr_ahead() {
        let at = r.pos;
        match r.inner_attr() {
            Ok(a) => file.attrs.push(a),
            Err(()) => return Err(toks[at].at),
        }
    }
    while !r.done() {
        let at = r.pos;
        match r.item(Site::Module) {
            Ok(i) if written::item(&i) && Depth.item(&i) <= 256 => file.items.push(i),
            _ => return Err(toks[at].at),
        }
    }
    let units = r.units();
    Ok((file, units))
}

/// Reads a normalised source and hands the file on.
pub fn with_file<T>(src: &Source, f: impl FnOnce(&File<'_>) -> T) -> Result<T, Refusal> {
    let toks = lex(&src.text, src.start).map_err(Refusal::NoToken)?;
    let partner = nest(&toks).map_err(Refusal::Unbalanced)?;
    let file = read_file(&toks, &partner, src.shebang.clone()).map_err(Refusal::NoItem)?;
    Ok(f(&file))
}

pub fn out(file: &File<'_>) -> String {
    render::text(&lay(file))
}

pub fn format(bytes: &[u8]) -> Result<String, Refusal> {
    let src = normalise(bytes).map_err(Refusal::NotUtf8)?;
    with_file(&src, |f| out(f))
}
