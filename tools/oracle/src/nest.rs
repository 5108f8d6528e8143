//! Each delimiter's partner.

use crate::lex::{Kind, Token};

/// For each token the number of its partner, or its own where it is no delimiter; or the place of the delimiter without one.
pub fn nest(toks: &[Token<'_>]) -> Result<Vec<u32>, usize> {
    let mut partner: Vec<u32> = (0..toks.len() as u32).collect();
    let mut open: Vec<usize> = Vec::new();
    for (i, t) in toks.iter().enumerate() {
        match t.kind {
            Kind::Opener(_) => open.push(i),
            Kind::Closer(d) => match open.pop() {
                Some(o) if toks[o].kind == Kind::Opener(d) => {
                    partner[o] = i as u32;
                    partner[i] = o as u32;
                }
                _ => return Err(t.at),
            },
            _ => {}
        }
    }
    match open.last() {
        Some(&o) => Err(toks[o].at),
        None => Ok(partner),
    }
}
