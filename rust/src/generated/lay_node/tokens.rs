//! Made by scripts/rust.sh from crates/lay_node/src/tokens.rt, which is proved: change that.
//!
//! Token lists, delimited groups and macro calls.
use crate::shims::Vec;
use crate::generated::lay_node::simple_path::SimplePath;
use crate::generated::lay_node::token::Listed;
use crate::generated::lay_token::{Delim, Kind, List, NoMemory};
use crate::shims::Global;
/// A token list (Rust Reference, "Macros": token trees): tokens with balanced delimiters, kept
/// flat.
#[derive(Debug, Clone, PartialEq, Eq)]
pub struct Tokens {
    list: List<Listed>,
}
impl Tokens {
    /// The list of these tokens, which are balanced.
    pub fn new(list: List<Listed>) -> Tokens {
        Tokens { list }
    }
    /// The list of these tokens, or `None` if their delimiters aren't balanced.
    pub fn from_list(
        alloc: Global,
        list: List<Listed>,
    ) -> Result<Option<Tokens>, NoMemory> {
        if are_balanced(alloc, list.as_slice())? { Ok(Some(Tokens { list })) } else {
            Ok(None)
        }
    }
    /// All the tokens.
    pub fn as_slice(&self) -> &[Listed] {
        self.list.as_slice()
    }
}
/// Whether the delimiters of the tokens are balanced.
fn are_balanced(alloc: Global, tokens: &[Listed]) -> Result<bool, NoMemory> {
    let mut open = Vec::new(alloc);
    for token in tokens {
        if !turn(&mut open, token)? {
            return Ok(false);
        }
    }
    Ok(open.is_empty())
}
/// Updates the stack of open delimiters by one token. Gives `false` if the token is a closer that
/// doesn't match the innermost open delimiter.
fn turn(opened: &mut Vec<Delim>, token: &Listed) -> Result<bool, NoMemory> {
    match token {
        Listed::Token { kind: Kind::Opener(delim), .. } => {
            opened.push(*delim)?;
            Ok(true)
        }
        Listed::Token { kind: Kind::Closer(delim), .. } => {
            Ok(opened.pop() == Some(*delim))
        }
        _ => Ok(true),
    }
}
/// A delimited group of tokens.
#[derive(Debug, Clone, PartialEq, Eq)]
pub struct Group {
    pub delim: Delim,
    /// The tokens between the delimiters.
    pub tokens: Tokens,
}
/// A macro call (Rust Reference, "Macro invocation"): `a::m!(b, c)`.
#[derive(Debug, Clone, PartialEq, Eq)]
pub struct MacroCall {
    pub path: SimplePath,
    pub tokens: Group,
}
