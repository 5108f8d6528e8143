//! Made by scripts/rust.sh from crates/lay_nest/src/partners.rt, which is proved: change that.
//!
//! The distance of each opener to its partner.
use crate::shims::Vec;
use crate::generated::lay_token::{FormatError, Kind, List, NoMemory, Refusal, Token};
use crate::shims::Global;
/// For each token: the number of tokens between it and its partner if it is an opener, else 0.
pub fn spans_of(
    alloc: Global,
    tokens: &[Token],
) -> Result<List<crate::shims::Span>, FormatError> {
    let mut reading = match Reading::new(alloc, tokens.len()) {
        Ok(reading) => reading,
        Err(NoMemory) => return Err(FormatError::NoMemory),
    };
    for token in tokens {
        match reading.add(token, tokens) {
            Ok(()) => {}
            Err(error) => return Err(error),
        }
    }
    let Reading { spans, mut places } = reading;
    match places.pop() {
        Some(last) => Err(unbalanced(token_at(tokens, last))),
        None => Ok(List::from_vec(spans)),
    }
}
/// The token with this index.
fn token_at(tokens: &[Token], place: usize) -> &Token {
    &tokens[place]
}
/// The error for a delimiter that has no partner.
fn unbalanced(token: &Token) -> FormatError {
    FormatError::Refused(Refusal::Unbalanced { at: token.at })
}
/// Whether the kinds are an opener and the closer that matches it.
fn is_pair(first: Kind, second: Kind) -> bool {
    match (first, second) {
        (Kind::Opener(opened), Kind::Closer(closed)) => opened == closed,
        _ => false,
    }
}
/// The partners among the tokens that were read so far.
struct Reading {
    /// The spans of the tokens; 0 for an opener that is still open.
    spans: Vec<crate::shims::Span>,
    /// The indices of the openers that are still open, the innermost last.
    places: Vec<usize>,
}
impl Reading {
    /// The state before the first of `len` tokens.
    fn new(alloc: Global, len: usize) -> Result<Reading, NoMemory> {
        let spans = Vec::with_capacity(alloc, len)?;
        Ok(Reading { spans, places: Vec::new(alloc) })
    }
    /// Adds the next of the tokens.
    fn add(&mut self, token: &Token, tokens: &[Token]) -> Result<(), FormatError> {
        let kind = token.kind;
        let added = match kind {
            Kind::Opener(_) => self.open(),
            Kind::Closer(_) => {
                match self.places.pop() {
                    Some(place) if is_pair(token_at(tokens, place).kind, kind) => {
                        self.close(place)
                    }
                    _ => return Err(unbalanced(token)),
                }
            }
            _ => self.pass(),
        };
        match added {
            Ok(()) => Ok(()),
            Err(NoMemory) => Err(FormatError::NoMemory),
        }
    }
    /// Adds an opener.
    fn open(&mut self) -> Result<(), NoMemory> {
        self.places.push(self.spans.len())?;
        self.pass()
    }
    /// Adds the closer of the opener with this index, which was taken from the open ones.
    fn close(&mut self, place: usize) -> Result<(), NoMemory> {
        self.spans[place] = crate::shims::Span::new(self.spans.len() - place - 1);
        self.pass()
    }
    /// Adds a token whose span is 0.
    fn pass(&mut self) -> Result<(), NoMemory> {
        self.spans.push(crate::shims::Span::new(0))?;
        Ok(())
    }
}
