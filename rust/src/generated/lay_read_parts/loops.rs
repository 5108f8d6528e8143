//! Made by scripts/rust.sh from crates/lay_read_parts/src/loops.rt, which is proved: change that.
//!
//! The loops over lists and chains, which are given a reader of parts.
use crate::generated::lay_read_parts::leads::{
    begins_field,
    begins_fn_param,
    begins_param,
    begins_predicate,
};
use crate::generated::lay_read_tokens::found::greater;
use crate::generated::lay_read_tokens::front::{
    is_at_closer,
    is_at_mark,
    takes_closer,
    takes_colons,
    takes_mark,
    takes_op,
};
use crate::generated::lay_read_tokens::stop::keep;
use crate::generated::lay_read_tokens::{Ahead, Found, ReadNone};
use crate::generated::lay_token::{Delim, List};
use crate::shims::Global;
/// The token that closes a list.
#[derive(Clone, Copy,)]
pub enum Closer {
    Group(Delim),
    /// `>`
    Angle,
    /// `|`
    Bar,
}
/// The operator between the parts of a chain.
#[derive(Clone, Copy,)]
pub enum Joint {
    /// `+`
    Plus,
    /// `::`
    Colons,
    /// `|`
    Bar,
}
/// A list without a closing token, which goes on as long as a further part begins.
#[derive(Clone, Copy,)]
pub enum Opening {
    /// The parameters of a function type.
    Param,
    /// A where clause.
    Predicate,
    /// The fields of a struct pattern.
    Field,
    /// The parameters of a function.
    FnParam,
}
/// A reader of parts, which are read within a depth and at a place.
pub trait Part<T, X> {}
/// Whether the token that closes the list comes next.
fn is_at_end(at: &Ahead<'_>, closer: Closer) -> bool {
    match closer {
        Closer::Group(delim) => is_at_closer(at, delim),
        Closer::Angle => is_at_mark(at, b">"),
        Closer::Bar => is_at_mark(at, b"|"),
    }
}
/// Moves past the token that closes the list if it comes next, and says whether it did.
fn takes_end(at: &mut Ahead<'_>, closer: Closer) -> bool {
    match closer {
        Closer::Group(delim) => takes_closer(at, delim),
        Closer::Angle => takes_mark(at, b">"),
        Closer::Bar => takes_mark(at, b"|"),
    }
}
/// Moves past a `,` after an element. Without a `,` it says whether the token that closes the list
/// comes next.
fn takes_element_end(at: &mut Ahead<'_>, closer: Closer) -> bool {
    takes_mark(at, b",") || is_at_end(at, closer)
}
/// Moves past the operator of the chain if it comes next, and says whether it did.
fn takes_joint(at: &mut Ahead<'_>, joint: Joint) -> bool {
    match joint {
        Joint::Plus => takes_op(at, b"+"),
        Joint::Colons => takes_colons(at),
        Joint::Bar => takes_op(at, b"|"),
    }
}
/// Parses elements with commas between them, and the token that closes the list.
pub fn read_elements<
    P: Part<T, X>,
    R,
    T,
    X: Copy,
    E: Fn(&R, &mut Ahead<'_>, X) -> Result<Found<T>, ReadNone>,
>(
    alloc: Global,
    at: &mut Ahead<'_>,
    depth: u32,
    closer: Closer,
    rules: &R,
    part: E,
    place: X,
) -> Result<Found<List<T>>, ReadNone> {
    let mut nodes = List::new(alloc);
    let mut need = 0;
    while !takes_end(at, closer) {
        let found = part(rules, at, place)?;
        need = greater(need, found.need);
        keep(&mut nodes, found.node)?;
        if !takes_element_end(at, closer) {
            return Err(ReadNone::NoReading);
        }
    }
    Ok(Found { node: nodes, need })
}
/// Parses a chain of at least one part, with the operator between the parts.
pub fn read_chain<
    P: Part<T, X>,
    R,
    T,
    X: Copy,
    E: Fn(&R, &mut Ahead<'_>, X) -> Result<Found<T>, ReadNone>,
>(
    alloc: Global,
    at: &mut Ahead<'_>,
    depth: u32,
    joint: Joint,
    rules: &R,
    part: E,
    place: X,
) -> Result<Found<List<T>>, ReadNone> {
    let Found { node, mut need } = part(rules, at, place)?;
    let mut nodes = List::new(alloc);
    keep(&mut nodes, node)?;
    while takes_joint(at, joint) {
        let found = part(rules, at, place)?;
        need = greater(need, found.need);
        keep(&mut nodes, found.node)?;
    }
    Ok(Found { node: nodes, need })
}
/// Whether a further part begins with the next tokens.
fn goes_on(at: &Ahead<'_>, opening: Opening) -> bool {
    match opening {
        Opening::Param => begins_param(at),
        Opening::Predicate => begins_predicate(at),
        Opening::Field => begins_field(at),
        Opening::FnParam => begins_fn_param(at),
    }
}
/// Parses elements with commas between them, as long as one begins. The flag says that a comma
/// follows the last one, or that there is none.
pub fn read_open_elements<
    P: Part<T, X>,
    R,
    T,
    X: Copy,
    E: Fn(&R, &mut Ahead<'_>, X) -> Result<Found<T>, ReadNone>,
>(
    alloc: Global,
    at: &mut Ahead<'_>,
    depth: u32,
    opening: Opening,
    rules: &R,
    part: E,
    place: X,
) -> Result<Found<(List<T>, bool)>, ReadNone> {
    let mut nodes = List::new(alloc);
    let mut need = 0;
    while goes_on(at, opening) {
        let found = part(rules, at, place)?;
        need = greater(need, found.need);
        keep(&mut nodes, found.node)?;
        if !takes_mark(at, b",") {
            return Ok(Found { node: (nodes, false), need });
        }
    }
    Ok(Found { node: (nodes, true), need })
}
