//! What is made of a tree, in a place.
use crate::places::{placed, text, written};
use crate::shapes::{Shape, expr, paired, with_part};
use lay_code::{Expr, Place};
use lay_laws::is_loose;
use lay_paren::parenthesize;
use std::alloc::Global;

/// A tree of up to three nodes, each a shape: the first, what stands in it for `p`, what stands in it for `q` if it has two parts, and else
/// what stands in the second.
#[derive(Clone, Copy)]
pub struct Tree {
    pub first: Shape,
    pub second: Option<Shape>,
    pub third: Option<Shape>,
}

/// What came out.
#[derive(Clone, Copy, Debug, PartialEq, Eq)]
pub enum Found {
    /// The tree breaks another rule than those of places and slots.
    NotLoose,
    /// Whether it does isn't what `is_loose` tells.
    Mistold,
    /// What is made is written in the place, and isn't without any of its pairs, of which there are so many.
    Least(usize),
    /// It isn't written there.
    Unwritten,
    /// It is without this pair.
    Needless(usize),
    /// It isn't the tree with some pairs.
    Other,
}

/// Whether the node of this number has a pair in the choice.
fn has_pair(choice: usize, node: usize) -> bool {
    choice >> node & 1 == 1
}

/// The tree with the pairs of a choice.
pub fn made(alloc: Global, tree: Tree, choice: usize) -> Option<Expr> {
    let mut first = expr(alloc, tree.first.text)?;
    if let Some(second) = tree.second {
        let mut part = expr(alloc, second.text)?;
        if let Some(third) = tree.third {
            let last = paired(alloc, expr(alloc, third.text)?, has_pair(choice, 2))?;
            if tree.first.parts == 2 {
                first = with_part(first, b"q", last)?;
            } else {
                part = with_part(part, b"p", last)?;
            }
        }
        let part = paired(alloc, part, has_pair(choice, 1))?;
        first = with_part(first, b"p", part)?;
    }
    paired(alloc, first, has_pair(choice, 0))
}

/// How many nodes it has.
fn nodes(tree: Tree) -> usize {
    match (tree.second, tree.third) {
        (Some(_), Some(_)) => 3,
        (Some(_), None) => 2,
        _ => 1,
    }
}

/// The choice of a pair round each part that may ever get one.
fn all_pairs(tree: Tree) -> usize {
    let second = if tree.first.whole { 0 } else { 2 };
    let third = match tree.second {
        Some(second) if tree.first.parts == 1 && second.whole => 0,
        _ => 4,
    };
    second + third
}

/// Whether the tree with the pairs of a choice can be written there.
fn is_written(alloc: Global, tree: Tree, choice: usize, around: &str) -> Option<bool> {
    written(alloc, &placed(alloc, around, made(alloc, tree, choice)?)?)
}

/// What is made of the tree in the place.
pub fn tried(alloc: Global, tree: Tree, place: Place, around: &str) -> Option<Found> {
    let given = made(alloc, tree, 0)?;
    let is_good = is_written(alloc, tree, all_pairs(tree), "p")?;
    if is_loose(alloc, &given).ok()? != is_good {
        return Some(Found::Mistold);
    }
    if !is_good {
        return Some(Found::NotLoose);
    }
    let least = parenthesize(alloc, given, place).ok()?;
    let file = placed(alloc, around, least)?;
    let spelled = text(alloc, &file)?;
    if !written(alloc, &file)? {
        return Some(Found::Unwritten);
    }
    let count = nodes(tree);
    for choice in 0..1usize << count {
        let other = text(alloc, &placed(alloc, around, made(alloc, tree, choice)?)?)?;
        if other.as_bytes() == spelled.as_bytes() {
            for node in 0..count {
                if has_pair(choice, node) && is_written(alloc, tree, choice - (1 << node), around)? {
                    return Some(Found::Needless(node));
                }
            }
            return Some(Found::Least(pairs(choice, count)));
        }
    }
    Some(Found::Other)
}

/// How many pairs a choice has.
fn pairs(choice: usize, count: usize) -> usize {
    let mut pairs = 0;
    for node in 0..count {
        if has_pair(choice, node) {
            pairs += 1;
        }
    }
    pairs
}
