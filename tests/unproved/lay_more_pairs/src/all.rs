//! All trees of up to three nodes over small sets of leaves and nodes, in six places.

use crate::places::PLACES;
use crate::shapes::Shape;
use crate::tried::{Found, Tree, tried};
use std::alloc::Global;
use std::process::Abort;

/// Texts of leaves, of nodes with one part, of nodes whose part is the whole of a statement or of a body, and of nodes with two parts.
const LEAVES: [&str; 6] = ["a", "1", "S{}", "'a:{}", "return", "{a}"];
const ONES: [&str; 16] = [
    "-p", "p as T", "p..", "..p", "p.0", "p()", "return p", "break p", "S{..p}", "if p{}",
    "if let b=p&&a{}", "match a{_ if p=>a,}", "p=a", "a<<p<<a", "p<a", "{let b=p else{};}",
];
const WHOLES: [&str; 2] = ["||p", "{p;}"];
const TWOS: [&str; 5] = ["p||q", "p+q", "p..q", "p=q", "p(q)"];

/// A leaf.
fn leaf(text: &'static str) -> Shape {
    Shape {
        text,
        parts: 0,
        whole: false,
    }
}

/// A node with one part, by its number.
fn one(number: usize) -> Shape {
    if number < ONES.len() {
        return Shape {
            text: ONES[number],
            parts: 1,
            whole: false,
        };
    }
    Shape {
        text: WHOLES[number - ONES.len()],
        parts: 1,
        whole: true,
    }
}

/// Tries a tree in each place.
fn try_all(rt: &impl Abort, alloc: Global, tree: Tree) {
    for (place, around) in PLACES {
        match tried(alloc, tree, place, around) {
            Some(Found::Least(_)) => {},
            Some(Found::NotLoose) => return,
            found => {
                let second = tree.second.map_or("", |shape| shape.text);
                let third = tree.third.map_or("", |shape| shape.text);
                panic!(rt; "{found:?}: {} {second} {third} in {around}", tree.first.text);
            },
        }
    }
}

#[test]
fn leaves(rt: HostRuntime) {
    for text in LEAVES {
        try_all(
            &rt,
            rt.alloc(),
            Tree {
                first: leaf(text),
                second: None,
                third: None,
            },
        );
    }
}

#[test]
fn two_nodes(rt: HostRuntime) {
    for number in 0..ONES.len() + WHOLES.len() {
        for text in LEAVES {
            try_all(
                &rt,
                rt.alloc(),
                Tree {
                    first: one(number),
                    second: Some(leaf(text)),
                    third: None,
                },
            );
        }
    }
}

#[test]
fn three_nodes_over_each_other(rt: HostRuntime) {
    for number in 0..ONES.len() + WHOLES.len() {
        for other in 0..ONES.len() + WHOLES.len() {
            for text in LEAVES {
                try_all(
                    &rt,
                    rt.alloc(),
                    Tree {
                        first: one(number),
                        second: Some(one(other)),
                        third: Some(leaf(text)),
                    },
                );
            }
        }
    }
}

#[test]
fn three_nodes_beside_each_other(rt: HostRuntime) {
    for text in TWOS {
        for left in LEAVES {
            for right in LEAVES {
                try_all(
                    &rt,
                    rt.alloc(),
                    Tree {
                        first: Shape {
                            text,
                            parts: 2,
                            whole: false,
                        },
                        second: Some(leaf(left)),
                        third: Some(leaf(right)),
                    },
                );
            }
        }
    }
}
