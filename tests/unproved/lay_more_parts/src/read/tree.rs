//! Boxes of a type that holds boxes of its own, and which tokens are a token list.
ghost use Rattle.std.specs.Prelude.{◌≡◌, IfOk};

use crate::read::each::each_holds;
use lay_node::{Boxed, Listed, Tokens};
use lay_test_rows::{BETWEEN, parts, tokens};
use lay_token::{List, NoMemory, Text};
use std::alloc::Global;
use std::test::Fail;

#[derive(Debug, Drop)]
enum Chain {
    End,
    Link { depth: u32, next: Boxed<Chain> },
}

impl Chain {
    ghost use Rattle.lay_more_parts.specs.declared.read.tree.Chain.TheVariants.{Link};

    // Contracts see the chain behind a link, and not its box.
    fn behind(self, alloc: Global, depth: u32) -> Result<Chain, NoMemory>
        ensures { IfOk result (λ made. made ≡ Link depth self) }
    {
        Ok(Chain::Link {
            depth,
            next: Boxed::new(alloc, self)?,
        })
    }
}

// A number in a box is lent, and changed there.
#[test]
fn boxes(rt: HostRuntime) -> Result<(), Fail> {
    let mut number = Boxed::new(rt.alloc(), 3u8)?;
    *number.get_mut() = 7;
    assert_eq!(rt; *number.get(), 7);
    assert_eq!(rt; number.into_inner(), 7);
    Ok(())
}

// Three links, built from the last one on, are read back from the first on: lent, and then taken.
#[test]
fn links(rt: HostRuntime) -> Result<(), Fail> {
    let alloc = rt.alloc();
    let mut chain = Chain::End;
    for depth in 0..3u32 {
        chain = chain.behind(alloc, depth)?;
    }
    let mut rest = &chain;
    for wanted in [2u32, 1, 0] {
        match rest {
            Chain::Link { depth, next } => {
                assert_eq!(rt; *depth, wanted);
                rest = next.get();
            }
            Chain::End => return Err(Fail::new("too few links")),
        }
    }
    assert!(rt; matches!(rest, Chain::End));
    for wanted in [2u32, 1, 0] {
        chain = match chain {
            Chain::Link { depth, next } => {
                assert_eq!(rt; depth, wanted);
                next.into_inner()
            }
            Chain::End => return Err(Fail::new("too few links")),
        };
    }
    assert!(rt; matches!(chain, Chain::End));
    Ok(())
}

/// The tokens of a text, as a list holds them.
fn listed(alloc: Global, text: &[u8]) -> Option<List<Listed>> {
    let mut list = List::new(alloc);
    for token in tokens(alloc, text).ok()?.as_slice() {
        let text = Text::from_bytes(alloc, token.text.as_bytes()).ok()?;
        let (kind, joint) = (token.kind, token.joint);
        list.push(Listed::Token { kind, text, joint }).ok()?;
    }
    Some(list)
}

/// As many of the tokens of a row as stand behind its `→` are in the token list that they make, or they make none.
fn is_token_list(alloc: Global, row: &str) -> bool {
    let (text, wanted) = parts(row);
    let Some(list) = listed(alloc, text.as_bytes()) else {
        return false;
    };
    match Tokens::from_list(alloc, list) {
        Ok(Some(tokens)) => wanted.parse() == Ok(tokens.as_slice().len()),
        Ok(None) => wanted == "none",
        Err(NoMemory) => false,
    }
}

#[test]
fn token_lists(rt: HostRuntime) {
    let rows =
        "→0§a→1§()→2§a,(b[{}]c)d→11§(→none§)→none§(]→none§[(])→none§{}}→none§)(→none§[{( )} ]→6";
    each_holds(&rt, rt.alloc(), rows, BETWEEN, is_token_list);
}
