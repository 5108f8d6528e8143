//! The links of conditions, in their order.

use crate::made::node;
use lay_test_rows::each::each_is_told;
use lay_token::{List, NoMemory};
use lay_tree::{Branch, Expr, Link};
use std::alloc::Global;
use std::mem;
use std::test::Fail;

/// The branches of an expression that has some.
fn branches(alloc: Global, text: &str) -> Option<List<Branch>> {
    let mut expr = node(alloc, "", text)?.into_inner();
    match &mut expr {
        Expr::If {
            branches,
            otherwise: _,
        } => Some(mem::replace(branches, List::new(alloc))),
        _ => None,
    }
}

/// Which the links of an expression's last branch are, each behind a blank; nothing where there is no branch.
fn kinds(alloc: Global, text: &str) -> Result<String, NoMemory> {
    let mut kinds = String::new(alloc);
    let Some(branches) = branches(alloc, text) else {
        return Ok(kinds);
    };
    let Some(branch) = branches.into_vec().pop() else {
        return Ok(kinds);
    };
    let (condition, _) = branch.into_parts();
    let links = condition.into_links();
    for link in links.as_slice() {
        let kind = match link {
            Link::Expr { expr: _ } => "expression",
            Link::Let { pat: _, value: _ } => "let",
        };
        kinds = format!(in alloc; "{kinds} {kind}")?;
    }
    Ok(kinds)
}

#[test]
fn links_of_conditions(rt: HostRuntime) -> Result<(), Fail> {
    let rows = "if a{}⇒ expression§\
        if a&&b{}⇒ expression§\
        if let a=b{}⇒ let§\
        if a&&let b=c{}⇒ expression let§\
        if let a=b&&c&&let d=e{}⇒ let expression let§\
        if let a=b&&c{}else if d||e{}⇒ expression§\
        a⇒";
    each_is_told(&rt, rt.alloc(), rows, kinds)?;
    Ok(())
}
