//! Made by scripts/rust.sh from crates/lay_read_branches/src/conditions.rt, which is proved: change that.
//!
//! Parsing of conditions: links with `&&` between them.
//!
//! Links are read one by one. If none of them is a `let`, they are the first operands of one
//! expression; then the operators that follow are read from the precedence level of `&&` on.
use crate::generated::lay_read_branches::rules::BranchRules;
use crate::generated::lay_code::{
    Block,
    Boxed,
    Condition,
    Expr,
    Item,
    Link,
    Op,
    Pat,
    PatPlace,
    Place,
    Site,
};
use crate::generated::lay_ops::ahead::strength;
use crate::generated::lay_ops::places::{link_place, plain};
use crate::generated::lay_ops::stands;
use crate::generated::lay_read_operators::ExprRules;
use crate::generated::lay_read_parts::joins::{both, refused};
use crate::generated::lay_read_parts::loops::Part;
use crate::generated::lay_read_pats::pat_ahead;
use crate::generated::lay_read_shared::boxes::boxed_found;
use crate::generated::lay_read_shared::loops::{Going, read_parts};
use crate::generated::lay_read_tokens::found::greater;
use crate::generated::lay_read_tokens::front::{pass_two, takes_keyword, takes_op};
use crate::generated::lay_read_tokens::stop::{keep, room_for};
use crate::generated::lay_read_tokens::{Ahead, Found, ReadNone};
use crate::generated::lay_token::List;
use crate::shims::Global;
/// Links after an `&&` as consecutive parts.
pub struct Links;
impl Part<(Option<Pat>, Boxed<Expr>), ()> for Links {}
/// Whether a range without a start comes next.
fn begins_dots(at: &Ahead<'_>) -> bool {
    at.op_is(b"..") || at.op_is(b"..=")
}
/// Whether a link may end before the next tokens.
fn link_ends(at: &Ahead<'_>, expr: &Expr) -> bool {
    strength(at) != 4 || stands(expr, link_place(true))
}
/// Whether one of these links is a `let`.
fn has_let(links: &[(Option<Pat>, Boxed<Expr>)]) -> bool {
    for (pat, _) in links {
        if pat.is_some() {
            return true;
        }
    }
    false
}
/// The link of an expression, with a pattern if it is a `let`.
fn linked(read: (Option<Pat>, Boxed<Expr>)) -> Link {
    let (pat, expr) = read;
    match pat {
        Some(pat) => Link::Let { pat, value: expr },
        None => Link::Expr { expr },
    }
}
/// The condition that consists of these links.
#[inline(never)]
fn condition_of(
    alloc: Global,
    first: (Option<Pat>, Boxed<Expr>),
    more: List<(Option<Pat>, Boxed<Expr>)>,
) -> Result<Condition, ReadNone> {
    let mut links = List::new(alloc);
    keep(&mut links, linked(first))?;
    for link in more.into_vec() {
        keep(&mut links, linked(link))?;
    }
    Ok(Condition { links })
}
/// The expressions of links without a `let`, each with the `&&` before it, as the operands of a
/// chain.
fn operands_of(
    alloc: Global,
    links: List<(Option<Pat>, Boxed<Expr>)>,
) -> Result<List<(Op, Boxed<Expr>)>, ReadNone> {
    let links = links.into_vec();
    let mut operands = room_for(alloc, links.len())?;
    for (_, expr) in links {
        keep(&mut operands, (Op::AndAnd, expr))?;
    }
    Ok(operands)
}
/// Links without a `let` as one expression.
#[inline(never)]
fn chain_of(
    alloc: Global,
    first: Found<(Option<Pat>, Boxed<Expr>)>,
    more: Found<List<(Option<Pat>, Boxed<Expr>)>>,
) -> Result<Found<Boxed<Expr>>, ReadNone> {
    let Found { node: read, need } = first;
    let Found { node: links, need: most } = more;
    let (_, expr) = read;
    if links.as_slice().is_empty() {
        return Ok(Found { node: expr, need });
    }
    let need = greater(need, most) + 1;
    let rest = operands_of(alloc, links)?;
    boxed_found(alloc, Expr::Chain { first: expr, rest }, need)
}
/// The condition that consists of this expression.
#[inline(never)]
fn alone(
    alloc: Global,
    read: Result<Found<Boxed<Expr>>, ReadNone>,
) -> Result<Found<Condition>, ReadNone> {
    let found = read?;
    let mut links = List::new(alloc);
    keep(&mut links, Link::Expr { expr: found.node })?;
    Ok(Found { need: found.need, node: Condition { links } })
}
impl<
    P: Fn(Global, &mut Ahead<'_>, Place, u32) -> Result<Found<Boxed<Expr>>, ReadNone>
        + Copy,
    B: Fn(Global, &mut Ahead<'_>, u32) -> Result<Found<Block>, ReadNone>,
    I: Fn(Global, &mut Ahead<'_>, Site, u32) -> Result<Found<Item>, ReadNone>,
> BranchRules<P, B, I> {
    /// Parses a link of a condition after its `let`.
    #[inline(never)]
    fn let_link(
        &self,
        at: &mut Ahead<'_>,
    ) -> Result<Found<(Option<Pat>, Boxed<Expr>)>, ReadNone> {
        let pat = pat_ahead(
            self.rules.alloc,
            at,
            PatPlace::Alternatives,
            self.rules.depth,
        )?;
        if !takes_op(at, b"=") {
            return refused(pat);
        }
        let (pat, value) = both(pat, self.rules.expr(at, plain(4, true)))?;
        Ok(
            Found {
                need: greater(pat.need, value.need),
                node: (Some(pat.node), value.node),
            },
        )
    }
    /// Parses a link of a condition, whatever follows it.
    #[inline(never)]
    fn link_by(
        &self,
        at: &mut Ahead<'_>,
    ) -> Result<Found<(Option<Pat>, Boxed<Expr>)>, ReadNone> {
        if takes_keyword(at, b"let") {
            return self.let_link(at);
        }
        let found = self.rules.expr(at, plain(4, true))?;
        Ok(Found { need: found.need, node: (None, found.node) })
    }
    /// Parses a link of a condition, if it may end before the tokens that follow.
    #[inline(never)]
    fn one_link(
        &self,
        at: &mut Ahead<'_>,
    ) -> Result<Found<(Option<Pat>, Boxed<Expr>)>, ReadNone> {
        let link = self.link_by(at)?;
        if !link_ends(at, link.node.1.get()) {
            return refused(link);
        }
        Ok(link)
    }
    /// Parses a link and the `&&` before it.
    #[inline(never)]
    fn further_link(
        &self,
        at: &mut Ahead<'_>,
        _place: (),
    ) -> Result<Found<(Option<Pat>, Boxed<Expr>)>, ReadNone> {
        pass_two(at);
        self.one_link(at)
    }
    /// Parses the links that follow the first one, each after an `&&`.
    #[inline(never)]
    fn further_links(
        &self,
        at: &mut Ahead<'_>,
    ) -> Result<Found<List<(Option<Pat>, Boxed<Expr>)>>, ReadNone> {
        read_parts::<
            Links,
            BranchRules<P, B, I>,
            (Option<Pat>, Boxed<Expr>),
            (),
            _,
        >(
            self.rules.alloc,
            at,
            self.rules.depth,
            Going::Operands(3),
            self,
            BranchRules::further_link,
            (),
        )
    }
    /// Parses the operators after links that are the operands of `&&`. Further operands are parsed
    /// at the next deeper level, as those of every expression.
    #[inline(never)]
    fn goes_on(
        &self,
        at: &mut Ahead<'_>,
        lhs: Found<Boxed<Expr>>,
    ) -> Result<Found<Boxed<Expr>>, ReadNone> {
        if self.rules.depth == 0 {
            return refused(lhs);
        }
        let rules = ExprRules {
            alloc: self.rules.alloc,
            depth: self.rules.depth - 1,
            exprs: self.rules.exprs,
        };
        rules.climb(at, plain(0, true), 3, lhs)
    }
    /// Parses the condition that consists of these links, or begins with them.
    #[inline(never)]
    fn condition_found(
        &self,
        at: &mut Ahead<'_>,
        first: Found<(Option<Pat>, Boxed<Expr>)>,
        more: Found<List<(Option<Pat>, Boxed<Expr>)>>,
    ) -> Result<Found<Condition>, ReadNone> {
        if first.node.0.is_some() || has_let(more.node.as_slice()) {
            let need = greater(first.need, more.need);
            let node = condition_of(self.rules.alloc, first.node, more.node)?;
            return Ok(Found { node, need });
        }
        match chain_of(self.rules.alloc, first, more) {
            Ok(chain) => alone(self.rules.alloc, self.goes_on(at, chain)),
            Err(none) => Err(none),
        }
    }
    /// Parses the condition that begins with this link.
    #[inline(never)]
    fn condition_behind(
        &self,
        at: &mut Ahead<'_>,
        first: Found<(Option<Pat>, Boxed<Expr>)>,
    ) -> Result<Found<Condition>, ReadNone> {
        let (first, more) = both(first, self.further_links(at))?;
        self.condition_found(at, first, more)
    }
    /// Parses a condition.
    #[inline(never)]
    pub fn condition_by(
        &self,
        at: &mut Ahead<'_>,
    ) -> Result<Found<Condition>, ReadNone> {
        if begins_dots(at) {
            return alone(self.rules.alloc, self.rules.expr(at, plain(0, true)));
        }
        match self.one_link(at) {
            Ok(first) => self.condition_behind(at, first),
            Err(none) => Err(none),
        }
    }
}
