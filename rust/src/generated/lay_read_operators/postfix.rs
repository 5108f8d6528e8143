//! Made by scripts/rust.sh from crates/lay_read_operators/src/postfix.rt, which is proved: change that.
//!
//! Parsing of postfix steps.
use crate::generated::lay_read_operators::numbers::{
    begins_tuple_index,
    is_at_tuple_index,
};
use crate::generated::lay_read_operators::rules::ExprRules;
use crate::generated::lay_code::{Arg, Args, Boxed, Expr, Name, PathStyle, Place, Step};
use crate::generated::lay_ops::is_number;
use crate::generated::lay_ops::places::FREE;
use crate::generated::lay_read_parts::joins::{both, refused};
use crate::generated::lay_read_parts::leads::opens_args_late;
use crate::generated::lay_read_parts::loops::Part;
use crate::generated::lay_read_parts::parts::read_literal;
use crate::generated::lay_read_shared::boxes::boxed_found;
use crate::generated::lay_read_shared::loops::{Going, read_parts};
use crate::generated::lay_read_tokens::found::greater;
use crate::generated::lay_read_tokens::front::{
    is_at_opened,
    takes_closer,
    takes_keyword,
    takes_op,
    takes_opener,
};
use crate::generated::lay_read_tokens::names::read_name;
use crate::generated::lay_read_tokens::{Ahead, Found, ReadNone};
use crate::generated::lay_read_types::args_ahead;
use crate::generated::lay_token::{Delim, List};
use crate::shims::Global;
/// Postfix steps as consecutive parts.
pub struct Steps;
impl Part<Step, ()> for Steps {}
/// Parses the generic arguments after a `::`.
fn read_late_args(
    alloc: Global,
    at: &mut Ahead<'_>,
    depth: u32,
) -> Result<Found<List<Arg>>, ReadNone> {
    let found = args_ahead(alloc, at, PathStyle::Code, depth)?;
    let Found { node, need } = found;
    match node {
        Args::Angle { args } => Ok(Found { node: args, need }),
        _ => Err(ReadNone::NoReading),
    }
}
impl<
    P: Fn(Global, &mut Ahead<'_>, Place, u32) -> Result<Found<Boxed<Expr>>, ReadNone>,
> ExprRules<P> {
    /// Parses the postfix steps after an expression, and gives the whole. A tuple index may not
    /// directly follow a number without suffix.
    #[inline(never)]
    pub fn postfix_expr(
        &self,
        at: &mut Ahead<'_>,
        lhs: Found<Boxed<Expr>>,
    ) -> Result<Found<Boxed<Expr>>, ReadNone> {
        if is_number(lhs.node.get()) && begins_tuple_index(at) {
            return refused(lhs);
        }
        let (lhs, found) = both(
            lhs,
            read_parts::<
                Steps,
                ExprRules<P>,
                Step,
                (),
                _,
            >(self.alloc, at, self.depth, Going::Steps, self, ExprRules::one_step, ()),
        )?;
        boxed_found(
            self.alloc,
            Expr::Postfix { base: lhs.node, steps: found.node },
            greater(lhs.need, found.need) + 1,
        )
    }
    /// Parses a postfix step.
    #[inline(never)]
    fn one_step(&self, at: &mut Ahead<'_>, _place: ()) -> Result<Found<Step>, ReadNone> {
        if takes_op(at, b".") { self.dot_step(at) } else if takes_op(at, b"?") {
            Ok(Found { node: Step::Try, need: 0 })
        } else if takes_opener(at, Delim::Paren) {
            let found = self.free_elements(at, Delim::Paren)?;
            Ok(Found { node: Step::Apply { args: found.node }, need: found.need })
        } else { self.bracket_step(at) }
    }
    /// Parses an index after its `[`.
    #[inline(never)]
    fn bracket_step(&self, at: &mut Ahead<'_>) -> Result<Found<Step>, ReadNone> {
        if !takes_opener(at, Delim::Bracket) {
            return Err(ReadNone::NoReading);
        }
        let found = self.inner(at, FREE)?;
        if !takes_closer(at, Delim::Bracket) {
            return refused(found);
        }
        Ok(Found { need: found.need, node: Step::Index { index: found.node } })
    }
    /// Parses a postfix step after its `.`.
    #[inline(never)]
    fn dot_step(&self, at: &mut Ahead<'_>) -> Result<Found<Step>, ReadNone> {
        if takes_keyword(at, b"await") {
            return Ok(Found { node: Step::Await, need: 0 });
        }
        if is_at_tuple_index(at) {
            let index = read_literal(self.alloc, at, true)?;
            return Ok(Found { node: Step::TupleIndex { index: index.text }, need: 0 });
        }
        let name = read_name(self.alloc, at)?;
        self.member(at, name)
    }
    /// Parses a field access or a method call after its name.
    #[inline(never)]
    fn member(&self, at: &mut Ahead<'_>, name: Name) -> Result<Found<Step>, ReadNone> {
        if is_at_opened(at, Delim::Paren) {
            let generics = Found { node: None, need: 0 };
            self.method(at, name, generics)
        } else if opens_args_late(at) {
            self.generic_method(at, name)
        } else if at.op_is(b"::") { refused(name) } else {
            Ok(Found { node: Step::Field { name }, need: 0 })
        }
    }
    /// Parses a method call with generic arguments, after its name.
    #[inline(never)]
    fn generic_method(
        &self,
        at: &mut Ahead<'_>,
        name: Name,
    ) -> Result<Found<Step>, ReadNone> {
        let (name, found) = both(name, read_late_args(self.alloc, at, self.depth))?;
        let generics = Found { node: Some(found.node), need: found.need };
        self.method(at, name, generics)
    }
    /// Parses the arguments of a method, after its name and its generic arguments.
    #[inline(never)]
    fn method(
        &self,
        at: &mut Ahead<'_>,
        name: Name,
        generics: Found<Option<List<Arg>>>,
    ) -> Result<Found<Step>, ReadNone> {
        if !takes_opener(at, Delim::Paren) {
            return refused((name, generics));
        }
        let (head, found) = both(
            (name, generics),
            self.free_elements(at, Delim::Paren),
        )?;
        let (name, generics) = head;
        Ok(
            Found {
                need: greater(generics.need, found.need),
                node: Step::Method { name, generics: generics.node, args: found.node },
            },
        )
    }
}
