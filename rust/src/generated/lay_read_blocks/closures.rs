//! Made by scripts/rust.sh from crates/lay_read_blocks/src/closures.rt, which is proved: change that.
//!
//! Parsing of closures.
use crate::generated::lay_read_blocks::rules::BlockRules;
use crate::generated::lay_code::{
    Block,
    Boxed,
    ClosureParam,
    Expr,
    Item,
    PatPlace,
    Place,
    Site,
    TypePlace,
};
use crate::generated::lay_ops::places::plain;
use crate::generated::lay_ops::sheds;
use crate::generated::lay_ops_ends::shed;
use crate::generated::lay_read_parts::joins::{both, refused};
use crate::generated::lay_read_parts::loops::{Closer, Part, read_elements};
use crate::generated::lay_read_pats::pat_ahead;
use crate::generated::lay_read_shared::boxes::boxed_found;
use crate::generated::lay_read_shared::types::type_if;
use crate::generated::lay_read_tokens::attributes::attrs_ahead;
use crate::generated::lay_read_tokens::found::greater;
use crate::generated::lay_read_tokens::front::{pass_two, takes_keyword, takes_mark};
use crate::generated::lay_read_tokens::{Ahead, Found, ReadNone};
use crate::generated::lay_read_types::type_ahead;
use crate::generated::lay_token::List;
use crate::shims::Global;
/// The body of a closure without braces that aren't in the tree. In such braces it needs as much
/// depth as they do.
fn closure_body_of(found: Found<Boxed<Expr>>, no_struct: bool) -> Found<Boxed<Expr>> {
    let need = if sheds(found.node.get(), no_struct) { found.need } else {
        found.need + 1
    };
    Found { node: shed(found.node, no_struct), need }
}
/// Parameters of a closure as the elements of a list.
pub struct Params;
impl Part<ClosureParam, ()> for Params {}
impl<
    P: Fn(Global, &mut Ahead<'_>, Place, u32) -> Result<Found<Boxed<Expr>>, ReadNone>,
    B: Fn(Global, &mut Ahead<'_>, u32) -> Result<Found<Block>, ReadNone>,
    I: Fn(Global, &mut Ahead<'_>, Site, u32) -> Result<Found<Item>, ReadNone>,
> BlockRules<P, B, I> {
    /// Parses a parameter of a closure.
    #[inline(never)]
    fn closure_param(
        &self,
        at: &mut Ahead<'_>,
        _place: (),
    ) -> Result<Found<ClosureParam>, ReadNone> {
        let attrs = attrs_ahead(self.alloc, at, false)?;
        let (attrs, pat) = both(
            attrs,
            pat_ahead(self.alloc, at, PatPlace::Single, self.depth),
        )?;
        let ((attrs, pat), ty) = both(
            (attrs, pat),
            type_if(self.alloc, at, b":", self.depth),
        )?;
        Ok(
            Found {
                need: greater(pat.need, ty.need),
                node: ClosureParam { attrs, pat: pat.node, ty: ty.node },
            },
        )
    }
    /// Parses parameters, and the `|` after them.
    #[inline(never)]
    fn params(&self, at: &mut Ahead<'_>) -> Result<Found<List<ClosureParam>>, ReadNone> {
        read_elements::<
            Params,
            BlockRules<P, B, I>,
            ClosureParam,
            (),
            _,
        >(self.alloc, at, self.depth, Closer::Bar, self, BlockRules::closure_param, ())
    }
    /// Parses a closure, unless it is nested too deep.
    #[inline(never)]
    pub fn closure_expr(
        &self,
        at: &mut Ahead<'_>,
        no_struct: bool,
    ) -> Result<Found<Boxed<Expr>>, ReadNone> {
        let is_async = takes_keyword(at, b"async");
        let moves = takes_keyword(at, b"move");
        if !takes_mark(at, b"|") {
            return Err(ReadNone::NoReading);
        }
        let params = self.params(at)?;
        self.closure_body(at, no_struct, is_async, moves, params)
    }
    /// Parses a closure after its parameters, unless it is nested too deep.
    #[inline(never)]
    fn closure_body(
        &self,
        at: &mut Ahead<'_>,
        no_struct: bool,
        is_async: bool,
        moves: bool,
        params: Found<List<ClosureParam>>,
    ) -> Result<Found<Boxed<Expr>>, ReadNone> {
        if at.op_is(b"->") {
            return self.typed_closure(at, is_async, moves, params);
        }
        let (params, found) = both(params, self.expr(at, plain(0, no_struct)))?;
        let body = closure_body_of(found, no_struct);
        if body.need > self.depth {
            return refused((params, body));
        }
        boxed_found(
            self.alloc,
            Expr::Closure { is_async, moves, params: params.node, body: body.node },
            greater(params.need, body.need) + 1,
        )
    }
    /// Parses a closure with a return type, from its `->` on.
    #[inline(never)]
    fn typed_closure(
        &self,
        at: &mut Ahead<'_>,
        is_async: bool,
        moves: bool,
        params: Found<List<ClosureParam>>,
    ) -> Result<Found<Boxed<Expr>>, ReadNone> {
        pass_two(at);
        let (params, output) = both(
            params,
            type_ahead(self.alloc, at, TypePlace::NoBounds, self.depth),
        )?;
        let ((params, output), body) = both((params, output), self.block_by(at))?;
        boxed_found(
            self.alloc,
            Expr::TypedClosure {
                is_async,
                moves,
                params: params.node,
                output: output.node,
                body: body.node,
            },
            greater(params.need, greater(output.need, body.need)) + 1,
        )
    }
}
