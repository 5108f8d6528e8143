//! Made by scripts/rust.sh from crates/lay_read_exprs/src/structs.rt, which is proved: change that.
//!
//! Parsing of struct literals.
use crate::generated::lay_read_exprs::climber::Climber;
use crate::generated::lay_code::{Attr, Boxed, Expr, FieldExpr, Name, Path, Place};
use crate::generated::lay_ops::places::FREE;
use crate::generated::lay_read_parts::joins::{both, refused};
use crate::generated::lay_read_parts::loops::{Opening, Part, read_open_elements};
use crate::generated::lay_read_pats::structs::read_index_if;
use crate::generated::lay_read_shared::boxes::boxed_found;
use crate::generated::lay_read_tokens::attributes::attrs_ahead;
use crate::generated::lay_read_tokens::found::greater;
use crate::generated::lay_read_tokens::front::{
    is_at_closer,
    pass_two,
    takes_closer,
    takes_op,
};
use crate::generated::lay_read_tokens::names::read_name;
use crate::generated::lay_read_tokens::{Ahead, Found, ReadNone};
use crate::generated::lay_token::{Delim, List, Text};
use crate::shims::Global;
/// Fields as the elements of a struct literal.
pub struct Fields;
impl Part<FieldExpr, ()> for Fields {}
impl<
    P: Fn(Global, &mut Ahead<'_>, Place, u32) -> Result<Found<Boxed<Expr>>, ReadNone>,
    H,
> Climber<P, H> {
    /// Parses fields in braces, after a path and the `{`.
    #[inline(never)]
    pub fn struct_expr(
        &self,
        at: &mut Ahead<'_>,
        path: Found<Path>,
    ) -> Result<Found<Boxed<Expr>>, ReadNone> {
        let (path, found) = both(
            path,
            read_open_elements::<
                Fields,
                Climber<P, H>,
                FieldExpr,
                (),
                _,
            >(
                self.rules.alloc,
                at,
                self.rules.depth,
                Opening::Field,
                self,
                Climber::one_field,
                (),
            ),
        )?;
        self.struct_by(at, path, found)
    }
    /// Parses the rest of a struct literal after its fields. The flag that stands with the fields
    /// says that they ended.
    #[inline(never)]
    fn struct_by(
        &self,
        at: &mut Ahead<'_>,
        path: Found<Path>,
        found: Found<(List<FieldExpr>, bool)>,
    ) -> Result<Found<Boxed<Expr>>, ReadNone> {
        let Found { node, need } = found;
        let (fields, ended) = node;
        let ((path, fields), base) = both((path, fields), self.base(at, ended))?;
        if !takes_closer(at, Delim::Brace) {
            return refused((path, (fields, base)));
        }
        boxed_found(
            self.rules.alloc,
            Expr::Struct { path: path.node, fields, base: base.node },
            greater(path.need, greater(need, base.need)) + 1,
        )
    }
    /// Parses the base of a struct literal, if its fields ended and a `..` follows.
    #[inline(never)]
    fn base(
        &self,
        at: &mut Ahead<'_>,
        ended: bool,
    ) -> Result<Found<Option<Option<Boxed<Expr>>>>, ReadNone> {
        if !(ended && at.op_is(b"..")) {
            return Ok(Found { node: None, need: 0 });
        }
        pass_two(at);
        if is_at_closer(at, Delim::Brace) {
            return Ok(Found { node: Some(None), need: 0 });
        }
        let found = self.rules.inner(at, FREE)?;
        Ok(Found { node: Some(Some(found.node)), need: found.need })
    }
    /// Parses a field, with its attributes.
    #[inline(never)]
    fn one_field(
        &self,
        at: &mut Ahead<'_>,
        _place: (),
    ) -> Result<Found<FieldExpr>, ReadNone> {
        let attrs = attrs_ahead(self.rules.alloc, at, false)?;
        let (attrs, index) = both(attrs, read_index_if(self.rules.alloc, at))?;
        match index {
            Some(index) => self.numbered_field(at, attrs, index),
            None => self.worded_field(at, attrs),
        }
    }
    /// Parses the value of a field after its tuple index and the `:`.
    #[inline(never)]
    fn numbered_field(
        &self,
        at: &mut Ahead<'_>,
        attrs: List<Attr>,
        index: Text,
    ) -> Result<Found<FieldExpr>, ReadNone> {
        let ((attrs, index), found) = both((attrs, index), self.rules.inner(at, FREE))?;
        Ok(
            Found {
                need: found.need,
                node: FieldExpr::Numbered { attrs, index, value: found.node },
            },
        )
    }
    /// Parses a field with a name; its attributes were read.
    #[inline(never)]
    fn worded_field(
        &self,
        at: &mut Ahead<'_>,
        attrs: List<Attr>,
    ) -> Result<Found<FieldExpr>, ReadNone> {
        let (attrs, name) = both(attrs, read_name(self.rules.alloc, at))?;
        self.named_field(at, attrs, name)
    }
    /// Parses a field after its name.
    #[inline(never)]
    fn named_field(
        &self,
        at: &mut Ahead<'_>,
        attrs: List<Attr>,
        name: Name,
    ) -> Result<Found<FieldExpr>, ReadNone> {
        if !takes_op(at, b":") {
            return Ok(Found { node: FieldExpr::Short { attrs, name }, need: 0 });
        }
        let ((attrs, name), found) = both((attrs, name), self.rules.inner(at, FREE))?;
        Ok(
            Found {
                need: found.need,
                node: FieldExpr::Named { attrs, name, value: found.node },
            },
        )
    }
}
