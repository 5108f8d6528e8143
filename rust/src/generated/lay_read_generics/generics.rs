//! Made by scripts/rust.sh from crates/lay_read_generics/src/generics.rt, which is proved: change that.
//!
//! Parsing of generic parameters.
use crate::generated::lay_read_generics::level::Level;
use crate::generated::lay_node::{
    Attr,
    Bound,
    ConstDefault,
    GenericParam,
    Generics,
    Ty,
    TypePlace,
};
use crate::generated::lay_read_parts::joins::{both, refused};
use crate::generated::lay_read_parts::leads::{
    begins_bound,
    begins_const,
    is_at_lifetime,
};
use crate::generated::lay_read_parts::loops::{Closer, Part, read_elements};
use crate::generated::lay_read_parts::parts::{read_const, read_lifetime_behind};
use crate::generated::lay_read_tokens::attributes::attrs_ahead;
use crate::generated::lay_read_tokens::found::greater;
use crate::generated::lay_read_tokens::front::{takes_keyword, takes_mark, takes_op};
use crate::generated::lay_read_tokens::names::read_name;
use crate::generated::lay_read_tokens::{Ahead, Found, ReadNone};
use crate::generated::lay_read_types::{bounds_ahead, type_ahead};
use crate::generated::lay_token::List;
use crate::shims::Global;
/// Generic parameters as the elements of a list.
pub struct Params;
impl Part<GenericParam, ()> for Params {}
impl Level {
    /// Parses the bounds after a `:`, which may be none.
    pub fn met(&self, at: &mut Ahead<'_>) -> Result<Found<List<Bound>>, ReadNone> {
        if begins_bound(at) { bounds_ahead(self.alloc, at, self.depth) } else {
            Ok(Found { node: List::new(self.alloc), need: 0 })
        }
    }
    /// Parses a `:` and the bounds of a parameter, if there are any.
    fn met_if(&self, at: &mut Ahead<'_>) -> Result<Found<List<Bound>>, ReadNone> {
        if takes_op(at, b":") { self.met(at) } else {
            Ok(Found { node: List::new(self.alloc), need: 0 })
        }
    }
    /// Parses the default of a type parameter (`= T`), if it has one.
    fn default_type(&self, at: &mut Ahead<'_>) -> Result<Found<Option<Ty>>, ReadNone> {
        if !takes_op(at, b"=") {
            return Ok(Found { node: None, need: 0 });
        }
        let ty = type_ahead(self.alloc, at, TypePlace::Bounds, self.depth)?;
        Ok(Found { node: Some(ty.node), need: ty.need })
    }
    /// Parses a type parameter; its attributes were read.
    fn type_param(
        &self,
        at: &mut Ahead<'_>,
        attrs: List<Attr>,
    ) -> Result<Found<GenericParam>, ReadNone> {
        let (attrs, name) = both(attrs, read_name(self.alloc, at))?;
        let (head, bounds) = both((attrs, name), self.met_if(at))?;
        let ((head, bounds), default) = both((head, bounds), self.default_type(at))?;
        let (attrs, name) = head;
        Ok(
            Found {
                need: greater(bounds.need, default.need),
                node: GenericParam::Named {
                    attrs,
                    name,
                    bounds: bounds.node,
                    default: default.node,
                },
            },
        )
    }
    /// Parses a const parameter after its keyword.
    fn const_param(
        &self,
        at: &mut Ahead<'_>,
        attrs: List<Attr>,
    ) -> Result<Found<GenericParam>, ReadNone> {
        let (attrs, name) = both(attrs, read_name(self.alloc, at))?;
        if !takes_op(at, b":") {
            return refused((attrs, name));
        }
        let place = TypePlace::Bounds;
        let (head, ty) = both(
            (attrs, name),
            type_ahead(self.alloc, at, place, self.depth),
        )?;
        let ((head, ty), default) = both(
            (head, ty),
            read_const_default_if(self.alloc, at),
        )?;
        let (attrs, name) = head;
        Ok(
            Found {
                need: ty.need,
                node: GenericParam::Const { attrs, name, ty: ty.node, default },
            },
        )
    }
    /// Parses a generic parameter.
    fn param(
        &self,
        at: &mut Ahead<'_>,
        _place: (),
    ) -> Result<Found<GenericParam>, ReadNone> {
        let attrs = attrs_ahead(self.alloc, at, false)?;
        if is_at_lifetime(at) {
            let param = read_lifetime_behind(self.alloc, at, attrs)?;
            return Ok(Found { node: GenericParam::Region { param }, need: 0 });
        }
        if takes_keyword(at, b"const") { self.const_param(at, attrs) } else {
            self.type_param(at, attrs)
        }
    }
    /// Parses generic parameters after the `<`, and the `>`.
    fn params(&self, at: &mut Ahead<'_>) -> Result<Found<List<GenericParam>>, ReadNone> {
        read_elements::<
            Params,
            Level,
            GenericParam,
            (),
            _,
        >(self.alloc, at, self.depth, Closer::Angle, self, Level::param, ())
    }
    /// Parses generic parameters. The flag says that there were `<` and `>`.
    pub fn generics(
        &self,
        at: &mut Ahead<'_>,
    ) -> Result<Found<(Generics, bool)>, ReadNone> {
        if !takes_mark(at, b"<") {
            let params = List::new(self.alloc);
            return Ok(Found { node: (Generics { params }, false), need: 0 });
        }
        let params = self.params(at)?;
        Ok(Found { node: (Generics { params: params.node }, true), need: params.need })
    }
}
/// Parses the default of a const parameter, if it has one.
fn read_const_default_if(
    alloc: Global,
    at: &mut Ahead<'_>,
) -> Result<Option<ConstDefault>, ReadNone> {
    if !takes_op(at, b"=") {
        return Ok(None);
    }
    if begins_const(at) {
        let value = read_const(alloc, at)?;
        return Ok(Some(ConstDefault::Arg(value)));
    }
    let name = read_name(alloc, at)?;
    Ok(Some(ConstDefault::Name(name)))
}
