//! Made by scripts/rust.sh from crates/lay_read_types/src/types.rt, which is proved: change that.
//!
//! Parsing of types.
use crate::generated::lay_read_types::passed::takes_simple_path;
use crate::generated::lay_read_types::rules::Rules;
use crate::generated::lay_node::{
    Constraint,
    FuncParam,
    GivenName,
    PathStyle,
    Ty,
    TypePlace,
};
use crate::generated::lay_read_parts::joins::{both, prepended, refused};
use crate::generated::lay_read_parts::leads::{Lead, lead_at};
use crate::generated::lay_read_parts::loops::{
    Closer,
    Opening,
    Part,
    read_elements,
    read_open_elements,
};
use crate::generated::lay_read_parts::parts::{
    read_abi_if,
    read_binder_if,
    read_lifetime_if,
};
use crate::generated::lay_read_tokens::attributes::attrs_ahead;
use crate::generated::lay_read_tokens::calls::call_ahead;
use crate::generated::lay_read_tokens::found::greater;
use crate::generated::lay_read_tokens::front::{
    pass,
    pass_two,
    takes_closer,
    takes_keyword,
    takes_mark,
    takes_op,
    takes_opener,
};
use crate::generated::lay_read_tokens::names::read_given_name;
use crate::generated::lay_read_tokens::stop::boxed;
use crate::generated::lay_read_tokens::tokens::read_tokens;
use crate::generated::lay_read_tokens::{Ahead, Found, ReadNone};
use crate::generated::lay_token::{Delim, List};
use crate::shims::Global;
/// Types of the next deeper level as the elements of a list.
pub struct Types;
impl Part<Ty, TypePlace> for Types {}
/// Parameters of a function type as the elements of a list.
pub struct FuncParams;
impl Part<FuncParam, ()> for FuncParams {}
impl<
    F: Fn(Global, &mut Ahead<'_>, TypePlace, u32) -> Result<Found<Ty>, ReadNone>,
    G: Fn(Global, &mut Ahead<'_>, u32) -> Result<Found<Constraint>, ReadNone>,
> Rules<F, G> {
    /// Parses a type at a place, by the token that it begins with.
    pub fn type_by(
        &self,
        at: &mut Ahead<'_>,
        place: TypePlace,
    ) -> Result<Found<Ty>, ReadNone> {
        match lead_at(at) {
            Some(Lead::Path) => self.path_or_call(at),
            Some(Lead::Func) => self.func_type(at),
            Some(lead) => {
                pass(at);
                self.marked_type(at, place, lead)
            }
            None => Err(ReadNone::NoReading),
        }
    }
    /// Parses a type after the token that it begins with.
    fn marked_type(
        &self,
        at: &mut Ahead<'_>,
        place: TypePlace,
        lead: Lead,
    ) -> Result<Found<Ty>, ReadNone> {
        match lead {
            Lead::Paren => self.paren_type(at),
            Lead::Never => Ok(Found { node: Ty::Never, need: 1 }),
            Lead::Infer => Ok(Found { node: Ty::Infer, need: 1 }),
            Lead::Pointer => self.pointer_type(at),
            Lead::Reference => self.reference_type(at),
            Lead::Bracket => self.bracket_type(at),
            Lead::Impl => self.bounds_type(at, false, place),
            Lead::Dyn => self.bounds_type(at, true, place),
            Lead::Path => Err(ReadNone::NoReading),
            Lead::Func => Err(ReadNone::NoReading),
        }
    }
    /// Parses types with commas between them, and the closing parenthesis.
    pub fn paren_types(&self, at: &mut Ahead<'_>) -> Result<Found<List<Ty>>, ReadNone> {
        read_elements::<
            Types,
            Rules<F, G>,
            Ty,
            TypePlace,
            _,
        >(
            self.alloc,
            at,
            self.depth,
            Closer::Group(Delim::Paren),
            self,
            Rules::inner,
            TypePlace::Bounds,
        )
    }
    /// Parses a type after its `(`.
    #[inline(never)]
    fn paren_type(&self, at: &mut Ahead<'_>) -> Result<Found<Ty>, ReadNone> {
        if takes_closer(at, Delim::Paren) {
            return Ok(
                Found { node: Ty::Tuple { elements: List::new(self.alloc) }, need: 1 },
            );
        }
        let first = self.inner(at, TypePlace::Bounds)?;
        self.paren_rest(at, first)
    }
    /// Parses a type after its `(` and the first type in it.
    fn paren_rest(
        &self,
        at: &mut Ahead<'_>,
        first: Found<Ty>,
    ) -> Result<Found<Ty>, ReadNone> {
        if takes_closer(at, Delim::Paren) {
            let inner = boxed(self.alloc, first.node)?;
            return Ok(Found { node: Ty::Paren { inner }, need: first.need + 1 });
        }
        if !takes_mark(at, b",") {
            return refused(first);
        }
        let (first, more) = both(first, self.paren_types(at))?;
        let elements = prepended(first.node, more.node)?;
        Ok(
            Found {
                node: Ty::Tuple { elements },
                need: greater(first.need, more.need) + 1,
            },
        )
    }
    /// Parses a type after its `[`.
    #[inline(never)]
    fn bracket_type(&self, at: &mut Ahead<'_>) -> Result<Found<Ty>, ReadNone> {
        let inner = self.inner(at, TypePlace::Bounds)?;
        if takes_mark(at, b";") {
            array(self.alloc, at, inner)
        } else if takes_closer(at, Delim::Bracket) {
            let need = inner.need + 1;
            let inner = boxed(self.alloc, inner.node)?;
            Ok(Found { node: Ty::Slice { inner }, need })
        } else { refused(inner) }
    }
    /// Parses a type after its `&`.
    #[inline(never)]
    fn reference_type(&self, at: &mut Ahead<'_>) -> Result<Found<Ty>, ReadNone> {
        let lifetime = read_lifetime_if(self.alloc, at)?;
        let mutable = takes_keyword(at, b"mut");
        let (lifetime, found) = both(lifetime, self.inner(at, TypePlace::NoBounds))?;
        let need = found.need + 1;
        let (lifetime, inner) = both(lifetime, boxed(self.alloc, found.node))?;
        Ok(Found { node: Ty::Ref { lifetime, mutable, inner }, need })
    }
    /// Parses a type after its `*`.
    fn pointer_type(&self, at: &mut Ahead<'_>) -> Result<Found<Ty>, ReadNone> {
        let mutable = is_mutable(at)?;
        let found = self.inner(at, TypePlace::NoBounds)?;
        let need = found.need + 1;
        let inner = boxed(self.alloc, found.node)?;
        Ok(Found { node: Ty::Ptr { mutable, inner }, need })
    }
    /// Parses the bounds of a type after its `impl` or `dyn`.
    fn bounds_type(
        &self,
        at: &mut Ahead<'_>,
        dynamic: bool,
        place: TypePlace,
    ) -> Result<Found<Ty>, ReadNone> {
        let bounds = self.bounds(at, place)?;
        Ok(
            Found {
                need: bounds.need + 1,
                node: Ty::Bounds { dynamic, bounds: bounds.node },
            },
        )
    }
    /// Parses a macro call or a path.
    #[inline(never)]
    fn path_or_call(&self, at: &mut Ahead<'_>) -> Result<Found<Ty>, ReadNone> {
        if begins_call(self.alloc, at)? {
            let call = call_ahead(self.alloc, at)?;
            return Ok(Found { node: Ty::Call { call }, need: 1 });
        }
        self.path_type(at)
    }
    /// Parses a type that is a path, if no `!` follows it.
    fn path_type(&self, at: &mut Ahead<'_>) -> Result<Found<Ty>, ReadNone> {
        let path = self.path(at, PathStyle::Kind)?;
        if at.op_is(b"!") {
            return refused(path);
        }
        Ok(Found { need: path.need + 1, node: Ty::Path { path: path.node } })
    }
    /// Parses a parameter of a function type.
    fn func_param(
        &self,
        at: &mut Ahead<'_>,
        _place: (),
    ) -> Result<Found<FuncParam>, ReadNone> {
        let attrs = attrs_ahead(self.alloc, at, false)?;
        let (attrs, name) = both(attrs, read_param_name_if(self.alloc, at))?;
        let ((attrs, name), ty) = both(
            (attrs, name),
            self.inner(at, TypePlace::Bounds),
        )?;
        Ok(Found { need: ty.need, node: FuncParam { attrs, name, ty: ty.node } })
    }
    /// Parses parameters of a function type as long as one begins. The flag says that a comma
    /// follows the last one, or that there is none.
    fn open_params(
        &self,
        at: &mut Ahead<'_>,
    ) -> Result<Found<(List<FuncParam>, bool)>, ReadNone> {
        read_open_elements::<
            FuncParams,
            Rules<F, G>,
            FuncParam,
            (),
            _,
        >(self.alloc, at, self.depth, Opening::Param, self, Rules::func_param, ())
    }
    /// Parses the parameters of a function type in parentheses. The flag says that a `...` follows
    /// them.
    fn func_params(
        &self,
        at: &mut Ahead<'_>,
    ) -> Result<Found<(List<FuncParam>, bool)>, ReadNone> {
        if !takes_opener(at, Delim::Paren) {
            return Err(ReadNone::NoReading);
        }
        let Found { node, need } = self.open_params(at)?;
        let (params, may_vary) = node;
        let variadic = takes_dots(at, may_vary);
        if takes_closer(at, Delim::Paren) {
            Ok(Found { node: (params, variadic), need })
        } else { refused(params) }
    }
    /// Parses a function type.
    #[inline(never)]
    fn func_type(&self, at: &mut Ahead<'_>) -> Result<Found<Ty>, ReadNone> {
        let binder = read_binder_if(self.alloc, at)?;
        let is_unsafe = takes_keyword(at, b"unsafe");
        let (binder, abi) = both(binder, read_abi_if(self.alloc, at))?;
        if !takes_keyword(at, b"fn") {
            return refused((binder, abi));
        }
        let (abi, binder) = both(abi, boxed(self.alloc, binder))?;
        let (binder, abi) = both(binder, boxed(self.alloc, abi))?;
        let (head, params) = both((binder, abi), self.func_params(at))?;
        let ((head, params), output) = both((head, params), self.output(at))?;
        let (binder, abi) = head;
        let Found { node, need } = params;
        let (params, variadic) = node;
        Ok(
            Found {
                need: greater(need, output.need) + 1,
                node: Ty::Func {
                    binder,
                    is_unsafe,
                    abi,
                    params,
                    variadic,
                    output: output.node,
                },
            },
        )
    }
}
/// Parses `mut` or `const` of a raw pointer, and says whether it is `mut`.
fn is_mutable(at: &mut Ahead<'_>) -> Result<bool, ReadNone> {
    if takes_keyword(at, b"mut") { Ok(true) } else if takes_keyword(at, b"const") {
        Ok(false)
    } else { Err(ReadNone::NoReading) }
}
/// Parses an array after its `;`.
fn array(
    alloc: Global,
    at: &mut Ahead<'_>,
    element: Found<Ty>,
) -> Result<Found<Ty>, ReadNone> {
    let (element, length) = both(element, read_tokens(alloc, at))?;
    if !takes_closer(at, Delim::Bracket) || length.as_slice().is_empty() {
        return refused((element, length));
    }
    let need = element.need + 1;
    let (length, inner) = both(length, boxed(alloc, element.node))?;
    Ok(Found { node: Ty::Array { inner, length }, need })
}
/// Whether a macro call comes next: a simple path and a `!`. Nothing is allocated.
pub fn begins_call(alloc: Global, at: &Ahead<'_>) -> Result<bool, ReadNone> {
    let mut behind = at.fork();
    Ok(takes_simple_path(&mut behind) && behind.op_is(b"!"))
}
/// Parses the name of a parameter and the `:` after it, if they come next.
fn read_param_name_if(
    alloc: Global,
    at: &mut Ahead<'_>,
) -> Result<Option<GivenName>, ReadNone> {
    let mut behind = at.fork();
    match read_given_name(alloc, &mut behind) {
        Ok(name) => {
            if !takes_op(&mut behind, b":") {
                return Ok(None);
            }
            *at = behind;
            Ok(Some(name))
        }
        Err(ReadNone::NoReading) => Ok(None),
        Err(ReadNone::NoMemory) => Err(ReadNone::NoMemory),
    }
}
/// Moves past `...`, if it may stand here and comes next, and says whether it did.
fn takes_dots(at: &mut Ahead<'_>, may_vary: bool) -> bool {
    let found = may_vary && at.op_is(b"...");
    if found {
        pass_two(at);
        pass(at);
    }
    found
}
