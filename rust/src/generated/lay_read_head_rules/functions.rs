//! Made by scripts/rust.sh from crates/lay_read_head_rules/src/functions.rt, which is proved: change that.
//!
//! Parsing of the heads of functions.
use crate::generated::lay_read_head_rules::level::{Level, kept_if, takes_flag};
use crate::generated::lay_node::{
    Abi,
    FnHead,
    Param,
    ParamKind,
    Pat,
    PatPlace,
    Safety,
    Site,
    Ty,
    TypePlace,
};
use crate::generated::lay_read_generics::generics_ahead;
use crate::generated::lay_read_parts::joins::both;
use crate::generated::lay_read_parts::leads::is_at_lifetime;
use crate::generated::lay_read_parts::loops::{Opening, Part, read_open_elements};
use crate::generated::lay_read_parts::parts::{read_abi_if, read_lifetime_if};
use crate::generated::lay_read_pats::pat_ahead;
use crate::generated::lay_read_shared::types::type_if;
use crate::generated::lay_read_tokens::attributes::attrs_ahead;
use crate::generated::lay_read_tokens::found::greater;
use crate::generated::lay_read_tokens::front::{
    is_at_closer,
    is_at_mark,
    pass,
    pass_two,
    takes_closer,
    takes_keyword,
    takes_mark,
    takes_op,
    takes_opener,
};
use crate::generated::lay_read_tokens::names::read_name;
use crate::generated::lay_read_tokens::{Ahead, Found, ReadNone};
use crate::generated::lay_read_types::type_ahead;
use crate::generated::lay_token::{Delim, List};
use crate::shims::Global;
/// Whether the next token ends a parameter.
fn ends_param(at: &Ahead<'_>) -> bool {
    is_at_mark(at, b",") || is_at_closer(at, Delim::Paren)
}
/// Moves past a lifetime if one comes next.
fn pass_lifetime(at: &mut Ahead<'_>) {
    if is_at_lifetime(at) {
        pass(at);
    }
}
/// Whether `self` comes next, and ends a receiver that began with a `&`.
fn is_self_by_ref(at: &Ahead<'_>) -> bool {
    let mut behind = at.fork();
    takes_keyword(&mut behind, b"self") && ends_param(&behind)
}
/// Whether `self` comes next as a receiver without a `&`.
fn is_self_by_itself(at: &Ahead<'_>) -> bool {
    let mut behind = at.fork();
    takes_keyword(&mut behind, b"self") && (ends_param(&behind) || behind.op_is(b":"))
}
/// Whether a receiver with a `&` comes next.
fn begins_ref_self(at: &Ahead<'_>) -> bool {
    let mut behind = at.fork();
    if !takes_mark(&mut behind, b"&") {
        return false;
    }
    pass_lifetime(&mut behind);
    takes_flag(&mut behind, b"mut");
    is_self_by_ref(&behind)
}
/// Whether a receiver without a `&` comes next.
fn begins_own_self(at: &Ahead<'_>) -> bool {
    let mut behind = at.fork();
    takes_flag(&mut behind, b"mut");
    is_self_by_itself(&behind)
}
/// Parses a receiver, after its `&`.
fn ref_self(alloc: Global, at: &mut Ahead<'_>) -> Result<ParamKind, ReadNone> {
    let lifetime = read_lifetime_if(alloc, at)?;
    let mutable = takes_flag(at, b"mut");
    pass(at);
    Ok(ParamKind::RefSelf { lifetime, mutable })
}
/// Parses a receiver without a `&`.
fn own_self(
    alloc: Global,
    at: &mut Ahead<'_>,
    depth: u32,
) -> Result<Found<ParamKind>, ReadNone> {
    let mutable = takes_flag(at, b"mut");
    pass(at);
    let ty = type_if(alloc, at, b":", depth)?;
    Ok(Found { need: ty.need, node: ParamKind::OwnSelf { mutable, ty: ty.node } })
}
/// Moves past `...` if it comes next, and says whether it did.
fn takes_dots(at: &mut Ahead<'_>) -> bool {
    let found = at.op_is(b"...");
    if found {
        pass_two(at);
        pass(at);
    }
    found
}
/// Parses what follows a pattern and its `:`.
fn typed_by(
    alloc: Global,
    at: &mut Ahead<'_>,
    pat: Found<Pat>,
    depth: u32,
) -> Result<Found<ParamKind>, ReadNone> {
    if takes_dots(at) {
        return Ok(
            Found { need: pat.need, node: ParamKind::NamedVariadic { pat: pat.node } },
        );
    }
    let (pat, ty) = both(pat, type_ahead(alloc, at, TypePlace::Bounds, depth))?;
    Ok(
        Found {
            need: greater(pat.need, ty.need),
            node: ParamKind::Typed { pat: pat.node, ty: ty.node },
        },
    )
}
/// Parses a parameter with a pattern.
fn typed(
    alloc: Global,
    at: &mut Ahead<'_>,
    depth: u32,
) -> Result<Found<ParamKind>, ReadNone> {
    let pat = pat_ahead(alloc, at, PatPlace::Single, depth)?;
    let colon = takes_op(at, b":");
    let pat = kept_if(pat, colon)?;
    typed_by(alloc, at, pat, depth)
}
/// Parses a parameter; its attributes were read.
fn param_kind(
    alloc: Global,
    at: &mut Ahead<'_>,
    depth: u32,
) -> Result<Found<ParamKind>, ReadNone> {
    if begins_ref_self(at) {
        pass(at);
        let node = ref_self(alloc, at)?;
        Ok(Found { node, need: 0 })
    } else if begins_own_self(at) { own_self(alloc, at, depth) } else if takes_dots(at) {
        Ok(Found { node: ParamKind::Variadic, need: 0 })
    } else { typed(alloc, at, depth) }
}
/// Parameters as the elements of a list.
struct Params;
impl Part<Param, ()> for Params {}
/// Parses a parameter.
fn fn_param(
    level: &Level,
    at: &mut Ahead<'_>,
    _place: (),
) -> Result<Found<Param>, ReadNone> {
    let attrs = attrs_ahead(level.alloc, at, false)?;
    let kind = param_kind(level.alloc, at, level.depth)?;
    Ok(Found { need: kind.need, node: Param { attrs, kind: kind.node } })
}
/// Parses parameters as long as one begins. The flag says that a comma follows the last one, or
/// that there is none.
fn open_params(
    alloc: Global,
    at: &mut Ahead<'_>,
    depth: u32,
) -> Result<Found<(List<Param>, bool)>, ReadNone> {
    let level = Level { alloc, depth };
    read_open_elements::<
        Params,
        Level,
        Param,
        (),
        _,
    >(alloc, at, depth, Opening::FnParam, &level, fn_param, ())
}
/// Whether the parameter is a receiver.
fn is_receiver(kind: &ParamKind) -> bool {
    matches!(kind, ParamKind::RefSelf { .. } | ParamKind::OwnSelf { .. })
}
/// Whether the parameter is a `...`.
fn is_variadic(kind: &ParamKind) -> bool {
    matches!(kind, ParamKind::Variadic | ParamKind::NamedVariadic { .. })
}
/// Whether no parameter is a receiver.
fn none_receives(params: &[Param]) -> bool {
    let mut rest = params;
    while let [param, behind @ ..] = rest {
        if is_receiver(&param.kind) {
            return false;
        }
        rest = behind;
    }
    true
}
/// Whether no parameter but the first is a receiver.
fn receives_first(params: &[Param]) -> bool {
    match params {
        [] => true,
        [_, ..] => none_receives(&params[1..]),
    }
}
/// Whether the last parameter is a `...`.
fn ends_variadic(params: &[Param]) -> bool {
    let mut rest = params;
    while let [param, behind @ ..] = rest {
        if behind.is_empty() {
            return is_variadic(&param.kind);
        }
        rest = behind;
    }
    false
}
/// Whether no parameter but the last is a `...`.
fn varies_last(params: &[Param]) -> bool {
    let mut rest = params;
    while let [param, behind @ ..] = rest {
        if !behind.is_empty() && is_variadic(&param.kind) {
            return false;
        }
        rest = behind;
    }
    true
}
/// Whether receivers stand only first and `...` only last, with no comma after it.
fn are_in_order(params: &[Param], comma: bool) -> bool {
    receives_first(params) && varies_last(params) && !(ends_variadic(params) && comma)
}
/// Parses the `)` after these parameters. It is an error if they aren't in order.
fn closed_params(
    at: &mut Ahead<'_>,
    found: Found<(List<Param>, bool)>,
) -> Result<Found<List<Param>>, ReadNone> {
    let Found { node, need } = found;
    let (params, comma) = node;
    let keeps = takes_closer(at, Delim::Paren) && are_in_order(params.as_slice(), comma);
    kept_if(Found { node: params, need }, keeps)
}
/// Parses the parameters of a function.
fn fn_params(
    alloc: Global,
    at: &mut Ahead<'_>,
    depth: u32,
) -> Result<Found<List<Param>>, ReadNone> {
    if !takes_opener(at, Delim::Paren) {
        return Err(ReadNone::NoReading);
    }
    let found = open_params(alloc, at, depth)?;
    closed_params(at, found)
}
/// Parses a return type, if one comes next.
fn head_output(
    alloc: Global,
    at: &mut Ahead<'_>,
    depth: u32,
) -> Result<Found<Option<Ty>>, ReadNone> {
    if !at.op_is(b"->") {
        return Ok(Found { node: None, need: 0 });
    }
    pass_two(at);
    let ty = type_ahead(alloc, at, TypePlace::Bounds, depth)?;
    Ok(Found { node: Some(ty.node), need: ty.need })
}
/// Moves past `unsafe` or `safe` if one comes next, and gives it.
fn take_safety(at: &mut Ahead<'_>) -> Option<Safety> {
    if takes_keyword(at, b"unsafe") {
        Some(Safety::Unsafe)
    } else if takes_keyword(at, b"safe") { Some(Safety::Safe) } else { None }
}
/// Whether a function may have this safety word at its site.
fn may_say(site: Site, safety: Option<Safety>) -> bool {
    matches!(site, Site::Foreign) || !matches!(safety, Some(Safety::Safe))
}
/// The words before `fn`.
struct Qualifiers {
    is_const: bool,
    is_async: bool,
    safety: Option<Safety>,
    abi: Option<Abi>,
}
/// Parses the head of a function, after its `fn`.
fn named_fn(
    alloc: Global,
    at: &mut Ahead<'_>,
    site: Site,
    before: Qualifiers,
    depth: u32,
) -> Result<Found<FnHead>, ReadNone> {
    let name = read_name(alloc, at)?;
    let generics = generics_ahead(alloc, at, depth)?;
    let (generics, params) = both(generics, fn_params(alloc, at, depth))?;
    let ((generics, params), output) = both(
        (generics, params),
        head_output(alloc, at, depth),
    )?;
    let keeps = may_say(site, before.safety);
    kept_if(
        Found {
            need: greater(generics.need, greater(params.need, output.need)),
            node: FnHead {
                is_const: before.is_const,
                is_async: before.is_async,
                safety: before.safety,
                abi: before.abi,
                name,
                generics: generics.node.0,
                params: params.node,
                output: output.node,
            },
        },
        keeps,
    )
}
/// Parses an ABI, if one comes next, and `fn`; what stands before was read.
fn with_abi(
    alloc: Global,
    at: &mut Ahead<'_>,
    is_const: bool,
    is_async: bool,
    safety: Option<Safety>,
) -> Result<Qualifiers, ReadNone> {
    let abi = read_abi_if(alloc, at)?;
    let keeps = takes_keyword(at, b"fn");
    let before = Qualifiers { is_const, is_async, safety, abi };
    kept_if(before, keeps)
}
/// Parses the words before `fn`, and `fn`.
fn read_qualifiers(alloc: Global, at: &mut Ahead<'_>) -> Result<Qualifiers, ReadNone> {
    let is_const = takes_flag(at, b"const");
    let is_async = takes_flag(at, b"async");
    let safety = take_safety(at);
    with_abi(alloc, at, is_const, is_async, safety)
}
/// Parses the head of a function, with everything in it within `depth` levels.
pub fn fn_head_ahead(
    alloc: Global,
    at: &mut Ahead<'_>,
    site: Site,
    depth: u32,
) -> Result<Found<FnHead>, ReadNone> {
    let before = read_qualifiers(alloc, at)?;
    named_fn(alloc, at, site, before, depth)
}
