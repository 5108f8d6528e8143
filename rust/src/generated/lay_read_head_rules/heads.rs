//! Made by scripts/rust.sh from crates/lay_read_head_rules/src/heads.rt, which is proved: change that.
//!
//! Parsing of the heads of items, and of items that consist of a head alone.
use crate::generated::lay_read_head_rules::fields::{
    named_fields_ahead,
    tuple_fields_ahead,
    variants_ahead,
};
use crate::generated::lay_read_head_rules::level::{kept_if, met_if, takes_flag};
use crate::generated::lay_read_head_rules::uses::read_rename;
use crate::generated::lay_node::{
    Alias,
    Enum,
    ExternCrate,
    Fields,
    Generics,
    ImplHead,
    Name,
    PathStyle,
    Site,
    Struct,
    TraitHead,
    TraitRef,
    Ty,
    TypePlace,
    Union,
    ValueHead,
    Wheres,
    Word,
};
use crate::generated::lay_read_generics::{generics_ahead, wheres_ahead};
use crate::generated::lay_read_parts::joins::both;
use crate::generated::lay_read_pats::facts::{is_name, is_self};
use crate::generated::lay_read_shared::types::type_if;
use crate::generated::lay_read_tokens::found::greater;
use crate::generated::lay_read_tokens::front::{
    is_at_keyword,
    is_at_mark,
    is_at_opened,
    takes_keyword,
    takes_mark,
    takes_op,
};
use crate::generated::lay_read_tokens::names::{read_given_name, read_name, read_word};
use crate::generated::lay_read_tokens::{Ahead, Found, ReadNone};
use crate::generated::lay_read_types::{path_ahead, type_ahead};
use crate::generated::lay_token::Delim;
use crate::shims::Global;
/// Parses a keyword, a name, and generic parameters.
fn called(
    alloc: Global,
    at: &mut Ahead<'_>,
    keyword: &[u8],
    depth: u32,
) -> Result<Found<(Name, Generics)>, ReadNone> {
    if !takes_keyword(at, keyword) {
        return Err(ReadNone::NoReading);
    }
    let name = read_name(alloc, at)?;
    let Found { node, need } = generics_ahead(alloc, at, depth)?;
    Ok(Found { node: (name, node.0), need })
}
/// Whether the word may name a crate in `extern crate`.
fn is_crate_word(word: &Word) -> bool {
    is_name(word) || is_self(word)
}
/// Parses an extern crate declaration.
pub fn extern_crate_ahead(
    alloc: Global,
    at: &mut Ahead<'_>,
) -> Result<ExternCrate, ReadNone> {
    if !takes_keyword(at, b"extern") || !takes_keyword(at, b"crate") {
        return Err(ReadNone::NoReading);
    }
    let word = read_word(alloc, at)?;
    let renamed = read_rename(alloc, at)?;
    let keeps = takes_mark(at, b";") && is_crate_word(&word);
    kept_if(ExternCrate { word, renamed }, keeps)
}
/// Whether a type alias may stand at this site with this type, or without one.
fn may_be_given(site: Site, ty: &Option<Ty>) -> bool {
    match site {
        Site::Module => ty.is_some(),
        Site::Member => ty.is_some(),
        Site::TraitMember => true,
        Site::Foreign => ty.is_none(),
    }
}
/// Parses a type alias, with everything in it within `depth` levels.
pub fn alias_ahead(
    alloc: Global,
    at: &mut Ahead<'_>,
    site: Site,
    depth: u32,
) -> Result<Found<Alias>, ReadNone> {
    let named = called(alloc, at, b"type", depth)?;
    let (named, bounds) = both(named, met_if(alloc, at, depth))?;
    let ((named, bounds), ty) = both((named, bounds), type_if(alloc, at, b"=", depth))?;
    let ((named, bounds, ty), wheres) = both(
        (named, bounds, ty),
        wheres_ahead(alloc, at, depth),
    )?;
    let keeps = takes_mark(at, b";") && may_be_given(site, &ty.node);
    kept_if(
        Found {
            need: greater(
                named.need,
                greater(bounds.need, greater(ty.need, wheres.need)),
            ),
            node: Alias {
                name: named.node.0,
                generics: named.node.1,
                bounds: bounds.node,
                ty: ty.node,
                wheres: wheres.node.0,
            },
        },
        keeps,
    )
}
/// Parses a struct, with everything in it within `depth` levels.
pub fn struct_ahead(
    alloc: Global,
    at: &mut Ahead<'_>,
    depth: u32,
) -> Result<Found<Struct>, ReadNone> {
    let named = called(alloc, at, b"struct", depth)?;
    if is_at_opened(at, Delim::Paren) { tuple_struct(alloc, at, named, depth) } else {
        other_struct(alloc, at, named, depth)
    }
}
/// Parses a struct whose fields have no names, after its name.
fn tuple_struct(
    alloc: Global,
    at: &mut Ahead<'_>,
    named: Found<(Name, Generics)>,
    depth: u32,
) -> Result<Found<Struct>, ReadNone> {
    let (named, fields) = both(named, tuple_fields_ahead(alloc, at, depth))?;
    let ((named, fields), wheres) = both(
        (named, fields),
        wheres_ahead(alloc, at, depth),
    )?;
    let keeps = takes_mark(at, b";");
    kept_if(
        Found {
            need: greater(named.need, greater(fields.need, wheres.need)),
            node: Struct {
                name: named.node.0,
                generics: named.node.1,
                fields: Fields::Tuple { fields: fields.node },
                wheres: wheres.node.0,
            },
        },
        keeps,
    )
}
/// Parses a unit struct or a struct with named fields, after its name.
fn other_struct(
    alloc: Global,
    at: &mut Ahead<'_>,
    named: Found<(Name, Generics)>,
    depth: u32,
) -> Result<Found<Struct>, ReadNone> {
    let (named, wheres) = both(named, wheres_ahead(alloc, at, depth))?;
    if is_at_opened(at, Delim::Brace) {
        return named_struct(alloc, at, named, wheres, depth);
    }
    let keeps = takes_mark(at, b";");
    kept_if(
        Found {
            need: greater(named.need, wheres.need),
            node: Struct {
                name: named.node.0,
                generics: named.node.1,
                fields: Fields::Unit,
                wheres: wheres.node.0,
            },
        },
        keeps,
    )
}
/// Parses a struct whose fields have names, after its where clause.
fn named_struct(
    alloc: Global,
    at: &mut Ahead<'_>,
    named: Found<(Name, Generics)>,
    wheres: Found<(Wheres, bool)>,
    depth: u32,
) -> Result<Found<Struct>, ReadNone> {
    let ((named, wheres), fields) = both(
        (named, wheres),
        named_fields_ahead(alloc, at, depth),
    )?;
    Ok(
        Found {
            need: greater(named.need, greater(wheres.need, fields.need)),
            node: Struct {
                name: named.node.0,
                generics: named.node.1,
                fields: Fields::Named { fields: fields.node },
                wheres: wheres.node.0,
            },
        },
    )
}
/// Parses a union, with everything in it within `depth` levels.
pub fn union_ahead(
    alloc: Global,
    at: &mut Ahead<'_>,
    depth: u32,
) -> Result<Found<Union>, ReadNone> {
    let named = called(alloc, at, b"union", depth)?;
    let (named, wheres) = both(named, wheres_ahead(alloc, at, depth))?;
    let ((named, wheres), fields) = both(
        (named, wheres),
        named_fields_ahead(alloc, at, depth),
    )?;
    Ok(
        Found {
            need: greater(named.need, greater(wheres.need, fields.need)),
            node: Union {
                name: named.node.0,
                generics: named.node.1,
                wheres: wheres.node.0,
                fields: fields.node,
            },
        },
    )
}
/// Parses an enumeration, with everything in it within `depth` levels.
pub fn enum_ahead(
    alloc: Global,
    at: &mut Ahead<'_>,
    depth: u32,
) -> Result<Found<Enum>, ReadNone> {
    let named = called(alloc, at, b"enum", depth)?;
    let (named, wheres) = both(named, wheres_ahead(alloc, at, depth))?;
    let ((named, wheres), variants) = both(
        (named, wheres),
        variants_ahead(alloc, at, depth),
    )?;
    Ok(
        Found {
            need: greater(named.need, greater(wheres.need, variants.need)),
            node: Enum {
                name: named.node.0,
                generics: named.node.1,
                wheres: wheres.node.0,
                variants: variants.node,
            },
        },
    )
}
/// Parses the head of a constant, after its keyword.
fn const_head(
    alloc: Global,
    at: &mut Ahead<'_>,
    depth: u32,
) -> Result<Found<ValueHead>, ReadNone> {
    let name = read_given_name(alloc, at)?;
    if !takes_op(at, b":") {
        return Err(ReadNone::NoReading);
    }
    let ty = type_ahead(alloc, at, TypePlace::Bounds, depth)?;
    Ok(Found { need: ty.need, node: ValueHead::Const { name, ty: ty.node } })
}
/// Parses the head of a static, after its keyword.
fn static_head(
    alloc: Global,
    at: &mut Ahead<'_>,
    depth: u32,
) -> Result<Found<ValueHead>, ReadNone> {
    let mutable = takes_flag(at, b"mut");
    let name = read_name(alloc, at)?;
    if !takes_op(at, b":") {
        return Err(ReadNone::NoReading);
    }
    let ty = type_ahead(alloc, at, TypePlace::Bounds, depth)?;
    Ok(Found { need: ty.need, node: ValueHead::Static { mutable, name, ty: ty.node } })
}
/// Parses the head of a constant or of a static, with everything in it within `depth` levels.
pub fn value_head_ahead(
    alloc: Global,
    at: &mut Ahead<'_>,
    depth: u32,
) -> Result<Found<ValueHead>, ReadNone> {
    if takes_keyword(at, b"const") {
        const_head(alloc, at, depth)
    } else if takes_keyword(at, b"static") { static_head(alloc, at, depth) } else {
        Err(ReadNone::NoReading)
    }
}
/// Parses the head of a trait, with everything in it within `depth` levels. The flags say that its
/// generic parameters are in `<` and `>`, and that a `:` follows them.
pub fn trait_head_ahead(
    alloc: Global,
    at: &mut Ahead<'_>,
    depth: u32,
) -> Result<Found<(TraitHead, (bool, bool))>, ReadNone> {
    let is_unsafe = takes_flag(at, b"unsafe");
    if !takes_keyword(at, b"trait") {
        return Err(ReadNone::NoReading);
    }
    let name = read_name(alloc, at)?;
    let generics = generics_ahead(alloc, at, depth)?;
    let with_colon = at.op_is(b":");
    let (generics, bounds) = both(generics, met_if(alloc, at, depth))?;
    let with_generics = generics.node.1;
    Ok(
        Found {
            need: greater(generics.need, bounds.need),
            node: (
                TraitHead {
                    is_unsafe,
                    name,
                    generics: generics.node.0,
                    bounds: bounds.node,
                },
                (with_generics, with_colon),
            ),
        },
    )
}
/// Parses the trait of an implementation and the `for`, if they come next. A type can begin with
/// the same tokens.
fn trait_ref(
    alloc: Global,
    at: &mut Ahead<'_>,
    depth: u32,
) -> Result<Found<Option<TraitRef>>, ReadNone> {
    let mut behind = at.fork();
    let negative = takes_mark(&mut behind, b"!");
    match path_ahead(alloc, &mut behind, PathStyle::Kind, depth) {
        Ok(path) if takes_keyword(&mut behind, b"for") => {
            *at = behind;
            Ok(
                Found {
                    need: path.need,
                    node: Some(TraitRef { negative, path: path.node }),
                },
            )
        }
        Err(ReadNone::NoMemory) => Err(ReadNone::NoMemory),
        _ => Ok(Found { node: None, need: 0 }),
    }
}
/// Whether the next token ends the head of an implementation.
fn ends_head(at: &Ahead<'_>) -> bool {
    is_at_keyword(at, b"where") || is_at_opened(at, Delim::Brace)
}
/// Whether there are generic parameters, or no `<` comes next that would open some.
fn tells_generics(at: &Ahead<'_>, generics: &Generics) -> bool {
    !generics.params.as_slice().is_empty() || !is_at_mark(at, b"<")
}
/// Parses the head of an implementation, with everything in it within `depth` levels.
pub fn impl_head_ahead(
    alloc: Global,
    at: &mut Ahead<'_>,
    depth: u32,
) -> Result<Found<ImplHead>, ReadNone> {
    let is_unsafe = takes_flag(at, b"unsafe");
    if !takes_keyword(at, b"impl") {
        return Err(ReadNone::NoReading);
    }
    let generics = generics_ahead(alloc, at, depth)?;
    let told = tells_generics(at, &generics.node.0);
    let (generics, of) = both(generics, trait_ref(alloc, at, depth))?;
    let ((generics, of), ty) = both(
        (generics, of),
        type_ahead(alloc, at, TypePlace::Bounds, depth),
    )?;
    let keeps = told && ends_head(at);
    kept_if(
        Found {
            need: greater(generics.need, greater(of.need, ty.need)),
            node: ImplHead {
                is_unsafe,
                generics: generics.node.0,
                of: of.node,
                ty: ty.node,
            },
        },
        keeps,
    )
}
