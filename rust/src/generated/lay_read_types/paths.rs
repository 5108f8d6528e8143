//! Made by scripts/rust.sh from crates/lay_read_types/src/paths.rt, which is proved: change that.
//!
//! Parsing of paths.
use crate::generated::lay_read_types::rules::Rules;
use crate::generated::lay_node::{
    Args,
    Boxed,
    Constraint,
    Path,
    PathStart,
    PathStyle,
    Ty,
    TypePlace,
    Word,
};
use crate::generated::lay_read_parts::joins::{both, none_of, refused};
use crate::generated::lay_read_parts::loops::{Joint, Part, read_chain};
use crate::generated::lay_read_tokens::found::greater;
use crate::generated::lay_read_tokens::front::{
    is_at_mark,
    takes_colons,
    takes_keyword,
    takes_mark,
};
use crate::generated::lay_read_tokens::names::read_word;
use crate::generated::lay_read_tokens::stop::boxed;
use crate::generated::lay_read_tokens::{Ahead, Found, ReadNone};
use crate::generated::lay_token::List;
use crate::shims::Global;
/// Segments as the parts of a path.
pub struct Segments;
impl Part<(Word, Args), PathStyle> for Segments {}
impl<
    F: Fn(Global, &mut Ahead<'_>, TypePlace, u32) -> Result<Found<Ty>, ReadNone>,
    G: Fn(Global, &mut Ahead<'_>, u32) -> Result<Found<Constraint>, ReadNone>,
> Rules<F, G> {
    /// Parses a segment.
    fn segment(
        &self,
        at: &mut Ahead<'_>,
        style: PathStyle,
    ) -> Result<Found<(Word, Args)>, ReadNone> {
        let word = read_word(self.alloc, at)?;
        let args = self.args(at, style)?;
        Ok(Found { need: args.need, node: (word, args.node) })
    }
    /// Parses one or more segments.
    fn segments(
        &self,
        at: &mut Ahead<'_>,
        style: PathStyle,
    ) -> Result<Found<List<(Word, Args)>>, ReadNone> {
        read_chain::<
            Segments,
            Rules<F, G>,
            (Word, Args),
            PathStyle,
            _,
        >(self.alloc, at, self.depth, Joint::Colons, self, Rules::segment, style)
    }
    /// Parses a trait, which counts one level of depth more, as a type does.
    fn trait_path(&self, at: &mut Ahead<'_>) -> Result<Found<Path>, ReadNone> {
        let Found { node, need } = self.inner(at, TypePlace::NoBounds)?;
        match into_path(node) {
            Some(node) => Ok(Found { node, need }),
            None => Err(ReadNone::NoReading),
        }
    }
    /// Parses the `as` and the trait of `<A as B>::`, if they come next.
    fn trait_if(
        &self,
        at: &mut Ahead<'_>,
    ) -> Result<Found<Option<Boxed<Path>>>, ReadNone> {
        if !takes_keyword(at, b"as") {
            return Ok(Found { node: None, need: 0 });
        }
        let found = self.trait_path(at)?;
        let path = boxed(self.alloc, found.node)?;
        Ok(Found { node: Some(path), need: found.need })
    }
    /// Parses `<A as B>::` or `<A>::`.
    fn qualified(&self, at: &mut Ahead<'_>) -> Result<Found<PathStart>, ReadNone> {
        if !takes_mark(at, b"<") {
            return Err(ReadNone::NoReading);
        }
        let ty = self.inner(at, TypePlace::Bounds)?;
        let (ty, of) = both(ty, self.trait_if(at))?;
        if !takes_mark(at, b">") || !takes_colons(at) {
            return refused((ty, of));
        }
        let need = greater(ty.need, of.need);
        let (of, ty) = both(of.node, boxed(self.alloc, ty.node))?;
        Ok(Found { node: PathStart::Qualified { ty, of }, need })
    }
    /// Parses the beginning of a path.
    fn path_start(&self, at: &mut Ahead<'_>) -> Result<Found<PathStart>, ReadNone> {
        if is_at_mark(at, b"<") { self.qualified(at) } else if takes_colons(at) {
            Ok(Found { node: PathStart::Global, need: 0 })
        } else { Ok(Found { node: PathStart::Local, need: 0 }) }
    }
    /// Parses a path.
    pub fn path(
        &self,
        at: &mut Ahead<'_>,
        style: PathStyle,
    ) -> Result<Found<Path>, ReadNone> {
        let start = self.path_start(at)?;
        let (start, segments) = both(start, self.segments(at, style))?;
        if !returns_last(segments.node.as_slice()) {
            return refused((start, segments));
        }
        Ok(
            Found {
                need: greater(start.need, segments.need),
                node: Path { start: start.node, segments: segments.node },
            },
        )
    }
}
/// The path of a type that is a path.
pub fn into_path(ty: Ty) -> Option<Path> {
    match ty {
        Ty::Path { path } => Some(path),
        other => none_of(other),
    }
}
/// Whether generic arguments have a return type.
fn has_output(args: &Args) -> bool {
    match args {
        Args::None => false,
        Args::Angle { .. } => false,
        Args::Round { output, .. } => output.is_some(),
    }
}
/// Whether only the last segment has a return type.
fn returns_last(segments: &[(Word, Args)]) -> bool {
    let mut rest = segments;
    while let [segment, behind @ ..] = rest {
        if !behind.is_empty() && has_output(&segment.1) {
            return false;
        }
        rest = behind;
    }
    true
}
