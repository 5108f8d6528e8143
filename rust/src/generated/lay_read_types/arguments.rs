//! Made by scripts/rust.sh from crates/lay_read_types/src/arguments.rt, which is proved: change that.
//!
//! Parsing of generic arguments.
use crate::generated::lay_read_types::paths::into_path;
use crate::generated::lay_read_types::rules::Rules;
use crate::generated::lay_node::{
    Arg,
    Args,
    Boxed,
    Constraint,
    Name,
    Path,
    PathStart,
    PathStyle,
    Ty,
    TypePlace,
    Word,
};
use crate::generated::lay_read_parts::joins::both;
use crate::generated::lay_read_parts::leads::{
    begins_const,
    is_at_lifetime,
    opens_args,
    opens_args_late,
};
use crate::generated::lay_read_parts::loops::{Closer, Part, read_elements};
use crate::generated::lay_read_parts::parts::{read_const, read_lifetime};
use crate::generated::lay_read_tokens::found::greater;
use crate::generated::lay_read_tokens::front::{
    is_at_opened,
    pass_two,
    takes_mark,
    takes_opener,
};
use crate::generated::lay_read_tokens::names::is_plain;
use crate::generated::lay_read_tokens::stop::boxed;
use crate::generated::lay_read_tokens::{Ahead, Found, ReadNone};
use crate::generated::lay_token::{Delim, List};
use crate::shims::Global;
/// Generic arguments as the elements of a list.
pub struct Arguments;
impl Part<Arg, ()> for Arguments {}
impl<
    F: Fn(Global, &mut Ahead<'_>, TypePlace, u32) -> Result<Found<Ty>, ReadNone>,
    G: Fn(Global, &mut Ahead<'_>, u32) -> Result<Found<Constraint>, ReadNone>,
> Rules<F, G> {
    /// Parses a generic argument.
    fn arg(&self, at: &mut Ahead<'_>, _place: ()) -> Result<Found<Arg>, ReadNone> {
        if is_at_lifetime(at) {
            let lifetime = read_lifetime(self.alloc, at)?;
            return Ok(Found { node: Arg::Region { lifetime }, need: 0 });
        }
        if begins_const(at) {
            let value = read_const(self.alloc, at)?;
            return Ok(Found { node: Arg::Const { value }, need: 0 });
        }
        let ty = self.inner(at, TypePlace::Bounds)?;
        self.arg_rest(at, ty)
    }
    /// Parses a generic argument that begins with a type: the type alone, or a name with a
    /// constraint.
    #[inline(never)]
    fn arg_rest(
        &self,
        at: &mut Ahead<'_>,
        ty: Found<Ty>,
    ) -> Result<Found<Arg>, ReadNone> {
        let Found { node, need } = ty;
        if !at.op_is(b"=") && !at.op_is(b":") {
            return Ok(Found { node: Arg::Plain { ty: node }, need });
        }
        let named = match into_named(node) {
            Some(named) => named,
            None => return Err(ReadNone::NoReading),
        };
        let ((name, args), constraint) = both(named, self.asked(at))?;
        Ok(
            Found {
                need: greater(need, constraint.need),
                node: Arg::Named { name, args, constraint: constraint.node },
            },
        )
    }
    /// Parses generic arguments after the `<`, and the `>`.
    fn angle_args(&self, at: &mut Ahead<'_>) -> Result<Found<List<Arg>>, ReadNone> {
        read_elements::<
            Arguments,
            Rules<F, G>,
            Arg,
            (),
            _,
        >(self.alloc, at, self.depth, Closer::Angle, self, Rules::arg, ())
    }
    /// Parses generic arguments in `<` and `>`.
    fn angle(&self, at: &mut Ahead<'_>) -> Result<Found<Args>, ReadNone> {
        if !takes_mark(at, b"<") {
            return Err(ReadNone::NoReading);
        }
        let args = self.angle_args(at)?;
        Ok(Found { need: args.need, node: Args::Angle { args: args.node } })
    }
    /// Parses a return type, if one comes next.
    pub fn output(
        &self,
        at: &mut Ahead<'_>,
    ) -> Result<Found<Option<Boxed<Ty>>>, ReadNone> {
        if !at.op_is(b"->") {
            return Ok(Found { node: None, need: 0 });
        }
        pass_two(at);
        let found = self.inner(at, TypePlace::NoBounds)?;
        let output = boxed(self.alloc, found.node)?;
        Ok(Found { node: Some(output), need: found.need })
    }
    /// Parses types in parentheses and a return type, as in `Fn(A) -> B`.
    fn round(&self, at: &mut Ahead<'_>) -> Result<Found<Args>, ReadNone> {
        if !takes_opener(at, Delim::Paren) {
            return Err(ReadNone::NoReading);
        }
        let inputs = self.paren_types(at)?;
        let (inputs, output) = both(inputs, self.output(at))?;
        Ok(
            Found {
                need: greater(inputs.need, output.need),
                node: Args::Round { inputs: inputs.node, output: output.node },
            },
        )
    }
    /// Parses the generic arguments of a segment, if it has any.
    pub fn args(
        &self,
        at: &mut Ahead<'_>,
        style: PathStyle,
    ) -> Result<Found<Args>, ReadNone> {
        if matches!(style, PathStyle::Kind) && opens_args(at) {
            return self.angle(at);
        }
        if opens_args_late(at) {
            pass_two(at);
            return self.angle(at);
        }
        if matches!(style, PathStyle::Kind) && is_at_opened(at, Delim::Paren) {
            return self.round(at);
        }
        Ok(Found { node: Args::None, need: 0 })
    }
}
/// Whether the generic arguments are in parentheses.
fn is_round(args: &Args) -> bool {
    match args {
        Args::None => false,
        Args::Angle { .. } => false,
        Args::Round { .. } => true,
    }
}
/// The name and the generic arguments of a type that is nothing more.
fn into_named(ty: Ty) -> Option<(Name, Args)> {
    match into_path(ty) {
        Some(path) => into_named_path(path),
        None => None,
    }
}
/// The name and the generic arguments of a path that is nothing more.
fn into_named_path(path: Path) -> Option<(Name, Args)> {
    let Path { start, segments } = path;
    match start {
        PathStart::Local => into_segment(segments),
        _ => None,
    }
}
/// The name and the generic arguments of a single segment.
fn into_segment(segments: List<(Word, Args)>) -> Option<(Name, Args)> {
    let mut segments = segments.into_vec();
    if segments.len() != 1 {
        return None;
    }
    match segments.pop() {
        Some((word, args)) => into_name(word, args),
        None => None,
    }
}
/// A name and its generic arguments, if the word is a name and the arguments aren't in parentheses.
fn into_name(word: Word, args: Args) -> Option<(Name, Args)> {
    let Word { raw, text } = word;
    if !is_round(&args) && (raw || is_plain(text.as_bytes())) {
        Some((Name { raw, text }, args))
    } else { None }
}
