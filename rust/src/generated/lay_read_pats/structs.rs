//! Made by scripts/rust.sh from crates/lay_read_pats/src/structs.rt, which is proved: change that.
//!
//! Parsing of patterns that begin with a path.
use crate::generated::lay_read_pats::facts::{is_name, is_self, is_short, lone_word};
use crate::generated::lay_read_pats::rules::PatRules;
use crate::generated::lay_read_pats::values::{begins_dots, span};
use crate::generated::lay_node::{
    Attr,
    FieldPat,
    Name,
    Pat,
    PatPlace,
    Path,
    PathStyle,
    SpanEnd,
    Word,
};
use crate::generated::lay_read_parts::joins::{both, refused};
use crate::generated::lay_read_parts::loops::{Opening, Part, read_open_elements};
use crate::generated::lay_read_tokens::attributes::attrs_ahead;
use crate::generated::lay_read_tokens::found::greater;
use crate::generated::lay_read_tokens::front::{
    pass,
    pass_two,
    takes_closer,
    takes_op,
    takes_opener,
};
use crate::generated::lay_read_tokens::names::{is_at_name, read_name};
use crate::generated::lay_read_tokens::stop::copy_of;
use crate::generated::lay_read_tokens::{Ahead, Found, ReadNone};
use crate::generated::lay_read_types::path_ahead;
use crate::generated::lay_token::{Delim, Kind, List, Text};
use crate::shims::Global;
/// The path as a pattern, if no `!` follows.
fn plain_path(at: &Ahead<'_>, path: Found<Path>) -> Result<Found<Pat>, ReadNone> {
    if at.op_is(b"!") {
        return refused(path);
    }
    Ok(Found { node: Pat::Path { path: path.node }, need: path.need + 1 })
}
/// Whether a tuple index and a `:` come next.
fn is_at_index(at: &Ahead<'_>) -> bool {
    match at.peek(0) {
        Some(token) => {
            let mut behind = at.fork();
            pass(&mut behind);
            matches!(token.kind, Kind::Int) && behind.op_is(b":")
        }
        None => false,
    }
}
/// Parses a tuple index and the `:` after it, if they come next.
pub fn read_index_if(
    alloc: Global,
    at: &mut Ahead<'_>,
) -> Result<Option<Text>, ReadNone> {
    let found = is_at_index(at);
    match at.peek(0) {
        Some(token) if found => {
            let text = copy_of(alloc, &token.text)?;
            pass_two(at);
            Ok(Some(text))
        }
        _ => Ok(None),
    }
}
/// Whether a name and a `:` come next.
fn is_at_field_name(at: &Ahead<'_>) -> bool {
    let mut behind = at.fork();
    pass(&mut behind);
    is_at_name(at) && behind.op_is(b":")
}
/// Parses a name and the `:` after it, if they come next.
fn read_field_name_if(
    alloc: Global,
    at: &mut Ahead<'_>,
) -> Result<Option<Name>, ReadNone> {
    if !is_at_field_name(at) {
        return Ok(None);
    }
    let name = read_name(alloc, at)?;
    pass(at);
    Ok(Some(name))
}
/// Fields as the elements of a struct pattern.
pub struct Fields;
impl Part<FieldPat, ()> for Fields {}
impl<
    P: Fn(Global, &mut Ahead<'_>, PatPlace, u32) -> Result<Found<Pat>, ReadNone>,
> PatRules<P> {
    /// Parses a pattern that begins with a path.
    pub fn path_pat(&self, at: &mut Ahead<'_>) -> Result<Found<Pat>, ReadNone> {
        let path = path_ahead(self.alloc, at, PathStyle::Code, self.depth)?;
        self.path_by(at, path)
    }
    /// Parses a pattern after the path that it begins with.
    fn path_by(
        &self,
        at: &mut Ahead<'_>,
        path: Found<Path>,
    ) -> Result<Found<Pat>, ReadNone> {
        if takes_opener(at, Delim::Paren) {
            self.tuple_struct(at, path)
        } else if takes_opener(at, Delim::Brace) {
            self.struct_pat(at, path)
        } else if begins_dots(at) {
            let start = Found { node: Some(SpanEnd::Path(path.node)), need: path.need };
            span(self.alloc, at, self.depth, start)
        } else { self.word_pat(at, path) }
    }
    /// A path that nothing follows: a binding, if it is one word that is a name.
    fn word_pat(
        &self,
        at: &mut Ahead<'_>,
        path: Found<Path>,
    ) -> Result<Found<Pat>, ReadNone> {
        match lone_word(&path.node) {
            Some(word) if is_name(word) => self.word_bind(at, word),
            Some(word) if is_self(word) => Err(ReadNone::NoReading),
            _ => plain_path(at, path),
        }
    }
    /// Parses a binding of this word, which is a name.
    fn word_bind(
        &self,
        at: &mut Ahead<'_>,
        word: &Word,
    ) -> Result<Found<Pat>, ReadNone> {
        let text = copy_of(self.alloc, &word.text)?;
        let name = Name { raw: word.raw, text };
        self.bind(at, false, false, name)
    }
    /// Parses the elements of a tuple struct pattern, after its path and the `(`.
    fn tuple_struct(
        &self,
        at: &mut Ahead<'_>,
        path: Found<Path>,
    ) -> Result<Found<Pat>, ReadNone> {
        let (path, elements) = both(path, self.elements(at, Delim::Paren))?;
        Ok(
            Found {
                need: greater(path.need, elements.need) + 1,
                node: Pat::TupleStruct { path: path.node, elements: elements.node },
            },
        )
    }
    /// Parses the fields of a struct pattern, after its path and the `{`.
    fn struct_pat(
        &self,
        at: &mut Ahead<'_>,
        path: Found<Path>,
    ) -> Result<Found<Pat>, ReadNone> {
        let (path, found) = both(path, self.fields(at))?;
        let Found { node, need } = found;
        let (fields, rest) = node;
        Ok(
            Found {
                need: greater(path.need, need) + 1,
                node: Pat::Struct { path: path.node, fields, rest },
            },
        )
    }
    /// Parses fields after the `{`. The flag says that a `..` follows them.
    fn fields(
        &self,
        at: &mut Ahead<'_>,
    ) -> Result<Found<(List<FieldPat>, bool)>, ReadNone> {
        let found = read_open_elements::<
            Fields,
            PatRules<P>,
            FieldPat,
            (),
            _,
        >(self.alloc, at, self.depth, Opening::Field, self, PatRules::one_field, ())?;
        let Found { node, need } = found;
        let (fields, open) = node;
        let rest = open && at.op_is(b"..");
        if rest {
            pass_two(at);
        }
        if !takes_closer(at, Delim::Brace) {
            return refused(fields);
        }
        Ok(Found { node: (fields, rest), need })
    }
    /// Parses a field with its attributes.
    fn one_field(
        &self,
        at: &mut Ahead<'_>,
        _place: (),
    ) -> Result<Found<FieldPat>, ReadNone> {
        let attrs = attrs_ahead(self.alloc, at, false)?;
        let (attrs, index) = both(attrs, read_index_if(self.alloc, at))?;
        match index {
            Some(index) => self.index_field(at, attrs, index),
            None => self.named_field(at, attrs),
        }
    }
    /// Parses the pattern of a field after its tuple index and the `:`.
    fn index_field(
        &self,
        at: &mut Ahead<'_>,
        attrs: List<Attr>,
        index: Text,
    ) -> Result<Found<FieldPat>, ReadNone> {
        let ((attrs, index), found) = both(
            (attrs, index),
            self.inner(at, PatPlace::Alternatives),
        )?;
        Ok(
            Found {
                need: found.need,
                node: FieldPat::Index { attrs, index, pat: found.node },
            },
        )
    }
    /// Parses a field with a name; its attributes were read.
    fn named_field(
        &self,
        at: &mut Ahead<'_>,
        attrs: List<Attr>,
    ) -> Result<Found<FieldPat>, ReadNone> {
        let (attrs, name) = both(attrs, read_field_name_if(self.alloc, at))?;
        match name {
            Some(name) => self.full_field(at, attrs, name),
            None => self.short_field(at, attrs),
        }
    }
    /// Parses the pattern of a field after its name and the `:`.
    fn full_field(
        &self,
        at: &mut Ahead<'_>,
        attrs: List<Attr>,
        name: Name,
    ) -> Result<Found<FieldPat>, ReadNone> {
        let ((attrs, name), found) = both(
            (attrs, name),
            self.inner(at, PatPlace::Alternatives),
        )?;
        Ok(
            Found {
                need: found.need,
                node: FieldPat::Named { attrs, name, pat: found.node },
            },
        )
    }
    /// Parses a field that is bound to its own name.
    fn short_field(
        &self,
        at: &mut Ahead<'_>,
        attrs: List<Attr>,
    ) -> Result<Found<FieldPat>, ReadNone> {
        let (attrs, found) = both(attrs, self.inner(at, PatPlace::Single))?;
        if !is_short(&found.node) {
            return refused((attrs, found));
        }
        Ok(Found { need: found.need, node: FieldPat::Short { attrs, pat: found.node } })
    }
}
