//! Patterns.

use super::{Reader, R};
use crate::lex::{Delim, Kind};
use crate::tree::*;

impl<'t, 'a> Reader<'t, 'a> {
    pub fn pat(&mut self) -> R<Pat<'a>> {
        if self.eat_op("|") {
            self.passed_free();
        }
        let first = self.pat_no_alt()?;
        if self.op() != "|" {
            return Ok(first);
        }
        let mut out = vec![first];
        while self.eat_op("|") {
            out.push(self.pat_no_alt()?);
        }
        Ok(Pat::Or(out))
    }

    pub fn pat_no_alt(&mut self) -> R<Pat<'a>> {
        let p = self.deeper(|s| s.pat_in())?;
        Ok(p)
    }

    pub(super) fn value(&mut self) -> Option<Value<'a>> {
        if let Some(lit) = self.lit_at(self.pos) {
            self.pos += 1;
            return Some(Value { minus: false, lit });
        }
        if self.char_at(self.pos, '-') && self.is_number(self.pos + 1) {
            self.pos += 2;
            return Some(Value { minus: true, lit: self.toks[self.pos - 1] });
        }
        None
    }

    pub(super) fn span_end(&mut self) -> R<Option<SpanEnd<'a>>> {
        if let Some(v) = self.value() {
            return Ok(Some(SpanEnd::Value(v)));
        }
        if self.path_ahead() {
            return Ok(Some(SpanEnd::Path(self.path(Style::Code)?)));
        }
        Ok(None)
    }

    /// The `..` or `..=` of a Span is ahead.
    pub(super) fn span(&mut self, first: Option<SpanEnd<'a>>) -> R<Pat<'a>> {
        if self.eat_op("..=") {
            let last = self.span_end()?.ok_or(())?;
            return Ok(Pat::Span(first, true, Some(last)));
        }
        self.need_op("..")?;
        let last = self.span_end()?;
        if first.is_none() && last.is_none() {
            return Ok(Pat::Rest);
        }
        Ok(Pat::Span(first, false, last))
    }

    pub(super) fn span_ahead(&self, p: usize) -> bool {
        matches!(self.op_at(p), ".." | "..=")
    }

    pub(super) fn bind(&mut self, sub: bool) -> R<Pat<'a>> {
        let by_ref = self.eat_kw("ref");
        let mutable = self.eat_kw("mut");
        let name = self.name()?;
        let sub = if sub && self.eat_op("@") { Some(Box::new(self.pat_no_alt()?)) } else { None };
        Ok(Pat::Bind { by_ref, mutable, name, sub })
    }

    pub(super) fn pat_in(&mut self) -> R<Pat<'a>> {
        if self.kind(self.pos) == Some(Kind::Underscore) {
            self.pos += 1;
            return Ok(Pat::Wild);
        }
        if self.span_ahead(self.pos) {
            return self.span(None);
        }
        if self.eat_char('&') {
            let m = self.eat_kw("mut");
            let inner = self.pat_no_alt()?;
            match inner {
                Pat::Span(..) => return Err(()),
                Pat::Bind { by_ref: false, mutable: true, .. } if !m => return Err(()),
                _ => {}
            }
            return Ok(Pat::Ref(m, Box::new(inner)));
        }
        if self.kw("ref") || self.kw("mut") {
            return self.bind(true);
        }
        if self.opens(self.pos, Delim::Paren) {
            let (mut l, comma) = self.group(Delim::Paren, |s| s.list(|s| s.pat()))?;
            if l.len() == 1 {
                let rest = l[0] == Pat::Rest;
                if rest && comma {
                    return Err(());
                }
                if !rest && !comma {
                    return Ok(Pat::Paren(Box::new(l.pop().unwrap())));
                }
                if comma {
                    self.keep_comma();
                }
            }
            return Ok(Pat::Tuple(l));
        }
        if self.opens(self.pos, Delim::Bracket) {
            return Ok(Pat::Slice(self.group(Delim::Bracket, |s| s.list(|s| s.pat()))?.0));
        }
        if let Some(v) = self.value() {
            if self.span_ahead(self.pos) {
                return self.span(Some(SpanEnd::Value(v)));
            }
            return Ok(Pat::Value(v));
        }
        if self.call_ahead() {
            return Ok(Pat::Call(self.call()?));
        }
        if !self.path_ahead() {
            return Err(());
        }
        let next = self.pos + 1;
        if self.name_at(self.pos).is_some()
            && self.op_at(next) != "::"
            && !self.opens(next, Delim::Paren)
            && !self.opens(next, Delim::Brace)
            && !self.span_ahead(next)
        {
            return self.bind(true);
        }
        let path = self.path(Style::Code)?;
        if self.opens(self.pos, Delim::Paren) {
            let l = self.group(Delim::Paren, |s| s.list(|s| s.pat()))?.0;
            return Ok(Pat::TupleStruct(path, l));
        }
        if self.opens(self.pos, Delim::Brace) {
            return self.struct_pat(path);
        }
        if self.span_ahead(self.pos) {
            return self.span(Some(SpanEnd::Path(path)));
        }
        if path.qself.is_none() && !path.global && path.segments.len() == 1 {
            let g = &path.segments[0];
            if g.args == Args::None && !g.word.raw && g.word.text == "self" {
                return Err(());
            }
        }
        Ok(Pat::Path(path))
    }

    pub(super) fn struct_pat(&mut self, path: Path<'a>) -> R<Pat<'a>> {
        let mut rest = false;
        let fields = self.group(Delim::Brace, |s| {
            let mut out = Vec::new();
            while !s.done() {
                if s.eat_op("..") {
                    rest = true;
                    break;
                }
                let attrs = s.outer_attrs()?;
                if let Some(key) = s.key_colon() {
                    out.push(FieldPat { attrs, key: Some(key), pat: s.pat()? });
                } else {
                    out.push(FieldPat { attrs, key: None, pat: s.bind(false)? });
                }
                if !s.done() {
                    s.need_op(",")?;
                    if s.done() {
                        s.passed_free();
                    }
                }
            }
            Ok(out)
        })?;
        Ok(Pat::Struct(path, fields, rest))
    }

    /// `Name:` or `Int:` is taken where it stands ahead.
    pub(super) fn key_colon(&mut self) -> Option<Key<'a>> {
        if self.op_at(self.pos + 1) != ":" {
            return None;
        }
        let k = self.key()?;
        self.pos += 1;
        Some(k)
    }

    pub(super) fn key(&mut self) -> Option<Key<'a>> {
        let t = self.tok(self.pos)?;
        let k = if t.kind == Kind::Int { Key::Int(t) } else { Key::Name(self.name_at(self.pos)?) };
        self.pos += 1;
        Some(k)
    }
}
