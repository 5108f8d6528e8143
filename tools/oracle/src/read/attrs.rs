//! Attributes and macro calls.

use super::{Reader, R};
use crate::lex::{cook, doc_form, Delim, DocForm, Kind};
use crate::tree::*;
use std::borrow::Cow;

impl<'t, 'a> Reader<'t, 'a> {
    pub(super) fn doc_token(&mut self, inner: bool) -> Option<Attr<'a>> {
        let t = self.tok(self.pos)?;
        match t.kind {
            Kind::Doc { inner: i, .. } if i == inner => {
                self.pos += 1;
                Some(Attr::Doc { inner, text: Cow::Borrowed(t.text) })
            }
            _ => None,
        }
    }

    pub fn inner_attr_ahead(&self) -> bool {
        matches!(self.kind(self.pos), Some(Kind::Doc { inner: true, .. }))
            || (self.char_at(self.pos, '#') && self.char_at(self.pos + 1, '!'))
    }

    pub fn inner_attr(&mut self) -> R<Attr<'a>> {
        if let Some(d) = self.doc_token(true) {
            return Ok(d);
        }
        self.need_char('#')?;
        self.need_char('!')?;
        self.meta(true)
    }

    pub(super) fn inner_attrs(&mut self) -> R<Vec<Attr<'a>>> {
        let mut out = Vec::new();
        while self.inner_attr_ahead() {
            out.push(self.inner_attr()?);
        }
        Ok(out)
    }

    pub(super) fn outer_attrs(&mut self) -> R<Vec<Attr<'a>>> {
        let mut out = Vec::new();
        loop {
            if let Some(d) = self.doc_token(false) {
                out.push(d);
                continue;
            }
            if !self.char_at(self.pos, '#') {
                return Ok(out);
            }
            self.pos += 1;
            out.push(self.meta(false)?);
        }
    }

    pub(super) fn meta(&mut self, inner: bool) -> R<Attr<'a>> {
        let from = self.pos - 1 - usize::from(inner);
        let attr = self.meta_group(inner)?;
        if let Attr::Doc { .. } = attr {
            self.docs.push((from, self.pos));
        }
        Ok(attr)
    }

    fn meta_group(&mut self, inner: bool) -> R<Attr<'a>> {
        self.group(Delim::Bracket, |s| {
            let path = if s.eat_kw("unsafe") { MetaPath::Unsafe } else { MetaPath::Path(s.path(Style::Simple)?) };
            if s.done() {
                return Ok(Attr::Meta { inner, path, input: Input::Bare });
            }
            if s.eat_op("=") {
                let v = s.rest_tokens()?;
                if let MetaPath::Path(p) = &path {
                    let w = &p.segments[0].word;
                    if !p.global && p.segments.len() == 1 && !w.raw && w.text == "doc" && v.len() == 1 {
                        if let Some(text) = cook(&v[0]) {
                            if doc_form(&text, inner) != DocForm::Neither {
                                return Ok(Attr::Doc { inner, text: Cow::Owned(text) });
                            }
                        }
                    }
                }
                return Ok(Attr::Meta { inner, path, input: Input::Value(v) });
            }
            let g = s.group_tokens()?;
            Ok(Attr::Meta { inner, path, input: Input::Group(g) })
        })
    }

    /// A Simple path and then the operator `!` stand at the front.
    pub(super) fn call_ahead(&self) -> bool {
        let mut p = self.pos;
        if self.op_at(p) == "::" {
            p += 2;
        }
        loop {
            if self.word_at(p).is_none() {
                return false;
            }
            p += 1;
            if self.op_at(p) == "::" {
                p += 2;
                continue;
            }
            return self.op_at(p) == "!";
        }
    }

    pub(super) fn call(&mut self) -> R<MacroCall<'a>> {
        let path = self.path(Style::Simple)?;
        self.need_op("!")?;
        let tokens = self.group_tokens()?;
        Ok(MacroCall { path, tokens })
    }
}
