//! Paths, types and generics.

use super::{Reader, R};
use crate::lex::{cook, Delim, Kind};
use crate::tree::*;

impl<'t, 'a> Reader<'t, 'a> {
    pub(super) fn path_ahead(&self) -> bool {
        self.word_at(self.pos).is_some() || self.op() == "::" || self.char_at(self.pos, '<')
    }

    pub(super) fn path(&mut self, style: Style) -> R<Path<'a>> {
        let mut qself = None;
        let mut global = false;
        if style != Style::Simple && self.eat_char('<') {
            let ty = self.ty(true)?;
            let of = if self.eat_kw("as") { Some(self.deeper(|s| s.path(Style::Kind))?) } else { None };
            self.need_char('>')?;
            self.need_op("::")?;
            qself = Some(Box::new(QSelf { ty, of }));
        } else {
            global = self.eat_op("::");
        }
        let mut segments = Vec::new();
        loop {
            let word = self.word()?;
            let mut args = Args::None;
            let mut more = false;
            if style == Style::Kind {
                if matches!(self.op(), "<" | "<<" | "<-") {
                    args = Args::Angle(self.angle(|s| s.arg())?);
                } else if self.opens(self.pos, Delim::Paren) {
                    args = self.round()?;
                }
            }
            if self.op() == "::" {
                self.pos += 2;
                let open = match style {
                    Style::Simple => false,
                    Style::Code => self.char_at(self.pos, '<'),
                    Style::Kind => matches!(self.op(), "<" | "<<" | "<-"),
                };
                if open {
                    if args != Args::None {
                        return Err(());
                    }
                    if style == Style::Kind {
                        self.free.extend([self.pos - 2, self.pos - 1]);
                    }
                    args = Args::Angle(self.angle(|s| s.arg())?);
                    if self.eat_op("::") {
                        more = true;
                    }
                } else {
                    more = true;
                }
            }
            if more && matches!(args, Args::Round(_, Some(_))) {
                return Err(());
            }
            segments.push(Segment { word, args });
            if !more {
                return Ok(Path { qself, global, segments });
            }
        }
    }

    pub(super) fn round(&mut self) -> R<Args<'a>> {
        let tys = self.group(Delim::Paren, |s| s.list(|s| s.ty(true)))?.0;
        let ret = if self.eat_op("->") { Some(Box::new(self.ty(false)?)) } else { None };
        Ok(Args::Round(tys, ret))
    }

    /// The tokens of a Lit, of `-` and a number, or of one brace group, where they stand ahead.
    pub(super) fn const_arg(&mut self) -> Option<Tokens<'a>> {
        if let Some(t) = self.lit_at(self.pos) {
            self.pos += 1;
            return Some(vec![t]);
        }
        if self.char_at(self.pos, '-') && self.is_number(self.pos + 1) {
            self.pos += 2;
            return Some(vec![self.toks[self.pos - 2], self.toks[self.pos - 1]]);
        }
        if self.opens(self.pos, Delim::Brace) {
            return self.group_tokens().ok();
        }
        None
    }

    pub(super) fn arg(&mut self) -> R<Arg<'a>> {
        self.deeper(|s| {
            if let Some(l) = s.lifetime() {
                return Ok(Arg::Lifetime(l));
            }
            if let Some(c) = s.const_arg() {
                return Ok(Arg::Const(c));
            }
            let named = s.name_at(s.pos).is_some();
            let ty = s.ty(true)?;
            let op = s.op();
            if op != "=" && op != ":" {
                return Ok(Arg::Type(ty));
            }
            let (word, args) = match ty {
                Ty::Path(mut p) if named && p.segments.len() == 1 && !matches!(p.segments[0].args, Args::Round(..)) => {
                    let g = p.segments.pop().unwrap();
                    (g.word, g.args)
                }
                _ => return Err(()),
            };
            if s.eat_op("=") {
                if let Some(c) = s.const_arg() {
                    return Ok(Arg::EqualConst(word, args, c));
                }
                return Ok(Arg::EqualType(word, args, s.ty(true)?));
            }
            s.need_op(":")?;
            Ok(Arg::Limit(word, args, s.bounds(false)?))
        })
    }

    pub(super) fn bound_ahead(&self) -> bool {
        self.is_lifetime(self.pos)
            || self.opens(self.pos, Delim::Paren)
            || self.op() == "?"
            || self.kw("for")
            || self.path_ahead()
            || self.kw("use")
    }

    pub(super) fn bounds(&mut self, single: bool) -> R<Bounds<'a>> {
        let mut out = vec![self.bound()?];
        while !single && self.eat_op("+") {
            out.push(self.bound()?);
        }
        Ok(out)
    }

    /// After a `:` that may stand before nothing.
    pub(super) fn maybe_bounds(&mut self) -> R<Bounds<'a>> {
        if self.bound_ahead() {
            self.bounds(false)
        } else {
            self.passed_free();
            Ok(vec![])
        }
    }

    pub(super) fn bound(&mut self) -> R<Bound<'a>> {
        if let Some(l) = self.lifetime() {
            return Ok(Bound::Lifetime(l));
        }
        if self.eat_kw("use") {
            return Ok(Bound::Captures(self.angle(|s| {
                if let Some(l) = s.lifetime() {
                    return Ok(Capture::Lifetime(l));
                }
                let w = s.word()?;
                if !w.raw && matches!(w.text, "self" | "crate" | "super") {
                    return Err(());
                }
                Ok(Capture::Word(w))
            })?));
        }
        if self.opens(self.pos, Delim::Paren) {
            return self.group(Delim::Paren, |s| s.trait_bound(true));
        }
        self.trait_bound(false)
    }

    pub(super) fn trait_bound(&mut self, paren: bool) -> R<Bound<'a>> {
        let maybe = self.eat_op("?");
        let binder = if self.kw("for") { Some(self.binder()?) } else { None };
        let path = self.path(Style::Kind)?;
        Ok(Bound::Trait { paren, maybe, binder, path })
    }

    pub(super) fn binder(&mut self) -> R<Binder<'a>> {
        self.need_kw("for")?;
        self.angle(|s| {
            let attrs = s.outer_attrs()?;
            s.life_param(attrs)
        })
    }

    pub(super) fn life_param(&mut self, attrs: Vec<Attr<'a>>) -> R<LifeParam<'a>> {
        let name = self.lifetime().ok_or(())?;
        let bounds = if self.eat_op(":") { self.life_bounds()? } else { vec![] };
        if bounds.is_empty() && self.char_at(self.pos - 1, ':') {
            self.passed_free();
        }
        Ok(LifeParam { attrs, name, bounds })
    }

    pub(super) fn life_bounds(&mut self) -> R<Vec<&'a str>> {
        let mut out = Vec::new();
        if let Some(l) = self.lifetime() {
            out.push(l);
            while self.eat_op("+") {
                out.push(self.lifetime().ok_or(())?);
            }
        }
        Ok(out)
    }

    pub fn ty(&mut self, bounds: bool) -> R<Ty<'a>> {
        self.deeper(|s| s.ty_in(bounds))
    }

    pub(super) fn ty_in(&mut self, bounds: bool) -> R<Ty<'a>> {
        if self.kind(self.pos) == Some(Kind::Underscore) {
            self.pos += 1;
            return Ok(Ty::Infer);
        }
        if self.opens(self.pos, Delim::Paren) {
            let (mut l, comma) = self.group(Delim::Paren, |s| s.list(|s| s.ty(true)))?;
            if l.len() == 1 && !comma {
                return Ok(Ty::Paren(Box::new(l.pop().unwrap())));
            }
            if l.len() == 1 {
                self.keep_comma();
            }
            return Ok(Ty::Tuple(l));
        }
        if self.opens(self.pos, Delim::Bracket) {
            return self.group(Delim::Bracket, |s| {
                let t = Box::new(s.ty(true)?);
                if s.done() {
                    return Ok(Ty::Slice(t));
                }
                s.need_op(";")?;
                Ok(Ty::Array(t, s.rest_tokens()?))
            });
        }
        if self.eat_char('!') {
            return Ok(Ty::Never);
        }
        if self.eat_char('*') {
            let m = if self.eat_kw("mut") {
                true
            } else {
                self.need_kw("const")?;
                false
            };
            return Ok(Ty::Ptr(m, Box::new(self.ty(false)?)));
        }
        if self.eat_char('&') {
            let l = self.lifetime();
            let m = self.eat_kw("mut");
            return Ok(Ty::Ref(l, m, Box::new(self.ty(false)?)));
        }
        if self.eat_kw("impl") {
            return Ok(Ty::Impl(self.bounds(!bounds)?));
        }
        if self.eat_kw("dyn") {
            return Ok(Ty::Dyn(self.bounds(!bounds)?));
        }
        if self.kw("for") || self.kw("unsafe") || self.kw("extern") || self.kw("fn") {
            return self.func();
        }
        if self.call_ahead() {
            return Ok(Ty::Call(self.call()?));
        }
        let p = self.path(Style::Kind)?;
        Ok(Ty::Path(p))
    }

    pub(super) fn abi(&mut self) -> R<Option<Abi<'a>>> {
        if !self.eat_kw("extern") {
            return Ok(None);
        }
        Ok(Some(Abi { name: self.abi_name() }))
    }

    pub(super) fn abi_name(&mut self) -> Option<&'a str> {
        let t = self.tok(self.pos)?;
        if cook(&t).is_some() {
            self.pos += 1;
            Some(t.text)
        } else {
            None
        }
    }

    pub(super) fn func(&mut self) -> R<Ty<'a>> {
        let binder = if self.kw("for") { Some(self.binder()?) } else { None };
        let unsafe_ = self.eat_kw("unsafe");
        let abi = self.abi()?;
        self.need_kw("fn")?;
        let mut variadic = false;
        let params = self.group(Delim::Paren, |s| {
            let mut out = Vec::new();
            while !s.done() {
                if s.eat_op("...") {
                    variadic = true;
                    break;
                }
                let attrs = s.outer_attrs()?;
                let mut name = None;
                let named = s.name_at(s.pos).is_some() || s.kind(s.pos) == Some(Kind::Underscore);
                if named && s.op_at(s.pos + 1) == ":" {
                    name = Some(s.name_or()?);
                    s.need_op(":")?;
                }
                out.push(FuncParam { attrs, name, ty: s.ty(true)? });
                if !s.done() {
                    s.need_op(",")?;
                    if s.done() {
                        s.passed_free();
                    }
                }
            }
            Ok(out)
        })?;
        let ret = if self.eat_op("->") { Some(self.ty(false)?) } else { None };
        Ok(Ty::Func(Box::new(Func { binder, unsafe_, abi, params, variadic, ret })))
    }

    pub(super) fn generics(&mut self) -> R<Generics<'a>> {
        if !self.char_at(self.pos, '<') {
            return Ok(Generics::default());
        }
        let params = self.angle(|s| s.param())?;
        if params.is_empty() {
            self.free.extend([self.pos - 2, self.pos - 1]);
        }
        Ok(Generics { params })
    }

    pub(super) fn param(&mut self) -> R<Param<'a>> {
        let attrs = self.outer_attrs()?;
        if self.is_lifetime(self.pos) {
            return Ok(Param::Life(self.life_param(attrs)?));
        }
        if self.eat_kw("const") {
            let name = self.name()?;
            self.need_op(":")?;
            let ty = self.ty(true)?;
            let mut default = None;
            if self.eat_op("=") {
                default = Some(match self.const_arg() {
                    Some(c) => c,
                    None => {
                        self.name()?;
                        vec![self.toks[self.pos - 1]]
                    }
                });
            }
            return Ok(Param::Const { attrs, name, ty, default });
        }
        let name = self.name()?;
        let bounds = if self.eat_op(":") { self.maybe_bounds()? } else { vec![] };
        let default = if self.eat_op("=") { Some(self.ty(true)?) } else { None };
        Ok(Param::Type { attrs, name, bounds, default })
    }

    pub(super) fn wheres(&mut self) -> R<Wheres<'a>> {
        let mut out = Vec::new();
        if !self.eat_kw("where") {
            return Ok(out);
        }
        let end = |s: &Self| s.done() || s.opens(s.pos, Delim::Brace) || s.op() == ";";
        if end(self) {
            self.passed_free();
        }
        while !end(self) {
            if let Some(l) = self.lifetime() {
                self.need_op(":")?;
                out.push(Pred::Life(l, self.life_bounds()?));
            } else {
                let binder = if self.kw("for") { Some(self.binder()?) } else { None };
                let ty = self.ty(true)?;
                self.need_op(":")?;
                let bounds = if self.bound_ahead() { self.bounds(false)? } else { vec![] };
                out.push(Pred::Type(binder, ty, bounds));
            }
            if !self.eat_op(",") {
                break;
            }
            if end(self) {
                self.passed_free();
            }
        }
        Ok(out)
    }
}
