//! Items.

use super::{Reader, R};
use crate::lex::{cook, Delim, Kind};
use crate::tree::*;

impl<'t, 'a> Reader<'t, 'a> {
    pub(super) fn vis(&mut self) -> R<Vis<'a>> {
        if !self.eat_kw("pub") {
            return Ok(Vis::None);
        }
        if !self.opens(self.pos, Delim::Paren) {
            return Ok(Vis::Pub);
        }
        if self.kw_at(self.pos + 1, "in") {
            return self.group(Delim::Paren, |s| {
                s.need_kw("in")?;
                Ok(Vis::In(s.path(Style::Simple)?))
            });
        }
        if self.partner[self.pos] as usize == self.pos + 2 {
            let v = if self.kw_at(self.pos + 1, "crate") {
                Vis::Crate
            } else if self.kw_at(self.pos + 1, "self") {
                Vis::Slf
            } else if self.kw_at(self.pos + 1, "super") {
                Vis::Super
            } else {
                return Ok(Vis::Pub);
            };
            self.pos += 3;
            return Ok(v);
        }
        Ok(Vis::Pub)
    }

    pub fn item(&mut self, site: Site) -> R<Item<'a>> {
        let attrs = self.outer_attrs()?;
        self.item_after(attrs, site)
    }

    pub(super) fn item_after(&mut self, attrs: Vec<Attr<'a>>, site: Site) -> R<Item<'a>> {
        self.deeper(|s| {
            let vis = s.vis()?;
            let kind = s.item_kind(site, vis == Vis::None)?;
            Ok(Item { attrs, vis, kind })
        })
    }

    pub(super) fn foreign_ahead(&self, p: usize) -> bool {
        self.opens(p, Delim::Brace) || (self.tok(p).map_or(false, |t| cook(&t).is_some()) && self.opens(p + 1, Delim::Brace))
    }

    pub(super) fn item_kind(&mut self, site: Site, plain: bool) -> R<ItemKind<'a>> {
        let module = site == Site::Module;
        let p = self.pos;
        let t = self.tok(p).ok_or(())?;
        let word = if t.kind == Kind::Ident { t.text } else { "" };
        match word {
            "extern" if module && self.kw_at(p + 1, "crate") => self.extern_crate(),
            "extern" if module && self.foreign_ahead(p + 1) => self.foreign(),
            "use" if module => {
                self.pos += 1;
                let u = self.use_tree()?;
                self.need_op(";")?;
                Ok(ItemKind::Import(u))
            }
            "mod" if module => {
                self.pos += 1;
                let name = self.name()?;
                if self.eat_op(";") {
                    return Ok(ItemKind::Module(name, None));
                }
                let b = self.item_body(Site::Module)?;
                Ok(ItemKind::Module(name, Some(b)))
            }
            "struct" if module => self.struct_(),
            "enum" if module => self.enum_(),
            "trait" if module => self.trait_(),
            "impl" if module => self.impl_(),
            "unsafe" if module && self.kw_at(p + 1, "trait") => self.trait_(),
            "unsafe" if module && self.kw_at(p + 1, "impl") => self.impl_(),
            "unsafe" if module && self.kw_at(p + 1, "extern") && self.foreign_ahead(p + 2) => self.foreign(),
            "type" => self.alias(site),
            "const" if site != Site::Foreign && !["fn", "async", "unsafe", "extern"].iter().any(|w| self.kw_at(p + 1, w)) => {
                self.pos += 1;
                let name = self.name_or()?;
                let (ty, v) = self.value_tail()?;
                if v.is_none() && site != Site::TraitMember {
                    return Err(());
                }
                Ok(ItemKind::Const(name, ty, v))
            }
            "static" if module || site == Site::Foreign => {
                self.pos += 1;
                let m = self.eat_kw("mut");
                let name = self.name()?;
                let (ty, v) = self.value_tail()?;
                if v.is_some() != module {
                    return Err(());
                }
                Ok(ItemKind::Static(m, name, ty, v))
            }
            "const" | "async" | "unsafe" | "extern" | "fn" => self.function(site),
            "safe" if site == Site::Foreign && (self.kw_at(p + 1, "fn") || self.kw_at(p + 1, "extern")) => self.function(site),
            "union" if module && self.name_at(p + 1).is_some() => {
                self.pos += 1;
                let name = self.name()?;
                let generics = self.generics()?;
                let wheres = self.wheres()?;
                Ok(ItemKind::Union(name, generics, wheres, self.fields()?))
            }
            "macro_rules" if module && plain && self.op_at(p + 1) == "!" && self.name_at(p + 2).is_some() => {
                self.pos += 2;
                let name = self.name()?;
                let brace = self.opens(self.pos, Delim::Brace);
                let g = self.group_tokens()?;
                if !brace {
                    self.need_op(";")?;
                }
                Ok(ItemKind::MacroRules(name, g))
            }
            _ => {
                if !plain || !self.call_ahead() {
                    return Err(());
                }
                let c = self.call()?;
                if !is_braced(&c) {
                    self.need_op(";")?;
                }
                Ok(ItemKind::Call(c))
            }
        }
    }

    pub(super) fn item_body(&mut self, site: Site) -> R<(Vec<Attr<'a>>, Vec<Item<'a>>)> {
        self.group(Delim::Brace, |s| {
            let attrs = s.inner_attrs()?;
            let mut items = Vec::new();
            while !s.done() {
                items.push(s.item(site)?);
            }
            Ok((attrs, items))
        })
    }

    pub(super) fn extern_crate(&mut self) -> R<ItemKind<'a>> {
        self.pos += 2;
        let name = if self.kw("self") { self.word()? } else { self.name()? };
        let rename = if self.eat_kw("as") { Some(self.name_or()?) } else { None };
        self.need_op(";")?;
        Ok(ItemKind::ExternCrate(name, rename))
    }

    pub(super) fn foreign(&mut self) -> R<ItemKind<'a>> {
        let unsafe_ = self.eat_kw("unsafe");
        self.need_kw("extern")?;
        let abi = self.abi_name();
        let (attrs, items) = self.item_body(Site::Foreign)?;
        Ok(ItemKind::Foreign { unsafe_, abi, attrs, items })
    }

    pub(super) fn use_tree(&mut self) -> R<UseTree<'a>> {
        self.deeper(|s| {
            let global = s.eat_op("::");
            let mut prefix = Vec::new();
            loop {
                if s.opens(s.pos, Delim::Brace) {
                    let l = s.group(Delim::Brace, |s| s.list(|s| s.use_tree()))?.0;
                    return Ok(UseTree { global, prefix, kind: UseKind::List(l) });
                }
                if s.eat_op("*") {
                    return Ok(UseTree { global, prefix, kind: UseKind::Glob });
                }
                let w = s.word()?;
                if s.eat_op("::") {
                    prefix.push(w);
                    continue;
                }
                let rename = if s.eat_kw("as") { Some(s.name_or()?) } else { None };
                return Ok(UseTree { global, prefix, kind: UseKind::Word(w, rename) });
            }
        })
    }

    pub(super) fn value_tail(&mut self) -> R<(Ty<'a>, Option<Expr<'a>>)> {
        self.need_op(":")?;
        let ty = self.ty(true)?;
        let v = if self.eat_op("=") { Some(self.expr(0, false, false)?) } else { None };
        self.need_op(";")?;
        Ok((ty, v))
    }

    pub(super) fn alias(&mut self, site: Site) -> R<ItemKind<'a>> {
        self.pos += 1;
        let name = self.name()?;
        let generics = self.generics()?;
        let bounds = if self.eat_op(":") { self.maybe_bounds()? } else { vec![] };
        let ty = if self.eat_op("=") { Some(self.ty(true)?) } else { None };
        let wheres = self.wheres()?;
        self.need_op(";")?;
        match site {
            Site::Module | Site::Member if ty.is_none() => return Err(()),
            Site::Foreign if ty.is_some() => return Err(()),
            _ => {}
        }
        Ok(ItemKind::Alias { name, generics, bounds, ty, wheres })
    }

    pub(super) fn fields(&mut self) -> R<Vec<Field<'a>>> {
        Ok(self
            .group(Delim::Brace, |s| {
                s.list(|s| {
                    let attrs = s.outer_attrs()?;
                    let vis = s.vis()?;
                    let name = s.name()?;
                    s.need_op(":")?;
                    Ok(Field { attrs, vis, name, ty: s.ty(true)? })
                })
            })?
            .0)
    }

    pub(super) fn tuple_fields(&mut self) -> R<Vec<TupleField<'a>>> {
        Ok(self
            .group(Delim::Paren, |s| {
                s.list(|s| {
                    let attrs = s.outer_attrs()?;
                    let vis = s.vis()?;
                    Ok(TupleField { attrs, vis, ty: s.ty(true)? })
                })
            })?
            .0)
    }

    pub(super) fn struct_(&mut self) -> R<ItemKind<'a>> {
        self.pos += 1;
        let name = self.name()?;
        let generics = self.generics()?;
        if self.opens(self.pos, Delim::Paren) {
            let f = self.tuple_fields()?;
            let wheres = self.wheres()?;
            self.need_op(";")?;
            return Ok(ItemKind::Struct(name, generics, wheres, Fields::Tuple(f)));
        }
        let wheres = self.wheres()?;
        if self.eat_op(";") {
            return Ok(ItemKind::Struct(name, generics, wheres, Fields::Unit));
        }
        let f = self.fields()?;
        Ok(ItemKind::Struct(name, generics, wheres, Fields::Named(f)))
    }

    pub(super) fn enum_(&mut self) -> R<ItemKind<'a>> {
        self.pos += 1;
        let name = self.name()?;
        let generics = self.generics()?;
        let wheres = self.wheres()?;
        let vs = self
            .group(Delim::Brace, |s| {
                s.list(|s| {
                    let attrs = s.outer_attrs()?;
                    let vis = s.vis()?;
                    let name = s.name()?;
                    let fields = if s.opens(s.pos, Delim::Paren) {
                        Fields::Tuple(s.tuple_fields()?)
                    } else if s.opens(s.pos, Delim::Brace) {
                        Fields::Named(s.fields()?)
                    } else {
                        Fields::Unit
                    };
                    let mut value = None;
                    if s.eat_op("=") {
                        let from = s.pos;
                        while !s.done() && s.op() != "," {
                            s.pos = s.partner[s.pos].max(s.pos as u32) as usize + 1;
                        }
                        if from == s.pos {
                            return Err(());
                        }
                        value = Some(s.toks[from..s.pos].to_vec());
                    }
                    Ok(Variant { attrs, vis, name, fields, value })
                })
            })?
            .0;
        Ok(ItemKind::Enum(name, generics, wheres, vs))
    }

    pub(super) fn trait_(&mut self) -> R<ItemKind<'a>> {
        let unsafe_ = self.eat_kw("unsafe");
        self.need_kw("trait")?;
        let name = self.name()?;
        let generics = self.generics()?;
        let bounds = if self.eat_op(":") { self.maybe_bounds()? } else { vec![] };
        let wheres = self.wheres()?;
        let (attrs, items) = self.item_body(Site::TraitMember)?;
        Ok(ItemKind::Trait { unsafe_, name, generics, bounds, wheres, attrs, items })
    }

    pub(super) fn impl_(&mut self) -> R<ItemKind<'a>> {
        let unsafe_ = self.eat_kw("unsafe");
        self.need_kw("impl")?;
        let generics = self.generics()?;
        if generics.params.is_empty() && self.char_at(self.pos, '<') {
            return Err(());
        }
        let mut of = None;
        let from = self.mark();
        if self.eat_char('!') {
            if self.path_ahead() {
                let p = self.path(Style::Kind)?;
                self.need_kw("for")?;
                of = Some((true, p));
            } else {
                self.back(from);
            }
        } else if self.path_ahead() && !self.call_ahead() {
            let p = self.path(Style::Kind)?;
            if self.eat_kw("for") {
                of = Some((false, p));
            } else {
                self.back(from);
            }
        }
        let ty = self.ty(true)?;
        let wheres = self.wheres()?;
        let (attrs, items) = self.item_body(Site::Member)?;
        Ok(ItemKind::Impl { unsafe_, generics, of, ty, wheres, attrs, items })
    }

    pub(super) fn function(&mut self, site: Site) -> R<ItemKind<'a>> {
        let const_ = self.eat_kw("const");
        let async_ = self.eat_kw("async");
        let safety = if self.eat_kw("unsafe") {
            Safety::Unsafe
        } else if site == Site::Foreign && self.eat_kw("safe") {
            Safety::Safe
        } else {
            Safety::None
        };
        let abi = self.abi()?;
        self.need_kw("fn")?;
        let name = self.name()?;
        let generics = self.generics()?;
        let params = self.group(Delim::Paren, |s| {
            let mut out = Vec::new();
            while !s.done() {
                let attrs = s.outer_attrs()?;
                let first = out.is_empty();
                let kind = s.fn_param(first)?;
                let last = matches!(kind, FnParamKind::Dots | FnParamKind::PatDots(_));
                out.push(FnParam { attrs, kind });
                if last {
                    break;
                }
                if !s.done() {
                    s.need_op(",")?;
                    if s.done() {
                        s.passed_free();
                    }
                }
            }
            Ok(out)
        })?;
        let ret = if self.eat_op("->") { Some(self.ty(true)?) } else { None };
        let wheres = self.wheres()?;
        let head = Box::new(FnHead { const_, async_, safety, abi, name, generics, params, ret });
        if self.eat_op(";") {
            if !matches!(site, Site::Foreign | Site::TraitMember) {
                return Err(());
            }
            return Ok(ItemKind::Function(head, wheres, None));
        }
        if site == Site::Foreign {
            return Err(());
        }
        let b = self.block()?;
        Ok(ItemKind::Function(head, wheres, Some(b)))
    }

    pub(super) fn fn_param(&mut self, first: bool) -> R<FnParamKind<'a>> {
        if self.eat_op("...") {
            return Ok(FnParamKind::Dots);
        }
        if first {
            let from = self.pos;
            // A receiver's `self` stands before `,` or the end, or before the `:` of its type.
            let slf = |s: &Self| s.kw("self") && (s.pos + 1 >= s.end || matches!(s.op_at(s.pos + 1), "," | ":"));
            if self.eat_char('&') {
                let l = self.lifetime();
                let m = self.eat_kw("mut");
                if slf(self) {
                    self.pos += 1;
                    return Ok(FnParamKind::RefSelf(l, m));
                }
                self.pos = from;
            }
            let m = self.eat_kw("mut");
            if slf(self) {
                self.pos += 1;
                let ty = if self.eat_op(":") { Some(self.ty(true)?) } else { None };
                return Ok(FnParamKind::OwnSelf(m, ty));
            }
            self.pos = from;
        }
        let pat = self.pat_no_alt()?;
        self.need_op(":")?;
        if self.eat_op("...") {
            return Ok(FnParamKind::PatDots(pat));
        }
        Ok(FnParamKind::Plain(pat, self.ty(true)?))
    }
}
