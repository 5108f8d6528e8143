//! Items.

use super::Gen;
use crate::lex::Kind;
use crate::tree::*;

impl<'r> Gen<'r> {
    pub(super) fn vis(&mut self) -> Vis<'static> {
        match self.n(10) {
            0 => Vis::Pub,
            1 => Vis::Crate,
            2 => Vis::Slf,
            3 => Vis::Super,
            4 => Vis::In(self.path(Style::Simple)),
            _ => Vis::None,
        }
    }

    pub(super) fn tuple_fields(&mut self) -> Vec<TupleField<'static>> {
        self.many(0, 2, |g| {
            let attrs = g.attrs(8);
            let vis = g.vis();
            let ty = loop {
                let t = g.ty(true);
                let bad = vis == Vis::Pub && matches!(&t, Ty::Paren(t) if matches!(&**t, Ty::Path(p) if p.qself.is_none() && !p.global && p.segments.len() == 1
                    && p.segments[0].args == Args::None && !p.segments[0].word.raw && matches!(p.segments[0].word.text, "crate" | "self" | "super")));
                if !bad { break t; }
            };
            TupleField { attrs, vis, ty }
        })
    }

    pub(super) fn fields(&mut self) -> Vec<Field<'static>> {
        self.many(0, 2, |g| Field { attrs: g.attrs(6), vis: g.vis(), name: g.name(), ty: g.ty(true) })
    }

    pub fn item(&mut self) -> Item<'static> {
        let attrs = self.attrs(6);
        let mut vis = self.vis();
        let kind = match self.n(16) {
            0 => ItemKind::Const(self.maybe(3, 4, |g| g.name()), self.ty(true), Some(self.free())),
            1 => ItemKind::Static(self.yes(1, 3), self.name(), self.ty(true), Some(self.free())),
            2 => {
                let bounds = if self.yes(1, 3) { self.bounds(false) } else { vec![] };
                ItemKind::Alias {
                    name: self.name(),
                    generics: self.generics(),
                    bounds,
                    ty: Some(self.ty(true)),
                    wheres: self.wheres(),
                }
            }
            3 => {
                let f = match self.n(3) {
                    0 => Fields::Unit,
                    1 => Fields::Tuple(self.tuple_fields()),
                    _ => Fields::Named(self.fields()),
                };
                ItemKind::Struct(self.name(), self.generics(), self.wheres(), f)
            }
            4 => ItemKind::Union(self.name(), self.generics(), self.wheres(), self.fields()),
            5 => {
                let vs = self.many(0, 3, |g| {
                    let attrs = g.attrs(6);
                    let fields = match g.n(3) {
                        0 => Fields::Unit,
                        1 => Fields::Tuple(g.tuple_fields()),
                        _ => Fields::Named(g.fields()),
                    };
                    let value = g.maybe(1, 3, |g| loop {
                        let s = g.soup(4);
                        let mut d = 0;
                        let mut comma = false;
                        for t in &s {
                            match t.kind {
                                Kind::Opener(_) => d += 1,
                                Kind::Closer(_) => d -= 1,
                                _ => {
                                    if d == 0 && t.kind == Kind::Punct && t.text == "," {
                                        comma = true;
                                    }
                                }
                            }
                        }
                        if !comma {
                            break s;
                        }
                    });
                    Variant { attrs, vis: g.vis(), name: g.name(), fields, value }
                });
                ItemKind::Enum(self.name(), self.generics(), self.wheres(), vs)
            }
            6 => {
                vis = Vis::None;
                ItemKind::Call(self.call())
            }
            7 => {
                vis = Vis::None;
                ItemKind::MacroRules(self.name(), self.group())
            }
            8 if self.fuel > 0 => {
                let generics = self.generics();
                let bounds = if self.yes(1, 3) { self.bounds(false) } else { vec![] };
                ItemKind::Trait {
                    unsafe_: self.yes(1, 4),
                    name: self.name(),
                    generics,
                    bounds,
                    wheres: self.wheres(),
                    attrs: if self.yes(1, 6) { vec![self.attr(true)] } else { vec![] },
                    items: self.many(0, 2, |g| g.member(Site::TraitMember)),
                }
            }
            9 if self.fuel > 0 => {
                let generics = self.generics();
                let some = !generics.params.is_empty();
                let of = self.maybe(1, 2, |g| loop {
                    let p = g.path(Style::Kind);
                    let neg = g.yes(1, 4);
                    if some || neg || p.qself.is_none() {
                        break (neg, p);
                    }
                });
                let ty = loop {
                    let t = self.ty(true);
                    let lt = matches!(&t, Ty::Path(p) if p.qself.is_some());
                    if !(lt && of.is_none() && generics.params.is_empty()) {
                        break t;
                    }
                };
                ItemKind::Impl {
                    unsafe_: self.yes(1, 4),
                    generics,
                    of,
                    ty,
                    wheres: self.wheres(),
                    attrs: if self.yes(1, 6) { vec![self.attr(true)] } else { vec![] },
                    items: self.many(0, 2, |g| g.member(Site::Member)),
                }
            }
            10 => {
                fn tree(g: &mut Gen<'_>) -> UseTree<'static> {
                    let k = match g.n(4) {
                        0 => UseKind::Glob,
                        1 if !g.low() => UseKind::List(g.many(0, 2, tree)),
                        _ => {
                            let w = g.word();
                            UseKind::Word(w, g.maybe(1, 3, |g| g.maybe(2, 3, |g| g.name())))
                        }
                    };
                    UseTree { global: g.yes(1, 6), prefix: g.many(0, 2, |g| g.word()), kind: k }
                }
                ItemKind::Import(tree(self))
            }
            11 => {
                let n = if self.yes(1, 4) { Word { raw: false, text: "self" } } else { self.name() };
                ItemKind::ExternCrate(n, self.maybe(1, 2, |g| g.maybe(1, 2, |g| g.name())))
            }
            12 if self.fuel > 0 => {
                let attrs = if self.yes(1, 6) { vec![self.attr(true)] } else { vec![] };
                ItemKind::Foreign {
                    unsafe_: self.yes(1, 2),
                    abi: self.maybe(1, 2, |g| *g.r.pick(&["\"C\"", "r#\"C\"#"])),
                    attrs,
                    items: self.many(0, 3, |g| g.member(Site::Foreign)),
                }
            }
            13 if self.fuel > 0 => {
                let b = self.maybe(4, 5, |g| (if g.yes(1, 4) { vec![g.attr(true)] } else { vec![] }, g.many(0, 2, |g| g.item())));
                ItemKind::Module(self.name(), b)
            }
            _ => self.function(Site::Module),
        };
        Item { attrs, vis, kind }
    }

    pub(super) fn function(&mut self, site: Site) -> ItemKind<'static> {
        let mut params = self.many(0, 2, |g| FnParam {
            attrs: g.attrs(10),
            kind: {
                let p = g.pat(false);
                FnParamKind::Plain(p, g.ty(true))
            },
        });
        if self.yes(1, 4) {
            let kind = match self.n(3) {
                0 => FnParamKind::RefSelf(self.maybe(1, 2, |g| g.life()), self.yes(1, 2)),
                _ => FnParamKind::OwnSelf(self.yes(1, 2), self.maybe(1, 2, |g| g.ty(true))),
            };
            params.insert(0, FnParam { attrs: self.attrs(6), kind });
        }
        if self.yes(1, 8) {
            let kind = if self.yes(1, 2) { FnParamKind::Dots } else { FnParamKind::PatDots(self.pat(false)) };
            params.push(FnParam { attrs: self.attrs(6), kind });
        }
        let safety = match self.n(8) {
            0 => Safety::Unsafe,
            1 if site == Site::Foreign => Safety::Safe,
            _ => Safety::None,
        };
        let head = FnHead {
            const_: self.yes(1, 6),
            async_: self.yes(1, 6),
            safety,
            abi: self.maybe(1, 6, |g| Abi { name: g.maybe(1, 2, |_| "\"C\"") }),
            name: self.name(),
            generics: self.generics(),
            params,
            ret: self.maybe(1, 2, |g| g.ty(true)),
        };
        let w = self.wheres();
        let body = match site {
            Site::Foreign => None,
            Site::TraitMember => self.maybe(1, 2, |g| g.block()),
            _ => Some(self.block()),
        };
        ItemKind::Function(Box::new(head), w, body)
    }

    pub(super) fn member(&mut self, site: Site) -> Item<'static> {
        let attrs = self.attrs(6);
        let mut vis = self.vis();
        let foreign = site == Site::Foreign;
        let kind = match self.n(5) {
            0 if foreign => ItemKind::Static(self.yes(1, 2), self.name(), self.ty(true), None),
            0 => {
                let n = self.maybe(3, 4, |g| g.name());
                let t = self.ty(true);
                let v = if site == Site::Member { Some(self.free()) } else { self.maybe(1, 2, |g| g.free()) };
                ItemKind::Const(n, t, v)
            }
            1 => {
                let bounds = if self.yes(1, 3) { self.bounds(false) } else { vec![] };
                let ty = match site {
                    Site::Foreign => None,
                    Site::Member => Some(self.ty(true)),
                    _ => self.maybe(1, 2, |g| g.ty(true)),
                };
                ItemKind::Alias { name: self.name(), generics: self.generics(), bounds, ty, wheres: self.wheres() }
            }
            2 => {
                vis = Vis::None;
                ItemKind::Call(self.call())
            }
            _ => self.function(site),
        };
        Item { attrs, vis, kind }
    }
}
