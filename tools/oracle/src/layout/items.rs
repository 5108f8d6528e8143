//! Items.

use super::{Out, N};
use crate::lex::{Delim, Kind};
use crate::tree::*;

impl<'t> Out<'t> {
    pub(super) fn vis(&mut self, v: &'t Vis<'_>) {
        match v {
            Vis::None => {}
            Vis::Pub => self.text("pub "),
            Vis::Crate => self.text("pub(crate) "),
            Vis::Slf => self.text("pub(self) "),
            Vis::Super => self.text("pub(super) "),
            Vis::In(p) => {
                self.text("pub(in ");
                self.path(p, Style::Simple);
                self.text(") ");
            }
        }
    }

    pub(super) fn item(&mut self, i: &'t Item<'_>) {
        self.attrs(&i.attrs);
        match &i.kind {
            ItemKind::MacroRules(name, g) => {
                self.text("macro_rules! ");
                self.word(name);
                let brace = matches!(g[0].kind, Kind::Opener(Delim::Brace));
                if brace {
                    self.text(" ");
                }
                self.tokens(g);
                if !brace {
                    self.text(";");
                }
                return;
            }
            ItemKind::Call(c) => {
                self.call(c);
                if !is_braced(c) {
                    self.text(";");
                }
                return;
            }
            _ => {}
        }
        self.i0();
        self.vis(&i.vis);
        match &i.kind {
            ItemKind::ExternCrate(n, r) => {
                self.text("extern crate ");
                self.word(n);
                if let Some(r) = r {
                    self.text(" as ");
                    self.name_or(r);
                }
                self.end();
                self.text(";");
            }
            ItemKind::Import(u) => {
                self.text("use ");
                self.use_tree(u);
                self.end();
                self.text(";");
            }
            ItemKind::Module(n, b) => {
                self.text("mod ");
                self.word(n);
                self.end();
                match b {
                    None => self.text(";"),
                    Some((a, l)) => self.item_body(true, a, l),
                }
            }
            ItemKind::Function(h, w, b) => {
                self.fn_head(h);
                self.end();
                self.wheres(w, b.is_some());
                match b {
                    None => self.text(";"),
                    Some(b) => self.block(b, w.is_empty()),
                }
            }
            ItemKind::Alias { name, generics, bounds, ty, wheres } => {
                self.text("type ");
                self.word(name);
                self.generics(generics);
                self.colon_bounds(bounds);
                if let Some(t) = ty {
                    self.text(" = ");
                    self.ty(t);
                }
                self.end();
                self.wheres(wheres, false);
                self.text(";");
            }
            ItemKind::Struct(n, g, w, f) => {
                self.text("struct ");
                self.word(n);
                self.generics(g);
                match f {
                    Fields::Unit => {
                        self.end();
                        self.wheres(w, false);
                        self.text(";");
                    }
                    Fields::Tuple(l) => {
                        self.tuple_fields(l);
                        self.end();
                        self.wheres(w, false);
                        self.text(";");
                    }
                    Fields::Named(l) => {
                        self.end();
                        self.wheres(w, true);
                        self.fields(l, w.is_empty());
                    }
                }
            }
            ItemKind::Union(n, g, w, l) => {
                self.text("union ");
                self.word(n);
                self.generics(g);
                self.end();
                self.wheres(w, true);
                self.fields(l, w.is_empty());
            }
            ItemKind::Enum(n, g, w, vs) => {
                self.text("enum ");
                self.word(n);
                self.generics(g);
                self.end();
                self.wheres(w, true);
                self.body(w.is_empty(), vs.len(), |s, i| {
                    let v = &vs[i];
                    s.attrs(&v.attrs);
                    s.vis(&v.vis);
                    s.word(&v.name);
                    match &v.fields {
                        Fields::Unit => {}
                        Fields::Tuple(l) => s.tuple_fields(l),
                        Fields::Named(l) => s.fields(l, true),
                    }
                    if let Some(t) = &v.value {
                        s.text(" = ");
                        s.tok(t);
                    }
                    if i + 1 < vs.len() || !s.odd() {
                        s.text(",");
                    }
                });
            }
            ItemKind::Const(n, t, v) => {
                self.text("const ");
                self.name_or(n);
                self.value_tail(t, v);
            }
            ItemKind::Static(m, n, t, v) => {
                self.text("static ");
                if *m {
                    self.text("mut ");
                }
                self.word(n);
                self.value_tail(t, v);
            }
            ItemKind::Trait { unsafe_, name, generics, bounds, wheres, attrs, items } => {
                if *unsafe_ {
                    self.text("unsafe ");
                }
                self.text("trait ");
                self.word(name);
                self.generics(generics);
                self.colon_bounds(bounds);
                self.end();
                self.wheres(wheres, true);
                self.item_body(wheres.is_empty(), attrs, items);
            }
            ItemKind::Impl { unsafe_, generics, of, ty, wheres, attrs, items } => {
                if *unsafe_ {
                    self.text("unsafe ");
                }
                self.text("impl");
                self.generics(generics);
                self.text(" ");
                if let Some((neg, p)) = of {
                    if *neg {
                        self.text("!");
                    }
                    self.path(p, Style::Kind);
                    self.text(" for ");
                }
                self.ty(ty);
                self.end();
                self.wheres(wheres, true);
                self.item_body(wheres.is_empty(), attrs, items);
            }
            ItemKind::Foreign { unsafe_, abi, attrs, items } => {
                if *unsafe_ {
                    self.text("unsafe ");
                }
                self.text("extern");
                if let Some(n) = abi {
                    self.text(" ");
                    self.text(n);
                }
                self.end();
                self.item_body(true, attrs, items);
            }
            ItemKind::MacroRules(..) | ItemKind::Call(_) => unreachable!(),
        }
    }

    pub(super) fn value_tail(&mut self, t: &'t Ty<'_>, v: &'t Option<Expr<'_>>) {
        self.text(": ");
        self.ty(t);
        if let Some(e) = v {
            self.text(" = ");
            self.brk(N);
            self.expr(e);
        }
        self.end();
        self.text(";");
    }

    pub(super) fn item_body(&mut self, lead: bool, attrs: &'t [Attr<'_>], items: &'t [Item<'_>]) {
        self.body(lead, attrs.len() + items.len(), |s, i| {
            if i < attrs.len() {
                s.attr(&attrs[i])
            } else {
                s.item(&items[i - attrs.len()])
            }
        });
    }

    pub(super) fn fields(&mut self, l: &'t [Field<'_>], lead: bool) {
        self.body(lead, l.len(), |s, i| {
            let f = &l[i];
            s.attrs(&f.attrs);
            s.vis(&f.vis);
            s.word(&f.name);
            s.text(": ");
            s.ty(&f.ty);
            if i + 1 < l.len() || !s.odd() {
                s.text(",");
            }
        });
    }

    pub(super) fn tuple_fields(&mut self, l: &'t [TupleField<'_>]) {
        self.list("()", l, |s, f| {
            s.attrs(&f.attrs);
            s.vis(&f.vis);
            s.ty(&f.ty);
        });
    }

    pub(super) fn use_tree(&mut self, u: &'t UseTree<'_>) {
        if u.global {
            self.text("::");
        }
        for w in &u.prefix {
            self.word(w);
            self.text("::");
        }
        match &u.kind {
            UseKind::Glob => self.text("*"),
            UseKind::Word(w, r) => {
                self.word(w);
                if let Some(r) = r {
                    self.text(" as ");
                    self.name_or(r);
                }
            }
            UseKind::List(l) => self.list("{}", l, |s, u| s.use_tree(u)),
        }
    }

    pub(super) fn fn_head(&mut self, h: &'t FnHead<'_>) {
        if h.const_ {
            self.text("const ");
        }
        if h.async_ {
            self.text("async ");
        }
        match h.safety {
            Safety::None => {}
            Safety::Unsafe => self.text("unsafe "),
            Safety::Safe => self.text("safe "),
        }
        self.abi(&h.abi);
        self.text("fn ");
        self.word(&h.name);
        self.generics(&h.generics);
        let open = matches!(h.params.last(), Some(FnParam { kind: FnParamKind::Dots | FnParamKind::PatDots(_), .. }));
        self.params(&h.params, false, open, |s, p| {
            s.attrs_inline(&p.attrs);
            match &p.kind {
                FnParamKind::Plain(p, t) => {
                    s.pat(p);
                    s.text(": ");
                    s.ty(t);
                }
                FnParamKind::RefSelf(l, m) => {
                    s.text("&");
                    if let Some(l) = l {
                        s.text(l);
                        s.text(" ");
                    }
                    if *m {
                        s.text("mut ");
                    }
                    s.text("self");
                }
                FnParamKind::OwnSelf(m, t) => {
                    if *m {
                        s.text("mut ");
                    }
                    s.text("self");
                    if let Some(t) = t {
                        s.text(": ");
                        s.ty(t);
                    }
                }
                FnParamKind::Dots => s.text("..."),
                FnParamKind::PatDots(p) => {
                    s.pat(p);
                    s.text(": ...");
                }
            }
        });
        self.ret(&h.ret);
    }
}
