//! Paths, types and generics.

use super::{tok, Gen};
use crate::lex::{Kind, Token};
use crate::tree::*;

impl<'r> Gen<'r> {
    pub(super) fn path(&mut self, style: Style) -> Path<'static> {
        let qself = if style != Style::Simple && self.yes(1, 12) {
            let ty = self.ty(true);
            let of = self.maybe(1, 2, |g| g.path(Style::Kind));
            Some(Box::new(QSelf { ty, of }))
        } else {
            None
        };
        let global = qself.is_none() && self.yes(1, 12);
        let k = if self.yes(1, 2) { 0 } else { 2 };
        let mut segments = self.many(1, k, |g| {
            let word = g.word();
            let args = if style == Style::Simple || !g.yes(1, 4) { Args::None } else { g.args(style) };
            Segment { word, args }
        });
        // A return type stands on the last segment alone.
        let last = segments.len() - 1;
        for s in &mut segments[..last] {
            if let Args::Round(_, r) = &mut s.args {
                *r = None;
            }
        }
        Path { qself, global, segments }
    }

    pub(super) fn args(&mut self, style: Style) -> Args<'static> {
        if style == Style::Kind && self.yes(1, 4) {
            let l = self.many(0, 2, |g| g.ty(true));
            let r = self.maybe(1, 2, |g| Box::new(g.ty(false)));
            return Args::Round(l, r);
        }
        Args::Angle(self.many(0, 2, |g| g.arg()))
    }

    pub(super) fn const_arg(&mut self) -> Tokens<'static> {
        match self.n(3) {
            0 => vec![Token { joint: false, ..tok(Kind::Punct, "-") }, self.number()],
            1 => loop {
                let g = self.group();
                if g[0].text == "{" {
                    return g;
                }
            },
            _ => vec![self.lit()],
        }
    }

    pub(super) fn arg(&mut self) -> Arg<'static> {
        match self.n(8) {
            0 => Arg::Lifetime(self.life()),
            1 => Arg::Const(self.const_arg()),
            2 => {
                let w = self.name();
                let a = self.eq_args();
                Arg::EqualType(w, a, self.ty(true))
            }
            3 => {
                let w = self.name();
                let a = self.eq_args();
                Arg::EqualConst(w, a, self.const_arg())
            }
            4 => {
                let w = self.name();
                let a = self.eq_args();
                Arg::Limit(w, a, self.bounds(false))
            }
            _ => Arg::Type(self.ty(true)),
        }
    }

    pub(super) fn eq_args(&mut self) -> Args<'static> {
        if self.yes(1, 4) {
            Args::Angle(self.many(0, 1, |g| g.arg()))
        } else {
            Args::None
        }
    }

    pub(super) fn bounds(&mut self, single: bool) -> Bounds<'static> {
        let k = if single { 0 } else { 2 };
        self.many(1, k, |g| g.bound())
    }

    pub(super) fn bound(&mut self) -> Bound<'static> {
        match self.n(6) {
            0 => Bound::Lifetime(self.life()),
            1 => Bound::Captures(self.many(0, 2, |g| match g.n(3) {
                0 => Capture::Lifetime(g.life()),
                1 => Capture::Word(Word { raw: false, text: "Self" }),
                _ => Capture::Word(g.name()),
            })),
            _ => {
                let binder = self.maybe(1, 8, |g| g.binder());
                Bound::Trait { paren: self.yes(1, 4), maybe: self.yes(1, 6), binder, path: self.path(Style::Kind) }
            }
        }
    }

    pub(super) fn life_param(&mut self) -> LifeParam<'static> {
        let attrs = self.attrs(10);
        LifeParam { attrs, name: self.life(), bounds: if self.yes(1, 4) { self.many(1, 1, |g| g.life()) } else { vec![] } }
    }

    pub(super) fn binder(&mut self) -> Binder<'static> {
        self.many(0, 2, |g| g.life_param())
    }

    pub(super) fn ty(&mut self, bounds: bool) -> Ty<'static> {
        if self.low() {
            return Ty::Path(Path {
                qself: None,
                global: false,
                segments: vec![Segment { word: self.word(), args: Args::None }],
            });
        }
        match self.n(22) {
            0 => Ty::Call(self.call()),
            1 => Ty::Paren(Box::new(self.ty(true))),
            2 => Ty::Tuple(self.many(0, 3, |g| g.ty(true))),
            3 => Ty::Never,
            4 => Ty::Infer,
            5 => Ty::Ptr(self.yes(1, 2), Box::new(self.ty(false))),
            6 | 7 => {
                let l = self.maybe(1, 3, |g| g.life());
                Ty::Ref(l, self.yes(1, 3), Box::new(self.ty(false)))
            }
            8 => Ty::Slice(Box::new(self.ty(true))),
            9 => Ty::Array(Box::new(self.ty(true)), self.soup(4)),
            10 | 11 => {
                let binder = self.maybe(1, 5, |g| g.binder());
                let abi = self.maybe(1, 5, |g| Abi { name: g.maybe(1, 2, |g| *g.r.pick(&["\"C\"", "r\"x\""])) });
                let params = self.many(0, 2, |g| FuncParam {
                    attrs: g.attrs(10),
                    name: g.maybe(1, 3, |g| g.maybe(2, 3, |g| g.name())),
                    ty: g.ty(true),
                });
                let ret = self.maybe(1, 2, |g| g.ty(false));
                Ty::Func(Box::new(Func { binder, unsafe_: self.yes(1, 4), abi, params, variadic: self.yes(1, 6), ret }))
            }
            12 => Ty::Impl(self.bounds(!bounds)),
            13 => Ty::Dyn(self.bounds(!bounds)),
            _ => Ty::Path(self.path(Style::Kind)),
        }
    }

    pub(super) fn generics(&mut self) -> Generics<'static> {
        if !self.yes(1, 4) {
            return Generics::default();
        }
        Generics {
            params: self.many(1, 2, |g| match g.n(3) {
                0 => Param::Life(g.life_param()),
                1 => {
                    let attrs = g.attrs(10);
                    let default = g.maybe(1, 2, |g| {
                        if g.yes(1, 3) {
                            let w = g.name();
                            vec![tok(if w.raw { Kind::RawIdent } else { Kind::Ident }, w.text)]
                        } else {
                            g.const_arg()
                        }
                    });
                    Param::Const { attrs, name: g.name(), ty: g.ty(true), default }
                }
                _ => {
                    let attrs = g.attrs(10);
                    let bounds = if g.yes(1, 2) { g.bounds(false) } else { vec![] };
                    Param::Type { attrs, name: g.name(), bounds, default: g.maybe(1, 3, |g| g.ty(true)) }
                }
            }),
        }
    }

    pub(super) fn wheres(&mut self) -> Wheres<'static> {
        if !self.yes(1, 5) {
            return vec![];
        }
        self.many(1, 1, |g| {
            if g.yes(1, 4) {
                let l = g.life();
                return Pred::Life(l, if g.yes(1, 2) { g.many(1, 1, |g| g.life()) } else { vec![] });
            }
            let binder = g.maybe(1, 4, |g| g.binder());
            let ty = loop {
                let t = g.ty(true);
                if binder.is_some() || !matches!(&t, Ty::Func(f) if f.binder.is_some()) {
                    break t;
                }
            };
            let b = if g.yes(3, 4) { g.bounds(false) } else { vec![] };
            Pred::Type(binder, ty, b)
        })
    }
}
