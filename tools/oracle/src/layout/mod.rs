//! The layout of each node, in the signs of docs/GRAMMAR.md: `Z`, `B`, `H` and `N` are its breaks, `M` one that goes back by four columns,
//! `C` a comma that stands where the break is a new line.

mod attrs;
mod code;
mod items;
mod patterns;
mod tokens;
mod types;

use crate::doc::{Break, Mark, Tok};
use crate::lex::{Kind, Token};
use crate::rng::Rng;
use crate::tree::{File, NameOr, Word};

const Z: Break = Break::new(0, 0);
const B: Break = Break::new(0, 1);
const H: Break = Break::new(0, 65535);
const ZM: Break = Break::new(-4, 0);
const BM: Break = Break::new(-4, 1);
const HM: Break = Break::new(-4, 65535);
const N: Break = Break { never: true, ..Z };
const ZC: Break = Break { before: Mark::Comma, ..ZM };
const BC: Break = Break { before: Mark::Comma, ..BM };

pub struct Out<'t> {
    pub toks: Vec<Tok<'t>>,
    /// The last text was a literal that ends in `.`, or the `..` before a base.
    dot: bool,
    /// Where it is there, it draws whether what is optional is spelled.
    loose: Option<Rng>,
}

/// The stream of a file's layout.
pub fn lay<'t>(file: &'t File<'_>) -> Vec<Tok<'t>> {
    lay_with(file, None)
}

/// The same for another spelling of the same tree, with what is optional drawn from the seed.
pub fn lay_loose<'t>(file: &'t File<'_>, seed: u64) -> Vec<Tok<'t>> {
    lay_with(file, Some(Rng(seed)))
}

fn lay_with<'t>(file: &'t File<'_>, loose: Option<Rng>) -> Vec<Tok<'t>> {
    let mut o = Out { toks: Vec::new(), dot: false, loose };
    if let Some(s) = &file.shebang {
        o.text(s);
        o.brk(H);
    }
    for a in &file.attrs {
        o.attr(a);
        o.brk(H);
    }
    for i in &file.items {
        o.item(i);
        o.brk(H);
    }
    o.toks
}

impl<'t> Out<'t> {
    fn text(&mut self, s: &'t str) {
        if s.is_empty() {
            return;
        }
        if self.dot && s.starts_with('.') {
            self.toks.push(Tok::Text(" "));
        }
        self.dot = false;
        self.toks.push(Tok::Text(s));
    }

    fn odd(&mut self) -> bool {
        self.loose.as_mut().map_or(false, |r| r.chance(1, 3))
    }

    fn brk(&mut self, b: Break) {
        self.dot = false;
        self.toks.push(Tok::Break(b));
    }

    fn c4(&mut self) {
        self.toks.push(Tok::Begin { consistent: true, offset: 4 });
    }

    fn i4(&mut self) {
        self.toks.push(Tok::Begin { consistent: false, offset: 4 });
    }

    fn i0(&mut self) {
        self.toks.push(Tok::Begin { consistent: false, offset: 0 });
    }

    fn end(&mut self) {
        self.toks.push(Tok::End);
    }

    fn word(&mut self, w: &Word<'t>) {
        if w.raw {
            self.text("r#");
        }
        self.text(w.text);
    }

    fn name_or(&mut self, n: &NameOr<'t>) {
        match n {
            Some(w) => self.word(w),
            None => self.text("_"),
        }
    }

    fn lit(&mut self, t: &Token<'t>) {
        self.text(t.text);
        if t.text.ends_with('.') && t.kind == Kind::Float {
            self.dot = true;
        }
    }

    /// LIST(o, c).
    fn list<T>(&mut self, empty: &'static str, l: &'t [T], mut f: impl FnMut(&mut Self, &'t T)) {
        if l.is_empty() {
            self.text(empty);
            return;
        }
        self.c4();
        self.text(&empty[..1]);
        self.brk(Z);
        for (i, x) in l.iter().enumerate() {
            if i > 0 {
                self.text(",");
                self.brk(B);
            }
            f(self, x);
        }
        self.last_comma(ZC, ZM);
        self.text(&empty[1..]);
        self.end();
    }

    fn last_comma(&mut self, b: Break, plain: Break) {
        if self.odd() {
            self.text(",");
            self.brk(plain);
        } else {
            self.brk(b);
        }
    }

    /// BODY: `parts` calls lay out one part each.
    fn body(&mut self, lead: bool, n: usize, mut f: impl FnMut(&mut Self, usize)) {
        if n == 0 {
            self.text(if lead { " {}" } else { "{}" });
            return;
        }
        self.text(if lead { " {" } else { "{" });
        self.brk(N);
        self.c4();
        for i in 0..n {
            self.brk(H);
            f(self, i);
        }
        self.brk(HM);
        self.end();
        self.text("}");
    }
}
