//! Blocks, statements and arms.

use super::{Reader, R};
use crate::lex::{Delim, Kind};
use crate::tree::*;

impl<'t, 'a> Reader<'t, 'a> {
    pub fn block(&mut self) -> R<Block<'a>> {
        self.deeper(|s| {
            s.group(Delim::Brace, |s| {
                let attrs = s.inner_attrs()?;
                let mut stmts = Vec::new();
                loop {
                    while s.eat_op(";") {
                        s.passed_free();
                    }
                    if s.done() {
                        return Ok(Block { attrs, stmts });
                    }
                    let st = s.stmt()?;
                    let open = matches!(&st, Stmt::Expr { semi: false, expr, .. } if !block_like(expr) && !braced_call(expr));
                    stmts.push(st);
                    if open && !s.done() {
                        return Err(());
                    }
                }
            })
        })
    }

    pub(super) fn item_ahead(&self) -> bool {
        let p = self.pos;
        let t = match self.tok(p) {
            Some(t) if t.kind == Kind::Ident => t.text,
            _ => return false,
        };
        match t {
            "pub" | "use" | "mod" | "struct" | "enum" | "type" | "trait" | "impl" | "fn" | "static" | "extern" => true,
            "const" | "unsafe" => !self.opens(p + 1, Delim::Brace),
            "async" => ["fn", "unsafe", "extern"].iter().any(|w| self.kw_at(p + 1, w)),
            "union" => self.name_at(p + 1).is_some(),
            "macro_rules" => self.op_at(p + 1) == "!" && self.name_at(p + 2).is_some(),
            _ => false,
        }
    }

    pub(super) fn stmt(&mut self) -> R<Stmt<'a>> {
        let attrs = self.outer_attrs()?;
        if self.eat_kw("let") {
            let pat = self.pat_no_alt()?;
            let ty = if self.eat_op(":") { Some(self.ty(true)?) } else { None };
            let mut init = None;
            if self.eat_op("=") {
                let e = self.expr(0, false, false)?;
                let mut other = None;
                if self.kw("else") {
                    let brace = self.kind(self.pos - 1) == Some(Kind::Closer(Delim::Brace));
                    if brace || ends_closure(&e) || matches!(e, Expr::Chain(2 | 3, ..)) {
                        return Err(());
                    }
                    self.pos += 1;
                    other = Some(self.block()?);
                }
                init = Some((e, other));
            }
            self.need_op(";")?;
            return Ok(Stmt::Let { attrs, pat, ty, init });
        }
        if self.item_ahead() {
            return Ok(Stmt::Item(Box::new(self.item_after(attrs, Site::Module)?)));
        }
        let expr = self.expr(0, false, true)?;
        let semi = self.eat_op(";");
        Ok(Stmt::Expr { attrs, expr, semi })
    }

    pub(super) fn arm(&mut self) -> R<Arm<'a>> {
        let attrs = self.outer_attrs()?;
        let pat = self.pat()?;
        let guard = if self.eat_kw("if") { Some(self.expr(0, false, false)?) } else { None };
        self.need_op("=>")?;
        let from = self.pos;
        let mut body = self.expr(0, false, true)?;
        if self.eat_op(",") {
            self.passed_free();
        } else if !self.done() && !block_like(&body) {
            return Err(());
        }
        let mut n = 0;
        loop {
            match body {
                Expr::Block(None, b) if is_bare(&b) => {
                    n += 1;
                    body = unbare(b);
                }
                other => {
                    body = other;
                    break;
                }
            }
        }
        self.free_braces(from, n);
        Ok(Arm { attrs, pat, guard, body, braces: Aside(n) })
    }
}
