//! Expressions.

use super::{Reader, R};
use crate::lex::{word_class, Class, Delim, Kind};
use crate::tree::*;
use crate::written::{stands, Place};

impl<'t, 'a> Reader<'t, 'a> {
    /// An expression at a place of this level. With `whole` its start isn't No.
    pub fn expr(&mut self, level: u8, ns: bool, whole: bool) -> R<Expr<'a>> {
        self.deeper(|s| s.expr_in(level, ns, whole))
    }

    pub(super) fn expr_in(&mut self, level: u8, ns: bool, whole: bool) -> R<Expr<'a>> {
        if level <= 1 && self.span_ahead(self.pos) {
            let r = self.range_from(None, ns)?;
            return if level == 0 { self.assign_from(r, ns) } else { Ok(r) };
        }
        if level >= 12 {
            return Ok(self.unary(ns, whole)?.0);
        }
        let (lhs, stop) = self.cast(ns, whole)?;
        if stop {
            return Ok(lhs);
        }
        self.expr_from(lhs, level, ns)
    }

    pub(super) fn expr_from(&mut self, lhs: Expr<'a>, level: u8, ns: bool) -> R<Expr<'a>> {
        let lhs = self.chain_from(lhs, level.max(2), ns)?;
        if level > 1 {
            return Ok(lhs);
        }
        let lhs = if self.span_ahead(self.pos) { self.range_from(Some(lhs), ns)? } else { lhs };
        if level == 1 {
            Ok(lhs)
        } else {
            self.assign_from(lhs, ns)
        }
    }

    pub(super) fn binary(&self) -> Option<Op> {
        Op::of(self.op())
    }

    pub(super) fn chain_from(&mut self, mut lhs: Expr<'a>, min: u8, ns: bool) -> R<Expr<'a>> {
        loop {
            let l = match self.binary() {
                Some(o) if o.level() >= min => o.level(),
                _ => return Ok(lhs),
            };
            let mut rest = Vec::new();
            while let Some(o) = self.binary() {
                if o.level() != l || (l == 4 && !rest.is_empty()) {
                    break;
                }
                self.pos += o.text().len();
                rest.push((o, self.expr(l + 1, ns, false)?));
            }
            lhs = Expr::Chain(l, Box::new(lhs), rest);
        }
    }

    pub(super) fn range_from(&mut self, first: Option<Expr<'a>>, ns: bool) -> R<Expr<'a>> {
        let first = first.map(Box::new);
        if self.eat_op("..=") {
            let e = self.expr(2, ns, false)?;
            return Ok(Expr::Range(first, true, Some(Box::new(e))));
        }
        self.need_op("..")?;
        let end = if self.begins_operand(ns) { Some(Box::new(self.expr(2, ns, false)?)) } else { None };
        Ok(Expr::Range(first, false, end))
    }

    pub(super) fn assign_from(&mut self, lhs: Expr<'a>, ns: bool) -> R<Expr<'a>> {
        let mut targets = Vec::new();
        let mut cur = lhs;
        while let Some(o) = self.binary() {
            if o.level() != 0 {
                break;
            }
            self.pos += o.text().len();
            let next = self.expr(1, ns, false)?;
            targets.push((cur, o));
            cur = next;
        }
        if targets.is_empty() {
            Ok(cur)
        } else {
            Ok(Expr::Assign(targets, Box::new(cur)))
        }
    }

    pub(super) fn begins_operand(&self, ns: bool) -> bool {
        let p = self.pos;
        let t = match self.tok(p) {
            Some(t) => t,
            None => return false,
        };
        match t.kind {
            Kind::Ident => match word_class(t.text) {
                Class::Plain | Class::PathWord => true,
                Class::Strict => {
                    matches!(
                        t.text,
                        "async"
                            | "break"
                            | "continue"
                            | "for"
                            | "if"
                            | "loop"
                            | "match"
                            | "move"
                            | "return"
                            | "unsafe"
                            | "while"
                            | "true"
                            | "false"
                    ) || (t.text == "const" && self.opens(p + 1, Delim::Brace))
                }
                Class::Reserved => false,
            },
            Kind::Punct => matches!(t.text, "-" | "*" | "!" | "&" | "|" | "<") || matches!(self.op(), "::" | ".." | "..="),
            Kind::Opener(Delim::Brace) => !ns,
            Kind::Opener(_) => true,
            Kind::Closer(_) | Kind::Doc { .. } => false,
            _ => true,
        }
    }

    pub(super) fn cast(&mut self, ns: bool, whole: bool) -> R<(Expr<'a>, bool)> {
        let (e, stop) = self.unary(ns, whole)?;
        if stop || !self.kw("as") {
            return Ok((e, stop));
        }
        let mut tys = Vec::new();
        while self.eat_kw("as") {
            tys.push(self.ty(false)?);
        }
        Ok((Expr::Cast(Box::new(e), tys), false))
    }

    pub(super) fn unary(&mut self, ns: bool, whole: bool) -> R<(Expr<'a>, bool)> {
        let mut ops = Vec::new();
        loop {
            if self.eat_char('-') {
                ops.push(Prefix::Neg);
            } else if self.eat_char('*') {
                ops.push(Prefix::Deref);
            } else if self.eat_char('!') {
                ops.push(Prefix::Bang);
            } else if self.eat_char('&') {
                if self.eat_kw("mut") {
                    ops.push(Prefix::AmpMut);
                } else if self.kw("raw") && (self.kw_at(self.pos + 1, "const") || self.kw_at(self.pos + 1, "mut")) {
                    ops.push(if self.kw_at(self.pos + 1, "const") { Prefix::RawConst } else { Prefix::RawMut });
                    self.pos += 2;
                } else {
                    ops.push(Prefix::Amp);
                }
            } else {
                break;
            }
        }
        if ops.is_empty() {
            return self.postfix(ns, whole);
        }
        let e = self.deeper(|s| s.postfix(ns, false))?.0;
        Ok((Expr::Unary(ops, Box::new(e)), false))
    }

    pub(super) fn postfix(&mut self, ns: bool, whole: bool) -> R<(Expr<'a>, bool)> {
        let base = self.primary(ns)?;
        if matches!(base, Expr::Return(_) | Expr::Break(..) | Expr::Closure(_)) {
            return Ok((base, false));
        }
        if whole && (block_like(&base) || braced_call(&base)) && self.op() != "." && self.op() != "?" {
            return Ok((base, true));
        }
        let mut steps = Vec::new();
        loop {
            if self.opens(self.pos, Delim::Paren) {
                let l = self.group(Delim::Paren, |s| s.list(|s| s.expr(0, false, false)))?.0;
                steps.push(Step::Call(l));
            } else if self.opens(self.pos, Delim::Bracket) {
                let e = self.group(Delim::Bracket, |s| s.expr(0, false, false))?;
                steps.push(Step::At(e));
            } else if self.eat_op("?") {
                steps.push(Step::Try);
            } else if self.eat_op(".") {
                if self.eat_kw("await") {
                    steps.push(Step::Await);
                    continue;
                }
                let t = self.tok(self.pos).ok_or(())?;
                if t.kind == Kind::Int {
                    if !t.text.bytes().all(|b| b.is_ascii_digit()) {
                        return Err(());
                    }
                    if steps.is_empty() && is_plain_number(&base) {
                        return Err(());
                    }
                    self.pos += 1;
                    steps.push(Step::Index(t));
                    continue;
                }
                let name = self.name()?;
                let fish = if self.eat_op("::") { Some(self.angle(|s| s.arg())?) } else { None };
                if self.opens(self.pos, Delim::Paren) {
                    let l = self.group(Delim::Paren, |s| s.list(|s| s.expr(0, false, false)))?.0;
                    steps.push(Step::Method(name, fish, l));
                } else if fish.is_some() {
                    return Err(());
                } else {
                    steps.push(Step::Field(name));
                }
            } else {
                break;
            }
        }
        if steps.is_empty() {
            return Ok((base, false));
        }
        Ok((Expr::Postfix(Box::new(base), steps), false))
    }

    pub(super) fn primary(&mut self, ns: bool) -> R<Expr<'a>> {
        let p = self.pos;
        let t = self.tok(p).ok_or(())?;
        if let Some(t) = self.lit_at(p) {
            self.pos += 1;
            return Ok(Expr::Lit(t));
        }
        match t.kind {
            Kind::Underscore => {
                self.pos += 1;
                return Ok(Expr::Underscore);
            }
            Kind::Lifetime => {
                if self.op_at(p + 1) != ":" {
                    return Err(());
                }
                self.pos += 2;
                if self.opens(self.pos, Delim::Brace) {
                    return Ok(Expr::Block(Some(t.text), self.block()?));
                }
                return self.looping(Some(t.text));
            }
            Kind::Opener(Delim::Paren) => {
                let (mut l, comma) = self.group(Delim::Paren, |s| s.list(|s| s.expr(0, false, false)))?;
                if l.len() == 1 && !comma {
                    return Ok(Expr::Paren(Box::new(l.pop().unwrap())));
                }
                if l.len() == 1 {
                    self.keep_comma();
                }
                return Ok(Expr::Tuple(l));
            }
            Kind::Opener(Delim::Bracket) => {
                return self.group(Delim::Bracket, |s| {
                    if s.done() {
                        return Ok(Expr::Array(vec![]));
                    }
                    let first = s.expr(0, false, false)?;
                    if s.eat_op(";") {
                        return Ok(Expr::Repeat(Box::new(first), s.rest_tokens()?));
                    }
                    let mut out = vec![first];
                    if !s.done() {
                        s.need_op(",")?;
                        if s.done() {
                            s.passed_free();
                        }
                        out.extend(s.list(|s| s.expr(0, false, false))?.0);
                    }
                    Ok(Expr::Array(out))
                });
            }
            Kind::Opener(Delim::Brace) => return Ok(Expr::Block(None, self.block()?)),
            Kind::Punct if t.text == "|" => return self.closure(false, ns),
            _ => {}
        }
        let word = if t.kind == Kind::Ident { t.text } else { "" };
        match word {
            "if" => self.if_(),
            "match" => {
                self.pos += 1;
                let e = Box::new(self.expr(0, true, false)?);
                let (attrs, arms) = self.group(Delim::Brace, |s| {
                    let attrs = s.inner_attrs()?;
                    let mut arms = Vec::new();
                    while !s.done() {
                        arms.push(s.arm()?);
                    }
                    Ok((attrs, arms))
                })?;
                Ok(Expr::Match(e, attrs, arms))
            }
            "loop" | "while" | "for" => self.looping(None),
            "unsafe" => {
                self.pos += 1;
                Ok(Expr::Unsafe(self.block()?))
            }
            "const" => {
                self.pos += 1;
                Ok(Expr::ConstBlock(self.block()?))
            }
            "async" => {
                let m = self.kw_at(p + 1, "move");
                let q = p + 1 + m as usize;
                if self.opens(q, Delim::Brace) {
                    self.pos = q;
                    return Ok(Expr::Async(m, self.block()?));
                }
                self.pos += 1;
                self.closure(true, ns)
            }
            "move" => self.closure(false, ns),
            "return" => {
                self.pos += 1;
                let e = if self.begins_operand(ns) { Some(Box::new(self.expr(0, ns, false)?)) } else { None };
                Ok(Expr::Return(e))
            }
            "break" => {
                self.pos += 1;
                let l = self.lifetime();
                let e = if self.begins_operand(ns) { Some(Box::new(self.expr(0, ns, false)?)) } else { None };
                Ok(Expr::Break(l, e))
            }
            "continue" => {
                self.pos += 1;
                Ok(Expr::Continue(self.lifetime()))
            }
            _ => {
                if self.call_ahead() {
                    return Ok(Expr::Call(self.call()?));
                }
                if !self.path_ahead() {
                    return Err(());
                }
                let path = self.path(Style::Code)?;
                if !ns && self.opens(self.pos, Delim::Brace) {
                    return self.struct_expr(path);
                }
                Ok(Expr::Path(path))
            }
        }
    }

    pub(super) fn struct_expr(&mut self, path: Path<'a>) -> R<Expr<'a>> {
        let mut base = None;
        let fields = self.group(Delim::Brace, |s| {
            let mut out = Vec::new();
            while !s.done() {
                if s.eat_op("..") {
                    base = Some(if s.done() { None } else { Some(Box::new(s.expr(0, false, false)?)) });
                    break;
                }
                let attrs = s.outer_attrs()?;
                if let Some(key) = s.key_colon() {
                    let value = Some(s.expr(0, false, false)?);
                    out.push(FieldInit { attrs, key, value });
                } else {
                    out.push(FieldInit { attrs, key: Key::Name(s.name()?), value: None });
                }
                if !s.done() {
                    s.need_op(",")?;
                    if s.done() {
                        s.passed_free();
                    }
                }
            }
            Ok(out)
        })?;
        Ok(Expr::Struct(path, fields, base))
    }

    pub(super) fn looping(&mut self, label: Option<&'a str>) -> R<Expr<'a>> {
        if self.eat_kw("loop") {
            return Ok(Expr::Loop(label, self.block()?));
        }
        if self.eat_kw("while") {
            let c = self.condition()?;
            return Ok(Expr::While(label, c, self.block()?));
        }
        self.need_kw("for")?;
        let pat = self.pat()?;
        self.need_kw("in")?;
        let e = Box::new(self.expr(0, true, false)?);
        Ok(Expr::For(label, pat, e, self.block()?))
    }

    pub(super) fn if_(&mut self) -> R<Expr<'a>> {
        self.need_kw("if")?;
        let c = self.condition()?;
        let mut parts = vec![(c, self.block()?)];
        while self.eat_kw("else") {
            if self.eat_kw("if") {
                let c = self.condition()?;
                parts.push((c, self.block()?));
            } else {
                return Ok(Expr::If(parts, Some(self.block()?)));
            }
        }
        Ok(Expr::If(parts, None))
    }

    pub(super) fn let_link(&mut self) -> R<Link<'a>> {
        self.need_kw("let")?;
        let p = self.pat()?;
        self.need_op("=")?;
        Ok(Link::Let(p, self.expr(4, true, false)?))
    }

    pub(super) fn condition(&mut self) -> R<Condition<'a>> {
        let mut links = Vec::new();
        if self.kw("let") {
            links.push(self.let_link()?);
        } else {
            if self.span_ahead(self.pos) {
                return Ok(Condition { links: vec![Link::Expr(self.expr(0, true, false)?)] });
            }
            let first = self.expr(4, true, false)?;
            let mut rest = Vec::new();
            while self.op() == "&&" && !self.kw_at(self.pos + 2, "let") {
                self.pos += 2;
                rest.push((Op::AndAnd, self.expr(4, true, false)?));
            }
            if self.op() != "&&" {
                let lhs = if rest.is_empty() { first } else { Expr::Chain(3, Box::new(first), rest) };
                let e = self.expr_from(lhs, 0, true)?;
                return Ok(Condition { links: vec![Link::Expr(e)] });
            }
            links.push(Link::Expr(first));
            links.extend(rest.into_iter().map(|(_, e)| Link::Expr(e)));
        }
        while self.eat_op("&&") {
            if self.kw("let") {
                links.push(self.let_link()?);
            } else {
                links.push(Link::Expr(self.expr(4, true, false)?));
            }
        }
        Ok(Condition { links })
    }

    pub(super) fn closure(&mut self, is_async: bool, ns: bool) -> R<Expr<'a>> {
        let is_move = self.eat_kw("move");
        self.need_char('|')?;
        let mut params = Vec::new();
        loop {
            if self.char_at(self.pos, '|') {
                if !params.is_empty() {
                    self.passed_free();
                }
                self.pos += 1;
                break;
            }
            let attrs = self.outer_attrs()?;
            let pat = self.pat_no_alt()?;
            let ty = if self.eat_op(":") { Some(self.ty(true)?) } else { None };
            params.push(ClosureParam { attrs, pat, ty });
            if !self.eat_op(",") {
                self.need_char('|')?;
                break;
            }
        }
        let body = if self.eat_op("->") {
            let ty = self.ty(false)?;
            ClosureBody::Ret(ty, self.block()?)
        } else {
            let from = self.pos;
            let mut e = self.expr(0, ns, false)?;
            let mut n = 0;
            let place = Place { no_struct: ns, ..Place::FREE };
            loop {
                match e {
                    Expr::Block(None, b) if is_bare(&b) && bare_stands(&b, place) => {
                        n += 1;
                        e = unbare(b);
                    }
                    other => {
                        e = other;
                        break;
                    }
                }
            }
            self.free_braces(from, n);
            ClosureBody::Expr(e, Aside(n))
        };
        Ok(Expr::Closure(Box::new(Closure { is_async, is_move, params, body })))
    }
}

fn bare_stands(b: &Block<'_>, place: Place) -> bool {
    match &b.stmts[0] {
        Stmt::Expr { expr, .. } => stands(expr, place),
        _ => false,
    }
}

/// A number literal without suffix.
pub fn is_plain_number(e: &Expr<'_>) -> bool {
    match e {
        Expr::Lit(t) if t.kind == Kind::Int || t.kind == Kind::Float => {
            let s = t.text;
            if let Some(r) = s.strip_prefix("0x") {
                return r.bytes().all(|b| b == b'_' || b.is_ascii_hexdigit());
            }
            if let Some(r) = s.strip_prefix("0o").or(s.strip_prefix("0b")) {
                return r.bytes().all(|b| b == b'_' || b.is_ascii_digit());
            }
            // decimal: whole part, fraction, exponent, and nothing more
            let mut b = s.as_bytes();
            let skip = |b: &mut &[u8]| {
                while !b.is_empty() && (b[0] == b'_' || b[0].is_ascii_digit()) {
                    *b = &b[1..];
                }
            };
            skip(&mut b);
            if b.first() == Some(&b'.') {
                b = &b[1..];
                skip(&mut b);
            }
            if matches!(b.first(), Some(b'e' | b'E')) {
                b = &b[1..];
                if matches!(b.first(), Some(b'+' | b'-')) {
                    b = &b[1..];
                }
                skip(&mut b);
            }
            b.is_empty()
        }
        _ => false,
    }
}
