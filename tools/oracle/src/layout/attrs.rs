//! Attributes.

use super::{Out, H};
use crate::lex::{doc_form, lex, DocForm, Kind};
use crate::tree::*;

impl<'t> Out<'t> {
    pub(super) fn attr(&mut self, a: &'t Attr<'_>) {
        match a {
            Attr::Doc { inner, text } => {
                let how = match &mut self.loose {
                    Some(r) => r.below(8).saturating_sub(3),
                    _ => 0,
                };
                let open = if *inner { "#![doc = " } else { "#[doc = " };
                match how {
                    1 | 2 => {
                        self.text(open);
                        let h: &'static str =
                            ["r###\"", "r\"", "r#\""][if how == 1 || text.contains('"') { 0 } else { 1 + text.len() % 2 }];
                        self.text(h);
                        self.text(text);
                        self.text(match h.len() {
                            5 => "\"###]",
                            2 => "\"]",
                            _ => "\"#]",
                        });
                    }
                    3 => {
                        self.text(open);
                        self.text(quoted(text));
                        self.text("]");
                    }
                    4 if may_block(text, *inner) => {
                        self.text(if *inner { "/*!" } else { "/**" });
                        self.text(text);
                        self.text(if text.len() % 3 == 0 { " */" } else { "*/" });
                    }
                    _ => self.doc(*inner, text),
                }
            }
            Attr::Meta { inner, path, input } => {
                self.text(if *inner { "#![" } else { "#[" });
                match path {
                    MetaPath::Unsafe => self.text("unsafe"),
                    MetaPath::Path(p) => self.path(p, Style::Simple),
                }
                match input {
                    Input::Bare => {}
                    Input::Group(g) => self.tokens(g),
                    Input::Value(v) => {
                        self.text(" = ");
                        self.tok(v);
                    }
                }
                self.text("]");
            }
        }
    }

    pub(super) fn attrs(&mut self, l: &'t [Attr<'_>]) {
        for a in l {
            self.attr(a);
            self.brk(H);
        }
    }

    pub(super) fn attrs_inline(&mut self, l: &'t [Attr<'_>]) {
        for a in l {
            self.attr(a);
            let line = matches!(a, Attr::Doc { inner, text } if doc_form(text, *inner) == DocForm::Line);
            if line {
                self.brk(H);
            } else {
                self.text(" ");
            }
        }
    }
}

/// A string literal that means the text, with escapes here and there.
fn quoted(text: &str) -> &'static str {
    let mut out = String::from("\"");
    for (i, c) in text.chars().enumerate() {
        match c {
            '"' => out.push_str("\\\""),
            '\\' => out.push_str("\\\\"),
            '\r' => out.push_str("\\r"),
            '\n' if text.len() % 2 == 0 => out.push_str("\\n"),
            '\t' => out.push_str("\\t"),
            'a' if i % 3 == 2 => out.push_str("\\x61"),
            'x' if i % 3 == 2 => out.push_str("\\u{7_8}"),
            ' ' if i % 5 == 4 && !text.contains('\n') => out.push_str("\\\n   \\x20"),
            c => out.push(c),
        }
    }
    out.push('"');
    Box::leak(out.into_boxed_str())
}

/// The text of a line's documentation may be written as a block comment that ends as `attr` ends it.
fn may_block(text: &str, inner: bool) -> bool {
    if text.contains('\n') || (!inner && (text.starts_with('*') || text.starts_with('/'))) {
        return false;
    }
    let open = if inner { "/*!" } else { "/**" };
    let close = if text.len() % 3 == 0 { " */" } else { "*/" };
    let spelled = format!("{open}{text}{close}");
    matches!(lex(&spelled, 0), Ok(tokens) if tokens.len() == 1 && tokens[0].text == text
        && matches!(tokens[0].kind, Kind::Doc { inner: is_inner, .. } if is_inner == inner))
}
