"""What the cargo crate's cursor does beside what the proved one does: it notes how far the readers
came, which an error tells where an item is refused. The readers only write it, so what they read
doesn't depend on it.

Each change is a pair: tokens of the translated file, which have to stand there once, and those that
stand for them. Where they don't, the translator stops."""

CHANGES = {
    ('lay_nest', 'cursor.rt'): [
        ("spans: &'a [usize], }", "spans: &'a [crate::shims::Span], }"),
        ("spans: &'a [usize])", "spans: &'a [crate::shims::Span])"),
        ("fn step(&mut self) {", "fn step(&mut self) { self.spans[0].pass();"),
        ("let span = self.spans[0];", "let span = self.spans[0].get();"),
        ("let tokens = self.as_slice(); self.pass_tree(); &tokens[..tokens.len() - self.as_slice().len()]",
         "let (tokens, spans) = (self.as_slice(), self.spans); self.pass_tree();"
         " let count = tokens.len() - self.as_slice().len(); spans[count - 1].pass(); &tokens[..count]"),
    ],
    ('lay_nest', 'nesting.rt'): [
        ("spans: List<usize>, }", "spans: List<crate::shims::Span>, }"),
        ("impl Nested {", """impl Nested {
            /// The token after the furthest one that a cursor passed, or none where that was the
            /// last.
            pub fn furthest(&self) -> Option<&Token> {
                let passed = self.spans.as_slice().iter().rposition(|span| span.is_passed());
                self.tokens.as_slice().get(passed.map_or(0, |last| last + 1))
            }
        """),
    ],
    ('lay_nest', 'partners.rt'): [
        ("Result<List<usize>, FormatError>", "Result<List<crate::shims::Span>, FormatError>"),
        ("spans: Vec<usize>,", "spans: Vec<crate::shims::Span>,"),
        ("self.spans[place] = self.spans.len() - place - 1;",
         "self.spans[place] = crate::shims::Span::new(self.spans.len() - place - 1);"),
        ("self.spans.push(0)?;", "self.spans.push(crate::shims::Span::new(0))?;"),
    ],
}
