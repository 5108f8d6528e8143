//! Formats token streams, as a generator does that writes by `quote!` and called prettyplease until
//! now.
//!
//! usage: tokens [FILE..]
//!
//! Without files it prints what `quote!` makes, formatted. Else it compares, of each file, the text
//! of the file with that of its tokens: those that proc_macro2 reads, and those of syn's tree. A
//! file that isn't accepted, or that syn doesn't read, is passed. The last two lines have the
//! counts; the exit status is 1 where a text has other tokens than the file's, or one is refused.
use froesaffron::Error;
use proc_macro2::{Ident, Span, TokenStream, TokenTree};
use quote::{ToTokens, quote};
use std::process::ExitCode;
use std::{env, fmt, fs};
use syn::visit::Visit;

/// What stands for `prettyplease::unparse(&syn::parse2(tokens)?)`: no tree is needed, and what
/// can't be formatted is an error and not a panic.
fn format(tokens: &TokenStream) -> Result<String, Error> {
    froesaffron::format(&tokens.to_string())
}

/// What a generator might make.
fn generated() -> TokenStream {
    let fields = ["width", "height"].map(|name| Ident::new(name, Span::call_site()));
    quote! {
        /// A size in pixels.
        #[derive(Clone, Copy, Debug)]
        pub struct Size { #(pub #fields: u32),* }
        impl Size {
            pub fn is_empty(&self) -> bool { #(self.#fields == 0)||* }
        }
    }
}

/// Of files, or of syn's trees of them: how many have the same text from their tokens, how many
/// differ in documentation in macro calls, and how many in blanks alone, which stand at the end of
/// documentation or between signs in a macro call.
#[derive(Default)]
struct Counts {
    same: usize,
    docs: usize,
    blanks: usize,
    faults: usize,
}

impl Counts {
    /// Adds how the text of tokens stands to that of a file.
    fn add(&mut self, path: &str, text: &str, tokens: &TokenStream) {
        match format(tokens) {
            Ok(other) if other == text => self.same += 1,
            Ok(other) if words(text).is_some() && words(text) == words(&other) => {
                *(if holds_docs(text) { &mut self.docs } else { &mut self.blanks }) += 1;
            }
            Ok(_) => self.fault(path, "another text"),
            Err(error) => self.fault(path, &error.to_string()),
        }
    }

    fn fault(&mut self, path: &str, why: &str) {
        self.faults += 1;
        println!("{path}: {why}");
    }
}

impl fmt::Display for Counts {
    fn fmt(&self, out: &mut fmt::Formatter<'_>) -> fmt::Result {
        let Counts { same, docs, blanks, faults } = self;
        let all = same + docs + blanks + faults;
        write!(out, "{all}: {same} the same, {docs} but for documentation in macros, ")?;
        write!(out, "{blanks} but for blanks, {faults} faults")
    }
}

/// The tokens of a text, each by itself, whatever stands between them. Documentation is the
/// attribute that it is, without blanks at its end.
fn words(text: &str) -> Option<Vec<String>> {
    fn add(tokens: TokenStream, words: &mut Vec<String>) {
        for token in tokens {
            match token {
                TokenTree::Group(group) => {
                    words.push(format!("{:?}", group.delimiter()));
                    add(group.stream(), words);
                    words.push("end".to_string());
                }
                TokenTree::Punct(sign) => words.push(sign.as_char().to_string()),
                TokenTree::Ident(name) => words.push(name.to_string()),
                TokenTree::Literal(literal) => {
                    let text = literal.to_string();
                    let is_doc = words.len() > 1 && words[words.len() - 2..] == ["doc", "="];
                    let end = text.strip_suffix('"').map_or("", str::trim_end).len();
                    words.push(if is_doc { text[..end].to_string() } else { text });
                }
            }
        }
    }
    let mut words = Vec::new();
    add(text.parse().ok()?, &mut words);
    Some(words)
}

/// Whether a macro call of the text, or the definition of a macro, holds documentation.
fn holds_docs(text: &str) -> bool {
    struct Docs(bool);
    impl<'a> Visit<'a> for Docs {
        fn visit_macro(&mut self, call: &'a syn::Macro) {
            let text: String = call.tokens.to_string().split_whitespace().collect();
            self.0 |= text.contains("#[doc=") || text.contains("#![doc=");
        }
    }
    let mut docs = Docs(false);
    if let Ok(file) = syn::parse_file(text) {
        docs.visit_file(&file);
    }
    docs.0
}

/// The text without a first line for the system, `#!/bin/..`, which is no token.
fn without_shebang(text: &str) -> &str {
    match text.starts_with("#!/") {
        true => text.split_once('\n').map_or("", |(_, rest)| rest),
        false => text,
    }
}

/// Compares a file, if it is accepted, and its tree, if syn reads it.
fn compare(path: &str, from_tokens: &mut Counts, from_trees: &mut Counts) {
    let source = fs::read_to_string(path).unwrap_or_default();
    let source = without_shebang(&source);
    if let (Ok(text), Ok(tokens)) = (froesaffron::format(source), source.parse()) {
        from_tokens.add(path, &text, &tokens);
        if let Ok(file) = syn::parse_file(source) {
            from_trees.add(path, &text, &file.into_token_stream());
        }
    }
}

fn main() -> ExitCode {
    let mut paths = env::args().skip(1).peekable();
    if paths.peek().is_none() {
        return match format(&generated()) {
            Ok(text) => {
                print!("{text}");
                ExitCode::SUCCESS
            }
            Err(error) => {
                eprintln!("{error}");
                ExitCode::FAILURE
            }
        };
    }
    let (mut from_tokens, mut from_trees) = (Counts::default(), Counts::default());
    paths.for_each(|path| compare(&path, &mut from_tokens, &mut from_trees));
    println!("from the tokens of files: {from_tokens}");
    println!("from syn's trees of files: {from_trees}");
    match from_tokens.faults + from_trees.faults {
        0 => ExitCode::SUCCESS,
        _ => ExitCode::FAILURE,
    }
}
