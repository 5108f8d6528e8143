//! Made by scripts/rust.sh from crates/lay_same_nodes/src/tokens.rt, which is proved: change that.
//!
//! Equality of tokens, and of what is made of tokens alone: names, words, token lists, attributes,
//! and visibilities.
use crate::generated::lay_same_nodes::lists::{Same, same_items};
use crate::generated::lay_node::{
    Attr,
    GivenName,
    Group,
    Lifetime,
    Listed,
    Literal,
    MacroCall,
    MetaInput,
    MetaPath,
    Name,
    SimplePath,
    Tokens,
    Vis,
    Word,
};
impl Same for Name {
    fn same(&self, other: &Name) -> bool {
        self.raw == other.raw && self.text.same(&other.text)
    }
}
impl Same for Word {
    fn same(&self, other: &Word) -> bool {
        self.raw == other.raw && self.text.same(&other.text)
    }
}
impl Same for GivenName {
    fn same(&self, other: &GivenName) -> bool {
        match self {
            GivenName::Name(name) => matches!(
                other, GivenName::Name(given) if name.same(given)
            ),
            GivenName::Underscore => matches!(other, GivenName::Underscore),
        }
    }
}
impl Same for Lifetime {
    fn same(&self, other: &Lifetime) -> bool {
        self.text.same(&other.text)
    }
}
impl Same for Literal {
    fn same(&self, other: &Literal) -> bool {
        self.kind == other.kind && self.text.same(&other.text)
    }
}
impl Same for Listed {
    fn same(&self, other: &Listed) -> bool {
        match self {
            Listed::Token { kind, text, joint } => {
                match other {
                    Listed::Token {
                        kind: other_kind,
                        text: other_text,
                        joint: other_joint,
                    } => {
                        *kind == *other_kind && text.same(other_text)
                            && *joint == *other_joint
                    }
                    _ => false,
                }
            }
            Listed::Doc { inner, text } => {
                match other {
                    Listed::Doc { inner: other_inner, text: other_text } => {
                        *inner == *other_inner && text.same(other_text)
                    }
                    _ => false,
                }
            }
        }
    }
}
impl Same for Tokens {
    fn same(&self, other: &Tokens) -> bool {
        same_items(self.as_slice(), other.as_slice())
    }
}
impl Same for Group {
    fn same(&self, other: &Group) -> bool {
        self.delim == other.delim && self.tokens.same(&other.tokens)
    }
}
impl Same for SimplePath {
    fn same(&self, other: &SimplePath) -> bool {
        self.global == other.global && self.words.same(&other.words)
    }
}
impl Same for MacroCall {
    fn same(&self, other: &MacroCall) -> bool {
        self.path.same(&other.path) && self.tokens.same(&other.tokens)
    }
}
impl Same for MetaPath {
    fn same(&self, other: &MetaPath) -> bool {
        match self {
            MetaPath::Path(path) => matches!(
                other, MetaPath::Path(given) if path.same(given)
            ),
            MetaPath::Unsafe => matches!(other, MetaPath::Unsafe),
        }
    }
}
impl Same for MetaInput {
    fn same(&self, other: &MetaInput) -> bool {
        match self {
            MetaInput::Bare => matches!(other, MetaInput::Bare),
            MetaInput::Group(group) => {
                matches!(other, MetaInput::Group(given) if group.same(given))
            }
            MetaInput::Value(value) => {
                matches!(other, MetaInput::Value(given) if value.same(given))
            }
        }
    }
}
impl Same for Attr {
    fn same(&self, other: &Attr) -> bool {
        match self {
            Attr::Doc { inner, text } => {
                match other {
                    Attr::Doc { inner: other_inner, text: other_text } => {
                        *inner == *other_inner && text.same(other_text)
                    }
                    _ => false,
                }
            }
            Attr::Meta { inner, path, input } => {
                match other {
                    Attr::Meta {
                        inner: other_inner,
                        path: other_path,
                        input: other_input,
                    } => {
                        *inner == *other_inner && path.same(other_path)
                            && input.same(other_input)
                    }
                    _ => false,
                }
            }
        }
    }
}
impl Same for Vis {
    fn same(&self, other: &Vis) -> bool {
        match self {
            Vis::Inherited => matches!(other, Vis::Inherited),
            Vis::Public => matches!(other, Vis::Public),
            Vis::Crate => matches!(other, Vis::Crate),
            Vis::Own => matches!(other, Vis::Own),
            Vis::Super => matches!(other, Vis::Super),
            Vis::In(path) => matches!(other, Vis::In(given) if path.same(given)),
        }
    }
}
