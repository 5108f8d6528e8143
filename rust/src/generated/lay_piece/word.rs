//! Made by scripts/rust.sh from crates/lay_piece/src/word.rt, which is proved: change that.
//!
//! The keywords of the language.
/// What a word is in edition 2021 (Rust Reference, "Keywords").
#[derive(Clone, Copy, Debug, PartialEq, Eq)]
pub enum Class {
    /// No keyword, so it may be a name.
    Plain,
    /// `crate`, `self`, `super` or `Self`: a keyword that may stand in a path.
    PathWord,
    /// Any other strict keyword, as `fn`.
    Strict,
    /// A reserved keyword, as `yield`.
    Reserved,
}
/// Whether a word is `crate`, `self`, `super` or `Self`.
pub fn is_path_word(word: &[u8]) -> bool {
    match word {
        b"crate" | b"self" | b"super" | b"Self" => true,
        _ => false,
    }
}
/// The class of an identifier that isn't raw.
pub fn word_class(word: &[u8]) -> Class {
    match word.split_first() {
        Some((first, rest)) => class_behind(*first, rest),
        None => Class::Plain,
    }
}
/// The class of the word that begins with the byte `first` and goes on with `rest`.
fn class_behind(first: u8, rest: &[u8]) -> Class {
    match first {
        b'a' => behind_a(rest),
        b'b' => behind_b(rest),
        b'c' => behind_c(rest),
        b'd' => behind_d(rest),
        b'e' => behind_e(rest),
        b'f' => behind_f(rest),
        b'i' => behind_i(rest),
        b'l' => behind_l(rest),
        b'm' => behind_m(rest),
        b'o' => behind_o(rest),
        b'p' => behind_p(rest),
        b'r' => behind_r(rest),
        b'S' => behind_capital_s(rest),
        b's' => behind_s(rest),
        b't' => behind_t(rest),
        b'u' => behind_u(rest),
        b'v' => behind_v(rest),
        b'w' => behind_w(rest),
        b'y' => behind_y(rest),
        _ => Class::Plain,
    }
}
fn behind_a(rest: &[u8]) -> Class {
    match rest {
        b"s" | b"sync" | b"wait" => Class::Strict,
        b"bstract" => Class::Reserved,
        _ => Class::Plain,
    }
}
fn behind_b(rest: &[u8]) -> Class {
    match rest {
        b"reak" => Class::Strict,
        b"ecome" | b"ox" => Class::Reserved,
        _ => Class::Plain,
    }
}
fn behind_c(rest: &[u8]) -> Class {
    match rest {
        b"rate" => Class::PathWord,
        b"onst" | b"ontinue" => Class::Strict,
        _ => Class::Plain,
    }
}
fn behind_d(rest: &[u8]) -> Class {
    match rest {
        b"yn" => Class::Strict,
        b"o" => Class::Reserved,
        _ => Class::Plain,
    }
}
fn behind_e(rest: &[u8]) -> Class {
    match rest {
        b"lse" | b"num" | b"xtern" => Class::Strict,
        _ => Class::Plain,
    }
}
fn behind_f(rest: &[u8]) -> Class {
    match rest {
        b"alse" | b"n" | b"or" => Class::Strict,
        b"inal" => Class::Reserved,
        _ => Class::Plain,
    }
}
fn behind_i(rest: &[u8]) -> Class {
    match rest {
        b"f" | b"mpl" | b"n" => Class::Strict,
        _ => Class::Plain,
    }
}
fn behind_l(rest: &[u8]) -> Class {
    match rest {
        b"et" | b"oop" => Class::Strict,
        _ => Class::Plain,
    }
}
fn behind_m(rest: &[u8]) -> Class {
    match rest {
        b"atch" | b"od" | b"ove" | b"ut" => Class::Strict,
        b"acro" => Class::Reserved,
        _ => Class::Plain,
    }
}
fn behind_o(rest: &[u8]) -> Class {
    match rest {
        b"verride" => Class::Reserved,
        _ => Class::Plain,
    }
}
fn behind_p(rest: &[u8]) -> Class {
    match rest {
        b"ub" => Class::Strict,
        b"riv" => Class::Reserved,
        _ => Class::Plain,
    }
}
fn behind_r(rest: &[u8]) -> Class {
    match rest {
        b"ef" | b"eturn" => Class::Strict,
        _ => Class::Plain,
    }
}
fn behind_capital_s(rest: &[u8]) -> Class {
    match rest {
        b"elf" => Class::PathWord,
        _ => Class::Plain,
    }
}
fn behind_s(rest: &[u8]) -> Class {
    match rest {
        b"elf" | b"uper" => Class::PathWord,
        b"tatic" | b"truct" => Class::Strict,
        _ => Class::Plain,
    }
}
fn behind_t(rest: &[u8]) -> Class {
    match rest {
        b"rait" | b"rue" | b"ype" => Class::Strict,
        b"ry" | b"ypeof" => Class::Reserved,
        _ => Class::Plain,
    }
}
fn behind_u(rest: &[u8]) -> Class {
    match rest {
        b"nsafe" | b"se" => Class::Strict,
        b"nsized" => Class::Reserved,
        _ => Class::Plain,
    }
}
fn behind_v(rest: &[u8]) -> Class {
    match rest {
        b"irtual" => Class::Reserved,
        _ => Class::Plain,
    }
}
fn behind_w(rest: &[u8]) -> Class {
    match rest {
        b"here" | b"hile" => Class::Strict,
        _ => Class::Plain,
    }
}
fn behind_y(rest: &[u8]) -> Class {
    match rest {
        b"ield" => Class::Reserved,
        _ => Class::Plain,
    }
}
