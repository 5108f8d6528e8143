//! Made by scripts/rust.sh from crates/lay_read_begun/src/leads.rt, which is proved: change that.
//!
//! What an item begins with.
use crate::generated::lay_code::Site;
use crate::generated::lay_read_blocks::front::{begins_rules, begins_union};
use crate::generated::lay_read_head_rules::level::takes_flag;
use crate::generated::lay_read_tokens::Ahead;
use crate::generated::lay_read_tokens::front::{is_at_keyword, pass, takes_keyword};
use crate::generated::lay_token::Kind;
/// What an item begins with.
#[derive(Clone, Copy,)]
pub enum ItemLead {
    ExternCrate,
    Import,
    Module,
    Function,
    Alias,
    Struct,
    Union,
    Enum,
    Value,
    Trait,
    Impl,
    Foreign,
    Rules,
    Call,
}
/// How the next tokens begin an item. Without a word that can begin one it is a macro call.
pub fn item_lead(at: &Ahead<'_>) -> ItemLead {
    match at.peek(0) {
        Some(token) => {
            match token.kind {
                Kind::Ident => lead_of_word(token.text.as_bytes(), at),
                _ => ItemLead::Call,
            }
        }
        None => ItemLead::Call,
    }
}
/// How this word, which comes next, begins an item. What follows it is only looked at if it may
/// begin a function.
fn lead_of_word(word: &[u8], at: &Ahead<'_>) -> ItemLead {
    if may_lead_function(word) && begins_function(at) { ItemLead::Function } else {
        led_by(word, at)
    }
}
/// Whether the word may begin a function.
fn may_lead_function(word: &[u8]) -> bool {
    word == b"fn".as_slice() || word == b"const".as_slice()
        || word == b"async".as_slice() || word == b"unsafe".as_slice()
        || word == b"safe".as_slice() || word == b"extern".as_slice()
}
/// Whether a function comes next: `fn`, after any words that may stand before it.
fn begins_function(at: &Ahead<'_>) -> bool {
    let mut behind = at.fork();
    takes_flag(&mut behind, b"const");
    takes_flag(&mut behind, b"async");
    pass_safety(&mut behind);
    pass_abi(&mut behind);
    is_at_keyword(&behind, b"fn")
}
/// Moves past `unsafe` or `safe` before `fn`, if one comes next.
fn pass_safety(at: &mut Ahead<'_>) {
    if !takes_keyword(at, b"unsafe") {
        takes_keyword(at, b"safe");
    }
}
/// Moves past an ABI if one comes next.
fn pass_abi(at: &mut Ahead<'_>) {
    if takes_keyword(at, b"extern") && is_at_string(at) {
        pass(at);
    }
}
/// Whether a string comes next.
fn is_at_string(at: &Ahead<'_>) -> bool {
    match at.peek(0) {
        Some(token) => matches!(token.kind, Kind::Str | Kind::RawStr),
        None => false,
    }
}
/// How this word, which comes next, begins an item other than a function.
fn led_by(word: &[u8], at: &Ahead<'_>) -> ItemLead {
    if word == b"use".as_slice() { ItemLead::Import } else if word == b"mod".as_slice() {
        ItemLead::Module
    } else if word == b"type".as_slice() {
        ItemLead::Alias
    } else if word == b"struct".as_slice() {
        ItemLead::Struct
    } else if word == b"enum".as_slice() {
        ItemLead::Enum
    } else if word == b"const".as_slice() {
        ItemLead::Value
    } else if word == b"static".as_slice() {
        ItemLead::Value
    } else if word == b"trait".as_slice() {
        ItemLead::Trait
    } else if word == b"impl".as_slice() {
        ItemLead::Impl
    } else if word == b"unsafe".as_slice() {
        unsafe_lead(at)
    } else if word == b"extern".as_slice() { extern_lead(at) } else { macro_lead(at) }
}
/// How `unsafe` begins an item other than a function.
fn unsafe_lead(at: &Ahead<'_>) -> ItemLead {
    let mut behind = at.fork();
    pass(&mut behind);
    if is_at_keyword(&behind, b"trait") {
        ItemLead::Trait
    } else if is_at_keyword(&behind, b"impl") { ItemLead::Impl } else {
        ItemLead::Foreign
    }
}
/// How `extern` begins an item other than a function.
fn extern_lead(at: &Ahead<'_>) -> ItemLead {
    let mut behind = at.fork();
    pass(&mut behind);
    if is_at_keyword(&behind, b"crate") { ItemLead::ExternCrate } else {
        ItemLead::Foreign
    }
}
/// How a word begins an item that is no keyword of items, or that may be a name too.
fn macro_lead(at: &Ahead<'_>) -> ItemLead {
    if begins_union(at) { ItemLead::Union } else if begins_rules(at) {
        ItemLead::Rules
    } else { ItemLead::Call }
}
/// Whether an item stands in a file or in a module.
fn in_module(site: Site) -> bool {
    matches!(site, Site::Module)
}
/// Whether an item that begins like this may stand at the site. For functions, aliases and values
/// their readers decide that.
pub fn may_stand(site: Site, lead: ItemLead) -> bool {
    match lead {
        ItemLead::Function | ItemLead::Alias | ItemLead::Value | ItemLead::Call => true,
        _ => in_module(site),
    }
}
