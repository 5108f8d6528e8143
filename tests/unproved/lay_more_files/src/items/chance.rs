//! Edits that a seed draws.

use lay_front::format;
use lay_items::{EditError, Items};
use lay_test_rows::BETWEEN;
use lay_text::{FormatError, NoMemory};
use std::alloc::Global;
use std::test::Fail;

/// What stands before the items.
const HEAD: &str = "#!/bin/x\n#![a(b,c)]//!d\n";

/// Texts of one item each.
const ITEMS: &str =
    "struct A;§use a::{b,c::{self,d},e as _,f::*};§///a\r\n/** b */#[c(d)]pub(crate)struct E<'a,T:F=G>(#[h]pub &'a T,u8)where T:I;\
    §pub fn aaaaaaaaaaaaaaaa(bbbbbbbbbbbbbbbb:&cccccccccccccccc,dddddddddddddddd:[u8;4])->Result<eeeeeeeeeeeeeeee,()>{let x=1;x+y*z}\
    §mod a{#![b]use c::d;mod e{}/*f*/const G:H=I{j:1,k,..l};}§a!{b=>{c;d}}§a!(b,c);\
    §impl<T>A<T>for B where T:C{type D=E;fn f(&self){match g{h|i if j=>k,L{..}=>{m;n},_=>|o|{p;q}}}}\
    §const A:[u8;30]=[1,2,3,4,5,6,7,8,9,10,11,12,13,14,15,16,17,18,19,20,21,22,23,24,25,26,27,28,29,30];\
    §macro_rules! a{($b:expr)=>{$b+1};}§unsafe extern \"C\"{pub fn a(b:*const c,...);static mut D:e;}\
    §enum A{B=1,#[c]D{e:f},G(h)}§pub static mut A:B=\"c\\\n d\";§extern crate a as b;§union A{b:c,d:e}§trait A:B+?C{const D:E;fn f<'g>();}\
    §fn f(){if a{b}else if let C(d)=e{f}else{g};'h:loop{break 'h 1}while i.j()?{k[l]=m..=n}}\
    §type A=dyn for<'a>Fn(&'a B)->C+'a;§async fn f(){a.await;async move{b}.c::<D>(e,f)}";

/// Texts of anything else.
const OTHERS: &str =
    "§fn§struct A;struct B;§#![a]struct A;§#!/bin/y\nstruct A;§struct A;}§\"§//!a\n§struct A";

/// The state behind a state.
fn next(state: u64) -> u64 {
    state
        .wrapping_mul(6364136223846793005)
        .wrapping_add(1442695040888963407)
}

/// A number below a count, or 0 where that is 0.
fn below(state: u64, count: usize) -> usize {
    if count == 0 {
        return 0;
    }
    (state >> 33) as usize % count
}

/// A row of a literal that a state draws.
fn drawn(rows: &'static str, state: u64) -> &'static str {
    let place = below(state, rows.split(BETWEEN).count());
    match rows.split(BETWEEN).nth(place) {
        Some(row) => row,
        None => "",
    }
}

/// Makes an edit of the items, and where it was made, of their texts. Whether it was made.
fn edit(
    items: &mut Items,
    texts: &mut Vec<&'static str>,
    kind: usize,
    index: usize,
    text: &'static str,
) -> Result<bool, NoMemory> {
    let count = items.len().min(texts.len());
    if kind == 0 && index < count {
        items.remove(index);
        texts.remove(index);
        return Ok(true);
    }
    let answer = if kind < 3 && index < count {
        items.replace(index, text.as_bytes())
    } else if index <= count {
        items.insert(index, text.as_bytes())
    } else {
        return Ok(false);
    };
    match answer {
        Ok(()) => {}
        Err(EditError::NoMemory) => return Err(NoMemory),
        Err(_) => return Ok(false),
    }
    if kind < 3 && index < count {
        texts[index] = text;
    } else {
        texts.insert(index, text)?;
    }
    Ok(true)
}

/// Whether a text is that of the file when it is put together anew.
fn is_together(alloc: Global, texts: &[&str], whole: &[u8]) -> Result<bool, NoMemory> {
    let mut all = HEAD.as_bytes().to_vec(alloc)?;
    for text in texts {
        all.extend_from_slice(text.as_bytes())?;
    }
    match format(alloc, all.as_slice()) {
        Ok(text) => Ok(text.as_bytes() == whole),
        Err(FormatError::Refused(_)) => Ok(false),
        Err(FormatError::NoMemory) => Err(NoMemory),
    }
}

/// What stands before the items and the text of each, one after another.
fn outputs(alloc: Global, items: &Items) -> Result<Vec<u8>, NoMemory> {
    let mut all = items.head().to_vec(alloc)?;
    for index in 0..items.len() {
        all.extend_from_slice(items.output(index))?;
    }
    Ok(all)
}

#[test]
fn five_hundred_edits(rt: HostRuntime) -> Result<(), Fail> {
    let alloc = rt.alloc();
    let mut items = Items::from_bytes(alloc, HEAD.as_bytes())?;
    let mut texts = Vec::new(alloc);
    let mut state = 1;
    for _ in 0..500u64 {
        let kind = next(state);
        let place = next(kind);
        let choice = next(place);
        state = next(choice);
        let is_one = below(choice, 5) > 0;
        let text = drawn(if is_one { ITEMS } else { OTHERS }, state);
        let kind = below(kind, 5);
        let count = texts.len();
        let index = below(place, count.saturating_add(1));
        let is_made = edit(&mut items, &mut texts, kind, index, text)?;
        assert!(rt; is_made == (is_one || kind == 0 && index < count));
        let whole = items.whole()?;
        assert!(rt; is_together(alloc, texts.as_slice(), whole.as_bytes())?);
        assert!(rt; whole.as_bytes() == outputs(alloc, &items)?.as_slice());
    }
    Ok(())
}
