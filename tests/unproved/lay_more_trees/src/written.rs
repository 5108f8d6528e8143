//! What a text reads to can be written: files in which each kind of item, type, pattern, statement and expression stands.

use crate::trees::{file_within, written};
use lay_test_rows::BETWEEN;
use std::alloc::Global;
use std::process::Abort;

/// Each text of a row, between two others, reads to a file that can be written.
fn each_is_written(rt: &impl Abort, alloc: Global, before: &str, texts: &str, after: &str) {
    for text in texts.split(BETWEEN) {
        let answer = written(alloc, file_within(alloc, before, text, after));
        assert_eq!(rt; answer, Some(true), "{text}");
    }
}

#[test]
fn files(rt: HostRuntime) {
    let files =
        "§ \t\r\n§#!/bin/x§\u{feff}#!/bin/x\r\nstruct A;\r\n§////x\n/***/struct A;§#![x]//!y\n#![doc=\"/x\"]§//!a\n#![b]/*!c*/§struct A;struct B;";
    let documentation =
        "/** one */struct A;§#[doc=\" one\"]struct A;§#[doc=\"/x\"]struct A;§#[doc=\"a\\r\"]struct A;§#[doc=\"a\"b]struct A;§\
        #[doc=b\"a\"]struct A;§#[doc]#[r#doc=\"a\"]#[::doc=\"a\"]struct A;§#[doc=\"a\" \"b\"]struct A;§#[doc(hidden)]struct A;§\
        /** a\nb */mod c{/*! d\ne*/}§#![a=/// x\n]§#[doc=\"\"]struct A;§/** a */struct A;§#[doc=\"*a\"]struct A;§#[doc=\" a \"]struct A;";
    let attributes =
        "# ! [a::b = 1.] # [unsafe] use c;§#[a(b=\"c\",d)]#[a{b}]#[a[b]]#[a=b c]use a;§#[cfg(all(a,not(b)))]struct A;§\
        #[unsafe(a)]#[self::r#b]#[crate]use a;";
    let lists =
        "m!{a+=b;x.0}§m!(a&&b,&c,-1,f::<T>(x));§m!{/// x\na}§m!{a/** x */b}§m!(/// x\n);§m!{..=a ... b}§m!(a.b.0.1,1 .c,1. .d,x?.y);§\
        m!{$($a:ty),*}§m!{#[a]#![b]}§m!{a& &b;a&&b;&&a;return-1}§m!{a<b>(c);a::<b>(c);a::<b<c>>::d(e)}§m!{r#if(a)if(b){}}§\
        m!{'a 'b' b'c' b\"d\" r#\"e\"# br\"f\" c\"g\" cr\"h\" _ 1e5 0x1f}§m!{fn struct self}§m!{..0.1 .0.1}§m!{//!a\n/*!b\nc*/}";
    let macros =
        "m!{}§m![];§a::m!{b!{}}::a::b!();§macro_rules! m{()=>{1};}§macro_rules!m(()=>{});§macro_rules!{}§mod a{m!{}n!();#[b]macro_rules!o{}}";
    for texts in [files, documentation, attributes, lists, macros] {
        each_is_written(&rt, rt.alloc(), "", texts, "");
    }
}

#[test]
fn items(rt: HostRuntime) {
    let modules =
        "mod a;§mod a{mod b{struct C;}}§mod a{#![x]//!y\n}§#[x]mod a{//!y\n#[z]struct B;}";
    let imports =
        "use{};§use*;§use a as b;use a as _;use::a::*;§use crate::{self as a,r#fn,super::*,};§use a::{b::{c,d},b};§use r#type::{r#fn};";
    let visibilities =
        "pub struct A;§pub(crate)struct A(pub u8,B);§pub(self)use a;pub(super)mod b;§pub(in a::b)mod c{pub use d;}§struct A(pub(B));§struct A(pub(crate,));";
    let heads =
        "extern crate a;§pub extern crate self as _;§type A<>=B;§type A<B>:C=D where E:F,;§struct A{}§struct A();§struct A where;§\
        struct A<B>(B)where B:C;§struct A where B:C{}§pub struct A{#[b]c:D,pub(super)e:F}§union A{b:u8}§enum A{}§enum A{B{},C(),#[d]E=1<<2,}§\
        enum A<B>where B:C{D{e:F}}§const _:A=b;§pub static mut A:B=c;";
    let functions =
        "fn f(){}§const async unsafe extern \"C\" fn f<'a,B>(#[c]d:E)->F where G:H{i}§fn f(self){}§fn f(&self){}§fn f(&'a mut self,b:C){}§\
        fn f(mut self:A){}§fn f(a:B,...){}§fn f(a:...){}§fn f(/// x\na:B){}§fn f(&(a,_):&(B,C)){}§fn f(){fn g(){}}";
    let generics =
        "struct A<'a,'b:'a,C,D:'a+E,F=G,const H:I,const J:K=1,const L:M={n},const O:P=q>(R);§struct A<#[a]B,#[c]'d>;§\
        struct A where 'a:'b+'c,'d:,E:,F:G+H,for<'i>J:K<'i>;";
    let traits =
        "trait A where B:C,{}§trait C:D{fn e(&self);}§pub unsafe trait A<B>:C+D{#![e]type F:G;type H=I;const J:K;m!();}§\
        trait A{fn a<'b>(&'b mut self,c:D)->E where F:G;}";
    let others =
        "impl<T>A for B<T>{type C=D;}§impl<>A{}§unsafe impl<'a>!A for&'a B where C:D{#![e]}§impl A{m!{}}§impl A{const B:C=d;fn e(){}}§\
        impl !<A>::B for C{}§extern{}§extern \"C\"{pub fn a(b:u8,...)->u8;static mut C:u8;}§unsafe extern r\"C\"{safe fn a();type B;m!();}";
    for texts in [
        modules,
        imports,
        visibilities,
        heads,
        functions,
        generics,
        traits,
        others,
    ] {
        each_is_written(&rt, rt.alloc(), "", texts, "");
    }
}

#[test]
fn types_and_patterns(rt: HostRuntime) {
    let types =
        "a::B<C>§::a::r#b§<A as B>::C§<A>::B::<C>§A<'a,B,1,-1,true,{b},C=D,E<F>=G,H:I+'j,K=1,>§Fn(A,B)->C§Fn()->&A§Fn(A)::B§m!(a)§(A)§()§(A,)§(A,B)§!§_§\
        *const A§*mut A§&A§&'a mut A§[A]§[A;n*2]§fn()§for<'a>unsafe extern \"C\" fn(a:A,_:B,#[c]D,...)->E§for<>fn()§extern fn(::A)->!§\
        dyn A+'b+?C+(D)+for<'e>F<'e>§impl A§&dyn A§Box<dyn A+B>§Vec<Vec<A>>§Self§A<>§&&A";
    each_is_written(&rt, rt.alloc(), "type A=", types, ";");
    let patterns =
        "a§|a|b§a|b|_§1§-1.5§\"a\"§true§..§m!(a)§a::B§A::<B>::C§<A>::B§Self§ref mut a@B§mut a@1..=2§1..§..=2§a::B..c::D§-1..=-1§'a'..'b'§&a§&mut a§&&a§&ref mut a§\
        A{b:C,0:d,ref e,mut f,#[g]h,..}§A{}§A{..}§A(b,..,C)§(a,)§(..)§()§(a,b)§(a|b)§[a,..,b]§[]§(1..2)§&(1..)";
    each_is_written(&rt, rt.alloc(), "fn f(){for ", patterns, " in a{}}");
}

#[test]
fn values(rt: HostRuntime) {
    let chains =
        "a||b&&c§a<b&&c>d§a==(b<c)§a|b^c&d§a<<b>>c§a+b*c%d§a-(b-c)§a---b§a& &b§a&& &b§a< -b§a<<<b>::c§a||return b§return&&b§break<a>::b§\
        continue==b§m!{}-a";
    let casts =
        "a as u8 as u16§(a as u8)<b§a as u8<=b§a as u8+b as Vec<c><d§a as[u8;1]<b§a as dyn Fn()->(X)<b§a as fn()->!<b§-(a as u8)..§&raw const a as *const u8§\
        a as&dyn X+b";
    let others =
        "!!a§& &a§&mut&a§&raw const&raw mut a§&raw()§*raw§&raw§-return§-1. .a()§..§a..=b§a+b..c+d§1. ..2.§return..b§(a..b)..c§..::b§\
        a=b..=c=d§a+=b-=c§_=a§a as B<C<D>>=e§a==b=c";
    let steps =
        "x.0.1+1. .max(2.)§a.b(c).d(e)§[0;3][1]?§a.b::<c,>()§a.b::<>().c.await?[0]§(a.b)(c)§a. 0 . 1§1 .a§1f32.0§a[b..](..)§continue.a§m!{}.a§\
        <a as <b>::c>::d§a::<{b}>()§a.await";
    let structs = "S{a:1,b,..c}§S{0u8:a}§S{..}§S{.. ..a}§S{#[x]a}§<S as T>::U{a}§S{}+S{}";
    let groups =
        "()§(a,)§((a,b,),)§(..,)§[a,b,]§[]§[a;/** x */b]§[a; ;]§[a;#[x]]§return return§break 'a b§[break,continue 'a]§break 'a 'b:loop{}§break('a:{})";
    let blocks =
        "{}§'a:{b}§unsafe{}§const{a}§async{a}§async move{}§if a{}§if a{b}else if let C|D=e{}else{f}§if let A=b&&c{}§if a&&let B=c{}else if d==e&&let F=g&&return{}§match a{}§match a{#![b]#[c]D|E if f=>g,_=>{}}§\
        'a:loop{}§while a{}§'a:while let b=c{}§while let A=b&&let C=d{}§for a in b{}§match a{b=>{m!()}c=>{{d}}e=>{f;}}§if(S{}).a{}§match(S{}){}";
    let closures = "||a§move|a,b:C,|d§|(b,c)|->D{e}§|#[x]b|c§|_|{b}§|_|{b;}§||{}§||{{a}}§||{m!()}§||{m!{}}§||'a:{b}§||{#[c]b}§||{#![c]b}§||{a}+b§||{{a}.b}§||{||a}§||{a}.b§||{S{}}§\
        if||{a}{}§if||{S{}}{}§if||{||S{}}{}§if||||{S{}}{}§if||{return{}}{}§if||{a..{}}{}§if a+||{S{}}{}§||{return}..a§a(|b|c,d)§|a|b+c§|&a|a§||||a§async||a§async move|a|->B{c}";
    for texts in [
        chains, casts, others, steps, structs, groups, blocks, closures,
    ] {
        each_is_written(&rt, rt.alloc(), "const A:B=", texts, ";");
    }
}

#[test]
fn statements(rt: HostRuntime) {
    let statements =
        "§;;a();;b§a;;;§let Some(x)=y else{return};§let a;let b:C;let d=e;§match x{}-1§{}&a§if a{}.b()§unsafe{a}§loop{}while a{}for b in c{}§\
        m!{}m!();a§struct A;fn g(){}const B:C=d;e§use a;;;b§#[x]let a;#[y]b;#[z]c§union::a;union A{b:C}§a||return x;§a& &b;a&&b;&&a;§\
        'a:{break 'a}§'a:loop{}'b:while c{}'d:for e in f{}§#![a]b§macro_rules! m{}§async fn g(){}async{}§const fn g(){}const{}§unsafe fn g(){}unsafe{}§\
        let a=(b||c)else{};§let a=b{}.c else{};§let a=|b|c;§extern crate a;extern{}§m!{}.a§m![]§return§pub(crate)struct A;a";
    each_is_written(&rt, rt.alloc(), "fn f(){", statements, "}");
}
