//! Which files are equal. Of each field of each node there are two texts that differ in it alone, and of each list two that
//! differ in its length.

use crate::trees::{equal, file_within};
use lay_test_rows::{BETWEEN, parts};
use std::alloc::Global;
use std::process::Abort;

/// The two texts of each row, which stand between two others, read to files that aren't equal, and each to one that equals
/// itself.
fn each_differs(rt: &impl Abort, alloc: Global, before: &str, rows: &str, after: &str) {
    for row in rows.split(BETWEEN) {
        let (given, other) = parts(row);
        let answer = equal(
            file_within(alloc, before, given, after),
            file_within(alloc, before, other, after),
        );
        assert_eq!(rt; answer, Some(false), "{given} and {other}");
        let answer = equal(
            file_within(alloc, before, other, after),
            file_within(alloc, before, given, after),
        );
        assert_eq!(rt; answer, Some(false), "{other} and {given}");
        for text in [given, other] {
            let answer = equal(
                file_within(alloc, before, text, after),
                file_within(alloc, before, text, after),
            );
            assert_eq!(rt; answer, Some(true), "{text}");
        }
    }
}

/// The two texts of each row read to equal files.
fn each_equals(rt: &impl Abort, alloc: Global, rows: &str) {
    for row in rows.split(BETWEEN) {
        let (given, other) = parts(row);
        let answer = equal(
            file_within(alloc, "", given, ""),
            file_within(alloc, "", other, ""),
        );
        assert_eq!(rt; answer, Some(true), "{given} and {other}");
    }
}

// What isn't in the tree tells no two files apart.
#[test]
fn spellings(rt: HostRuntime) {
    let documentation = "/** one */struct A;→#[doc=\" one\"]struct A;§\
        /// one\nstruct A;→#[doc=r#\" one\"#]struct A;§\
        //! one\n→/*! one*/§\
        /** a\nb*/struct A;→#[doc=\" a\\nb\"]struct A;§\
        m!{/// one\n}→m!{/** one*/}§\
        m!{#[doc=\"a\"]}→m!{# [ doc = \"a\" ]}";
    let lists = "use a::{b,c,};→use a::{b,c};§\
        struct A(B,);→struct A(B);§\
        enum A{B,}→enum A{B}§\
        struct A<>;→struct A;§\
        struct A<B:>;→struct A<B>;§\
        struct A where;→struct A;§\
        struct A where B:C,;→struct A where B:C;§\
        trait A:{}→trait A{}§\
        impl<>A{}→impl A{}";
    let code = "type A=Vec::<u8>;→type A=Vec<u8>;§\
        fn f(){;;a;;}→fn f(){a;}§\
        fn f(){for|a in b{}}→fn f(){for a in b{}}§\
        fn f(){match a{b=>{c}}}→fn f(){match a{b=>c,}}§\
        fn f(){match a{b=>{{c}}d=>{e}}}→fn f(){match a{b=>c,d=>e}}§\
        fn f(){match a{b=>{},}}→fn f(){match a{b=>{}}}§\
        const A:B=||{c};→const A:B=||c;§\
        const A:B=|c|{{;|d|{e}}};→const A:B=|c||d|e;§\
        const A:B=||{S{}};→const A:B=||S{};§\
        fn f(){if||{a}{}}→fn f(){if||a{}}§\
        fn f(){if||{{S{}}}{}}→fn f(){if||{S{}}{}}§\
        fn f(){a(b,)}→fn f(){a(b)}";
    let gaps = "struct/* a */A /**/;// b→struct A;§\
        \u{feff}struct A;\r\n→struct A;§\
        #!/bin/a\r\nstruct A;→#!/bin/a\nstruct A;§\
        m!{a b}→m!{a/**/b}§\
        m!{+ =}→m!{+/**/=}";
    for rows in [documentation, lists, code, gaps] {
        each_equals(&rt, rt.alloc(), rows);
    }
}

#[test]
fn files_and_attributes(rt: HostRuntime) {
    let files =
        "#!a\nstruct A;→struct A;§#!a→#!b§#![a]→§#![a]→#![b]§#![a]#![b]→#![b]#![a]§#![a]#![a]→#![a]§\
        struct A;→§struct A;struct B;→struct B;struct A;§struct A;struct A;→struct A;";
    let attributes =
        "#[a]→§#[a]→#[b]§#[a]#[b]→#[b]#[a]§#[a]→#[a()]§#[a(b)]→#[a[b]]§#[a{b}]→#[a(b)]§#[a(b)]→#[a(c)]§#[a(b)]→#[a()]§\
        #[a=b]→#[a=c]§#[a=b]→#[a(b)]§#[a=b]→#[a]§#[a=b]→#[a=b b]§#[unsafe]→#[a]§#[unsafe]→#[r#unsafe]§#[unsafe]→#[unsafe()]§\
        #[a::b]→#[a]§#[a::b]→#[b::a]§#[::a]→#[a]§#[r#a]→#[a]§#[self]→#[super]§\
        /// a\n→/// b\n§/// a\n→///a\n§/// a\n→#[a]§/// a\n→#[r#doc=\" a\"]§#[doc=\"a\"]→#[doc=b\"a\"]§/// a\n→/** a\n*/";
    let tokens =
        "a→b§a→r#a§1→1.§1→'1'§\"a\"→b\"a\"§+=→+ =§+ +→+ -§a→§a→a a§a b→b a§(a)→[a]§(a)→{a}§(a)b→(a b)§()()→(())§\
        /// a\n→//! a\n§/// a\n→/// b\n§/// a\n→a§'a→'b§_→a§1→1u8§r\"a\"→r#\"a\"#§:::→:: :";
    let calls =
        "m!{}→n!{}§m!{}→m!();§m![];→m!();§a::m!{}→m!{}§a::m!{}→b::m!{}§::m!{}→m!{}§r#m!{}→m!{}§m!{}→macro_rules! m{}";
    each_differs(&rt, rt.alloc(), "", files, "");
    each_differs(&rt, rt.alloc(), "", attributes, "struct A;");
    each_differs(&rt, rt.alloc(), "m!{", tokens, "}");
    each_differs(&rt, rt.alloc(), "", calls, "");
}

#[test]
fn items(rt: HostRuntime) {
    let visibilities =
        "pub→§pub(crate)→pub§pub(self)→pub(super)§pub(crate)→pub(self)§pub(in a)→pub(in b)§pub(in a)→pub(crate)§\
        pub(in a)→pub(in::a)§pub(in a::b)→pub(in a)";
    let kinds =
        "struct A;→mod A;§struct A{}→enum A{}§struct A{}→union A{}§trait A{}→impl A{}§mod a;→mod a{}§use a;→extern crate a;§\
        const A:B=c;→static A:B=c;§extern{}→mod a{}§fn f(){}→m!{}§type A=B;→use A as B;§macro_rules! m{}→macro_rules! n{}§\
        macro_rules! m{}→macro_rules! m();§macro_rules! m{}→macro_rules! m{a}";
    let crates =
        "extern crate a;→extern crate b;§extern crate self as a;→extern crate b as a;§extern crate a as b;→extern crate a;§\
        extern crate a as b;→extern crate a as _;§extern crate a as b;→extern crate a as c;§extern crate r#a;→extern crate a;§\
        extern crate a as b;→extern crate a as r#b;";
    let imports =
        "use a;→use b;§use::a;→use a;§use a::b;→use b;§use a::b;→use c::b;§use a;→use*;§use a::{b};→use a::b;§\
        use{a,b};→use{b,a};§use{a};→use{};§use a as b;→use a;§use a as b;→use a as _;§use a as b;→use a as c;§use r#a;→use a;§\
        use a::*;→use*;§use{a};→use{b};§use a::b::c;→use a::c;";
    let modules =
        "mod a;→mod b;§mod a{}→mod b{}§mod a{#![b]}→mod a{}§mod a{struct B;}→mod a{}§mod a{struct B;}→mod a{struct C;}";
    each_differs(&rt, rt.alloc(), "", visibilities, " struct A;");
    for rows in [kinds, crates, imports, modules] {
        each_differs(&rt, rt.alloc(), "", rows, "");
    }
}

#[test]
fn functions(rt: HostRuntime) {
    let alloc = rt.alloc();
    let heads =
        "const fn f()→fn f()§async fn f()→fn f()§unsafe fn f()→fn f()§extern fn f()→fn f()§extern \"C\" fn f()→extern fn f()§\
        extern \"C\" fn f()→extern \"D\" fn f()§extern r\"C\" fn f()→extern \"C\" fn f()§fn f()→fn g()§fn f<A>()→fn f()§\
        fn f()->A→fn f()§fn f()->A→fn f()->B§fn f()where A:B→fn f()§const fn f()→async fn f()§fn r#f()→fn f()";
    let params =
        "a:B→§a:B→c:B§a:B→a:C§#[a]b:C→b:C§#[a]b:C→#[d]b:C§a:B,c:D→c:D,a:B§self→&self§&self→&mut self§&'a self→&self§\
        &'a self→&'b self§self→mut self§self→self:A§self:A→self:B§...→§...→a:...§a:...→b:...§a:...→a:B§self→§#[a]self→self§\
        #[a]...→...§mut a:B→a:B";
    let traits =
        "fn f();→fn f(){}§const A:B;→const A:B=c;§type A;→type A=B;§type A:B;→type A;§type A:B;→type A:C;§type A:B+C;→type A:B;";
    let foreign =
        "safe fn f();→fn f();§safe fn f();→unsafe fn f();§static A:B;→static mut A:B;§static A:B;→static C:B;§static A:B;→static A:C;§\
        fn f();→pub fn f();§type A;→type B;";
    each_differs(&rt, alloc, "", heads, "{}");
    each_differs(&rt, alloc, "fn f(", params, "){}");
    each_differs(&rt, alloc, "trait A{", traits, "}");
    each_differs(&rt, alloc, "extern{", foreign, "}");
}

#[test]
fn generics_and_where_clauses(rt: HostRuntime) {
    let alloc = rt.alloc();
    let params =
        "'a→§'a→'b§'a:'b→'a§'a:'b→'a:'c§'a:'b+'c→'a:'b§#[a]'b→'b§A→B§A:B→A§A:B→A:C§A:B+C→A:B§A=B→A§A=B→A=C§#[a]B→B§\
        const A:B→A:B§const A:B→const C:B§const A:B→const A:C§const A:B=1→const A:B§const A:B=1→const A:B=2§const A:B=1→const A:B=c§\
        const A:B=c→const A:B=d§const A:B={1}→const A:B=1§const A:B={1}→const A:B={2}§const A:B=-1→const A:B=1§\
        const A:B=-1→const A:B=-2§#[a]const B:C→const B:C§A,B→B,A§A→A,A§'a→a§const A:B=true→const A:B=false§r#A→A";
    each_differs(&rt, alloc, "struct A<", params, ">;");
    let predicates =
        "B:C→§B:C→D:C§B:C→B:D§B:C→B:§'a:'b→'c:'b§'a:'b→'a:'c§'a:'b→'a:§'a:'b+'c→'a:'b§for<'a>B:C→B:C§\
        for<'a>B:C→for<'b>B:C§for<>B:C→B:C§B:C,D:E→D:E,B:C§B:C+D→B:C§a:→'a:§for<'a:'b>B:→for<'a>B:§for<#[c]'a>B:→for<'a>B:";
    each_differs(&rt, alloc, "struct A where ", predicates, ";");
}

#[test]
fn heads_of_items(rt: HostRuntime) {
    let aliases =
        "type A=B;→type C=B;§type A=B;→type A=C;§type A<B>=C;→type A=C;§type A=B where C:D;→type A=B;";
    let structs =
        "struct A;→struct B;§struct A<B>;→struct A;§struct A;→struct A();§struct A();→struct A{}§struct A where B:C;→struct A;§\
        struct A(B);→struct A(C);§struct A(pub B);→struct A(B);§struct A(#[b]C);→struct A(C);§struct A(B,C);→struct A(B);§struct A(B);→struct A();§\
        struct A{b:C}→struct A{d:C}§struct A{b:C}→struct A{b:D}§struct A{pub b:C}→struct A{b:C}§struct A{#[b]c:D}→struct A{c:D}§struct A{b:C}→struct A{}";
    let unions =
        "union A{}→union B{}§union A<B>{}→union A{}§union A where B:C{}→union A{}§union A{b:C}→union A{}§union A{b:C}→union A{b:D}";
    let enums =
        "enum A{}→enum B{}§enum A<B>{}→enum A{}§enum A where B:C{}→enum A{}§enum A{B}→enum A{}§enum A{B}→enum A{C}§enum A{B}→enum A{B()}§\
        enum A{B()}→enum A{B{}}§enum A{B=1}→enum A{B}§enum A{B=1}→enum A{B=2}§enum A{#[b]C}→enum A{C}§enum A{pub B}→enum A{B}§enum A{B,C}→enum A{C,B}§\
        enum A{B(C)}→enum A{B(D)}";
    let values =
        "const A:B=c;→const D:B=c;§const A:B=c;→const _:B=c;§const A:B=c;→const A:D=c;§const A:B=c;→const A:B=d;§\
        static A:B=c;→static mut A:B=c;§static A:B=c;→static D:B=c;§static A:B=c;→static A:D=c;§static A:B=c;→static A:B=d;";
    let traits =
        "unsafe trait A{}→trait A{}§trait A{}→trait B{}§trait A<B>{}→trait A{}§trait A:B{}→trait A{}§trait A:B{}→trait A:C{}§\
        trait A where B:C{}→trait A{}§trait A{#![b]}→trait A{}§trait A{fn f();}→trait A{}§trait A{fn f();}→trait A{fn g();}";
    let impls =
        "unsafe impl A{}→impl A{}§impl A{}→impl B{}§impl<A>B{}→impl B{}§impl A for B{}→impl B{}§impl!A for B{}→impl A for B{}§\
        impl A for B{}→impl C for B{}§impl A where B:C{}→impl A{}§impl A{#![b]}→impl A{}§impl A{fn f(){}}→impl A{}§impl A{fn f(){}}→impl A{fn f(){a}}";
    let foreign =
        "unsafe extern{}→extern{}§extern \"C\"{}→extern{}§extern \"C\"{}→extern \"D\"{}§extern{#![a]}→extern{}§extern{fn f();}→extern{}";
    for rows in [
        aliases, structs, unions, enums, values, traits, impls, foreign,
    ] {
        each_differs(&rt, rt.alloc(), "", rows, "");
    }
}

#[test]
fn types(rt: HostRuntime) {
    let paths =
        "a→b§r#a→a§a::b→a§a::b→b::a§::a→a§<a>::b→<c>::b§<a as b>::c→<a>::c§<a as b>::c→<a as d>::c§<a>::b→a::b§<a>::b→<a>::c§Self→self§\
        a<b>→a§a<b>→a<c>§a<>→a§a()→a<>§a(b)→a(c)§a(b)→a()§a()->b→a()§a()->b→a()->c§a<b>::c→a::c";
    let arguments =
        "'b→'c§'b→b§1→2§-1→1§-1→-2§{b}→b§{b}→{c}§true→false§1→1.§b=c→b:c§b=c→d=c§b=c→b=d§b=1→b=c§b=1→b=2§b=-1→b=1§b<c>=d→b=d§b<c>=d→b<e>=d§\
        b:c→b:d§b:c→b:c+d§b:c→d:c§b,c→c,b§b→b,b§b→";
    let others =
        "m!()→n!()§m!()→m![]§(a)→a§(a)→(a,)§(a)→(b)§(a,b)→(b,a)§(a,)→()§()→!§!→_§*const a→*mut a§*const a→*const b§&a→&mut a§&'a b→&b§\
        &'a b→&'c b§&a→&b§&a→*const a§[a]→[b]§[a;1]→[a]§[a;1]→[b;1]§[a;1]→[a;2]";
    let functions =
        "fn()→unsafe fn()§for<'a>fn()→fn()§for<'a>fn()→for<'b>fn()§for<>fn()→fn()§extern fn()→fn()§extern \"C\" fn()→extern \"D\" fn()§\
        extern \"C\" fn()→extern fn()§fn(a)→fn()§fn(a)→fn(b)§fn(a:b)→fn(b)§fn(a:b)→fn(c:b)§fn(_:b)→fn(c:b)§fn(#[a]b)→fn(b)§fn(...)→fn()§fn()->a→fn()§\
        fn()->a→fn()->b§for<'a:'b>fn()→for<'a>fn()§for<#[a]'b>fn()→for<'b>fn()§fn(a,b)→fn(b,a)";
    let bounds =
        "dyn a→impl a§dyn a→dyn b§dyn a+b→dyn a§dyn a+b→dyn b+a§dyn 'a→dyn 'b§dyn ?a→dyn a§dyn(a)→dyn a§dyn for<'a>b→dyn b§\
        dyn for<'a>b→dyn for<'c>b§dyn 'a→dyn a";
    for rows in [paths, others, functions, bounds] {
        each_differs(&rt, rt.alloc(), "type A=", rows, ";");
    }
    each_differs(&rt, rt.alloc(), "type A=a<", arguments, ">;");
}

#[test]
fn patterns(rt: HostRuntime) {
    let simple =
        "a→b§ref a→a§mut a→a§a@b→a§a@b→a@c§r#a→a§a|b→a|c§a|b→a|b|c§a|b→b|a§1→2§-1→1§1→'1'§_→..§m!()→n!()§m!()→m![]§a::b→a::c§\
        1..2→1..=2§1..→..1§1..2→1..3§1..2→0..2§a..→b..§a..→1..§-1..→1..§..a→..b§&a→&mut a§&a→&b§true→a";
    let composed =
        "a{}→b{}§a{b}→a{}§a{b}→a{c}§a{b:c}→a{b}§a{b:c}→a{d:c}§a{b:c}→a{b:d}§a{0:b}→a{1:b}§a{0:b}→a{0:c}§a{#[b]c}→a{c}§a{#[b]c:d}→a{c:d}§\
        a{#[b]0:c}→a{0:c}§a{..}→a{}§a{b,c}→a{c,b}§a()→a{}§a()→b()§a(b)→a(c)§a(b)→a()§(a,b)→(b,a)§(a,)→(a)§(a)→a§(a)→(b)§[a]→[b]§[a]→(a)§[a,b]→[a]§\
        a{ref b}→a{b}";
    for rows in [simple, composed] {
        each_differs(&rt, rt.alloc(), "fn f(){for ", rows, " in a{}}");
    }
}

#[test]
fn values(rt: HostRuntime) {
    let simple =
        "1→2§1→true§true→false§\"a\"→r\"a\"§a→b§a::<b>→a§_→a§m!()→m![]§(a)→a§(a)→(b)§continue→continue 'a§continue 'a→continue 'b§(a,)→(a)§\
        (a,b)→(b,a)§()→(a,)§[a]→[a,a]§[a]→(a,)§[a;1]→[a]§[a;1]→[b;1]§[a;1]→[a;2]§return→return a§return a→return b§return→break§break→break 'a§\
        break 'a→break 'b§break a→break§break a→break b§break 'a→continue 'a";
    let structs =
        "A{}→B{}§A{b:c}→A{b:d}§A{b:c}→A{d:c}§A{b:c}→A{b}§A{b}→A{c}§A{0:b}→A{1:b}§A{0:b}→A{0:c}§A{..}→A{}§A{..b}→A{..}§A{..b}→A{..c}§A{#[b]c}→A{c}§\
        A{#[b]c:d}→A{c:d}§A{#[b]0:c}→A{0:c}§A{b}→A{}§A{b,c}→A{c,b}";
    let chains =
        "a+b→a-b§a+b→c+b§a+b→a+c§a+b→a+b+c§a+b-c→a-b+c§a==b→a!=b§a<b→a>b§a<=b→a>=b§a<b→a<=b§a<<b→a>>b§a*b→a/b§a/b→a%b§a|b→a^b§a^b→a&b§\
        a||b→a&&b§a==b→a<b§a as b→c as b§a as b→a as c§a as b→a as b as b";
    let prefixes =
        "-a→!a§!a→*a§*a→&a§&a→&mut a§&mut a→&raw mut a§&raw const a→&raw mut a§-a→-b§-a→--a§-!a→!-a§\
        a..b→a..=b§a..→..a§a..b→a..c§a..b→c..b§..→a..§..→..a";
    let assignments =
        "a=b→a+=b§a+=b→a-=b§a-=b→a*=b§a*=b→a/=b§a/=b→a%=b§a%=b→a^=b§a^=b→a&=b§a&=b→a|=b§a|=b→a<<=b§a<<=b→a>>=b§a=b→c=b§a=b→a=c§a=b=c→a=b";
    let steps =
        "a.b→a.c§a.b→a.0§a.0→a.1§a.b→a.b()§a.b()→a.c()§a.b::<c>()→a.b()§a.b::<>()→a.b()§a.b::<c>()→a.b::<d>()§a.b(c)→a.b(d)§a.b(c)→a.b()§a()→a[b]§\
        a(b)→a(c)§a(b)→a()§a[b]→a[c]§a?→a.await§a?→a??§a?.b→a.b?§a?→b?";
    for rows in [simple, structs, chains, prefixes, assignments, steps] {
        each_differs(&rt, rt.alloc(), "const A:B=", rows, ";");
    }
}

#[test]
fn blocks(rt: HostRuntime) {
    let blocks =
        "{}→{a}§'a:{}→{}§'a:{}→'b:{}§unsafe{}→{}§unsafe{a}→unsafe{b}§const{}→unsafe{}§const{a}→const{b}§async{}→async move{}§async{a}→async{b}";
    let branches =
        "if a{}→if b{}§if a{}→if a{b}§if a{}→if a{}else{}§if a{}else{b}→if a{}else{c}§if a{}else if b{}→if a{}§if let a=b{}→if b{}§\
        if let a=b{}→if let c=b{}§if let a=b{}→if let a=c{}§if a{}else if b{}→if a{}else{if b{}}§\
        if let a=b&&c{}→if let a=b{}§if let a=b&&c{}→if let a=b&&d{}§if let a=b&&c{}→if let a=d&&c{}§if let a=b&&c{}→if let d=b&&c{}§\
        if a&&let b=c{}→if a&&b{}§if a&&let b=c{}→if let b=c&&a{}§if a&&let b=c{}→if a&&let b=c&&d{}§if let a=b&&c{}→if let a=b&&let c=d{}";
    let matches =
        "match a{}→match b{}§match a{#![b]}→match a{}§match a{b=>c}→match a{}§match a{b=>c}→match a{d=>c}§match a{b=>c}→match a{b=>d}§\
        match a{#[d]b=>c}→match a{b=>c}§match a{b if c=>d}→match a{b=>d}§match a{b if c=>d}→match a{b if e=>d}§match a{b=>{c;}}→match a{b=>c}§\
        match a{b=>c,d=>e}→match a{d=>e,b=>c}";
    let loops =
        "loop{}→'a:loop{}§'a:loop{}→'b:loop{}§loop{}→loop{a}§while a{}→while b{}§while a{}→while a{b}§'a:while b{}→while b{}§\
        while let a=b{}→while b{}§while let a=b{}→while let c=b{}§while let a=b&&c{}→while let a=b{}§while a&&let b=c{}→while a&&let b=d{}§for a in b{}→for c in b{}§for a in b{}→for a in c{}§for a in b{}→for a in b{c}§\
        'a:for b in c{}→for b in c{}§while a{}→loop{}";
    let closures =
        "||a→move||a§||a→||b§|a|b→||b§|a|b→|c|b§|a:b|c→|a|c§|a:b|c→|a:d|c§|#[a]b|c→|b|c§||->a{}→||{}§||->a{}→||->b{}§||->a{}→||->a{b}§\
        move||->a{}→||->a{}§|a|->b{}→||->b{}§|a,b|c→|b,a|c§async||a→||a§async||a→move||a§async move||a→async||a§async||->a{}→||->a{}§\
        async||{}→async{}§||{a}→||{a;}§||{a}→||'b:{a}§||{}→||{a}§||{#[b]a}→||{a}§||{m!()}→||m!()§||{a}→||b§||{a}+b→||{a+b}§\
        if||{S{}}{}→if||{(S{})}{}§if||{S{}}{}→if||{T{}}{}";
    for rows in [blocks, branches, matches, loops, closures] {
        each_differs(&rt, rt.alloc(), "const A:B=", rows, ";");
    }
    let statements =
        "let a;→let b;§#[a]let b;→let b;§let a:b;→let a;§let a:b;→let a:c;§let a=b;→let a;§let a=b;→let a=c;§let a=b else{};→let a=b;§\
        let a=b else{c};→let a=b else{d};§a;→a§a;→b;§#[a]b;→b;§a;b→b;a§a→§struct A;→struct B;§struct A;→§#![a]b→b§m!{}→m!();§a;→a;a;§let a;→a;§\
        let a=b else{};→let a=b else{c};";
    each_differs(&rt, rt.alloc(), "fn f(){", statements, "}");
}
