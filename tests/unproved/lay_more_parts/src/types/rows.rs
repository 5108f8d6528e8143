//! Rows worked out by hand from the rules of the grammar and of its layout.
use crate::types::kinds::{Call, begins_pat, printed, stays};
use lay_node::{PathStyle, TypePlace};
use lay_test_rows::{BETWEEN, parts};
use std::alloc::Global;
use std::process::Abort;

/// The text is printed so by the call at the depth.
fn row(rt: &impl Abort, alloc: Global, call: Call, depth: u32, row: &str) {
    let (text, wanted) = parts(row);
    let same = match printed(alloc, call, text.as_bytes(), depth) {
        Some(found) => found.as_bytes() == wanted.as_bytes(),
        None => wanted == "no",
    };
    assert!(rt; same, "{row}");
}

/// The same of all rows of a table.
fn table(rt: &impl Abort, alloc: Global, call: Call, rows: &str) {
    for one in rows.split(BETWEEN) {
        row(rt, alloc, call, 256, one);
    }
}

/// Types of each kind where several bounds may stand, and what is no type.
const TYPES: &str =
    "Vec<Vec<u8>>→Vec<Vec<u8>>§fn(x:u8)->u8→fn(x: u8) -> u8§impl A+'b→impl A + 'b§&'a mut[T;3]→&'a mut [T; 3]§(A,)→(A,)§\
=→no§()→()§(A)→(A)§(A,B,)→(A, B)§(,)→no§!→!§_→_§*const A→*const A§*mut[A]→*mut [A]§*A→no§&&A→&&A§m!(a,b)→m!(a, b)§[A;]→no§\
dyn for<'a>A<'a>+?B+(C)→dyn for<'a> A<'a> + ?B + (C)§unsafe extern \"C\" fn(A,...)→unsafe extern \"C\" fn(A, ...)§\
fn(A,...,)→no§fn(#[a]_:A)→fn(#[a] _: A)§fn(::A)→fn(::A)§<A as B<C>>::D→<A as B<C>>::D§A::<B>::C→A<B>::C§Fn(A)->B→Fn(A) -> B§\
Fn()->B::C→Fn() -> B::C§Fn()->(B)::C→no§A<'a,B,1,-1,{n},C=D,E:F+'g>→A<'a, B, 1, -1, { n }, C = D, E: F + 'g>§A<,>→no§\
A<B<C>>→A<B<C>>§A<B>>→no§impl A<B>=→no§dyn→no";

/// Where one bound may stand.
const ONE_BOUND: &str =
    "impl A→impl A§dyn A<B>→dyn A<B>§impl A+B→no§&dyn A→&dyn A§impl use<A>→impl use<A>§use<A>→no";

const CODE_PATHS: &str =
    "a::<B>::c→a::<B>::c§a<B>→no§::a::r#b→::a::r#b§self→self§a::→no§<A>::b→<A>::b§Fn(A)→no";

const GENERICS: &str =
    "<'a,T:B=C>→<'a, T: B = C>§<>→§→§<T:use<B>=C>→<T: use<B> = C>§<'a:'b+'c,const N:usize=1,#[x]T:,>→<'a: 'b + 'c, const N: usize = 1, #[x] T>§<,>→no";

const WHERES: &str =
    "where A:B,→ where A: B§where→§→§where 'a:'b,for<'c>A:B<'c>+C→ where 'a: 'b, for<'c> A: B<'c> + C§where A→no§\
where A:B C:D→no§where A:,B:C→ where A:, B: C§where A:use<B>,C:→ where A: use<B>, C:§where A:use→no";

const BOUNDS: &str =
    "A+'b→A + 'b§(?A)→(?A)§A+→no§→no§use<'a,B,Self,>+C→use<'a, B, Self> + C§A+use<>→A + use<>§use<'_>+use<r#fn>→use<'_> + use<r#fn>§\
use→no§use<,>→no§use<self>→no§use<fn>→no§use<A::B>→no§use<A<B>>→no§use::<A>→no§(use<A>)→no§?use<A>→no§for<>use<A>→no";

const CODE_ARGS: &str = "::<B,>→::<B>§→§<B>→no§::<>→::<>";

const KIND_ARGS: &str = "::<B,>→<B>§<B>→<B>§(A,B)->C→(A, B) -> C§()→()";

#[test]
fn types(rt: HostRuntime) {
    let alloc = rt.alloc();
    table(&rt, alloc, Call::Type(TypePlace::Bounds), TYPES);
    table(&rt, alloc, Call::Type(TypePlace::NoBounds), ONE_BOUND);
    assert!(&rt; stays(alloc, b"="), "the cursor stays");
    row(&rt, alloc, Call::Type(TypePlace::Bounds), 0, "A→no");
    row(&rt, alloc, Call::Type(TypePlace::Bounds), 1, "A→A");
    row(&rt, alloc, Call::Type(TypePlace::Bounds), 1, "&A→no");
}

#[test]
fn what_types_are_made_of(rt: HostRuntime) {
    let alloc = rt.alloc();
    table(&rt, alloc, Call::Path(PathStyle::Code), CODE_PATHS);
    table(&rt, alloc, Call::Generics, GENERICS);
    table(&rt, alloc, Call::Wheres, WHERES);
    table(&rt, alloc, Call::Bounds, BOUNDS);
    row(&rt, alloc, Call::Bounds, 0, "use<A>→no");
    row(&rt, alloc, Call::Bounds, 1, "use<A>→use<A>");
    table(&rt, alloc, Call::Args(PathStyle::Code), CODE_ARGS);
    table(&rt, alloc, Call::Args(PathStyle::Kind), KIND_ARGS);
    table(&rt, alloc, Call::MacroCall, "m!(a,b)→m!(a, b)§m!→no");
    table(&rt, alloc, Call::OuterAttr, "#[x]→#[x]\n§#![x]→no");
    // What is within a node that isn't counted stands one level deeper.
    row(&rt, alloc, Call::Args(PathStyle::Kind), 1, "<A>→no");
    row(&rt, alloc, Call::Args(PathStyle::Kind), 2, "<A>→<A>");
}

/// Patterns of each kind where alternatives may stand, and what is no pattern.
const PATS: &str =
    "|Some(x)|None→Some(x) | None§[a,..]→[a, ..]§1→1§-1→-1§-a→no§\"s\"→\"s\"§true→true§_→_§..→..§m!(a)→m!(a)§a::B→a::B§A::<B>::C→A::<B>::C§\
self→no§Self→Self§ref mut a→ref mut a§a@1|2→a @ 1 | 2§a@(1|2)→a @ (1 | 2)§1..=2→1..=2§1..=→no§..=1→..=1§a::B..→a::B..§..-1→..-1§1. ..2.→1. ..2.§&a→&a§&&mut a→&&mut a§\
&1..2→no§&(1..2)→&(1..2)§A{b:C|D,0:_,ref e,#[x]f,..}→A {\n    b: C | D,\n    0: _,\n    ref e,\n    #[x]\n    f,\n    ..\n}§A{}→A {}§A{..}→A { .. }§\
A{a,}→A { a }§A{..,a}→no§A{a@1}→no§A{a::B}→no§A()→A()§A(B,..,)→A(B, ..)§()→()§(a,)→(a,)§(..)→(..)§(|..)→(..)§\
(..,)→no§(|..,)→no§(..,a)→(.., a)§(a)→(a)§[]→[]§<A>::B→<A>::B§a!→no§a::b!→no§|→no§a|→no§a||b→no";

/// Whether a pattern stands at the front, by what may follow one.
const FRONTS: &str =
    "1(a)→no§1{}→no§..1..→no§1..2..=3→no§1..{}→no§..(a)→no§a!→no§ref a!→no§a::<B>!→no§a!=1→yes§a|b|→no§a|→no§a,→yes§\
a|b if c→yes§1..=2,→yes§self→no";

/// A pattern stands at the front of the text, or none does, as is wanted.
fn front(rt: &impl Abort, alloc: Global, row: &str) {
    let (text, wanted) = parts(row);
    assert!(rt;
        begins_pat(alloc, text.as_bytes()) == (wanted == "yes"),
        "{row}"
    );
}

#[test]
fn what_follows_patterns(rt: HostRuntime) {
    for row in FRONTS.split(BETWEEN) {
        front(&rt, rt.alloc(), row);
    }
}

#[test]
fn patterns(rt: HostRuntime) {
    let alloc = rt.alloc();
    table(&rt, alloc, Call::Pat, PATS);
    table(
        &rt,
        alloc,
        Call::PatNoAlt,
        "&mut a@1..=9→&mut a @ 1..=9§a|b→no§|a→no§(a|b)→(a | b)",
    );
    row(&rt, alloc, Call::Pat, 0, "a→no");
    row(&rt, alloc, Call::Pat, 1, "a→a");
    row(&rt, alloc, Call::Pat, 1, "a|b→no");
    row(&rt, alloc, Call::Pat, 2, "a|b→a | b");
    row(&rt, alloc, Call::Pat, 1, "A{a}→no");
    row(&rt, alloc, Call::Pat, 2, "A{a}→A { a }");
}
