//! Rows worked out by hand.

use oracle::command::{refusal_line, run, Status};
use oracle::lex::{lex, Kind};
use oracle::refuse::{format, Refusal};

fn big<T: Send + 'static>(f: impl FnOnce() -> T + Send + 'static) -> T {
    std::thread::Builder::new().stack_size(1 << 29).spawn(f).unwrap().join().unwrap()
}

/// Expands `c*76` written as `«c*76»`.
fn x(s: &str) -> String {
    let mut out = String::new();
    let mut rest = s;
    while let Some(p) = rest.find('«') {
        out.push_str(&rest[..p]);
        let q = rest.find('»').unwrap();
        let (a, n) = rest[p + 2..q].rsplit_once('*').unwrap();
        out.push_str(&a.repeat(n.parse().unwrap()));
        rest = &rest[q + 2..];
    }
    out.push_str(rest);
    out
}

/// The input is accepted with this output, which is its own.
fn gives(input: &str, output: &str) {
    let (input, output) = (x(input), x(output));
    for text in [&input, &output] {
        let bytes = text.clone().into_bytes();
        assert_eq!(big(move || format(&bytes)).as_deref(), Ok(&output[..]), "{:?}", &text[..text.len().min(300)]);
    }
}

fn refused(input: &str, refusal: Refusal) {
    let input = x(input);
    let bytes = input.clone().into_bytes();
    assert_eq!(big(move || format(&bytes)), Err(refusal), "{:?}", &input[..input.len().min(300)]);
}

/// A statement list inside `fn f() {}`.
fn stmts(input: &str, lines: &[&str]) {
    gives(
        &format!("fn f(){{{input}}}"),
        &format!("fn f() {{\n{}}}\n", lines.iter().map(|l| format!("    {l}\n")).collect::<String>()),
    );
}
use Refusal::*;

#[test]
fn empty() {
    gives("", "");
}

#[test]
fn two_structs() {
    gives("struct A;struct B;", "struct A;\nstruct B;\n");
}

#[test]
fn trailing_comma() {
    gives("use a::{b,c,};", "use a::{b, c};\n");
}

#[test]
fn list_width() {
    gives("use a::{b,«c*76»};", "use a::{b, «c*76»};\n");
    assert_eq!(x("use a::{b, «c*76»};").len(), 89);
    gives("use a::{b,«c*77»};", "use a::{\n    b,\n    «c*77»,\n};\n");
}

#[test]
fn call_width() {
    gives("fn f(){g(b,«c*78»);}", "fn f() {\n    g(b, «c*78»);\n}\n");
    assert_eq!(x("    g(b, «c*78»);").len(), 89);
    gives("fn f(){g(b,«c*79»);}", "fn f() {\n    g(\n        b,\n        «c*79»,\n    );\n}\n");
}

#[test]
fn arm_braces() {
    gives("fn f(){match x{A=>{b}C=>c,}}", "fn f() {\n    match x {\n        A => b,\n        C => c,\n    }\n}\n");
}

#[test]
fn arm_width() {
    gives("fn f(){match x{A=>g(«c*72»),}}", "fn f() {\n    match x {\n        A => g(«c*72»),\n    }\n}\n");
    assert_eq!(x("        A => g(«c*72»),").len(), 89);
    gives(
        "fn f(){match x{A=>g(«c*73»),}}",
        "fn f() {\n    match x {\n        A => {\n            g(«c*73»)\n        }\n    }\n}\n",
    );
}

#[test]
fn arm_macro() {
    gives(
        "fn f(){match x{A=>{m!()}B=>m!(),}}",
        "fn f() {\n    match x {\n        A => {\n            m!()\n        }\n        B => m!(),\n    }\n}\n",
    );
}

#[test]
fn tuple_index() {
    gives("fn f(){let y=x.0.1+1. .max(2.);}", "fn f() {\n    let y = x.0.1 + 1. .max(2.);\n}\n");
}

#[test]
fn joint_amp() {
    stmts("a& &b;a&&b;&&a;", &["a & &b;", "a && b;", "&&a;"]);
}

#[test]
fn struct_in_condition() {
    gives("fn f(){if (S{a:1}).b(){}}", "fn f() {\n    if (S { a: 1 }).b() {}\n}\n");
    let i = "struct A;fn f(){if S{a:1}.b(){}}";
    refused(i, NoItem(9));
    assert_eq!(refusal_line(i.as_bytes(), NoItem(9)), "1:10: no item\n");
}

#[test]
fn doc_spellings() {
    for i in ["/** one */struct A;", "#[doc=\" one\"]struct A;", "/// one\nstruct A;"] {
        gives(i, "/// one\nstruct A;\n");
    }
    gives("#[doc=\"/x\"]struct A;", "#[doc = \"/x\"]\nstruct A;\n");
}

#[test]
fn deep_doc_block() {
    gives("mod a{mod b{mod c{mod d{/** p\nq */const S:&str=r\"x\ny\";}}}}",
        "mod a {\n    mod b {\n        mod c {\n            mod d {\n                /** p\nq */\n                const S: &str = r\"x\ny\";\n            }\n        }\n    }\n}\n");
}

#[test]
fn plain_comments() {
    gives("////x\n/***/struct A;", "struct A;\n");
    let i = "////x\n/***/struct A;/*/*x*/";
    refused(i, NoToken(20));
    assert_eq!(refusal_line(i.as_bytes(), NoToken(20)), "2:15: no token\n");
}

#[test]
fn unbalanced() {
    refused("fn f( { }", Unbalanced(4));
    refused("fn f( { )", Unbalanced(8));
    refused("}", Unbalanced(0));
    refused("(", Unbalanced(0));
}

#[test]
fn depth() {
    {
        let i = x("const A:T=«(*254»1«)*254»;");
        let o = big(move || format(i.as_bytes())).unwrap();
        assert!(big(move || format(o.as_bytes())).is_ok());
    }
    refused("const A:T=«(*255»1«)*255»;", NoItem(0));
    {
        let i = x("fn f(){«match x{A=>*127»b«}*127»}");
        let o = big(move || format(i.as_bytes())).unwrap();
        assert_eq!(o.matches("=> {").count(), 126);
        let p = o.clone();
        assert_eq!(big(move || format(p.as_bytes())), Ok(o));
    }
    refused("fn f(){«match x{A=>*128»b«}*128»}", NoItem(0));
}

#[test]
fn bom_shebang() {
    gives("\u{feff}#!/bin/x\r\nstruct A;\r\n", "#!/bin/x\nstruct A;\n");
    gives("#![allow(x)]\nstruct A;", "#![allow(x)]\nstruct A;\n");
}
const GENERATED: &str = r#"/* automatically generated */
#![allow(non_camel_case_types)]
pub const MAX_NAME: u32 = 64;
#[repr(C)] #[derive(Debug,Copy,Clone)]
pub struct point_t { pub x: ::std::os::raw::c_int, pub name: [u8; 64usize] }
unsafe extern "C" { pub fn draw(p: *const point_t, n: usize) -> ::std::os::raw::c_int; }
impl Default for point_t { fn default() -> Self { unsafe { ::std::mem::zeroed() } } }
#[test]
fn layout() { assert_eq!(::std::mem::size_of::<point_t>(), 68usize, "size of point_t"); }
"#;
const GENERATED_OUT: &str = r#"#![allow(non_camel_case_types)]
pub const MAX_NAME: u32 = 64;
#[repr(C)]
#[derive(Debug, Copy, Clone)]
pub struct point_t {
    pub x: ::std::os::raw::c_int,
    pub name: [u8; 64usize],
}
unsafe extern "C" {
    pub fn draw(p: *const point_t, n: usize) -> ::std::os::raw::c_int;
}
impl Default for point_t {
    fn default() -> Self {
        unsafe { ::std::mem::zeroed() }
    }
}
#[test]
fn layout() {
    assert_eq!(::std::mem::size_of::<point_t>(), 68usize, "size of point_t");
}
"#;
#[test]
fn generated_file() {
    gives(GENERATED, GENERATED_OUT);
}

fn cmd(words: &[&str], input: &[u8]) -> (Status, String, String) {
    let w: Vec<String> = words.iter().map(|s| s.to_string()).collect();
    let v = input.to_vec();
    big(move || {
        let mut read = |f: Option<&str>| if f.is_some() { Err(std::io::ErrorKind::NotFound.into()) } else { Ok(v.clone()) };
        let (s, o, e) = run(&w, &mut read);
        (s, String::from_utf8(o).unwrap(), e)
    })
}

#[test]
fn maps() {
    let map = |input: &str, lines: &str| assert_eq!(cmd(&["--map"], input.as_bytes()), (Status::Done, lines.into(), "".into()));
    map("struct A;", "0+6 0+6\n7+1 7+1\n8+1 8+1\n");
    map("use a::{b,c,};", "0+3 0+3\n4+1 4+1\n5+1 5+1\n6+1 6+1\n7+1 7+1\n8+1 8+1\n9+1 9+1\n10+1 11+1\n12+1 12+1\n13+1 13+1\n");
    map("#[doc=\"a\"]struct A;", "0+10 0+4\n10+6 5+6\n17+1 12+1\n18+1 13+1\n");
    map("", "");
    assert_eq!(cmd(&["--map", "--check"], b"struct A;").0, Status::Usage);
    assert_eq!(cmd(&["--map"], b"fn"), (Status::Refused(NoItem(0)), "".into(), "1:1: no item\n".into()));
}

#[test]
fn failing_devices() {
    assert_eq!(cmd(&["q"], b"").0, Status::ReadFailed);
}

#[test]
fn check_mode() {
    assert_eq!(cmd(&["--check"], b"struct A;struct B;"), (Status::Differs, "".into(), "differs\n".into()));
    assert_eq!(cmd(&["--check"], b"struct A;\nstruct B;\n").0, Status::Done);
}

#[test]
fn sample() {
    assert_eq!(cmd(&["--sample", "2", "--items", "1"], b"").1, "items 1, bytes in 26, bytes out 41, lines 4, longest 15\n");
    assert_eq!(cmd(&["--items", "1"], b"").0, Status::Usage);
    assert_eq!(cmd(&["--sample", "2", "--items", "200001"], b"").0, Status::Usage);
    assert_eq!(cmd(&["--sample", "2", "--items", "0"], b"").1, "items 0, bytes in 0, bytes out 0, lines 0, longest 0\n");
}

#[test]
fn inconsistent_chain() {
    gives("fn f(){let z=«a*40»+«b*40»+c;}", "fn f() {\n    let z = «a*40»\n        + «b*40» + c;\n}\n");
}

#[test]
fn all_heads() {
    gives("extern crate a;type B<T>=Vec<T>;trait C:D{fn e(&self);}enum E<T>where T:C{F(T),G{h:u8},I=-1}",
        "extern crate a;\ntype B<T> = Vec<T>;\ntrait C: D {\n    fn e(&self);\n}\nenum E<T> where T: C {\n    F(T),\n    G {\n        h: u8,\n    },\n    I = -1,\n}\n");
}

#[test]
fn operator_refusals() {
    for i in ["const A:bool=a==b==c;", "const A:bool=a as u8<b;", "const A:bool=a<-b;"] {
        refused(i, NoItem(0));
    }
    gives("const A:bool=(a as u8)<b;", "const A: bool = (a as u8) < b;\n");
    gives("const A:bool=a as u8<=b;", "const A: bool = a as u8 <= b;\n");
    stmts("a||return x;", &["a || return x;"]);
}

#[test]
fn deep_column() {
    let wrap = |n: usize| format!("{}use a::{{b,{}}};{}", "mod a{".repeat(9), "c".repeat(n), "}".repeat(9));
    let o = format(wrap(47).as_bytes()).unwrap();
    let l = format!("{}use a::{{b, {}}};", " ".repeat(36), "c".repeat(47));
    assert!(o.lines().any(|x| x == l) && l.len() == 96);
    let o = format(wrap(48).as_bytes()).unwrap();
    assert!(o.lines().any(|x| x == format!("{}use a::{{", " ".repeat(36))));
}

#[test]
fn size_limit() {
    assert_eq!(cmd(&[], &vec![b' '; 16_777_216]), (Status::Done, "".into(), "".into()));
    assert_eq!(cmd(&[], &vec![b' '; 16_777_217]).0, Status::TooLong);
}

#[test]
fn not_utf8() {
    assert_eq!(cmd(&[], b"struct A;\xff"), (Status::Refused(NotUtf8(9)), "".into(), "1:10: not UTF-8\n".into()));
}

#[test]
fn first_path() {
    gives("mod a{struct B;mod c{}}", "mod a {\n    struct B;\n    mod c {}\n}\n");
    refused("struct A", NoItem(0));
}

fn toks(s: &str) -> Vec<(Kind, String, bool)> {
    lex(s, 0).unwrap().iter().map(|t| (t.kind, t.text.to_string(), t.joint)).collect()
}

#[test]
fn lexer() {
    use Kind::*;
    let t = |k: Kind, s: &str| (k, s.to_string(), false);
    let j = |s: &str| (Punct, s.to_string(), true);
    assert_eq!(toks("x.0.1"), [t(Ident, "x"), t(Punct, "."), t(Int, "0"), t(Punct, "."), t(Int, "1")]);
    assert_eq!(toks("0..1"), [t(Int, "0"), j("."), t(Punct, "."), t(Int, "1")]);
    assert_eq!(toks("1.a"), [t(Int, "1"), t(Punct, "."), t(Ident, "a")]);
    for f in ["1.", "1e5f", "1e5e3", "1_e5"] {
        assert_eq!(toks(f), [t(Float, f)]);
    }
    assert_eq!(toks("x.0u8"), [t(Ident, "x"), t(Punct, "."), t(Int, "0u8")]);
    for f in ["1e", "0b12", "0b1_2", "0x1.0", "'ab'", "k\"s\"", "r#self", "/*/**/"] {
        assert_eq!(lex(f, 0).err(), Some(0), "{f}");
    }
    assert_eq!(toks("'a'"), [t(Char, "'a'")]);
    assert_eq!(toks("'a"), [t(Lifetime, "'a")]);
    assert_eq!(toks("r##\"x\"#\"##"), [t(RawStr, "r##\"x\"#\"##")]);
    assert_eq!(toks("b \"s\""), [t(Ident, "b"), t(Str, "\"s\"")]);
    assert_eq!(toks("r#type"), [t(RawIdent, "type")]);
    assert_eq!(toks("&&,"), [j("&"), t(Punct, "&"), t(Punct, ",")]);
}

#[test]
fn attributes() {
    gives("//!a\n#[x]struct A;", "//!a\n#[x]\nstruct A;\n");
    gives("/** a\nb */struct A;", "/** a\nb */\nstruct A;\n");
    gives("#[doc=\"a\\r\"]struct A;", "#[doc = \"a\\r\"]\nstruct A;\n");
}

#[test]
fn token_lists() {
    gives("m!{a+=b;x.0}", "m! { a += b; x.0 }\n");
    gives("m!(a&&b,&c,-1,f::<T>(x));", "m!(a && b, &c, -1, f::<T>(x));\n");
    gives("macro_rules! m{()=>{1};}", "macro_rules! m { () => { 1 }; }\n");
    gives("#[cfg(all(a,not(b)))]struct A;", "#[cfg(all(a, not(b)))]\nstruct A;\n");
    gives("m!{}", "m! {}\n");
    refused("m!()", NoItem(0));
}

/// Types and patterns, each in an item that holds nothing else.
#[test]
fn types_and_patterns() {
    let ty = |a: &str, b: &str| gives(&format!("type X={a};"), &format!("type X = {b};\n"));
    ty("Vec<Vec<u8>>", "Vec<Vec<u8>>");
    ty("fn(x:u8)->u8", "fn(x: u8) -> u8");
    ty("impl A+'b", "impl A + 'b");
    ty("&'a mut[T;3]", "&'a mut [T; 3]");
    ty("(A,)", "(A,)");
    refused("type X==;", NoItem(0));
    gives("const X:A=a::<B>::c;", "const X: A = a::<B>::c;\n");
    gives("struct X<'a,T:B=C>;", "struct X<'a, T: B = C>;\n");
    gives("struct X where A:B,;", "struct X where A: B;\n");
    gives("struct X<T:A+'b>;", "struct X<T: A + 'b>;\n");
    gives("const X:A=x::<B,>;", "const X: A = x::<B>;\n");
    gives("m!(a,b);", "m!(a, b);\n");
    let pat = |a: &str, b: &str| {
        gives(&format!("fn f(){{match x{{{a}=>1}}}}"), &format!("fn f() {{\n    match x {{\n        {b} => 1,\n    }}\n}}\n"))
    };
    pat("|Some(x)|None", "Some(x) | None");
    pat("[a,..]", "[a, ..]");
    gives("fn f(){let &mut a@1..=9=x;}", "fn f() {\n    let &mut a @ 1..=9 = x;\n}\n");
}

#[test]
fn item_heads() {
    gives("pub(crate)struct A(pub u8,B);", "pub(crate) struct A(pub u8, B);\n");
    gives(
        "extern \"C\"{pub fn a(b:u8,...)->u8;static mut C:u8;}",
        "extern \"C\" {\n    pub fn a(b: u8, ...) -> u8;\n    static mut C: u8;\n}\n",
    );
    gives("trait A where B:C,{}", "trait A where B: C {}\n");
    gives("impl<T>A for B<T>{type C=D;}", "impl<T> A for B<T> {\n    type C = D;\n}\n");
    gives("struct A{}", "struct A {}\n");
    gives("union A{b:u8}", "union A {\n    b: u8,\n}\n");
    gives("use crate::{self as a,*};", "use crate::{self as a, *};\n");
    refused(";", NoItem(0));
}

#[test]
fn expressions() {
    for (a, b) in [
        ("x.0.1+1. .max(2.)", "x.0.1 + 1. .max(2.)"),
        ("a.b(c).d(e)", "a.b(c).d(e)"),
        ("a& &b", "a & &b"),
        ("-(a as u8)..", "-(a as u8).."),
        ("S{a:1,b,..c}", "S { a: 1, b, ..c }"),
        ("[0;3][1]?", "[0; 3][1]?"),
    ] {
        gives(&format!("const A:T={a};"), &format!("const A: T = {b};\n"));
    }
}

#[test]
fn whole_grammar() {
    gives("fn f(){;;a();;b}", "fn f() {\n    a();\n    b\n}\n");
    gives("fn f(){let Some(x)=y else{return};}", "fn f() {\n    let Some(x) = y else {\n        return\n    };\n}\n");
    gives("fn f(){match x{}-1}", "fn f() {\n    match x {}\n    -1\n}\n");
    gives("fn f(){g(if a{b}else{c})}", "fn f() {\n    g(if a { b } else { c })\n}\n");
    refused("struct A;fn f(){let x=1}", NoItem(9));
}

#[test]
fn command() {
    assert_eq!(cmd(&["a", "b"], b"").0, Status::Usage);
    assert_eq!(cmd(&["--help"], b"").0, Status::Usage);
    assert_eq!(cmd(&["--check"], b"struct A;").0, Status::Differs);
    assert_eq!(cmd(&["--check"], b"").0, Status::Done);
    assert_eq!(cmd(&[], b"fn"), (Status::Refused(NoItem(0)), "".into(), "1:1: no item\n".into()));
}

#[test]
fn samples() {
    let a = cmd(&["--sample", "2", "--items", "1000"], b"");
    assert_eq!(a.0, Status::Done);
    for s in 0..=20 {
        let t = oracle::sample::sample(s, 200);
        assert!(format(t.as_bytes()).is_ok());
    }
}

#[test]
fn layout_into_the_printer() {
    let a = cmd(&["--sample", "2", "--items", "200000"], b"");
    assert_eq!(a.0, Status::Done);
    eprintln!("{}", a.1);
}

#[test]
fn hostile_use() {
    {
        for n in 0..=GENERATED.len() {
            if let Ok(o) = format(&GENERATED.as_bytes()[..n]) {
                assert_eq!(format(o.as_bytes()), Ok(o.clone()));
            }
        }
    }
    refused(&GENERATED[..5], NoToken(0));
    gives("\u{feff}", "");
    refused("\0", NoToken(0));
    refused("//!a\rb", NoToken(0));
    gives("//a\rb\nstruct A;", "struct A;\n");
    refused("const A:&str=\"a\rb\";", NoToken(13));
    gives("const A:&str=r«#*255»\"x\"«#*255»;", "const A: &str = r«#*255»\"x\"«#*255»;\n");
    refused("const A:&str=r«#*256»\"x\"«#*256»;", NoToken(13));
    refused("«}*1000000»", Unbalanced(0));
    refused("«(*1000000»", Unbalanced(999_999));
    gives("m!{«&*100000»}", "m! {\n    «&*100000»\n}\n");
    for n in [10_000, 300_000] {
        let i = format!("m!{{{}{}}}", "(".repeat(n), ")".repeat(n));
        let o = format(i.as_bytes()).unwrap();
        if n == 10_000 {
            assert_eq!(format(o.as_bytes()), Ok(o));
        }
    }
    gives("const A:&str=\"«a*1000000»\";", "const A: &str = \"«a*1000000»\";\n");
    let i = format!("{}struct B;{}", "mod a{".repeat(61), "}".repeat(61));
    let o = format(i.as_bytes()).unwrap();
    let l: Vec<&str> = o.lines().collect();
    assert_eq!(l[60], format!("{}mod a {{", " ".repeat(240)));
    assert_eq!(l[61], format!("{}struct B;", " ".repeat(240)));
}

#[test]
fn newer_forms() {
    gives("fn f(){if let Some(x)=a&&x>0&&let B=c{g()}}", "fn f() {\n    if let Some(x) = a && x > 0 && let B = c { g() }\n}\n");
    gives("fn f(){while a&&let Some(b)=c{}}", "fn f() {\n    while a && let Some(b) = c {}\n}\n");
    gives("fn f(){h(async move|x|x+1);}", "fn f() {\n    h(async move |x| x + 1);\n}\n");
    gives("fn f<'a,B>(b:&'a B)->impl C+use<'a,B,>{d(b)}", "fn f<'a, B>(b: &'a B) -> impl C + use<'a, B> {\n    d(b)\n}\n");
    gives("fn f(){let gen=1;}", "fn f() {\n    let gen = 1;\n}\n");
    refused("const A:bool=a&&let b=c;", NoItem(0));
    refused("fn f(){if (a&&let b=c){}}", NoItem(0));
}

#[test]
fn closure_braces() {
    gives("fn f(){h(|xyz|{a+1});}", "fn f() {\n    h(|xyz| a + 1);\n}\n");
    gives("fn f(){h(|xyz|g(«c*72»));}", "fn f() {\n    h(|xyz| g(«c*72»));\n}\n");
    assert_eq!(x("    h(|xyz| g(«c*72»));").len(), 89);
    gives("fn f(){h(|xyz|g(«c*73»));}", "fn f() {\n    h(\n        |xyz| {\n            g(«c*73»)\n        },\n    );\n}\n");
    gives("fn f(){h(|xyz|{m!()});}", "fn f() {\n    h(\n        |xyz| {\n            m!()\n        },\n    );\n}\n");
    let i = x("const A:T=«|| *127»1;");
    let o = big(move || format(i.as_bytes())).unwrap();
    let p = o.clone();
    assert_eq!(big(move || format(p.as_bytes())), Ok(o));
    refused("const A:T=«|| *128»1;", NoItem(0));
}

/// What is easily read otherwise.
#[test]
fn readings() {
    let yes = |t: &str, o: &str| {
        gives(
            t,
            &format!(
                "{o}
"
            ),
        )
    };
    let no = |t: &str| assert!(format(t.as_bytes()).is_err(), "{t}");
    yes("const A:bool=a as Vec<u8> < b;", "const A: bool = a as Vec<u8> < b;");
    yes("const A:bool=a as fn()->Vec<u8> << b;", "const A: bool = a as fn() -> Vec<u8> << b;");
    yes("const A:bool=a as Fn() < b;", "const A: bool = a as Fn() < b;");
    yes("const A:T=a as &dyn X + b;", "const A: T = a as &dyn X + b;");
    yes("trait F<T:Fn()->&dyn A + B>{}", "trait F<T: Fn() -> &dyn A + B> {}");
    no("impl<> <A>::B for C {}");
    no("struct A where where B:C;");
    yes("trait A{fn f((..):T);}", "trait A {\n    fn f((..): T);\n}");
    no("trait A{fn f((..,):T);}");
    no("type A=fn(#[a]...);");
    yes("extern{fn f(#[a]...);}", "extern {\n    fn f(#[a] ...);\n}");
    yes("extern{fn f(#[a]b:...);}", "extern {\n    fn f(#[a] b: ...);\n}");
    yes("trait A{fn f(#[a]self);}", "trait A {\n    fn f(#[a] self);\n}");
    yes("type A=B::<C>;", "type A = B<C>;");
    no("type A=B::(C);");
    yes("m!{r#match!(a)r#fn(x)}", "m! { r#match!(a) r#fn(x) }");
    yes("m!((&a)a& b)".to_string().as_str().replace(")a& b)", ")a& b);").as_str(), "m!((&a) a & b);");
    yes("m!{a::<(b)<c>>(d)}", "m! { a::<(b)<c>>(d) }");
    yes("impl !<A>::B for C {}", "impl !<A>::B for C {}");
    no("type A=();m!(,)");
    no("type A=(,);");
    no("type A=B<,>;");
    yes("const A:T=S{0u8:a};", "const A: T = S { 0u8: a };");
    no("const A:T=return yield;");
    yes("fn f(){let x=a=b||c else{};}", "fn f() {\n    let x = a = b || c else {};\n}");
    no("fn f(){let x=b||c else{};}");
    yes("type A=for<#[a]'b:'c>fn();", "type A = for<#[a] 'b: 'c>fn();".replace(">fn", "> fn").as_str());
    yes("#[doc=\"x\"suf]struct A;", "#[doc = \"x\"suf]\nstruct A;");
    yes("#[doc=\"x\"\"y\"]struct A;", "#[doc = \"x\" \"y\"]\nstruct A;");
    no("m!('\\');");
    yes("type A=fn(::A);", "type A = fn(::A);");
    yes("trait A{fn f(self(a):T);}", "trait A {\n    fn f(self(a): T);\n}");
    yes("trait A{fn f(self{..}:T);}", "trait A {\n    fn f(self { .. }: T);\n}");
    yes("trait A{fn f(self!():T);}", "trait A {\n    fn f(self!(): T);\n}");
    yes("trait A{fn f(&self::A:T);}", "trait A {\n    fn f(&self::A: T);\n}");
    yes("extern{const safe fn f();}", "extern {\n    const safe fn f();\n}");
    no("const A:T=-a as u8 as;");
    yes("fn f(){let x:A<B>= c;}", "fn f() {\n    let x: A<B> = c;\n}");
    yes("const A:T=a as u8<b>= c;", "const A: T = a as u8<b> = c;");
}

/// No braces go round a closure at whose end a pair has to stay.
#[test]
fn closures_in_closures() {
    let yes = |t: &str, o: &str| gives(t, &format!("fn f() {{\n    {o}\n}}\n"));
    yes("fn f(){if |x||y|{A{}}{}}", "if |x| |y| {\n        A {}\n    } {}");
    yes("fn f(){if |x|{|y|{A{}}}{}}", "if |x| {\n        |y| A {}\n    } {}");
    yes("fn f(){match||return||{A{}}{}}", "match || return || {\n        A {}\n    } {}");
}
