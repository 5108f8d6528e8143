//! Texts of files, from their bytes and from their trees, and how deep files are.

use lay_depth::file_depth;
use lay_files::windows::read_source;
use lay_files::{DEPTH, FileError, format_bytes, read_bytes, read_within, text_of};
use lay_front::{format, format_into, unparse};
use lay_io::QuietSink;
use lay_laws::is_written;
use lay_lex::normalise;
use lay_test_rows::each::{each_is_told, string};
use lay_test_rows::repeated;
use lay_token::{NoMemory, Text};
use std::alloc::Global;
use std::test::Fail;

/// A file as a generator of bindings writes it.
pub const GENERATED: &str = "/* automatically generated */\n\
    #![allow(non_camel_case_types)]\n\
    pub const MAX_NAME: u32 = 64;\n\
    #[repr(C)] #[derive(Debug,Copy,Clone)]\n\
    pub struct point_t { pub x: ::std::os::raw::c_int, pub name: [u8; 64usize] }\n\
    unsafe extern \"C\" { pub fn draw(p: *const point_t, n: usize) -> ::std::os::raw::c_int; }\n\
    impl Default for point_t { fn default() -> Self { unsafe { ::std::mem::zeroed() } } }\n\
    #[test]\n\
    fn layout() { assert_eq!(::std::mem::size_of::<point_t>(), 68usize, \"size of point_t\"); }\n";

/// Its text.
pub const LAID: &str = "#![allow(non_camel_case_types)]\n\
    pub const MAX_NAME: u32 = 64;\n\
    #[repr(C)]\n\
    #[derive(Debug, Copy, Clone)]\n\
    pub struct point_t {\n    pub x: ::std::os::raw::c_int,\n    pub name: [u8; 64usize],\n}\n\
    unsafe extern \"C\" {\n    pub fn draw(p: *const point_t, n: usize) -> ::std::os::raw::c_int;\n}\n\
    impl Default for point_t {\n    fn default() -> Self {\n        unsafe { ::std::mem::zeroed() }\n    }\n}\n\
    #[test]\n\
    fn layout() {\n    assert_eq!(::std::mem::size_of::<point_t>(), 68usize, \"size of point_t\");\n}\n";

/// The text of a file's bytes, or why there is none.
pub fn formatted(alloc: Global, given: &str) -> Result<String, NoMemory> {
    match format(alloc, given.as_bytes()) {
        Ok(text) => string(alloc, text.as_bytes()),
        Err(error) => Ok(format!(in alloc; "{error:?}")?),
    }
}

/// The same, written to a sink; and what stands there where it is refused.
fn written(alloc: Global, given: &str) -> Result<String, NoMemory> {
    let mut out = QuietSink::with_room(alloc, 1000)?;
    let answer = format_into(alloc, given.as_bytes(), &mut out);
    let text = string(alloc, out.bytes())?;
    match answer {
        Ok(()) => Ok(text),
        Err(error) => Ok(format!(in alloc; "{error:?}{text}")?),
    }
}

/// The text of the tree that a file's bytes read to.
fn unparsed(alloc: Global, given: &str) -> Result<String, NoMemory> {
    match seen(alloc, given, DEPTH) {
        Ok((_, text)) => string(alloc, text.as_bytes()),
        Err(error) => Ok(format!(in alloc; "{error:?}")?),
    }
}

/// The depth of the file that a text reads to within a depth, and its text, or why there is none.
pub fn seen(alloc: Global, given: &str, depth: u32) -> Result<(u32, Text), FileError> {
    let file = match read_within(alloc, given.as_bytes(), depth) {
        Ok(file) => file,
        Err(error) => return Err(error),
    };
    let depth = file_depth(&file);
    let text = match is_written(alloc, &file) {
        Ok(true) => unparse(alloc, &file).ok(),
        _ => None,
    };
    match text {
        Some(text) => Ok((depth, text)),
        None => Err(FileError::NoMemory),
    }
}

// The text of a file is given whole, and is given again of itself; or the refusal of the bytes is given.
#[test]
fn texts(rt: HostRuntime) -> Result<(), Fail> {
    let alloc = rt.alloc();
    let rows = format!(in alloc;
        "⇒§struct A;struct B;⇒struct A;\nstruct B;\n§{GENERATED}⇒{LAID}§{LAID}⇒{LAID}\
         §const A:B=async move|c|d+async||e;⇒const A: B = async move |c| d + async || e;\n\
         §fn f(){{h(|x|{{;a+1}});h(|xyz|g(ccccccccccccccccccccccccccccccccccccccccccccccccccccccccccccccccccccccccc));if |x||y|{{A{{}}}}{{}}|x|{{{{a}}.b}}}}⇒\
         fn f() {{\n    h(|x| a + 1);\n    h(\n        |xyz| {{\n            g(ccccccccccccccccccccccccccccccccccccccccccccccccccccccccccccccccccccccccc)\n        }},\n    );\n\
         \x20   if |x| |y| {{\n        A {{}}\n    }} {{}}\n    |x| {{\n        {{\n            a\n        }}.b\n    }}\n}}\n\
         §fn f(){{if let A=b&&c{{}}}}⇒fn f() {{\n    if let A = b && c {{}}\n}}\n\
         §fn f(){{if a{{}}else if b&&c&&let D|E=g{{h}}}}⇒fn f() {{\n    if a {{}} else if b && c && let D | E = g {{ h }}\n}}\n\
         §fn f(){{'a:while let B=c&&let D=e{{}}}}⇒fn f() {{\n    'a: while let B = c && let D = e {{}}\n}}\n\
         §fn f(){{if if a&&let B=c{{}}else{{}}&&let D=e{{}}}}⇒fn f() {{\n    if if a && let B = c {{}} else {{}} && let D = e {{}}\n}}\n\
         §fn f(){{if x{{}}-if y&&let z=w{{}}else{{}};}}⇒fn f() {{\n    if x {{}}\n    -if y && let z = w {{}} else {{}};\n}}\n\
         §fn f(){{if a&&b||c{{}}if a&&b=c{{}}}}⇒fn f() {{\n    if a && b || c {{}}\n    if a && b = c {{}}\n}}\n\
         §fn f(){{if let Some(x)=aaaaaaaaaaaaaaaaaaaaaaaaaaaaaaaaaaaa&&bbbbbbbbbbbbbbbbbbbbbbbbbbbbbbbbb&&let D=ccccccccccccccc{{g()}}else{{h}}}}⇒\
         fn f() {{\n    if let Some(x) = aaaaaaaaaaaaaaaaaaaaaaaaaaaaaaaaaaaa\n        && bbbbbbbbbbbbbbbbbbbbbbbbbbbbbbbbb && let D = ccccccccccccccc {{ g() }} else {{\n        h\n    }}\n}}\n"
    )?;
    let refused =
        "}⇒Refused(Unbalanced { at: 0 })§struct A;fn f(){let x=1}⇒Refused(NoItem { at: 9 })§\
        fn f(){if a||b&&let c=d{}}⇒Refused(NoItem { at: 0 })§\
        fn f(){if let a=b&&c||d{}}⇒Refused(NoItem { at: 0 })§\
        fn f(){if return&&let b=c{}}⇒Refused(NoItem { at: 0 })§\
        fn f(){if(let a=b)&&c{}}⇒Refused(NoItem { at: 0 })§\
        fn f(){match a{b if c&&let d=e=>f}}⇒Refused(NoItem { at: 0 })";
    each_is_told(&rt, alloc, rows.as_str(), formatted)?;
    each_is_told(&rt, alloc, rows.as_str(), written)?;
    each_is_told(&rt, alloc, rows.as_str(), unparsed)?;
    each_is_told(&rt, alloc, refused, formatted)?;
    each_is_told(&rt, alloc, refused, written)?;
    Ok(())
}

/// How many inner attributes and items a text has that is read by windows of its tokens, or that it isn't read so.
fn by_windows(alloc: Global, given: &str) -> Result<String, NoMemory> {
    let source = match normalise(alloc, given.as_bytes()) {
        Ok(source) => source,
        Err(_) => return Ok(format!(in alloc; "no text")?),
    };
    match read_source(alloc, &source, DEPTH) {
        Ok(file) => {
            let (attrs, items) = (file.attrs.as_slice().len(), file.items.as_slice().len());
            Ok(format!(in alloc; "{attrs} {items}")?)
        }
        Err(_) => Ok(format!(in alloc; "none")?),
    }
}

// Whole items and modules are read by windows, however large they are, and what spells no file isn't.
#[test]
fn windows(rt: HostRuntime) -> Result<(), Fail> {
    let alloc = rt.alloc();
    let many = repeated(alloc, b"struct A{b:[C;{1}]}const D:E=F{}as G;", 700)?;
    let items = string(alloc, many.as_slice())?;
    let rows = format!(in alloc;
        "⇒0 0§#!/x\n#![a]struct A;⇒1 1§mod a{{#![b]mod c{{struct D;}}fn e(){{}}}}struct F;⇒0 2§{items}⇒0 1400\
         §mod a{{{items}}}#[b]pub mod r#c{{//! d\n{items}}}{items}⇒0 1402§fn a(){{{items}}}⇒0 1\
         §mod a{{⇒none§}}⇒none§mod a{{struct B}}⇒none§struct A;;⇒none§mod a{{)}}⇒none§'⇒none"
    )?;
    each_is_told(&rt, alloc, rows.as_str(), by_windows)?;
    Ok(())
}

/// The text of a file's bytes, laid out as they are read, or why there is none and where.
fn through(alloc: Global, given: &str) -> Result<String, NoMemory> {
    match format_bytes(alloc, given.as_bytes()) {
        Ok(text) => string(alloc, text.as_slice()),
        Err(error) => Ok(format!(in alloc; "{error:?}")?),
    }
}

/// The same through the tree of the file.
fn by_tree(alloc: Global, given: &str) -> Result<String, NoMemory> {
    match read_bytes(alloc, given.as_bytes()) {
        Ok(file) => {
            let text = text_of(alloc, &file)?;
            string(alloc, text.as_bytes())
        }
        Err(error) => Ok(format!(in alloc; "{error:?}")?),
    }
}

/// Whether the two are the same.
fn both_ways(alloc: Global, given: &str) -> Result<String, NoMemory> {
    let (one, other) = (through(alloc, given)?, by_tree(alloc, given)?);
    Ok(format!(in alloc; "{}", one.as_str() == other.as_str())?)
}

// What is laid out as it is read has the text that its tree has, and is refused at the same place.
#[test]
fn ways(rt: HostRuntime) -> Result<(), Fail> {
    let alloc = rt.alloc();
    let many = repeated(alloc, b"struct A{b:[C;{1}]}mod d{}", 400)?;
    let items = string(alloc, many.as_slice())?;
    let rows = format!(in alloc;
        "⇒true§#!/x\n#![a]struct A;⇒true§#![a]#![b]⇒true§//! a\n/// b\nstruct C;⇒true§mod a;⇒true§mod a{{}}⇒true\
         §mod a{{/* b */}}mod c{{#![d]}}⇒true§mod a{{//! b\nmod c{{struct D;fn e(){{}}}}mod f{{}}}}struct G;⇒true\
         §#[a]#[b]pub(crate)mod r#c{{#![d]#![e]use f::g;mod h{{#[i]mod j{{}}}}}}⇒true§impl A{{}}mod b{{impl C{{}}}}⇒true\
         §{items}⇒true§mod a{{#![b]{items}mod c{{{items}}}}}{items}⇒true§fn a(){{{items}}}⇒true§{items}}}⇒true\
         §mod a{{{items}struct⇒true§{GENERATED}⇒true§mod a{{struct B}}⇒true§struct A;#![b]⇒true§mod a{{}}}}⇒true\
         §mod a{{⇒true§struct A;\n mod b{{fn}}⇒true§a\n\\⇒true§fn f(){{)⇒true"
    )?;
    each_is_told(&rt, alloc, rows.as_str(), both_ways)?;
    let texts = format!(in alloc;
        "{GENERATED}⇒{LAID}§mod a{{#![b]mod c{{struct D;}}mod e{{}}}}⇒mod a {{\n    #![b]\n    mod c {{\n        struct D;\n    }}\n    mod e {{}}\n}}\n\
         §mod a{{struct}}⇒Refused {{ refusal: NoItem {{ at: 0 }}, place: Place2 {{ line: 1, column: 1 }} }}"
    )?;
    each_is_told(&rt, alloc, texts.as_str(), through)?;
    Ok(())
}

/// The depth of the file that a text reads to within a depth, if it reads to one.
fn depth_within(alloc: Global, given: &str, depth: u32) -> Option<u32> {
    match seen(alloc, given, depth) {
        Ok((depth, _)) => Some(depth),
        Err(_) => None,
    }
}

/// The depth of the file that a text reads to: once of what is read within the greatest depth, once of what is read within that depth,
/// and none of what is read within one level less.
fn depths(alloc: Global, given: &str) -> Result<String, NoMemory> {
    let depth = depth_within(alloc, given, DEPTH).unwrap_or(0);
    let again = depth_within(alloc, given, depth);
    let less = match depth.checked_sub(1) {
        Some(less) => depth_within(alloc, given, less),
        None => None,
    };
    Ok(format!(in alloc; "{depth} {again:?} {less:?}")?)
}

// The depth of a file is the least within which its text reads.
#[test]
fn depths_of_texts(rt: HostRuntime) -> Result<(), Fail> {
    let rows = "⇒0 Some(0) None§\
        #![a]⇒0 Some(0) None§\
        struct A;⇒1 Some(1) None§\
        mod a{struct B;}⇒2 Some(2) None§\
        use a::{b,c};⇒3 Some(3) None§\
        macro_rules! a{(((b)))=>{}}⇒1 Some(1) None§\
        struct A<B:C>(D);⇒2 Some(2) None§\
        fn f(a:B)->C where D:E{}⇒2 Some(2) None§\
        type A=&B;⇒3 Some(3) None§\
        type A=B<C>;⇒3 Some(3) None§\
        type A=impl use<'b,C,Self>;⇒2 Some(2) None§\
        type A=B<C=D>;⇒4 Some(4) None§\
        type A=<B as C>::D;⇒3 Some(3) None§\
        type A=<B as C<D>>::E;⇒4 Some(4) None§\
        fn f(){a}⇒2 Some(2) None§\
        fn f(){let a:B=c else{d};}⇒3 Some(3) None§\
        fn f(){match a{b=>c}}⇒4 Some(4) None§\
        fn f(){match a{B(c)=>d,}}⇒4 Some(4) None§\
        fn f(){if a&&b{}}⇒4 Some(4) None§\
        fn f(){if a&&let B=c{}}⇒3 Some(3) None§\
        fn f(){while let A(b)=c&&d{}}⇒4 Some(4) None§\
        const A:B=c+d+e;⇒3 Some(3) None§\
        const A:B=-&*c;⇒3 Some(3) None§\
        const A:B=c.d(e)[f]?;⇒3 Some(3) None§\
        const A:B=C{d:e,..f};⇒3 Some(3) None§\
        const A:B=|c:D|e=f=g;⇒5 Some(5) None§\
        const A:B=async|c:D|e=f=g;⇒5 Some(5) None§\
        const A:B=|c|{d};⇒4 Some(4) None§\
        const A:B=|c|{d;};⇒5 Some(5) None";
    each_is_told(&rt, rt.alloc(), rows, depths)?;
    Ok(())
}
