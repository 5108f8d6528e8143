//! Nodes by themselves: what each reader reads of a text, what that is laid out as, and whether two nodes are equal.
//!
//! The rows are worked out by hand from the rules of the grammar and of its layout. What reads and what lays out is lent as a closure.
ghost use Rattle.std.specs.Prelude.{IfOk};
ghost use Rattle.lay_read_tokens.specs.Answers.{AreLexed};

use lay_io::QuietSink;
use lay_lex::{lex, normalise};
use lay_nest::{Cursor, Nested, nest};
use lay_out_code::{put_arm, put_block, put_expr, put_item, put_stmt};
use lay_out_heads::{
    put_alias, put_enum, put_extern_crate, put_fields, put_fn_head, put_impl_head, put_struct,
    put_trait_head, put_union, put_use, put_value_head, put_variant, put_vis,
};
use lay_out_tokens::{put_attr, put_either, put_global};
use lay_printer::{PrintError, Printer};
use lay_read_code::{read_arm, read_block, read_expr, read_item, read_stmt};
use lay_read_heads::{
    read_alias, read_attrs, read_enum, read_extern_crate, read_fn_head, read_impl_head,
    read_struct, read_trait_head, read_use, read_value_head, read_vis,
};
use lay_read_tokens::ReadNone;
use lay_test_rows::each::{column, each_is_told, number, string};
use lay_token::{FormatError, List, NoMemory};
use lay_tree::{
    Attr, ItemKind, Place, Site, Start, Vis, same_arm, same_block, same_expr, same_item, same_stmt,
};
use std::alloc::Global;
use std::test::Fail;

/// Where any expression may stand.
const FREE: Place = Place {
    level: 0,
    no_struct: false,
    start: Start::No,
    op_after: false,
    lt_after: false,
};

/// Where any expression but a struct literal may stand.
const CONDITION: Place = Place {
    level: 0,
    no_struct: true,
    start: Start::No,
    op_after: false,
    lt_after: false,
};

/// The tokens of a text, nested.
fn nested(alloc: Global, text: &str) -> Result<Nested, FormatError>
    ensures { IfOk result (λ found. AreLexed found) }
{
    let source = normalise(alloc, text.as_bytes())?;
    let tokens = lex(alloc, &source)?;
    nest(alloc, tokens)
}

/// What stands at the front of a text, and how many tokens are left.
fn front<T: Drop, R: Fn(&mut Cursor<'_>) -> Result<T, ReadNone>>(
    alloc: Global,
    text: &str,
    read: &R,
) -> Option<(T, usize)>
    requires { (at : _) → AreLexed at.now → R.pre read.now at }
{
    match nested(alloc, text) {
        Ok(nested) => {
            let mut at = nested.cursor();
            let node = read(&mut at).ok()?;
            Some((node, at.as_slice().len()))
        }
        Err(_) => None,
    }
}

/// What a node is laid out as.
fn laid_out<T, P: Fn(&mut Printer<QuietSink>, &T) -> Result<(), PrintError>>(
    alloc: Global,
    node: &T,
    put: &P,
) -> Result<String, NoMemory>
    requires { P.IsAlwaysCallable put.now }
{
    let Ok(mut printer) = Printer::new(alloc, QuietSink::with_room(alloc, 1000)?) else {
        return Err(NoMemory);
    };
    if put(&mut printer, node).is_err() || printer.open_groups() > 0 {
        return Err(NoMemory);
    }
    match printer.finish() {
        Ok(sink) => string(alloc, sink.bytes()),
        Err(_) => Err(NoMemory),
    }
}

/// What the node at the front of a text is laid out as, and behind a `→` how many tokens are left, if any are; or that there is none.
fn told<
    T: Drop,
    R: Fn(&mut Cursor<'_>) -> Result<T, ReadNone>,
    P: Fn(&mut Printer<QuietSink>, &T) -> Result<(), PrintError>,
>(alloc: Global, text: &str, read: R, put: P) -> Result<String, NoMemory>
    requires reads { (at : _) → AreLexed at.now → R.pre read at }
    requires puts { P.IsAlwaysCallable put }
{
    match front(alloc, text, &read) {
        Some((node, 0)) => laid_out(alloc, &node, &put),
        Some((node, left)) => {
            let text = laid_out(alloc, &node, &put)?;
            Ok(format!(in alloc; "{text}→{left}")?)
        }
        None => Ok(format!(in alloc; "no")?),
    }
}

/// Whether the nodes at the front of two texts are equal; or that there is none.
fn compared<T: Drop, R: Fn(&mut Cursor<'_>) -> Result<T, ReadNone>, S: Fn(&T, &T) -> bool>(
    alloc: Global,
    texts: &str,
    read: R,
    same: S,
) -> Result<String, NoMemory>
    requires reads { (at : _) → AreLexed at.now → R.pre read at }
    requires compares { S.IsAlwaysCallable same }
{
    let (text, other) = column(texts);
    match (front(alloc, text, &read), front(alloc, other, &read)) {
        (Some((node, _)), Some((other, _))) => Ok(format!(in alloc; "{}", same(&node, &other))?),
        _ => Ok(format!(in alloc; "no")?),
    }
}

/// What the code of a kind at the front of a text is laid out as, which is read at a depth.
fn code(alloc: Global, row: &str) -> Result<String, NoMemory> {
    let (kind, rest) = column(row);
    let (depth, text) = column(rest);
    let depth = number(depth).min(256) as u32;
    match kind {
        "expr" => told(
            alloc,
            text,
            |at| read_expr(alloc, at, FREE, depth),
            |out, node| put_expr(out, node),
        ),
        "condition" => told(
            alloc,
            text,
            |at| read_expr(alloc, at, CONDITION, depth),
            |out, node| put_expr(out, node),
        ),
        "block" => told(
            alloc,
            text,
            |at| read_block(alloc, at, depth),
            |out, node| put_block(out, node, false),
        ),
        "stmt" => told(
            alloc,
            text,
            |at| read_stmt(alloc, at, depth),
            |out, node| put_stmt(out, node),
        ),
        "arm" => told(
            alloc,
            text,
            |at| read_arm(alloc, at, depth),
            |out, node| put_arm(out, node),
        ),
        _ => told(
            alloc,
            text,
            |at| read_item(alloc, at, Site::Module, depth),
            |out, node| put_item(out, node),
        ),
    }
}

/// Whether the code of a kind at the front of two texts is equal.
fn equal(alloc: Global, row: &str) -> Result<String, NoMemory> {
    let (kind, texts) = column(row);
    match kind {
        "expr" => compared(
            alloc,
            texts,
            |at| read_expr(alloc, at, FREE, 9),
            |node, other| same_expr(node, other),
        ),
        "block" => compared(
            alloc,
            texts,
            |at| read_block(alloc, at, 9),
            |node, other| same_block(node, other),
        ),
        "stmt" => compared(
            alloc,
            texts,
            |at| read_stmt(alloc, at, 9),
            |node, other| same_stmt(node, other),
        ),
        "arm" => compared(
            alloc,
            texts,
            |at| read_arm(alloc, at, 9),
            |node, other| same_arm(node, other),
        ),
        _ => compared(
            alloc,
            texts,
            |at| read_item(alloc, at, Site::Module, 9),
            |node, other| same_item(node, other),
        ),
    }
}

/// Lays out an item that is a head alone, without a visibility.
fn put_kind(out: &mut Printer<QuietSink>, kind: &ItemKind) -> Result<(), PrintError> {
    match kind {
        ItemKind::ExternCrate { item } => put_extern_crate(out, &Vis::Inherited, item),
        ItemKind::Alias { item } => put_alias(out, &Vis::Inherited, item),
        ItemKind::Struct { item } => put_struct(out, &Vis::Inherited, item),
        ItemKind::Union { item } => put_union(out, &Vis::Inherited, item),
        ItemKind::Enum { item } => put_enum(out, &Vis::Inherited, item),
        _ => Ok(()),
    }
}

/// Lays out the fields of a struct, or the variants of an enumeration, one behind the other.
fn put_parts(out: &mut Printer<QuietSink>, kind: &ItemKind) -> Result<(), PrintError> {
    match kind {
        ItemKind::Struct { item } => put_fields(out, &item.fields, true),
        ItemKind::Enum { item } => {
            for variant in item.variants.as_slice() {
                put_variant(out, variant)?;
            }
            Ok(())
        }
        _ => Ok(()),
    }
}

/// Lays out attributes, each on a line of its own.
fn put_attrs(out: &mut Printer<QuietSink>, attrs: &List<Attr>) -> Result<(), PrintError> {
    for attr in attrs.as_slice() {
        put_attr(out, attr, true)?;
    }
    Ok(())
}

/// Lays out the texts of which a flag chooses, each way.
fn put_chosen(out: &mut Printer<QuietSink>, _: &()) -> Result<(), PrintError> {
    put_global(out, true)?;
    put_global(out, false)?;
    put_either(out, true, b"a", b"b")?;
    put_either(out, false, b"c", b"d")
}

/// What the head of a kind at the front of a text is laid out as, which is read at a depth.
fn head(alloc: Global, row: &str) -> Result<String, NoMemory> {
    let (kind, rest) = column(row);
    let (depth, text) = column(rest);
    let depth = number(depth).min(256) as u32;
    match kind {
        "struct" => told(alloc, text, |at| read_struct(alloc, at, depth), put_kind),
        "fields" => told(alloc, text, |at| read_struct(alloc, at, depth), put_parts),
        "enum" => told(alloc, text, |at| read_enum(alloc, at, depth), put_kind),
        "variants" => told(alloc, text, |at| read_enum(alloc, at, depth), put_parts),
        "alias" => told(
            alloc,
            text,
            |at| read_alias(alloc, at, Site::Module, depth),
            put_kind,
        ),
        "crate" => told(alloc, text, |at| read_extern_crate(alloc, at), put_kind),
        _ => other_head(alloc, kind, text, depth),
    }
}

/// The same of a kind that is no item.
fn other_head(alloc: Global, kind: &str, text: &str, depth: u32) -> Result<String, NoMemory> {
    match kind {
        "fn" => told(
            alloc,
            text,
            |at| read_fn_head(alloc, at, Site::Module, depth),
            |out, node| put_fn_head(out, node),
        ),
        "value" => told(
            alloc,
            text,
            |at| read_value_head(alloc, at, depth),
            |out, node| put_value_head(out, node),
        ),
        "trait" => told(
            alloc,
            text,
            |at| read_trait_head(alloc, at, depth),
            |out, node| put_trait_head(out, node),
        ),
        "impl" => told(
            alloc,
            text,
            |at| read_impl_head(alloc, at, depth),
            |out, node| put_impl_head(out, node),
        ),
        "use" => told(
            alloc,
            text,
            |at| read_use(alloc, at, depth),
            |out, node| put_use(out, node),
        ),
        "vis" => told(
            alloc,
            text,
            |at| read_vis(alloc, at),
            |out, node| put_vis(out, node),
        ),
        "attrs" => told(alloc, text, |at| read_attrs(alloc, at, false), put_attrs),
        _ => laid_out(alloc, &(), &put_chosen),
    }
}

// What is within code stands one level deeper, and a reader stops behind the longest front.
#[test]
fn codes(rt: HostRuntime) -> Result<(), Fail> {
    let rows = "expr→0→1⇒no§\
        expr→1→1⇒1§\
        expr→1→(1)⇒no§\
        expr→2→(1)⇒(1)§\
        expr→9→;⇒no§\
        expr→9→a;⇒a→1§\
        expr→9→a==b==c⇒no§\
        expr→9→x.0.1+1. .max(2.)⇒x.0.1 + 1. .max(2.)§\
        expr→9→-(a as u8)..⇒-(a as u8)..§\
        expr→9→[0;3][1]?⇒[0; 3][1]?§\
        expr→9→if a{b}else{c}⇒if a { b } else { c }§\
        expr→9→if let A=b&&c{}⇒if let A = b && c {}§\
        expr→9→if a&&let B|C=d{e}⇒if a && let B | C = d { e }§\
        expr→9→while a&&b||c{}⇒while a && b || c {}§\
        expr→2→if a&&let B=c{}⇒if a && let B = c {}§\
        expr→1→if a&&let B=c{}⇒no§\
        expr→2→if a&&b{}⇒no§\
        expr→9→a&&let B=c⇒no§\
        expr→9→(let A=b)⇒no§\
        expr→9→if a||b&&let C=d{}⇒no§\
        expr→9→match x{A=>{b}C=>c,}⇒match x {\n    A => b,\n    C => c,\n}§\
        expr→9→S{a:1,b,..c}⇒S { a: 1, b, ..c }§\
        expr→2→||a⇒no§\
        expr→3→||a⇒|| a§\
        expr→3→||{a}⇒|| a§\
        expr→3→||{{a}}⇒no§\
        expr→4→||{{a}}⇒|| a§\
        expr→3→||{a;}⇒no§\
        expr→4→||{a;}⇒|| {\n    a;\n}§\
        expr→9→||{return}a⇒|| return→1§\
        expr→9→||return a⇒|| return a§\
        expr→9→||{a}.b⇒|| {\n    {\n        a\n    }.b\n}§\
        expr→9→||{a}+b⇒|| {\n        a\n    } + b§\
        condition→9→||{a}⇒|| a§\
        condition→9→||{S{}}⇒|| {\n    S {}\n}§\
        condition→9→||S{}⇒|| S→2§\
        condition→9→S{a:1}⇒S→5§\
        condition→9→a&&let B=c⇒no§\
        condition→9→let A=b⇒no§\
        block→9→{;;a();;b}⇒{\n    a();\n    b\n}§\
        block→1→{a}⇒no§\
        block→9→{}c⇒{}→1§\
        block→9→;⇒no§\
        stmt→0→a⇒no§\
        stmt→1→a⇒no§\
        stmt→2→a⇒a§\
        stmt→9→;⇒no§\
        stmt→9→a b⇒no§\
        stmt→9→a;b⇒a;→1§\
        stmt→9→let x=1⇒no§\
        stmt→9→let Some(x)=y else{return};⇒let Some(x) = y else {\n    return\n};§\
        stmt→9→match x{}-1⇒match x {}→2§\
        stmt→9→#[a]fn b(){}⇒#[a]\nfn b() {}§\
        stmt→9→m!{}c⇒m! {}→1§\
        arm→0→A=>b⇒no§\
        arm→1→A=>b⇒no§\
        arm→2→A=>b⇒no§\
        arm→3→A=>b⇒A => b,§\
        arm→9→;⇒no§\
        arm→9→A=>{b}C=>c,⇒A => b,→5§\
        arm→9→A=>b C=>c⇒no§\
        arm→9→#[a]A|B if c=>m!(),⇒#[a]\nA | B if c => m!(),§\
        arm→9→A=>{b;}⇒A => {\n    b;\n}§\
        item→0→struct A;⇒no§\
        item→1→struct A;⇒struct A;§\
        item→9→;⇒no§\
        item→9→pub(crate)mod a{struct B;}c⇒pub(crate) mod a {\n    struct B;\n}→1";
    each_is_told(&rt, rt.alloc(), rows, code)?;
    Ok(())
}

// On a lone `;` no head stands. That of an implementation is followed by `where` or `{`.
#[test]
fn heads(rt: HostRuntime) -> Result<(), Fail> {
    let rows =
        "struct→9→;⇒no§enum→9→;⇒no§alias→9→;⇒no§crate→9→;⇒no§fn→9→;⇒no§value→9→;⇒no§trait→9→;⇒no§\
        impl→9→;⇒no§use→9→;⇒no§\
        struct→0→struct A;⇒no§\
        struct→1→struct A;⇒struct A;§\
        struct→1→struct A(B);⇒no§\
        struct→2→struct A(B);⇒struct A(B);§\
        struct→9→struct A(pub u8,B);c⇒struct A(pub u8, B);→1§\
        struct→9→struct A<T>where T:B;⇒struct A<T> where T: B;§\
        struct→9→struct A{}⇒struct A {}§\
        struct→9→union A{b:u8}⇒union A {\n    b: u8,\n}§\
        struct→9→enum A{}⇒no§\
        fields→9→struct A(pub u8,B);⇒(pub u8, B)§\
        fields→9→struct A{b:C}⇒ {\n    b: C,\n}§\
        fields→9→struct A;⇒§\
        enum→9→enum E<T>where T:C{F(T),G{h:u8},I=-1}⇒\
        enum E<T> where T: C {\n    F(T),\n    G {\n        h: u8,\n    },\n    I = -1,\n}§\
        variants→9→enum E{F(T),I=-1,J}⇒F(T)I = -1J§\
        alias→9→type B<T>=Vec<T>;⇒type B<T> = Vec<T>;§\
        alias→9→type B;⇒no§\
        crate→0→extern crate a;⇒extern crate a;§\
        crate→0→extern crate self as b;⇒extern crate self as b;§\
        fn→9→const unsafe extern \"C\" fn a<T>(&'b mut self,#[c]d:T)->E{}⇒\
        const unsafe extern \"C\" fn a<T>(&'b mut self, #[c] d: T) -> E→2§\
        fn→9→safe fn a()⇒no§\
        value→9→const _:A⇒const _: A§\
        value→9→static mut B:C<D>=e⇒static mut B: C<D>→2§\
        trait→9→unsafe trait A<T>:B+'c{}⇒unsafe trait A<T>: B + 'c→2§\
        trait→9→trait A:⇒trait A§\
        impl→9→impl<T>A for B<T>{}⇒impl<T> A for B<T>→2§\
        impl→9→unsafe impl!A for B where⇒unsafe impl !A for B→1§\
        impl→9→impl A⇒no§\
        use→0→a⇒no§\
        use→1→a⇒a§\
        use→1→{a}⇒no§\
        use→2→{a}⇒{a}§\
        use→9→::a::{b as _,*,self}⇒::a::{b as _, *, self}§\
        vis→0→⇒§\
        vis→0→pub⇒pub §\
        vis→0→pub(a)⇒pub →3§\
        vis→0→pub(in a::b)⇒pub(in a::b) §\
        attrs→0→⇒§\
        attrs→0→#[a]#[doc=\"b\"]/**c*/d⇒#[a]\n///b\n///c\n→1§\
        chosen⇒::ad";
    each_is_told(&rt, rt.alloc(), rows, head)?;
    Ok(())
}

// Trees are compared, and not how they are spelled.
#[test]
fn equal_nodes(rt: HostRuntime) -> Result<(), Fail> {
    let rows = "expr→a+b→a + b⇒true§\
        expr→a+b→a-b⇒false§\
        expr→1→0x1⇒false§\
        expr→(a)→a⇒false§\
        expr→f(a,)→f(a)⇒true§\
        expr→||{{a}}→||a⇒true§\
        expr→||{a}→||{a;}⇒false§\
        block→{;a}→{a}⇒true§\
        block→{a}→{a;}⇒false§\
        stmt→let a=b;→let a = b;⇒true§\
        stmt→a→a;⇒false§\
        arm→A=>b→A=>{b},⇒true§\
        arm→A=>b→A=>{b;}⇒false§\
        arm→A=>b→B=>b⇒false§\
        item→#[doc=\"a\"]struct A;→///a\nstruct A;⇒true§\
        item→struct A;→pub struct A;⇒false";
    each_is_told(&rt, rt.alloc(), rows, equal)?;
    Ok(())
}
