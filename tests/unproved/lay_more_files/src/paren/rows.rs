//! What is made of trees, printed.

use crate::paren::loose::told;
use crate::paren::trees::{expr, printed, with_part};
use lay_code::{Expr, Place};
use lay_ops::places::{FREE, STATEMENT, before_op, plain};
use lay_paren::{ParenError, parenthesize};
use lay_test_rows::{BETWEEN, parts};
use lay_text::Text;
use std::alloc::Global;
use std::test::Fail;

/// A node, behind `←` the one that stands in it for `p`, and behind a further `←` the one that stands in that; and what is made of it.
const ROWS: &str =
    "p*c←a+b→(a + b) * c§c*p←a+b→c * (a + b)§p+c←a+b→(a + b) + c§a+p←b+c→a + (b + c)§p+c←a*b→a * b + c§p<c←a<b→(a < b) < c\
    §p<b←a as T→(a as T) < b§p<<b←a as T→(a as T) << b§p>b←a as T→a as T > b§p<b←a as T<U>→a as T<U> < b§b<p←a as T→b < a as T\
    §-p←a as T→-(a as T)§p as U←-a→-a as U§p as U←a+b→(a + b) as U§-p←-a→-(-a)§-p←&a→-(&a)§!p←a.b→!a.b§*p←a()→*a()§&p←a+b→&(a + b)\
    §p.b←-a→(-a).b§p.b←a.c→(a.c).b§p()←a.b→(a.b)()§p.0←1→(1).0§p.0←1.→(1.).0§p.0←1u8→1u8.0§p.a←1→1.a§p[0]←|x|x→(|x| x)[0]§p?←return→(return)?\
    §p+a←||b→(|| b) + a§a+p←||b→a + || b§p+a←return→(return) + a§a+p←return b→a + return b§p=a←||b→(|| b) = a\
    §return p←'a:{}→return 'a: {}§break p←'a:{}→break ('a: {})§break 'b p←'a:{}→break 'b 'a: {}§break p←loop{}→break loop {}\
    §match p{}←S{a:1}→match (S { a: 1 }) {}§if p{}←S{a:1}→if (S { a: 1 }) {}§if p{}←a==S{}→if a == (S {}) {}§while p{}←S{}.a→while (S {}).a {}\
    §for b in p{}←S{}→for b in (S {}) {}§if p{}←return{}→if return ({}) {}§match p{}←..{}→match ..({}) {}§if p{}←(S{})→if (S {}) {}\
    §if let b=p{}←a&&c→if let b = (a && c) {}§if let b=p{}←a..c→if let b = (a..c) {}§if p&&let b=c{}←a||d→if (a || d) && let b = c {}\
    §{p;}←{}+a→{\n    ({}) + a;\n}§{p;}←m!{}.a→{\n    m! {}.a;\n}§{p;}←loop{}[0]→{\n    (loop {})[0];\n}§{p;}←if a{}→{\n    if a {};\n}\
    §{let a=p else{b};}←c&&d→{\n    let a = (c && d) else {\n        b\n    };\n}§{let a=p else{b};}←S{}→{\n    let a = (S {}) else {\n        b\n    };\n}\
    §{let a=p else{b};}←||c→{\n    let a = (|| c) else {\n        b\n    };\n}§{let a=p else{b};}←c.d→{\n    let a = c.d else {\n        b\n    };\n}\
    §p..b←a..→(a..)..b§..p←a..b→..(a..b)§a..p←b=c→a..(b = c)§p..←a=b→(a = b)..§a=p←b=c→a = (b = c)§p=a←b..→(b..) = a\
    §-p←p as T←a+b→-((a + b) as T)§match p{}←-p←S{}→match -(S {}) {}§match p{}←|x|p←S{}→match |x| (S {}) {}§return p←p+a←{}→return {} + a§a+b→a + b";

/// The tree of a row: nodes behind one another, each within the one before it.
pub(crate) fn tree(alloc: Global, given: &str) -> Option<Expr> {
    match given.split_once('←') {
        Some((node, part)) => with_part(alloc, node, inner(alloc, part)?),
        None => expr(alloc, given),
    }
}

/// The second node of a row, with the third in it.
fn inner(alloc: Global, given: &str) -> Option<Expr> {
    match given.split_once('←') {
        Some((node, part)) => with_part(alloc, node, expr(alloc, part)?),
        None => expr(alloc, given),
    }
}

/// What is made of a tree in a place, printed as the value of a constant.
fn made(alloc: Global, tree: Expr, place: Place) -> Option<Text> {
    printed(alloc, parenthesize(alloc, tree, place).ok()?)
}

/// Whether it is printed so.
fn is_made(alloc: Global, tree: Expr, place: Place, wanted: &str) -> bool {
    match made(alloc, tree, place) {
        Some(text) => is_value(text.as_bytes(), wanted.as_bytes()),
        None => false,
    }
}

/// Whether the text is that of a constant with this value.
fn is_value(text: &[u8], wanted: &[u8]) -> bool {
    match text.strip_prefix(b"const A: B = ".as_slice()) {
        Some(value) => value.strip_suffix(b";\n".as_slice()) == Some(wanted),
        None => false,
    }
}

#[test]
fn trees(rt: HostRuntime) -> Result<(), Fail> {
    let alloc = rt.alloc();
    for row in ROWS.split(BETWEEN) {
        let (given, wanted) = parts(row);
        assert!(rt;
            matches!(told(alloc, tree(alloc, given)), Some(true)),
            "{row}"
        );
        let Some(tree) = tree(alloc, given) else {
            panic!(rt; "no tree: {row}");
        };
        assert!(rt; is_made(alloc, tree, FREE, wanted), "{row}");
    }
    Ok(())
}

/// Whether this is made of what a text reads to, in this place.
fn is_made_of(alloc: Global, text: &str, place: Place, wanted: &str) -> bool {
    match expr(alloc, text) {
        Some(tree) => is_made(alloc, tree, place, wanted),
        None => false,
    }
}

#[test]
fn places(rt: HostRuntime) -> Result<(), Fail> {
    let alloc = rt.alloc();
    assert!(rt; is_made_of(alloc, "A {}", plain(0, true), "(A {})"));
    assert!(rt; is_made_of(alloc, "a + b", plain(9, false), "a + b"));
    assert!(rt; is_made_of(alloc, "a + b", plain(10, false), "(a + b)"));
    assert!(rt; is_made_of(alloc, "return", plain(12, false), "return"));
    assert!(rt;
        is_made_of(
            alloc,
            "return",
            before_op(12, false, false, false),
            "(return)"
        )
    );
    assert!(rt;
        is_made_of(
            alloc,
            "loop {}",
            before_op(9, false, true, false),
            "(loop {})"
        )
    );
    assert!(rt; is_made_of(alloc, "loop {}", STATEMENT, "loop {}"));
    Ok(())
}

/// So many `-`, each over the next, over `a`.
fn signs(alloc: Global, count: usize) -> Option<Expr> {
    let mut tree = expr(alloc, "a")?;
    for _ in 0..count {
        tree = with_part(alloc, "-p", tree)?;
    }
    Some(tree)
}

/// Whether so many signs get their parentheses, or why they don't.
fn answer(alloc: Global, count: usize) -> Option<Result<(), ParenError>> {
    match parenthesize(alloc, signs(alloc, count)?, FREE) {
        Ok(_) => Some(Ok(())),
        Err(why) => Some(Err(why)),
    }
}

#[test]
fn the_depth_of_what_is_made(rt: HostRuntime) -> Result<(), Fail> {
    let alloc = rt.alloc();
    assert!(rt; matches!(answer(alloc, 128), Some(Ok(()))));
    assert!(rt; matches!(answer(alloc, 129), Some(Err(ParenError::TooDeep))));
    Ok(())
}

#[test]
fn the_depth_of_what_lacks_them(rt: HostRuntime) -> Result<(), Fail> {
    let alloc = rt.alloc();
    for count in [128, 129, 255] {
        assert!(rt; matches!(told(alloc, signs(alloc, count)), Some(true)));
    }
    assert!(rt; matches!(told(alloc, signs(alloc, 256)), Some(false)));
    Ok(())
}
