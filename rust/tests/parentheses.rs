//! Which expressions lack nothing but parentheses, and which pairs they get.
mod holes;
mod trees;

use froesaffron::tree::*;
use froesaffron::{Cause, format, is_loose, parenthesize, unparse};
use holes::{expr, nested};
use trees::{TREES, binary, constant, name, negated, test_of_literal};

/// A node, after `←` the one that stands in it for the path `p`, and after a further `←` the one
/// that stands in that; and what is made of it, as the value of a constant. The proved calls are
/// asked for the same rows.
#[rustfmt::skip]
const ROWS: [(&str, &str); 67] = [
    ("p*c←a+b", "(a + b) * c"),
    ("c*p←a+b", "c * (a + b)"),
    ("p+c←a+b", "(a + b) + c"),
    ("a+p←b+c", "a + (b + c)"),
    ("p+c←a*b", "a * b + c"),
    ("p<c←a<b", "(a < b) < c"),
    ("p<b←a as T", "(a as T) < b"),
    ("p<<b←a as T", "(a as T) << b"),
    ("p>b←a as T", "a as T > b"),
    ("p<b←a as T<U>", "a as T<U> < b"),
    ("b<p←a as T", "b < a as T"),
    ("-p←a as T", "-(a as T)"),
    ("p as U←-a", "-a as U"),
    ("p as U←a+b", "(a + b) as U"),
    ("-p←-a", "-(-a)"),
    ("-p←&a", "-(&a)"),
    ("!p←a.b", "!a.b"),
    ("*p←a()", "*a()"),
    ("&p←a+b", "&(a + b)"),
    ("p.b←-a", "(-a).b"),
    ("p.b←a.c", "(a.c).b"),
    ("p()←a.b", "(a.b)()"),
    ("p.0←1", "(1).0"),
    ("p.0←1.", "(1.).0"),
    ("p.0←1u8", "1u8.0"),
    ("p.a←1", "1.a"),
    ("p[0]←|x|x", "(|x| x)[0]"),
    ("p?←return", "(return)?"),
    ("p+a←||b", "(|| b) + a"),
    ("a+p←||b", "a + || b"),
    ("p+a←return", "(return) + a"),
    ("a+p←return b", "a + return b"),
    ("p=a←||b", "(|| b) = a"),
    ("return p←'a:{}", "return 'a: {}"),
    ("break p←'a:{}", "break ('a: {})"),
    ("break 'b p←'a:{}", "break 'b 'a: {}"),
    ("break p←loop{}", "break loop {}"),
    ("match p{}←S{a:1}", "match (S { a: 1 }) {}"),
    ("if p{}←S{a:1}", "if (S { a: 1 }) {}"),
    ("if p{}←a==S{}", "if a == (S {}) {}"),
    ("while p{}←S{}.a", "while (S {}).a {}"),
    ("for b in p{}←S{}", "for b in (S {}) {}"),
    ("if p{}←return{}", "if return ({}) {}"),
    ("match p{}←..{}", "match ..({}) {}"),
    ("if p{}←(S{})", "if (S {}) {}"),
    ("if let b=p{}←a&&c", "if let b = (a && c) {}"),
    ("if let b=p{}←a..c", "if let b = (a..c) {}"),
    ("if p&&let b=c{}←a||d", "if (a || d) && let b = c {}"),
    ("{p;}←{}+a", "{\n    ({}) + a;\n}"),
    ("{p;}←m!{}.a", "{\n    m! {}.a;\n}"),
    ("{p;}←loop{}[0]", "{\n    (loop {})[0];\n}"),
    ("{p;}←if a{}", "{\n    if a {};\n}"),
    ("{let a=p else{b};}←c&&d", "{\n    let a = (c && d) else {\n        b\n    };\n}"),
    ("{let a=p else{b};}←S{}", "{\n    let a = (S {}) else {\n        b\n    };\n}"),
    ("{let a=p else{b};}←||c", "{\n    let a = (|| c) else {\n        b\n    };\n}"),
    ("{let a=p else{b};}←c.d", "{\n    let a = c.d else {\n        b\n    };\n}"),
    ("p..b←a..", "(a..)..b"),
    ("..p←a..b", "..(a..b)"),
    ("a..p←b=c", "a..(b = c)"),
    ("p..←a=b", "(a = b).."),
    ("a=p←b=c", "a = (b = c)"),
    ("p=a←b..", "(b..) = a"),
    ("-p←p as T←a+b", "-((a + b) as T)"),
    ("match p{}←-p←S{}", "match -(S {}) {}"),
    ("match p{}←|x|p←S{}", "match |x| (S {}) {}"),
    ("return p←p+a←{}", "return {} + a"),
    ("a+b", "a + b"),
];

/// More such rows, which aren't among those, worked out by hand from the Rust Reference.
#[rustfmt::skip]
const MORE_ROWS: [(&str, &str); 6] = [
    // An expression in an item of a trait, as a value and in a body.
    ("{trait T{const C:u8=p*c;}}←a+b", "{\n    trait T {\n        const C: u8 = (a + b) * c;\n    }\n}"),
    ("{trait T{fn f(){p*c}}}←a+b", "{\n    trait T {\n        fn f() {\n            (a + b) * c\n        }\n    }\n}"),
    // A part that lacks a pair within a pair that the tree has.
    ("(p*c)←a+b", "((a + b) * c)"),
    ("-(p.b)←a as T", "-((a as T).b)"),
    // A part whose place changes when its parent gets a pair: after a parenthesis no statement
    // begins, and a struct literal may stand.
    ("{p*b;}←p+a←loop{}", "{\n    (loop {} + a) * b;\n}"),
    ("if p*b{}←p+a←S{}", "if (S {} + a) * b {}"),
];

/// An expression, after `←` what it is spoilt with, and whether it then lacks nothing but
/// parentheses.
#[rustfmt::skip]
const SPOILT: [(&str, bool); 12] = [
    ("a←b", true),
    ("a←fn", false),
    ("a←a + b", false),
    ("1←2", true),
    ("1←2 + 3", false),
    ("1←(2)", false),
    ("a + b + c←-", true),
    ("a + b + c←<", false),
    ("a[0]←()", true),
    ("a.b←()", false),
    ("{ loop {} b; }←;", true),
    ("{ a; b; }←;", false),
];

/// A node, after `←` the one that stands in it for `p`, and whether that lacks nothing but
/// parentheses.
const BODIES: [(&str, bool); 4] = [
    ("|| p←{ a; b }", true),
    ("|| p←{ a }", false),
    ("|| p←'a: { a }", true),
    ("-p←{ a }", true),
];

/// The text of a constant with this value, which is laid out again to itself.
fn text_of(value: Expr) -> String {
    let text = unparse(&constant(value).unwrap()).unwrap();
    assert_eq!(format(&text).as_ref(), Ok(&text));
    text
}

#[test]
fn a_value_gets_the_parentheses_that_it_lacks() {
    for (tree, text) in TREES {
        assert_eq!(is_loose(&tree().unwrap()), Ok(true), "{text}");
        assert_eq!(text_of(parenthesize(tree().unwrap(), FREE).unwrap()), format!("const A: T = {text};\n"));
    }
}

#[test]
fn each_row_gets_the_parentheses_that_it_lacks() {
    for (row, text) in ROWS.into_iter().chain(MORE_ROWS) {
        let tree = nested(row);
        assert_eq!(is_loose(&tree), Ok(true), "{row}");
        let made = parenthesize(tree, FREE).unwrap();
        assert_eq!(text_of(made.clone()), format!("const A: T = {text};\n"), "{row}");
        // What has its parentheses gets no more.
        assert_eq!(parenthesize(made.clone(), FREE), Ok(made), "{row}");
    }
}

/// Renames a path, gives a literal another text, operands other operators and steps a call after
/// them, and ends no statement in a `;`.
fn spoil(tree: &mut Expr, with: &str) {
    let text = Text::from_bytes(Global, with.as_bytes()).unwrap();
    match tree {
        Expr::Path { path } => path.segments.as_mut_slice()[0].0.text = text,
        Expr::Lit { literal } => literal.text = text,
        Expr::Chain { rest, .. } => {
            for (op, _) in rest.as_mut_slice() {
                *op = if with == "<" { Op::Less } else { Op::Sub };
            }
        }
        Expr::Postfix { steps, .. } => {
            assert!(steps.push(Step::Apply { args: List::new(Global) }).is_ok());
        }
        Expr::Block { body, .. } => {
            for stmt in body.stmts.as_mut_slice() {
                if let Stmt::Expr { ended, .. } = stmt {
                    *ended = false;
                }
            }
        }
        _ => panic!("{tree:?}"),
    }
}

#[test]
fn what_no_parentheses_mend_is_told() {
    for (row, wanted) in SPOILT {
        let (text, with) = row.split_once('←').unwrap();
        let mut tree = expr(text);
        spoil(&mut tree, with);
        assert_eq!(is_loose(&tree), Ok(wanted), "{row}");
    }
    for (row, wanted) in BODIES {
        assert_eq!(is_loose(&nested(row)), Ok(wanted), "{row}");
    }
}

#[test]
fn a_keyword_for_a_name_is_mended_by_no_parentheses() {
    assert_eq!(is_loose(&name("fn").unwrap()), Ok(false));
    let made = parenthesize(name("fn").unwrap(), FREE).unwrap();
    assert_eq!(unparse(&constant(made).unwrap()).unwrap_err().cause(), Cause::NotWritten);
}

/// A block of one statement.
fn block_of(expr: Expr) -> Expr {
    let mut stmts = List::new(Global);
    let expr = Boxed::new(Global, expr).unwrap();
    assert!(stmts.push(Stmt::Expr { attrs: List::new(Global), expr, ended: true }).is_ok());
    Expr::Block { label: None, body: Block { attrs: List::new(Global), stmts } }
}

#[test]
fn what_is_lacking_depends_on_the_place() {
    let sum = || binary(test_of_literal().unwrap(), Op::Add, name("b").unwrap()).unwrap();
    assert_eq!(text_of(parenthesize(sum(), FREE).unwrap()), "const A: T = if (S { a: 1 }) {} + b;\n");
    // A statement ends with the block that it begins with.
    let text = "const A: T = {\n    (if (S { a: 1 }) {}) + b;\n};\n";
    assert_eq!(text_of(block_of(parenthesize(sum(), STATEMENT).unwrap())), text);
    assert_eq!(text_of(parenthesize(block_of(sum()), FREE).unwrap()), text);
}

/// So many `-`, each over the next, over `a`.
fn signs(count: usize) -> Expr {
    (0..count).fold(name("a").unwrap(), |operand, _| negated(operand).unwrap())
}

#[test]
fn a_tree_may_be_as_deep_with_its_parentheses_as_files_may_be() {
    // The path needs 1, and the innermost sign one more. Each further one takes it in parentheses, which need one more themselves: 256 for 128 signs.
    assert_eq!(is_loose(&signs(128)), Ok(true));
    assert!(parenthesize(signs(128), FREE).is_ok());
    assert_eq!(is_loose(&signs(129)), Ok(true));
    assert_eq!(parenthesize(signs(129), FREE).err().map(|error| (error.cause(), error.line())), Some((Cause::NotWritten, 0)));
    // A constant is one level more than its value.
    let text = text_of(parenthesize(signs(127), FREE).unwrap());
    assert_eq!(text.split_whitespace().collect::<String>(), format!("constA:T={}-a{};", "-(".repeat(126), ")".repeat(126)));
}

#[test]
#[cfg(feature = "std")]
fn how_deep_a_tree_may_be_ends_where_files_end() {
    for count in 1..=300 {
        // A path and each sign take a level: 256 for 255 signs.
        assert_eq!(is_loose(&signs(count)), Ok(count <= 255), "{count}");
        let made = parenthesize(signs(count), FREE).map_err(|error| error.cause());
        assert_eq!(made.is_ok(), count <= 128, "{count}");
        assert!(made.is_ok() || made == Err(Cause::NotWritten), "{count}");
    }
}

#[test]
#[cfg(feature = "std")]
fn a_deep_tree_needs_no_stack_of_the_caller() {
    let (tree, too_deep) = (signs(128), signs(5_000));
    let small = std::thread::Builder::new().stack_size(64 * 1024).spawn(move || {
        assert_eq!(is_loose(&tree), Ok(true));
        assert_eq!(is_loose(&too_deep), Ok(false));
        assert_eq!(parenthesize(too_deep, FREE).err().map(|error| error.cause()), Some(Cause::NotWritten));
        parenthesize(tree, FREE)
    });
    assert!(small.unwrap().join().unwrap().is_ok());
}
