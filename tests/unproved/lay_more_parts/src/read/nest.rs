//! Delimiters, operators and a walk, worked out by hand from the Rust Reference's rules.
use crate::read::each::each_holds;
use lay_nest::{Cursor, Nested, nest};
use lay_test_rows::{BETWEEN, parts, tokens};
use lay_token::{FormatError, Kind, Refusal};
use std::alloc::Global;
use std::process::Abort;

/// The tokens of a text, nested.
fn nested(alloc: Global, text: &[u8]) -> Result<Nested, FormatError> {
    nest(alloc, tokens(alloc, text)?)
}

/// The tokens of the text of a row are balanced, or else unbalanced at the place that stands behind it.
fn place(alloc: Global, row: &str) -> bool {
    let (text, wanted) = match row.split_once('→') {
        Some((text, at)) => (text, Some(at.parse::<usize>().unwrap_or(usize::MAX))),
        None => (row, None),
    };
    match nested(alloc, text.as_bytes()) {
        Ok(_) => wanted.is_none(),
        Err(FormatError::Refused(Refusal::Unbalanced { at })) => wanted == Some(at),
        Err(_) => false,
    }
}

#[test]
fn places(rt: HostRuntime) {
    let rows = "§()§([{}])(a)§fn f( { }→4§fn f( { )→8§(→0§}→0§a ) (→2§{ ( [ ] ) a→0§[ { ( ) ]→8";
    each_holds(&rt, rt.alloc(), rows, BETWEEN, place);
}

/// The texts of the tokens ahead, one character each.
fn is_ahead(cursor: &Cursor<'_>, text: &[u8]) -> bool {
    let tokens = cursor.as_slice();
    if tokens.len() != text.len() {
        return false;
    }
    for (i, (token, byte)) in tokens.iter().zip(text).enumerate() {
        let same = match cursor.peek(i) {
            Some(peeked) => peeked.at == token.at,
            None => false,
        };
        if !same || token.text.as_bytes() != [*byte].as_slice() {
            return false;
        }
    }
    cursor.peek(text.len()).is_none() && cursor.is_end() == text.is_empty()
}

/// Moves past one token, if one is ahead.
fn stepped(cursor: &mut Cursor<'_>) -> bool {
    let may = !cursor.is_end();
    if may {
        cursor.step();
    }
    may
}

/// Moves past a group, if one is ahead, and gives what is inside.
#[tactic(auto, using(lay_nest::proofs::Steps::begins_group_opener))]
fn entered<'a>(cursor: &mut Cursor<'a>) -> Option<Cursor<'a>> {
    match cursor.peek(0) {
        Some(front) => match front.kind {
            Kind::Opener(_) => Some(cursor.group()),
            _ => None,
        },
        None => None,
    }
}

/// Moves past a token; these are ahead then.
fn steps(rt: &impl Abort, cursor: &mut Cursor<'_>, ahead: &[u8]) {
    let moved = stepped(cursor);
    assert!(rt; moved && is_ahead(cursor, ahead));
}

/// Moves past a group that holds these tokens; the others are ahead then.
fn passes(rt: &impl Abort, cursor: &mut Cursor<'_>, inside: &[u8], ahead: &[u8]) {
    let holds = match entered(cursor) {
        Some(found) => is_ahead(&found, inside),
        None => false,
    };
    assert!(rt; holds && is_ahead(cursor, ahead));
}

// A group in a group.
#[test]
fn walk(rt: HostRuntime) {
    match nested(rt.alloc(), b"a(b[c]d)e") {
        Ok(nested) => {
            let mut outer = nested.cursor();
            assert!(rt; is_ahead(&outer, b"a(b[c]d)e"));
            steps(&rt, &mut outer, b"(b[c]d)e");
            let mut inner = outer.fork();
            passes(&rt, &mut outer, b"b[c]d", b"e");
            steps(&rt, &mut outer, b"");
            // Past an opener alone, and later past its closer.
            steps(&rt, &mut inner, b"b[c]d)e");
            steps(&rt, &mut inner, b"[c]d)e");
            passes(&rt, &mut inner, b"c", b"d)e");
            steps(&rt, &mut inner, b")e");
            steps(&rt, &mut inner, b"e");
        }
        Err(_) => assert!(rt; false),
    }
}

// What is inside a group ends where the group does.
#[test]
fn walk_inside(rt: HostRuntime) {
    match nested(rt.alloc(), b"(b[c]d)e") {
        Ok(nested) => match entered(&mut nested.cursor()) {
            Some(mut inside) => {
                steps(&rt, &mut inside, b"[c]d");
                passes(&rt, &mut inside, b"c", b"d");
                steps(&rt, &mut inside, b"");
                assert!(rt; !stepped(&mut inside) && entered(&mut inside).is_none());
            }
            None => assert!(rt; false),
        },
        Err(_) => assert!(rt; false),
    }
}

/// Whether the operator of a row stands at the front of its text.
fn operator(alloc: Global, row: &str) -> Option<bool> {
    let (text, op) = parts(row);
    match nested(alloc, text.as_bytes()) {
        Ok(nested) => Some(nested.cursor().op_is(op.as_bytes())),
        Err(_) => None,
    }
}

fn stands(alloc: Global, row: &str) -> bool {
    operator(alloc, row) == Some(true)
}

fn stands_not(alloc: Global, row: &str) -> bool {
    operator(alloc, row) == Some(false)
}

#[test]
fn operators(rt: HostRuntime) {
    let rows = "<<=→<<=§..=a→..=§< <→<§::a→::§: :→:§- >→-§....→...§=!a→=";
    each_holds(&rt, rt.alloc(), rows, BETWEEN, stands);
    let others = "<<=→<<§<<=→<§..=a→..§< <→<<§: :→::§- >→->§....→..§=!a→=!§a→a§→+§→";
    each_holds(&rt, rt.alloc(), others, BETWEEN, stands_not);
}
