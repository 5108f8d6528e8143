//! What is put together, and what is taken from lists.

use crate::build_types::parts::{is_printed, made, named, only, type_of, with};
use lay_build_types::{
    BuildError, BuiltName, both, boxed, keep, kept, nodes, one, part_or_none, turn_all, type_ref,
};
use lay_node::{Arg, Name};
use lay_text::List;

/// Whether these are both numbers.
fn are(answer: Result<(u8, u16), BuildError>, first: u8, second: u16) -> bool {
    match answer {
        Ok((one, other)) => one == first && other == second,
        Err(_) => false,
    }
}

#[test]
fn joins(rt: HostRuntime) {
    let alloc = rt.alloc();
    assert!(&rt; are(both(Ok(1), Ok(2)), 1, 2));
    let first: Result<(u8, u16), BuildError> = both(
        Err(BuildError::BadName),
        Err(BuildError::BadText),
    );
    assert!(&rt; matches!(first, Err(BuildError::BadName)));
    let second: Result<(u8, u16), BuildError> = both(Ok(1), Err(BuildError::BadText));
    assert!(&rt; matches!(second, Err(BuildError::BadText)));
    let node = made(&rt, boxed(alloc, 3u8));
    assert!(&rt; *node.get() == 3);
    let mut list = made(&rt, one(alloc, 4u8));
    made(&rt, keep(&mut list, 5));
    assert!(&rt; list.as_slice() == [4, 5].as_slice());
}

#[test]
fn parts_of_lists(rt: HostRuntime) {
    let alloc = rt.alloc();
    let shallow = type_of(&rt, alloc, "A");
    let deep = made(&rt, type_ref(alloc, false, type_of(&rt, alloc, "B")));
    let (types, need) = made(
        &rt,
        nodes(alloc, with(&rt, only(&rt, alloc, deep), shallow)),
    );
    assert!(&rt; need == 2);
    let args = made(&rt, turn_all(alloc, types));
    match args.as_slice() {
        [Arg::Plain { ty: first }, Arg::Plain { ty: second }] => {
            assert!(&rt; is_printed(alloc, first, "&B"));
            assert!(&rt; is_printed(alloc, second, "A"));
        },
        _ => panic!(&rt; "other arguments"),
    }
}

#[test]
fn parts_that_may_be_there(rt: HostRuntime) {
    let alloc = rt.alloc();
    let reference = made(&rt, type_ref(alloc, false, type_of(&rt, alloc, "A")));
    match part_or_none(Some(reference)) {
        (Some(ty), 2) => assert!(&rt; is_printed(alloc, &ty, "&A")),
        _ => panic!(&rt; "another part"),
    }
    let none: Option<BuiltName> = None;
    assert!(&rt; matches!(part_or_none(none), (None, 0)));
    let refused: Result<(Name, u32), BuildError> = Err(BuildError::BadText);
    assert!(&rt; matches!(kept(refused), Err(BuildError::BadText)));
    let (name, need) = named(&rt, alloc, "a").into_parts();
    assert!(&rt; need == 0 && name.text.as_bytes() == b"a".as_slice());
}
