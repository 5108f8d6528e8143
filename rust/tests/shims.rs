//! What stands in for the toolchain's libraries, beside what Rust's own library answers, and with want of memory.
#![allow(dead_code)]
extern crate alloc;

#[path = "../src/shims.rs"]
mod shims;
mod draws;
mod refusing;

use draws::Draw;
use refusing::with_refusal;
use shims::{Arg, ArgAction, Box, Buffer, Command, Global, HeapCircularBuffer, SmallVec, Span, Vec, error::ErrorKind, filled};
use std::collections::VecDeque;

#[test]
fn a_span_keeps_its_number_when_it_is_passed() {
    for number in [0, 1, 7, usize::MAX >> 1] {
        let span = Span::new(number);
        assert_eq!((span.get(), span.is_passed()), (number, false));
        span.pass();
        span.pass();
        assert_eq!((span.get(), span.is_passed()), (number, true));
    }
}

#[test]
fn a_vector_does_what_rusts_does() {
    let mut draw = Draw(1);
    let (mut ours, mut theirs) = (Vec::new(Global), std::vec::Vec::new());
    for number in 0..20_000u32 {
        match draw.below(12) {
            10 if !theirs.is_empty() => {
                let at = draw.below(theirs.len() as u64) as usize;
                assert_eq!(ours.remove(at), theirs.remove(at));
            }
            0 | 1 => {
                ours.push(number).unwrap();
                theirs.push(number);
            }
            8 if ours.len() < ours.capacity() => {
                ours.push_reserved(number);
                theirs.push(number);
            }
            9 if !theirs.is_empty() => assert_eq!(Some(ours.take_last()), theirs.pop()),
            2 => {
                let at = draw.below(theirs.len() as u64 + 1) as usize;
                ours.insert(at, number).unwrap();
                theirs.insert(at, number);
            }
            3 => {
                let more = std::vec![number; draw.below(40) as usize];
                ours.extend_from_slice(&more).unwrap();
                theirs.extend_from_slice(&more);
            }
            4 => assert_eq!(ours.pop(), theirs.pop()),
            5 => {
                ours.reserve(1).unwrap();
                assert!(ours.capacity() > theirs.len());
            }
            6 if draw.below(20) == 0 => {
                ours.clear();
                theirs.clear();
            }
            7 => {
                let length = theirs.len() - draw.below(3).min(theirs.len() as u64) as usize;
                ours.truncate(length);
                theirs.truncate(length);
            }
            _ => {
                let room = draw.below(50) as usize;
                ours.reserve_exact(room).unwrap();
                assert!(ours.capacity() >= theirs.len() + room);
            }
        }
        assert_eq!(ours.as_slice(), theirs.as_slice());
        assert_eq!((ours.len(), ours.first(), ours.last()), (theirs.len(), theirs.first(), theirs.last()));
    }
    assert!(ours.into_iter().eq(theirs));
    Vec::<u8>::new(Global).destroy_empty();
    assert!(Vec::<u8>::with_capacity(Global, 7).unwrap().capacity() >= 7);
}

#[test]
fn a_vector_that_finds_no_memory_stays_as_it_is() {
    let mut vector = Vec::new(Global);
    vector.extend_from_slice(&[1, 2, 3, 4]).unwrap();
    while vector.len() < vector.capacity() {
        vector.push(5).unwrap();
    }
    let before = vector.as_slice().to_vec();
    with_refusal(0, || {
        assert_eq!(vector.push(6).unwrap_err().value, 6);
        assert_eq!(vector.insert(0, 7).unwrap_err().value, 7);
        assert!(vector.extend_from_slice(&[8]).is_err());
        assert!(vector.reserve(1).is_err());
        assert!(vector.reserve_exact(1).is_err());
        assert!(Vec::<u8>::with_capacity(Global, 1).is_err());
    });
    assert_eq!(vector.as_slice(), before);
    assert!(vector.reserve(usize::MAX).is_err());
}

#[test]
fn a_vector_is_filled_and_gives_up_its_spare_room() {
    let mut slice = filled(Global, 7u8, 1_000).unwrap().into_boxed_slice();
    assert_eq!(slice.as_slice(), [7; 1_000]);
    slice.as_mut_slice()[999] = 8;
    assert_eq!((slice.as_slice()[998], slice.as_slice()[999]), (7, 8));
    assert!(filled(Global, 'a', 0).unwrap().into_boxed_slice().as_slice().is_empty());
    with_refusal(0, || assert!(filled(Global, 7u8, 1).is_err()));
}

#[test]
fn a_box_holds_its_value_once() {
    let mut held = Box::new(Global, std::string::String::from("a")).unwrap();
    held.push('b');
    assert_eq!(&**held, "ab");
    assert_eq!(Box::into_inner(held), "ab");
    assert_eq!(std::mem::size_of::<Box<[u8; 100]>>(), std::mem::size_of::<usize>());
    with_refusal(0, || assert!(Box::new(Global, 1).is_err()));
    // A value without bytes takes no memory.
    with_refusal(0, || assert!(Box::new(Global, ()).is_ok()));
}

#[test]
fn a_short_list_does_what_a_vector_does() {
    let mut draw = Draw(2);
    for _ in 0..2_000 {
        let (mut ours, mut theirs) = (SmallVec::<u8, 22>::new(Global), std::vec::Vec::new());
        for byte in 0..draw.below(12) as u8 {
            match draw.below(4) {
                0 => {
                    let more = std::vec![byte; draw.below(16) as usize];
                    ours.extend_from_slice(&more).unwrap();
                    theirs.extend_from_slice(&more);
                }
                1 => ours.reserve_exact(draw.below(30) as usize).unwrap(),
                2 => {
                    ours.reserve_exact(1).unwrap();
                    ours.push_reserved(byte);
                    theirs.push(byte);
                }
                _ => {
                    ours.push(byte).unwrap();
                    theirs.push(byte);
                }
            }
            assert_eq!(ours.as_slice(), theirs);
        }
    }
    assert_eq!(std::mem::size_of::<SmallVec<u8, 22>>(), 24);
}

#[test]
fn a_short_list_takes_no_memory_up_to_its_room_and_stays_as_it_is_without_it() {
    let mut list = SmallVec::<u8, 22>::new(Global);
    with_refusal(0, || {
        list.extend_from_slice(&[1; 20]).unwrap();
        list.push(2).unwrap();
        list.reserve_exact(1).unwrap();
        list.push_reserved(3);
        assert!(list.push(4).is_err());
        assert!(list.extend_from_slice(&[5, 6]).is_err());
        assert!(list.reserve_exact(1).is_err());
    });
    // The bytes move to a vector, and that to a box: either may be refused.
    with_refusal(1, || assert!(list.push(4).is_err()));
    assert_eq!(list.as_slice(), [[1; 20].as_slice(), &[2, 3]].concat());
    list.push(4).unwrap();
    assert_eq!(list.as_slice().len(), 23);
}

#[test]
fn a_queue_does_what_rusts_does_within_its_room() {
    let mut draw = Draw(3);
    let mut room = 3;
    let mut ours = HeapCircularBuffer::with_capacity(Global, room).unwrap();
    let mut theirs = VecDeque::new();
    for number in 0..20_000 {
        match draw.below(8) {
            0..=3 => {
                let is_full = theirs.len() == room;
                assert_eq!(ours.try_push_back(number), if is_full { Err(number) } else { Ok(()) });
                if !is_full {
                    theirs.push_back(number);
                }
            }
            4 => assert_eq!(ours.pop_front(), theirs.pop_front()),
            5 | 6 => {
                let wanted = draw.below(30) as usize;
                ours.resize(wanted).unwrap();
                room = wanted.max(theirs.len());
            }
            _ => {
                let at = draw.below(30) as usize;
                assert_eq!(ours.get_mut(at).map(|item| std::mem::replace(item, number)), theirs.get_mut(at).map(|item| std::mem::replace(item, number)));
            }
        }
        assert_eq!((ours.len(), ours.capacity()), (theirs.len(), room));
        assert_eq!(ours.front(), theirs.front());
    }
    with_refusal(0, || assert!(ours.resize(1_000).is_err()));
    assert_eq!((ours.len(), ours.capacity()), (theirs.len(), room));
    with_refusal(0, || assert!(HeapCircularBuffer::<u32>::with_capacity(Global, 1).is_err()));
}

#[test]
fn numbers_have_the_digits_that_rust_gives_them() {
    for power in 0..128 {
        for number in [(1u128 << power) - 1, 1 << power, u128::MAX - (1 << power)] {
            assert_eq!(Buffer::new().format(number), number.to_string());
        }
    }
    assert_eq!(Buffer::new().format(u64::MAX), "18446744073709551615");
    assert_eq!(Buffer::new().format(256u32), "256");
    assert_eq!(Buffer::new().format(16_777_216usize), "16777216");
}

/// What the command of a flag `--check`, an option `--items` and one file makes of words: the three values, or why there are none.
fn values<'a>(words: &'a [&'a str]) -> Result<[Option<&'a str>; 3], ErrorKind> {
    let check = Arg::new(Global, "check").long("check").action(ArgAction::SetTrue);
    let items = Arg::new(Global, "items").long("items").action(ArgAction::Set);
    let command = Command::new(Global, "name").no_binary_name(true);
    let command = command.arg(check).and_then(|command| command.arg(items)).and_then(|command| command.arg(Arg::new(Global, "file")));
    let matches = command.map_err(|_| ErrorKind::OutOfMemory)?.try_get_matches_from(words).map_err(|error| error.kind())?;
    Ok([matches.get_str("check"), matches.get_str("items"), matches.get_str("file")])
}

#[test]
fn words_are_read_as_the_table_says() {
    assert_eq!(values(&[]), Ok([None, None, None]));
    assert_eq!(values(&["a", "--check"]), Ok([Some("true"), None, Some("a")]));
    assert_eq!(values(&["--items", "3", "-"]), Ok([None, Some("3"), Some("-")]));
    assert_eq!(values(&["--items=3"]), Ok([None, Some("3"), None]));
    assert_eq!(values(&["--items="]), Ok([None, Some(""), None]));
    assert_eq!(values(&["--items=-3"]), Ok([None, Some("-3"), None]));
    assert_eq!(values(&["--", "--check"]), Ok([None, None, Some("--check")]));
    assert_eq!(values(&["--"]), Ok([None, None, None]));
    assert_eq!(values(&["--items", "-"]), Ok([None, Some("-"), None]));
    assert_eq!(values(&[""]), Ok([None, None, Some("")]));
    let wrong: [&[&str]; 11] = [
        &["a", "b"],
        &["--check", "--check"],
        &["--check=true"],
        &["--items", "1", "--items", "2"],
        &["--items"],
        &["--items", "--check"],
        &["--items", "-3"],
        &["--chec"],
        &["-c"],
        &["--", "a", "b"],
        &["--help"],
    ];
    for words in wrong {
        assert_eq!(values(words), Err(ErrorKind::UnknownArgument), "{words:?}");
    }
    with_refusal(0, || assert_eq!(values(&["a"]), Err(ErrorKind::OutOfMemory)));
    with_refusal(1, || assert_eq!(values(&["a"]), Err(ErrorKind::OutOfMemory)));
}
