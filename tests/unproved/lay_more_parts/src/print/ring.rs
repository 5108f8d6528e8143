//! Calls on rings, rows and marks, in order, each that may answer `NoMemory` with ample memory.
use lay_layout::Tok;
use lay_ring::{Entry, LentTok, Marks, Ring, Row, Size, UNKNOWN};
use lay_text::{NoMemory, Text};
use std::alloc::Global;
use std::process::Abort;
use std::test::Fail;

/// Whether a text of a size is pushed, and gets this number.
fn pushes(alloc: Global, ring: &mut Ring, text: &[u8], size: Size, number: u64) -> bool {
    match Text::from_bytes(alloc, text) {
        Ok(text) => match ring.push(Entry {
            tok: Tok::Text(text),
            size,
        }) {
            Ok(found) => found == number,
            Err(_) => false,
        },
        Err(NoMemory) => false,
    }
}

/// Whether an entry is this text with this size.
fn is_entry(entry: &Entry, text: &[u8], size: Size) -> bool {
    match &entry.tok {
        Tok::Text(found) => found.as_bytes() == text && entry.size == size,
        _ => false,
    }
}

/// Whether the entry that is taken is this one.
fn pops(ring: &mut Ring, text: &[u8], size: Size) -> bool {
    match ring.pop_front() {
        Some(entry) => is_entry(&entry, text, size),
        None => false,
    }
}

fn ring_rows(rt: &impl Abort, alloc: Global, ring: &mut Ring) {
    assert!(rt; ring.front().is_none());
    assert!(rt; pushes(alloc, ring, b"a", Size::Known(1), 0));
    assert!(rt; pushes(alloc, ring, b"b", Size::Known(4), 1));
    assert!(rt; pops(ring, b"a", Size::Known(1)));
    assert!(rt; ring.first() == 1 && ring.len() == 1);
    assert!(rt; pushes(alloc, ring, b"c", Size::Known(1), 2));
    assert!(rt; pushes(alloc, ring, b"d", Size::Known(1), 3));
    assert!(rt; pops(ring, b"b", Size::Known(4)));
    assert!(rt; ring.reserve(3).is_ok());
    assert!(rt; ring.spare() >= 3);
}

/// Whether these are the first entry of a row, where it is a text, and its size.
fn is_front(row: &Row, text: &[u8], size: i64) -> bool {
    match row.front() {
        Some(entry) => match entry.tok {
            LentTok::Text(found) => found == text && entry.size == size,
            _ => false,
        },
        None => false,
    }
}

/// Whether a row has so many entries, of which so many texts stand at the front, and these are their bytes.
fn is_row(row: &Row, len: usize, count: usize, bytes: &[u8]) -> bool {
    let texts = row.texts();
    row.len() == len && texts.count == count && texts.bytes == bytes
}

/// Takes the texts at the front of a row away.
fn pop_all_texts(row: &mut Row) {
    let texts = row.texts();
    let (count, len) = (texts.count, texts.bytes.len());
    row.pop_texts(count, len);
}

/// Takes entries away: texts up to one that is none, that one, and the texts behind it.
fn empties(row: &mut Row) -> [bool; 5] {
    row.pop_front();
    let one = is_row(row, 3, 1, b"c");
    pop_all_texts(row);
    let end = is_row(row, 2, 0, b"");
    row.pop_front();
    let last = is_row(row, 1, 1, b"def");
    pop_all_texts(row);
    [
        one,
        end,
        last,
        is_row(row, 0, 0, b""),
        row.front().is_none(),
    ]
}

/// A text, a text, an end and a text are pushed behind an entry that was passed.
fn row_rows(rt: &impl Abort, alloc: Global) -> Result<(), NoMemory> {
    let mut row = Row::new(alloc)?;
    let empty = is_row(&row, 0, 0, b"");
    row.pass();
    row.reserve(4)?;
    let numbers = [
        row.push(LentTok::Text(b"ab"), UNKNOWN),
        row.push(LentTok::Text(b"c"), 1),
        row.push(LentTok::End, 0),
        row.push(LentTok::Text(b"def"), 3),
    ];
    let pushed = [
        empty,
        is_row(&row, 4, 2, b"abc"),
        is_front(&row, b"ab", UNKNOWN),
    ];
    row.size_at(1, 7);
    let sized = is_front(&row, b"ab", 7);
    let emptied = empties(&mut row);
    assert_eq!(rt;
        (numbers, pushed, sized, emptied),
        ([1, 2, 3, 4], [true; 3], true, [true; 5])
    );
    Ok(())
}

/// Takes so many of the oldest marks, where there are as many.
fn drops(marks: &mut Marks<u64>, count: usize) -> bool {
    if count > marks.len() {
        return false;
    }
    marks.drop_oldest(count);
    true
}

/// Puts a mark at a place, where one stands.
fn sets(marks: &mut Marks<u64>, place: usize, item: u64) -> bool {
    if place >= marks.len() {
        return false;
    }
    marks.set(place, item);
    true
}

/// Adds a mark, where there is room.
fn adds(marks: &mut Marks<u64>, item: u64) -> bool {
    if marks.spare() == 0 {
        return false;
    }
    marks.add(item);
    true
}

/// Whether these are the marks.
fn are_marks(marks: &Marks<u64>, items: &[u64]) -> bool {
    for (place, item) in items.iter().enumerate() {
        if marks.get(place) != Some(*item) {
            return false;
        }
    }
    marks.len() == items.len() && marks.get(items.len()).is_none()
}

/// Changes the one mark that is held, 7.
fn changes(marks: &mut Marks<u64>) -> [bool; 8] {
    let added = [adds(marks, 8), adds(marks, 6), are_marks(marks, &[7, 8, 6])];
    let set = [sets(marks, 1, 3), are_marks(marks, &[7, 3, 6])];
    let dropped = [drops(marks, 2), are_marks(marks, &[6]), drops(marks, 1)];
    [
        added[0], added[1], added[2], set[0], set[1], dropped[0], dropped[1], dropped[2],
    ]
}

fn marks_rows(rt: &impl Abort, alloc: Global) -> Result<(), NoMemory> {
    let mut marks = Marks::new(alloc, 0)?;
    for item in [5u64, 7, 9] {
        marks.push(item)?;
    }
    let taken = (marks.pop_oldest(), marks.pop(), marks.last());
    assert_eq!(rt; taken, (Some(5), Some(9), Some(7)));
    marks.reserve(2)?;
    assert!(rt; marks.spare() >= 2);
    assert_eq!(rt; changes(&mut marks), [true; 8]);
    let emptied = (are_marks(&marks, &[]), marks.pop(), marks.last());
    assert_eq!(rt; emptied, (true, None, None));
    Ok(())
}

#[test]
fn calls(rt: HostRuntime) -> Result<(), Fail> {
    let mut ring = Ring::new(rt.alloc(), 2)?;
    ring_rows(&rt, rt.alloc(), &mut ring);
    row_rows(&rt, rt.alloc())?;
    marks_rows(&rt, rt.alloc())?;
    Ok(())
}
