//! What the proved sources ask of the toolchain's libraries, over Rust's own: vectors, boxes, short lists of bytes and queues that answer want of
//! memory instead of ending the program, the digits of numbers, and the words of a command. Names and answers are those of
//! the libraries that the sources are proved against, and there is no `unsafe` in it.
//!
//! It holds no more than the sources ask for, and stands on `core` and `alloc` alone, so that the tests under `tests/` can take it by itself.
use alloc::collections::VecDeque;
use core::cell::Cell;
use core::ops::{Deref, DerefMut};

/// The one place where memory comes from.
#[derive(Clone, Copy, Debug, PartialEq, Eq)]
pub struct Global;

/// Memory was not found.
#[derive(Clone, Copy, Debug, PartialEq, Eq)]
pub struct AllocError;

/// Memory was not found, and here is what should have been kept.
#[derive(Debug)]
pub struct AllocFailed<T> {
    pub value: T,
}

/// A vector.
#[derive(Debug, PartialEq, Eq)]
pub struct Vec<T>(alloc::vec::Vec<T>);

/// A clone ends the program where memory isn't found, as that of Rust's own vector does. This one
/// takes less of the stack for trees that are deep, where nothing is optimised.
impl<T: Clone> Clone for Vec<T> {
    fn clone(&self) -> Self {
        let mut items = alloc::vec::Vec::with_capacity(self.0.len());
        for item in &self.0 {
            items.push(item.clone());
        }
        Vec(items)
    }
}

impl<T> Vec<T> {
    #[inline]
    pub fn new(_: Global) -> Vec<T> {
        Vec(alloc::vec::Vec::new())
    }

    /// A vector with room for so many items.
    #[inline]
    pub fn with_capacity(_: Global, room: usize) -> Result<Vec<T>, AllocError> {
        let mut items = Vec(alloc::vec::Vec::new());
        items.reserve_exact(room)?;
        Ok(items)
    }

    #[inline]
    pub fn push(&mut self, item: T) -> Result<(), AllocFailed<T>> {
        if self.0.len() == self.0.capacity() && self.reserve(1).is_err() {
            return Err(AllocFailed { value: item });
        }
        self.0.push(item);
        Ok(())
    }

    /// Makes room for so many more items, and for as many again where that is cheaper in the long run.
    #[inline(never)]
    pub fn reserve(&mut self, more: usize) -> Result<(), AllocError> {
        self.0.try_reserve(more).map_err(|_| AllocError)
    }

    /// Makes room for so many more items, and no more than that.
    pub fn reserve_exact(&mut self, more: usize) -> Result<(), AllocError> {
        self.0.try_reserve_exact(more).map_err(|_| AllocError)
    }

    #[inline]
    pub fn as_slice(&self) -> &[T] {
        &self.0
    }

    #[inline]
    pub fn as_mut_slice(&mut self) -> &mut [T] {
        &mut self.0
    }

    #[inline]
    pub fn pop(&mut self) -> Option<T> {
        self.0.pop()
    }

    pub fn insert(&mut self, at: usize, item: T) -> Result<(), AllocFailed<T>> {
        if self.reserve(1).is_err() {
            return Err(AllocFailed { value: item });
        }
        self.0.insert(at, item);
        Ok(())
    }

    pub fn remove(&mut self, at: usize) -> T {
        self.0.remove(at)
    }

    #[inline]
    pub fn truncate(&mut self, length: usize) {
        self.0.truncate(length);
    }

    #[inline]
    pub fn clear(&mut self) {
        self.0.clear();
    }

    #[inline]
    pub fn capacity(&self) -> usize {
        self.0.capacity()
    }

    /// Adds an item where there is room for it.
    #[inline]
    pub fn push_reserved(&mut self, item: T) {
        debug_assert!(self.0.len() < self.0.capacity());
        self.0.push(item);
    }

    /// Ends a vector that holds nothing.
    pub fn destroy_empty(self) {}

    /// The vector as Rust's own, without a copy.
    pub fn into_std(self) -> alloc::vec::Vec<T> {
        self.0
    }

    /// The items, without room for more.
    pub fn into_boxed_slice(self) -> BoxedSlice<T> {
        BoxedSlice(self.0.into_boxed_slice())
    }
}

impl<T: Copy> Vec<T> {
    /// Takes the last item of a vector that has one.
    #[inline]
    pub fn take_last(&mut self) -> T {
        let last = self.0[self.0.len() - 1];
        self.0.truncate(self.0.len() - 1);
        last
    }
}

/// A vector of an item, as often as is asked for.
pub fn filled<T: Copy>(_: Global, item: T, count: usize) -> Result<Vec<T>, AllocError> {
    let mut items = Vec(alloc::vec::Vec::new());
    items.reserve_exact(count)?;
    items.0.resize(count, item);
    Ok(items)
}

/// Items in room for them alone.
#[derive(Debug)]
pub struct BoxedSlice<T>(alloc::boxed::Box<[T]>);

impl<T> BoxedSlice<T> {
    #[inline]
    pub fn as_slice(&self) -> &[T] {
        &self.0
    }

    #[inline]
    pub fn as_mut_slice(&mut self) -> &mut [T] {
        &mut self.0
    }
}

impl<T: Copy> Vec<T> {
    #[inline]
    pub fn extend_from_slice(&mut self, items: &[T]) -> Result<(), AllocError> {
        if items.len() > self.0.capacity() - self.0.len() {
            self.reserve(items.len())?;
        }
        self.0.extend_from_slice(items);
        Ok(())
    }

    /// Makes the vector so many items long, of which those that it hadn't are this one.
    pub fn resize(&mut self, count: usize, item: T) -> Result<(), AllocError> {
        if count > self.0.capacity() {
            self.reserve(count - self.0.len())?;
        }
        self.0.resize(count, item);
        Ok(())
    }
}

impl<T> IntoIterator for Vec<T> {
    type Item = T;
    type IntoIter = alloc::vec::IntoIter<T>;

    fn into_iter(self) -> alloc::vec::IntoIter<T> {
        self.0.into_iter()
    }
}

impl<T> Deref for Vec<T> {
    type Target = [T];

    #[inline]
    fn deref(&self) -> &[T] {
        &self.0
    }
}

impl<T> DerefMut for Vec<T> {
    #[inline]
    fn deref_mut(&mut self) -> &mut [T] {
        &mut self.0
    }
}

/// A box. Rust's own has no stable call that answers want of memory, but a boxed array of one item is had from a vector.
#[derive(Debug, PartialEq, Eq)]
pub struct Box<T>(alloc::boxed::Box<[T; 1]>);

/// As that of a vector.
impl<T: Clone> Clone for Box<T> {
    fn clone(&self) -> Self {
        Box(alloc::boxed::Box::new([self.0[0].clone()]))
    }
}

impl<T> Box<T> {
    #[inline]
    pub fn new(_: Global, item: T) -> Result<Box<T>, AllocError> {
        let mut items = alloc::vec::Vec::new();
        items.try_reserve_exact(1).map_err(|_| AllocError)?;
        items.push(item);
        // A vector of one item, with room for it alone, is a boxed array without a move.
        match items.into_boxed_slice().try_into() {
            Ok(array) => Ok(Box(array)),
            Err(_) => Err(AllocError),
        }
    }

    #[inline]
    pub fn into_inner(held: Box<T>) -> T {
        let [item] = *held.0;
        item
    }
}

impl<T> Deref for Box<T> {
    type Target = T;

    #[inline]
    fn deref(&self) -> &T {
        &self.0[0]
    }
}

impl<T> DerefMut for Box<T> {
    #[inline]
    fn deref_mut(&mut self) -> &mut T {
        &mut self.0[0]
    }
}

/// A list of bytes, of which up to `N` stand in the value itself. More of them stand in a vector, which is boxed: so with room for 22 it takes
/// 24 bytes. Its clone ends the program where memory isn't found.
#[derive(Clone, Debug)]
pub enum SmallVec<T, const N: usize> {
    Inline { length: u8, items: [T; N] },
    Heap(Box<Vec<T>>),
}

impl<const N: usize> SmallVec<u8, N> {
    /// A length of a byte is enough for what stands in the value itself.
    const FITS: () = assert!(N <= u8::MAX as usize);

    #[inline(always)]
    pub fn new(_: Global) -> Self {
        let () = Self::FITS;
        SmallVec::Inline { length: 0, items: [0; N] }
    }

    #[inline(always)]
    pub fn as_slice(&self) -> &[u8] {
        match self {
            SmallVec::Inline { length, items } => &items[..*length as usize],
            SmallVec::Heap(heap) => heap.as_slice(),
        }
    }

    #[inline(always)]
    pub fn push(&mut self, item: u8) -> Result<(), AllocError> {
        if let SmallVec::Inline { length, items } = self {
            if let Some(place) = items.get_mut(*length as usize) {
                *place = item;
                *length += 1;
                return Ok(());
            }
        }
        self.extend_from_slice(&[item])
    }

    /// Adds a byte for which there is room.
    #[inline(always)]
    pub fn push_reserved(&mut self, item: u8) {
        let _ = self.push(item);
    }

    /// Makes room for so many more bytes, and no more than that.
    pub fn reserve_exact(&mut self, more: usize) -> Result<(), AllocError> {
        match self {
            SmallVec::Inline { length, .. } if N - *length as usize >= more => Ok(()),
            SmallVec::Inline { length, .. } => {
                let room = *length as usize + more;
                self.move_out(room)
            }
            SmallVec::Heap(heap) => heap.reserve_exact(more),
        }
    }

    pub fn extend_from_slice(&mut self, more: &[u8]) -> Result<(), AllocError> {
        if let SmallVec::Inline { length, items } = self {
            let used = *length as usize;
            if let Some(place) = items.get_mut(used..used + more.len()) {
                place.copy_from_slice(more);
                *length += more.len() as u8;
                return Ok(());
            }
            self.move_out(used + more.len())?;
        }
        match self {
            SmallVec::Heap(heap) => heap.extend_from_slice(more),
            SmallVec::Inline { .. } => unreachable!(),
        }
    }

    /// Moves the bytes to a vector with so much room.
    fn move_out(&mut self, room: usize) -> Result<(), AllocError> {
        let mut heap = Vec::with_capacity(Global, room)?;
        heap.extend_from_slice(self.as_slice())?;
        *self = SmallVec::Heap(Box::new(Global, heap)?);
        Ok(())
    }
}

/// Lists of the same bytes are equal, wherever these stand.
impl<const N: usize> PartialEq for SmallVec<u8, N> {
    fn eq(&self, other: &Self) -> bool {
        self.as_slice() == other.as_slice()
    }
}

impl<const N: usize> Eq for SmallVec<u8, N> {}

/// A queue that holds as many items as it has room for, and grows only where it is told to.
#[derive(Debug)]
pub struct HeapCircularBuffer<T> {
    items: VecDeque<T>,
    room: usize,
}

impl<T> HeapCircularBuffer<T> {
    pub fn with_capacity(_: Global, room: usize) -> Result<Self, AllocError> {
        // Before Rust 1.67 an empty queue takes memory, and ends the program where there is none; one
        // of a vector takes none, if that has room for a power of two, and for one item more.
        let more = room.checked_add(1).and_then(usize::checked_next_power_of_two);
        let mut items = alloc::vec::Vec::new();
        items.try_reserve_exact(more.ok_or(AllocError)?.max(2)).map_err(|_| AllocError)?;
        Ok(HeapCircularBuffer { items: VecDeque::from(items), room })
    }

    /// Changes the room, to no less than what is held.
    pub fn resize(&mut self, room: usize) -> Result<(), AllocError> {
        let more = room.saturating_sub(self.items.len());
        self.items.try_reserve_exact(more).map_err(|_| AllocError)?;
        self.room = room.max(self.items.len());
        Ok(())
    }

    /// Adds an item at the end, or hands it back where there is no room.
    #[inline(always)]
    pub fn try_push_back(&mut self, item: T) -> Result<(), T> {
        if self.items.len() >= self.room {
            return Err(item);
        }
        self.items.push_back(item);
        Ok(())
    }

    #[inline(always)]
    pub fn pop_front(&mut self) -> Option<T> {
        self.items.pop_front()
    }

    #[inline(always)]
    pub fn front(&self) -> Option<&T> {
        self.items.front()
    }

    #[inline(always)]
    pub fn get_mut(&mut self, at: usize) -> Option<&mut T> {
        self.items.get_mut(at)
    }

    #[inline(always)]
    pub fn len(&self) -> usize {
        self.items.len()
    }

    #[inline(always)]
    pub fn capacity(&self) -> usize {
        self.room
    }
}

/// Room for the digits of a number.
pub struct Buffer([u8; 39]);

impl Buffer {
    pub fn new() -> Buffer {
        Buffer([b'0'; 39])
    }

    /// The number in decimal digits.
    pub fn format<N: TryInto<u128>>(&mut self, number: N) -> &str {
        let mut wide = number.try_into().unwrap_or(0);
        let mut at = self.0.len() - 1;
        // To divide so wide a number is slow, so it is done only as long as it must be.
        while wide > u64::MAX.into() {
            self.0[at] = b'0' + (wide % 10) as u8;
            wide /= 10;
            at -= 1;
        }
        let mut rest = wide as u64;
        self.0[at] = b'0' + (rest % 10) as u8;
        rest /= 10;
        while rest > 0 {
            at -= 1;
            self.0[at] = b'0' + (rest % 10) as u8;
            rest /= 10;
        }
        text(&self.0[at..])
    }
}

/// The text of bytes that are one, which a proof of the sources says.
pub fn text(bytes: &[u8]) -> &str {
    match core::str::from_utf8(bytes) {
        Ok(text) => text,
        Err(_) => unreachable!(),
    }
}

/// How many tokens stand between an opener and its partner, and beside it whether a cursor passed
/// the token. Readers note that and never look at it, so it changes nothing of what is read.
#[derive(Debug)]
pub struct Span(Cell<usize>);

impl Span {
    /// No cursor passed the token.
    #[inline(always)]
    pub fn new(span: usize) -> Span {
        Span(Cell::new(span << 1))
    }

    /// How many tokens there are.
    #[inline(always)]
    pub fn get(&self) -> usize {
        self.0.get() >> 1
    }

    /// Notes that a cursor passed the token.
    #[inline(always)]
    pub fn pass(&self) {
        self.0.set(self.0.get() | 1);
    }

    /// Whether a cursor passed the token.
    pub fn is_passed(&self) -> bool {
        self.0.get() & 1 == 1
    }
}

/// What an argument of a command takes.
#[derive(Clone, Copy, PartialEq, Eq)]
pub enum ArgAction {
    /// Nothing: it is a flag.
    SetTrue,
    /// One value.
    Set,
}

/// An argument of a command. The one without a long name is the one that stands by itself.
#[derive(Clone, Copy)]
pub struct Arg<'a> {
    id: &'a str,
    long: Option<&'a str>,
    action: ArgAction,
}

impl<'a> Arg<'a> {
    pub fn new(_: Global, id: &'a str) -> Arg<'a> {
        Arg { id, long: None, action: ArgAction::Set }
    }

    pub fn long(self, name: &'a str) -> Arg<'a> {
        Arg { long: Some(name), ..self }
    }

    pub fn action(self, action: ArgAction) -> Arg<'a> {
        Arg { action, ..self }
    }
}

/// What arguments a command takes, each of them once at most.
pub struct Command<'a> {
    args: Vec<Arg<'a>>,
}

impl<'a> Command<'a> {
    pub fn new(alloc: Global, _name: &'a str) -> Command<'a> {
        Command { args: Vec::new(alloc) }
    }

    /// The words stand without the command's name, whatever is asked for.
    pub fn no_binary_name(self, _yes: bool) -> Command<'a> {
        self
    }

    pub fn arg(mut self, arg: Arg<'a>) -> Result<Command<'a>, AllocError> {
        match self.args.push(arg) {
            Ok(()) => Ok(self),
            Err(_) => Err(AllocError),
        }
    }

    /// Which argument each word gives, and what value.
    pub fn try_get_matches_from(&self, words: &'a [&'a str]) -> Result<ArgMatches<'a>, error::Error> {
        let mut matches = ArgMatches { found: Vec::new(Global) };
        let mut rest = words.iter().copied();
        let mut only_values = false;
        while let Some(word) = rest.next() {
            if only_values {
                matches.add(self.find(None)?.id, word)?;
            } else if word == "--" {
                only_values = true;
            } else if let Some(name) = word.strip_prefix("--") {
                let (name, value) = match name.split_once('=') {
                    Some((name, value)) => (name, Some(value)),
                    None => (name, None),
                };
                let arg = self.find(Some(name))?;
                let value = match (arg.action, value) {
                    (ArgAction::SetTrue, None) => "true",
                    (ArgAction::SetTrue, Some(_)) => return Err(error::Error::WORDS),
                    (ArgAction::Set, Some(value)) => value,
                    (ArgAction::Set, None) => value_of(rest.next())?,
                };
                matches.add(arg.id, value)?;
            } else if word.len() > 1 && word.starts_with('-') {
                return Err(error::Error::WORDS);
            } else {
                matches.add(self.find(None)?.id, word)?;
            }
        }
        Ok(matches)
    }

    /// The argument with a long name, or the one without any.
    fn find(&self, name: Option<&str>) -> Result<&Arg<'a>, error::Error> {
        self.args.iter().find(|arg| arg.long == name).ok_or(error::Error::WORDS)
    }
}

/// The word behind an option, which is its value unless it begins like an option.
fn value_of(word: Option<&str>) -> Result<&str, error::Error> {
    match word {
        Some(value) if value == "-" || !value.starts_with('-') => Ok(value),
        _ => Err(error::Error::WORDS),
    }
}

/// The values that the words give.
pub struct ArgMatches<'a> {
    found: Vec<(&'a str, &'a str)>,
}

impl<'a> ArgMatches<'a> {
    fn add(&mut self, id: &'a str, value: &'a str) -> Result<(), error::Error> {
        if self.get_str(id).is_some() {
            return Err(error::Error::WORDS);
        }
        self.found.push((id, value)).map_err(|_| error::Error::NO_MEMORY)
    }

    /// The value of an argument, if it is given one. That of a flag is `true`.
    pub fn get_str(&self, id: &str) -> Option<&'a str> {
        self.found.iter().find(|found| found.0 == id).map(|found| found.1)
    }
}

/// Why words are no line of a command.
pub mod error {
    #[derive(Clone, Copy, Debug, PartialEq, Eq)]
    pub enum ErrorKind {
        UnknownArgument,
        OutOfMemory,
    }

    #[derive(Clone, Copy, Debug, PartialEq, Eq)]
    pub struct Error(ErrorKind);

    impl Error {
        pub const WORDS: Error = Error(ErrorKind::UnknownArgument);
        pub const NO_MEMORY: Error = Error(ErrorKind::OutOfMemory);

        pub fn kind(&self) -> ErrorKind {
            self.0
        }
    }
}
