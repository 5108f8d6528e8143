//! Why a call has no answer.
use crate::generated::lay_files::FileError;
use crate::generated::lay_front::LIMIT;
use crate::generated::lay_paren::ParenError;
use crate::generated::lay_text::{NoMemory, Refusal};
use core::fmt;

/// Why a call has no answer.
///
/// ```
/// use froesaffron::{Cause, format};
///
/// let advice = match format("fn f() { \\ }").unwrap_err().cause() {
///     Cause::NoMemory => "try again",
///     Cause::NoItem => "a form that is left out",
///     _ => "the generator is wrong",
/// };
/// assert_eq!(advice, "the generator is wrong");
/// ```
#[derive(Clone, Copy, Debug, PartialEq, Eq, Hash)]
#[non_exhaustive]
pub enum Cause {
    /// The source is no UTF-8.
    NotUtf8,
    /// No token stands at the place.
    NoToken,
    /// The delimiter at the place has no partner.
    Unbalanced,
    /// No item that is accepted begins at the place.
    NoItem,
    /// The tree is one that no source reads to, as one with a keyword for a name, or it is deeper than files may be, by itself or with the
    /// parentheses that it gets. It has no place.
    NotWritten,
    /// The source has more than 16 MiB, on a system with less than 64 bits. It has no place.
    TooLong,
    /// Memory was not found. It says nothing of the source, and has no place.
    NoMemory,
}

/// A place in a source.
#[derive(Clone, Copy, Debug, PartialEq, Eq, Hash)]
#[non_exhaustive]
pub struct Position {
    /// The line, from 1.
    pub line: usize,
    /// The column in bytes, from 1.
    pub column: usize,
    /// How many bytes stand before the place, counted as by [`Error::offset`].
    pub offset: usize,
}

/// Why a call has no answer, and at which place of the source.
///
/// ```
/// use froesaffron::{Cause, format};
///
/// let error = format("struct A;\n  struct").unwrap_err();
/// assert_eq!((error.cause(), error.line(), error.column(), error.offset()), (Cause::NoItem, 2, 3, 12));
/// assert_eq!(error.to_string(), "2:3: no item (read as far as 2:9)");
/// ```
#[derive(Clone, Copy, Debug, PartialEq, Eq, Hash)]
pub struct Error {
    cause: Cause,
    offset: usize,
    line: usize,
    column: usize,
    furthest: Option<Position>,
}

impl Error {
    pub(crate) const NO_MEMORY: Error = Error::without_place(Cause::NoMemory);
    pub(crate) const NOT_WRITTEN: Error = Error::without_place(Cause::NotWritten);
    pub(crate) const TOO_LONG: Error = Error::without_place(Cause::TooLong);

    const fn without_place(cause: Cause) -> Error {
        Error { cause, offset: 0, line: 0, column: 0, furthest: None }
    }

    /// Refuses a source that is longer than the command's may be, where numbers have fewer than 64
    /// bits: the proofs are of those.
    pub(crate) fn of_length(length: usize) -> Result<(), Error> {
        if usize::BITS < 64 && length > LIMIT { Err(Error::TOO_LONG) } else { Ok(()) }
    }

    /// Why there is none.
    pub fn cause(&self) -> Cause {
        self.cause
    }

    /// The line, from 1, or 0 where the cause has no place.
    pub fn line(&self) -> usize {
        self.line
    }

    /// The column in bytes, from 1, or 0 where the cause has no place.
    pub fn column(&self) -> usize {
        self.column
    }

    /// How many bytes stand before the place: of the source for [`Cause::NotUtf8`], else of the source without a byte order
    /// mark and with each CR LF as one LF.
    pub fn offset(&self) -> usize {
        self.offset
    }

    /// How far the item that is refused was read: the first token that no reading of it came past,
    /// or the end of the source. Only [`Cause::NoItem`] has it; the place of the other causes is
    /// the fault itself. It is `None` too where memory to look for it was wanting.
    ///
    /// Where the item is no Rust, the fault is there or just before it, most often: of 2,000 files with
    /// one token deleted rustc's own line is within two lines of this one in 1,933, and of 258 files of
    /// rustc's tests that both refuse in 243. Where rustc accepts the item, its form isn't accepted from
    /// about there on.
    pub fn furthest(&self) -> Option<Position> {
        self.furthest
    }

    /// With the furthest place that reading came to.
    pub(crate) fn with_furthest(self, furthest: Option<Position>) -> Error {
        Error { furthest, ..self }
    }

    /// The cause in words.
    fn message(&self) -> &'static str {
        match self.cause {
            Cause::NotUtf8 => "not UTF-8",
            Cause::NoToken => "no token",
            Cause::Unbalanced => "unbalanced delimiter",
            Cause::NoItem => "no item",
            Cause::NotWritten => "no source reads to the tree",
            Cause::TooLong => "input is longer than 16777216 bytes",
            Cause::NoMemory => "no memory",
        }
    }
}

/// The line that the command writes: `L:C: CAUSE`, or the cause alone where it has no place. After
/// it stands how far reading came, where that is known: `12:1: no item (read as far as 2638:9)`.
impl fmt::Display for Error {
    fn fmt(&self, out: &mut fmt::Formatter<'_>) -> fmt::Result {
        if self.line > 0 {
            write!(out, "{}:{}: ", self.line, self.column)?;
        }
        out.write_str(self.message())?;
        match self.furthest {
            Some(Position { line, column, .. }) => write!(out, " (read as far as {line}:{column})"),
            None => Ok(()),
        }
    }
}

#[cfg(core_error)]
impl core::error::Error for Error {}

#[cfg(all(feature = "std", not(core_error)))]
impl std::error::Error for Error {}

impl fmt::Display for NoMemory {
    fn fmt(&self, out: &mut fmt::Formatter<'_>) -> fmt::Result {
        out.write_str(Error::NO_MEMORY.message())
    }
}

#[cfg(core_error)]
impl core::error::Error for NoMemory {}

#[cfg(all(feature = "std", not(core_error)))]
impl std::error::Error for NoMemory {}

impl From<NoMemory> for Error {
    fn from(_: NoMemory) -> Error {
        Error::NO_MEMORY
    }
}

impl From<ParenError> for Error {
    fn from(error: ParenError) -> Error {
        match error {
            ParenError::TooDeep => Error::NOT_WRITTEN,
            ParenError::NoMemory => Error::NO_MEMORY,
        }
    }
}

impl From<FileError> for Error {
    fn from(error: FileError) -> Error {
        let (refusal, place) = match error {
            FileError::Refused { refusal, place } => (refusal, place),
            FileError::NoMemory => return Error::NO_MEMORY,
        };
        let (cause, offset) = match refusal {
            Refusal::NotUtf8 { at } => (Cause::NotUtf8, at),
            Refusal::NoToken { at } => (Cause::NoToken, at),
            Refusal::Unbalanced { at } => (Cause::Unbalanced, at),
            Refusal::NoItem { at } => (Cause::NoItem, at),
        };
        Error { cause, offset, line: place.line, column: place.column, furthest: None }
    }
}
