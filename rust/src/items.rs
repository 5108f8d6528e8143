//! Files that are edited item by item.
use crate::error::Error;
use crate::furthest::with_furthest;
use crate::generated::lay_files::FileError;
use crate::generated::lay_items::{self, refused_at, EditError as Why, Shape};
use crate::generated::lay_text::{FormatError, Refusal};
use crate::shims::Global;
use crate::stack::with_stack;
use crate::tree::File;
use alloc::string::String;
use core::fmt;

/// A file that is edited item by item. Each item keeps its text, so an edit lays out one item,
/// whatever the size of the file.
///
/// ```
/// let mut items = froesaffron::Items::new("//! Numbers.\nconst A:u8=1; const B:u8=2;")?;
/// items.replace(0, "const A:u16=3;")?;
/// items.insert(1, "fn c(){}")?;
/// items.remove(2)?;
/// assert_eq!(items.output(1), Some("fn c() {}\n"));
/// assert_eq!(items.whole()?, "//! Numbers.\nconst A: u16 = 3;\nfn c() {}\n");
/// // What is refused changes nothing, and so does what isn't one item.
/// let error = items.replace(0, "const A u8;").unwrap_err();
/// assert_eq!(error.to_string(), "1:1: no item (read as far as 1:9)");
/// let error = items.insert(0, "use a; use b;").unwrap_err();
/// assert_eq!(error.to_string(), "not one item: 2 items");
/// assert_eq!(items.len(), 2);
/// # Ok::<(), Box<dyn std::error::Error>>(())
/// ```
pub struct Items(lay_items::Items);

impl Items {
    /// The items of a source, a whole file.
    pub fn new(source: &str) -> Result<Items, Error> {
        Error::of_length(source.len())?;
        with_stack(|| match lay_items::Items::from_bytes(Global, source.as_bytes()) {
            Ok(items) => Ok(Items(items)),
            Err(FormatError::Refused(refusal)) => Err(refused(source, refusal)),
            Err(FormatError::NoMemory) => Err(Error::NO_MEMORY),
        })
        .ok_or(Error::NO_MEMORY)?
    }

    /// The file as it is now.
    pub fn file(&self) -> &File {
        self.0.file()
    }

    /// How many items the file has.
    pub fn len(&self) -> usize {
        self.0.len()
    }

    /// Whether the file has no item.
    pub fn is_empty(&self) -> bool {
        self.len() == 0
    }

    /// The text of what stands before the items: of a shebang line and of the inner attributes,
    /// each with its line's end.
    pub fn head(&self) -> &str {
        crate::shims::text(self.0.head())
    }

    /// The text of an item, with its line's end. There is none where the file has no more than
    /// `index` items.
    pub fn output(&self, index: usize) -> Option<&str> {
        (index < self.len()).then(|| crate::shims::text(self.0.output(index)))
    }

    /// The text of the file, which is [`head`](Items::head) and then each item's
    /// [`output`](Items::output).
    pub fn whole(&self) -> Result<String, Error> {
        let outputs = || (0..self.len()).map(|index| self.0.output(index));
        let length = self.0.head().len() + outputs().map(<[u8]>::len).sum::<usize>();
        let mut whole = String::new();
        whole.try_reserve_exact(length).map_err(|_| Error::NO_MEMORY)?;
        for part in core::iter::once(self.0.head()).chain(outputs()) {
            whole.push_str(crate::shims::text(part));
        }
        Ok(whole)
    }

    /// Puts the one item of a text before the item with an index, or after the last one where the
    /// index is [`len`](Items::len).
    pub fn insert(&mut self, index: usize, text: &str) -> Result<(), EditError> {
        let is_place = index <= self.len();
        self.edit(is_place, text, |items| items.insert(index, text.as_bytes()))
    }

    /// Puts the one item of a text in the place of another.
    pub fn replace(&mut self, index: usize, text: &str) -> Result<(), EditError> {
        let is_place = index < self.len();
        self.edit(is_place, text, |items| items.replace(index, text.as_bytes()))
    }

    /// Takes an item out, with its text.
    pub fn remove(&mut self, index: usize) -> Result<(), EditError> {
        if index >= self.len() {
            return Err(EditError::NoIndex);
        }
        self.0.remove(index);
        Ok(())
    }

    /// An edit that takes the item of a text.
    fn edit(
        &mut self,
        is_place: bool,
        text: &str,
        call: impl FnOnce(&mut lay_items::Items) -> Result<(), Why> + Send,
    ) -> Result<(), EditError> {
        if !is_place {
            return Err(EditError::NoIndex);
        }
        Error::of_length(text.len())?;
        with_stack(|| match call(&mut self.0) {
            Ok(()) => Ok(()),
            Err(Why::Refused(refusal)) => Err(EditError::Refused(refused(text, refusal))),
            Err(Why::NotOneItem(Shape { shebang, attrs, items })) => {
                Err(EditError::NotOneItem { shebang, attrs, items })
            }
            Err(Why::NoMemory) => Err(EditError::Refused(Error::NO_MEMORY)),
        })
        .ok_or(EditError::Refused(Error::NO_MEMORY))?
    }
}

/// The text of what stands before the items, and those of the items.
impl fmt::Debug for Items {
    fn fmt(&self, out: &mut fmt::Formatter<'_>) -> fmt::Result {
        let outputs = (0..self.len()).map(|index| crate::shims::text(self.0.output(index)));
        out.debug_list().entries(core::iter::once(self.head()).chain(outputs)).finish()
    }
}

/// Why an edit wasn't made. All is as it was.
#[derive(Clone, Copy, Debug, PartialEq, Eq, Hash)]
#[non_exhaustive]
pub enum EditError {
    /// The text is refused, at this place of it; or memory was not found, which the cause tells.
    Refused(Error),
    /// The text is read, but isn't one item alone.
    NotOneItem {
        /// Whether its first line is a shebang.
        shebang: bool,
        /// How many inner attributes it has.
        attrs: usize,
        /// How many items it has.
        items: usize,
    },
    /// The file has no item with this index.
    NoIndex,
}

impl From<Error> for EditError {
    fn from(error: Error) -> EditError {
        EditError::Refused(error)
    }
}

impl fmt::Display for EditError {
    fn fmt(&self, out: &mut fmt::Formatter<'_>) -> fmt::Result {
        match self {
            EditError::Refused(error) => error.fmt(out),
            EditError::NotOneItem { shebang: true, .. } => {
                out.write_str("not one item: a shebang line")
            }
            EditError::NotOneItem { attrs: 1.., .. } => {
                out.write_str("not one item: an inner attribute")
            }
            EditError::NotOneItem { items, .. } => write!(out, "not one item: {items} items"),
            EditError::NoIndex => out.write_str("no item has this index"),
        }
    }
}

#[cfg(core_error)]
impl core::error::Error for EditError {}

#[cfg(all(feature = "std", not(core_error)))]
impl std::error::Error for EditError {}

/// The error of a refusal of a text.
fn refused(text: &str, refusal: Refusal) -> Error {
    match refused_at(Global, text.as_bytes(), refusal) {
        Ok(place) => with_furthest(FileError::Refused { refusal, place }.into(), text.as_bytes()),
        Err(_) => Error::NO_MEMORY,
    }
}
