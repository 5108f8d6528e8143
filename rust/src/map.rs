//! Where what a source says stands in its text.
use crate::error::Error;
use crate::furthest::with_furthest;
use crate::generated::lay_files::{read_bytes, text_of};
use crate::generated::lay_lex::normalise;
use crate::generated::lay_map::{units_of_text, Span};
use crate::generated::lay_text::{List, NoMemory};
use crate::generated::lay_token::FormatError;
use crate::shims::{Global, Vec};
use crate::stack::with_stack;
use alloc::string::String;
use core::ops::Range;

/// The text of a source, and where in it what the source says stands. The source is read once for
/// both.
///
/// Of a compiler's message about the text it tells the place in what the generator wrote:
///
/// ```
/// let source = "fn half(n:u32)->f32{match n{0=>{0.0}n=>{n/2}}}";
/// let map = froesaffron::map(source)?;
/// let at = map.text().find("n / 2").unwrap();
/// assert_eq!(&source[map.source_offset(at)..], "n/2}}}");
/// let back = source.find("f32").unwrap();
/// assert!(map.text()[map.text_offset(back)..].starts_with("f32 {\n"));
/// let first = map.pairs().next().unwrap();
/// assert_eq!((&source[first.source], &map.text()[first.text]), ("fn", "fn"));
/// # Ok::<(), froesaffron::Error>(())
/// ```
///
/// A source in which a token or a documentation begins after its first 4 GiB isn't mapped: the
/// cause is [`Cause::NoMemory`](crate::Cause::NoMemory).
pub fn map(source: &str) -> Result<Map, Error> {
    Error::of_length(source.len())?;
    with_stack(|| map_of(source.as_bytes())).ok_or(Error::NO_MEMORY)?
}

/// The text of a source, and where in both each **unit** stands: a token, or a documentation,
/// however it is spelled. Both have as many units, in the same order; those of one pair say the
/// same, and none overlaps another. In no unit are white space, plain comments, a shebang line, and
/// marks that may stand or not, as a comma after the last item of a list.
#[derive(Debug)]
pub struct Map {
    text: String,
    /// The units of the source, as it is lexed: without a byte order mark and with each CR LF as
    /// one LF.
    source: List<Span>,
    output: List<Span>,
    returns: Returns,
}

/// Where a unit stands in the source, and where in the text, both in bytes.
#[derive(Clone, Debug, PartialEq, Eq, Hash)]
#[non_exhaustive]
pub struct Pair {
    /// Where it stands in the source.
    pub source: Range<usize>,
    /// Where it stands in the text.
    pub text: Range<usize>,
}

impl Map {
    /// The text, as [`format`](crate::format()) gives it.
    pub fn text(&self) -> &str {
        &self.text
    }

    /// The text, without the map.
    pub fn into_text(self) -> String {
        self.text
    }

    /// Each unit, in order.
    pub fn pairs(&self) -> impl ExactSizeIterator<Item = Pair> + DoubleEndedIterator + '_ {
        self.source.as_slice().iter().zip(self.output.as_slice()).map(|(source, output)| {
            let source = range(source);
            Pair {
                source: self.returns.offset(source.start)..self.returns.offset(source.end),
                text: range(output),
            }
        })
    }

    /// The place in the source of a place in the text, both as the number of bytes before them. It
    /// is within the unit that holds the place, or where the next one begins, or else where the
    /// last one ends. Of a documentation that is spelled otherwise in the source it is the start.
    pub fn source_offset(&self, text_offset: usize) -> usize {
        self.returns.offset(carried(self.output.as_slice(), self.source.as_slice(), text_offset))
    }

    /// The place in the text of a place in the source, told in the same way.
    pub fn text_offset(&self, source_offset: usize) -> usize {
        carried(self.source.as_slice(), self.output.as_slice(), self.returns.lexed(source_offset))
    }
}

/// The map of a source.
fn map_of(bytes: &[u8]) -> Result<Map, Error> {
    let file = match read_bytes(Global, bytes) {
        Ok(file) => file,
        Err(error) => return Err(with_furthest(error.into(), bytes)),
    };
    // What was read is UTF-8, so nothing but want of memory is left.
    let source = normalise(Global, bytes).map_err(|_: FormatError| NoMemory)?;
    let units = units_of_text(Global, &file, source.as_str(), source.start)?;
    drop(source);
    let text = text_of(Global, &file)?;
    let text = string_of(text.as_bytes())?;
    let laid = normalise(Global, text.as_bytes()).map_err(|_: FormatError| NoMemory)?;
    let output = units_of_text(Global, &file, laid.as_str(), laid.start)?;
    Ok(Map { text, source: units, output, returns: Returns::of(bytes)? })
}

/// A copy of bytes that are a text.
fn string_of(bytes: &[u8]) -> Result<String, NoMemory> {
    let mut copy = String::new();
    copy.try_reserve_exact(bytes.len()).map_err(|_| NoMemory)?;
    copy.push_str(crate::shims::text(bytes));
    Ok(copy)
}

/// Where a unit stands.
fn range(span: &Span) -> Range<usize> {
    let unit = span.unit();
    unit.at..unit.at + unit.len
}

/// The place among some units of a place among others, which say the same.
fn carried(from: &[Span], to: &[Span], offset: usize) -> usize {
    let number = from.partition_point(|span| range(span).end <= offset);
    match (from.get(number), to.get(number)) {
        (Some(from), Some(to)) => {
            let (from, to) = (range(from), range(to));
            // Those of one length are spelled alike.
            to.start + if from.len() == to.len() { offset.saturating_sub(from.start) } else { 0 }
        }
        _ => to.last().map_or(0, |last| range(last).end),
    }
}

/// What of a source isn't lexed: a byte order mark, and the CR of each CR LF.
#[derive(Debug)]
struct Returns {
    /// The length of the mark.
    mark: usize,
    /// Before which bytes of what is lexed a CR stands.
    before: Vec<usize>,
}

impl Returns {
    fn of(bytes: &[u8]) -> Result<Returns, NoMemory> {
        let mark = if bytes.starts_with(b"\xef\xbb\xbf") { 3 } else { 0 };
        let mut before = Vec::new(Global);
        for (at, pair) in bytes[mark..].windows(2).enumerate() {
            if pair == b"\r\n" {
                before.push(at - before.len())?;
            }
        }
        Ok(Returns { mark, before })
    }

    /// How many bytes of the source stand before a place in what is lexed.
    fn offset(&self, lexed: usize) -> usize {
        self.mark + lexed + self.before.partition_point(|before| *before < lexed)
    }

    /// How many bytes of what is lexed stand before a place of the source.
    fn lexed(&self, offset: usize) -> usize {
        let offset = offset.saturating_sub(self.mark);
        let mut passed = 0..self.before.len();
        while let Some(number) = (!passed.is_empty()).then(|| passed.start + passed.len() / 2) {
            if self.before[number] + number < offset {
                passed.start = number + 1;
            } else {
                passed.end = number;
            }
        }
        offset - passed.start
    }
}
