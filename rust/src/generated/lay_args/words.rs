//! Made by scripts/rust.sh from crates/lay_args/src/words.rt, which is proved: change that.
//!
//! Parsing of a command line.
use crate::generated::lay_args::command::matches;
use crate::generated::lay_args::lines::Line;
use crate::generated::lay_args::numbers::{item_count, seed};
use crate::generated::lay_args::texts::texts;
use crate::shims::ArgMatches;
use crate::generated::lay_io::Which;
use crate::generated::lay_text::{NoMemory, Text};
use crate::shims::Global;
/// Parses the words as a command line; they stand without the program's name. The result is `Usage`
/// if a word isn't UTF-8. Which other words are accepted is `clap`'s definition for the flags
/// `--check` and `--map`, the options `--sample` and `--items` and one optional file, where the
/// flags exclude each other, and each option requires the other one and excludes everything else.
pub fn line(alloc: Global, words: &[Text]) -> Result<Line, NoMemory> {
    let texts = match texts(alloc, words)? {
        Some(texts) => texts,
        _ => {
            return Ok(Line::Usage);
        }
    };
    match matches(alloc, texts.as_slice())? {
        Some(matches) => from_matches(alloc, &matches),
        None => Ok(Line::Usage),
    }
}
/// The command line that these matches mean.
fn from_matches(alloc: Global, matches: &ArgMatches<'_>) -> Result<Line, NoMemory> {
    let check = is_set(matches.get_str("check"));
    let map = is_set(matches.get_str("map"));
    let sample = matches.get_str("sample");
    let items = matches.get_str("items");
    from_values(alloc, check, map, sample, items, matches.get_str("file"))
}
/// The command line that these values mean: the flags `--check` and `--map`, the arguments of
/// `--sample` and `--items`, and FILE.
fn from_values(
    alloc: Global,
    check: bool,
    map: bool,
    sample: Option<&str>,
    items: Option<&str>,
    file: Option<&str>,
) -> Result<Line, NoMemory> {
    match (check, map, sample, items, file) {
        (false, false, None, None, file) => Ok(Line::Format(input(alloc, file)?)),
        (true, false, None, None, file) => Ok(Line::Check(input(alloc, file)?)),
        (false, true, None, None, file) => Ok(Line::Map(input(alloc, file)?)),
        (false, false, Some(sample), Some(items), None) => Ok(from_texts(sample, items)),
        _ => Ok(Line::Usage),
    }
}
/// The sample for these arguments of `--sample` and `--items`, or `Usage` if one is no number in
/// range.
fn from_texts(sample: &str, items: &str) -> Line {
    match (seed(sample), item_count(items)) {
        (Some(seed), Some(items)) => Line::Sample { seed, items },
        _ => Line::Usage,
    }
}
/// The named input, or standard input if there is no name.
fn input(alloc: Global, file: Option<&str>) -> Result<Which, NoMemory> {
    match file {
        None => Ok(Which::Stdin),
        Some(name) => Ok(Which::File(Text::from_bytes(alloc, name.as_bytes())?)),
    }
}
/// Whether a flag is set: then `clap` gives it the value `true`.
fn is_set(value: Option<&str>) -> bool {
    match value {
        Some(text) => text == "true",
        None => false,
    }
}
