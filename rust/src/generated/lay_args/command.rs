//! Made by scripts/rust.sh from crates/lay_args/src/command.rt, which is proved: change that.
//!
//! The command line in terms of `clap`.
use crate::shims::error::ErrorKind;
use crate::shims::{Arg, ArgAction, ArgMatches, Command};
use crate::generated::lay_text::NoMemory;
use crate::shims::{AllocError, Global};
/// What `clap` matches in the words, or `None` if they are no command line: a word is no part of
/// the command, or asks for help.
pub fn matches<
    'a,
>(alloc: Global, words: &'a [&'a str]) -> Result<Option<ArgMatches<'a>>, NoMemory> {
    let command: Command<'a> = command(alloc)?;
    match command.try_get_matches_from(words) {
        Ok(matches) => Ok(Some(matches)),
        Err(error) => {
            match error.kind() {
                ErrorKind::OutOfMemory => Err(NoMemory),
                _ => Ok(None),
            }
        }
    }
}
/// The definition of the command: the flags `--check` and `--map`, the options `--sample` and
/// `--items`, and one optional file. The words don't begin with the program's name.
fn command<'a>(alloc: Global) -> Result<Command<'a>, AllocError> {
    let check = flag(alloc, "check");
    let map = flag(alloc, "map");
    let sample = option(alloc, "sample");
    let items = option(alloc, "items");
    let file = Arg::new(alloc, "file");
    let bare = Command::new(alloc, "lay_fmt").no_binary_name(true);
    bare.arg(check)?.arg(map)?.arg(sample)?.arg(items)?.arg(file)
}
/// A flag with this long name.
fn flag<'a>(alloc: Global, name: &'a str) -> Arg<'a> {
    Arg::new(alloc, name).long(name).action(ArgAction::SetTrue)
}
/// An option with this long name, which takes one value.
fn option<'a>(alloc: Global, name: &'a str) -> Arg<'a> {
    Arg::new(alloc, name).long(name).action(ArgAction::Set)
}
