//! A small generator: it builds the tree of a struct out of its words, asks whether a file can hold it, and prints its text.
//!
//! `lay_example Point x:f64 y:f64` prints a public struct of that name with these public fields. Whatever the words are,
//! what is printed reads back to the tree that was built; where no text does, it prints nothing and ends with 1. So a
//! generator needn't know which words are keywords, or how a text is laid out.
#![tactic(auto)]

use lay_front::unparse;
use lay_io::{HostSink, Sink};
use lay_laws::is_written;
use lay_text::{List, NoMemory, Text};
use lay_tree::{
    Args, Attr, Boxed, Field, Fields, File, Generics, Item, ItemKind, Name, Path, PathStart,
    Struct, Ty, Vis, Wheres, Word,
};
use std::alloc::Global;
use std::env;
use std::process::ExitCode;

/// Why nothing is printed.
enum Stop {
    /// The words are no texts, or lack a name.
    Usage,
    /// No file can hold the tree.
    Unwritten,
    WriteFailed,
    NoMemory,
}

impl From<NoMemory> for Stop {
    fn from(_: NoMemory) -> Stop {
        Stop::NoMemory
    }
}

fn main(rt: HostRuntime) -> ExitCode {
    match generate(&rt) {
        Ok(()) => ExitCode::SUCCESS,
        Err(Stop::Unwritten) => ExitCode::from(1),
        Err(Stop::Usage) => ExitCode::from(2),
        Err(Stop::WriteFailed) => ExitCode::from(5),
        Err(Stop::NoMemory) => ExitCode::from(7),
    }
}

/// Prints the struct that the words describe.
fn generate(rt: &HostRuntime) -> Result<(), Stop> {
    let alloc = rt.alloc();
    let Ok(mut words) = env::args(rt) else {
        return Err(Stop::Usage);
    };
    let Some(name) = words.nth(1) else {
        return Err(Stop::Usage);
    };
    let mut fields = List::new(alloc);
    for word in words {
        let Some((name, ty)) = word.split_once(':') else {
            return Err(Stop::Usage);
        };
        add(&mut fields, field(alloc, name, ty)?)?;
    }
    let text = text(alloc, &file(alloc, &name, fields)?)?;
    let mut out = HostSink::stdout(alloc, rt)?;
    if out.write(text.as_bytes()).is_err() || out.flush().is_err() {
        return Err(Stop::WriteFailed);
    }
    Ok(())
}

/// The text of a file, where it can be written.
fn text(alloc: Global, file: &File) -> Result<Text, Stop> {
    if !is_written(alloc, file)? {
        return Err(Stop::Unwritten);
    }
    Ok(unparse(alloc, file)?)
}

/// A file of one struct, with a line of documentation.
fn file(alloc: Global, name: &str, fields: List<Field>) -> Result<File, NoMemory> {
    let made = Struct {
        name: self::name(alloc, name)?,
        generics: Generics {
            params: List::new(alloc),
        },
        fields: Fields::Named { fields },
        wheres: Wheres {
            predicates: List::new(alloc),
        },
    };
    let mut attrs = List::new(alloc);
    let note = Attr::Doc {
        inner: false,
        text: Text::from_bytes(alloc, b" Generated.")?,
    };
    add(&mut attrs, note)?;
    let mut items = List::new(alloc);
    let item = Item {
        attrs,
        vis: Vis::Public,
        kind: Boxed::new(alloc, ItemKind::Struct { item: made })?,
    };
    add(&mut items, item)?;
    Ok(File {
        shebang: None,
        attrs: List::new(alloc),
        items,
    })
}

/// A public field, whose type is a path of one word.
fn field(alloc: Global, name: &str, ty: &str) -> Result<Field, NoMemory> {
    let word = Word {
        raw: false,
        text: Text::from_bytes(alloc, ty.as_bytes())?,
    };
    let mut segments = List::new(alloc);
    add(&mut segments, (word, Args::None))?;
    Ok(Field {
        attrs: List::new(alloc),
        vis: Vis::Public,
        name: self::name(alloc, name)?,
        ty: Ty::Path {
            path: Path {
                start: PathStart::Local,
                segments,
            },
        },
    })
}

/// A name that isn't raw.
fn name(alloc: Global, text: &str) -> Result<Name, NoMemory> {
    Ok(Name {
        raw: false,
        text: Text::from_bytes(alloc, text.as_bytes())?,
    })
}

/// Adds an item to a list, or drops it for want of memory.
fn add<T: Drop>(list: &mut List<T>, item: T) -> Result<(), NoMemory> {
    match list.push(item) {
        Ok(()) => Ok(()),
        Err(_) => Err(NoMemory),
    }
}
