//! The front that people and generators expect of a formatter: rustfmt's words, files in place, and
//! diffs. It formats by the crate's call.
#![forbid(unsafe_code)]
mod diff;
mod replace;
mod words;

use diff::{bytes, unified};
use froesaffron::format_bytes;
use replace::{folder, replace, sweep, Replaced};
use std::collections::HashSet;
use std::env;
use std::ffi::OsStr;
use std::fmt::{self, Display};
use std::fs::{self, File, Metadata};
use std::io::{self, ErrorKind, Read as _, Write as _};
use std::mem;
use std::path::{Path, PathBuf};
use std::process::ExitCode;
use words::{Input, Mode, Task, Words};

const NAME: &str = env!("CARGO_PKG_NAME");
const VERSION: &str = env!("CARGO_PKG_VERSION");
const HELP: &str = include_str!("help.txt");
/// How standard input is named, as rustfmt names it.
const STANDARD_INPUT: &str = "<stdin>";
/// So often a file is begun anew that is changed by others while it is formatted.
const TRIES: usize = 16;

/// 0, or 1 where a file differs or anything failed. No other status is given: bindgen takes what is
/// written with 3 as formatted.
fn main() -> ExitCode {
    let done = match words::read(env::args_os().skip(1)) {
        Ok(Task::Help) => print(HELP.as_bytes()),
        Ok(Task::Version) => print(format!("{NAME} {VERSION}\n").as_bytes()),
        Ok(Task::Format(words)) => Run::new(words).run(),
        Err(fault) => {
            tell(format_args!(
                "{NAME}: {fault} ({NAME} --help tells the words)"
            ));
            false
        }
    };
    if done {
        ExitCode::SUCCESS
    } else {
        ExitCode::FAILURE
    }
}

/// Writes a line to standard error. Where that fails the status still tells.
fn tell(line: impl Display) {
    let _ = io::stderr().write_all(format!("{line}\n").as_bytes());
}

/// Writes to standard output, and answers whether it was written. A pipe that its reader has closed
/// is no fault to tell of.
fn print(text: &[u8]) -> bool {
    let mut out = io::stdout().lock();
    match out.write_all(text).and_then(|()| out.flush()) {
        Ok(()) => true,
        Err(error) => {
            if error.kind() != ErrorKind::BrokenPipe {
                tell(format_args!("<stdout>: {}", Cause(&error)));
            }
            false
        }
    }
}

/// Why an input isn't formatted.
enum Fault {
    /// It isn't accepted.
    Refused(froesaffron::Error),
    /// It can't be read.
    Unread(io::Error),
    /// Its text can't be written. The file is as it was.
    Unwritten(io::Error),
    /// It is a folder.
    Folder,
    /// It is to be written, and is neither a file nor a folder.
    NoFile,
    /// Others change it again and again while it is formatted. The file is as they made it.
    Changing,
    /// Standard output doesn't take what is printed, which was told.
    Unprinted,
}

/// What came of an input that is accepted.
enum Came {
    /// It was formatted before, or is so now.
    Formatted,
    /// Its text is another, as was shown.
    Differs,
}

/// A fault of the system in words, without its number.
struct Cause<'a>(&'a io::Error);

impl Display for Cause<'_> {
    fn fmt(&self, out: &mut fmt::Formatter<'_>) -> fmt::Result {
        let text = self.0.to_string();
        let number = self
            .0
            .raw_os_error()
            .map(|number| format!(" (os error {number})"));
        out.write_str(
            text.strip_suffix(&number.unwrap_or_default())
                .unwrap_or(&text),
        )
    }
}

/// Tells why an input isn't formatted: `NAME:LINE:COLUMN: CAUSE`, or `NAME: CAUSE` where the cause
/// has no place.
fn tell_fault(name: &OsStr, fault: &Fault) {
    let name = name.to_string_lossy();
    match fault {
        Fault::Refused(error) if error.line() > 0 => tell(format_args!("{name}:{error}")),
        Fault::Refused(error) => tell(format_args!("{name}: {error}")),
        Fault::Unread(error) => tell(format_args!("{name}: {}", Cause(error))),
        Fault::Unwritten(error) => tell(format_args!("{name}: not written: {}", Cause(error))),
        Fault::Folder => {
            let all = format!("find {name} -name '*.rs' -exec {NAME} {{}} +");
            tell(format_args!(
                "{name}: is a folder; its files are formatted by: {all}"
            ))
        }
        Fault::NoFile => tell(format_args!("{name}: not written: is no regular file")),
        Fault::Changing => tell(format_args!(
            "{name}: not written: others change it meanwhile"
        )),
        Fault::Unprinted => {}
    }
}

/// A run over all inputs.
struct Run {
    words: Words,
    /// The folders from which the temporary files of killed runs were removed.
    swept: HashSet<PathBuf>,
}

impl Run {
    fn new(words: Words) -> Run {
        Run {
            words,
            swept: HashSet::new(),
        }
    }

    /// Formats each input, and goes on after one that failed. The answer is whether none failed and
    /// none differs.
    fn run(mut self) -> bool {
        for option in &self.words.unused {
            self.note(format_args!("{NAME}: {option} has no effect"));
        }
        let mut done = true;
        for input in mem::take(&mut self.words.inputs) {
            let (name, came) = match &input {
                Input::Standard => (OsStr::new(STANDARD_INPUT), self.standard()),
                Input::File(path) => (path.as_os_str(), self.file(path)),
            };
            match came {
                Ok(Came::Formatted) => {}
                Ok(Came::Differs) => done = false,
                Err(fault) => {
                    tell_fault(name, &fault);
                    done = false;
                    // Nothing more can be printed, and to print is all that these do.
                    if matches!(fault, Fault::Unprinted) && self.words.mode != Mode::Files {
                        break;
                    }
                }
            }
        }
        done
    }

    /// Tells what `-v` asks for.
    fn note(&self, line: impl Display) {
        if self.words.verbose {
            tell(line);
        }
    }

    /// Standard input, which is written to standard output or checked.
    fn standard(&self) -> Result<Came, Fault> {
        let mut source = Vec::new();
        io::stdin()
            .lock()
            .read_to_end(&mut source)
            .map_err(Fault::Unread)?;
        let text = format_bytes(&source).map_err(Fault::Refused)?;
        match self.words.mode {
            Mode::Files | Mode::Stdout => printed(&text),
            Mode::Check => self.check(OsStr::new(STANDARD_INPUT), &source, &text),
        }
    }

    /// A file, with which is done what the words say.
    fn file(&mut self, path: &Path) -> Result<Came, Fault> {
        let found = fs::metadata(path).map_err(Fault::Unread)?;
        if found.is_dir() {
            return Err(Fault::Folder);
        }
        if self.words.mode == Mode::Files {
            return if found.is_file() {
                self.in_place(path)
            } else {
                Err(Fault::NoFile)
            };
        }
        let (source, _) = read(path).map_err(Fault::Unread)?;
        let text = format_bytes(&source).map_err(Fault::Refused)?;
        if self.words.mode == Mode::Check {
            return self.check(path.as_os_str(), &source, &text);
        }
        if self.words.headings {
            printed(format!("{}:\n\n", path.display()).as_bytes())?;
        }
        printed(&text)
    }

    /// Writes the text of a file in the file's place, by its own path where links lead to it. One
    /// that is formatted isn't written.
    fn in_place(&mut self, path: &Path) -> Result<Came, Fault> {
        let own = fs::canonicalize(path).map_err(Fault::Unread)?;
        if self.swept.insert(folder(&own).to_path_buf()) {
            sweep(folder(&own));
        }
        for _ in 0..TRIES {
            let (source, found) = read(&own).map_err(Fault::Unread)?;
            let text = format_bytes(&source).map_err(Fault::Refused)?;
            if text == source {
                self.note(format_args!("{}: is formatted", path.display()));
                return Ok(Came::Formatted);
            }
            if replace(&own, &found, &text).map_err(Fault::Unwritten)? == Replaced::Done {
                self.note(format_args!("{}: written", path.display()));
                return if self.words.names {
                    print_name(path.as_os_str())
                } else {
                    Ok(Came::Formatted)
                };
            }
        }
        Err(Fault::Changing)
    }

    /// Shows what a source and its text differ by, if they do.
    fn check(&self, name: &OsStr, source: &[u8], text: &[u8]) -> Result<Came, Fault> {
        if source == text {
            self.note(format_args!("{}: is formatted", name.to_string_lossy()));
            return Ok(Came::Formatted);
        }
        if self.words.names {
            print_name(name)?;
            return Ok(Came::Differs);
        }
        printed(&unified(name, source, text))?;
        if !self.words.quiet {
            tell(format_args!("{}: differs", name.to_string_lossy()));
        }
        Ok(Came::Differs)
    }
}

/// The whole of a file, and what the system said of it before it was read.
fn read(path: &Path) -> io::Result<(Vec<u8>, Metadata)> {
    let mut file = File::open(path)?;
    let found = file.metadata()?;
    let mut source = Vec::new();
    file.read_to_end(&mut source)?;
    Ok((source, found))
}

/// Prints what is all that is wanted of an input.
fn printed(text: &[u8]) -> Result<Came, Fault> {
    if print(text) {
        Ok(Came::Formatted)
    } else {
        Err(Fault::Unprinted)
    }
}

fn print_name(name: &OsStr) -> Result<Came, Fault> {
    let mut line = bytes(name);
    line.push(b'\n');
    printed(&line)
}
