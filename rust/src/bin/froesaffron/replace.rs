//! Another text in the place of a file, so that at each moment the file is the old one or the new
//! one, whatever fails.
//!
//! The text is written to a temporary file of the same folder, which gets the owner and the
//! permissions of the file, is handed to the disk, and is then renamed over the file. A run that is
//! killed leaves its temporary file behind; the next one that writes in the folder removes it. It
//! is told by its name, `.froesaffron-PID-START-RANDOM.tmp`: the number of the process that made
//! it, when that process was started, and a number that makes the name one of its own. Where no
//! process has this number and this start, nobody writes to it any more.
//!
//! Two runs at once don't disturb each other: a run writes to no file that it hasn't made itself,
//! and renames none that it hasn't written. One that can't see the other's process, as behind the
//! wall of a container, may remove what the other writes. That one then finds its temporary file
//! gone, and begins anew.
use std::collections::hash_map::RandomState;
use std::ffi::OsStr;
use std::fs::{self, File, Metadata, OpenOptions};
use std::hash::{BuildHasher as _, Hasher as _};
use std::io::{self, ErrorKind, Write as _};
use std::path::{Path, PathBuf};
use std::process;
use std::time::{Duration, SystemTime};

const PREFIX: &str = ".froesaffron-";
const SUFFIX: &str = ".tmp";
/// Where the system doesn't tell which processes there are, a temporary file is left behind that is
/// older than this.
const LEFT_AFTER: Duration = Duration::from_secs(3600);

/// What came of it.
#[derive(Clone, Copy, Debug, PartialEq, Eq)]
pub enum Replaced {
    /// The file has the new text.
    Done,
    /// The file isn't the one that was read any more, or the temporary file was taken away. Nothing
    /// was changed.
    Disturbed,
}

/// Puts a text in the place of a file, by the file's own path and not by a link to it. `read` is
/// what the system said of the file when it was read. Where it fails the file is as it was.
pub fn replace(path: &Path, read: &Metadata, text: &[u8]) -> io::Result<Replaced> {
    // Whoever may not write to the file doesn't get to replace it, though the folder would let
    // them.
    OpenOptions::new().write(true).open(path)?;
    let temporary = Temporary::write(folder(path), read, text)?;
    if !is_same(read, &fs::metadata(path)?) {
        return Ok(Replaced::Disturbed);
    }
    match temporary.rename(path) {
        Err(error) if error.kind() == ErrorKind::NotFound && path.exists() => {
            return Ok(Replaced::Disturbed)
        }
        renamed => renamed?,
    }
    // The file is whole without this, and some systems can't do it: it hastens the new name's way
    // to the disk.
    let _ = File::open(folder(path)).and_then(|folder| folder.sync_all());
    Ok(Replaced::Done)
}

/// The folder that a file is in.
pub fn folder(path: &Path) -> &Path {
    match path.parent() {
        Some(folder) if !folder.as_os_str().is_empty() => folder,
        _ => Path::new("."),
    }
}

/// Removes from a folder the temporary files that runs left behind which were killed. What can't be
/// removed stays.
pub fn sweep(folder: &Path) {
    // Of what can't be read nothing is known, and so nothing is removed.
    for entry in fs::read_dir(folder).into_iter().flatten().flatten() {
        let (maker, found) = match (Maker::of(&entry.file_name()), entry.metadata()) {
            (Some(maker), Ok(found)) => (maker, found),
            _ => continue,
        };
        if found.is_file() && maker.is_gone().unwrap_or_else(|| is_old(&found)) {
            let _ = fs::remove_file(entry.path());
        }
    }
}

fn is_old(found: &Metadata) -> bool {
    match found.modified() {
        Ok(then) => SystemTime::now().duration_since(then).unwrap_or_default() > LEFT_AFTER,
        Err(_) => false,
    }
}

/// A temporary file with its whole text, which is removed when it is dropped, unless it was
/// renamed.
struct Temporary {
    path: PathBuf,
    renamed: bool,
}

impl Temporary {
    /// Writes a text to a file that wasn't there, with the owner and the permissions of the one
    /// that was read, and hands it to the disk.
    fn write(folder: &Path, read: &Metadata, text: &[u8]) -> io::Result<Temporary> {
        let mut options = OpenOptions::new();
        options.write(true).create_new(true);
        #[cfg(unix)]
        std::os::unix::fs::OpenOptionsExt::mode(&mut options, 0o600);
        let path = folder.join(Maker::this().name());
        let mut file = options.open(&path)?;
        let temporary = Temporary {
            path,
            renamed: false,
        };
        file.write_all(text)?;
        keep_access(&file, read)?;
        file.sync_all()?;
        Ok(temporary)
    }

    fn rename(mut self, path: &Path) -> io::Result<()> {
        fs::rename(&self.path, path)?;
        self.renamed = true;
        Ok(())
    }
}

impl Drop for Temporary {
    fn drop(&mut self) {
        if !self.renamed {
            let _ = fs::remove_file(&self.path);
        }
    }
}

/// Gives a file the owner, the group and the permissions of another.
#[cfg(unix)]
fn keep_access(file: &File, read: &Metadata) -> io::Result<()> {
    use std::os::unix::fs::MetadataExt;
    let made = file.metadata()?;
    if (made.uid(), made.gid()) != (read.uid(), read.gid()) {
        give(file, read.uid(), read.gid())?;
    }
    file.set_permissions(read.permissions())
}

#[cfg(not(unix))]
fn keep_access(file: &File, read: &Metadata) -> io::Result<()> {
    file.set_permissions(read.permissions())
}

// build.rs tells whether the compiler's library has it.
#[cfg(all(unix, fchown))]
#[allow(clippy::incompatible_msrv)]
fn give(file: &File, owner: u32, group: u32) -> io::Result<()> {
    std::os::unix::fs::fchown(file, Some(owner), Some(group))
}

/// Before Rust 1.73 no file is given to another, and so another's file isn't replaced.
#[cfg(all(unix, not(fchown)))]
fn give(_: &File, _: u32, _: u32) -> io::Result<()> {
    Err(io::Error::from(ErrorKind::PermissionDenied))
}

/// Whether a file is the one that was read, and nobody has written to it since, as far as the
/// system's clock tells.
#[cfg(unix)]
fn is_same(read: &Metadata, found: &Metadata) -> bool {
    use std::os::unix::fs::MetadataExt;
    let identity = |of: &Metadata| (of.dev(), of.ino(), of.size());
    let written = |of: &Metadata| (of.mtime(), of.mtime_nsec(), of.ctime(), of.ctime_nsec());
    identity(read) == identity(found) && written(read) == written(found)
}

#[cfg(not(unix))]
fn is_same(read: &Metadata, found: &Metadata) -> bool {
    read.len() == found.len() && read.modified().ok() == found.modified().ok()
}

/// The process that makes a temporary file: its number, and when it was started, by a clock of the
/// system; 0 where the system doesn't tell.
#[derive(Debug, PartialEq, Eq)]
struct Maker {
    process: u32,
    start: u64,
}

impl Maker {
    fn this() -> Maker {
        let process = process::id();
        Maker {
            process,
            start: start(process).unwrap_or(0),
        }
    }

    /// A name for a temporary file that none has.
    fn name(&self) -> String {
        // The keys of a hash are drawn by the system.
        let random = RandomState::new().build_hasher().finish();
        format!(
            "{PREFIX}{}-{}-{random:016x}{SUFFIX}",
            self.process, self.start
        )
    }

    /// The maker of the temporary file with this name, if it is one.
    fn of(name: &OsStr) -> Option<Maker> {
        let inner = name.to_str()?.strip_prefix(PREFIX)?.strip_suffix(SUFFIX)?;
        let mut parts = inner.split('-');
        let (process, start, random) = (parts.next()?, parts.next()?, parts.next()?);
        let is_random = random.len() == 16 && random.bytes().all(|byte| byte.is_ascii_hexdigit());
        let maker = Maker {
            process: process.parse().ok()?,
            start: start.parse().ok()?,
        };
        (is_random && parts.next().is_none()).then_some(maker)
    }

    /// Whether the process isn't there any more, if the system tells.
    fn is_gone(&self) -> Option<bool> {
        let tells = self.start > 0 && start(process::id()).is_some();
        tells.then(|| start(self.process) != Some(self.start))
    }
}

/// When a process was started, in ticks since the system was. None where the process isn't there or
/// has ended, or where there is no `/proc`.
fn start(process: u32) -> Option<u64> {
    let stat = fs::read_to_string(format!("/proc/{process}/stat")).ok()?;
    // The second field is the program's name in parentheses, which may hold anything. The third is
    // the state, the 22nd the start.
    let (_, fields) = stat.rsplit_once(") ")?;
    let mut fields = fields.split(' ');
    let state = fields.next()?;
    let start = fields.nth(18)?.parse().ok()?;
    (!matches!(state, "Z" | "X")).then_some(start)
}

#[cfg(test)]
mod tests {
    use super::*;

    #[test]
    fn a_name_tells_its_maker() {
        let this = Maker::this();
        assert_eq!(Maker::of(OsStr::new(&this.name())), Some(this));
        for other in [
            ".froesaffron-1-2-0123456789abcdef",
            ".froesaffron-1-2-0123456789abcde.tmp",
            ".froesaffron-1-2-0123456789abcdef-3.tmp",
            ".froesaffron-1-0123456789abcdef.tmp",
            ".froesaffron-a-2-0123456789abcdef.tmp",
            "froesaffron-1-2-0123456789abcdef.tmp",
        ] {
            assert_eq!(Maker::of(OsStr::new(other)), None, "{other}");
        }
    }

    #[test]
    fn no_two_names_are_the_same() {
        let this = Maker::this();
        assert_ne!(this.name(), this.name());
    }

    #[test]
    #[cfg(target_os = "linux")]
    fn a_process_with_another_start_is_gone() {
        let this = Maker::this();
        assert!(this.start > 0);
        assert_eq!(this.is_gone(), Some(false));
        assert_eq!(
            Maker {
                start: this.start + 1,
                ..this
            }
            .is_gone(),
            Some(true)
        );
        assert_eq!(
            Maker {
                process: this.process,
                start: 0
            }
            .is_gone(),
            None
        );
    }
}
