//! Reads and writes in order, of which one fails in mid-stream.
ghost use Rattle.std.specs.Prelude.{◌<◌, IfOk, IsSome};

use lay_io::{
    Failed, HostInputs, HostSink, Inputs, Lent, MemoryInputs, MemorySink, NamedFile, QuietInputs,
    QuietSink, ReadError, Sink, Which, read_all,
};
use lay_test_rows::{list, repeated};
use lay_token::{List, NoMemory, Text};
use std::alloc::Global;
use std::cell::{Cell, RefCell};
use std::fmt::Display;
use std::io::{Eprint, Print};
use std::process::Abort;
use std::rt::Files;
use std::test::Fail;
use std::{fs, io, process};

/// How many bytes are read of five, up to a limit.
fn length(alloc: Global, limit: usize) -> Result<usize, ReadError>
    requires { limit < 100 }
{
    match list(alloc, b"abcde") {
        Ok(bytes) => {
            let mut inputs = QuietInputs::new(bytes, List::new(alloc));
            inputs.choose(Which::Stdin);
            match read_all(alloc, &mut inputs, limit) {
                Ok(read) => Ok(read.as_slice().len()),
                Err(error) => Err(error),
            }
        }
        Err(NoMemory) => Err(ReadError::NoMemory),
    }
}

#[test]
fn all_of_an_input_up_to_a_limit(rt: HostRuntime) {
    assert_eq!(rt; length(rt.alloc(), 4), Err(ReadError::TooLong));
    assert_eq!(rt; length(rt.alloc(), 5), Ok(5));
    assert_eq!(rt; length(rt.alloc(), 6), Ok(5));
}

/// One read by a buffer of two bytes: its answer, and the bytes that it moved.
fn read<I: Inputs>(rt: &impl Abort, inputs: &mut I, answer: Result<usize, Failed>, moved: &[u8])
    requires { IsSome (I.chosen inputs.old) }
    ensures { IsSome (I.chosen inputs.new) }
{
    let mut buf = [0u8; 2];
    let read = inputs.read(&mut buf);
    assert_eq!(rt; read, answer);
    assert!(rt; buf.starts_with(moved));
}

/// Inputs of which a file of five bytes is chosen, and the read numbered 1 fails.
fn file(alloc: Global) -> Result<MemoryInputs, NoMemory>
    ensures { IfOk result (λ inputs. IsSome (⟦<MemoryInputs as Inputs>⟧.chosen inputs)) }
{
    let chosen = Text::from_bytes(alloc, b"q")?;
    let fail = List::from_vec(vec![in alloc; 1u64]?);
    let file = NamedFile {
        name: Text::from_bytes(alloc, b"q")?,
        bytes: list(alloc, b"abcde")?,
    };
    let files = List::from_vec(vec![in alloc; file]?);
    let mut inputs = MemoryInputs::new(List::new(alloc), files, fail);
    inputs.choose(Which::File(chosen));
    Ok(inputs)
}

#[test]
fn reads(rt: HostRuntime) {
    match file(rt.alloc()) {
        Ok(mut inputs) => {
            read(&rt, &mut inputs, Ok(2), b"ab");
            read(&rt, &mut inputs, Err(Failed), b"");
            read(&rt, &mut inputs, Ok(2), b"cd");
            read(&rt, &mut inputs, Ok(1), b"e");
            read(&rt, &mut inputs, Ok(0), b"");
        }
        Err(NoMemory) => assert!(rt; false),
    }
    let alloc = rt.alloc();
    let mut missing = MemoryInputs::new(List::new(alloc), List::new(alloc), List::new(alloc));
    missing.choose(Which::File(Text::new(alloc)));
    read(&rt, &mut missing, Err(Failed), b"");
}

/// A file of the system of five bytes is read piece by piece to its end.
fn reads_file<R: Input + Files + Abort>(rt: &R, name: Text) {
    let mut file = HostInputs::new(rt);
    file.choose(Which::File(name));
    read(rt, &mut file, Ok(2), b"ab");
    read(rt, &mut file, Ok(2), b"cd");
    read(rt, &mut file, Ok(1), b"e");
    read(rt, &mut file, Ok(0), b"");
}

/// A file of the system that isn't there fails at each read.
fn misses_file<R: Input + Files + Abort>(rt: &R, name: Text) {
    let mut none = HostInputs::new(rt);
    none.choose(Which::File(name));
    read(rt, &mut none, Err(Failed), b"");
    read(rt, &mut none, Err(Failed), b"");
}

// A file is read to its end. One that isn't there, and a name that is no text, fail at each read.
#[test]
fn reads_of_the_system(rt: HostRuntime) -> Result<(), Fail> {
    let alloc = rt.alloc();
    let name = format!(in alloc; "/tmp/lay_tests_{}", process::id(rt.process()))?;
    fs::write(&rt, name.as_str(), b"abcde".as_slice())?;
    reads_file(&rt, Text::from_bytes(alloc, name.as_bytes())?);
    fs::remove_file(&rt, name.as_str())?;
    misses_file(&rt, Text::from_bytes(alloc, name.as_bytes())?);
    misses_file(&rt, Text::from_bytes(alloc, b"\xff")?);
    Ok(())
}

/// One write and its answer.
fn write<K: Sink>(rt: &impl Abort, sink: &mut K, piece: &[u8], answer: Result<(), Failed>) {
    let written = sink.write(piece);
    assert_eq!(rt; written, answer);
}

/// These bytes are kept.
fn keeps(rt: &impl Abort, bytes: &[u8], wanted: &[u8]) {
    assert_eq!(rt; bytes, wanted);
}

/// A sink with room for six bytes, of which the write numbered 1 fails and keeps two bytes.
fn sink(alloc: Global) -> Result<MemorySink, NoMemory> {
    MemorySink::new(alloc, 6, List::from_vec(vec![in alloc; 1u64]?), 2)
}

#[test]
fn writes(rt: HostRuntime) -> Result<(), Fail> {
    let mut memory = sink(rt.alloc())?;
    write(&rt, &mut memory, b"ab", Ok(()));
    write(&rt, &mut memory, b"cde", Err(Failed));
    write(&rt, &mut memory, b"fg", Ok(()));
    keeps(&rt, memory.bytes(), b"abcdfg");
    // What doesn't fit is lost.
    write(&rt, &mut memory, b"h", Ok(()));
    Ok(())
}

#[test]
fn writes_that_never_fail(rt: HostRuntime) -> Result<(), Fail> {
    let mut quiet = QuietSink::with_room(rt.alloc(), 3)?;
    write(&rt, &mut quiet, b"ab", Ok(()));
    write(&rt, &mut quiet, b"c", Ok(()));
    keeps(&rt, quiet.bytes(), b"abc");
    write(&rt, &mut quiet, b"d", Ok(()));
    Ok(())
}

// Writes reach the lent sink.
#[test]
fn writes_of_a_lent_sink(rt: HostRuntime) -> Result<(), Fail> {
    let mut memory = sink(rt.alloc())?;
    let mut lent = Lent::new(&mut memory);
    write(&rt, &mut lent, b"ab", Ok(()));
    write(&rt, &mut lent, b"cde", Err(Failed));
    keeps(&rt, memory.bytes(), b"abcd");
    Ok(())
}

/// A system that keeps what it is handed, a `|` behind each call. The call with this number fails, counted from 0.
#[derive(Drop)]
struct System {
    handed: RefCell<Vec<u8>>,
    calls: Cell<u64>,
    fail: u64,
}

impl System {
    fn new(alloc: Global, fail: u64) -> System {
        System {
            handed: RefCell::new(Vec::new(alloc)),
            calls: Cell::new(0),
            fail,
        }
    }

    /// Keeps what is handed.
    fn keep(&self, bytes: &[u8]) -> Result<(), NoMemory> {
        if let Ok(mut handed) = self.handed.try_borrow_mut() {
            handed.extend_from_slice(bytes)?;
            handed.extend_from_slice(b"|")?;
        }
        Ok(())
    }

    /// All that was handed.
    fn all(&self, alloc: Global) -> Vec<u8> {
        match self.handed.try_replace(Vec::new(alloc)) {
            Ok(handed) => handed,
            Err(refused) => refused,
        }
    }
}

impl Print for System {
    fn print<D: Display + Drop>(&self, _: D) -> io::Result<()> {
        Err(io::Error::from(io::ErrorKind::Unsupported))
    }

    fn println<D: Display + Drop>(&self, _: D) -> io::Result<()> {
        Err(io::Error::from(io::ErrorKind::Unsupported))
    }

    fn write_all(&self, bytes: &[u8]) -> io::Result<()> {
        let number = self.calls.get();
        self.calls.set(number.saturating_add(1));
        if self.keep(bytes).is_err() || number == self.fail {
            return Err(io::Error::from(io::ErrorKind::StorageFull));
        }
        Ok(())
    }
}

impl Eprint for System {
    fn eprint<D: Display + Drop>(&self, _: D) -> io::Result<()> {
        Err(io::Error::from(io::ErrorKind::Unsupported))
    }

    fn eprintln<D: Display + Drop>(&self, _: D) -> io::Result<()> {
        Err(io::Error::from(io::ErrorKind::Unsupported))
    }
}

/// A write of so many copies of a byte, which is taken.
fn write_copies<K: Sink>(
    rt: &impl Abort,
    alloc: Global,
    sink: &mut K,
    byte: &[u8],
    count: usize,
) -> Result<(), NoMemory> {
    let piece = repeated(alloc, byte, count)?;
    write(rt, sink, piece.as_slice(), Ok(()));
    Ok(())
}

/// What is left behind so many copies of a byte and these bytes, if all begins with them.
fn behind<'a>(all: &'a [u8], byte: u8, count: usize, more: &[u8]) -> Option<&'a [u8]> {
    let mut rest = all;
    for _ in 0..count {
        match rest.split_first() {
            Some((first, left)) => if *first == byte {
                rest = left;
            } else {
                return None;
            },
            None => return None,
        }
    }
    for wanted in more {
        match rest.split_first() {
            Some((first, left)) => if first == wanted {
                rest = left;
            } else {
                return None;
            },
            None => return None,
        }
    }
    Some(rest)
}

/// What fits waits, what waits is written before what doesn't fit, and 64 KiB are written themselves.
fn gather<R: Print + Eprint>(
    rt: &impl Abort,
    alloc: Global,
    system: &System,
    out: &mut HostSink<'_, R>,
) -> Result<(), NoMemory> {
    write_copies(rt, alloc, out, b"a", 65535)?;
    write(rt, out, b"b", Ok(()));
    assert_eq!(rt; system.calls.get(), 0);
    write(rt, out, b"c", Ok(()));
    assert_eq!(rt; system.calls.get(), 1);
    write_copies(rt, alloc, out, b"d", 65536)?;
    assert_eq!(rt; system.calls.get(), 3);
    Ok(())
}

/// What failed isn't handed over again.
fn fail_once<R: Print + Eprint>(rt: &impl Abort, out: &mut HostSink<'_, R>) {
    write(rt, out, b"e", Ok(()));
    assert_eq!(rt; out.flush(), Err(Failed));
    write(rt, out, b"f", Ok(()));
    assert_eq!(rt; out.flush(), Ok(()));
}

/// Whether this was handed over of what `gather` and `fail_once` write.
fn is_gathered(all: &[u8]) -> bool {
    match behind(all, b'a', 65535, b"b|c|") {
        Some(rest) => match behind(rest, b'd', 65536, b"|e|f|") {
            Some(rest) => rest.is_empty(),
            None => false,
        },
        None => false,
    }
}

#[test]
fn writes_that_are_gathered(rt: HostRuntime) -> Result<(), Fail> {
    let system = System::new(rt.alloc(), 3);
    let mut out = HostSink::stdout(rt.alloc(), &system)?;
    gather(&rt, rt.alloc(), &system, &mut out)?;
    fail_once(&rt, &mut out);
    assert!(rt; is_gathered(system.all(rt.alloc()).as_slice()));
    Ok(())
}

/// A write that doesn't fit fails with what waits, and the next one waits.
fn fail_with_what_waits<R: Print + Eprint>(
    rt: &impl Abort,
    alloc: Global,
    out: &mut HostSink<'_, R>,
) -> Result<(), NoMemory> {
    write_copies(rt, alloc, out, b"a", 65535)?;
    write(rt, out, b"bb", Err(Failed));
    write(rt, out, b"c", Ok(()));
    assert_eq!(rt; out.flush(), Ok(()));
    Ok(())
}

/// Whether this was handed over of what it writes.
fn is_handed(all: &[u8]) -> bool {
    match behind(all, b'a', 65535, b"|c|") {
        Some(rest) => rest.is_empty(),
        None => false,
    }
}

#[test]
fn writes_that_fail_with_what_waits(rt: HostRuntime) -> Result<(), Fail> {
    let system = System::new(rt.alloc(), 0);
    let mut out = HostSink::stdout(rt.alloc(), &system)?;
    fail_with_what_waits(&rt, rt.alloc(), &mut out)?;
    assert!(rt; is_handed(system.all(rt.alloc()).as_slice()));
    Ok(())
}

// Bytes that are no text fail on standard error.
#[test]
fn writes_of_the_system(rt: HostRuntime) -> Result<(), Fail> {
    let mut out = HostSink::stdout(rt.alloc(), &rt)?;
    write(&rt, &mut out, b"", Ok(()));
    assert_eq!(rt; out.flush(), Ok(()));
    let mut err = HostSink::stderr(&rt);
    write(&rt, &mut err, b"\xff", Err(Failed));
    write(&rt, &mut err, b"", Ok(()));
    assert_eq!(rt; err.flush(), Ok(()));
    Ok(())
}
