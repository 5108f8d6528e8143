//! The command: the system's streams and files, one call, and its status as exit status.
#![forbid(unsafe_code)]
use froesaffron::command::{Failed, Global, Inputs, Sink, Status, Text, Which, run, with_stack};
use std::env;
use std::fs::File;
use std::io::{self, ErrorKind, Read, StdoutLock, Write};
use std::process::ExitCode;

/// Memory wasn't found.
const NO_MEMORY: u8 = 7;
/// The words are no texts.
const NO_TEXTS: u8 = 8;

fn main() -> ExitCode {
    ExitCode::from(with_stack(program).unwrap_or(NO_MEMORY))
}

/// Runs the command with the program's words, and answers the exit status.
fn program() -> u8 {
    let mut words = Vec::new();
    for word in env::args_os().skip(1) {
        let word = match word.to_str() {
            Some(word) => word,
            None => return NO_TEXTS,
        };
        match Text::from_bytes(Global, word.as_bytes()) {
            Ok(word) => words.push(word),
            Err(_) => return NO_MEMORY,
        }
    }
    let mut out = match HostOutput::new() {
        Some(out) => out,
        None => return NO_MEMORY,
    };
    let mut inputs = HostInputs { chosen: None, file: None };
    let status = run(Global, &words, &mut inputs, &mut out, &mut HostErrors);
    exit_status(finished(status, out.flush()))
}

/// The status of a run, or `WriteFailed` where its output wasn't handed to the system, which is told in one line.
fn finished(status: Status, flushed: Result<(), Failed>) -> Status {
    match flushed {
        Ok(()) => status,
        Err(Failed) => {
            let _ = HostErrors.write(b"write failed\n");
            Status::WriteFailed
        }
    }
}

/// The exit status that stands for an outcome.
fn exit_status(status: Status) -> u8 {
    match status {
        Status::Done => 0,
        Status::Differs => 1,
        Status::Usage => 2,
        Status::ReadFailed => 3,
        Status::Refused(_) => 4,
        Status::WriteFailed => 5,
        Status::TooLong => 6,
        Status::NoMemory => NO_MEMORY,
    }
}

/// Standard input, or the file that has a name, which is opened at its first read.
struct HostInputs {
    chosen: Option<Which>,
    file: Option<File>,
}

impl HostInputs {
    fn read_once(&mut self, room: &mut [u8]) -> io::Result<usize> {
        let name = match &self.chosen {
            Some(Which::File(name)) => name,
            _ => return io::stdin().lock().read(room),
        };
        if let Some(file) = &mut self.file {
            return file.read(room);
        }
        let name = std::str::from_utf8(name.as_bytes()).map_err(|_| ErrorKind::InvalidInput)?;
        self.file.insert(File::open(name)?).read(room)
    }
}

impl Inputs for HostInputs {
    fn choose(&mut self, which: Which) {
        self.chosen = Some(which);
    }

    fn read(&mut self, room: &mut [u8]) -> Result<usize, Failed> {
        loop {
            match self.read_once(room) {
                Err(error) if error.kind() == ErrorKind::Interrupted => {}
                answer => return answer.map_err(|_| Failed),
            }
        }
    }
}

/// How many bytes standard output gathers before they are handed to the system.
const GATHERED: usize = 65536;

/// Standard output, which gathers what is written.
struct HostOutput {
    stdout: StdoutLock<'static>,
    waiting: Vec<u8>,
}

impl HostOutput {
    /// Standard output, if there is memory for what it gathers.
    fn new() -> Option<HostOutput> {
        let mut waiting = Vec::new();
        waiting.try_reserve_exact(GATHERED).ok()?;
        Some(HostOutput { stdout: io::stdout().lock(), waiting })
    }

    /// Hands over what waits. It is handed over once, whatever comes of it.
    fn flush(&mut self) -> Result<(), Failed> {
        let answer = self.stdout.write_all(&self.waiting).and_then(|()| self.stdout.flush());
        self.waiting.clear();
        answer.map_err(|_| Failed)
    }
}

impl Sink for HostOutput {
    fn write(&mut self, piece: &[u8]) -> Result<(), Failed> {
        if piece.len() > GATHERED - self.waiting.len() {
            self.flush()?;
            if piece.len() >= GATHERED {
                return self.stdout.write_all(piece).map_err(|_| Failed);
            }
        }
        self.waiting.extend_from_slice(piece);
        Ok(())
    }
}

/// Standard error.
struct HostErrors;

impl Sink for HostErrors {
    fn write(&mut self, piece: &[u8]) -> Result<(), Failed> {
        io::stderr().write_all(piece).map_err(|_| Failed)
    }
}
