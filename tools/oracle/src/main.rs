//! The command: the words, the lines and the exit statuses of lay_fmt.

use oracle::command::{exit, run, LIMIT};
use std::fs::File;
use std::io::{Error, Read, Write};
use std::process::ExitCode;
use std::thread;

/// Files nest 256 deep, and the readers here take several calls for each level.
const STACK: usize = 1 << 30;

fn main() -> ExitCode {
    let words: Result<Vec<String>, _> = std::env::args_os().skip(1).map(|word| word.into_string()).collect();
    let Ok(words) = words else { return ExitCode::from(8) };
    let formats = thread::Builder::new().stack_size(STACK).spawn(move || format(&words));
    formats.expect("a thread is had").join().map_or(ExitCode::from(101), ExitCode::from)
}

/// Runs the command, and gives its exit status.
fn format(words: &[String]) -> u8 {
    let (status, text, line) = run(words, &mut read);
    let _ = std::io::stderr().write_all(line.as_bytes());
    if std::io::stdout().write_all(&text).is_err() {
        eprintln!("write failed");
        return 5;
    }
    exit(&status)
}

/// Standard input or a file to its end, or one byte more than is taken.
fn read(path: Option<&str>) -> Result<Vec<u8>, Error> {
    let mut bytes = Vec::new();
    let most = LIMIT as u64 + 1;
    match path {
        None => std::io::stdin().lock().take(most).read_to_end(&mut bytes)?,
        Some(path) => File::open(path)?.take(most).read_to_end(&mut bytes)?,
    };
    Ok(bytes)
}
