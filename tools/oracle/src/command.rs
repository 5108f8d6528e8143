//! Words, modes, exit statuses, and the lines on standard error: docs/COMMAND.md.

use crate::map::map;
use crate::refuse::{format, Refusal};
use crate::sample::sample;
use crate::source::normalise;

#[derive(PartialEq, Debug)]
pub enum Line {
    Usage,
    Format(Option<String>),
    Check(Option<String>),
    Map(Option<String>),
    Sample(u64, u32),
}

fn number(s: &str, digits: usize) -> Option<u64> {
    if s.is_empty() || s.len() > digits || !s.bytes().all(|b| b.is_ascii_digit()) {
        return None;
    }
    s.parse().ok()
}

/// What the words ask for.
pub fn line(words: &[String]) -> Line {
    let (mut check, mut map, mut file, mut seed, mut items) = (false, false, None, None, None);
    let mut only_file = false;
    let mut i = 0;
    while i < words.len() {
        let w = &words[i];
        i += 1;
        if !only_file && w == "--" {
            only_file = true;
            continue;
        }
        if !only_file && w.starts_with("--") {
            if w == "--check" || w == "--map" {
                let flag = if w == "--check" { &mut check } else { &mut map };
                if *flag {
                    return Line::Usage;
                }
                *flag = true;
                continue;
            }
            let (name, value) = match w.split_once('=') {
                Some((a, b)) => (a, Some(b.to_string())),
                None => (&w[..], None),
            };
            let slot = match name {
                "--sample" => &mut seed,
                "--items" => &mut items,
                _ => return Line::Usage,
            };
            if slot.is_some() {
                return Line::Usage;
            }
            *slot = Some(match value {
                Some(v) => v,
                None => {
                    if i >= words.len() || (words[i].starts_with('-') && words[i] != "-") {
                        return Line::Usage;
                    }
                    i += 1;
                    words[i - 1].clone()
                }
            });
            continue;
        }
        if !only_file && w.starts_with('-') && w != "-" {
            return Line::Usage;
        }
        if file.is_some() {
            return Line::Usage;
        }
        file = Some(w.clone());
    }
    match (seed, items) {
        (None, None) => match (check, map) {
            (false, false) => Line::Format(file),
            (true, false) => Line::Check(file),
            (false, true) => Line::Map(file),
            (true, true) => Line::Usage,
        },
        (Some(s), Some(n)) if !check && !map && file.is_none() => match (number(&s, 20), number(&n, 6)) {
            (Some(s), Some(n)) if n <= 200_000 => Line::Sample(s, n as u32),
            _ => Line::Usage,
        },
        _ => Line::Usage,
    }
}

pub const LIMIT: usize = 16_777_216;

#[derive(PartialEq, Debug)]
pub enum Status {
    Done,
    Differs,
    Usage,
    ReadFailed,
    Refused(Refusal),
    TooLong,
}

pub fn exit(s: &Status) -> u8 {
    match s {
        Status::Done => 0,
        Status::Differs => 1,
        Status::Usage => 2,
        Status::ReadFailed => 3,
        Status::Refused(_) => 4,
        Status::TooLong => 6,
    }
}

fn place(text: &[u8], at: usize) -> (usize, usize) {
    let before = &text[..at];
    let line = 1 + before.iter().filter(|&&b| b == b'\n').count();
    let col = 1 + at - before.iter().rposition(|&b| b == b'\n').map_or(0, |p| p + 1);
    (line, col)
}

pub fn refusal_line(bytes: &[u8], r: Refusal) -> String {
    let (at, word) = match r {
        Refusal::NotUtf8(a) => (a, "not UTF-8"),
        Refusal::NoToken(a) => (a, "no token"),
        Refusal::Unbalanced(a) => (a, "unbalanced delimiter"),
        Refusal::NoItem(a) => (a, "no item"),
    };
    let (l, c) =
        if let Refusal::NotUtf8(_) = r { place(bytes, at) } else { place(normalise(bytes).ok().unwrap().text.as_bytes(), at) };
    format!("{l}:{c}: {word}\n")
}

/// The status, what goes to standard output, and what goes to standard error.
pub fn run(words: &[String], read: &mut dyn FnMut(Option<&str>) -> std::io::Result<Vec<u8>>) -> (Status, Vec<u8>, String) {
    let words = line(words);
    let (check, mapped) = (matches!(words, Line::Check(_)), matches!(words, Line::Map(_)));
    let which = match words {
        Line::Usage => {
            let usage = "usage: lay_fmt [--check | --map] [FILE] or lay_fmt --sample SEED --items N\n";
            return (Status::Usage, vec![], usage.into());
        }
        Line::Sample(s, n) => {
            let text = sample(s, n);
            return match format(text.as_bytes()) {
                Err(r) => (Status::Refused(r), vec![], refusal_line(text.as_bytes(), r)),
                Ok(o) => {
                    let lines = o.bytes().filter(|&b| b == b'\n').count();
                    let longest = o.split('\n').map(|l| l.len()).max().unwrap_or(0);
                    let l =
                        format!("items {n}, bytes in {}, bytes out {}, lines {lines}, longest {longest}\n", text.len(), o.len());
                    (Status::Done, l.into_bytes(), String::new())
                }
            };
        }
        Line::Format(which) | Line::Check(which) | Line::Map(which) => which,
    };
    let bytes = match read(which.as_deref()) {
        Ok(b) => b,
        Err(_) => return (Status::ReadFailed, vec![], "read failed\n".into()),
    };
    if bytes.len() > LIMIT {
        return (Status::TooLong, vec![], "input is longer than 16777216 bytes\n".into());
    }
    match if mapped { map(&bytes) } else { format(&bytes) } {
        Err(r) => (Status::Refused(r), vec![], refusal_line(&bytes, r)),
        Ok(o) if check => {
            if o.as_bytes() == bytes {
                (Status::Done, vec![], String::new())
            } else {
                (Status::Differs, vec![], "differs\n".into())
            }
        }
        Ok(o) => (Status::Done, o.into_bytes(), String::new()),
    }
}
