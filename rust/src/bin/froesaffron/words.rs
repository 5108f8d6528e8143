//! The words of the command line, read as rustfmt reads its own.
use std::ffi::OsString;
use std::path::PathBuf;

/// What the program is asked to do.
#[derive(Debug, PartialEq, Eq)]
pub enum Task {
    Help,
    Version,
    Format(Words),
}

/// What is formatted, and what comes of it.
#[derive(Debug, Default, PartialEq, Eq)]
pub struct Words {
    /// In order; standard input where none is named.
    pub inputs: Vec<Input>,
    pub mode: Mode,
    /// `-l`: names are printed in place of diffs, and those of files that were written.
    pub names: bool,
    /// `-q`: files that differ are told by their diffs alone.
    pub quiet: bool,
    /// A file's name stands before its text on standard output, which more than one goes to.
    pub headings: bool,
    /// `-v`: what comes of each file is told, and which options have no effect.
    pub verbose: bool,
    /// The options that have no effect, as they were spelled.
    pub unused: Vec<String>,
}

#[derive(Debug, PartialEq, Eq)]
pub enum Input {
    Standard,
    File(PathBuf),
}

/// Where formatted text goes.
#[derive(Clone, Copy, Debug, Default, PartialEq, Eq)]
pub enum Mode {
    /// Into the file that it comes from, or to standard output if it comes from standard input.
    #[default]
    Files,
    /// To standard output.
    Stdout,
    /// Nowhere: what differs is shown.
    Check,
}

/// An option: its letter, its name, and whether a value belongs to it.
struct Choice {
    letter: Option<char>,
    name: &'static str,
    value: Value,
}

#[derive(PartialEq, Eq)]
enum Value {
    Never,
    /// Behind `=`, if there is one.
    Maybe,
    /// Behind `=`, or as the next word.
    Once,
    /// The same, and the option may be given several times.
    Often,
}

const CHOICES: [Choice; 12] = [
    Choice {
        letter: None,
        name: "check",
        value: Value::Never,
    },
    Choice {
        letter: None,
        name: "emit",
        value: Value::Once,
    },
    Choice {
        letter: None,
        name: "edition",
        value: Value::Once,
    },
    Choice {
        letter: None,
        name: "style-edition",
        value: Value::Once,
    },
    Choice {
        letter: None,
        name: "color",
        value: Value::Once,
    },
    Choice {
        letter: None,
        name: "config-path",
        value: Value::Once,
    },
    Choice {
        letter: None,
        name: "config",
        value: Value::Often,
    },
    Choice {
        letter: Some('l'),
        name: "files-with-diff",
        value: Value::Never,
    },
    Choice {
        letter: Some('v'),
        name: "verbose",
        value: Value::Never,
    },
    Choice {
        letter: Some('q'),
        name: "quiet",
        value: Value::Never,
    },
    Choice {
        letter: Some('V'),
        name: "version",
        value: Value::Never,
    },
    Choice {
        letter: Some('h'),
        name: "help",
        value: Value::Maybe,
    },
];

/// Reads the words behind the program's name, or says what is wrong with them. Help is given where
/// it is asked for in words that are right, and before the version.
pub fn read(words: impl IntoIterator<Item = OsString>) -> Result<Task, String> {
    let given = Given::read(words.into_iter())?;
    if given.has("help") {
        return Ok(Task::Help);
    }
    if given.has("version") {
        return Ok(Task::Version);
    }
    for name in ["edition", "style-edition"] {
        given.one_of(name, &["2015", "2018", "2021", "2024"])?;
    }
    given.one_of("color", &["always", "never", "auto"])?;
    let emit = given.one_of("emit", &["files", "stdout"])?;
    let mode = match emit {
        Some(_) if given.has("check") => {
            return Err("--emit and --check exclude each other".to_string())
        }
        _ if given.has("check") => Mode::Check,
        Some("stdout") => Mode::Stdout,
        _ => Mode::Files,
    };
    let (quiet, verbose) = (given.has("quiet"), given.has("verbose"));
    if quiet && verbose {
        return Err("--quiet and --verbose exclude each other".to_string());
    }
    let standard = given
        .inputs
        .iter()
        .filter(|input| **input == Input::Standard)
        .count();
    if emit == Some("files") && (given.inputs.is_empty() || standard > 0) {
        return Err("--emit files: standard input is no file".to_string());
    }
    if standard > 1 {
        return Err("standard input is named more than once".to_string());
    }
    let names = given.has("files-with-diff");
    let headings = mode == Mode::Stdout && given.inputs.len() > 1 && !quiet;
    let unused = given.unused();
    let inputs = if given.inputs.is_empty() {
        vec![Input::Standard]
    } else {
        given.inputs
    };
    Ok(Task::Format(Words {
        inputs,
        mode,
        names,
        quiet,
        headings,
        verbose,
        unused,
    }))
}

/// The options that were given, with their values, and the inputs.
struct Given {
    options: Vec<(&'static str, Option<String>)>,
    inputs: Vec<Input>,
}

impl Given {
    /// Sorts the words. Behind `--` all are inputs, and `-` is one everywhere.
    fn read(mut words: impl Iterator<Item = OsString>) -> Result<Given, String> {
        let mut given = Given {
            options: Vec::new(),
            inputs: Vec::new(),
        };
        let mut options_end = false;
        while let Some(word) = words.next() {
            let text = word.to_string_lossy().into_owned();
            if text == "-" {
                given.inputs.push(Input::Standard);
            } else if options_end || !text.starts_with('-') {
                given.inputs.push(Input::File(PathBuf::from(word)));
            } else if text == "--" {
                options_end = true;
            } else if let Some(name) = text.strip_prefix("--") {
                given.long(name, &mut words)?;
            } else {
                for letter in text.chars().skip(1) {
                    let choice = find(|choice| choice.letter == Some(letter));
                    given.push(choice.ok_or(format!("no such option: -{letter}"))?, None)?;
                }
            }
        }
        Ok(given)
    }

    /// An option by its name and what may stand behind it, `=` and a value; else the value is the
    /// next word.
    fn long(
        &mut self,
        text: &str,
        words: &mut impl Iterator<Item = OsString>,
    ) -> Result<(), String> {
        let (name, behind) = text.split_once('=').map_or((text, None), |(name, value)| {
            (name, Some(value.to_string()))
        });
        let choice =
            find(|choice| choice.name == name).ok_or(format!("no such option: --{name}"))?;
        let value = match (&choice.value, behind) {
            (Value::Never, Some(_)) => return Err(format!("--{name} takes no value")),
            (Value::Once | Value::Often, None) => {
                let value = words.next().ok_or(format!("--{name} wants a value"))?;
                Some(value.to_string_lossy().into_owned())
            }
            (_, behind) => behind,
        };
        self.push(choice, value)
    }

    fn push(&mut self, choice: &Choice, value: Option<String>) -> Result<(), String> {
        if choice.value != Value::Often && self.has(choice.name) {
            return Err(format!("--{} is given more than once", choice.name));
        }
        self.options.push((choice.name, value));
        Ok(())
    }

    fn has(&self, name: &str) -> bool {
        self.options.iter().any(|(given, _)| *given == name)
    }

    /// The value of an option, if it was given, which has to be one of these.
    fn one_of(&self, name: &str, values: &[&'static str]) -> Result<Option<&'static str>, String> {
        let given = match self.options.iter().find(|(option, _)| *option == name) {
            Some((_, Some(given))) => given,
            _ => return Ok(None),
        };
        match values.iter().find(|value| given == *value) {
            Some(value) => Ok(Some(*value)),
            None => Err(format!(
                "--{name} is one of {}, not {given}",
                values.join(", ")
            )),
        }
    }

    /// The options that are taken for the sake of callers, and change nothing.
    fn unused(&self) -> Vec<String> {
        let without_effect = ["edition", "style-edition", "color", "config-path", "config"];
        let given = self
            .options
            .iter()
            .filter(|(name, _)| without_effect.contains(name));
        given
            .map(|(name, value)| match value {
                Some(value) => format!("--{name} {value}"),
                None => format!("--{name}"),
            })
            .collect()
    }
}

fn find(wanted: impl Fn(&Choice) -> bool) -> Option<&'static Choice> {
    CHOICES.iter().find(|choice| wanted(choice))
}

#[cfg(test)]
mod tests {
    use super::*;

    fn read_all(words: &[&str]) -> Result<Task, String> {
        read(words.iter().map(OsString::from))
    }

    fn format(words: &[&str]) -> Words {
        match read_all(words) {
            Ok(Task::Format(words)) => words,
            other => panic!("{words:?}: {other:?}"),
        }
    }

    fn file(name: &str) -> Input {
        Input::File(PathBuf::from(name))
    }

    #[test]
    fn inputs_and_options_stand_in_any_order() {
        assert_eq!(
            format(&[]),
            Words {
                inputs: vec![Input::Standard],
                ..Words::default()
            }
        );
        let words = format(&["a", "--edition", "2021", "b", "--check", "--", "-q", "--"]);
        let inputs = vec![file("a"), file("b"), file("-q"), file("--")];
        let unused = vec!["--edition 2021".to_string()];
        assert_eq!(
            words,
            Words {
                inputs,
                mode: Mode::Check,
                unused,
                ..Words::default()
            }
        );
        assert_eq!(format(&["--", "-"]).inputs, [Input::Standard]);
    }

    #[test]
    fn a_value_stands_behind_a_sign_or_next() {
        assert_eq!(format(&["--emit=stdout"]).mode, Mode::Stdout);
        assert_eq!(format(&["--emit", "stdout"]).mode, Mode::Stdout);
        assert_eq!(
            format(&["--config-path", "-q", "--config=a=b"]).unused,
            ["--config-path -q", "--config a=b"]
        );
    }

    #[test]
    fn letters_may_stand_together() {
        let words = format(&["-lq", "--emit", "stdout", "a", "b"]);
        assert!(words.names && words.quiet && !words.headings && !words.verbose);
        assert_eq!(read_all(&["-Vh"]), Ok(Task::Help));
        assert_eq!(read_all(&["-qV"]), Ok(Task::Version));
    }

    #[test]
    fn wrong_words_are_refused_before_help() {
        assert_eq!(
            read_all(&["--help", "--bogus"]),
            Err("no such option: --bogus".to_string())
        );
        assert_eq!(
            read_all(&["-h", "--help"]),
            Err("--help is given more than once".to_string())
        );
    }
}
