//! Maps of sources, beside those that the command writes.
mod sources;

use froesaffron::command::{run, Failed, Global, Inputs, Sink, Status, Text, Which};
use froesaffron::{format, map, Map};
use sources::sources;

/// An input in memory.
struct Input<'a>(&'a [u8]);

impl Inputs for Input<'_> {
    fn choose(&mut self, _: Which) {}

    fn read(&mut self, room: &mut [u8]) -> Result<usize, Failed> {
        let (now, later) = self.0.split_at(room.len().min(self.0.len()));
        room[..now.len()].copy_from_slice(now);
        self.0 = later;
        Ok(now.len())
    }
}

#[derive(Default)]
struct Output(Vec<u8>);

impl Sink for Output {
    fn write(&mut self, piece: &[u8]) -> Result<(), Failed> {
        self.0.extend_from_slice(piece);
        Ok(())
    }
}

/// What the command writes with `--map`.
fn lines_of_command(source: &str) -> String {
    let words = [Text::from_bytes(Global, b"--map").unwrap()];
    let mut out = Output::default();
    let status =
        run(Global, &words, &mut Input(source.as_bytes()), &mut out, &mut Output::default());
    assert_eq!(status, Status::Done);
    String::from_utf8(out.0).unwrap()
}

/// The same lines of a map.
fn lines_of(map: &Map) -> String {
    let line = |pair: froesaffron::Pair| {
        format!(
            "{}+{} {}+{}\n",
            pair.source.start,
            pair.source.len(),
            pair.text.start,
            pair.text.len()
        )
    };
    map.pairs().map(line).collect()
}

#[test]
fn a_map_has_the_lines_of_the_command() {
    // The command takes its caller's stack.
    let run = || {
        for source in sources() {
            let map = map(&source).unwrap();
            assert_eq!(lines_of(&map), lines_of_command(&source));
            assert_eq!(map.text(), format(&source).unwrap());
            assert_eq!(map.into_text(), format(&source).unwrap());
        }
    };
    std::thread::Builder::new().stack_size(16 << 20).spawn(run).unwrap().join().unwrap();
}

#[test]
fn each_pair_says_the_same_in_both() {
    let source = "#[doc = \" a\"]\nfn half(n:u32,)->f32{match n{0=>{0.0}n=>{n/2}}}";
    let map = map(source).unwrap();
    assert_eq!(map.text(), "/// a\nfn half(n: u32) -> f32 {\n    match n {\n        0 => 0.0,\n        n => n / 2,\n    }\n}\n");
    let said: Vec<(&str, &str)> =
        map.pairs().map(|pair| (&source[pair.source], &map.text()[pair.text])).collect();
    let words = "fn half ( n : u32 ) - > f32 { match n { 0 = > 0.0 n = > n / 2 } }".split(' ');
    assert_eq!(said[0], ("#[doc = \" a\"]", "/// a"));
    assert_eq!(said[1..], words.map(|word| (word, word)).collect::<Vec<_>>());
    assert_eq!(
        (map.pairs().len(), map.pairs().next_back().unwrap().source.end),
        (said.len(), source.len())
    );
}

#[test]
fn places_are_carried_to_the_other_side() {
    let source = "#[doc = \" a\"]\nfn half(n:u32,)->f32{match n{0=>{0.0}n=>{n/2}}} // end";
    let map = map(source).unwrap();
    let at = |text: &str, part: &str| text.find(part).unwrap();
    for part in ["half", "alf", "lf", "u32", "32)", "->", "f32", "0.0", "n / 2", "/ 2"] {
        let found = &source[map.source_offset(at(map.text(), part))..];
        assert!(found.replace(",", "").starts_with(&part.replace(' ', "")), "{part}: {found}");
    }
    for part in ["half", "u32", "->f", "f32", "match", "0.0", "n/2"] {
        let found = map.text()[map.text_offset(at(source, part))..].replace(' ', "");
        assert!(found.starts_with(part), "{part}: {found}");
    }
    // A blank leads to where the next unit begins, what is spelled otherwise to its start, and what
    // stands behind all units to their end.
    assert_eq!(map.source_offset(at(map.text(), " half")), at(source, "half"));
    assert_eq!(map.source_offset(3), 0);
    assert_eq!(map.text_offset(at(source, "a\"")), 0);
    assert_eq!(map.source_offset(map.text().len()), at(source, " // end"));
    assert_eq!(map.source_offset(usize::MAX), at(source, " // end"));
    assert_eq!(map.text_offset(source.len()), map.text().len() - 1);
    assert_eq!(
        (
            froesaffron::map("").unwrap().source_offset(7),
            froesaffron::map(" ").unwrap().text_offset(1)
        ),
        (0, 0)
    );
}

#[test]
fn a_map_counts_in_the_source_that_it_was_given() {
    let plain = "#!/bin/sh\n/** a\nb */\nfn f() {\n    \"c\n\nd\";\n    e\n}\n";
    for source in [
        plain.to_string(),
        plain.replace('\n', "\r\n"),
        format!("\u{feff}{}", plain.replace('\n', "\r\n")),
    ] {
        let map = map(&source).unwrap();
        assert_eq!(map.text(), format(plain).unwrap());
        for (pair, other) in map.pairs().zip(froesaffron::map(plain).unwrap().pairs()) {
            assert_eq!(source[pair.source.clone()].replace("\r\n", "\n"), plain[other.source]);
            assert_eq!(pair.text, other.text);
            assert_eq!(map.source_offset(pair.text.start), pair.source.start);
            assert_eq!(map.text_offset(pair.source.start), pair.text.start);
        }
        let at = source.find("d\"").unwrap();
        assert_eq!(map.source_offset(map.text_offset(at)), at);
    }
}

#[test]
fn a_source_that_is_refused_has_no_map() {
    for source in ["struct", "fn f() { a b }", "}", "\\"] {
        assert_eq!(map(source).unwrap_err(), format(source).unwrap_err());
    }
}
