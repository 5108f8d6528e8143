//! Random trees: each text of their layout, broken wherever, and each other spelling reads to the tree again.

use oracle::layout::{lay, lay_loose};
use oracle::lex::lex;
use oracle::map::units;
use oracle::nest::nest;
use oracle::random::file;
use oracle::refuse::{format, read_file};
use oracle::render::{render, text, Choice};
use oracle::rng::Rng;
use oracle::tree::File;
use std::thread;

const TREES: u64 = 2000;
const STACK: usize = 1 << 29;

fn assert_reads(text: &str, file: &File<'_>) {
    let tokens = lex(text, 0).unwrap_or_else(|at| panic!("no token at {at}: {text}"));
    let partners = nest(&tokens).unwrap_or_else(|at| panic!("unbalanced at {at}: {text}"));
    let read = read_file(&tokens, &partners, None).unwrap_or_else(|at| panic!("no item at {at}: {text}"));
    assert!(read == *file, "another tree: {text}");
}

fn assert_all_texts_read(seed: u64) {
    let file = file(seed);
    let stream = lay(&file);
    let out = text(&stream);
    assert_reads(&out, &file);
    assert_eq!(format(out.as_bytes()).as_deref(), Ok(&out[..]), "another text the second time");
    for margin in [1, 30, 60, 1000] {
        assert_reads(&render(&stream, Choice::Margin(margin, margin.min(60))), &file);
    }
    let mut draw = Rng(seed);
    for _ in 0..4 {
        let (groups, breaks) = (draw.below(257), draw.below(257));
        assert_reads(&render(&stream, Choice::Random(&mut draw, groups, breaks)), &file);
    }
    for spelling in 0..2 {
        assert_reads(&text(&lay_loose(&file, seed ^ spelling)), &file);
    }
}

#[test]
fn every_text_reads_back() {
    let checks = || (0..TREES).for_each(assert_all_texts_read);
    thread::Builder::new().stack_size(STACK).spawn(checks).unwrap().join().unwrap();
}

/// What a source says, unit by unit; of documentation only that it is some.
fn said(text: &str) -> Vec<&str> {
    let (units, _) = units(text.as_bytes()).expect("it reads");
    let said = |(at, len): (usize, usize)| match &text[at..at + len] {
        unit if unit.starts_with("//") || unit.starts_with("/*") || unit.len() > 1 && unit.starts_with('#') => "///",
        unit => unit,
    };
    units.into_iter().map(said).collect()
}

fn assert_all_spellings_say_the_same(seed: u64) {
    let file = file(seed);
    let out = text(&lay(&file));
    for spelling in 0..4 {
        let spelled = text(&lay_loose(&file, seed ^ spelling));
        assert_eq!(said(&spelled), said(&out), "other units: {spelled}");
    }
}

#[test]
fn every_spelling_says_the_same() {
    let checks = || (0..TREES).for_each(assert_all_spellings_say_the_same);
    thread::Builder::new().stack_size(STACK).spawn(checks).unwrap().join().unwrap();
}
