//! The crate's own sources. Each program of tests takes what it needs.
#![allow(dead_code)]
use std::fs;
use std::path::Path;

/// Every fifth source of the crate, in the order of their paths: in a build that isn't optimised
/// all of them take minutes.
pub fn sources() -> Vec<String> {
    let mut paths = Vec::new();
    add(&Path::new(env!("CARGO_MANIFEST_DIR")).join("src"), &mut paths);
    paths.sort();
    assert!(paths.len() > 200);
    paths.iter().step_by(5).map(|path| fs::read_to_string(path).unwrap()).collect()
}

/// Each of them as a module, in one source of many windows.
pub fn modules() -> String {
    sources()
        .iter()
        .enumerate()
        .map(|(number, source)| format!("mod m{number} {{\n{source}\n}}\n"))
        .collect()
}

fn add(folder: &Path, paths: &mut Vec<std::path::PathBuf>) {
    for entry in fs::read_dir(folder).unwrap() {
        let path = entry.unwrap().path();
        if path.is_dir() {
            add(&path, paths);
        } else if path.extension().map_or(false, |name| name == "rs") {
            paths.push(path);
        }
    }
}
