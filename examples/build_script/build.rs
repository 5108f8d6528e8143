//! Lays out what it generates. Where that is refused, the build goes on with the text as it was generated, and warns.
use std::path::Path;
use std::{env, fs, io};

fn main() -> io::Result<()> {
    println!("cargo:rerun-if-changed=build.rs");
    let folder = env::var_os("OUT_DIR").expect("cargo names the folder");
    write(Path::new(&folder), "accepted.rs", "pub const NAMES:[&str;2]=[\"a\",\"b\"];".to_string())?;
    // Attributes on elements aren't accepted.
    write(Path::new(&folder), "refused.rs", "pub fn ones()->[u8;1]{[#[cfg(all())]1]}".to_string())
}

/// Writes a generated text to a file, laid out where it is accepted.
fn write(folder: &Path, name: &str, generated: String) -> io::Result<()> {
    let text = froesaffron::format(&generated).unwrap_or_else(|error| {
        println!("cargo:warning={name}:{error}");
        generated
    });
    fs::write(folder.join(name), text)
}
