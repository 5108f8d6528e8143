#!/bin/sh
# Builds a program that calls prettyplease, for scripts/measure/peers.py: it reads a file of Rust on
# standard input, parses it by syn, and writes prettyplease's text of it.
#
# usage: prettyplease.sh FOLDER
#
# FOLDER gets the sources of the two crates and of those that they depend on, from the packages of
# Debian's suite sid, and the program FOLDER/prettyplease. It needs apt-get, dpkg-deb, a network and
# cargo.
set -eu
. "$(dirname "$0")/../usage.sh"
words 1 1 "$@"
mkdir -p "$1"
folder=$(cd "$1" && pwd)
made=$(mktemp -d)
trap 'rm -rf "$made"' EXIT
cd "$made"

# A list of packages and a cache of their own.
mkdir -p state/lists/partial cache/archives/partial
keys=/usr/share/keyrings/debian-archive-keyring.gpg
echo "deb [signed-by=$keys] http://deb.debian.org/debian sid main" > sources.list
apt() {
    apt-get --quiet --quiet -o "Dir::Etc::SourceList=$made/sources.list" \
        -o Dir::Etc::SourceParts=/dev/null -o "Dir::State=$made/state" -o "Dir::Cache=$made/cache" \
        -o Dir::State::Status=/var/lib/dpkg/status -o APT::Sandbox::User=root "$@"
}
apt update
for name in prettyplease syn quote proc-macro2 unicode-ident; do
    apt download "librust-$name-dev"
done
for package in *.deb; do
    dpkg-deb -x "$package" "$folder/debian"
done
mkdir -p "$folder/src" "$folder/.cargo"
cat > "$folder/.cargo/config.toml" <<END
[source.crates-io]
replace-with = "debian"
[source.debian]
directory = "$folder/debian/usr/share/cargo/registry"
END
cat > "$folder/Cargo.toml" <<'END'
[package]
name = "prettyplease-of-stdin"
version = "0.0.0"
edition = "2021"
[[bin]]
name = "prettyplease"
path = "src/main.rs"
[dependencies]
prettyplease = "*"
syn = { version = "*", features = ["full", "parsing"] }
[workspace]
END
cat > "$folder/src/main.rs" <<'END'
use std::io::{self, Read as _, Write as _};

fn main() {
    let mut text = String::new();
    io::stdin().read_to_string(&mut text).unwrap();
    match syn::parse_file(&text) {
        Ok(file) => io::stdout().write_all(prettyplease::unparse(&file).as_bytes()).unwrap(),
        Err(error) => {
            eprintln!("{error}");
            std::process::exit(1);
        }
    }
}
END
(cd "$folder" && cargo build --quiet --release --offline --target-dir target)
cp "$folder/target/release/prettyplease" "$folder/prettyplease"
