#!/bin/sh
# Builds and tests the cargo crate with the oldest Rust that takes it, which is the `rust-version`
# of rust/Cargo.toml; and the libraries for C over it.
#
# usage: oldest.sh [FOLDER]
#
# FOLDER has that version's rustc and cargo. Where none is named it is /usr/bin, or a toolchain of
# rustup; where neither has the version, the status is
# 3. Rust 1.63 is Debian bookworm's: its packages rustc and cargo. Copies are built, since an older
# cargo doesn't read a newer one's Cargo.lock.
set -eu
. "$(dirname "$0")/usage.sh"
words 0 1 "$@"
top=$(cd "$(dirname "$0")/.." && pwd)
version=$(sed -n 's/^rust-version = "\(.*\)"/\1/p' "$top/rust/Cargo.toml")
folder=
for place in ${1+"$1"} /usr/bin "${RUSTUP_HOME:-$HOME/.rustup}/toolchains/$version"*/bin; do
    case $("$place/rustc" --version 2>/dev/null) in
        "rustc $version" | "rustc $version"[.\ ]*)
            folder=$place
            break
            ;;
    esac
done
if [ -z "$folder" ]; then
    echo "oldest.sh: rustc $version isn't there"
    exit 3
fi
made=$(mktemp -d)
trap 'rm -rf "$made"' EXIT
(cd "$top" && tar -ch --exclude=target --exclude=Cargo.lock rust c) | tar -x -C "$made"
PATH=$folder:$PATH
export RUSTC="$folder/rustc" RUSTDOC="$folder/rustdoc" CARGO_TARGET_DIR="$made/target"
(cd "$made/rust" && "$folder/cargo" test --quiet --offline)
# Without std there is no trait `Error` in so old a Rust, and so none for the tests that take one.
(cd "$made/rust" && "$folder/cargo" build --quiet --offline --no-default-features)
(cd "$made/c" && "$folder/cargo" build --quiet --offline)
"$top/scripts/c_crate.py" "$made/target/debug"
echo "oldest: passed with rustc $version"
