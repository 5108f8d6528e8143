#!/bin/sh
# Makes the modules of the cargo crate, rust/src/generated, anew from the proved sources, and lays them out; and rust/sources.sha256.
#
# usage: rust.sh [--identifiers] [COMMAND]
#
# COMMAND is the one that lays them out, and crates/lay_fmt/out/lay_fmt where none is named. With --identifiers, and where they aren't there,
# the tables of the characters that identifiers have are made anew too: a small program, which the toolchain proves first, asks of every
# character. That takes some 20 seconds of a core; all else takes two. It needs Python.
set -eu
. "$(dirname "$0")/usage.sh"
identifiers=
if [ "${1-}" = --identifiers ]; then
    identifiers=yes
    shift
fi
words 0 1 "$@"
top=$(cd "$(dirname "$0")/.." && pwd)
command=${1:-$top/crates/lay_fmt/out/lay_fmt}
if [ ! -x "$command" ]; then
    echo "$0: $command isn't there: rt ci builds it" >&2
    exit 1
fi
made=$(mktemp -d)
trap 'rm -rf "$made"' EXIT
generated=$top/rust/src/generated
python3 "$top/tools/to_rust/to_rust.py" "$top" "$made/source"
if [ -n "$identifiers" ] || [ ! -f "$generated/identifiers.rs" ]; then
    mkdir -p "$made/asks/crates/identifiers/src"
    echo 'identifiers: unicode_ident' > "$made/asks/crates.txt"
    cp "$top/tools/to_rust/identifiers.rs" "$made/asks/crates/identifiers/src/main.rt"
    (cd "$made/asks/crates/identifiers" && rt run) > "$made/answers" 2> "$made/log" || {
        cat "$made/log" >&2
        exit 1
    }
    python3 "$top/tools/to_rust/identifiers.py" < "$made/answers" > "$made/source/identifiers.rs"
else
    cp "$generated/identifiers.rs" "$made/source/identifiers.rs"
fi
(cd "$made/source" && find . -name '*.rs') | while read -r file; do
    mkdir -p "$(dirname "$made/out/$file")"
    "$command" -- "$made/source/$file" > "$made/out/$file"
    "$command" --check -- "$made/out/$file"
done
rm -rf "$generated"
mv "$made/out" "$generated"
# By these checksums fmt.sh knows that the crate was made from the sources as they stand.
cd "$top"
grep -rhoE '^//! Made by scripts/rust.sh from crates/[^,]*' rust/src/generated | cut -d' ' -f6 | LC_ALL=C sort | xargs sha256sum > rust/sources.sha256
