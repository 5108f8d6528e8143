#!/bin/sh
# What the hand-written Rust is held to: clippy finds nothing, in each set of features; the
# documentation is built without a warning; and cargo packs the crate with no warning but the one
# for addresses, which it hasn't yet.
#
# usage: lints.sh
#
# It needs cargo and clippy. What is generated is left out, as rust/src/lib.rs says why.
set -eu
. "$(dirname "$0")/usage.sh"
words 0 0 "$@"
top=$(cd "$(dirname "$0")/.." && pwd)
made=$(mktemp -d)
trap 'rm -rf "$made"' EXIT
cd "$top/rust"
cargo clippy --quiet --offline --all-targets -- -D warnings
cargo clippy --quiet --offline --all-targets --no-default-features -- -D warnings
(cd "$top/c" && cargo clippy --quiet --offline --all-targets -- -D warnings)
for example in build_script generator; do
    (cd "$top/examples/$example" && cargo clippy --quiet --offline --all-targets -- -D warnings)
done
RUSTDOCFLAGS='-D warnings' cargo doc --quiet --offline --no-deps
cargo package --offline --allow-dirty --no-verify --target-dir "$made" 2> "$made/log" || {
    cat "$made/log" >&2
    exit 1
}
known='^warning: manifest has no documentation, homepage or repository'
if grep '^warning' "$made/log" | grep -v "$known"; then
    echo "lints: cargo package warns" >&2
    exit 1
fi
# The crate has copies of the licences, since the toolchain of the proofs takes no links.
for name in LICENSE-APACHE LICENSE-MIT; do
    cmp "$top/$name" "$name"
done
for name in LICENSE-APACHE LICENSE-MIT README.md; do
    tar -xzOf "$made"/package/*.crate --wildcards "*/$name" | cmp - "$name"
done
echo "lints: passed"
