#!/bin/sh
# Formats: takes the command's words and standard input, and runs the command with them.
#
# The proved command, which `rt ci` builds, is run where it stands and is no older than the sources. Until then it is the cargo crate of rust/, where
# cargo is there and the crate was made from the sources as they stand, or else the command as the toolchain builds it without proofs. Both give
# the same bytes, are built once, and are kept by the checksum of what they were built from, in the user's folder for such
# things. One line on standard error says so, as does what is said while they are built: standard output holds the
# command's own text alone. Where there is no way to a command, the status is 9. It may be run through symbolic links.
top=$(dirname "$(realpath "$0")") || exit 9
proved=$top/crates/lay_fmt/out/lay_fmt

# Runs the command at a place, which isn't the proved one.
run() {
    echo "fmt.sh: this is $1; rt ci makes the proved command" >&2
    shift
    exec "$command" "$@"
}

# The checksum of files below the top, by their names and what they hold.
sum() {
    (cd "$top" && find $* -type f -print0 | LC_ALL=C sort -z | xargs -0 sha256sum | sha256sum | cut -c1-16)
}

if [ -x "$proved" ] && [ -z "$(find "$top/crates.txt" "$top"/crates/*/src -newer "$proved" 2>/dev/null | head -n 1)" ]; then
    exec "$proved" "$@"
fi
kept=${XDG_CACHE_HOME:-$HOME/.cache}/froesaffron

if command -v cargo >/dev/null && (cd "$top" && sha256sum --check --status rust/sources.sha256); then
    command=$kept/crate-$(sum rust/Cargo.toml rust/build.rs rust/src)/lay_fmt
    if [ ! -x "$command" ]; then
        echo "fmt.sh: cargo builds the crate, which takes a minute or two" >&2
        made=$(mktemp -d)
        (cd "$top/rust" && cargo build --quiet --release --offline --target-dir "$made") >&2 &&
            mkdir -p "$(dirname "$command")" && mv "$made/release/lay_fmt" "$command"
        rm -rf "$made"
    fi
    if [ -x "$command" ]; then
        run "the cargo crate, which isn't proved itself but made from the proved sources" "$@"
    fi
fi

if command -v rt >/dev/null; then
    command=$kept/unproved-$(sum crates.txt 'crates/*/src')/lay_fmt
    if [ ! -x "$command" ]; then
        echo "fmt.sh: the toolchain builds the command without its proofs, which takes some minutes" >&2
        "$top/scripts/unproved.sh" "$command" >&2
    fi
    if [ -x "$command" ]; then
        run "the command without its proofs" "$@"
    fi
fi
echo "fmt.sh: neither cargo nor rt builds the command here" >&2
exit 9
