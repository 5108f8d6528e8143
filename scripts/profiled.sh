#!/bin/sh
# Builds the cargo crate's command, or the libraries for C, guided by a profile of runs over this
# repository's own files.
#
# usage: profiled.sh rust|c FOLDER
#
# The package of that name is built to FOLDER/release, as cargo does it with FOLDER as its target
# folder: once so that it counts, which then formats some 500 files and a generated one, and once
# more by these counts. It needs cargo, Python, and an llvm-profdata that reads the profiles of this
# rustc: rustc's own of the component llvm-tools, or one in PATH, as `llvm-profdata` or with a
# version behind it. Where there is none the status is 3.
set -eu
. "$(dirname "$0")/usage.sh"
words 2 2 "$@"
case $1 in
    rust | c) ;;
    *) usage 2 >&2 ;;
esac
top=$(cd "$(dirname "$0")/.." && pwd)
package=$top/$1
mkdir -p "$2"
folder=$(cd "$2" && pwd)
made=$(mktemp -d)
trap 'rm -rf "$made"' EXIT

# The programs that may read the profiles, a line each.
readers() {
    find "$(rustc --print sysroot)/lib/rustlib" -name llvm-profdata -type f 2>/dev/null || true
    echo "$PATH" | tr : '\n' | while read -r place; do
        find "$place" -maxdepth 1 -name 'llvm-profdata*' 2>/dev/null | LC_ALL=C sort -Vr
    done
}

# Whether one of them reads what a small program counts; its path is printed.
reader() {
    echo 'fn main() {}' > "$made/empty.rs"
    rustc -Cprofile-generate="$made/empty" -o "$made/counts" "$made/empty.rs" && "$made/counts" || return 1
    readers | while read -r program; do
        if "$program" merge -o "$made/empty.profdata" "$made/empty" 2>/dev/null; then
            echo "$program"
            break
        fi
    done
}

# Runs what counts, over files that a generator and people wrote.
train() {
    python3 "$top/scripts/measure/scale.py" --make mixed 500000 > "$made/mixed.rs"
    find "$made/mixed.rs" "$top/rust" "$top/examples" -name target -prune -o -name '*.rs' -print | LC_ALL=C sort | while read -r file; do
        if [ "$package" = "$top/rust" ]; then
            "$folder/counting/release/lay_fmt" -- "$file"
        else
            python3 "$top/examples/lay.py" "$folder/counting/release/liblay.so" "$file"
        fi > /dev/null
    done
}

build() {
    (cd "$package" && RUSTFLAGS="$1" cargo build --quiet --release --offline --target-dir "$2")
}

program=$(reader)
if [ -z "$program" ]; then
    echo "profiled.sh: no llvm-profdata here reads the profiles of this rustc" >&2
    exit 3
fi
export LLVM_PROFILE_FILE="$made/counts-%m.profraw"
build "-Cprofile-generate=$made" "$folder/counting"
train
unset LLVM_PROFILE_FILE
"$program" merge -o "$folder/counts.profdata" "$made"/*.profraw
rm -rf "$folder/counting"
build "-Cprofile-use=$folder/counts.profdata" "$folder"
