#!/bin/sh
# Tests what release.sh makes, as somebody would who has nothing else: each of the two is unpacked
# into an empty folder.
#
# usage: release_test.sh [--crate] [COMMAND LIBRARY]
#
# The words are as release.sh takes them, which builds by --plain here. Both files are made twice
# and compared. Of what they hold, the command runs, c/test.c is built over the libraries, the
# example for Python runs, each path that the README names is there, the crate's documentation is
# tested, and a package with a build script is built over the crate, which warns of a text that is
# refused and goes on. It needs dpkg-deb, a C compiler as `cc`, Python, and cargo.
set -eu
. "$(dirname "$0")/usage.sh"
crate=
if [ "${1-}" = --crate ]; then
    crate=--crate
    shift
fi
words 0 2 "$@"
[ $# -ne 1 ] || usage 2 >&2
top=$(cd "$(dirname "$0")/.." && pwd)
made=$(mktemp -d)
trap 'rm -rf "$made"' EXIT
fail() {
    echo "release: $1" >&2
    exit 1
}
"$top/scripts/release.sh" $crate --plain 0.1.0 "$made/first" "$@" > "$made/sums"
"$top/scripts/release.sh" $crate --plain 0.1.0 "$made/second" "$@" | cmp - "$made/sums" || fail "a second run makes other bytes"
(cd "$made/first" && sha256sum --check --quiet "$made/sums") || fail "the sums aren't those of the files"
mkdir "$made/tar" "$made/deb"
tar -xzf "$made/first/froesaffron-0.1.0-x86_64-linux.tar.gz" -C "$made/tar" --strip-components=1
dpkg-deb -x "$made/first/froesaffron_0.1.0_amd64.deb" "$made/deb"
tar=$made/tar deb=$made/deb/usr

printf 'struct A;struct B{a:u8}' > "$made/source.rs"
printf 'struct A;\nstruct B {\n    a: u8,\n}\n' > "$made/text.rs"
for command in "$tar/bin/lay_fmt" "$deb/bin/lay_fmt"; do
    "$command" "$made/source.rs" | cmp - "$made/text.rs" || fail "the command gives another text"
done
for front in "$tar/bin/froesaffron" "$deb/bin/froesaffron"; do
    "$front" < "$made/source.rs" | cmp - "$made/text.rs" || fail "the front gives another text"
done
for library in liblay.a liblay.so liblay.so.0; do
    cmp "$tar/lib/$library" "$deb/lib/x86_64-linux-gnu/$library"
done
cmp "$tar/include/lay.h" "$deb/include/lay.h"
cmp "$tar/README.md" "$deb/share/doc/froesaffron/README.md"
for page in lay_fmt froesaffron; do
    zcat "$deb/share/man/man1/$page.1.gz" | cmp - "$tar/share/man/man1/$page.1"
done
diff -r "$tar/rust" "$deb/share/froesaffron/rust"
diff -r "$tar/examples" "$deb/share/froesaffron/examples"
cat "$tar/LICENSE-APACHE" "$tar/LICENSE-MIT" | cmp - "$deb/share/doc/froesaffron/copyright"

# The README says which of the two each program is, and names no path that isn't there, nor any
# folder of this repository.
! grep -q '@' "$tar/README.md" || fail "the README has a hole"
grep -q '^| `bin/lay_fmt` .* \(proved\|translated\) |$' "$tar/README.md" || fail "the README doesn't say what the command is"
grep -oE '[A-Za-z0-9_./-]*[A-Za-z0-9_]/[A-Za-z0-9_./-]*|LICENSE-[A-Z]+|[A-Z]+\.md' "$tar/README.md" | sort -u | while read -r path; do
    case $path in
        /usr/*) [ -e "$made/deb$path" ] ;;
        *) [ -e "$tar/$path" ] ;;
    esac || fail "the README names $path, which isn't there"
done
[ -z "$(find "$tar" "$deb" -xtype l)" ] || fail "a link leads nowhere"

for standard in gnu99 gnu11; do
    for library in "$tar/lib/liblay.a -lpthread -ldl -lm" "$tar/lib/liblay.so -Wl,-rpath,$tar/lib"; do
        # shellcheck disable=SC2086
        cc -std=$standard -Wall -Wextra -Werror -O1 -I "$tar/include" -o "$made/test" "$top/c/test.c" $library 2> "$made/log" || {
            cat "$made/log" >&2
            fail "c/test.c isn't built"
        }
        "$made/test" "$made/source.rs" "$made/text.rs" || fail "c/test.c fails"
    done
done
python3 "$tar/examples/lay.py" "$tar/lib/liblay.so" "$made/source.rs" | cmp - "$made/text.rs" || fail "examples/lay.py gives another text"

export CARGO_TARGET_DIR="$made/target"
(cd "$tar/rust" && cargo test --quiet --offline --doc) > "$made/log" 2>&1 || {
    cat "$made/log" >&2
    fail "the crate's documentation isn't as the crate is"
}
cp -r "$top/examples/build_script" "$made/package"
sed -i "s|path = \".*\"|path = \"$tar/rust\"|" "$made/package/Cargo.toml"
(cd "$made/package" && cargo run --offline) > "$made/out" 2> "$made/log" || {
    cat "$made/log" >&2
    fail "the example of a build script isn't built"
}
grep -q 'warning: .*refused.rs:1:1: no item' "$made/log" || fail "the build script doesn't warn"
printf 'pub const NAMES: [&str; 2] = ["a", "b"];\npub fn ones()->[u8;1]{[#[cfg(all())]1]}\n' | cmp - "$made/out"
echo "release: passed"
