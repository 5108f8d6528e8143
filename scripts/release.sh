#!/bin/sh
# Makes an archive and a Debian package of a release: the command and the front, the libraries with
# their header, the man pages, an example for Python, the cargo crate, the licences.
#
# usage: release.sh [--crate] [--plain] VERSION FOLDER [COMMAND LIBRARY]
#
# VERSION is three numbers with points between them, and FOLDER gets
# froesaffron-VERSION-x86_64-linux.tar.gz and froesaffron_VERSION_amd64.deb. The README.md in both
# says of each program whether it is proved, or built by cargo from the translated crate. Where `rt`
# is there, COMMAND and the static LIBRARY are the ones that were proved: where none are named, `rt
# ci` built the command, and c_library.py the library over what that left, which this calls where it
# is missing. Where `rt` isn't there, and with --crate, cargo builds both; it builds the shared
# library and the front, froesaffron, always. What cargo builds is guided by a profile (profiled.sh) where an llvm-profdata
# reads one, but with --plain isn't. The same files give the same bytes. It needs dpkg-deb and
# cargo.
set -eu
. "$(dirname "$0")/usage.sh"
holds=proved plain=
command -v rt >/dev/null || holds=translated
while :; do
    case ${1-} in
        --crate) holds=translated ;;
        --plain) plain=yes ;;
        *) break ;;
    esac
    shift
done
words 2 4 "$@"
[ $# -ne 3 ] || usage 2 >&2
case $1 in
    *[!0-9.]* | .* | *. | *..* | *.*.*.*) usage 2 >&2 ;;
    *.*.*) ;;
    *) usage 2 >&2 ;;
esac
[ $# -eq 2 ] || [ $holds = proved ] || usage 2 >&2
top=$(cd "$(dirname "$0")/.." && pwd)
version=$1 folder=$2

# Has cargo build a package of this repository, rust or c. What it built is in $built, and how in
# $how.
build() {
    built=$top/$1/target/profiled/release how='translated, guided by a profile'
    if [ -z "$plain" ]; then
        status=0
        "$top/scripts/profiled.sh" "$1" "$top/$1/target/profiled" >&2 || status=$?
        [ $status -ne 0 ] || return 0
        [ $status -eq 3 ] || exit $status
    fi
    built=$top/$1/target/release how=translated
    (cd "$top/$1" && cargo build --quiet --release --offline --target-dir target) >&2
}

build c
shared=$built/liblay.so shared_how=$how shared_static=$built/liblay.a
build rust
front=$built/froesaffron front_how=$how
if [ $holds = proved ]; then
    command=$(realpath "${3:-$top/crates/lay_fmt/out/lay_fmt}") library=$(realpath -m "${4:-$top/crates/lay_c/out/liblay_c.a}")
    command_how=proved static_how=proved
    if [ $# -eq 2 ] && [ ! -f "$library" ]; then
        "$top/scripts/c_library.py" >&2
    fi
else
    library=$shared_static static_how=$shared_how
    command=$built/lay_fmt command_how=$how
fi
export SOURCE_DATE_EPOCH=0 LC_ALL=C
umask 022
made=$(mktemp -d)
trap 'rm -rf "$made"' EXIT
name=froesaffron-$version-x86_64-linux
all=$made/$name
mkdir -p "$folder" "$made/objects" "$all/bin" "$all/lib" "$all/include" "$all/share/man/man1" "$all/rust" "$all/examples"

if [ $holds = proved ]; then
    # The library calls three functions of the toolchain's C library for its memory, which go into
    # the archive too.
    kit=$(dirname "$(dirname "$(realpath "$(command -v rt)")")")
    (cd "$made/objects" && ar x "$library" && ar x "$kit/c/liblibc_c.a" heap.pic.o && chmod 644 -- * && ar rcsD "$all/lib/liblay.a" -- *)
else
    install -m 644 "$library" "$all/lib/liblay.a"
    strip --strip-debug --enable-deterministic-archives "$all/lib/liblay.a"
fi
install -m 755 "$command" "$all/bin/lay_fmt"
install -m 755 "$front" "$all/bin/froesaffron"
install -m 644 "$shared" "$all/lib/liblay.so.0"
ln -s liblay.so.0 "$all/lib/liblay.so"
install -m 644 "$top/c/lay.h" "$all/include/"
install -m 644 "$top/docs/lay_fmt.1" "$top/docs/froesaffron.1" "$all/share/man/man1/"
install -m 755 "$top/examples/lay.py" "$all/examples/"
install -m 644 "$top/CHANGELOG.md" "$top/LICENSE-APACHE" "$top/LICENSE-MIT" "$all/"
sed -e "s/@VERSION@/$version/" -e "s/@COMMAND@/$command_how/" -e "s/@FRONT@/$front_how/" -e "s/@STATIC@/$static_how/" -e "s/@SHARED@/$shared_how/" \
    "$top/scripts/release/README.md" > "$all/README.md"
chmod 644 "$all/README.md"
(cd "$top/rust" && tar -ch --exclude=./target --exclude=./Cargo.lock --exclude=.gitignore --exclude=./sources.sha256 .) | tar -x -C "$all/rust"
sed -i "s/^version = .*/version = \"$version\"/" "$all/rust/Cargo.toml"
tar -c --sort=name --mtime=@0 --owner=0 --group=0 --numeric-owner --mode=go-w,a+rX -C "$made" "$name" | gzip -n -9 > "$folder/$name.tar.gz"

deb=$made/deb
documents=$deb/usr/share/doc/froesaffron
libraries=$deb/usr/lib/x86_64-linux-gnu
shared_files=$deb/usr/share/froesaffron
mkdir -p "$deb/DEBIAN" "$deb/usr/bin" "$libraries" "$deb/usr/include" "$deb/usr/share/man/man1" "$shared_files" "$documents"
cp -p "$all/bin/lay_fmt" "$all/bin/froesaffron" "$deb/usr/bin/"
cp -pd "$all/lib/liblay.a" "$all/lib/liblay.so" "$all/lib/liblay.so.0" "$libraries/"
cp -p "$all/include/lay.h" "$deb/usr/include/"
cp -pr "$all/rust" "$all/examples" "$shared_files/"
for page in lay_fmt froesaffron; do
    gzip -n -9 < "$all/share/man/man1/$page.1" > "$deb/usr/share/man/man1/$page.1.gz"
done
cp -p "$all/README.md" "$all/CHANGELOG.md" "$documents/"
cat "$all/LICENSE-APACHE" "$all/LICENSE-MIT" > "$documents/copyright"
# The newest version of the system's C library whose calls the command and the shared library name.
needed=$(cat "$command" "$front" "$shared" | grep -aoE 'GLIBC_2\.[0-9]+' | sort -uV | tail -n 1 | cut -d_ -f2)
cat > "$deb/DEBIAN/control" <<END
Package: froesaffron
Version: $version
Architecture: amd64
Depends: libc6 (>= ${needed:-2.31}), libgcc-s1
Maintainer: Froesaffron <froesaffron@localhost>
Section: devel
Priority: optional
Description: lays out Rust source that a generator wrote
 A command ($command_how), libraries for C ($static_how) and a cargo crate, without settings.
 Nothing is written before the whole input was accepted.
END
printf 'activate-noawait ldconfig\n' > "$deb/DEBIAN/triggers"
chmod -R go-w,a+rX "$deb"
find "$deb" -exec touch -h -d @0 {} +
dpkg-deb --root-owner-group -Zgzip --build "$deb" "$folder/froesaffron_${version}_amd64.deb" > "$made/log"
(cd "$folder" && sha256sum "$name.tar.gz" "froesaffron_${version}_amd64.deb")
