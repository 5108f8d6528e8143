#!/bin/sh
# Builds the command by the toolchain without a proof, for a first look at it: a few minutes of a core, where the proofs take hours.
#
# usage: unproved.sh OUT [FOLDER]    FOLDER holds a crate, whose tests are built in place of the command
#
# OUT, which mayn't be the place of the proved command, is the program that is made. `rt try` lowers the sources, with a check wherever a
# proof would say that nothing can go wrong, and has them compiled to run them once. Here it runs in a copy of the toolchain made of
# links, whose compiler keeps what it is given and stops; that is then compiled as a program. A fault in the sources ends it.
set -eu
. "$(dirname "$0")/usage.sh"
words 1 2 "$@"
top=$(cd "$(dirname "$0")/.." && pwd)
out=$(realpath -m "$1")
case $out in
    "$top"/crates/*)
        echo "$0: a program without a proof isn't left beside the proved ones" >&2
        exit 2
        ;;
esac
rt=$(command -v rt) || {
    echo "$0: rt isn't there" >&2
    exit 1
}
kit=$(dirname "$(dirname "$(realpath "$rt")")")
made=$(mktemp -d)
trap 'rm -rf "$made"' EXIT
mkdir "$made/kit"
ln -s "$kit"/* "$made/kit/"
rm "$made/kit/bin" "$made/kit/toolchain"
# rt finds its toolchain by its own place, so it is copied, and not linked to.
cp -rs "$kit/bin" "$kit/toolchain" "$made/kit/"
cp --remove-destination "$kit/bin/rt" "$kit/bin/rtlib.py" "$made/kit/bin/"
clang=$kit/toolchain/bin/clang
rm "$made/kit/toolchain/bin/clang"
# The first module is a part of the toolchain itself, and small. The second is the program.
cat > "$made/kit/toolchain/bin/clang" <<END
#!/bin/sh
if [ "\$(stat -c %s module.bc)" -gt 5000 ]; then
    cp module.bc "$made/program.bc"
    exit 1
fi
exec "$clang" "\$@"
END
chmod +x "$made/kit/toolchain/bin/clang"
folder=${2-$top/crates/lay_fmt}
tests=${2+--test}
(cd "$folder" && "$made/kit/bin/rt" try $tests --steps 1000 --seconds 5 < /dev/null) > "$made/log" 2>&1 || true
if [ ! -f "$made/program.bc" ]; then
    cat "$made/log" >&2
    exit 1
fi
target=x86_64-unknown-linux-gnu
"$clang" --target=$target --sysroot="$kit/toolchain" -march=x86-64 -ffunction-sections -fdata-sections --no-default-config \
    -c -x ir "$made/program.bc" -o "$made/program.o" -fPIE -O1
"$kit/bin/rattle-link" --target $target --toolchain "$kit/toolchain" -o "$made/program" "$made/program.o" "$kit/c/libos_c.a" "$kit/c/liblibc_c.a" 2> "$made/log" || {
    cat "$made/log" >&2
    exit 1
}
mkdir -p "$(dirname "$out")"
mv "$made/program" "$out"
