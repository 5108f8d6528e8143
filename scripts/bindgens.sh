#!/bin/sh
# Fetches the bindgens of newer suites of Debian, which pass more words to the formatter than that
# of bookworm, for scripts/callers.sh: each becomes a program `bindgen-VERSION`, which runs with the
# C library of its suite and this machine's libclang. Nothing else is changed.
#
# usage: bindgens.sh [FOLDER]
#
# FOLDER is ~/.cache/froesaffron/bindgens where none is named, into which scripts/callers.sh looks.
# It needs apt-get, dpkg-deb, a network, and libclang (Debian's package libclang-dev).
set -eu
. "$(dirname "$0")/usage.sh"
words 0 1 "$@"
folder=${1:-${XDG_CACHE_HOME:-$HOME/.cache}/froesaffron/bindgens}
mkdir -p "$folder"
folder=$(cd "$folder" && pwd)
made=$(mktemp -d)
trap 'rm -rf "$made"' EXIT
cd "$made"

# A list of packages and a cache of their own.
mkdir -p state/lists/partial cache/archives/partial
keys=/usr/share/keyrings/debian-archive-keyring.gpg
for suite in trixie sid; do
    echo "deb [signed-by=$keys] http://deb.debian.org/debian $suite main"
done > sources.list
apt() {
    apt-get --quiet --quiet -o "Dir::Etc::SourceList=$made/sources.list" \
        -o Dir::Etc::SourceParts=/dev/null -o "Dir::State=$made/state" -o "Dir::Cache=$made/cache" \
        -o Dir::State::Status=/var/lib/dpkg/status -o APT::Sandbox::User=root "$@"
}
apt update
gcc=$(dirname "$(find /lib /usr/lib -name libgcc_s.so.1 | head -n 1)")
for suite in trixie sid; do
    # The bindgen of each suite, and the C library of that suite.
    mkdir "$suite"
    (cd "$suite" && apt download "bindgen/$suite" "libc6/$suite")
    for package in "$suite"/*.deb; do
        dpkg-deb -x "$package" "$suite"
    done
    libraries=$(dirname "$(find "$suite" -path '*/lib/*' -name libc.so.6 | head -n 1)")
    loader=$(find "$suite" -name 'ld-linux*' -type f | head -n 1)
    bindgen=$suite/usr/bin/bindgen
    version=$("$loader" --library-path "$libraries:$gcc" "$bindgen" --version | cut -d ' ' -f 2)
    kept=$folder/$version
    rm -rf "$kept"
    mkdir "$kept"
    cp -r "$libraries" "$kept/lib"
    cp "$loader" "$kept/loader"
    cp "$bindgen" "$kept/bindgen"
    cat > "$folder/bindgen-$version" <<END
#!/bin/sh
exec "$kept/loader" --library-path "$kept/lib:$gcc" "$kept/bindgen" "\$@"
END
    chmod 755 "$folder/bindgen-$version"
    "$folder/bindgen-$version" --version
done
