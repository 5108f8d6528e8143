#!/bin/sh
# Tests that fmt.sh finds its repository from wherever it is run: by its path, in its folder, and
# through symbolic links.
#
# usage: fmt_test.sh
#
# It is run in a folder that has a program in the place of the proved command, which tells the words
# that it gets.
set -eu
. "$(dirname "$0")/usage.sh"
words 0 0 "$@"
top=$(cd "$(dirname "$0")/.." && pwd)
made=$(mktemp -d)
trap 'rm -rf "$made"' EXIT
repository="$made/a repository"
mkdir -p "$repository/crates/lay_fmt/out" "$repository/crates/lay_fmt/src" "$made/bin/inner"
cp "$top/fmt.sh" "$repository/"
: > "$repository/crates.txt"
printf '#!/bin/sh\necho "ran: $*"\n' > "$repository/crates/lay_fmt/out/lay_fmt"
chmod +x "$repository/crates/lay_fmt/out/lay_fmt"
ln -s "$repository/fmt.sh" "$made/bin/absolute"
ln -s "../a repository/fmt.sh" "$made/bin/relative"
ln -s ../relative "$made/bin/inner/link_to_link"
ln -s bin "$made/link_to_folder"

# Runs words in a folder, which have to run the program there.
expect() {
    folder=$1
    shift
    said=$(cd "$folder" && "$@" --check 'a b.rs' 2>&1) || said="status $?: $said"
    if [ "$said" != "ran: --check a b.rs" ]; then
        echo "fmt.sh: $* in $folder: $said" >&2
        exit 1
    fi
}
expect / "$repository/fmt.sh"
expect "$repository" ./fmt.sh
expect "$repository/crates" ../fmt.sh
expect "$repository" sh fmt.sh
expect / "$made/bin/absolute"
expect / "$made/bin/relative"
expect "$made/bin" ./relative
expect "$made/bin/inner" ./link_to_link
expect "$made" link_to_folder/inner/link_to_link
PATH=$made/bin:$PATH
expect / absolute
echo "fmt: passed"
