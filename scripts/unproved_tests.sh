#!/bin/sh
# Runs the tests under tests/unproved, which aren't proved, over the crates as they stand here.
#
# usage: unproved_tests.sh [--all] FOLDER
#
# FOLDER isn't there yet. It becomes a copy of crates/ with these crates added.
#
# lay_more_parts, lay_more_files and lay_more_runs are run, two at a time, and with --all
# lay_more_trees and lay_more_pairs too, which take a quarter of an hour. The toolchain compiles
# them with a check wherever a proof would say that nothing can go wrong (`rt try --test`). What
# each said is left in FOLDER/NAME.log. The exit status is 0 where every test passed. The files are
# named `.rs` here, since the gate proves whatever is named `.rt`; tests/unproved/list.txt says on
# which crates each stands.
set -eu
. "$(dirname "$0")/usage.sh"
all=
if [ "${1-}" = --all ]; then
    all=1
    shift
fi
words 1 1 "$@"
top=$(cd "$(dirname "$0")/.." && pwd)
mkdir "$1"
cd "$1"
(cd "$top" && tar -c --exclude=out --exclude=must-fail crates) | tar -x
cat "$top/crates.txt" "$top/tests/unproved/list.txt" > crates.txt
cp -r "$top"/tests/unproved/lay_* crates/
find crates/lay_more_* crates/lay_test_rows -name '*.rs' | while read -r file; do mv "$file" "${file%.rs}.rt"; done

# Runs the tests of a crate, and tells how many there are and how it ended.
try() {
    status=0
    (cd "crates/$1" && rt try --test --seconds 3600) > "$1.log" 2>&1 || status=$?
    tests=$(grep -rh '^#\[test\]' "crates/$1/src" | wc -l)
    echo "$1: $tests tests, status $status"
    [ $status -eq 0 ] || tail -n 20 "$1.log"
    return $status
}

# Runs those of some crates, one after another.
lane() {
    passed=0
    for crate in "$@"; do
        try "$crate" || passed=1
    done
    return $passed
}

failed=0
lane lay_more_runs ${all:+lay_more_trees} &
other=$!
lane lay_more_parts lay_more_files ${all:+lay_more_pairs} || failed=1
wait $other || failed=1
exit $failed
