#!/bin/sh
# Tests that each script here answers `--help` with its usage line and status 0, and wrong words with that line and status 2.
#
# usage: usage_test.sh
set -eu
. "$(dirname "$0")/usage.sh"
words 0 0 "$@"
cd "$(dirname "$0")"
failed=0
for script in *.py *.sh measure/*.py measure/*.sh ../tools/to_rust/*.py ../tools/oracle/xid.py ../tools/oracle/compare; do
    case $script in
        usage.* | usage_test.sh | crates.py | programs.py | rustc_tree.py | */passed.py) continue ;;
        *.py) runs=python3 ;;
        *) runs=sh ;;
    esac
    for words in '--help:0' '--no-such-word:2' '--no-such-word a b c d:2'; do
        status=0
        said=$($runs "$script" ${words%:*} 2>&1 < /dev/null) || status=$?
        if [ $status -ne "${words#*:}" ] || ! echo "$said" | grep -q "usage: $(basename "$script")"; then
            echo "$script ${words%:*}: status $status: $said"
            failed=1
        fi
    done
done
[ $failed -eq 0 ] && echo "usage: passed"
exit $failed
