#!/bin/sh
# Prints how many proofs may run at once here: one a processor, and no more than there is memory
# free for, 4 GB each.
#
# usage: lanes.sh
#
# Left to itself the toolchain estimates what a proof takes at up to three times of what is seen,
# which is at most 3.5 GB, and has one proof wait for another where that much isn't free. It reads
# the number from RT_JOBS.
set -eu
. "$(dirname "$0")/usage.sh"
words 0 0 "$@"
free=$(awk '/^MemAvailable:/ { print int($2 / 4000000) }' /proc/meminfo)
# A group of processes may have a limit of its own.
for limit in /sys/fs/cgroup/memory.max /sys/fs/cgroup/memory/memory.limit_in_bytes; do
    if [ -r "$limit" ] && grep -q '^[0-9]*$' "$limit"; then
        group=$(($(cat "$limit") / 4000000000))
        [ "$group" -ge "$free" ] || free=$group
    fi
done
lanes=$(nproc)
[ "$free" -ge "$lanes" ] || lanes=$free
[ "$lanes" -ge 1 ] || lanes=1
echo "$lanes"
