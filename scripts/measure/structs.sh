#!/bin/sh
# Writes many struct items, 18 bytes and a line end each, to standard output.
#
# usage: structs.sh [COUNT]    400,000 where no number is given, 7.6 MB
. "$(dirname "$0")/../usage.sh"
words 0 1 "$@"
case ${1-1} in '' | *[!0-9]*) words 1 0 ;; esac
awk -v count="${1:-400000}" 'BEGIN { for (i = 0; i < count; i++) printf "struct S%09d;\n", i }'
