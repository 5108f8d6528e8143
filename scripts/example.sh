#!/bin/sh
# Proves and builds the example under examples/, a small generator, and runs it with the words that follow.
#
# usage: example.sh FOLDER WORD..    FOLDER isn't there yet; it becomes a clone of this repository with the example added
#
# It is the gate that proves and builds it, so what a gate has kept on this machine is taken over; with nothing kept it takes as long
# as the gate. The file is named `.rs` here, since the gate proves whatever is named `.rt`.
set -eu
. "$(dirname "$0")/usage.sh"
words 2 1000 "$@"
folder=$1
shift
git clone -q "$(cd "$(dirname "$0")/.." && pwd)" "$folder"
cd "$folder"
mv examples/lay_example crates/
mv crates/lay_example/src/main.rs crates/lay_example/src/main.rt
echo "lay_example: lay_text lay_io lay_tree lay_laws lay_front" >>crates.txt
# The gate runs it without words, and so it ends with 2.
echo 2 >crates/lay_example/status
rt ci >&2
exec crates/lay_example/out/lay_example "$@"
