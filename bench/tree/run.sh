#!/bin/sh
# Copies crates/ and crates.txt into a temporary folder, adds main.rt.txt there as the crate `timing`, proves and builds that, and prints its table.
# Another word of rt in the place of `run` is taken from the first argument: ./run.sh try proves nothing, and its times say nothing.
set -eu
here=$(cd "$(dirname "$0")" && pwd)
work=$(mktemp -d)
trap 'rm -rf "$work"' EXIT
cp -R "$here/../../crates" "$here/../../crates.txt" "$work"
mkdir -p "$work/crates/timing/src"
cp "$here/main.rt.txt" "$work/crates/timing/src/main.rt"
echo 'timing: refusal semiring station matrix states kind tree' >>"$work/crates.txt"
cd "$work/crates/timing"
if ! rt "${1:-run}" >"$work/table" 2>"$work/log"; then
    cat "$work/log" >&2
    exit 1
fi
cat "$work/table"
