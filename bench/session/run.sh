#!/bin/sh
# Builds the library, compiles the plain session and the benchmark, and prints the table.
set -eu
here=$(cd "$(dirname "$0")" && pwd)
library=$("$here/../../c/library.sh")
work=$(mktemp -d)
trap 'rm -rf "$work"' EXIT
"${CC:-cc}" -std=c99 -O3 "$here"/*.c "$library" -o "$work/bench"
"$work/bench"
