#!/bin/sh
# Builds the library and a C program over it, runs the stored session through both, and compares the answers byte for byte.
set -eu
here=$(cd "$(dirname "$0")" && pwd)
monitor="$here/../crates/monitor"
library=$("$here/library.sh")
work=$(mktemp -d)
trap 'rm -rf "$work"' EXIT
"${CC:-cc}" -std=c99 -Wall -Wextra -Wpedantic -Werror -O2 "$here/run_session.c" "$library" -o "$work/run_session"
"$work/run_session" "$monitor/stdin" >"$work/answers"
cmp "$work/answers" "$monitor/stdout"
echo "c/check.sh: the C entry gave the expected answers to crates/monitor/stdin"
