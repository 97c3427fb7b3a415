#!/bin/sh
# Proves and builds the static library of the C entry, and prints where it is.
set -eu
cd "$(dirname "$0")/../crates/panel"
log=$(mktemp)
trap 'rm -f "$log"' EXIT
if ! rt lib >"$log" 2>&1; then
    cat "$log" >&2
    exit 1
fi
echo "$PWD/out/libpanel.a"
