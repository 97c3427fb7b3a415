#!/bin/sh
# Shows that programs which misuse a line do not compile. Copies crates/ and crates.txt into a temporary folder, adds main.rt.txt there as the crate
# `misuse`, and runs that, which must pass. Then it makes each edit of edits.txt in a copy, which the compiler must refuse with the edit's error and
# no other. Prints a line for each, and ends with status 1 where one was not refused so. Nothing is proved: `rt try` compiles, and runs what compiles.
set -eu
here=$(cd "$(dirname "$0")" && pwd)
work=$(mktemp -d)
trap 'rm -rf "$work"' EXIT
# what checks kept in out/ is large, and of no use here
(cd "$here/../.." && tar cf - --exclude=out crates crates.txt) | tar xf - -C "$work"
mkdir -p "$work/crates/misuse/src"
echo 'misuse: refusal semiring station matrix states kind tree line' >>"$work/crates.txt"
main=$work/crates/misuse/src/main.rt
log=$work/log

try() {
    status=0
    # with no input, which it would take from the table
    (cd "$work/crates/misuse" && rt try) </dev/null >"$log" 2>&1 || status=$?
}

cp "$here/main.rt.txt" "$main"
try
if [ "$status" -ne 0 ]; then
    cat "$log" >&2
    exit 1
fi
echo 'passes: the program as it is'

# Makes one edit, and says what the compiler makes of it.
judge() {
    export old new
    if ! awk '
        { at = index($0, ENVIRON["old"]) }
        at { fits++; $0 = substr($0, 1, at - 1) ENVIRON["new"] substr($0, at + length(ENVIRON["old"])) }
        { print }
        END { exit fits != 1 }' "$here/main.rt.txt" >"$main"; then
        echo "DOES NOT FIT: $label"
        failed=1
        return
    fi
    try
    names=$(sed -n 's/.*: error\[\([^]]*\)\].*/\1/p' "$log" | sort -u | tr '\n' ' ')
    if [ "$status" -eq 1 ] && [ "$names" = "$error " ]; then
        echo "refused, $error: $label"
    else
        echo "NOT REFUSED SO, status $status, errors: ${names:-none }wanted $error: $label"
        failed=1
    fi
}

failed=0
while IFS= read -r line; do
    case $line in
    'label: '*) label=${line#label: } ;;
    'error: '*) error=${line#error: } ;;
    'old: '*) old=${line#old: } ;;
    'new: '*)
        new=${line#new: }
        judge
        ;;
    esac
done <"$here/edits.txt"
exit "$failed"
