#!/usr/bin/env bash
# Checks what the program fixing says in words: on every text under tables/ and on some that are refused, it writes
# what stands in tests/words/. Run after `bash tools/build.sh`; with --write it writes tests/words/ anew, to be read and
# kept.
#
# Prints a line for each check and then `N passed, M failed`; status 1 where a check failed.
set -u
cd "$(dirname "${BASH_SOURCE[0]}")/.." || exit 1

work=$(mktemp -d) || exit 1
trap 'rm -rf "$work"' EXIT
passed=0
failed=0

line() { printf '%8s%8s%8s\n' "$@"; }

cp tables/*.txt "$work"
: >"$work/fault-11.txt"
line 1 1 1 | tr '\n' ' ' >"$work/fault-12.txt"
{ line 1 1 1; line 1 05 5; } >"$work/fault-13.txt"
line 3 1 1 >"$work/fault-14.txt"
line 1 5 4 >"$work/fault-21.txt"
{ line 1 1 1; line 1 5 5; line 3 5 2; } >"$work/fault-32.txt"
{ line 2 1 1; line 2 5 2; line 2 5 3; } >"$work/fault-42.txt"
{ line 2 3 4; line 1 2 2; line 1 2 2; } >"$work/fault-43.txt"
{ line 1 1 1; for _ in {1..16}; do line 6250 100000 100000; done; } >"$work/sixteen-rows.txt"
line 2 1 1 >"$work/no-rows.txt"

for text in "$work"/*.txt; do
    name=$(basename "$text")
    if [ "${1-}" = --write ]; then
        target/bin/fixing <"$text" >"tests/words/$name"
        continue
    fi
    if target/bin/fixing <"$text" | cmp -s - "tests/words/$name"; then
        passed=$((passed + 1))
        echo "ok: fixing on $name"
    else
        failed=$((failed + 1))
        echo "FAILED: fixing on $name"
    fi
done

echo "$passed passed, $failed failed"
[ "$failed" -eq 0 ]
