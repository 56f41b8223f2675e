#!/usr/bin/env bash
# Checks the C side of the library: the loader prints what the program verdict prints, and the library
# agrees with the reference on many texts.
#
#     bash tools/build.sh && bash loader/test.sh
#
# Prints a line for each check and then `N passed, M failed`; status 1 where a check failed.
set -u
cd "$(dirname "${BASH_SOURCE[0]}")/.." || exit 1

. tests/checks.sh
library=target/staticlib/libreport.a
verdict=target/bin/verdict
flags=(-std=c11 -Wall -Wextra -Werror -Iloader)

for needed in "$library" "$verdict"; do
    [ -f "$needed" ] || fail "$needed is missing"
done
[ "$failed" -eq 0 ] || finish

build loader loader/loader.c -- -O2
build loader-sanitized loader/loader.c -- -O1 -g -fsanitize=address,undefined -fno-sanitize-recover=all
build compare tests/compare.c tests/reference.c -- -O2
build timing tests/timing.c tests/reference.c -- -O2

# ---- Texts: those of the repository, and damaged ones

texts=$work/texts
mkdir "$texts"
for table in tables/*.txt; do
    cp "$table" "$texts/$(basename "$table" .txt)"
done
good=tables/fixing.txt
line() { printf '%8s%8s%8s\n' "$@"; }

: >"$texts/empty"
head -c 1048576 /dev/zero >"$texts/mebibyte-of-zeros"
printf '\n' >"$texts/line-feed-alone"
head -c -1 "$good" >"$texts/last-byte-missing"
{ head -c -1 "$good"; printf ' '; } >"$texts/blank-for-last-line-feed"
{ cat "$good"; printf '\n'; } >"$texts/line-feed-added"
sed 's/$/\r/' "$good" >"$texts/carriage-returns"
tr ' ' '\t' <"$good" >"$texts/tabs-for-blanks"
tr ' ' '0' <"$good" >"$texts/zeros-for-blanks"
tr '\n' '\0' <"$good" >"$texts/zero-bytes-for-line-feeds"
tr '4' '\377' <"$good" >"$texts/high-bytes"
tr '\n' ' ' <"$good" >"$texts/no-line-feeds"
{ line 1 1 1; line -1 5 5; } >"$texts/minus"
{ line 1 1 1; line 1 5 ''; } >"$texts/blank-field"
{ line 1 1 1; line 01 5 5; } >"$texts/leading-zero"
{ line 1 1 1; line '1 0' 50 50; } >"$texts/blank-within"
line 3 1 1 >"$texts/order-of-three"
line 1 5 4 >"$texts/budget-above-period"
line 2 1 100001 >"$texts/period-too-long"
{ line 1 1 1; line 1 5 5; line 3 5 2; } >"$texts/deadline-below-cost"
{ line 1 1 1; line 1 100001 5; } >"$texts/row-period-too-long"
line 1 1 1 >"$texts/no-rows"
line 2 1 100000 >"$texts/no-rows-by-deadline"
{ line 1 1 1; for _ in {1..16}; do line 6250 100000 100000; done; } >"$texts/sixteen-rows"
{ line 1 1 1; for _ in {1..17}; do line 1 100 100; done; } >"$texts/seventeen-rows"
{ line 2 3 4; line 1 2 2; line 1 2 2; } >"$texts/window-open"
{ line 2 1 1; line 2 5 2; line 2 5 3; } >"$texts/demand-above-bound"

# ---- The loader against verdict

# same NAME COMMAND...: what the command writes is the report expected, with status 0.
same() {
    local name=$1 status
    shift
    "$@" >"$work/found" 2>"$work/told"
    status=$?
    if [ "$status" -eq 0 ] && [ ! -s "$work/told" ] && cmp -s "$work/expected" "$work/found"; then
        pass "$name"
    else
        fail "$name (status $status)"
        head -n 20 "$work/told"
        diff "$work/expected" "$work/found" | head -n 20
    fi
}

for text in "$texts"/*; do
    name=$(basename "$text")
    if ! "$verdict" <"$text" >"$work/expected"; then
        fail "verdict on $name"
        continue
    fi
    if [ ! -s "$work/expected" ]; then
        fail "verdict on $name wrote no report"
        continue
    fi
    for loader in loader loader-sanitized; do
        same "$loader on $name" "$work/$loader" "$text"
        same "$loader on $name, standard input" "$work/$loader" <"$text"
    done
done

# ---- Endless input, and what is no text

"$verdict" <"$texts/mebibyte-of-zeros" >"$work/expected"
for loader in loader loader-sanitized; do
    same "$loader on endless input" timeout 20 "$work/$loader" /dev/zero
done

# refused NAME COMMAND...: the command writes no report and ends with status 2.
refused() {
    local name=$1 status
    shift
    "$@" >"$work/found" 2>/dev/null </dev/null
    status=$?
    if [ "$status" -eq 2 ] && [ ! -s "$work/found" ]; then
        pass "$name"
    else
        fail "$name (status $status)"
    fi
}

for loader in loader loader-sanitized; do
    refused "$loader refuses a missing file" "$work/$loader" "$work/missing"
    refused "$loader refuses a folder" "$work/$loader" "$work"
    refused "$loader refuses two files" "$work/$loader" "$good" "$good"
done

# ---- The library against the reference

if timeout 600 "$work/compare" >"$work/compared"; then
    sed 's/^/    /' "$work/compared"
    pass "$(tail -n 1 "$work/compared")"
else
    status=$?
    head -n 200 "$work/compared"
    fail "compare (status $status)"
fi

finish
