#!/usr/bin/env bash
# Checks runs of the library against a plain simulator in C, on many lists of calls.
#
#     bash tools/build.sh && bash tests/runs.sh
#
# Prints a line for each check and then `N passed, M failed`; status 1 where a check failed.
set -u
cd "$(dirname "${BASH_SOURCE[0]}")/.." || exit 1

. tests/checks.sh
library=target/staticlib/libprobe.a
flags=(-std=c11 -Wall -Wextra -Werror)

if [ ! -f "$library" ]; then
    fail "$library is missing"
    finish
fi

# agrees NAME WORD...: the program ends with status 0; its last line says how many lists agree.
agrees() {
    local name=$1 status
    shift
    timeout 600 "$work/$name" "$@" >"$work/told" 2>&1
    status=$?
    if [ "$status" -eq 0 ]; then
        sed 's/^/    /' "$work/told"
        pass "$name: $(tail -n 1 "$work/told")"
    else
        head -n 200 "$work/told"
        fail "$name (status $status)"
    fi
}

sources=(tests/runs.c tests/run_reference.c tests/reference.c)
build runs "${sources[@]}" -- -O2
build runs-sanitized "${sources[@]}" -- -O1 -g -fsanitize=address,undefined -fno-sanitize-recover=all
build ticking tests/ticking.c -- -O2

agrees runs
agrees runs-sanitized --short

finish
