#!/usr/bin/env bash
# Builds what stands outside Rattle's own runs, as it is proved: the programs into target/bin/, the libraries for C into
# target/staticlib/.
#
#     bash tools/build.sh [PROGRAM...]     the programs alone; without a name, the programs and the libraries
set -eu
cd "$(dirname "${BASH_SOURCE[0]}")/.."

# program NAME: `rt run` proves and builds it; its run, on no input, is thrown away.
program() {
    (cd "crates/$1" && rt run </dev/null >/dev/null)
    mkdir -p target/bin
    cp "crates/$1/out/$1" target/bin/
}

# library CRATE ARCHIVE: a crate that exports for C, and the archive that C links.
library() {
    (cd "crates/$1" && rt lib)
    mkdir -p target/staticlib
    cp "crates/$1/out/lib$1.a" "target/staticlib/$2"
}

if [ "$#" -gt 0 ]; then
    for name in "$@"; do program "$name"; done
    exit
fi
program verdict
program fixing
library report_c libreport.a
library probe libprobe.a
