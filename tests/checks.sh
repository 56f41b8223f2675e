# What the scripts of the C side share: counting checks, and building with a library. Sourced; `work` is removed at the
# end.
CC=${CC:-gcc}
work=$(mktemp -d) || exit 1
trap 'rm -rf "$work"' EXIT
passed=0
failed=0

pass() { passed=$((passed + 1)); echo "ok: $*"; }
fail() { failed=$((failed + 1)); echo "FAILED: $*"; }

finish() {
    echo "$passed passed, $failed failed"
    [ "$failed" -eq 0 ]
    exit
}

# build NAME SOURCE... -- FLAG...: compiles and links with `library`, under `flags`.
build() {
    local name=$1 sources=()
    shift
    while [ "$1" != -- ]; do sources+=("$1"); shift; done
    shift
    if "$CC" "${flags[@]}" "$@" -o "$work/$name" "${sources[@]}" "$library"; then
        pass "$name builds with $*"
    else
        fail "$name does not build with $*"
    fi
}
