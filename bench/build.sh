# Sourced by the scripts of the folders here: `build_both CRATE SOURCE` builds the proved program of a crate (`ours`) and
# the Rust program that it is timed against (`theirs`, from a source of bench/), which is removed at the end. It needs rustc,
# and rt unless OURS tells where the built program is.
top="$(cd "$(dirname "${BASH_SOURCE[0]}")/.." && pwd)"

build_both() {
    local crate=$top/crates/$1
    build=$(mktemp -d)
    trap 'rm -r "$build"' EXIT
    [ -n "${OURS:-}" ] || (cd "$crate" && rt run </dev/null >/dev/null 2>"$build/log") || { cat "$build/log"; exit 1; }
    rustc -C opt-level=3 -C target-cpu=x86-64-v2 -o "$build/theirs" "$top/bench/$2"
    ours=${OURS:-$crate/out/$1}
    theirs=$build/theirs
}
