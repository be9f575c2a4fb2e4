#!/usr/bin/env bash
# bench/interning/run.sh [RUNS]: times `stabby_intern ranks W` beside plain Rust, RUNS times in turns (5 if left out), input
# from a file, output to a file, and prints the least wall times in milliseconds and the greatest peaks of memory in MB. A
# ratio is the program's time over the other's: below 1 the program is the faster. It needs bash, rustc, and rt unless OURS
# tells where the built program is.
#   OURS=PROGRAM: the program; left out, ./stabby_intern is proved and built.
#   ARC_SWAP=FOLDER: the sources of the crate arc-swap, for the `rcu` peer (Debian's package librust-arc-swap-dev has them in
#     /usr/share/cargo/registry); left out, an RwLock of an Arc stands for it.
set -eu
runs=${1:-5}
top=$(cd "$(dirname "${BASH_SOURCE[0]}")/../.." && pwd)
work=$(mktemp -d)
trap 'rm -rf "$work"' EXIT

flags=(-C opt-level=3 -C panic=abort -C target-cpu=x86-64-v2)
for name in measure interning/inputs; do
    rustc --edition 2024 "${flags[@]}" -o "$work/${name##*/}" "$top/bench/$name.rs"
done
peers=(rustc --edition 2024 "${flags[@]}" --check-cfg 'cfg(arc_swap)' -o "$work/peers" "$top/bench/interning/peers.rs")
if [ -n "${ARC_SWAP:-}" ]; then
    rustc --edition 2018 --crate-type rlib --crate-name arc_swap --cap-lints allow "${flags[@]}" -o "$work/libarc_swap.rlib" "$ARC_SWAP/src/lib.rs"
    "${peers[@]}" --cfg arc_swap --extern "arc_swap=$work/libarc_swap.rlib"
else
    "${peers[@]}"
    echo 'arc-swap was not given: an RwLock of an Arc stands for it'
fi
ours=${OURS:-}
if [ -z "$ours" ]; then
    "$top/stabby_intern" ranks 1 </dev/null
    ours=$top/crates/stabby_intern_cli/out/stabby_intern_cli
fi
mkdir "$work/in"
"$work/inputs" "$work/in"

# The wall time of each command on an input in one line, in turns; with `peaks` the peaks of memory.
measured() {
    local column=$1 input=$2
    shift 2
    "$work/measure" "$runs" "$work/in/$input" "$work/report" "$@" | awk -v c="$column" '{ printf "%s ", $c } END { print "" }'
}
times() { measured 2 "$@"; }
peaks() { measured 3 "$@"; }

# All write the same report.
for input in distinct zipf rising thirteen one_word; do
    "$ours" ranks 4 <"$work/in/$input" >"$work/ours"
    for peer in rcu mutex sort; do
        "$work/peers" $peer 4 <"$work/in/$input" | cmp - "$work/ours"
    done
done

declare -A at
printf '%-14s %2s %9s %9s %6s %9s %6s %6s\n' 'Whole program' W ours rcu ratio mutex ratio 'of W 1'
for input in distinct rising zipf thirteen one_word; do
    for w in 1 4; do
        read -r a b c <<<"$(times $input "$ours" ranks $w -- "$work/peers" rcu $w -- "$work/peers" mutex $w)"
        at[$input,$w]=$a
        awk -v name=$input -v w=$w -v a="$a" -v b="$b" -v c="$c" -v one="${at[$input,1]}" \
            'BEGIN { printf "%-14s %2d %9.1f %9.1f %6.2f %9.1f %6.2f %6.2f\n", name, w, a, b, a/b, c, a/c, a/one }'
    done
done

printf '\n%-14s %2s %9s %9s %6s\n' 'Beside sorting' W ours sort ratio
for input in distinct rising zipf thirteen one_word; do
    read -r a <<<"$(times $input "$work/peers" sort 1)"
    for w in 1 4; do
        awk -v name=$input -v w=$w -v a="${at[$input,$w]}" -v b="$a" 'BEGIN { printf "%-14s %2d %9.1f %9.1f %6.2f\n", name, w, a, b, a/b }'
    done
done

printf '\n%-14s %9s %9s %6s\n' 'Twice as many' '60,000' '120,000' ratio
for w in 1 4; do
    read -r a <<<"$(times half_distinct "$ours" ranks $w)"
    read -r b <<<"$(times distinct "$ours" ranks $w)"
    awk -v w=$w -v a="$a" -v b="$b" 'BEGIN { printf "distinct, W %-2d %9.1f %9.1f %6.2f\n", w, a, b, b/a }'
done

printf '\n%-14s %9s %9s %9s %9s\n' 'Peak of MB' ours rcu mutex sort
for input in distinct one_word empty; do
    read -r a b c d <<<"$(peaks $input "$ours" ranks 1 -- "$work/peers" rcu 1 -- "$work/peers" mutex 1 -- "$work/peers" sort 1)"
    printf '%-14s %9s %9s %9s %9s\n' $input "$a" "$b" "$c" "$d"
done
