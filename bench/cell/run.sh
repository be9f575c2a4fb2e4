#!/usr/bin/env bash
# Prints nanoseconds a commit, uncontended, of a TurnCell that keeps 1 and 1,024 versions beside Rust's Mutex, and nanoseconds
# a round of AtomicArc::load and store beside a Mutex<Arc<u64>> on 1 and 4 threads: processor time and wall time, and the
# first line's over each. Run it anywhere: bench/cell/run.sh [COUNT]. It needs rt, rustc and bash; it builds the
# proved program first.
#   ARC_SWAP=FOLDER: the sources of the crate arc-swap, whose load_full and store are timed too (Debian's package
#     librust-arc-swap-dev has them in /usr/share/cargo/registry).
#   BEFORE=PROGRAM: an older build of the program, timed too by the order BEFORE_ORDER (commit 1 N if left out). For the cell
#     before it kept versions: `git archive d547bf7 | tar -x -C FOLDER`, `rt run` in FOLDER/crates/cell_commits, which leaves
#     out/cell_commits; BEFORE_ORDER=N.
#   RUNS: how often each is run, in turns with the others; the best counts (9 if left out).
set -eu
. "$(dirname "$0")/../build.sh"
count="${1:-10000000}"
runs=${RUNS:-9}
build_both cell_bench cell/commits.rs
if [ -n "${ARC_SWAP:-}" ]; then
    flags=(-C opt-level=3 -C target-cpu=x86-64-v2)
    rustc --edition 2018 --crate-type rlib --crate-name arc_swap --cap-lints allow "${flags[@]}" -o "$build/libarc_swap.rlib" "$ARC_SWAP/src/lib.rs"
    rustc --edition 2021 "${flags[@]}" --extern "arc_swap=$build/libarc_swap.rlib" -o "$build/swaps" "$top/bench/cell/swaps.rs"
fi

# microseconds of processor and of wall time of one run of the program after the order
TIMEFORMAT='%U %S %R'
spent() {
    local order=$1; shift
    { time "$@" <<<"$order" >/dev/null; } 2>&1 | awk '{ printf "%d %d\n", ($1 + $2) * 1e6, $3 * 1e6 }'
}

# Lines of NAME|ORDER|PROGRAM, where N in the order stands for the count: each run in turns, the best of RUNS, less the best
# run of no rounds.
compare() {
    local rounds=$1 threads=$2 run line name order program part time; shift 2
    local -A best
    for ((run = 1; run <= runs; run++)); do
        for line in "$@"; do
            IFS='|' read -r name order program <<<"$line"
            for part in 0 "$rounds"; do
                read -r processor wall <<<"$(spent "${order/N/$part}" "$program")"
                for time in processor wall; do
                    [ $run != 1 ] && [ "${!time}" -ge "${best[$name $part $time]}" ] || best[$name $part $time]=${!time}
                done
            done
        done
    done
    local -A first=()
    for line in "$@"; do
        IFS='|' read -r name order program <<<"$line"
        for time in processor wall; do
            part=$((best[$name $rounds $time] - best[$name 0 $time]))
            [ -n "${first[$time]:-}" ] || first[$time]=$part
            declare "of_$time=$part"
        done
        awk -v name="$name" -v p="$of_processor" -v w="$of_wall" -v fp="${first[processor]}" -v fw="${first[wall]}" -v n="$rounds" -v k="$threads" \
            'BEGIN { printf "%-34s %9.2f %6.2f %9.2f %6.2f\n", name, 1000 * p / n / k, fp / p, 1000 * w / n, fw / w }'
    done
}
heading() { printf '%-34s %9s %6s %9s %6s\n' "$1" processor ratio wall ratio; }

heading 'a commit'
lines=("TurnCell, keep 1|commit 1 N|$ours" "TurnCell, keep 1024|commit 1024 N|$ours")
[ -z "${BEFORE:-}" ] || lines+=("the build before|${BEFORE_ORDER:-commit 1 N}|$BEFORE")
compare "$count" 1 "${lines[@]}" "Mutex<Arc<u64>>, a new Arc|commit arc N|$theirs" "Mutex<u64>|commit number N|$theirs"
for work in load store; do
    for threads in 1 4; do
        heading "$work, $threads threads"
        lines=("AtomicArc|$work $threads N|$ours" "Mutex<Arc<u64>>|$work $threads N|$theirs")
        [ -z "${ARC_SWAP:-}" ] || lines+=("ArcSwap|$work $threads N|$build/swaps")
        compare $((count / threads / 2)) "$threads" "${lines[@]}"
    done
done
