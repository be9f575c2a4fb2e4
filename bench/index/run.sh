#!/usr/bin/env bash
# Prints microseconds of a read of one group and of a filter of all rows, of a commit of 1 and of 100 changes, and of a read
# on 3 threads with a writer and without, by `index_bench` and by plain Rust, and their ratios. Run it anywhere:
# bench/index/run.sh. It needs rt, rustc, python3 and bash; it builds the proved program first.
#   ROWS, WIDTH: how many rows and groups (100000 and 1000 if left out).
#   RUNS: how often each is run, in turns with the others; the best counts (5 if left out).
set -eu
. "$(dirname "$0")/../build.sh"
rows=${ROWS:-100000} groups=${WIDTH:-1000} runs=${RUNS:-5}
build_both index_bench index/plain.rs

# microseconds of wall time and of processor time of one run of the program after the order
spent() {
    python3 -c '
import resource, subprocess, sys, time
begun = time.monotonic()
subprocess.run([sys.argv[1]], input=sys.argv[2] + "\n", text=True, stdout=subprocess.DEVNULL, check=True)
wall = time.monotonic() - begun
used = resource.getrusage(resource.RUSAGE_CHILDREN)
print(int(1e6 * wall), int(1e6 * (used.ru_utime + used.ru_stime)))' "$1" "$2"
}

# NAME, the order with N for the count, the count, and which time counts: a round of each program, less the run of no rounds
compare() {
    local name=$1 order=$2 count=$3 time=$4 run program part wall processor
    local -A best=()
    for ((run = 1; run <= runs; run++)); do
        for program in "$ours" "$theirs"; do
            for part in 0 "$count"; do
                read -r wall processor <<<"$(spent "$program" "${order/N/$part}")"
                [ -n "${best[$program $part]:-}" ] && [ "${!time}" -ge "${best[$program $part]}" ] || best[$program $part]=${!time}
            done
        done
    done
    awk -v name="$name" -v a=$((best[$ours $count] - best[$ours 0])) -v b=$((best[$theirs $count] - best[$theirs 0])) -v n="$count" \
        'BEGIN { printf "%-34s %12.3f %12.3f %6.2f\n", name, a / n, b / n, a / b }'
}

printf '%-34s %12s %12s %6s\n' 'microseconds' ours Rust ratio
compare "a group's rows" "group $rows $groups N" 20000 processor
compare 'a filter of all rows' "filter $rows $groups N" 100 processor
compare 'a commit of 1 change' "apply $rows 1 N" 20000 processor
compare 'a commit of 100 changes' "apply $rows 100 N" 500 processor
compare 'a read on 3 threads, no writer' "read $rows 0 N" 200000 wall
compare 'a read on 3 threads, one writes' "read $rows 1 N" 200000 wall
