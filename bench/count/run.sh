#!/usr/bin/env bash
# Prints nanoseconds a round of a thread, of a counted handle beside Rust's Arc, on 1 and 4 threads, and the ratios.
# Run it anywhere: bench/count/run.sh [ROUNDS]. It needs rt, rustc and bash; it builds the proved program first. OURS is a
# count_bench that is built already.
set -eu
. "$(dirname "$0")/../build.sh"
rounds="${1:-4000000}"
build_both count_bench count/rounds.rs

# nanoseconds of one run
spent() {
    local begin end
    begin=$(date +%s%N); echo "$1 $2 $3" | "$4" >/dev/null; end=$(date +%s%N)
    echo $((end - begin))
}

# both programs in turns: the best of five runs of each, less its best run of no rounds
compare() {
    local work=$1 threads=$2 count=$3 run program time
    local -A best=([ours]=0 [std]=0) none=([ours]=0 [std]=0)
    for run in 1 2 3 4 5; do
        for program in ours std; do
            local path=$ours; [ $program = ours ] || path=$theirs
            time=$(spent "$work" "$threads" 0 "$path")
            [ $run != 1 ] && [ "$time" -ge "${none[$program]}" ] || none[$program]=$time
            time=$(spent "$work" "$threads" "$count" "$path")
            [ $run != 1 ] && [ "$time" -ge "${best[$program]}" ] || best[$program]=$time
        done
    done
    awk -v work="$work" -v threads="$threads" -v a=$((best[ours] - none[ours])) -v b=$((best[std] - none[std])) -v n="$count" \
        'BEGIN { printf "%-6s %7d %9.2f %9.2f %6.2f\n", work, threads, a / n, b / n, a / b }'
}

printf '%-6s %7s %9s %9s %6s\n' work threads ours std ratio
for threads in 1 4; do compare clone $threads "$rounds"; done
for threads in 1 4; do compare read $threads $((rounds * 20)); done
