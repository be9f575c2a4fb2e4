#!/usr/bin/env bash
# Prints nanoseconds an insert of a table of four words that the registry has, and of a new one (the making of the registry
# with it), on 1 and 4 threads at 10, 100 and 1,000 tables: of a row, of a tree, and of a Rust list with one compare-and-swap
# a node, with the ratios of the row to each. On 4 threads a new table's time is mostly that of starting the threads.
# Run it anywhere: bench/row/run.sh [RUNS [TABLES..]]. It needs rt, rustc, awk and bash; it builds the proved program first.
# The runs go in turns, and of each the best is taken, 9 if left out, less the best run of no inserts. It stops where a
# program prints another number of tables than it was to insert.
#   UNDER=COMMAND: what each program is run by, as `chrt -r 1` where other work on the machine is to wait meanwhile.
set -eu
. "$(dirname "$0")/../build.sh"
runs="${1:-9}"
[ $# -lt 2 ] && sizes=(10 100 1000) || sizes=("${@:2}")
build_both row_bench row/lists.rs

# nanoseconds of one run of the program after the order, which is to print the number of tables
spent() {
    local order=$1 program=$2 tables=$3 begin end had
    begin=$(date +%s%N); had=$(echo "$order" | ${UNDER:-} "$program"); end=$(date +%s%N)
    [ "$had" = "$tables" ] || { echo "$order: $had tables in place of $tables" >&2; exit 1; }
    echo $((end - begin))
}

# work, threads, tables, how often, how many inserts that are, and how many tables there are after them, and after none
compare() {
    local work=$1 threads=$2 tables=$3 count=$4 inserts=$5 after=$6 before=$7 run kind program time
    local -A best none
    for ((run = 0; run < runs; run++)); do
        for kind in row tree list; do
            [ $kind = list ] && program=$theirs || program=$ours
            time=$(spent "$kind $work $threads $tables 0" "$program" "$before")
            [ $run != 0 ] && [ "$time" -ge "${none[$kind]}" ] || none[$kind]=$time
            time=$(spent "$kind $work $threads $tables $count" "$program" "$after")
            [ $run != 0 ] && [ "$time" -ge "${best[$kind]}" ] || best[$kind]=$time
        done
    done
    awk -v work="$work" -v threads="$threads" -v tables="$tables" -v n="$inserts" -v row=$((best[row] - none[row])) \
        -v tree=$((best[tree] - none[tree])) -v list=$((best[list] - none[list])) \
        'BEGIN { printf "%-6s %7d %6d %10.1f %10.1f %10.1f %10.2f %10.2f\n", work, threads, tables, row / n, tree / n, list / n, row / tree, row / list }'
}

printf '%-6s %7s %6s %10s %10s %10s %10s %10s\n' insert threads tables row tree list row/tree row/list
for tables in "${sizes[@]}"; do
    for threads in 1 4; do
        count=$((40000000 / (tables + 40) / threads))
        compare known $threads "$tables" $count $((count * threads)) "$tables" "$tables"
        count=$((20000000 / (tables + 40) / tables))
        [ $threads = 1 ] || [ $count -le 1000 ] || count=1000
        compare new $threads "$tables" $count $((count * (tables / threads) * threads)) $((tables / threads * threads)) 0
    done
done
