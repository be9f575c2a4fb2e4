#!/usr/bin/env bash
# Prints milliseconds of filling sets by `tree_bench` and by plain Rust, and their ratio: below 1 the program here is the
# faster. With valgrind, also instructions, allocations and allocated bytes an insert.
# Run it anywhere: bench/tree/run.sh [RUNS] (5 if left out; the best counts). It needs rt, rustc and bash, and builds the
# proved program first. OURS is a tree_bench that is built already.
set -eu
here=$(cd "$(dirname "$0")" && pwd)
. "$here/../build.sh"
runs=${1:-5}
build_both tree_bench tree/fills.rs
rustc --edition 2024 -C opt-level=3 -o "$build/measure" "$here/../measure.rs"

# Least processor milliseconds of both programs, run in turns on one order, less those of the same values without a set.
spent() {
    local pattern=$1 rest=$2
    echo "$pattern $rest" >"$build/order"
    echo "nothing $rest" >"$build/none"
    [ "$("$ours" <"$build/order")" = "$("$theirs" <"$build/order")" ] || { echo "the answers differ: $pattern $rest" >&2; exit 1; }
    { "$build/measure" "$runs" "$build/order" /dev/null "$ours" -- "$theirs"; "$build/measure" "$runs" "$build/none" /dev/null "$ours" -- "$theirs"; } |
        awk '{ t[NR] = $1 } END { print t[1] - t[3], t[2] - t[4] }'
}

printf '%-9s %-8s %-9s %6s %9s %9s %6s\n' pattern values keys limit ours Rust ratio
for values in numbers tables; do
    for keys in 'distinct 120000' 'skewed 500000'; do
        set -- $keys
        for work in 'versions 5' 'owner 5' 'owner 9' 'owner 17' 'owner 33' 'owner 65'; do
            pattern=${work% *} limit=${work#* }
            spent "$pattern" "$values $1 $limit $2" |
                awk -v p="$pattern" -v v="$values" -v k="$1" -v l="$limit" '{ printf "%-9s %-8s %-9s %6d %9.1f %9.1f %6.2f\n", p, v, k, l, $1, $2, $1 / $2 }'
        done
    done
done

command -v valgrind >/dev/null || exit 0
# Instructions, allocations and bytes of one run under valgrind.
counted() {
    local of
    of=$(valgrind --tool=callgrind --callgrind-out-file=/dev/null "$1" <"$build/order" 2>&1 >/dev/null | awk '/Collected/ { print $NF }')
    valgrind --leak-check=no "$1" <"$build/order" 2>&1 >/dev/null | tr -d , | awk -v i="$of" '/total heap usage/ { print i, $5, $9 }'
}
printf '\n%-9s %-8s %6s %6s %13s %12s %9s\n' pattern values limit of instructions allocations bytes
for values in numbers tables; do
    for work in 'versions 5' 'owner 5' 'owner 33'; do
        pattern=${work% *} limit=${work#* }
        for program in "$ours" "$theirs"; do
            echo "nothing $values distinct $limit 20000" >"$build/order"
            none=$(counted "$program")
            echo "$pattern $values distinct $limit 20000" >"$build/order"
            echo "$none $(counted "$program")" |
                awk -v p="$pattern" -v v="$values" -v l="$limit" -v n="$([ "$program" = "$ours" ] && echo ours || echo Rust)" \
                    '{ printf "%-9s %-8s %6d %6s %13.0f %12.2f %9.0f\n", p, v, l, n, ($4 - $1) / 20000, ($5 - $2) / 20000, ($6 - $3) / 20000 }'
        done
    done
done
