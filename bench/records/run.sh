#!/usr/bin/env bash
# Prints nanoseconds of a write and of a read of one record, by `record_bench` and by plain Rust, and their ratio.
# Run it anywhere: bench/records/run.sh [COUNT]. It needs rt, rustc, python3 and bash; it builds the proved program first.
set -eu
here=$(cd "$(dirname "$0")" && pwd)
. "$here/../build.sh"
count="${1:-5000000}"
build_both record_bench records/rounds.rs
message=$(cd "$here" && python3 -c '
import format as f
p = b"P", 100, [(b"a", 1), (b"b", 4)]
print(f.message((b"Q", 101, [(b"x", 1), (b"p", p), (b"y", 2)]), [255, [1, 258], 7]).hex())')

# nanoseconds of processor time of one run of the program after the order
spent() {
    python3 -c '
import resource, subprocess, sys
subprocess.run([sys.argv[1]], input=sys.argv[2], text=True, stdout=subprocess.DEVNULL, check=True)
used = resource.getrusage(resource.RUSAGE_CHILDREN)
print(int(1e9 * (used.ru_utime + used.ru_stime)))' "$1" "$2"
}

# nanoseconds a round: the best of five runs, less the best of no rounds
best() {
    local least=-1 none=-1 time
    for run in 1 2 3 4 5; do
        time=$(spent "$2" "$1 $message 0"); [ $none -ge 0 ] && [ "$time" -ge $none ] || none=$time
        time=$(spent "$2" "$1 $message $count"); [ $least -ge 0 ] && [ "$time" -ge $least ] || least=$time
    done
    awk -v t=$((least - none)) -v n="$count" 'BEGIN { printf "%.1f", t / n }'
}

printf '%-8s %10s %10s %6s\n' '' 'ours ns' 'Rust ns' ratio
for order in writes reads; do
    a=$(best $order "$ours") b=$(best $order "$theirs")
    awk -v name=$order -v a="$a" -v b="$b" 'BEGIN { printf "%-8s %10.1f %10.1f %6.2f\n", name, a, b, a / b }'
done
