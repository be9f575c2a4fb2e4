#!/usr/bin/env bash
# Times `word_index spans W`, W 1 and 4, beside a Rust program over a HashMap<&str, Vec<..>> on the same texts, and sets both
# outputs beside what oracle.py prints. Run it anywhere: bench/words/run.sh [RUNS]. It needs rt, rustc, python3 and bash; it
# builds the proved program first.
set -eu
here="$(cd "$(dirname "${BASH_SOURCE[0]}")" && pwd)"
top="$(cd "$here/../.." && pwd)"
runs="${1:-5}"
build=$(mktemp -d)
trap 'rm -r "$build"' EXIT
(cd "$top/crates/word_index" && rt run -- words 1 </dev/null >/dev/null 2>"$build/log") || { cat "$build/log"; exit 1; }
ours=$top/crates/word_index/out/word_index
theirs=$build/theirs
rustc --edition 2024 -C opt-level=3 -C target-cpu=x86-64-v2 -o "$theirs" "$here/words.rs"
rustc --edition 2024 -C opt-level=3 -o "$build/measure" "$top/bench/measure.rs"
texts="$build/texts"
mkdir "$texts"
python3 - "$texts" <<'PYTHON'
import random, sys
source = random.Random(7)
letters = "etaoinshrdlucmfwypvbgk"
def text(path, distinct, count):
    words = ["".join(source.choices(letters, k=source.randrange(2, 10))) for _ in range(distinct)]
    weights = [1 / (place + 1) for place in range(distinct)]
    with open(path, "w") as out:
        for start in range(0, count, 12):
            out.write(" ".join(source.choices(words, weights, k=12)) + "\n")
text(sys.argv[1] + "/few_words", 200, 600_000)
text(sys.argv[1] + "/many_words", 2_000, 600_000)
text(sys.argv[1] + "/rare_words", 20_000, 60_000)
PYTHON
for text in "$texts"/*; do
    python3 "$here/oracle.py" index "$text" >"$build/told"
    for workers in 1 4; do
        "$ours" spans "$workers" <"$text" | cmp - "$build/told"
    done
    "$theirs" spans 1 <"$text" | cmp - "$build/told"
    for workers in 1 4; do
        echo "$(basename "$text") ($(stat -c %s "$text") bytes, $(wc -l <"$build/told") distinct words), W $workers: least processor ms, least wall ms, peak MB; ours, then the HashMap's"
        "$build/measure" "$runs" "$text" /dev/null "$ours" spans "$workers" -- "$theirs" spans "$workers"
    done
done
