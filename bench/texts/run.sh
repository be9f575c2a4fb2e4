#!/usr/bin/env bash
# Prints nanoseconds and instructions a round of texts, blocks and layouts beside Rust's, with the ratios: the best of five
# runs of each program, in turns, less its best run of no rounds; and what valgrind counts, where it is there, of so many
# rounds less that of half as many. It stops where the two programs give different sums.
# Run it anywhere: bench/texts/run.sh [ROUNDS]. It needs rt, rustc and awk; it proves and builds a program in a folder of
# its own.
set -eu
here=$(cd "$(dirname "${BASH_SOURCE[0]}")" && pwd)
top=$(cd "$here/../.." && pwd)
rounds="${1:-1000000}"
work=$(mktemp -d)
trap 'rm -rf "$work"' EXIT
libraries='stabby_layout stabby_block stabby_vec stabby_text'
mkdir "$work/crates"
for crate in $libraries; do
    mkdir "$work/crates/$crate"
    for part in src specs proofs; do
        [ ! -d "$top/crates/$crate/$part" ] || cp -r "$top/crates/$crate/$part" "$work/crates/$crate/"
    done
    grep "^$crate:" "$top/crates.txt" >>"$work/crates.txt"
done
echo "text_rounds: $libraries" >>"$work/crates.txt"
mkdir -p "$work/crates/text_rounds/src"
cat >"$work/crates/text_rounds/src/main.rt" <<'RATTLE'
//! Rounds of calls of texts, of blocks and of layouts, as a line `WORK ROUNDS` of the input says. It prints a sum.
#![tactic(auto)]

use stabby_block::{IAlloc, Ledger};
use stabby_layout::{AllocationError, Layout};
use stabby_text::String;
use std::alloc::Global;
use std::io;

const PIECE: &str = "a piece of text";

const DASHES: &str = "--------------------------------------------------------------";

// A text of a hundred pieces.
fn concat(alloc: Global) -> Result<u64, AllocationError> {
    let mut text = String::new_in(alloc);
    for _ in 0..100u32 {
        text.try_concat(PIECE)?;
    }
    Ok(text.as_str().len() as u64)
}

fn concat_rounds(alloc: Global, rounds: u64) -> Result<u64, AllocationError> {
    let mut sum = 0u64;
    for _ in 0..rounds {
        sum = sum.wrapping_add(concat(alloc)?);
    }
    Ok(sum)
}

fn digit(number: u64) -> &'static str {
    match number {
        0 => "0",
        1 => "1",
        2 => "2",
        3 => "3",
        4 => "4",
        5 => "5",
        6 => "6",
        _ => "7",
    }
}

fn text_of(alloc: Global, number: u64) -> Result<String<Global>, AllocationError> {
    let mut text = String::from_str(alloc, DASHES)?;
    text.try_concat(digit(number / 8))?;
    text.try_concat(digit(number % 8))?;
    Ok(text)
}

// 64 texts of 64 bytes, which differ in their last two.
fn texts(alloc: Global) -> Result<Vec<String<Global>>, AllocationError> {
    let mut texts = Vec::new(alloc);
    for number in 0..64u64 {
        texts.push(text_of(alloc, number)?)?;
    }
    Ok(texts)
}

fn from_rounds(
    alloc: Global,
    texts: &[String<Global>],
    rounds: u64,
) -> Result<u64, AllocationError> {
    let mut sum = 0u64;
    for round in 0..rounds {
        if let Some(text) = texts.get((round % 64) as usize) {
            let made = String::from_str(alloc, text.as_str())?;
            sum = sum.wrapping_add(made.as_str().len() as u64);
        }
    }
    Ok(sum)
}

fn copy_rounds(texts: &[String<Global>], rounds: u64) -> Result<u64, AllocationError> {
    let mut sum = 0u64;
    for round in 0..rounds {
        if let Some(text) = texts.get((round % 64) as usize) {
            sum = sum.wrapping_add(text.copy()?.as_str().len() as u64);
        }
    }
    Ok(sum)
}

fn compare_rounds(texts: &[String<Global>], rounds: u64) -> u64 {
    let mut sum = 0u64;
    for round in 0..rounds {
        let first = texts.get((round % 64) as usize);
        let second = texts.get((round / 64 % 64) as usize);
        if let (Some(a), Some(b)) = (first, second) {
            sum = sum
                .wrapping_add((*a == *b) as u64)
                .wrapping_add((*a < *b) as u64);
        }
    }
    sum
}

// A block of 64 zero bytes that is freed.
fn alloc_and_free(heap: &mut Ledger) -> u64 {
    match heap.alloc(Layout { size: 64, align: 8 }) {
        Ok(block) => {
            heap.free(block);
            64
        }
        Err(_) => 0,
    }
}

// A block of 64 zero bytes, which then gets 128, and is freed.
fn realloc_and_free(heap: &mut Ledger) -> u64 {
    let Ok(block) = heap.alloc(Layout { size: 64, align: 8 }) else {
        return 0;
    };
    match heap.realloc(block, 128) {
        Ok(grown) => {
            heap.free(grown);
            128
        }
        Err(_) => 0,
    }
}

fn block_rounds(alloc: Global, grows: bool, rounds: u64) -> u64 {
    let mut heap = Ledger::new_in(alloc, 1 << 20);
    let mut sum = 0u64;
    for _ in 0..rounds {
        sum = sum.wrapping_add(if grows {
            realloc_and_free(&mut heap)
        } else {
            alloc_and_free(&mut heap)
        });
    }
    sum
}

fn layout_rounds(rounds: u64) -> Result<u64, AllocationError> {
    let mut sum = 0u64;
    for round in 0..rounds {
        let first = Layout {
            size: (round % 1024) as usize * 4 + 4,
            align: 8,
        };
        let both = first.concat(Layout { size: 5, align: 4 })?;
        let all = both.concat(Layout::of::<u64>())?;
        sum = sum.wrapping_add(all.size as u64);
    }
    Ok(sum)
}

fn work_on(alloc: Global, work: &str, rounds: u64) -> Result<u64, AllocationError> {
    match work {
        "concat" => concat_rounds(alloc, rounds),
        "from_str" => from_rounds(alloc, &texts(alloc)?, rounds),
        "copy" => copy_rounds(&texts(alloc)?, rounds),
        "compare" => Ok(compare_rounds(&texts(alloc)?, rounds)),
        "alloc" => Ok(block_rounds(alloc, false, rounds)),
        "realloc" => Ok(block_rounds(alloc, true, rounds)),
        _ => layout_rounds(rounds),
    }
}

fn parse(line: &str) -> Option<(&str, u64)> {
    let (work, rounds) = line.split_once(' ')?;
    Some((work, rounds.parse().ok()?))
}

fn main(rt: HostRuntime) -> io::Result<()> {
    for line in rt.lines(rt.alloc()) {
        let line = line?;
        match parse(line.as_str()) {
            None => println!(rt; "not an order")?,
            Some((work, rounds)) => match work_on(rt.alloc(), work, rounds) {
                Ok(sum) => println!(rt; "{sum}")?,
                Err(_) => println!(rt; "no memory")?,
            },
        }
    }
    Ok(())
}
RATTLE
(cd "$work/crates/text_rounds" && rt run </dev/null >/dev/null 2>"$work/log") || { cat "$work/log"; exit 1; }
rustc -C opt-level=3 -C target-cpu=x86-64-v2 -o "$work/theirs" "$here/rounds.rs"
ours=$work/crates/text_rounds/out/text_rounds
theirs=$work/theirs

# nanoseconds of one run
spent() {
    local begin end
    begin=$(date +%s%N); echo "$1 $2" | "$3" >/dev/null; end=$(date +%s%N)
    echo $((end - begin))
}

# instructions of one run; 0 where there is no valgrind
counted() {
    command -v valgrind >/dev/null || { echo 0; return; }
    echo "$1 $2" | valgrind --tool=callgrind --callgrind-out-file=/dev/null "$3" 2>&1 >/dev/null |
        awk '/Collected/ { print $NF }'
}

# the instructions of a round
instructions() {
    local few=$((rounds / 200)) many=$((rounds / 100))
    [ "$1" != concat ] || { few=$((few / 50)); many=$((many / 50)); }
    echo "$(counted "$1" $many "$2") $(counted "$1" $few "$2") $((many - few))" | awk '{ print ($1 - $2) / $3 }'
}

compare() {
    local work=$1 count=$2 run program time path
    local -A best none
    [ "$(echo "$work 1000" | "$ours")" = "$(echo "$work 1000" | "$theirs")" ] || { echo "$work: DIFFERENT SUMS"; exit 1; }
    for run in 1 2 3 4 5; do
        for program in ours theirs; do
            path=$ours; [ $program = ours ] || path=$theirs
            time=$(spent "$work" 0 "$path")
            [ $run != 1 ] && [ "$time" -ge "${none[$program]}" ] || none[$program]=$time
            time=$(spent "$work" "$count" "$path")
            [ $run != 1 ] && [ "$time" -ge "${best[$program]}" ] || best[$program]=$time
        done
    done
    echo "$((best[ours] - none[ours])) $((best[theirs] - none[theirs])) $count $(instructions "$work" "$ours") $(instructions "$work" "$theirs")" |
        awk -v work="$work" '{ printf "%-9s %9.1f %9.1f %6.2f %12.1f %12.1f %6.2f\n", work, $1 / $3, $2 / $3, $1 / $2, $4, $5, ($5 ? $4 / $5 : 0) }'
}

printf '%-9s %9s %9s %6s %12s %12s %6s\n' round ours,ns Rust,ns ratio ours,instr Rust,instr ratio
compare concat $((rounds / 50))
for name in from_str copy compare alloc realloc; do compare $name "$rounds"; done
compare layout $((rounds * 10))
