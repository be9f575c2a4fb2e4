#!/bin/sh
# Times pushes, swap_removes and drains of stabby_vec's Vec and of Rust's, and prints the ratios of the best of five.
# A drain takes 10 of 1,000 items, read from the front, from the back or from both ends in turn, or half of a million.
# Run it from this folder; it needs rt, cargo and awk. It works in a folder of its own.
set -e
here=$(cd "$(dirname "$0")" && pwd)
work=$(mktemp -d)
mkdir -p "$work/crates"
cp -r "$here/../../crates/stabby_layout" "$here/../../crates/stabby_vec" "$work/crates/"
cd "$work/crates"
rt new vec_rounds start_io >/dev/null
rm -rf vec_rounds/specs vec_rounds/proofs vec_rounds/BUILD.bazel vec_rounds/stdin vec_rounds/stdout vec_rounds/src/*.rt
grep -E '^(stabby_layout|stabby_vec):' "$here/../../crates.txt" > "$work/crates.txt"
echo 'vec_rounds: stabby_vec anyhow' >> "$work/crates.txt"
cat > vec_rounds/src/main.rt <<'RATTLE'
//! Pushes, swaps and drains of a list, in microseconds.
#![tactic(auto)]

use stabby_vec::Vec;
use std::alloc::Global;
use std::time::Instant;

const ITEMS: u64 = 1_000_000;
const ROUNDS: u64 = 200_000;

fn push_all(list: &mut Vec<u64, Global>, count: u64) -> anyhow::Result<()> {
    for item in 0..count {
        list.push(item)?;
    }
    Ok(())
}

fn swap_rounds(list: &mut Vec<u64, Global>) -> anyhow::Result<u64> {
    let mut sum = 0u64;
    for round in 0..ROUNDS {
        let len = list.len() as u64;
        if len > 0 {
            let at = (round.wrapping_mul(7919) % len) as usize;
            sum = sum.wrapping_add(list.swap_remove(at).unwrap_or(0));
            list.push(round)?;
        }
    }
    Ok(sum)
}

/// From which ends a drain is read.
#[derive(Clone, Copy)]
enum Ends {
    Front,
    Back,
    Both,
}

fn read_front(list: &mut Vec<u64, Global>, from: usize, to: usize) -> u64 {
    let mut sum = 0u64;
    if let Some(mut drain) = list.try_drain(from, to) {
        for _ in 0..u64::MAX {
            match drain.next() {
                Some(item) => sum = sum.wrapping_add(item),
                None => break,
            }
        }
    }
    sum
}

fn read_back(list: &mut Vec<u64, Global>, from: usize, to: usize) -> u64 {
    let mut sum = 0u64;
    if let Some(drain) = list.try_drain(from, to) {
        let mut drain = drain.double_ended();
        for _ in 0..u64::MAX {
            match drain.next_back() {
                Some(item) => sum = sum.wrapping_add(item),
                None => break,
            }
        }
    }
    sum
}

fn read_both(list: &mut Vec<u64, Global>, from: usize, to: usize) -> u64 {
    let mut sum = 0u64;
    if let Some(drain) = list.try_drain(from, to) {
        let mut drain = drain.double_ended();
        for _ in 0..u64::MAX {
            match drain.next() {
                Some(item) => sum = sum.wrapping_add(item),
                None => break,
            }
            match drain.next_back() {
                Some(item) => sum = sum.wrapping_add(item),
                None => break,
            }
        }
    }
    sum
}

fn drain_rounds(
    list: &mut Vec<u64, Global>,
    ends: Ends,
    from: usize,
    to: usize,
    rounds: u64,
) -> anyhow::Result<u64> {
    let mut sum = 0u64;
    for round in 0..rounds {
        sum = sum.wrapping_add(match ends {
            Ends::Front => read_front(list, from, to),
            Ends::Back => read_back(list, from, to),
            Ends::Both => read_both(list, from, to),
        });
        for item in from..to {
            list.push(round.wrapping_add(item as u64))?;
        }
    }
    Ok(sum)
}

fn main(rt: HostRuntime) -> anyhow::Result<()> {
    for _ in 0..5 {
        let start = Instant::now(&rt)?;
        let mut list = Vec::new_in(rt.alloc());
        push_all(&mut list, ITEMS)?;
        println!(rt; "push {} {}", start.elapsed(&rt)?.as_micros(), list.len())?;

        let start = Instant::now(&rt)?;
        let sum = swap_rounds(&mut list)?;
        println!(rt; "swap_remove {} {sum}", start.elapsed(&rt)?.as_micros())?;

        let mut short = Vec::new_in(rt.alloc());
        push_all(&mut short, 1000)?;
        let start = Instant::now(&rt)?;
        let sum = drain_rounds(&mut short, Ends::Front, 900, 910, ROUNDS)?;
        println!(rt; "drain {} {sum}", start.elapsed(&rt)?.as_micros())?;

        let start = Instant::now(&rt)?;
        let sum = drain_rounds(&mut short, Ends::Back, 900, 910, ROUNDS)?;
        println!(rt; "drain_back {} {sum}", start.elapsed(&rt)?.as_micros())?;

        let start = Instant::now(&rt)?;
        let sum = drain_rounds(&mut short, Ends::Both, 900, 910, ROUNDS)?;
        println!(rt; "drain_both {} {sum}", start.elapsed(&rt)?.as_micros())?;

        let start = Instant::now(&rt)?;
        let sum = drain_rounds(&mut list, Ends::Front, 250_000, 750_000, 10)?;
        println!(rt; "drain_half {} {sum}", start.elapsed(&rt)?.as_micros())?;
    }
    Ok(())
}
RATTLE
cd vec_rounds
rt run 2> "$work/log" | grep -E '^(push|swap_remove|drain|drain_back|drain_both|drain_half) [0-9]+ [0-9]+$' > "$work/ours"
cargo run --release --quiet --manifest-path "$here/Cargo.toml" --target-dir "$work/target" > "$work/rust"
for name in push swap_remove drain drain_back drain_both drain_half; do
  ours=$(awk -v n="$name" '$1 == n && (!m || $2 < m) { m = $2 } END { print m }' "$work/ours")
  rust=$(awk -v n="$name" '$1 == n && (!m || $2 < m) { m = $2 } END { print m }' "$work/rust")
  same=$(awk -v n="$name" '$1 == n { print $3 }' "$work/ours" "$work/rust" | sort -u | wc -l)
  awk -v n="$name" -v a="$ours" -v b="$rust" -v s="$same" 'BEGIN { printf "%-12s %6.2f times Rust'"'"'s (%d against %d microseconds)%s\n", n, a / b, a, b, s == 1 ? "" : ", SUMS DIFFER" }'
done
rm -rf "$work"
