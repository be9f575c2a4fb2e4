//! The rounds of run.sh on Rust's own `Vec`: the same pushes, drains and swaps, in microseconds.
use std::time::Instant;

const ITEMS: u64 = 1_000_000;
const ROUNDS: u64 = 200_000;

fn report(name: &str, start: Instant, sum: u64) {
    println!("{name} {} {sum}", start.elapsed().as_micros());
}

fn read_front(list: &mut Vec<u64>, from: usize, to: usize) -> u64 {
    let mut sum = 0u64;
    let mut drain = list.drain(from..to);
    while let Some(item) = drain.next() {
        sum = sum.wrapping_add(item);
    }
    sum
}

fn read_back(list: &mut Vec<u64>, from: usize, to: usize) -> u64 {
    let mut sum = 0u64;
    let mut drain = list.drain(from..to);
    while let Some(item) = drain.next_back() {
        sum = sum.wrapping_add(item);
    }
    sum
}

fn read_both(list: &mut Vec<u64>, from: usize, to: usize) -> u64 {
    let mut sum = 0u64;
    let mut drain = list.drain(from..to);
    while let Some(item) = drain.next() {
        sum = sum.wrapping_add(item);
        let Some(item) = drain.next_back() else { break };
        sum = sum.wrapping_add(item);
    }
    sum
}

fn drain_rounds(
    list: &mut Vec<u64>,
    read: fn(&mut Vec<u64>, usize, usize) -> u64,
    from: usize,
    to: usize,
    rounds: u64,
) -> u64 {
    let mut sum = 0u64;
    for round in 0..rounds {
        sum = sum.wrapping_add(read(list, from, to));
        for item in from..to {
            list.push(round.wrapping_add(item as u64));
        }
    }
    sum
}

fn main() {
    for _ in 0..5 {
        let start = Instant::now();
        let mut list: Vec<u64> = Vec::new();
        for item in 0..ITEMS {
            list.push(item);
        }
        report("push", start, list.len() as u64);

        let start = Instant::now();
        let mut sum = 0u64;
        for round in 0..ROUNDS {
            let at = (round.wrapping_mul(7919) % list.len() as u64) as usize;
            sum = sum.wrapping_add(list.swap_remove(at));
            list.push(round);
        }
        report("swap_remove", start, sum);

        let mut short: Vec<u64> = Vec::new();
        for item in 0..1000 {
            short.push(item);
        }
        let start = Instant::now();
        let sum = drain_rounds(&mut short, read_front, 900, 910, ROUNDS);
        report("drain", start, sum);

        let start = Instant::now();
        let sum = drain_rounds(&mut short, read_back, 900, 910, ROUNDS);
        report("drain_back", start, sum);

        let start = Instant::now();
        let sum = drain_rounds(&mut short, read_both, 900, 910, ROUNDS);
        report("drain_both", start, sum);

        let start = Instant::now();
        let sum = drain_rounds(&mut list, read_front, 250_000, 750_000, 10);
        report("drain_half", start, sum);
    }
}
