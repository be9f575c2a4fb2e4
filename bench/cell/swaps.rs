// Loads and stores of arc-swap's ArcSwap: each line is an order, `load THREADS COUNT` or `store THREADS COUNT`.
// Built by run.sh where ARC_SWAP names the sources of arc-swap: rustc -C opt-level=3 -C target-cpu=x86-64-v2.
use arc_swap::ArcSwap;
use std::hint::black_box;
use std::io::BufRead;
use std::sync::Arc;
use std::thread;

fn in_threads(threads: u64, count: u64, work: impl Fn(&ArcSwap<u64>, u64) + Sync) -> u64 {
    let cell = black_box(ArcSwap::from_pointee(0_u64));
    thread::scope(|scope| {
        for _ in 0..threads {
            scope.spawn(|| work(&cell, count));
        }
    });
    **cell.load()
}

fn main() {
    for line in std::io::stdin().lock().lines() {
        let line = line.unwrap();
        let words: Vec<&str> = line.split(' ').collect();
        let threads = words[1].parse().expect("how many threads");
        let count = words[2].parse().expect("a count");
        let last = match words[0] {
            "load" => in_threads(threads, count, |cell, count| {
                for _ in 0..count {
                    black_box(cell.load_full());
                }
            }),
            "store" => in_threads(threads, count, |cell, count| {
                for number in 0..count {
                    cell.store(Arc::new(number));
                }
            }),
            _ => panic!("an order"),
        };
        println!("{last}");
    }
}
