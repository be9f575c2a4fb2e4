// The same loops over std's locks: each line is an order, `commit KIND COUNT`, `load THREADS COUNT` or `store THREADS COUNT`.
// Built by run.sh: rustc -C opt-level=3 -C target-cpu=x86-64-v2.
use std::hint::black_box;
use std::io::BufRead;
use std::sync::{Arc, Mutex};
use std::thread;

fn over_shared_value(count: u64) -> u64 {
    let cell = black_box(Mutex::new(Arc::new(0_u64)));
    for _ in 0..count {
        let mut turn = cell.lock().unwrap();
        let next = **turn + 1;
        *turn = Arc::new(next);
    }
    let reached = **cell.lock().unwrap();
    reached
}

fn over_number(count: u64) -> u64 {
    let cell = black_box(Mutex::new(0_u64));
    for _ in 0..count {
        let mut turn = cell.lock().unwrap();
        *turn += 1;
    }
    let reached = *cell.lock().unwrap();
    reached
}

// A shared value with the number of its stores, as an AtomicArc has.
struct Cell {
    value: Arc<u64>,
    stamp: u64,
}

fn load(cell: &Mutex<Cell>) -> (Arc<u64>, u64) {
    let turn = cell.lock().unwrap();
    (turn.value.clone(), turn.stamp)
}

fn store(cell: &Mutex<Cell>, value: Arc<u64>) -> u64 {
    let mut turn = cell.lock().unwrap();
    let _old = std::mem::replace(&mut turn.value, value);
    turn.stamp += 1;
    turn.stamp
}

fn in_threads(threads: u64, count: u64, work: impl Fn(&Mutex<Cell>, u64) + Sync) -> u64 {
    let cell = black_box(Mutex::new(Cell { value: Arc::new(0), stamp: 0 }));
    thread::scope(|scope| {
        for _ in 0..threads {
            scope.spawn(|| work(&cell, count));
        }
    });
    let reached = cell.lock().unwrap().stamp;
    reached
}

fn main() {
    for line in std::io::stdin().lock().lines() {
        let line = line.unwrap();
        let words: Vec<&str> = line.split(' ').collect();
        let count = words[2].parse().expect("a count");
        let reached = match (words[0], words[1]) {
            ("commit", "arc") => over_shared_value(count),
            ("commit", "number") => over_number(count),
            ("load", threads) => in_threads(threads.parse().unwrap(), count, |cell, count| {
                for _ in 0..count {
                    black_box(load(cell));
                }
            }),
            ("store", threads) => in_threads(threads.parse().unwrap(), count, |cell, count| {
                for number in 0..count {
                    black_box(store(cell, Arc::new(number)));
                }
            }),
            _ => panic!("an order"),
        };
        println!("{reached}");
    }
}
