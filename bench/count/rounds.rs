// The same rounds over std's Arc: reads orders, clones and drops handles or reads through them, prints the sums.
// Built by run.sh: rustc -C opt-level=3 -C target-cpu=x86-64-v2.
use std::hint::black_box;
use std::io::BufRead;
use std::sync::Arc;
use std::thread;

fn clone_and_end(handle: &Arc<u64>, rounds: u64) -> u64 {
    let mut ended = 0_u64;
    for _ in 0..rounds {
        let other = black_box(Arc::clone(handle));
        if Arc::into_inner(other).is_none() {
            ended = ended.wrapping_add(1);
        }
    }
    ended
}

fn read_in_turn(handles: &[Arc<u64>], rounds: u64) -> u64 {
    let mut sum = 0_u64;
    for round in 0..rounds {
        if let Some(handle) = handles.get((round % 64) as usize) {
            sum = sum.wrapping_add(**handle);
        }
    }
    sum
}

fn main() {
    for line in std::io::stdin().lock().lines() {
        let line = line.unwrap();
        let words: Vec<&str> = line.split(' ').collect();
        let threads: u64 = words[1].parse().expect("threads");
        let rounds: u64 = words[2].parse().expect("rounds");
        let owners: Vec<Arc<u64>> = (0..64).map(Arc::new).collect();
        let is_clone = words[0] == "clone";
        let running: Vec<_> = (0..threads)
            .map(|_| {
                let handles = owners.clone();
                thread::spawn(move || {
                    if is_clone {
                        clone_and_end(&handles[0], rounds)
                    } else {
                        read_in_turn(&handles, rounds)
                    }
                })
            })
            .collect();
        let sum = running.into_iter().fold(0_u64, |sum, one| sum.wrapping_add(one.join().unwrap()));
        println!("{sum}");
    }
}
