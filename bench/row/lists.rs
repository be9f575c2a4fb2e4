// The same inserts into an append-only list with one compare-and-swap a node: each line is an order
// `list known|new THREADS TABLES COUNT`. Built by run.sh: rustc -C opt-level=3 -C target-cpu=x86-64-v2.
use std::hint::black_box;
use std::io::BufRead;
use std::ptr::null_mut;
use std::sync::atomic::{AtomicPtr, Ordering};
use std::thread;

struct Node {
    words: Box<[u64]>,
    next: AtomicPtr<Node>,
}

struct List {
    first: AtomicPtr<Node>,
}

impl List {
    fn new() -> List {
        List { first: AtomicPtr::new(null_mut()) }
    }

    // The number of the table; an absent one is hung behind the last node.
    fn insert(&self, table: &[u64]) -> u64 {
        let mut link = &self.first;
        let mut number = 0;
        let mut made: *mut Node = null_mut();
        loop {
            let mut node = link.load(Ordering::Acquire);
            if node.is_null() {
                if made.is_null() {
                    made = Box::into_raw(Box::new(Node { words: table.into(), next: AtomicPtr::new(null_mut()) }));
                }
                match link.compare_exchange(null_mut(), made, Ordering::AcqRel, Ordering::Acquire) {
                    Ok(_) => return number,
                    Err(other) => node = other,
                }
            }
            // Nodes are let go with the list alone.
            let node = unsafe { &*node };
            if *node.words == *table {
                if !made.is_null() {
                    drop(unsafe { Box::from_raw(made) });
                }
                return number;
            }
            number += 1;
            link = &node.next;
        }
    }

    fn len(&self) -> u64 {
        let mut node = self.first.load(Ordering::Acquire);
        let mut len = 0;
        while !node.is_null() {
            len += 1;
            node = unsafe { &*node }.next.load(Ordering::Acquire);
        }
        len
    }
}

impl Drop for List {
    fn drop(&mut self) {
        let mut node = *self.first.get_mut();
        while !node.is_null() {
            let mut owned = unsafe { Box::from_raw(node) };
            node = *owned.next.get_mut();
        }
    }
}

// Every `step`-th table from the one at `first` on, from the start again at their end, so many in all.
fn insert_every(list: &List, tables: &[Box<[u64]>], first: usize, step: usize, count: u64) {
    let mut at = first;
    for _ in 0..count {
        if at >= tables.len() {
            at = first;
        }
        if let Some(table) = tables.get(at) {
            black_box(list.insert(table));
        }
        at += step;
    }
}

fn in_threads(list: &List, tables: &[Box<[u64]>], threads: usize, count: u64) {
    if threads == 1 {
        insert_every(list, tables, 0, 1, count);
        return;
    }
    thread::scope(|scope| {
        for first in 0..threads {
            scope.spawn(move || insert_every(list, tables, first, threads, count));
        }
    });
}

fn main() {
    for line in std::io::stdin().lock().lines() {
        let line = line.unwrap();
        let words: Vec<&str> = line.split(' ').collect();
        let [threads, len, count] = [2, 3, 4].map(|i| words[i].parse::<u64>().expect("a number"));
        let tables: Vec<Box<[u64]>> = (0..len).map(|i| vec![i, 8, 16, 24].into()).collect();
        let had = match words[1] {
            "known" => {
                let list = black_box(List::new());
                insert_every(&list, &tables, 0, 1, len);
                in_threads(&list, &tables, threads as usize, count);
                list.len()
            }
            "new" => {
                let mut had = 0;
                for _ in 0..count {
                    let list = black_box(List::new());
                    in_threads(&list, &tables, threads as usize, len / threads);
                    had = list.len();
                }
                had
            }
            _ => panic!("an order"),
        };
        println!("{had}");
    }
}
