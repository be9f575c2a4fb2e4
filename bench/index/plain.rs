//! The orders of `index_bench` by plain Rust: two persistent maps, rows by key and each group's keys, behind a lock round an
//! `Arc` that is swapped where no other version came between, as `ArcSwap::rcu` does it. The map is a treap whose inserts
//! copy one path; a key's priority is a hash of it.
use std::hint::black_box;
use std::io::BufRead;
use std::sync::atomic::{AtomicU64, Ordering};
use std::sync::{Arc, RwLock};
use std::thread;

struct Node<V> {
    key: u64,
    value: V,
    left: Link<V>,
    right: Link<V>,
}

type Link<V> = Option<Arc<Node<V>>>;

fn priority(key: u64) -> u64 {
    let x = (key ^ (key >> 31)).wrapping_mul(0x9e37_79b9_7f4a_7c15);
    (x ^ (x >> 29)).wrapping_mul(0xbf58_476d_1ce4_e5b9)
}

fn node<V>(key: u64, value: V, left: Link<V>, right: Link<V>) -> Link<V> {
    Some(Arc::new(Node { key, value, left, right }))
}

/// The keys below and those above; the key itself is in neither.
fn split<V: Clone>(link: &Link<V>, key: u64) -> (Link<V>, Link<V>) {
    match link {
        None => (None, None),
        Some(n) if n.key < key => {
            let (low, high) = split(&n.right, key);
            (node(n.key, n.value.clone(), n.left.clone(), low), high)
        }
        Some(n) => {
            let (low, high) = split(&n.left, key);
            (low, node(n.key, n.value.clone(), high, n.right.clone()))
        }
    }
}

fn insert<V: Clone>(link: &Link<V>, key: u64, value: V) -> Link<V> {
    match link {
        Some(n) if n.key == key => node(key, value, n.left.clone(), n.right.clone()),
        Some(n) if priority(n.key) >= priority(key) => {
            if key < n.key {
                node(n.key, n.value.clone(), insert(&n.left, key, value), n.right.clone())
            } else {
                node(n.key, n.value.clone(), n.left.clone(), insert(&n.right, key, value))
            }
        }
        _ => {
            let (low, high) = split(link, key);
            node(key, value, low, high)
        }
    }
}

fn get<V>(mut link: &Link<V>, key: u64) -> Option<&V> {
    while let Some(n) = link {
        if n.key == key {
            return Some(&n.value);
        }
        link = if key < n.key { &n.left } else { &n.right };
    }
    None
}

fn each<'a, V>(link: &'a Link<V>, work: &mut impl FnMut(u64, &'a V)) {
    if let Some(n) = link {
        each(&n.left, work);
        work(n.key, &n.value);
        each(&n.right, work);
    }
}

struct Row {
    key: u64,
    group: u64,
    text: String,
}

#[derive(Clone)]
struct Version {
    rows: Link<Arc<Row>>,
    groups: Link<Link<()>>,
    stamp: u64,
}

impl Version {
    fn with(&self, changes: &[Row]) -> Version {
        let mut rows = self.rows.clone();
        let mut groups = self.groups.clone();
        for row in changes {
            let keys = get(&groups, row.group).cloned().unwrap_or(None);
            groups = insert(&groups, row.group, insert(&keys, row.key, ()));
            let row = Row { key: row.key, group: row.group, text: row.text.clone() };
            rows = insert(&rows, row.key, Arc::new(row));
        }
        Version { rows, groups, stamp: self.stamp + 1 }
    }

    fn group(&self, group: u64) -> Vec<&Row> {
        let mut found = Vec::new();
        if let Some(keys) = get(&self.groups, group) {
            each(keys, &mut |key, _| {
                if let Some(row) = get(&self.rows, key) {
                    if row.group == group {
                        found.push(&**row);
                    }
                }
            });
        }
        found
    }

    fn all(&self) -> Vec<&Row> {
        let mut found = Vec::new();
        each(&self.rows, &mut |_, row| found.push(&**row));
        found
    }
}

/// What `ArcSwap` does, by a lock: readers clone the `Arc`, writers build outside and swap where it is still the same.
struct Swap(RwLock<Arc<Version>>);

impl Swap {
    fn load(&self) -> Arc<Version> {
        self.0.read().unwrap().clone()
    }

    fn apply(&self, changes: &[Row]) -> u64 {
        loop {
            let old = self.load();
            let new = Arc::new(old.with(changes));
            let stamp = new.stamp;
            let mut place = self.0.write().unwrap();
            if Arc::ptr_eq(&place, &old) {
                let gone = std::mem::replace(&mut *place, new);
                drop(place);
                drop(gone);
                return stamp;
            }
        }
    }
}

fn puts(first: u64, count: u64, rows: u64, groups: u64) -> Vec<Row> {
    (0..count)
        .map(|i| {
            let key = first.wrapping_add(i).checked_rem(rows).unwrap_or(0);
            Row { key, group: key.checked_rem(groups).unwrap_or(0), text: String::from("text") }
        })
        .collect()
}

fn filled(rows: u64, groups: u64) -> Swap {
    let empty = Version { rows: None, groups: None, stamp: 0 };
    Swap(RwLock::new(Arc::new(empty.with(&puts(0, rows, rows, groups)))))
}

fn read(index: &Swap, rows: u64, count: u64, done: &AtomicU64) -> u64 {
    let mut found = 0;
    for i in 0..count {
        let view = index.load();
        found += get(&view.rows, i.wrapping_mul(7919).checked_rem(rows).unwrap_or(0)).is_some() as u64;
    }
    done.fetch_add(1, Ordering::SeqCst);
    found
}

fn read_in_threads(rows: u64, writers: u64, count: u64) -> u64 {
    let (index, done) = (filled(rows, 1000), AtomicU64::new(0));
    thread::scope(|scope| {
        let readers: Vec<_> = (0..3).map(|_| scope.spawn(|| read(&index, rows, count, &done))).collect();
        for _ in 0..writers {
            scope.spawn(|| {
                let mut i = 0u64;
                while done.load(Ordering::SeqCst) < 3 {
                    index.apply(&puts(i.wrapping_mul(104729), 1, rows, 1000));
                    i += 1;
                }
            });
        }
        readers.into_iter().map(|reader| reader.join().unwrap()).sum()
    })
}

fn main() {
    for line in std::io::stdin().lock().lines() {
        let line = line.unwrap();
        let words: Vec<&str> = line.split(' ').collect();
        let numbers: Vec<u64> = words[1..].iter().map(|word| word.parse().expect("a number")).collect();
        let (rows, width, count) = (numbers[0], numbers[1], numbers[2]);
        let answer = match words[0] {
            "group" | "filter" => {
                let view = filled(rows, width).load();
                (0..count)
                    .map(|i| {
                        let group = i.checked_rem(width).unwrap_or(0);
                        if words[0] == "group" {
                            black_box(view.group(group)).len() as u64
                        } else {
                            black_box(view.all().into_iter().filter(|row| row.group == group).collect::<Vec<_>>()).len() as u64
                        }
                    })
                    .sum()
            }
            "apply" => {
                let index = filled(rows, 1000);
                for i in 0..count {
                    index.apply(&puts(i.wrapping_mul(width.wrapping_mul(7919)), width, rows, 1000));
                }
                index.load().stamp
            }
            "read" => read_in_threads(rows, width, count),
            _ => panic!("an order"),
        };
        println!("{answer}");
    }
}
