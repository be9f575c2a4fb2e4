// The same fills by plain Rust: each line is an order, `PATTERN ELEMENTS KEYS LIMIT COUNT`, as crates/tree_bench reads them.
// `versions` fills a path-copying B-tree of order 5, each node one Arc with two Vecs; `owner` fills std's BTreeSet. The limit
// is not looked at. Built by run.sh: rustc -C opt-level=3 -C target-cpu=x86-64-v2.
use std::cmp::Ordering;
use std::collections::BTreeSet;
use std::io::BufRead;
use std::sync::Arc;

const ORDER: usize = 5;
const SKEWED: u64 = 3000;

/// A shared table with its number, ordered by the table.
#[derive(Clone)]
struct Numbered {
    table: Arc<Words>,
    #[allow(dead_code)]
    number: u64,
}

#[derive(PartialEq, Eq, PartialOrd, Ord)]
struct Words {
    words: Vec<u64>,
}

impl PartialEq for Numbered {
    fn eq(&self, other: &Self) -> bool {
        self.table == other.table
    }
}

impl Eq for Numbered {}

impl PartialOrd for Numbered {
    fn partial_cmp(&self, other: &Self) -> Option<Ordering> {
        Some(self.cmp(other))
    }
}

impl Ord for Numbered {
    fn cmp(&self, other: &Self) -> Ordering {
        self.table.words.cmp(&other.table.words)
    }
}

/// At most ORDER - 1 values; a leaf has no children, and any other node one more than values.
struct Node<T> {
    values: Vec<T>,
    children: Vec<Arc<Node<T>>>,
}

enum Put<T> {
    One(Arc<Node<T>>),
    Two(Arc<Node<T>>, T, Arc<Node<T>>),
}

impl<T: Ord + Clone> Node<T> {
    /// Where the value is, or the place where it would go.
    fn place(&self, value: &T) -> Result<usize, usize> {
        for (at, held) in self.values.iter().enumerate() {
            match held.cmp(value) {
                Ordering::Less => {}
                Ordering::Equal => return Ok(at),
                Ordering::Greater => return Err(at),
            }
        }
        Err(self.values.len())
    }

    fn has(&self, value: &T) -> bool {
        let mut node = self;
        loop {
            match node.place(value) {
                Ok(_) => return true,
                Err(at) if at < node.children.len() => node = &node.children[at],
                Err(_) => return false,
            }
        }
    }

    /// This node with an absent value: the nodes of one path are new, and all others shared.
    fn with(&self, value: T) -> Put<T> {
        let at = self.place(&value).unwrap_err();
        let mut values = Vec::with_capacity(ORDER);
        values.extend_from_slice(&self.values);
        let mut children = Vec::new();
        if self.children.is_empty() {
            values.insert(at, value);
        } else {
            children = Vec::with_capacity(ORDER + 1);
            children.extend_from_slice(&self.children);
            match self.children[at].with(value) {
                Put::One(child) => children[at] = child,
                Put::Two(left, middle, right) => {
                    values.insert(at, middle);
                    children[at] = left;
                    children.insert(at + 1, right);
                }
            }
        }
        if values.len() < ORDER {
            return Put::One(Arc::new(Node { values, children }));
        }
        let half = ORDER / 2;
        let more = values.split_off(half + 1);
        let middle = values.pop().unwrap();
        let below = if children.is_empty() { Vec::new() } else { children.split_off(half + 1) };
        let right = Node { values: more, children: below };
        Put::Two(Arc::new(Node { values, children }), middle, Arc::new(right))
    }
}

#[derive(Clone)]
struct Version<T> {
    root: Option<Arc<Node<T>>>,
    len: usize,
}

impl<T: Ord + Clone> Version<T> {
    fn has(&self, value: &T) -> bool {
        self.root.as_ref().is_some_and(|root| root.has(value))
    }

    fn insert(&mut self, value: T) {
        let put = match &self.root {
            None => Put::One(Arc::new(Node { values: vec![value], children: Vec::new() })),
            Some(root) => root.with(value),
        };
        self.root = Some(match put {
            Put::One(root) => root,
            Put::Two(left, middle, right) => Arc::new(Node { values: vec![middle], children: vec![left, right] }),
        });
        self.len += 1;
    }
}

fn mixed(x: u64) -> u64 {
    let mut x = x.wrapping_add(0x9e37_79b9_7f4a_7c15);
    x = (x ^ (x >> 30)).wrapping_mul(0xbf58_476d_1ce4_e5b9);
    x = (x ^ (x >> 27)).wrapping_mul(0x94d0_49bb_1331_11eb);
    x ^ (x >> 31)
}

fn key(is_skewed: bool, at: u64) -> u64 {
    let x = mixed(at);
    if !is_skewed {
        return x;
    }
    let scale = 1u64 << (x % 12);
    mixed((scale + (x >> 32) % scale) % SKEWED)
}

fn fill<T: Ord + Clone>(pattern: &str, values: Vec<T>) -> usize {
    match pattern {
        "versions" => {
            let mut set = Version { root: None, len: 0 };
            for value in values {
                if !set.has(&value) {
                    let mut next = set.clone();
                    next.insert(value);
                    set = next;
                }
            }
            set.len
        }
        "owner" => {
            let mut set = BTreeSet::new();
            for value in values {
                set.insert(value);
            }
            set.len()
        }
        _ => 0,
    }
}

fn main() {
    for line in std::io::stdin().lock().lines() {
        let line = line.unwrap();
        let words: Vec<&str> = line.split(' ').collect();
        let (pattern, is_skewed) = (words[0], words[2] == "skewed");
        let count: u64 = words[4].parse().expect("a count");
        let keys = (0..count).map(|at| key(is_skewed, at));
        let len = if words[1] == "tables" {
            let tables = keys.enumerate().map(|(at, key)| {
                let mut words = Vec::new();
                words.push(key);
                for _ in 0..key % 4 {
                    words.push(key);
                }
                Numbered { table: Arc::new(Words { words }), number: at as u64 }
            });
            fill(pattern, tables.collect())
        } else {
            fill(pattern, keys.collect())
        };
        println!("{len}");
    }
}
