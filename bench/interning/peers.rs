//! The job of `stabby_intern ranks W` by plain Rust: `peers NUMBERING W` reads standard input, and writes each line's rank
//! and then the distinct lines in order. NUMBERING is what the W threads number their shares by:
//!
//! - `rcu`: versions of a path-copying B-tree of order 5 in an `ArcSwap`, by its `rcu`. Where arc-swap wasn't given, in an
//!   `RwLock` of an `Arc`, which is as `ArcSwap` but that a load takes the lock.
//! - `mutex`: a `BTreeMap` under a `Mutex`.
//! - `sort`: no threads: all tables are sorted, and equal ones put together.
//!
//! The lines are parsed and numbers printed as the proved program does both: line by line, into a list of the exact
//! capacity, and digits into one buffer, which is written at the end. A line that spells no table ends the program with
//! status 3.

use std::cmp::Ordering;
use std::collections::BTreeMap;
use std::io::{self, Read, Write};
use std::process::ExitCode;
use std::sync::{Arc, Mutex};
use std::thread;

type Table = Vec<u64>;

/// The number of each table, and the distinct tables in order, each with its number.
type Interned = (Vec<usize>, Vec<(Arc<[u64]>, usize)>);

fn with_digit(value: u64, byte: u8) -> Option<u64> {
    let digit = u64::from(byte.wrapping_sub(b'0'));
    if digit > 9 {
        return None;
    }
    value.checked_mul(10)?.checked_add(digit)
}

fn parse_line(line: &[u8]) -> Option<Table> {
    if line.is_empty() {
        return Some(Vec::new());
    }
    let mut words = Vec::with_capacity(1 + line.iter().filter(|b| **b == b' ').count());
    let mut value = 0;
    let mut begun = false;
    for b in line {
        match with_digit(value, *b) {
            Some(next) => {
                value = next;
                begun = true;
            }
            None => {
                if *b != b' ' || !begun {
                    return None;
                }
                words.push(value);
                value = 0;
                begun = false;
            }
        }
    }
    if !begun {
        return None;
    }
    words.push(value);
    Some(words)
}

fn parse(text: &[u8]) -> Option<Vec<Table>> {
    let mut tables = Vec::new();
    let mut rest = text;
    while !rest.is_empty() {
        let end = rest.iter().position(|b| *b == b'\n');
        let (line, after) = match end {
            Some(at) => (&rest[..at], &rest[at + 1..]),
            None => (rest, &rest[rest.len()..]),
        };
        tables.push(parse_line(line)?);
        rest = after;
    }
    Some(tables)
}

/// Gives each worker its share of the tables, and puts the answers together.
fn in_shares(tables: &[Table], workers: usize, number: impl Fn(&Table) -> usize + Sync) -> Vec<usize> {
    let size = tables.len().div_ceil(workers).max(1);
    thread::scope(|scope| {
        let number = &number;
        let started: Vec<_> = tables
            .chunks(size)
            .map(|share| scope.spawn(move || share.iter().map(number).collect::<Vec<_>>()))
            .collect();
        let mut all = Vec::new();
        for worker in started {
            let more = worker.join().expect("a worker");
            if all.is_empty() {
                all = more;
            } else {
                all.extend_from_slice(&more);
            }
        }
        all
    })
}

fn under_a_mutex(tables: &[Table], workers: usize) -> Interned {
    let known: Mutex<BTreeMap<Arc<[u64]>, usize>> = Mutex::new(BTreeMap::new());
    let numbers = in_shares(tables, workers, |table| {
        let mut known = known.lock().expect("the lock");
        if let Some(number) = known.get(table.as_slice()) {
            return *number;
        }
        let number = known.len();
        known.insert(Arc::from(table.as_slice()), number);
        number
    });
    (numbers, known.into_inner().expect("the lock").into_iter().collect())
}

fn by_sorting(tables: &[Table]) -> Interned {
    let mut placed: Vec<(&[u64], usize)> = tables.iter().enumerate().map(|(place, table)| (table.as_slice(), place)).collect();
    placed.sort_unstable();
    let mut numbers = vec![0; tables.len()];
    let mut entries: Vec<(Arc<[u64]>, usize)> = Vec::new();
    for (table, place) in placed {
        if entries.last().is_none_or(|last| &*last.0 != table) {
            entries.push((Arc::from(table), entries.len()));
        }
        numbers[place] = entries.len() - 1;
    }
    (numbers, entries)
}

const ORDER: usize = 5;

/// At most ORDER - 1 entries; a leaf has no children, and any other node one more than entries.
struct Node {
    entries: Vec<(Arc<[u64]>, usize)>,
    children: Vec<Arc<Node>>,
}

enum Put {
    One(Arc<Node>),
    Two(Arc<Node>, (Arc<[u64]>, usize), Arc<Node>),
}

impl Node {
    /// The number of the table, or the place where it would go.
    fn place(&self, table: &[u64]) -> Result<usize, usize> {
        for (at, entry) in self.entries.iter().enumerate() {
            match (*entry.0).cmp(table) {
                Ordering::Less => {}
                Ordering::Equal => return Ok(entry.1),
                Ordering::Greater => return Err(at),
            }
        }
        Err(self.entries.len())
    }

    /// This node with an absent table: the nodes of one path are new, and all others shared.
    fn with(&self, table: Arc<[u64]>, number: usize) -> Put {
        let at = self.place(&table).expect_err("an absent table");
        let mut entries = Vec::with_capacity(ORDER);
        entries.extend_from_slice(&self.entries);
        let mut children = Vec::new();
        if self.children.is_empty() {
            entries.insert(at, (table, number));
        } else {
            children = Vec::with_capacity(ORDER + 1);
            children.extend_from_slice(&self.children);
            match self.children[at].with(table, number) {
                Put::One(child) => children[at] = child,
                Put::Two(left, middle, right) => {
                    entries.insert(at, middle);
                    children[at] = left;
                    children.insert(at + 1, right);
                }
            }
        }
        if entries.len() < ORDER {
            return Put::One(Arc::new(Node { entries, children }));
        }
        let half = ORDER / 2;
        let more = entries.split_off(half + 1);
        let middle = entries.pop().expect("an entry");
        let below = if children.is_empty() { Vec::new() } else { children.split_off(half + 1) };
        let right = Node { entries: more, children: below };
        Put::Two(Arc::new(Node { entries, children }), middle, Arc::new(right))
    }

    fn list(&self, all: &mut Vec<(Arc<[u64]>, usize)>) {
        for (at, entry) in self.entries.iter().enumerate() {
            if let Some(child) = self.children.get(at) {
                child.list(all);
            }
            all.push(entry.clone());
        }
        if let Some(child) = self.children.get(self.entries.len()) {
            child.list(all);
        }
    }
}

struct Version {
    root: Option<Arc<Node>>,
    len: usize,
}

impl Version {
    fn get(&self, table: &[u64]) -> Option<usize> {
        let mut node = self.root.as_deref()?;
        loop {
            match node.place(table) {
                Ok(number) => return Some(number),
                Err(at) => node = node.children.get(at)?,
            }
        }
    }

    fn with(&self, table: Arc<[u64]>) -> Version {
        let put = match &self.root {
            None => Put::One(Arc::new(Node { entries: vec![(table, self.len)], children: Vec::new() })),
            Some(root) => root.with(table, self.len),
        };
        let root = match put {
            Put::One(root) => root,
            Put::Two(left, middle, right) => Arc::new(Node { entries: vec![middle], children: vec![left, right] }),
        };
        Version { root: Some(root), len: self.len + 1 }
    }
}

#[cfg(arc_swap)]
type Cell = arc_swap::ArcSwap<Version>;

/// The version that the cell has.
#[cfg(arc_swap)]
fn load(cell: &Cell) -> arc_swap::Guard<Arc<Version>> {
    cell.load()
}

/// Puts the next version in the old one's place, unless another came between.
#[cfg(arc_swap)]
fn swap(cell: &Cell, seen: &Arc<Version>, next: Arc<Version>) -> bool {
    Arc::ptr_eq(&cell.compare_and_swap(seen, next), seen)
}

#[cfg(arc_swap)]
fn new_cell(first: Version) -> Cell {
    arc_swap::ArcSwap::from_pointee(first)
}

#[cfg(not(arc_swap))]
type Cell = std::sync::RwLock<Arc<Version>>;

#[cfg(not(arc_swap))]
fn load(cell: &Cell) -> Arc<Version> {
    Arc::clone(&cell.read().expect("the lock"))
}

#[cfg(not(arc_swap))]
fn swap(cell: &Cell, seen: &Arc<Version>, next: Arc<Version>) -> bool {
    let mut now = cell.write().expect("the lock");
    if !Arc::ptr_eq(&now, seen) {
        return false;
    }
    let old = std::mem::replace(&mut *now, next);
    drop(now);
    drop(old);
    true
}

#[cfg(not(arc_swap))]
fn new_cell(first: Version) -> Cell {
    std::sync::RwLock::new(Arc::new(first))
}

fn by_versions(tables: &[Table], workers: usize) -> Interned {
    let cell = new_cell(Version { root: None, len: 0 });
    let numbers = in_shares(tables, workers, |table| {
        loop {
            let seen = load(&cell);
            if let Some(number) = seen.get(table) {
                return number;
            }
            let next = seen.with(Arc::from(table.as_slice()));
            if swap(&cell, &seen, Arc::new(next)) {
                return seen.len;
            }
        }
    });
    let mut entries = Vec::new();
    if let Some(root) = &load(&cell).root {
        root.list(&mut entries);
    }
    (numbers, entries)
}

fn push_number(report: &mut Vec<u8>, number: u64) {
    let mut digits = [0; 20];
    let mut from = digits.len();
    let mut rest = number;
    loop {
        from -= 1;
        digits[from] = b'0' + (rest % 10) as u8;
        rest /= 10;
        if rest == 0 {
            break;
        }
    }
    report.extend_from_slice(&digits[from..]);
}

/// The rank of each table, and then the distinct tables in order.
fn make_report((numbers, entries): &Interned) -> Vec<u8> {
    let mut places = vec![0; entries.len()];
    for (place, (_, number)) in entries.iter().enumerate() {
        places[*number] = place as u64;
    }
    let mut report = Vec::new();
    for number in numbers {
        push_number(&mut report, places[*number]);
        report.push(b'\n');
    }
    for (table, _) in entries {
        for (at, word) in table.iter().enumerate() {
            if at > 0 {
                report.push(b' ');
            }
            push_number(&mut report, *word);
        }
        report.push(b'\n');
    }
    report
}

fn main() -> ExitCode {
    let words: Vec<String> = std::env::args().skip(1).collect();
    let workers = words[1].parse().expect("the number of workers");
    let mut text = Vec::new();
    if io::stdin().read_to_end(&mut text).is_err() {
        return ExitCode::from(5);
    }
    let Some(tables) = parse(&text) else {
        return ExitCode::from(3);
    };
    let interned = match words[0].as_str() {
        "rcu" => by_versions(&tables, workers),
        "mutex" => under_a_mutex(&tables, workers),
        "sort" => by_sorting(&tables),
        _ => return ExitCode::from(2),
    };
    match io::stdout().write_all(&make_report(&interned)) {
        Ok(()) => ExitCode::SUCCESS,
        Err(_) => ExitCode::from(6),
    }
}
