//! The registry through its safe face, on one thread and on two.

use stabby_registry::{Client, Fault};
use std::collections::HashMap;
use std::thread;

#[test]
fn equal_tables_have_one_number() {
    let mut one = Client::new().unwrap();
    let mut other = one.split(1).unwrap();
    assert_eq!(one.insert(&[1, 2]), Ok(0));
    assert_eq!(other.insert(&[]), Ok(1));
    assert_eq!(other.insert(&[1, 2]), Ok(0));
    assert_eq!(
        one.insert_all(&[vec![3], vec![], vec![1, 2], vec![3]]),
        Ok(vec![2, 1, 0, 2])
    );
    assert_eq!(one.insert_all::<Vec<u64>>(&[]), Ok(vec![]));
    assert_eq!((one.count(), other.count()), (3, 3));
}

#[test]
fn entries_have_their_words() {
    let mut client = Client::new().unwrap();
    let long: Vec<u64> = (0..1000).collect();
    assert_eq!(client.insert(&long), Ok(0));
    assert_eq!(client.insert(&[5]), Ok(1));
    assert_eq!(client.try_entry(0), Ok(long));
    assert_eq!(client.try_entry(1), Ok(vec![5]));
    assert_eq!(client.try_entry(2), Err(Fault::Absent));
}

#[test]
fn weights_are_cut_and_summed() {
    let mut one = Client::new().unwrap();
    assert_eq!(one.weight(), 1 << 32);
    assert_eq!(one.split(0).unwrap_err(), Fault::Light);
    assert_eq!(one.split(1 << 32).unwrap_err(), Fault::Light);
    let mut half = one.split(1 << 31).unwrap();
    assert_eq!((one.weight(), half.weight()), (1 << 31, 1 << 31));
    one.join(half).unwrap();
    assert_eq!(one.weight(), 1 << 32);
}

#[test]
fn a_foreign_client_comes_back() {
    let mut one = Client::new().unwrap();
    let mut foreign = Client::new().unwrap();
    foreign.insert(&[1]).unwrap();
    let mut back = one.join(foreign).unwrap_err();
    assert_eq!((one.count(), back.count()), (0, 1));
    assert_eq!(back.try_entry(0), Ok(vec![1]));
}

#[test]
fn the_registry_lives_as_long_as_a_client() {
    let mut one = Client::new().unwrap();
    let mut other = one.split(1).unwrap();
    one.insert(&[1, 2, 3]).unwrap();
    drop(one);
    assert_eq!(other.try_entry(0), Ok(vec![1, 2, 3]));
}

fn work(client: &mut Client, first: u64) -> Vec<(Vec<u64>, u64)> {
    let table = |i: u64| vec![(i * 11 + first) % 700, 7, i % 2];
    (0..20_000)
        .map(|i| (table(i), client.insert(&table(i)).unwrap()))
        .collect()
}

#[test]
fn two_threads_agree() {
    let mut one = Client::new().unwrap();
    let mut two = one.split(1 << 16).unwrap();
    let (a, b) = thread::scope(|threads| {
        let a = threads.spawn(|| work(&mut one, 0));
        let b = threads.spawn(|| work(&mut two, 3));
        (a.join().unwrap(), b.join().unwrap())
    });
    let mut numbers = HashMap::new();
    for (table, number) in a.into_iter().chain(b) {
        assert_eq!(*numbers.entry(table).or_insert(number), number);
    }
    let count = one.count();
    let mut all: Vec<u64> = numbers.values().copied().collect();
    all.sort_unstable();
    assert_eq!(all, (0..count).collect::<Vec<_>>());
    for (table, number) in numbers.iter().take(200) {
        assert_eq!(two.try_entry(*number).as_ref(), Ok(table));
    }
    one.join(two).unwrap();
    assert_eq!(one.weight(), 1 << 32);
}
