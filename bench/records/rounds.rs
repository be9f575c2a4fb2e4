//! The record `Q` of `run.sh` by plain Rust: a struct that is written by `to_le_bytes` and read by `from_le_bytes`, its
//! head compared as a slice. Lines of the input are `writes MESSAGE N` and `reads MESSAGE N`, as for `record_bench`.
use std::convert::TryInto;
use std::hint::black_box;
use std::io::{BufRead, stdin};

struct P {
    a: u8,
    b: u32,
}

struct Q {
    x: u8,
    p: P,
    y: u16,
}

/// What `run.sh` gives, up to the body.
const HEAD: &[u8] = b"SR1\n\x01Q\x65\0\0\0\0\0\0\0\x03\x01x\x01\x01p\x05\x01P\x64\0\0\0\0\0\0\0\x02\x01a\x01\x01b\x03\x01y\x02";

impl Q {
    fn write(&self) -> Vec<u8> {
        let mut out = Vec::with_capacity(HEAD.len() + 16);
        out.extend_from_slice(HEAD);
        out.extend_from_slice(&[self.x, 0, 0, 0, self.p.a, 0, 0, 0]);
        out.extend_from_slice(&self.p.b.to_le_bytes());
        out.extend_from_slice(&self.y.to_le_bytes());
        out.extend_from_slice(&[0, 0]);
        out
    }

    fn read(bytes: &[u8]) -> Option<Q> {
        let body: &[u8; 16] = bytes.strip_prefix(HEAD)?.try_into().ok()?;
        if [1, 2, 3, 5, 6, 7, 14, 15].iter().any(|&at| body[at] != 0) {
            return None;
        }
        Some(Q {
            x: body[0],
            p: P { a: body[4], b: u32::from_le_bytes(body[8..12].try_into().ok()?) },
            y: u16::from_le_bytes(body[12..14].try_into().ok()?),
        })
    }
}

fn bytes_of(hex: &str) -> Option<Vec<u8>> {
    (0..hex.len() / 2).map(|at| u8::from_str_radix(hex.get(2 * at..2 * at + 2)?, 16).ok()).collect()
}

fn answer(line: &str) -> Option<u64> {
    let mut words = line.split(' ');
    let (name, message, count) = (words.next()?, bytes_of(words.next()?)?, words.next()?.parse::<u64>().ok()?);
    let record = Q::read(&message)?;
    let mut sum = 0u64;
    for _ in 0..count {
        sum += match name {
            "writes" => black_box(black_box(&record).write()).len() as u64,
            _ => black_box(Q::read(black_box(&message))?).x as u64,
        };
    }
    Some(sum)
}

fn main() {
    for line in stdin().lock().lines() {
        match answer(&line.expect("a line")) {
            Some(sum) => println!("{sum}"),
            None => println!("not an order"),
        }
    }
}
