// The same rounds over std's String, alloc and Layout: reads a line `WORK ROUNDS`, and prints a sum.
// Built by run.sh: rustc -C opt-level=3 -C target-cpu=x86-64-v2.
use std::alloc::{Layout, alloc_zeroed, dealloc, realloc};
use std::hint::black_box;

const PIECE: &str = "a piece of text";

fn concat_rounds(rounds: u64) -> u64 {
    let mut sum = 0_u64;
    for _ in 0..rounds {
        let mut text = String::new();
        for _ in 0..100 {
            text.push_str(black_box(PIECE));
        }
        sum = sum.wrapping_add(black_box(text).len() as u64);
    }
    sum
}

// 64 texts of 64 bytes, which differ in their last two.
fn texts() -> Vec<String> {
    (0..64).map(|number| "-".repeat(62) + &format!("{number:02o}")).collect()
}

fn from_rounds(texts: &[String], rounds: u64) -> u64 {
    let mut sum = 0_u64;
    for round in 0..rounds {
        let made = String::from(texts[(round % 64) as usize].as_str());
        sum = sum.wrapping_add(black_box(made).len() as u64);
    }
    sum
}

fn clone_rounds(texts: &[String], rounds: u64) -> u64 {
    let mut sum = 0_u64;
    for round in 0..rounds {
        let made = texts[(round % 64) as usize].clone();
        sum = sum.wrapping_add(black_box(made).len() as u64);
    }
    sum
}

fn compare_rounds(texts: &[String], rounds: u64) -> u64 {
    let mut sum = 0_u64;
    for round in 0..rounds {
        let a = &texts[(round % 64) as usize];
        let b = &texts[(round / 64 % 64) as usize];
        sum = sum.wrapping_add((a == b) as u64).wrapping_add((a < b) as u64);
    }
    sum
}

// A block of 64 zero bytes, which then gets 128, and is freed.
fn block_rounds(rounds: u64) -> u64 {
    let mut sum = 0_u64;
    for _ in 0..rounds {
        unsafe {
            let layout = Layout::from_size_align_unchecked(64, 8);
            let block = black_box(alloc_zeroed(layout));
            let grown = black_box(realloc(block, layout, 128));
            // The bytes behind the old ones are zero too, as they are in a heap of stabby_block.
            grown.add(64).write_bytes(0, 64);
            dealloc(black_box(grown), Layout::from_size_align_unchecked(128, 8));
        }
        sum = sum.wrapping_add(128);
    }
    sum
}

// A block of 64 zero bytes that is freed.
fn alloc_rounds(rounds: u64) -> u64 {
    let mut sum = 0_u64;
    for _ in 0..rounds {
        unsafe {
            let layout = Layout::from_size_align_unchecked(64, 8);
            dealloc(black_box(alloc_zeroed(layout)), layout);
        }
        sum = sum.wrapping_add(64);
    }
    sum
}

fn layout_rounds(rounds: u64) -> Option<u64> {
    let mut sum = 0_u64;
    for round in 0..rounds {
        let first = Layout::from_size_align(black_box((round % 1024) as usize * 4 + 4), 8).ok()?;
        let (both, _) = first.extend(black_box(Layout::from_size_align(5, 4).ok()?)).ok()?;
        let (all, _) = both.pad_to_align().extend(Layout::new::<u64>()).ok()?;
        sum = sum.wrapping_add(all.pad_to_align().size() as u64);
    }
    Some(sum)
}

fn main() {
    let mut line = String::new();
    std::io::stdin().read_line(&mut line).unwrap();
    let (work, rounds) = line.trim().split_once(' ').unwrap();
    let rounds: u64 = rounds.parse().unwrap();
    let sum = match work {
        "concat" => concat_rounds(rounds),
        "from_str" => from_rounds(&texts(), rounds),
        "copy" => clone_rounds(&texts(), rounds),
        "compare" => compare_rounds(&texts(), rounds),
        "alloc" => alloc_rounds(rounds),
        "realloc" => block_rounds(rounds),
        _ => layout_rounds(rounds).unwrap(),
    };
    println!("{sum}");
}
