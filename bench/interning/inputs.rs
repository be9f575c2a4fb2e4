//! Makes the inputs of the bench of interning: `inputs FOLDER` writes each of them there, the same in each run.

use std::fmt::Write as _;
use std::fs;
use std::io;
use std::path::Path;

const LIMIT: usize = 16_777_216;

/// Numbers that look random.
struct Numbers(u64);

impl Numbers {
    fn next(&mut self) -> u64 {
        self.0 ^= self.0 << 13;
        self.0 ^= self.0 >> 7;
        self.0 ^= self.0 << 17;
        self.0
    }
}

fn push_line(text: &mut String, words: impl Iterator<Item = u64>) {
    for (at, word) in words.enumerate() {
        let between = if at > 0 { " " } else { "" };
        let _ = write!(text, "{between}{word}");
    }
    text.push('\n');
}

/// Lines of 1 to 4 words. No two are the same: the first word is the place, with its bits mixed.
fn distinct(count: u64, numbers: &mut Numbers) -> String {
    let mut text = String::new();
    for place in 0..count {
        let first = place.wrapping_mul(0x9e37_79b9_7f4a_7c15);
        let more = (0..numbers.next() % 4).map(|_| numbers.next()).collect::<Vec<_>>();
        push_line(&mut text, std::iter::once(first).chain(more));
    }
    text
}

/// Lines of two words, of which the k-th of so many comes 1/k as often as the first.
fn skewed(count: u64, distinct: usize, numbers: &mut Numbers) -> String {
    let mut bounds = Vec::with_capacity(distinct);
    let mut sum = 0.0;
    for k in 1..=distinct {
        sum += 1.0 / k as f64;
        bounds.push(sum);
    }
    let mut text = String::new();
    for _ in 0..count {
        let at = (numbers.next() >> 11) as f64 / (1u64 << 53) as f64 * sum;
        let k = bounds.partition_point(|bound| *bound < at) as u64;
        push_line(&mut text, [k.wrapping_mul(0x9e37_79b9_7f4a_7c15) >> 20, k].into_iter());
    }
    text
}

fn main() -> io::Result<()> {
    let folder = std::env::args().nth(1).expect("the folder");
    let folder = Path::new(&folder);
    let mut numbers = Numbers(0x2545_f491_4f6c_dd1d);
    let put = |name: &str, text: String| {
        assert!(text.len() <= LIMIT, "{name} is too long");
        fs::write(folder.join(name), text)
    };

    put("distinct", distinct(120_000, &mut numbers))?;
    put("half_distinct", distinct(60_000, &mut numbers))?;
    put("zipf", skewed(500_000, 50_000, &mut numbers))?;
    let mut rising = String::new();
    for place in 0..500_000 {
        push_line(&mut rising, [1_000_000 + 3 * place, place % 7].into_iter());
    }
    put("rising", rising)?;
    let mut thirteen = String::new();
    for _ in 0..1_000_000 {
        let k = numbers.next() % 13;
        push_line(&mut thirteen, [k * k, 1000 - k].into_iter());
    }
    put("thirteen", thirteen)?;
    let mut one_word = String::with_capacity(LIMIT);
    while one_word.len() + 4 <= LIMIT {
        push_line(&mut one_word, std::iter::once(numbers.next() % 1000));
    }
    put("one_word", one_word)?;
    put("empty", "\n".repeat(LIMIT))
}
