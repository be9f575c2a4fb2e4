//! Makes the inputs of the bench: `inputs FOLDER` writes each of them there.
//!
//! A name that ends in `.bad` is the same input with a last line that spells no table, so that a program reads and
//! parses it whole, and does nothing more.

use std::fmt::Write as _;
use std::fs;
use std::io;
use std::path::Path;

const LIMIT: usize = 16_777_216;

/// Numbers that look random, and are the same in each run.
struct Numbers(u64);

impl Numbers {
    fn next(&mut self) -> u64 {
        self.0 ^= self.0 << 13;
        self.0 ^= self.0 >> 7;
        self.0 ^= self.0 << 17;
        self.0
    }
}

/// Lines of one size each, up to the limit, the last two bytes of which are left for a bad line.
fn lines_up_to(limit: usize, mut line: impl FnMut(&mut String)) -> String {
    let mut text = String::with_capacity(limit);
    let mut next = String::new();
    loop {
        next.clear();
        line(&mut next);
        if text.len() + next.len() + 3 > limit {
            return text;
        }
        text.push_str(&next);
        text.push('\n');
    }
}

fn spell(line: &mut String, words: impl Iterator<Item = u64>) {
    for (at, word) in words.enumerate() {
        let between = if at > 0 { " " } else { "" };
        let _ = write!(line, "{between}{word}");
    }
}

fn put(folder: &Path, name: &str, text: &str) -> io::Result<()> {
    fs::write(folder.join(name), text)?;
    fs::write(folder.join(format!("{name}.bad")), format!("{text}x\n"))
}

fn main() -> io::Result<()> {
    let folder = std::env::args().nth(1).expect("the folder");
    let folder = Path::new(&folder);
    let mut numbers = Numbers(0x9e37_79b9_7f4a_7c15);

    // 16 MiB each: lines of three words of up to 20 digits; lines of a short number; one of these and 7, with few
    // distinct lines; 160 lines of 100,000 bytes or so; and empty lines.
    let long = lines_up_to(LIMIT, |line| spell(line, (0..3).map(|_| numbers.next())));
    put(folder, "long_words", &long)?;
    let short = lines_up_to(LIMIT, |line| spell(line, [numbers.next() % 1000].into_iter()));
    put(folder, "short_lines", &short)?;
    let few = lines_up_to(LIMIT, |line| spell(line, [numbers.next() % 3000, 7].into_iter()));
    put(folder, "few_distinct", &few)?;
    let wide = lines_up_to(LIMIT, |line| spell(line, (0..20_000).map(|_| numbers.next() % 10_000)));
    put(folder, "many_words", &wide)?;
    let digits = lines_up_to(LIMIT, |line| spell(line, (0..5_000).map(|_| numbers.next())));
    put(folder, "many_long_words", &digits)?;
    put(folder, "empty_lines", &"\n".repeat(LIMIT - 2))?;
    fs::write(folder.join("worst"), "\n".repeat(LIMIT))
}
