//! `words spans W` over a text from standard input, by plain Rust: a `HashMap` from each word to its spans, which are then
//! sorted by word. W is read and left aside.

use std::collections::HashMap;
use std::io::{Read, Write};

fn main() {
    let spans_wanted = std::env::args().nth(1).as_deref() == Some("spans");
    let mut text = String::new();
    std::io::stdin().read_to_string(&mut text).expect("a text");
    let bytes = text.as_bytes();
    let is_word = |byte: u8| byte.is_ascii_alphanumeric() || byte == b'_';
    let mut found: HashMap<&str, Vec<(usize, usize)>> = HashMap::new();
    let mut at = 0;
    while at < bytes.len() {
        if !is_word(bytes[at]) {
            at += 1;
            continue;
        }
        let from = at;
        while at < bytes.len() && is_word(bytes[at]) {
            at += 1;
        }
        found.entry(&text[from..at]).or_default().push((from, at));
    }
    let mut words: Vec<_> = found.into_iter().collect();
    words.sort_unstable();
    let mut out = Vec::new();
    for (word, spans) in words {
        out.extend_from_slice(word.as_bytes());
        if spans_wanted {
            for (from, to) in spans {
                write!(out, " {from}-{to}").expect("memory");
            }
        } else {
            write!(out, " {}", spans.len()).expect("memory");
        }
        out.push(b'\n');
    }
    std::io::stdout().write_all(&out).expect("a sink");
}
