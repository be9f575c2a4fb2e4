//! The job of `stabby_intern ranks` by plain Rust, with the standard library alone.
//!
//! `plain parse PARSER` reads standard input and parses it; `plain ranks PARSER` does the whole job. PARSER is `split`, by
//! `split` and `str::parse`, or `bytes`, by one loop over the bytes. All print by `write!`, a word at a time, into a buffered
//! standard output. A line that spells no table ends the program with status 3.

use std::collections::BTreeMap;
use std::io::{self, BufWriter, Read, Write};
use std::process::ExitCode;

type Table = Vec<u64>;

/// The number of each table, and the distinct tables in order, each with its number.
type Numbered<'a> = (Vec<usize>, Vec<(&'a [u64], usize)>);

fn parse_word(run: &[u8]) -> Option<u64> {
    if run.is_empty() || !run.iter().all(u8::is_ascii_digit) {
        return None;
    }
    std::str::from_utf8(run).ok()?.parse().ok()
}

fn parse_line(line: &[u8]) -> Option<Table> {
    if line.is_empty() {
        return Some(Vec::new());
    }
    line.split(|b| *b == b' ').map(parse_word).collect()
}

/// By `split` and `str::parse`. An error is the number of the first line that spells no table.
fn parse_by_split(text: &[u8]) -> Result<Vec<Table>, usize> {
    let mut tables = Vec::new();
    if text.is_empty() {
        return Ok(tables);
    }
    let body = text.strip_suffix(b"\n").unwrap_or(text);
    for (at, line) in body.split(|b| *b == b'\n').enumerate() {
        tables.push(parse_line(line).ok_or(at + 1)?);
    }
    Ok(tables)
}

/// By one loop over the bytes.
fn parse_by_bytes(text: &[u8]) -> Result<Vec<Table>, usize> {
    let mut tables = Vec::new();
    let mut words = Vec::new();
    let mut value: Option<u64> = None;
    for b in text {
        let bad = tables.len() + 1;
        match b {
            b'\n' => {
                match value.take() {
                    Some(word) => words.push(word),
                    None if words.is_empty() => {}
                    None => return Err(bad),
                }
                tables.push(std::mem::take(&mut words));
            }
            b' ' => words.push(value.take().ok_or(bad)?),
            b'0'..=b'9' => {
                let digit = u64::from(b - b'0');
                let next = value.unwrap_or(0).checked_mul(10).and_then(|v| v.checked_add(digit));
                value = Some(next.ok_or(bad)?);
            }
            _ => return Err(bad),
        }
    }
    match value {
        Some(word) => {
            words.push(word);
            tables.push(words);
        }
        None if words.is_empty() => {}
        None => return Err(tables.len() + 1),
    }
    Ok(tables)
}

/// The number of each table, and the distinct tables in order, each with its number.
fn number_all(tables: &[Table]) -> Numbered<'_> {
    let mut known: BTreeMap<&[u64], usize> = BTreeMap::new();
    let mut numbers = Vec::with_capacity(tables.len());
    for table in tables {
        let next = known.len();
        numbers.push(*known.entry(table).or_insert(next));
    }
    (numbers, known.into_iter().collect())
}

/// Writes the rank of each table, and then the distinct tables in order.
fn write_ranks((numbers, entries): Numbered) -> io::Result<()> {
    let mut places = vec![0; entries.len()];
    for (place, (_, number)) in entries.iter().enumerate() {
        places[*number] = place;
    }
    let mut out = BufWriter::new(io::stdout().lock());
    for number in &numbers {
        writeln!(out, "{}", places[*number])?;
    }
    for (table, _) in entries {
        for (at, word) in table.iter().enumerate() {
            if at > 0 {
                write!(out, " ")?;
            }
            write!(out, "{word}")?;
        }
        writeln!(out)?;
    }
    out.flush()
}

fn main() -> ExitCode {
    let words: Vec<String> = std::env::args().skip(1).collect();
    let words: Vec<&str> = words.iter().map(String::as_str).collect();
    let mut text = Vec::new();
    if io::stdin().read_to_end(&mut text).is_err() {
        return ExitCode::from(5);
    }
    let parsed = match words[..] {
        [_, "split", ..] => parse_by_split(&text),
        [_, "bytes", ..] => parse_by_bytes(&text),
        _ => return ExitCode::from(2),
    };
    let Ok(tables) = parsed else {
        return ExitCode::from(3);
    };
    if words[0] != "ranks" {
        return ExitCode::SUCCESS;
    }
    match write_ranks(number_all(&tables)) {
        Ok(()) => ExitCode::SUCCESS,
        Err(_) => ExitCode::from(6),
    }
}
