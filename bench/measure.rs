//! `measure RUNS INPUT OUTPUT A.. -- B..` runs the commands A and B in turns, RUNS times each, on the file INPUT with their
//! output to the file OUTPUT, and prints for each its least processor time and least wall time in milliseconds, and its
//! greatest peak of memory in MB. Processor time is what ratios are made of: it moves least where others use the machine.

use std::fs::File;
use std::process::{Command, ExitCode, Stdio};
use std::time::Instant;

#[repr(C)]
#[derive(Clone, Copy, Default)]
struct Time {
    seconds: i64,
    microseconds: i64,
}

/// `struct rusage` of Linux on 64 bits.
#[repr(C)]
#[derive(Clone, Copy, Default)]
struct Usage {
    user: Time,
    system: Time,
    peak_kilobytes: i64,
    rest: [i64; 13],
}

unsafe extern "C" {
    fn wait4(pid: i32, status: *mut i32, options: i32, usage: *mut Usage) -> i32;
}

#[derive(Clone, Copy)]
struct Figures {
    processor: f64,
    wall: f64,
    peak: f64,
}

fn milliseconds(time: Time) -> f64 {
    time.seconds as f64 * 1e3 + time.microseconds as f64 / 1e3
}

fn run(words: &[String], input: &str, output: &str) -> Figures {
    let output = File::create(output).expect("the output");
    let begun = Instant::now();
    let child = Command::new(&words[0])
        .args(&words[1..])
        .stdin(File::open(input).expect("the input"))
        .stdout(output)
        .stderr(Stdio::null())
        .spawn()
        .expect("the command");
    let (mut status, mut usage) = (0, Usage::default());
    // The child is waited for here and nowhere else.
    let waited = unsafe { wait4(child.id() as i32, &mut status, 0, &mut usage) };
    assert!(waited == child.id() as i32 && status & 0x7f == 0, "the command was ended");
    Figures {
        processor: milliseconds(usage.user) + milliseconds(usage.system),
        wall: begun.elapsed().as_secs_f64() * 1e3,
        peak: usage.peak_kilobytes as f64 / 1e3,
    }
}

fn best(so_far: Option<Figures>, next: Figures) -> Option<Figures> {
    let before = so_far.unwrap_or(next);
    Some(Figures {
        processor: before.processor.min(next.processor),
        wall: before.wall.min(next.wall),
        peak: before.peak.max(next.peak),
    })
}

fn main() -> ExitCode {
    let words: Vec<String> = std::env::args().skip(1).collect();
    let runs: usize = words[0].parse().expect("the number of runs");
    let commands: Vec<&[String]> = words[3..].split(|word| word == "--").collect();
    let mut figures = vec![None; commands.len()];
    for _ in 0..runs {
        for (at, command) in commands.iter().enumerate() {
            figures[at] = best(figures[at], run(command, &words[1], &words[2]));
        }
    }
    for each in figures.into_iter().flatten() {
        println!("{:.1} {:.1} {:.0}", each.processor, each.wall, each.peak);
    }
    ExitCode::SUCCESS
}
