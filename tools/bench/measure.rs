//! Runs a program and prints its processor time in microseconds and its peak memory in KiB: `measure OUT PROGRAM WORD ..`.
//!
//! rustc --edition 2021 -C opt-level=3 tools/bench/measure.rs -o FOLDER/measure
//!
//! A child's peak memory counts the memory of the process that started it, so this small process starts it.
use std::process::{Command, ExitCode};

#[repr(C)]
#[derive(Default)]
struct Usage {
    // user and system time, each in seconds and microseconds
    times: [i64; 4],
    peak: i64,
    others: [i64; 13],
}

extern "C" {
    fn getrusage(who: i32, usage: *mut Usage) -> i32;
}

const CHILDREN: i32 = -1;

fn main() -> ExitCode {
    let words: Vec<String> = std::env::args().skip(1).collect();
    let done = Command::new(&words[1]).args(&words[2..]).status().expect("a program");
    let mut usage = Usage::default();
    assert_eq!(unsafe { getrusage(CHILDREN, &mut usage) }, 0);
    let [user, more, system, rest] = usage.times;
    let text = format!("{} {}\n", (user + system) * 1_000_000 + more + rest, usage.peak);
    std::fs::write(&words[0], text).expect("a file");
    ExitCode::from(done.code().map_or(255, |code| code as u8))
}
