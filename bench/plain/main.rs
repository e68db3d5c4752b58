//! The yardstick of bench/replay and bench/soak: what a plain Rust program in fixed memory needs for the
//! same answers.
//!
//! ```text
//! plain replay           reads a schedule from standard input and writes its trace
//! plain soak SEED N      plays N events drawn from the seed and writes the summary
//! plain random SEED N    writes those N events as a schedule
//! plain lively NODES N   writes N events of a cluster in which packets are heard, clocks drift and nodes crash
//! ```
//!
//! Nodes vote, ask and tell, fence, read their mailboxes, feed their watchdogs and hold the resource as in
//! docs/dev/NODE.md, and each event is judged by the rules of docs/dev/SCHEDULES.md. As in quorumd, input is read in
//! pieces of 4096 bytes, what was played is written before more is read, and a node keeps no history; only
//! the packets and the lost writes grow.
//!
//! What the two measurements do not contain is left out: of the settings all but the ids and votes of the
//! nodes (so no two_node, wait_for_all, last_man_standing or device, and every node is released), messages of
//! an operator, damaged sectors, faults by name, and the limits of lines, events and memory. Whatever is not
//! good ends with a line on standard error and status 1.

mod drawn;
mod fence;
mod heard;
mod model;
mod node;
mod schedule;
mod soak;
mod trace;
mod world;

use std::env;
use std::io::{self, Read, Write};
use std::process::ExitCode;

/// How many bytes are read at once.
const PIECE: usize = 4096;

/// Plays the schedule of standard input, and writes what one piece of it comes to before it reads the next.
fn replay() -> Result<(), String> {
    let mut input = io::stdin().lock();
    let mut output = io::stdout().lock();
    let mut schedule = schedule::Schedule::new();
    let mut piece = [0; PIECE];
    let mut line = Vec::with_capacity(PIECE);
    let mut text = Vec::with_capacity(16 * PIECE);
    loop {
        let count = input.read(&mut piece).map_err(|error| error.to_string())?;
        if count == 0 {
            break;
        }
        for part in piece[..count].split_inclusive(|byte| *byte == b'\n') {
            line.extend_from_slice(part);
            if let Some(whole) = line.strip_suffix(b"\n") {
                schedule.play(whole, &mut text)?;
                line.clear();
            }
        }
        output.write_all(&text).map_err(|error| error.to_string())?;
        text.clear();
    }
    if !line.is_empty() {
        return Err("the last line is not ended".to_string());
    }
    let last = format!("end {}\n", schedule.events()?);
    output
        .write_all(last.as_bytes())
        .map_err(|error| error.to_string())
}

/// A number of the command line.
fn word<T: std::str::FromStr>(text: &str) -> Result<T, String> {
    text.parse().map_err(|_| format!("{text} is no number"))
}

fn run(words: &[&str]) -> Result<(), String> {
    match words {
        ["replay"] => replay(),
        ["soak", seed, events] => {
            print!("{}", soak::soak(word(seed)?, word(events)?));
            Ok(())
        }
        ["random", seed, events] => {
            print!("{}", drawn::random(word(seed)?, word(events)?));
            Ok(())
        }
        ["lively", nodes, events] => {
            print!("{}", drawn::lively(word(nodes)?, word(events)?));
            Ok(())
        }
        _ => Err(
            "usage: plain replay, plain soak SEED N, plain random SEED N, or plain lively NODES N"
                .to_string(),
        ),
    }
}

fn main() -> ExitCode {
    let words: Vec<String> = env::args().skip(1).collect();
    let words: Vec<&str> = words.iter().map(String::as_str).collect();
    match run(&words) {
        Ok(()) => ExitCode::SUCCESS,
        Err(error) => {
            eprintln!("plain: {error}");
            ExitCode::FAILURE
        }
    }
}
