//! The quickest `replay` that is known to write the same bytes as `quorumd replay`: a limit to measure by, and no
//! aim. It takes what bench/plain takes, on one thread, and keeps what it writes often as text: the number of the
//! event, the time, who holds, the end of each node's line, and the asks of each node. Lines are read and written
//! where they stand in their buffers, without a check of the room (text.rs).

mod acts;
mod events;
mod seat;
mod text;
mod world;

use std::fs::File;
use std::io::{Read, Write};
use std::os::fd::AsFd;
use text::{Fault, Reader, Writer, LONGEST_LINE};
use world::{Cluster, World};

const PIECE: usize = 1 << 16;

/// Settings and times, as far as they were read.
#[derive(Default)]
struct Head {
    ids: Vec<(u32, u32)>,
    is_over: bool,
}

fn file(stream: impl AsFd) -> File {
    File::from(stream.as_fd().try_clone_to_owned().expect("a stream"))
}

fn fails(line: u64, fault: Fault) -> ! {
    eprintln!("fast: line {line}: {fault}");
    std::process::exit(1)
}

impl Head {
    /// Takes a line; the last one of a head makes the world.
    fn take(&mut self, line: &str) -> Option<World> {
        if self.is_over {
            let words = line.strip_prefix("timing ").expect("the times");
            let times: Vec<u64> = words
                .split(' ')
                .map(|word| word.parse().expect("a time"))
                .collect();
            self.ids.sort();
            return Some(World::new(Cluster::new(&self.ids, &times)));
        }
        self.is_over = line == "----";
        if let Some(id) = line.strip_prefix("nodeid: ") {
            self.ids.push((id.parse().expect("an id"), 1));
        } else if let Some(votes) = line.strip_prefix("quorum_votes: ") {
            self.ids.last_mut().expect("a node").1 = votes.parse().expect("votes");
        }
        None
    }
}

/// The input in pieces, of which all whole lines are played before the next one is read.
struct Playback {
    head: Head,
    world: Option<World>,
    lines: u64,
    output: File,
    text: Vec<u8>,
}

impl Playback {
    /// Plays the lines of a piece, which ends with one.
    fn play(&mut self, piece: &[u8]) {
        let end = piece.as_ptr_range().end;
        let mut reader = unsafe { Reader::at(piece.as_ptr()) };
        while reader.place() < end && self.world.is_none() {
            let rest = unsafe {
                std::slice::from_raw_parts(reader.place(), end.offset_from(reader.place()) as usize)
            };
            let line = rest
                .split_inclusive(|byte| *byte == b'\n')
                .next()
                .expect("a line");
            self.world = self
                .head
                .take(std::str::from_utf8(line).expect("a text").trim());
            self.lines += 1;
            reader.pass(line.len());
        }
        let Some(world) = &mut self.world else {
            return;
        };
        let begin = self.text.as_mut_ptr();
        let mut writer = unsafe { Writer::at(begin) };
        while reader.place() < end {
            self.lines += 1;
            if let Err(fault) = world.play(&mut reader, &mut writer) {
                fails(self.lines, fault);
            }
            let length = unsafe { writer.place().offset_from(begin) } as usize;
            if length > PIECE || reader.place() == end {
                self.output
                    .write_all(&self.text[..length])
                    .expect("an output");
                writer = unsafe { Writer::at(begin) };
            }
        }
    }
}

fn main() {
    let mut input = file(std::io::stdin());
    let mut playback = Playback {
        head: Head::default(),
        world: None,
        lines: 0,
        output: file(std::io::stdout()),
        text: vec![0; PIECE + LONGEST_LINE],
    };
    let mut buffer = vec![0; PIECE + LONGEST_LINE];
    let mut length = 0;
    loop {
        let count = input.read(&mut buffer[length..PIECE]).expect("an input");
        if count == 0 {
            break;
        }
        length += count;
        if let Some(last) = buffer[..length].iter().rposition(|byte| *byte == b'\n') {
            playback.play(&buffer[..last + 1]);
            buffer.copy_within(last + 1..length, 0);
            length -= last + 1;
        }
    }
    if length != 0 {
        fails(playback.lines + 1, Fault::Line);
    }
    let world = playback.world.expect("a head");
    writeln!(playback.output, "end {}", world.events()).expect("an output");
}
