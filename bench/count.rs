// The yardstick of bench/count: what a plain Rust program does for the same lines, with the same checks of words, numbers, ids and order. It reads
// pieces of 4096 bytes, takes each line where it stands in them, and writes what is due before it reads on.
use std::io::{self, Read, Write};

const PIECE: usize = 4096;
const LINE: usize = 4096;
const LINES: u64 = 200_000;

struct Counter {
    ids: Vec<u64>,
    votes: Vec<u64>,
    expected: u64,
    views: u64,
}

fn number(word: &[u8], low: u64, high: u64) -> Option<u64> {
    if word.is_empty() || word.len() > 20 || (word.len() > 1 && word[0] == b'0') {
        return None;
    }
    let mut value = 0u64;
    for byte in word {
        if !byte.is_ascii_digit() {
            return None;
        }
        value = value.checked_mul(10)?.checked_add(u64::from(byte - b'0'))?;
    }
    (low <= value && value <= high).then_some(value)
}

/// Writes a number at the end of the text.
fn add_number(mut value: u64, out: &mut Vec<u8>) {
    let mut digits = [0u8; 20];
    let mut first = digits.len();
    loop {
        first -= 1;
        digits[first] = b'0' + (value % 10) as u8;
        value /= 10;
        if value == 0 {
            break;
        }
    }
    out.extend_from_slice(&digits[first..]);
}

impl Counter {
    fn line(&mut self, line: &[u8], out: &mut Vec<u8>) -> Option<()> {
        let mut words = line.split(|byte| *byte == b' ');
        let (kind, id, rest) = (words.next()?, words.next()?, words.next()?);
        if words.next().is_some() {
            return None;
        }
        match kind {
            b"node" => self.node(id, rest),
            b"view" => self.view(id, rest, out),
            _ => None,
        }
    }

    fn node(&mut self, id: &[u8], votes: &[u8]) -> Option<()> {
        let id = number(id, 1, u64::from(u32::MAX))?;
        let votes = number(votes, 0, 65535)?;
        if self.ids.contains(&id) || self.ids.len() == 32 {
            return None;
        }
        self.ids.push(id);
        self.votes.push(votes);
        self.expected += votes;
        Some(())
    }

    fn view(&mut self, id: &[u8], members: &[u8], out: &mut Vec<u8>) -> Option<()> {
        let id = number(id, 0, u64::MAX)?;
        let mut votes = 0;
        let mut last = 0;
        for member in members.split(|byte| *byte == b',') {
            let member = number(member, 0, u64::MAX)?;
            let place = self.ids.iter().position(|other| *other == member)?;
            if member <= last {
                return None;
            }
            last = member;
            votes += self.votes[place];
        }
        self.views += 1;
        let quorum = self.expected / 2 + 1;
        out.extend_from_slice(b"view ");
        add_number(id, out);
        out.extend_from_slice(b" votes ");
        add_number(votes, out);
        out.extend_from_slice(b" quorum ");
        add_number(quorum, out);
        out.extend_from_slice(if votes >= quorum { b" quorate yes\n" } else { b" quorate no\n" });
        Some(())
    }
}

/// Writes what is due and the line of a fault, and ends.
fn ends_at_fault(line: u64, out: &mut Vec<u8>, sink: &mut impl Write) -> io::Result<()> {
    writeln!(out, "fault BadSchedule line {line}")?;
    sink.write_all(out)?;
    std::process::exit(4);
}

fn main() -> io::Result<()> {
    let mut input = io::stdin().lock();
    let mut sink = std::fs::File::from(std::os::fd::AsFd::as_fd(&io::stdout()).try_clone_to_owned()?);
    let mut counter = Counter { ids: Vec::new(), votes: Vec::new(), expected: 0, views: 0 };
    let mut buffer = vec![0u8; LINE + PIECE];
    let (mut begun, mut lines) = (0, 0u64);
    let mut out = Vec::with_capacity(16 * PIECE);
    loop {
        let count = input.read(&mut buffer[begun..begun + PIECE])?;
        if count == 0 {
            break;
        }
        let mut rest = &buffer[..begun + count];
        while let Some(end) = rest.iter().position(|byte| *byte == b'\n') {
            lines += 1;
            if end > LINE || lines > LINES || counter.line(&rest[..end], &mut out).is_none() {
                return ends_at_fault(lines, &mut out, &mut sink);
            }
            rest = &rest[end + 1..];
        }
        let (from, left) = (begun + count - rest.len(), rest.len());
        if left > LINE {
            return ends_at_fault(lines + 1, &mut out, &mut sink);
        }
        buffer.copy_within(from..from + left, 0);
        begun = left;
        sink.write_all(&out)?;
        out.clear();
    }
    writeln!(out, "end {}", counter.views)?;
    sink.write_all(&out)
}
