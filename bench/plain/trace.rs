//! The lines of a trace.

use crate::model::{DiskOp, Out, Packet, Rank, Settings, Why};
use crate::world::Report;

/// The digits of 0 to 99, two each.
const PAIRS: [u8; 200] = {
    let mut pairs = [b'0'; 200];
    let mut number = 0;
    while number < 100 {
        pairs[2 * number] += (number / 10) as u8;
        pairs[2 * number + 1] += (number % 10) as u8;
        number += 1;
    }
    pairs
};

/// More than the length of most lines.
const ROOM: usize = 1024;

/// A line under way.
struct Line<'a> {
    text: &'a mut Vec<u8>,
    settings: &'a Settings,
}

/// Adds the line of an event, of that number from 1.
pub fn add_line(text: &mut Vec<u8>, settings: &Settings, number: u64, report: &Report) {
    text.reserve(ROOM);
    let mut line = Line { text, settings };
    line.number(number);
    line.word(" ");
    line.number(report.time);
    match report.touched {
        None => {
            line.word(" - - holders=");
            line.holders(report);
        }
        Some(rank) => line.touched(rank, report),
    }
    line.word("\n");
}

impl Line<'_> {
    fn word(&mut self, word: &str) {
        self.text.extend_from_slice(word.as_bytes());
    }

    /// Decimal digits, two at a time.
    fn number(&mut self, mut number: u64) {
        if number < 10 {
            self.text.push(b'0' + number as u8);
            return;
        }
        let mut digits = [0; 20];
        let mut first = digits.len();
        while number >= 100 {
            let pair = (number % 100) as usize;
            number /= 100;
            first -= 2;
            digits[first..first + 2].copy_from_slice(&PAIRS[2 * pair..2 * pair + 2]);
        }
        if number >= 10 {
            first -= 2;
            digits[first..first + 2]
                .copy_from_slice(&PAIRS[2 * number as usize..2 * number as usize + 2]);
        } else {
            first -= 1;
            digits[first] = b'0' + number as u8;
        }
        self.text.extend_from_slice(&digits[first..]);
    }

    fn id(&mut self, rank: Rank) {
        self.number(u64::from(self.settings.id(rank)));
    }

    /// A word, and the id of a node.
    fn named(&mut self, word: &str, rank: Rank) {
        self.word(word);
        self.id(rank);
    }

    fn numbered(&mut self, word: &str, number: u64) {
        self.word(word);
        self.number(number);
    }

    fn touched(&mut self, rank: Rank, report: &Report) {
        self.named(" ", rank);
        self.word(if report.outs.is_empty() { " -" } else { " " });
        for (place, out) in report.outs.iter().enumerate() {
            self.word(if place == 0 { "" } else { "," });
            self.out(*out);
        }
        self.word(" holders=");
        self.holders(report);
        self.word(if report.count.quorate {
            " quorate=yes "
        } else {
            " quorate=no "
        });
        self.number(report.count.votes);
        self.numbered("/", report.count.quorum);
        self.word(" why=");
        self.why(report);
    }

    fn holders(&mut self, report: &Report) {
        if report.holders.least().is_none() {
            self.word("-");
        }
        for (place, rank) in report.holders.ranks().enumerate() {
            self.named(if place == 0 { "" } else { "+" }, rank);
        }
    }

    fn out(&mut self, out: Out) {
        match out {
            Out::Stop => self.word("stop"),
            Out::Start => self.word("start"),
            Out::Feed => self.word("feed"),
            Out::Send(to, Packet::Ask(_)) => self.named("ask>", to),
            Out::Send(to, Packet::Tell(_)) => self.named("tell>", to),
            Out::Disk(op) => self.disk(op),
            Out::Disarm => self.word("disarm"),
            Out::HaltReset => self.word("halt:reset"),
            Out::HaltBoot(cause) => self.numbered("halt:boot-", cause as u64),
        }
    }

    fn disk(&mut self, op: DiskOp) {
        match op {
            DiskOp::ReadHeader => self.word("read-header"),
            DiskOp::ReadSlot(rank) => self.named("read-slot:", rank),
            DiskOp::WriteClaim(incarnation) => self.numbered("claim:", incarnation),
            DiskOp::WriteClear => self.word("clear"),
            DiskOp::ReadMail => self.word("read-mail"),
            DiskOp::WriteReset(rank) => self.named("reset:", rank),
            DiskOp::WriteClose(incarnation) => self.numbered("close:", incarnation),
        }
    }

    fn why(&mut self, report: &Report) {
        match report.why {
            Why::Down => self.word("down"),
            Why::Holding => self.word("holding"),
            Why::NoView => self.word("no-view"),
            Why::NotQuorate => {
                self.numbered("not-quorate:", report.count.votes);
                self.numbered("/", report.count.quorum);
            }
            Why::NotChosen(Some(rank)) => self.named("not-chosen:", rank),
            Why::NotChosen(None) => self.word("not-chosen:0"),
            Why::HeldBy(rank) => self.named("held-by:", rank),
            Why::Unheard(rank) => self.named("unheard:", rank),
            Why::Unfenced(rank, None) => {
                self.named("unfenced:", rank);
                self.word(":unwritten");
            }
            Why::Unfenced(rank, Some(left)) => {
                self.named("unfenced:", rank);
                self.numbered(":", left);
            }
            Why::Clear => self.word("clear"),
        }
    }
}
