//! Reads a schedule line by line, and plays its events.

use crate::model::{Configured, Event, Members, NodeEvent, Rank, Settings, Timing, View};
use crate::trace;
use crate::world::{Report, World};
use std::mem;

/// The part of a schedule that is read.
enum Part {
    Settings,
    Timing,
    Events(World),
}

pub struct Schedule {
    part: Part,
    nodes: Vec<Configured>,
    /// How many lines were read, and how many of them were events.
    lines: u64,
    events: u64,
    report: Report,
}

impl Schedule {
    pub fn new() -> Schedule {
        Schedule {
            part: Part::Settings,
            nodes: Vec::new(),
            lines: 0,
            events: 0,
            report: Report::new(),
        }
    }

    /// Takes a line without its end, and adds the trace line of an event.
    pub fn play(&mut self, line: &[u8], text: &mut Vec<u8>) -> Result<(), String> {
        self.lines += 1;
        match &mut self.part {
            Part::Settings if line == b"----" => self.part = Part::Timing,
            Part::Settings => self.settings(line)?,
            Part::Timing => self.timing(line)?,
            Part::Events(world) => {
                let event = event_of(world.settings(), line)
                    .ok_or_else(|| format!("line {} is no event", self.lines))?;
                let refused = |rule| format!("rule {rule} refuses line {}", self.lines);
                world.apply(&event, &mut self.report).map_err(refused)?;
                self.events += 1;
                trace::add_line(text, world.settings(), self.events, &self.report);
            }
        }
        Ok(())
    }

    /// How many events were played, once the head is whole.
    pub fn events(&self) -> Result<u64, String> {
        match self.part {
            Part::Events(_) => Ok(self.events),
            Part::Settings | Part::Timing => Err("the head is not whole".to_string()),
        }
    }

    /// A line of a nodelist: where a section begins or ends, an id, or the votes of the node whose id came last.
    fn settings(&mut self, line: &[u8]) -> Result<(), String> {
        let line = line.trim_ascii();
        if matches!(line, b"" | b"nodelist {" | b"node {" | b"}") {
            return Ok(());
        }
        let unknown = || format!("line {} is no line of a nodelist", self.lines);
        if let Some(word) = line.strip_prefix(b"nodeid: ") {
            let id = number(word, 1, u64::from(u32::MAX)).ok_or_else(unknown)?;
            self.nodes.push(Configured {
                id: id as u32,
                votes: 1,
            });
            return Ok(());
        }
        let word = line.strip_prefix(b"quorum_votes: ").ok_or_else(unknown)?;
        let votes = number(word, 0, 65535).ok_or_else(unknown)?;
        self.nodes.last_mut().ok_or_else(unknown)?.votes = votes as u32;
        Ok(())
    }

    fn timing(&mut self, line: &[u8]) -> Result<(), String> {
        let timing = timing_of(line)
            .filter(Timing::is_safe)
            .ok_or("the times are not safe")?;
        let mut nodes = mem::take(&mut self.nodes);
        nodes.sort_by_key(|node| node.id);
        if !(1..=32).contains(&nodes.len()) || !nodes.is_sorted_by(|a, b| a.id < b.id) {
            return Err("there must be 1 to 32 nodes with different ids".to_string());
        }
        self.part = Part::Events(World::new(Settings { nodes }, timing));
        Ok(())
    }
}

/// A number without leading zeros, in a range.
fn number(word: &[u8], low: u64, high: u64) -> Option<u64> {
    let (first, rest) = word.split_first()?;
    let mut value = u64::from(first.wrapping_sub(b'0'));
    if value > 9 || value == 0 && !rest.is_empty() || rest.len() > 19 {
        return None;
    }
    for byte in rest {
        let digit = u64::from(byte.wrapping_sub(b'0'));
        if digit > 9 {
            return None;
        }
        value = if rest.len() < 18 {
            value * 10 + digit
        } else {
            value.checked_mul(10)?.checked_add(digit)?
        };
    }
    (low <= value && value <= high).then_some(value)
}

fn timing_of(line: &[u8]) -> Option<Timing> {
    let mut words = line.strip_prefix(b"timing ")?.split(|byte| *byte == b' ');
    let mut time = || number(words.next()?, 1, 3_600_000);
    let timing = Timing {
        watchdog: time()?,
        msgwait: time()?,
        loop_ms: time()?,
        read_limit: time()?,
        feed_delay: time()?,
    };
    words.next().is_none().then_some(timing)
}

/// The event of a line; None where it is none.
fn event_of(settings: &Settings, line: &[u8]) -> Option<Event> {
    let mut words = line.split(|byte| *byte == b' ');
    let name = words.next()?;
    if name == b"pass" {
        let dt = number(words.next()?, 1, 1_000_000_000)?;
        return Some(Event::Pass(dt, clocks_of(settings, words)?));
    }
    let rank = settings.rank(number(words.next()?, 1, u64::from(u32::MAX))?)?;
    let event = match name {
        b"boot" => NodeEvent::Boot(number(words.next()?, 0, 1_000_000_000_000_000)?),
        b"crash" => NodeEvent::Crash,
        b"land" => NodeEvent::Land,
        b"done" => NodeEvent::Done,
        b"fail" => NodeEvent::Fail,
        b"late" => NodeEvent::Late(number(words.next()?, 1, 200_000)? as usize),
        b"view" => NodeEvent::View(view_of(settings, words.next()?, words.next()?)?),
        b"deliver" => NodeEvent::Deliver(number(words.next()?, 0, u64::MAX)?),
        b"device" if matches!(words.next()?, b"yes" | b"no") => NodeEvent::Device,
        b"tick" => NodeEvent::Tick,
        b"stopped" => NodeEvent::Stopped(true),
        b"unstopped" => NodeEvent::Stopped(false),
        b"leave" => NodeEvent::Leave,
        b"feed" => NodeEvent::Feed,
        _ => return None,
    };
    words.next().is_none().then_some(Event::Of(rank, event))
}

/// The clocks of a pass, ascending.
fn clocks_of<'a>(
    settings: &Settings,
    words: impl Iterator<Item = &'a [u8]>,
) -> Option<Vec<(Rank, u64)>> {
    let mut clocks: Vec<(Rank, u64)> = Vec::new();
    for word in words {
        let place = word.iter().position(|byte| *byte == b'=')?;
        let rank = settings.rank(number(&word[..place], 1, u64::from(u32::MAX))?)?;
        if clocks.last().is_some_and(|last| last.0 .0 >= rank.0) {
            return None;
        }
        clocks.push((rank, number(&word[place + 1..], 0, 1_000_000_000_000)?));
    }
    Some(clocks)
}

/// A view, whose members ascend.
fn view_of(settings: &Settings, id: &[u8], list: &[u8]) -> Option<View> {
    let id = number(id, 0, u64::MAX)?;
    let mut members = Members::default();
    for word in list.split(|byte| *byte == b',') {
        let rank = settings.rank(number(word, 1, u64::from(u32::MAX))?)?;
        if members.0 >> rank.0 != 0 {
            return None;
        }
        members = members.with(rank);
    }
    Some(View { id, members })
}
